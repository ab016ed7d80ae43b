"""Tests of what is told of texts that no event has, and of fields that are addresses, over a recording made by hand of three events."""
import os
import tempfile
import unittest

from test_btreplay_hints import made

from btreplay.notes import notes_of
from btreplay.script import probes_of
from btreplay.unseen import bytes_of


class Unseen(unittest.TestCase):
    def setUp(self):
        folder = tempfile.TemporaryDirectory()
        self.addCleanup(folder.cleanup)
        self.path = os.path.join(folder.name, "r.btr")

    def notes(self, script, content=None):
        """The notes on a script over the recording, whose threads are dd, ddrescue and bash, with the texts aa and bb."""
        with open(self.path, "wb") as file:
            file.write(made() if content is None else content)
        return notes_of(script, probes_of(script), self.path, "s.bt", True)

    def test_names_of_threads(self):
        told = {"bas": '; there begin by it: "bash"', "d": '; there begin by it: "dd", "ddrescue"', "bahs": '; did you mean "bash"?', "zzzz": ""}
        for name, behind in told.items():
            self.assertEqual(self.notes(f't:d:e /comm == "{name}"/ {{ @ = count(); }}'), [f's.bt:1:16: no event of this probe has the comm "{name}"{behind}'])
        self.assertEqual(self.notes('t:d:e /comm == "dd" || "ddrescue" == comm || comm != "bash"/ { @ = count(); }'), [])
        self.assertEqual(self.notes('t:d:* { if ("zz" != comm) { @ = count(); } }'), ['s.bt:1:13: no event of this probe has the comm "zz"'])

    def test_fields(self):
        self.assertEqual(self.notes('t:d:e /args.text == "ab"/ { @ = count(); }'), ['s.bt:1:21: no event of this probe has the args.text "ab"'])
        self.assertEqual(self.notes('t:d:e /args->text == "aa" || "bb" == args.text/ { @ = count(); }'), [])
        # What is no field of the event, or no string, is the program's to refuse; a printed string and a map's are no comparison of an event's.
        self.assertEqual(self.notes('t:d:e /args.nope == "ab"/ { @ = count(); } t:d:e { printf("ab"); @x[tid] = comm; if (@x[tid] == "ab") { @ = count(); } }'), [])
        self.assertEqual(self.notes('BEGIN { if (comm == "ab") { @ = 1; } }'), [])

    def test_addresses(self):
        note = "s.bt:1:13: args.at is an address here (const char * at), and the text there was not recorded"
        self.assertEqual(self.notes("t:d:e { @ = args.at; @b[args.at] = count(); @c = args.n; @d = args.text; }"), [note])

    def test_damaged_recordings_tell_nothing(self):
        for content in (made()[:-5], made()[:150]):
            self.assertEqual(self.notes('t:d:e /comm == "zz"/ { @ = count(); }', content), [])

    def test_escapes(self):
        self.assertEqual(bytes_of('"a\\"b\\\\\\n"'), b'a"b\\\n')


if __name__ == "__main__":
    unittest.main()
