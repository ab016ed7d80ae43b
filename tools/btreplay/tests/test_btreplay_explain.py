"""Tests of what is said of a refusal. The places of the scripts' faults were counted by hand."""
import os
import re
import tempfile
import unittest

from stand_in import TOP, format_text, recording

from btreplay.explain import explained
from btreplay.hints import at_refusal
from btreplay.meanings import RECORDING, SCRIPT, meaning_of
from btreplay.refusal import Refusal, pointed, refusal_in
from btreplay.tokens import offset_of, place_of, text_of, tokens_of

FIELDS = ("\tfield:unsigned short common_type;\toffset:0;\tsize:2;\tsigned:0;\n\n\tfield:char comm[16];\toffset:8;\tsize:16;\tsigned:0;\n"
          "\tfield:int pid;\toffset:24;\tsize:4;\tsigned:1;\n\tfield:long rest[2];\toffset:32;\tsize:16;\tsigned:1;\n")


def at(script, mark):
    """The offset of a mark in a script."""
    return script.index(mark)


class Explained(unittest.TestCase):
    def setUp(self):
        folder = tempfile.TemporaryDirectory()
        self.addCleanup(folder.cleanup)
        self.path = os.path.join(folder.name, "r.btr")
        with open(self.path, "wb") as file:
            file.write(recording([("sched", format_text("sched_switch", 7, FIELDS)), ("sched", format_text("sched_wakeup", 8)),
                                  ("irq", format_text("irq_handler_entry", 9))], [[]]))

    def lines(self, script, mark, code):
        """What is said of a fault at the place of a mark, behind the script's line and the caret."""
        line, column = place_of(script, at(script, mark))
        found = explained(Refusal("s.bt", code, "some fault", line, column), script, self.path)
        self.assertEqual(found[1].index("^"), 2 + column - 1)
        return found[2:]

    def test_tracepoints(self):
        for script in ("t:sched:sched_swich { }", "tracepoint:shed:sched_switch { }"):
            self.assertRegex(self.lines(script, "t", "A1")[-1], "^Nearest in the recording: tracepoint:sched:sched_switch(,|$)")
        self.assertEqual(self.lines("t:irq:zzz { }", "t:", "A1")[-1], "Of irq the recording has: irq:irq_handler_entry")
        self.assertEqual(self.lines("t:zzz:q* { }", "t:", "A2")[-1], "The recording has tracepoints of: irq, sched")

    def test_fields(self):
        self.assertEqual(self.lines("t:sched:sched_switch { @ = args.pd; }", "pd", "Y1")[-2:],
                         ["Did you mean args.pid?", "sched:sched_switch has: comm (string), pid (number)"])
        self.assertEqual(self.lines("t:sched:sched_switch { @ = args.rest; }", "rest", "Y2")[-1], "sched:sched_switch declares it as: long rest[2]")
        # Of a pattern the event that lacks the field is told.
        self.assertEqual(self.lines("BEGIN { } t:sched:* { @ = args.pid; }", "pid", "Y1")[-1], "sched:sched_wakeup has: no fields of its own")

    def test_recordings(self):
        self.assertEqual(explained(Refusal("r.btr", "C2", "bad magic"), None, self.path), meaning_of("C2", "bad magic"))
        self.assertEqual(len(explained(Refusal("r.btr", "", "recording too long"), None, "/nowhere")), 2)


class Hints(unittest.TestCase):
    def check(self, script, mark, wanted):
        with self.subTest(script):
            self.assertIn(wanted, "".join(at_refusal(script, at(script, mark))))

    def test_words_of_bpftrace(self):
        self.check("t:a:b { @ = str(args.f); }", "str", "str(args.f) is args.f")
        self.check("interval:1s { }", "interval", "write interval:s:1")
        self.check("i:50ms { }", "i:", "write interval:ms:50")
        self.check("BEGIN { @x = 1e6; }", "e6", "write 1_000_000")
        self.check("BEGIN { @x = 12e2; }", "e2", "write 1_200")
        self.check("BEGIN { @x = 1e99; }", "e99", "a number is decimal")
        self.check("BEGIN { @x = 5ms; }", "ms", "no unit")
        self.check("BEGIN { @x[(1, 2)] = 3; }", ", 2", "as @m[a, b]")
        self.check('BEGIN /strncmp(comm, "a", 1) == 0/ { }', "strncmp", 'comm == "dd"')
        self.check("kprobe:vfs_read { }", "kprobe", "a recording holds tracepoints")
        self.check("BEGIN { @x = $1; }", "$1", "no arguments")
        self.check("#include <x>", "#", "preprocessor")
        self.check("BEGIN { printf('a'); }", "'a", "double quotes")
        self.check("BEGIN { @x = (int64)pid; }", "int64", "no casts")
        self.check("BEGIN { for ($kv : @x) { } }", "for", "no loop over a map")
        self.check("t:a:b { @ = hist(pid, 3); }", ", 3", "hist takes the number alone")
        self.check("t:a:b { @ = lhist(pid, 0, 10); }", ");", "lhist(args.f, 0, 1000, 100)")
        self.check("t:a:b { @ = count(pid); }", "pid", "count takes nothing")
        self.check("BEGIN { print(@x[1]); }", "[1", "print takes a whole map")
        self.check("BEGIN { exit(1); }", "1)", "exit takes nothing")
        self.check("t:sched_switch { }", "t:", "tracepoint:SYSTEM:EVENT")
        self.check("BEGIN { if (pid == 1 and tid == 2) { } }", "and", "write &&")

    def test_what_is_missing(self):
        self.check("BEGIN { @x = 1 @y = 2; }", "@y", "a ; stands between")
        self.check("BEGIN { if (pid) @y = 2; }", "@y", "braces")
        self.check("BEGIN { if ((pid)) { } else @y = 2; }", "@y", "braces")
        self.assertEqual(at_refusal("BEGIN { ", 8), ["the script ends too early: look for a brace that is missing"])
        self.assertEqual(at_refusal("", 0), ["the script ends too early: look for a brace that is missing"])

    def test_any_place_of_any_script(self):
        """Nothing that stands in a script makes it fail."""
        for path in sorted((TOP / "examples").glob("*.bt"))[:6]:
            text = path.read_text()
            for place in range(0, len(text), 7):
                at_refusal(text[:place], place)
                at_refusal(text, place)


class Meanings(unittest.TestCase):
    def test_each_code_of_the_page_has_one(self):
        page = (TOP / "docs" / "LANGUAGE.md").read_text()
        codes = set(re.findall(r"^\*\*([XPAYKC]\d+) ", page, re.M))
        self.assertEqual(codes, set(SCRIPT) | set(RECORDING))
        self.assertEqual(len(SCRIPT), 6 + 3 + 5 + 12 + 2)
        self.assertEqual(len(RECORDING), 13)
        self.assertTrue(all(len(meaning_of(code, "")) == 2 and all(meaning_of(code, "")) for code in codes))


class Pointed(unittest.TestCase):
    def test_lines_and_carets(self):
        self.assertEqual(pointed("one\ntwo", 2, 2), ["  two", "   ^"])
        self.assertEqual(pointed("one\n", 1, 4), ["  one", "     ^"])
        self.assertEqual(pointed(text_of("\u00e4\u00e4x".encode()), 1, 5), ["  \u00e4\u00e4x", "    ^"])
        self.assertEqual(pointed("\tx\x1b[1m\x07", 1, 2), ["   x?[1m?", "   ^"])
        self.assertEqual(pointed("a", 9, 9), ["  a", "   ^"])

    def test_long_lines(self):
        text = "a" * 300 + "X" + "b" * 300
        line, caret = pointed(text, 1, 301)
        self.assertLessEqual(len(line), 122)
        self.assertEqual(line[caret.index("^")], "X")
        line, caret = pointed(text, 1, 1)
        self.assertEqual((len(line), caret), (122, "  ^"))

    def test_refusals(self):
        self.assertEqual(refusal_in(b"a:b.bt:1:27: Y10 args outside a tracepoint\n", ["a:b.bt", "r"]), Refusal("a:b.bt", "Y10", "args outside a tracepoint", 1, 27))
        self.assertEqual(refusal_in(b"r: C3 bad count: cpus\n", ["s", "r"]), Refusal("r", "C3", "bad count: cpus"))
        self.assertEqual(refusal_in(b"s: script too long\n", ["s", "r"]), Refusal("s", "", "script too long"))
        self.assertIsNone(refusal_in(b"write fault\n", ["s", "r"]))
        self.assertIsNone(refusal_in(b"", ["s", "r"]))


class Tokens(unittest.TestCase):
    def test_kinds(self):
        text = '#!/usr/bin/x @no\nt:a-b:c* /@x[tid]!=0x1f/ { $y="\\"@no"; } // @no\n/* @no */ tt: @'
        self.assertEqual([(token.kind, token.text) for token in tokens_of(text)],
                         [("point", "t:a-b:c*"), ("mark", "/"), ("map", "@x"), ("mark", "["), ("word", "tid"), ("mark", "]"), ("mark", "!="),
                          ("number", "0x1f"), ("mark", "/"), ("mark", "{"), ("variable", "$y"), ("mark", "="), ("string", '"\\"@no"'), ("mark", ";"),
                          ("mark", "}"), ("word", "tt"), ("mark", ":"), ("map", "@")])
        self.assertEqual([token.text for token in tokens_of("a<<=b>>c--d->e&&!f")], ["a", "<<=", "b", ">>", "c", "--", "d", "->", "e", "&&", "!", "f"])

    def test_places(self):
        text = "ab\n\ncd"
        for offset, place in [(0, (1, 1)), (2, (1, 3)), (3, (2, 1)), (4, (3, 1)), (5, (3, 2)), (6, (3, 3))]:
            self.assertEqual(place_of(text, offset), place)
            self.assertEqual(offset_of(text, *place), offset)


if __name__ == "__main__":
    unittest.main()
