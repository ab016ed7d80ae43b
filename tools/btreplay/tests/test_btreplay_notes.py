"""Tests of what is told of a script beside its order: maps that nothing sets, and points without events or ticks; by recordings made by hand."""
import os
import tempfile
import unittest

from stand_in import TOP, format_text, recording, two_kinds

from btreplay.notes import notes_of, period_of
from btreplay.recorded import begins_a_recording, head_of_file, mapped, matcher, without_events
from btreplay.script import probes_of


class Notes(unittest.TestCase):
    def setUp(self):
        folder = tempfile.TemporaryDirectory()
        self.addCleanup(folder.cleanup)
        self.path = os.path.join(folder.name, "r.btr")

    def notes(self, script, content=None, is_ordered=True):
        """The notes on a script over a recording."""
        with open(self.path, "wb") as file:
            file.write(two_kinds() if content is None else content)
        return notes_of(script, probes_of(script), self.path, "s.bt", is_ordered)

    def test_maps_that_nothing_sets(self):
        self.assertEqual(self.notes("BEGIN { @began = 1; $x = @begam; @y = @z; @y = @z; }"),
                         ["s.bt:1:26: no probe sets @begam, so there is nothing in it; did you mean @began?",
                          "s.bt:1:39: no probe sets @z, so there is nothing in it"])
        self.assertEqual(self.notes("END {\n print(@); clear(@b); }"), ["s.bt:2:8: no probe sets @, so there is nothing in it",
                                                                       "s.bt:2:18: no probe sets @b, so there is nothing in it"])
        self.assertEqual(self.notes("BEGIN { @a++; --@b; @c += 1; @d = count(); @e[1] = 2; } END { print(@a); $x = @b + @c + @e[1]; clear(@d); }"), [])
        self.assertEqual(self.notes("BEGIN { printf(\"@a\"); } // @b"), [])

    def test_points_without_events(self):
        self.assertEqual(self.notes("t:a:idle { }"), ["s.bt:1:1: the recording has no event of t:a:idle"])
        self.assertEqual(self.notes("t:a:seen,\n  tracepoint:a:idle { } t:a:i* { } t:*:*d* { } t:a:* { } t:a:seen* { }"),
                         ["s.bt:2:3: the recording has no event of tracepoint:a:idle", "s.bt:2:25: the recording has no event of t:a:i*",
                          "s.bt:2:36: the recording has no event of t:*:*d*"])
        # A name that the recording does not have is the program's to refuse.
        self.assertEqual(self.notes("t:a:none { } t:a:none* { }"), [])

    def test_events_at_the_end_of_the_last_cpu_are_found(self):
        formats = [("a", format_text("seen", 7)), ("a", format_text("idle", 8))]
        self.assertEqual(self.notes("t:a:idle { }", recording(formats, [[(n, 7) for n in range(100)], [], [(5, 7), (6, 8)]])), [])

    def test_recordings_with_marks(self):
        formats = [("a", format_text("seen", 7)), ("a", format_text("idle", 8))]
        for cpus, told in [([[(1, 7), (2, 0)], [(3, 0), (5, 7)]], True), ([[(2, 0)], [(5, 7), (6, 0), (6, 8)]], False), ([[(2, 0)], []], True)]:
            content = recording(formats, cpus, is_marked=True)
            self.assertEqual(self.notes("t:a:idle { }", content), ["s.bt:1:1: the recording has no event of t:a:idle"] if told else [])
            self.assertTrue(begins_a_recording(self.path))
        for damaged in (content[:-1], content + b"x", content.replace(b"\x01\x02\0\0\0", b"\x02\x02\0\0\0")):
            self.assertEqual(self.notes("t:a:idle { }", damaged), [])

    def test_losses_are_told_in_the_order_of_cpus(self):
        formats = [("a", format_text("seen", 7))]
        for cpus, is_marked, told in [(2, True, True), (1, True, False), (2, False, False)]:
            content = recording(formats, [[(5, 7)]] * cpus, is_marked=is_marked)
            note = ("the answer is the same in every order of CPUs; the lines of lost events alone come as each CPU gets to them, "
                    "with run --serial by their times")
            self.assertEqual(self.notes("t:a:seen { @ = count(); }", content, is_ordered=False), [note] if told else [])
            self.assertEqual(self.notes("t:a:seen { @ = count(); }", content), [])

    def test_damaged_recordings_tell_nothing(self):
        whole = two_kinds()
        for content in (whole[:-1], whole + b"x", b"", b"BTRACE01", whole[:100]):
            self.assertEqual(self.notes("t:a:idle { }", content), [])
        script = "t:a:idle { }"
        self.assertEqual(notes_of(script, probes_of(script), "/dev/null", "s.bt", True), [])
        self.assertEqual(notes_of(script, probes_of(script), os.path.dirname(self.path), "s.bt", True), [])
        self.assertEqual(notes_of(script, probes_of(script), "/nowhere/at all", "s.bt", True), [])

    def test_ticks_behind_the_end(self):
        """The recording spans a second, so the tick at its end is one, and none comes after it."""
        self.assertEqual(self.notes("interval:s:1 { } i:ms:1000 { } i:hz:1 { }"), [])
        self.assertEqual(self.notes("interval:s:2 { } i:ms:1001 { }"), ["s.bt:1:1: interval:s:2 has no tick: the recording spans 1.000000 s",
                                                                       "s.bt:1:18: i:ms:1001 has no tick: the recording spans 1.000000 s"])
        self.assertEqual([period_of(point) for point in ("i:us:1_0", "i:hz:4", "i:s:0", "i:1s", "i:m:1", "i:s:x")],
                         [10_000, 250_000_000, None, None, None, None])

    def test_the_search_is_bounded_in_time(self):
        content = recording([("a", format_text("seen", 7)), ("a", format_text("idle", 8))], [[(5, 7)] * 3])
        with open(self.path, "wb") as file:
            file.write(content)
        with mapped(self.path) as data:
            head = head_of_file(self.path)
            self.assertEqual(without_events(data, head, {"one": {8}}, float("inf")), {"one"})
            self.assertEqual(without_events(data, head, {"one": {8}}, 0), set())
            self.assertEqual(without_events(data, head, {"one": {8, 7}, "other": {8}}, float("inf")), {"other"})

    def test_examples(self):
        """No example has a map that nothing sets, or a point without events, as each was written for the recording beside it."""
        for path in sorted((TOP / "examples").glob("*.bt")):
            with self.subTest(path.stem):
                text = path.read_text()
                self.assertEqual(notes_of(text, probes_of(text), str(TOP / "examples" / "small.btr"), path.name, True), [])

    def test_what_begins_a_recording(self):
        self.notes("")
        self.assertTrue(begins_a_recording(self.path))
        for path in ("/dev/null", "/", "/nowhere", __file__):
            self.assertFalse(begins_a_recording(path))

    def test_patterns(self):
        self.notes("")
        fits = {point: [format.name for format in head_of_file(self.path).formats if matcher(point)(format)]
                for point in ("t:a:seen", "t:*:*", "t:a*:*e*n", "t:a:", "t:a", "t:*", "t:a:seen:x")}
        self.assertEqual(fits, {"t:a:seen": ["a:seen"], "t:*:*": ["a:seen", "a:idle"], "t:a*:*e*n": ["a:seen"], "t:a:": [], "t:a": [], "t:*": [],
                                "t:a:seen:x": []})


if __name__ == "__main__":
    unittest.main()
