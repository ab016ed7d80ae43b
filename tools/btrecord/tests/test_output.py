"""Tests of where a recording goes, and of its bytes."""
import os
import pathlib
import random
import stat
import struct
import tempfile
import tty
import unittest
import unittest.mock

from made import CLOCK, DEMO, OTHER_TEXT, TEXT, TOP, entries, lost, payload

import container
from assembly import PIECES_AT_ONCE, Assembly
from container import Lost, format_of, test_formats as refuse_formats
from faults import WRITE, Refused
from output import Output
from reading import read_recording


def put(path, contents):
    """Writes bytes to an output."""
    with Output(str(path)) as output, output.writing() as file:
        file.write(contents)


class Outputs(unittest.TestCase):
    def setUp(self):
        folder = tempfile.TemporaryDirectory()
        self.addCleanup(folder.cleanup)
        self.folder = pathlib.Path(folder.name)

    def test_a_file_is_replaced_whole_and_keeps_its_mode(self):
        path = self.folder / "r.btr"
        path.write_bytes(b"old")
        path.chmod(0o640)
        put(path, b"new")
        self.assertEqual((path.read_bytes(), stat.S_IMODE(path.stat().st_mode)), (b"new", 0o640))
        with self.assertRaises(ZeroDivisionError):
            with Output(str(path)) as output, output.writing() as file:
                file.write(b"half")
                1 // 0
        self.assertEqual(path.read_bytes(), b"new")
        self.assertEqual(os.listdir(self.folder), ["r.btr"])

    def test_a_new_file(self):
        put(self.folder / "new.btr", b"bytes")
        self.assertEqual((self.folder / "new.btr").read_bytes(), b"bytes")

    def test_of_a_link_its_target_is_replaced(self):
        (self.folder / "inside").mkdir()
        (self.folder / "inside" / "r.btr").write_bytes(b"old")
        (self.folder / "link").symlink_to("inside/r.btr")
        (self.folder / "open").symlink_to("inside/new.btr")
        for name, target in [("link", "r.btr"), ("open", "new.btr")]:
            put(self.folder / name, b"new")
            self.assertTrue((self.folder / name).is_symlink())
            self.assertEqual((self.folder / "inside" / target).read_bytes(), b"new")
        self.assertEqual(sorted(os.listdir(self.folder / "inside")), ["new.btr", "r.btr"])

    def test_a_pipe_is_written_into(self):
        path = self.folder / "pipe"
        os.mkfifo(path)
        reader = os.open(path, os.O_RDONLY | os.O_NONBLOCK)
        self.addCleanup(os.close, reader)
        put(path, b"bytes")
        self.assertEqual(os.read(reader, 99), b"bytes")
        self.assertTrue(stat.S_ISFIFO(os.lstat(path).st_mode))

    def test_a_device_is_written_into(self):
        main, device = os.openpty()
        for handle in (main, device):
            self.addCleanup(os.close, handle)
        tty.setraw(device)
        (self.folder / "link").symlink_to(os.ttyname(device))
        for name in (os.ttyname(device), self.folder / "link"):
            put(name, b"bytes")
            self.assertEqual(os.read(main, 99), b"bytes")
        self.assertTrue(stat.S_ISCHR(os.stat(os.ttyname(device)).st_mode))
        self.assertTrue((self.folder / "link").is_symlink())

    def test_standard_output_is_written_into(self):
        reader, writer = os.pipe()
        with os.fdopen(reader, "rb") as file, open(writer, "w") as stdout:
            with unittest.mock.patch("sys.stdout", stdout):
                put("-", b"bytes")
            stdout.close()
            self.assertEqual(file.read(), b"bytes")

    def test_what_can_not_be_written_is_told_before(self):
        (self.folder / "file").write_bytes(b"kept")
        (self.folder / "loop").symlink_to("loop")
        for name in ["no/r.btr", "", ".", "file/r.btr", "loop", "no/"]:
            with self.assertRaises(Refused, msg=name) as refused:
                Output(str(self.folder / name) if name not in ("", "no/") else name)
            self.assertEqual(refused.exception.status, WRITE)
        self.assertEqual(sorted(os.listdir(self.folder)), ["file", "loop"])

    def test_a_pipe_that_nobody_reads(self):
        reader, writer = os.pipe()
        os.close(reader)
        self.addCleanup(os.close, writer)
        with self.assertRaises(Refused) as refused:
            put(f"/dev/fd/{writer}", b"x" * 100_000)
        self.assertEqual(refused.exception.status, WRITE)


class Assemblies(unittest.TestCase):
    def setUp(self):
        folder = tempfile.TemporaryDirectory()
        self.addCleanup(folder.cleanup)
        self.folder = folder.name

    def assembly(self, events, cpus=(0, 1), window=False, with_marks=True):
        """An assembly of DEMO with these events: pairs of CPU and time, or of CPU and mark; in a window each CPU has a list."""
        made = Assembly([DEMO], cpus, self.folder, with_marks)
        if window:
            made.take_window([(cpu, [getattr(entry, "time", entry) for entry in of], [CLOCK] * len(of),
                               [entry if isinstance(entry, Lost) else payload() for entry in of]) for cpu, of in events])
            return made
        for cpu, entry in events:
            if isinstance(entry, Lost):
                made.lose(cpu, *entry)
            else:
                made.take(cpu, entry, CLOCK, payload())
        return made

    def entries(self, contents):
        """The entries of each CPU, an event as its time, and the span."""
        found = read_recording(contents)
        return entries(contents), (found.start, found.end)

    def written(self, made, start, end):
        """The bytes of an assembly's recording."""
        with open(f"{self.folder}/r.btr", "wb") as file:
            made.write(file, *made.span(start, end))
        return pathlib.Path(self.folder, "r.btr").read_bytes()

    def times(self, contents):
        """The times of the events of each CPU, and the span."""
        times = {}
        found = read_recording(contents, lambda cpu, time, *_: times.setdefault(cpu, []).append(time))
        return times, (found.start, found.end)

    def test_the_documented_example(self):
        """The bytes are those that docs/RECORDINGS.md shows."""
        code = pathlib.Path(TOP, "docs", "RECORDINGS.md").read_text().split("```python\n")[1].split("```")[0]
        there = {}
        exec(code, there)
        self.assertEqual(len(there["example"]), 175)
        for window in (False, True):
            made = self.assembly([(2, [1000])] if window else [(2, 1000)], [2], window)
            self.assertEqual(self.written(made, 500, 2000), there["example"])
            self.assertEqual(made.left_out, {})

    def test_the_span_holds_all_events(self):
        self.assertEqual(self.assembly([(0, 5), (1, 8)]).span(6, 6), (5, 8))
        self.assertEqual(self.assembly([]).span(6, 7), (6, 7))

    def test_there_is_always_a_cpu(self):
        self.assertEqual(self.times(self.written(self.assembly([], []), 1, 2)), ({}, (1, 2)))

    def test_what_belongs_to_no_format_is_left_out(self):
        bad = [payload(number=301), payload()[:8], b"\x2c", b"", payload(number=301) + bytes(5000)]
        made = self.assembly([(0, 1)])
        for record in bad:
            made.take(0, 2, CLOCK, record)
        made.take_window([(0, [3] * 6, [CLOCK] * 6, bad + [payload()])])
        self.assertEqual(made.left_out, {"of no format that is there": 8, "shorter than their format": 2})
        # What was left out between two events is one mark, at the time of the last that was.
        self.assertEqual(self.entries(self.written(made, 0, 9)), ({0: [1, lost(3, 10), 3], 1: []}, (0, 9)))
        made = self.assembly([(0, 1)])
        for time in (2, 4):
            made.take(1, time, CLOCK, bad[0])
        made.take(0, 5, CLOCK, bad[0])
        made.lose(0, 6, 3)
        made.take(0, 7, CLOCK, bad[0])
        self.assertEqual(self.entries(self.written(made, 0, 9)), ({0: [1, lost(5, 1), lost(6, 3), lost(7, 1)], 1: [lost(4, 2)]}, (0, 9)))

    def test_cpus_past_the_64th_are_left_out(self):
        made = self.assembly([(cpu, 1) for cpu in range(66)], range(66))
        made.take_window([(cpu, [2], [CLOCK], [payload()]) for cpu in (63, 64)])
        made.lose(64, 3, 9)
        self.assertEqual((len(made.parts), made.left_out), (64, {"of CPUs past the 64th": 3}))
        self.assertEqual(self.written(made, 0, 9)[:8], b"BTRACE01")

    def test_the_earliest_events_are_kept_at_the_limits(self):
        events, window = [(0, 1), (1, 2), (1, 3), (0, 4), (1, 9)], [(0, [1, 4]), (1, [2, 3, 9])]
        # Five events fit where nothing is lost; else each CPU may need a mark, and what is kept ends where the first event is left out.
        for most, kept, left, end in [(5, {0: [1, 4], 1: [2, 3, 9]}, 0, 99), (4, {0: [1, lost(3, 1)], 1: [2, lost(3, 2)]}, 3, 3),
                                      (3, {0: [1, lost(2, 1)], 1: [lost(2, 3)]}, 4, 2), (2, {0: [lost(1, 2)], 1: [lost(1, 3)]}, 5, 1)]:
            with unittest.mock.patch("container.MOST_ENTRIES", most):
                for made in [self.assembly(events), self.assembly(window, window=True)]:
                    contents = self.written(made, 0, 99)
                    self.assertEqual((self.entries(contents), made.left_out), ((kept, (0, end)), {"past the container's limits": left} if left else {}))
                    self.assertEqual(contents[:8], b"BTRACE02" if left else b"BTRACE01")
        whole = len(self.written(self.assembly([(0, 1), (0, 2)], [0]), 0, 99))
        for size, kept in [(whole, [1, 2]), (whole - 1, [1, lost(2, 1)])]:
            with unittest.mock.patch("container.MOST_BYTES", size):
                for made in [self.assembly([(0, 1), (0, 2)], [0]), self.assembly([(0, [1, 2])], [0], True)]:
                    contents = self.written(made, 0, 99)
                    self.assertEqual(self.entries(contents)[0], {0: kept})
                    self.assertLessEqual(len(contents), size)

    def test_at_the_limits_without_marks(self):
        with unittest.mock.patch("container.MOST_ENTRIES", 3):
            for made in [self.assembly([(0, 1), (1, 2), (1, 3), (0, 4), (1, 9)], with_marks=False),
                         self.assembly([(0, [1, 4]), (1, [2, 3, 9])], window=True, with_marks=False)]:
                made.lose(0, 9, 5)
                self.assertEqual((made.left_out, made.unmarked), ({"past the container's limits": 2}, 1))
                contents = self.written(made, 0, 99)
                self.assertEqual((contents[:8], self.entries(contents)), (b"BTRACE01", ({0: [1], 1: [2, 3]}, (0, 3))))

    def test_the_documented_marks(self):
        """The bytes of docs/RECORDINGS.md: a mark of 5 behind the event, in version 2."""
        code = pathlib.Path(TOP, "docs", "RECORDINGS.md").read_text().split("```python\n")[1].split("```")[0]
        there = {}
        exec(code, there)
        self.assertEqual(len(there["marked"]), 175 + 1 + 17)
        for window in (False, True):
            made = self.assembly([(2, [1000, lost(1500, 5)])] if window else [(2, 1000), (2, lost(1500, 5))], [2], window)
            self.assertEqual(self.written(made, 500, 2000), there["marked"])

    def test_marks_where_they_come(self):
        window = [(0, [1, lost(1, 7), 4, lost(6, 1)]), (1, [lost(0, 2), 2, lost(3, 1), lost(3, 4)])]
        one_by_one = [(1, lost(0, 2)), (0, 1), (0, lost(1, 7)), (1, 2), (1, lost(3, 1)), (1, lost(3, 4)), (0, 4), (0, lost(6, 1))]
        for made in (self.assembly(window, window=True), self.assembly(one_by_one)):
            self.assertEqual((made.events, made.marks, made.left_out), (3, 5, {}))
            contents = self.written(made, 2, 3)
            self.assertEqual((contents[:8], self.entries(contents)), (b"BTRACE02", (dict(window), (0, 6))))
        only = self.assembly([(0, lost(5, (1 << 64) - 1))])
        self.assertEqual(self.entries(self.written(only, 9, 9)), ({0: [lost(5, (1 << 64) - 1)], 1: []}, (5, 9)))

    def test_a_mark_that_comes_late_takes_the_place_of_events(self):
        """Up to the limit a recording without marks has the more events; with the first mark it has to have room for those at the end."""
        events = [(0, time) for time in range(1, 10)]
        for most in range(2, 13):
            with unittest.mock.patch("container.MOST_ENTRIES", most):
                made = self.assembly(events, [0])
                kept = min(most, 9)
                self.assertEqual((made.events, made.is_full), (kept if most >= 9 else most - 1, most < 9), most)
                made.lose(0, 9, 4)
                contents = self.written(made, 0, 9)
                times = self.entries(contents)[0][0]
                count = min(most - 1, 9)
                self.assertEqual(times[:-1], list(range(1, count + 1)), most)
                # Where the mark itself finds room it stands at its time, and else what is left out comes with it.
                self.assertEqual(times[-1], lost(9, 4) if count == 9 else lost(count + 1, 9 - count + 4), most)
        first = len(self.written(self.assembly(events[:1], [0]), 0, 9))
        size = len(payload()) + 44
        for room in range(first + 17 + 1, first + 9 * size):
            with unittest.mock.patch("container.MOST_BYTES", room):
                for window in (False, True):
                    made = self.assembly([(0, [time for _, time in events])] if window else events, [0], window)
                    made.lose(0, 9, 4)
                    contents = self.written(made, 0, 9)
                    self.assertLessEqual(len(contents), room)
                    times = self.entries(contents)[0][0]
                    # One event more, and the mark, would not fit.
                    self.assertTrue(len(times) == 10 or len(contents) + size + 1 > room, room)
                    self.assertEqual(sum(entry.count for entry in times if isinstance(entry, Lost)) + made.events, 13)

    def test_what_comes_when_it_is_full(self):
        with unittest.mock.patch("container.MOST_ENTRIES", 4):
            made = self.assembly([(0, 1), (1, 2), (1, 3), (0, 4), (1, 5)])
            self.assertTrue(made.is_full)
            made.lose(0, 6, 10)
            made.take(1, 7, CLOCK, payload(number=301))
            made.miss(1, 100, 8)
            made.miss(9, 1000, 8)
            self.assertEqual(made.left_out, {"past the container's limits": 3 + 1100, "of no format that is there": 1})
            self.assertEqual(self.entries(self.written(made, 0, 99)), ({0: [1, lost(3, 11)], 1: [2, lost(3, 103)]}, (0, 3)))
        made = self.assembly([(0, 1)])
        made.miss(1, 3, 8)
        self.assertEqual((made.take(0, 9, CLOCK, payload()), self.entries(self.written(made, 0, 5))), (False, ({0: [1, lost(8, 1)], 1: [lost(8, 3)]}, (0, 8))))

    def test_many_marks_and_events(self):
        count = 3 * PIECES_AT_ONCE
        for wanted in ([lost(k, k + 1) for k in range(count)], [k if k % 3 else lost(k, 2) for k in range(count)], [*range(count), lost(count, 1)]):
            made = self.assembly([(0, wanted)], [0], True)
            self.assertEqual(self.entries(self.written(made, 0, count)), ({0: wanted}, (0, count)))

    def drawn_window(self, draw, cpus, now):
        """The entries of some CPUs in a span of 20 nanoseconds, and how many events they are or tell of."""
        window, events = [], 0
        for cpu in range(cpus):
            times = sorted(draw.randint(now, now + 20) for _ in range(draw.randint(0, 8)))
            entries_of_cpu = [draw.choice([payload(), payload() + b"more", payload(number=301), lost(time, draw.randint(1, 9))]) for time in times]
            events += sum(entry.count if isinstance(entry, Lost) else 1 for entry in entries_of_cpu)
            window += [(cpu, times, [CLOCK] * len(times), entries_of_cpu)] if times else []
        return window, events

    def test_each_event_is_there_or_marked(self):
        """Of drawn windows, at drawn limits: the recording is a valid one within them, and its events and what its marks tell are all there were."""
        draw, full = random.Random(7), 0
        for _ in range(400):
            cpus = draw.randint(1, 3)
            entries_most, room = draw.choice([1 << 20, draw.randint(cpus, 40)]), draw.choice([1 << 20, draw.randint(17 * cpus, 2500)])
            most = container.head_bytes([DEMO], cpus) + room
            with unittest.mock.patch("container.MOST_ENTRIES", entries_most), unittest.mock.patch("container.MOST_BYTES", most):
                made, all_events = Assembly([DEMO], range(cpus), self.folder), 0
                for now in range(0, 21 * draw.randint(1, 6), 21):
                    window, events = self.drawn_window(draw, cpus, now)
                    all_events += events
                    made.take_window(window)
                later = draw.choice([0, 6])
                made.lose(0, 1000, 4)
                made.miss(draw.randrange(cpus), later, 1000)
                all_events += 4 + later
                contents = self.written(made, 0, 9)
            found = read_recording(contents)
            count = sum(of for _, of in found.cpus)
            self.assertLessEqual(count, entries_most)
            self.assertLessEqual(len(contents), most)
            self.assertEqual((count - len(found.marks), len(found.marks)), (made.events, made.marks))
            self.assertEqual(made.events + sum(found.marks.counts), all_events)
            full += made.is_full
        self.assertTrue(100 < full < 300, full)

    def test_counts_without_end(self):
        made = self.assembly([(0, lost(1, 1 << 64)), (0, lost(2, (1 << 64) - 1))])
        made.take(0, 3, CLOCK, b"")
        made.parts[0].counts[-1] = (1 << 64) - 1
        made.take(0, 4, CLOCK, b"")
        most = (1 << 64) - 1
        self.assertEqual(self.entries(self.written(made, 0, 9))[0][0], [lost(1, most), lost(2, most), lost(4, most)])

    def test_formats_that_cannot_stand_in_a_recording(self):
        for system, text in [(b"a b", TEXT), (b"", TEXT), (b"d", b"nam: x\n"), (b"d", b"name: x\nID: 1\nformat:\nfield:int n;\n")]:
            with self.assertRaises(Refused):
                format_of(system, text)
        with self.assertRaises(Refused):
            refuse_formats([DEMO, format_of(b"other", TEXT)])
        # 64 CPUs have room for a mark each.
        least = container.head_bytes([DEMO], 64) + 64 * 17
        with unittest.mock.patch("container.MOST_BYTES", least):
            refuse_formats([DEMO])
        with unittest.mock.patch("container.MOST_BYTES", least - 1), self.assertRaisesRegex(Refused, "leave no room for events"):
            refuse_formats([DEMO])
        with unittest.mock.patch("container.MOST_FORMATS", 1), self.assertRaises(Refused):
            refuse_formats([DEMO, format_of(b"demo", OTHER_TEXT)])
        refuse_formats([DEMO, format_of(b"demo", OTHER_TEXT)])
        self.assertEqual((DEMO.name, DEMO.layout.number, DEMO.layout.size), ("demo:tick", 300, 12))
        self.assertEqual(container.EVENT.size, struct.calcsize("<QIIII16sI"))


if __name__ == "__main__":
    unittest.main()
