"""Tests that the outputs of examples are those that are worked out here, and that what works them out is right on events made by hand."""
import pathlib
import re
import sys
import unittest

TOP = pathlib.Path(__file__).resolve().parent.parent.parent.parent
sys.path.insert(0, str(TOP / "tools"))

from reckoning import questions
from reckoning.events import Event, read_recording
from reckoning.layout import histograms_text, map_text

EXAMPLES = TOP / "examples"


def event(name, time, fields, cpu=0, pid=1, comm="c"):
    """An event of thread 1, made by hand."""
    return Event(name, cpu, time, pid, 1, comm, fields)


def switch(time, cpu, old, state, new):
    """A switch from one thread to another; threads are named by their numbers."""
    return event("sched:sched_switch", time, {"prev_comm": f"t{old}", "prev_pid": old, "prev_state": state, "next_comm": f"t{new}",
                                              "next_pid": new}, cpu)


def writer():
    """The function `recording` of docs/RECORDINGS.md, and the example there."""
    names = {}
    exec(re.search(r"```python\n(.*?)```", (TOP / "docs" / "RECORDINGS.md").read_text(), re.S).group(1), names)
    return names["recording"], names["example"]


class Outputs(unittest.TestCase):
    def test_all(self):
        start, events = read_recording((EXAMPLES / "small.btr").read_bytes())
        self.assertEqual((start, len(events)), (895065171000, 2000))
        for name, question in questions.QUESTIONS.items():
            with self.subTest(name):
                recording = questions.RECORDINGS.get(name, "small.btr")
                self.assertIn(f"examples/{recording}\n", (EXAMPLES / f"{name}.bt").read_text())
                found = (start, events) if recording == "small.btr" else read_recording((EXAMPLES / recording).read_bytes())
                self.assertEqual(question(*found), (EXAMPLES / f"{name}.out").read_text())

    def test_in_another_order(self):
        """What is run without --serial comes out the same where the last CPU goes first."""
        start, events = read_recording((EXAMPLES / "small.btr").read_bytes())
        events.sort(key=lambda one: (-one.cpu, one.time))
        for name, question in questions.QUESTIONS.items():
            if "run --serial" not in (EXAMPLES / f"{name}.bt").read_text():
                with self.subTest(name):
                    self.assertEqual(question(start, events), (EXAMPLES / f"{name}.out").read_text())


class Recording(unittest.TestCase):
    def test_the_example_of_the_page(self):
        self.assertEqual(read_recording(writer()[1]), (500, [Event("demo:tick", 2, 1000, 1234, 1235, "clock", {"n": -2})]))
        self.assertRaises(ValueError, read_recording, b"no recording, but more than thirty bytes")

    def test_a_recording_with_marks(self):
        """The mark of the page, and one at the time of events of its CPU and of another."""
        names = {}
        exec(re.search(r"```python\n(.*?)```", (TOP / "docs" / "RECORDINGS.md").read_text(), re.S).group(1), names)
        tick = Event("demo:tick", 2, 1000, 1234, 1235, "clock", {"n": -2})
        self.assertEqual(read_recording(names["marked"]), (500, [tick, Event("lost", 2, 1500, 0, 0, "", {"count": 5})]))
        text, e = b"name: e\nID: 7\nformat:\n", (4, 1, 1, 0, 0, b"x", b"\7\0")
        _, events = read_recording(writer()[0](0, 10, [(b"s", text)], [(0, [(4, 1), e, (4, 2)]), (3, [(3, 7), e])]))
        self.assertEqual([(one.cpu, one.time, one.fields.get("count")) for one in events], [(3, 3, 7), (0, 4, 1), (0, 4, None), (0, 4, 2), (3, 4, None)])

    def test_fields(self):
        """A string behind the fixed fields, one in an array, a number without sign and an array of numbers; the events stand by time."""
        text = (b"name: e\nID: 7\nformat:\n\tfield:__data_loc char[] path;\toffset:8;\tsize:4;\tsigned:0;\n"
                b"\tfield:char kind[4];\toffset:12;\tsize:4;\tsigned:0;\n\tfield:unsigned int n;\toffset:16;\tsize:4;\tsigned:0;\n"
                b"\tfield:__u8 raw[2];\toffset:20;\tsize:2;\tsigned:0;\n")
        payload = b"\7\0" + bytes(6) + b"\x16\0\3\0" + b"WS\0x" + b"\xff\xff\xff\xff" + b"ab" + b"/a\0"
        late, early = [(time, 1, 1, 0, 0, b"x", payload) for time in (9, 8)]
        _, events = read_recording(writer()[0](0, 10, [(b"s", text)], [(0, [late]), (3, [early])]))
        self.assertEqual([(one.cpu, one.time) for one in events], [(3, 8), (0, 9)])
        self.assertEqual(events[0].fields, {"path": "/a", "kind": "WS", "n": 4294967295})


class Layout(unittest.TestCase):
    def test_rows(self):
        rows = {("b", 2): 5, ("a", 10): 5, ("a", 9): 5, ("z", 0): 1}
        self.assertEqual(map_text("@m", rows), "@m[z, 0]: 1\n@m[a, 9]: 5\n@m[a, 10]: 5\n@m[b, 2]: 5\n\n")
        self.assertEqual(map_text("@m", rows, 1), "@m[b, 2]: 5\n\n")
        self.assertEqual((map_text("@m", {(): 3}), map_text("@m", {})), ("@m: 3\n\n", ""))

    def test_the_histogram_of_the_page(self):
        """Block requests of 4, of 64, of 2,732 and of 4,096 KiB, as docs/LANGUAGE.md shows them."""
        page = (TOP / "docs" / "LANGUAGE.md").read_text()
        wanted = re.search(r"^@kibibytes:\n.*?\n\n", page, re.S | re.M).group(0)
        self.assertEqual(histograms_text("@kibibytes", {(): [4] + [64] * 31 + [2732] + [4096] * 20}), wanted)

    def test_small_ranges(self):
        half, whole = "|" + "@" * 26 + " " * 26 + "|\n", "|" + "@" * 52 + "|\n"
        self.assertEqual(histograms_text("@h", {("k",): [0, 1, 2, 3]}),
                         f"@h[k]:\n[0]                    1 {half}[1]                    1 {half}[2, 4)                 2 {whole}\n")
        self.assertEqual(histograms_text("@h", {("k",): [1023]}), f"@h[k]:\n[512, 1K)              1 {whole}\n")


class Questions(unittest.TestCase):
    def test_time_off_cpu(self):
        """Thread 5 sleeps on CPU 0 from 1,000 to 9,000 and comes back on CPU 1; thread 6 does not come back; who was never taken off does not count."""
        events = [switch(1000, 0, 5, 1, 6), switch(2000, 0, 6, 2, 0), switch(9000, 1, 0, 0, 5)]
        self.assertEqual(questions.time_off_cpu(0, events), "@microseconds[t5, sleeps]: 8\n\n")

    def test_run_lengths(self):
        """Thread 5 runs from 1,000 to 3,000 on CPU 0; what CPU 1 does between is its own, and idle time does not count."""
        events = [switch(1000, 0, 0, 0, 5), switch(2000, 1, 5, 0, 9), switch(3000, 0, 5, 1, 0), switch(9000, 0, 0, 0, 5)]
        self.assertEqual(questions.run_lengths(0, events).splitlines()[:2], ["@microseconds[t5]:", "[2, 4)                 1 |" + "@" * 52 + "|"])

    def test_long_waits(self):
        """Thread 5 is woken at 0 and brought at 501,000 ns, which is long; thread 6 waits 500 microseconds, which is not."""
        wake = [event("sched:sched_wakeup", time, {"pid": pid}, cpu=1) for time, pid in ((0, 5), (1000, 6))]
        events = wake + [switch(501_000, 0, 0, 0, 5), switch(501_000, 1, 0, 0, 6)]
        self.assertEqual(questions.long_waits(0, events), "   501 cpu 0: t5 (5) waited 501\n")
        self.assertEqual(questions.long_waits(0, wake + [switch(100, 2, 5, 1, 0), switch(900_000, 2, 0, 0, 5)]), "")

    def test_call_time(self):
        """Two calls of one number of 300 and 400 nanoseconds, one of which fails; a call without its beginning does not count."""
        enter, leave = "raw_syscalls:sys_enter", "raw_syscalls:sys_exit"
        events = [event(leave, 5, {"id": 1, "ret": 0}), event(enter, 100, {"id": 0}), event(leave, 400, {"id": 0, "ret": -2}, cpu=1),
                  event(enter, 500, {"id": 0}), event(leave, 900, {"id": 0, "ret": 7})]
        self.assertEqual(questions.call_time(0, events), "@nanoseconds[c, 0]: 700\n\n@calls[c, 0]: 2\n\n@failed[c, 0]: 1\n\n")

    def test_block_pattern(self):
        """The second request begins where the first one ended, the third does not; another device has a sequence of its own."""
        events = [event("block:block_rq_issue", time, {"dev": dev, "sector": sector, "nr_sector": 8, "bytes": 4096, "rwbs": "W"})
                  for time, dev, sector in ((1, 1, 0), (2, 2, 50), (3, 1, 8), (4, 1, 100))]
        self.assertEqual(questions.block_pattern(0, events), "@requests[W, follows]: 1\n@requests[W, jumps]: 1\n\n"
                         "@kibibytes[W, follows]: 4\n@kibibytes[W, jumps]: 4\n\n")

    def test_lines(self):
        """A request of 7 microseconds, and an open that fails; what has no beginning gives no line."""
        where = {"dev": 1, "sector": 3, "rwbs": "R"}
        events = [event("block:block_rq_complete", 10, where), event("block:block_rq_issue", 1000, {**where, "bytes": 512, "comm": "cat"}),
                  event("block:block_rq_complete", 8000, where, cpu=1)]
        self.assertEqual(questions.block_requests(0, events).splitlines()[1:],
                         ["        8 cat             R             3       512        7"])
        opens = [event("syscalls:sys_exit_openat", 1, {"ret": 3}), event("syscalls:sys_enter_openat", 1000, {"flags": 0x80000}),
                 event("syscalls:sys_exit_openat", 2000, {"ret": -2}, cpu=2, pid=40, comm="cat")]
        self.assertEqual(questions.open_calls(0, opens).splitlines()[1:], ["        2      40 cat                80000     -2"])

    def test_lost_events(self):
        """A call, and a mark at the time of a tick, which stands behind it; a tick without calls, and what comes after the last one."""
        events = [event("raw_syscalls:sys_enter", 1_049_999, {}), event("lost", 1_050_000, {"count": 7}, cpu=3), event("raw_syscalls:sys_enter", 1_050_000, {}),
                  event("raw_syscalls:sys_exit", 1_060_000, {}), event("lost", 1_151_000, {"count": 1})]
        self.assertEqual(questions.lost_events(1_000_000, events), " 50 us:   1 calls\nWARNING: 7 events lost on cpu 3\n100 us:   1 calls\n"
                         "150 us:   0 calls\nWARNING: 1 events lost on cpu 0\nthe rest: 0 calls\n")

    def test_write_back(self):
        """Two beginnings of one device and reason, of 3 and of 9 pages."""
        events = [event("writeback:writeback_start", time, {"name": "8:0", "reason": 3, "nr_pages": pages}) for time, pages in ((1, 3), (2, 9))]
        self.assertEqual(questions.write_back(0, events), "@begun[8:0, 3]: 2\n\n@pages[8:0, 3]: 9\n\n")


if __name__ == "__main__":
    unittest.main()
