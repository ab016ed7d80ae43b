"""Tests of recording, over a tree of files that stands for tracefs; they need no root."""
import contextlib
import glob
import io
import os
import pathlib
import signal
import subprocess
import sys
import tempfile
import time
import unittest
import unittest.mock

from made import HERE, OTHER_TEXT, TEXT, Kernel, entries, lost, missed, payload, program, ticks

from faults import WORDS, WRITE, Ended, Refused
from instance import is_left, own_name, remove_left, started
from output import Output
from reading import read_recording
from record import Asked, online, record
from signals import Signals
from tracepoints import chosen

# How many seconds a test waits for another process at most, on a machine that is busy.
PATIENCE = 100


def main(*arguments):
    """The status of the program with these words, and what it tells."""
    with contextlib.redirect_stderr(io.StringIO()) as told:
        try:
            status = program.main(list(arguments))
        except SystemExit as end:
            status = end.code
    return status, told.getvalue()


class Recording(unittest.TestCase):
    def setUp(self):
        folder = tempfile.TemporaryDirectory()
        self.addCleanup(folder.cleanup)
        self.top = f"{folder.name}/tracing"
        self.path = f"{folder.name}/r.btr"

    def record(self, kernel, patterns=("demo:tick",), seconds=0.1, output=None):
        """What is told of a recording, and its events: CPU, time, process and ID of each."""
        with kernel.running():
            made = record(Asked(list(patterns), seconds, 64, self.top), lambda: Output(output or self.path))
        events = []
        self.contents = read_recording(pathlib.Path(self.path).read_bytes(), lambda *event: events.append(event[:3] + event[4:]))
        return made, events

    def test_what_comes_is_written_and_the_instances_go(self):
        kernel = Kernel(self.top, {0: [ticks(10, payload(1 << 30), payload(1 << 30))], 1: [ticks(5, payload(0)), ticks(7)]},
                        "overrun: 2\nread events: 3\n")
        made, events = self.record(kernel)
        self.assertEqual(events, [(0, 10, 1 << 30, 300), (0, 11, 1 << 30, 300), (1, 5, 0, 300)])
        self.assertEqual((made.lost, made.assembly.left_out), (4, {}))
        self.assertEqual(os.listdir(f"{self.top}/instances"), [])
        self.assertEqual(sorted(os.listdir(os.path.dirname(self.path))), ["r.btr", "tracing"])
        own = kernel.removed[own_name()]
        self.assertEqual((own["events/demo/tick/enable"], own["tracing_on"], own["trace_clock"], own["buffer_size_kb"]), (b"1", b"0", b"mono", b"64"))
        # What this thread does is left out, and what interrupts it (hard, soft and unmaskable interrupts: the bits 8, 16 and 64) is kept.
        self.assertEqual(own["events/demo/tick/filter"].decode(), f"common_pid != {os.getpid()} || common_flags & 88")

    def test_the_time_is_kept_while_there_is_always_more(self):
        kernel = Kernel(self.top, {0: [ticks(1, payload())] * 2000})
        # A machine that is busy may take longer once, and not always; where many wait for a processor all takes so much longer.
        for _ in range(4):
            most = 1.2 * max(os.getloadavg()[0] / os.cpu_count(), 1)
            began = time.monotonic()
            self.record(kernel, seconds=0.2)
            took = time.monotonic() - began
            if took < most:
                break
        self.assertLess(took, most)

    def test_its_own_share_is_told(self):
        kernel = Kernel(self.top, {0: [ticks(1, payload(os.getpid()), payload(1 << 30), payload(os.getpid()), payload(0))]}, )
        made, events = self.record(kernel)
        self.assertEqual(len(events), 4)
        self.assertTrue(any(note.startswith("2 of the 4 (50.0 %)") for note in made.notes), made.notes)

    def test_the_earliest_events_are_kept_and_the_rest_is_counted(self):
        pages = {0: [ticks(10, *[payload()] * 4)] * 2, 1: [ticks(5, payload()), ticks(12, payload())]}
        stats = {0: "entries: 7\noverrun: 1\nread events: 8\n", 1: "entries: 7\noverrun: 1\nread events: 2\n"}
        with unittest.mock.patch("container.MOST_ENTRIES", 5), contextlib.redirect_stderr(io.StringIO()) as told:
            made, events = self.record(Kernel(self.top, pages, stats), seconds=0.2)
        self.assertEqual([event[:2] for event in events], [(0, 10), (0, 11), (1, 5)])
        # Both CPUs tell of events that were read and of 7 that still were there, and 3 are kept.
        self.assertEqual(made.assembly.left_out, {"past the container's limits": 8 + 2 + 2 * 7 - 3})
        self.assertEqual((made.lost, self.contents.end), (2, 12))
        # The marks tell of those and of what was lost, from when on nothing more is kept.
        self.assertEqual(entries(pathlib.Path(self.path).read_bytes()), {0: [10, 11, lost(12, 8 + 7 - 2 + 1)], 1: [5, lost(12, 2 + 7 - 1 + 1)]})
        self.assertIn("the recording is full", told.getvalue())
        self.assertRegex(made.notes[0], r"it covers the first \d+\.\d{3} s of the 0.2 s asked; the recording is full")

    def test_what_the_kernel_lost_is_marked(self):
        """Pages tell what was lost before them, with its number or without; what no page tells of is marked at the end."""
        pages = {0: [ticks(10, payload()), missed(ticks(20, payload(), payload()), 7), missed(ticks(30, payload())), missed(ticks(30, payload()), 2)],
                 1: [missed(ticks(15, payload())), missed(ticks(25, payload()), 1 << 40), missed(ticks(26, payload()))], 2: [ticks(5, payload())],
                 3: [ticks(6, payload())], 4: [missed(ticks(7, payload())), missed(ticks(8, payload())), missed(ticks(9, payload()), 5)]}
        stats = {0: "overrun: 12\nread events: 5\n", 1: f"overrun: {(1 << 40) + 6}\ndropped events: 3\nread events: 3\n",
                 2: "overrun: 3\nread events: 1\n", 3: "read events: 1\n", 4: "overrun: 1\nread events: 3\n"}
        made, events = self.record(Kernel(self.top, pages, stats))
        end = self.contents.end
        wanted = {0: [10, lost(20, 7), 20, 21, lost(30, 3), 30, lost(30, 2), 30],
                  1: [lost(15, 8), 15, lost(25, 1 << 40), 25, lost(26, 1), 26], 2: [5, lost(end, 3)], 3: [6],
                  # The kernel's count is too small: each page that tells a loss tells of one event at least.
                  4: [lost(7, 1), 7, lost(8, 1), 8, lost(9, 5), 9]}
        self.assertEqual(entries(pathlib.Path(self.path).read_bytes()), wanted)
        self.assertEqual((len(events), made.lost), (13, 12 + (1 << 40) + 9 + 3 + 7))
        self.assertEqual((self.contents.version, made.assembly.marks), (2, 10))
        self.assertGreater(end, 30)

    def test_without_marks(self):
        pages = {0: [ticks(10, payload()), missed(ticks(20, payload()), 7)]}
        kernel = Kernel(self.top, pages, "overrun: 9\nread events: 2\n")
        with kernel.running(), unittest.mock.patch("record.tracefs", lambda: self.top):
            status, told = main("record", "demo:tick", "--seconds", "0.1", "--v1", "-o", self.path)
        self.assertEqual(status, 0, told)
        self.assertEqual(pathlib.Path(self.path).read_bytes()[:8], b"BTRACE01")
        self.assertEqual(entries(pathlib.Path(self.path).read_bytes()), {0: [10, 20]})
        self.assertIn("btrecord: 9 events lost while recording\nbtrecord: 0 events left out\n"
                      "btrecord: 2 marks of lost events left out, since --v1 asks for version 1\n", told)
        with kernel.running(), unittest.mock.patch("record.tracefs", lambda: self.top):
            status, told = main("record", "demo:tick", "--seconds", "0.1", "-o", self.path)
        self.assertIn("btrecord: the recording has 2 marks of lost events, and is of version 2\n", told)
        self.assertEqual(entries(pathlib.Path(self.path).read_bytes())[0][:3], [10, lost(20, 7), 20])

    def test_events_that_may_not_be_enabled_are_named(self):
        kernel = Kernel(self.top, {0: [ticks(1, payload())]})
        kernel.add("demo", "tock", OTHER_TEXT)
        kernel.put("events/ftrace/print/format", TEXT.replace(b"300", b"5"))
        kernel.add("demo", "bad", b"name: bad\nID: x\n")
        kernel.refused.add(f"{self.top}/events/demo/tock")
        made, events = self.record(kernel, ["*:*"])
        self.assertEqual((len(events), [format.name for format in made.assembly.formats]), (1, ["demo:tick"]))
        told = made.notes[-1]
        for part in ["3 tracepoints left out", "demo:tock (No such file or directory)", "ftrace:print (it can't be enabled)", "demo:bad (", "F2 bad id"]:
            self.assertIn(part, told)
        kernel.refused.add(f"{self.top}/events/demo/tick")
        os.unlink(self.path)
        with self.assertRaisesRegex(Refused, "2 tracepoints left out"):
            self.record(kernel, ["demo:t*"])
        self.assertEqual((os.listdir(f"{self.top}/instances"), os.path.exists(self.path)), ([], False))

    def test_the_output_is_tested_before(self):
        kernel = Kernel(self.top)
        with self.assertRaises(Refused) as refused:
            self.record(kernel, output=f"{self.top}/no/r.btr")
        self.assertEqual((refused.exception.status, kernel.removed), (WRITE, {}))

    def test_an_instance_goes_when_its_making_fails(self):
        kernel = Kernel(self.top)
        with unittest.mock.patch("instance.Ring", side_effect=MemoryError), self.assertRaises(MemoryError):
            self.record(kernel)
        self.assertEqual((os.listdir(f"{self.top}/instances"), os.path.exists(self.path)), ([], False))

    def start(self, number, seconds):
        """A recorder in a process of its own, once it traces."""
        process = subprocess.Popen([sys.executable, f"{HERE}/fake_recorder.py", f"{self.top}{number}", f"{self.path}{number}", str(seconds)],
                                   stdout=subprocess.PIPE, stderr=subprocess.PIPE, text=True,
                                   preexec_fn=lambda: signal.signal(signal.SIGHUP, signal.SIG_DFL))
        return process

    def wait_for(self, number, process):
        """Waits until it traces."""
        due = time.monotonic() + PATIENCE
        while time.monotonic() < due and process.poll() is None:
            for path in glob.glob(f"{self.top}{number}/instances/btrecord-{process.pid}-*/tracing_on"):
                if not path.endswith("-tasks/tracing_on") and pathlib.Path(path).read_text() == "1":
                    return
            time.sleep(0.02)
        self.fail(f"the recorder did not begin: {process.communicate()}")

    def test_every_signal_ends_it_and_what_there_is_is_written(self):
        numbers = [signal.SIGHUP, signal.SIGINT, signal.SIGQUIT, signal.SIGTERM, signal.SIGPIPE, signal.SIGUSR1, signal.SIGALRM, signal.SIGXCPU,
                   signal.SIGXFSZ, signal.SIGSEGV, signal.SIGABRT, signal.SIGRTMIN + 5]
        there = {number: self.start(int(number), 10 * PATIENCE) for number in numbers}
        for number, process in there.items():
            self.wait_for(int(number), process)
            process.send_signal(number)
        for number, process in there.items():
            told, fault = process.communicate(timeout=PATIENCE)
            self.assertEqual((process.returncode, fault), (0, ""), number)
            self.assertIn("ended it", told)
            self.assertEqual(os.listdir(f"{self.top}{int(number)}/instances"), [], number)
            self.assertEqual(sum(count for _, count in read_recording(pathlib.Path(f"{self.path}{int(number)}").read_bytes()).cpus), 2)

    def test_what_a_killed_one_left_goes_at_the_next_start(self):
        process = self.start(0, 10 * PATIENCE)
        self.wait_for(0, process)
        process.kill()
        # It is not yet waited for here, so that it stands in /proc as a dead one.
        time.sleep(0.1)
        self.assertEqual(len(os.listdir(f"{self.top}0/instances")), 2)
        self.top, kernel = f"{self.top}0", Kernel(f"{self.top}0", {0: [ticks(1, payload())]})
        os.makedirs(f"{self.top}/instances/btrecord-{os.getpid()}-{started(os.getpid())}-other")
        made, _ = self.record(kernel)
        process.communicate()
        self.assertEqual(os.listdir(f"{self.top}/instances"), [f"{own_name()}-other"])
        self.assertEqual(sum("which a btrecord that is dead left" in note for note in made.notes), 2)


class Names(unittest.TestCase):
    def test_instances_of_dead_processes(self):
        with tempfile.TemporaryDirectory() as proc:
            for process, state, start in [(5, "S", 70), (6, "Z", 70)]:
                os.mkdir(f"{proc}/{process}")
                with open(f"{proc}/{process}/stat", "w") as file:
                    file.write(f"{process} (a ) name) {state} " + " ".join(["1"] * 18) + f" {start} 0 0\n")
            self.assertEqual([started(5, proc), started(6, proc), started(7, proc)], [70, None, None])
            for name, left in [("btrecord-5-70", False), ("btrecord-5-70-tasks", False), ("btrecord-5-69", True), ("btrecord-6-70-tasks", True),
                               ("btrecord-7-70", True), ("btrecord-5", False), ("btrecord-5-tasks", False), ("btrecord-7-tasks", True),
                               ("btrecord-7", True), ("btrecord", False), ("btrecord-x", False), ("mine", False), ("btrecord-7-70-other", False),
                               ("my-btrecord-7-70", False)]:
                self.assertEqual(is_left(name, proc), left, name)

    def test_one_that_is_in_use_stays(self):
        with tempfile.TemporaryDirectory() as top:
            os.makedirs(f"{top}/instances/btrecord-7-70/used")
            self.assertRegex(remove_left(top, f"{top}/no")[0], "btrecord-7-70: Directory not empty")

    def test_signals_are_held_back(self):
        with Signals() as signals:
            self.assertIsNone(signals.wait(0))
            os.kill(os.getpid(), signal.SIGTERM)
            self.assertEqual(signals.wait(5), signal.SIGTERM)
        before = signal.signal(signal.SIGHUP, signal.SIG_IGN)
        with Signals() as signals:
            os.kill(os.getpid(), signal.SIGHUP)
            self.assertIsNone(signals.wait(0.01))
        signal.signal(signal.SIGHUP, before)
        self.assertEqual(Ended(2, "SIGINT").status, 130)

    def test_the_cpus_that_are_on(self):
        with tempfile.NamedTemporaryFile("w") as file:
            file.write("0-2,5,8-9\n")
            file.flush()
            self.assertEqual(online(file.name), {0, 1, 2, 5, 8, 9})


class Words(unittest.TestCase):
    def test_numbers_are_refused_with_their_range(self):
        for word in ["0", "-1", "nan", "inf", "0.001", "1e99", "five", ""]:
            status, told = main("record", "a:b", "--seconds", word, "-o", "x")
            self.assertEqual((status, told.startswith(f"btrecord: argument --seconds: {word} is not a number from 0.01 to 1000000")), (WORDS, True), told)
        for word in ["0", "-1", "63", "1048577", "1.5", "x"]:
            status, told = main("record", "a:b", "--buffer-kb", word, "-o", "x")
            self.assertEqual((status, told.startswith(f"btrecord: argument --buffer-kb: {word} is not a number from 64 to 1048576")), (WORDS, True), told)
        with unittest.mock.patch("os.cpu_count", lambda: 10 ** 9), tempfile.TemporaryDirectory() as top:
            with self.assertRaisesRegex(Refused, "--buffer-kb 64: from 64 to 0 for each of 1000000000 CPUs"):
                record(Asked(["a:b"], 1, 64, top), None)

    def test_names_get_hints(self):
        with tempfile.TemporaryDirectory() as top:
            kernel = Kernel(top)
            for system, event, number in [("sched", "sched_switch", 301), ("sched", "sched_wakeup", 302), ("syscalls", "sys_enter_read", 303)]:
                kernel.add(system, event, TEXT.replace(b"tick", event.encode()).replace(b"300", str(number).encode()))
            self.assertEqual(chosen(top, ["sched:*", "*:sched_switch"]).pairs, [("sched", "sched_switch"), ("sched", "sched_wakeup")])
            for word, hint in [("sched:sched_switch,sched:sched_wakeup", "a word of its own: sched:sched_switch sched:sched_wakeup"),
                               ("sched:sched_swich,sched_wakeup", "a word of its own: sched:sched_switch sched:sched_wakeup"),
                               ("tracepoint:sched:sched_switch", "leave tracepoint: out: sched:sched_switch"),
                               ("tracepoint:sched:sched_swich", "leave tracepoint: out: sched:sched_switch"), ("t:sched:*", "leave t: out: sched:*"),
                               ("sched_switch", "did you mean sched:sched_switch"), ("sched_swich", "did you mean sched:sched_switch"),
                               ("sched", r"did you mean sched:\*\?"), ("sched/sched_switch", "did you mean sched:sched_switch"),
                               ("syscall:sys_enter_read", "no such tracepoint; did you mean syscalls:sys_enter_read"),
                               ("sched:sched_swich", "no such tracepoint; did you mean sched:sched_switch"), ("xyz:*", "no such tracepoint$")]:
                with self.assertRaisesRegex(Refused, hint) as refused:
                    chosen(top, [word])
                self.assertEqual(refused.exception.status, WORDS)


if __name__ == "__main__":
    unittest.main()
