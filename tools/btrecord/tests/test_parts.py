"""Tests of what is taken out of recordings: parts of them, their events as text, and as a timeline."""
import contextlib
import io
import json
import os
import pathlib
import re
import struct
import subprocess
import sys
import tempfile
import unittest
import unittest.mock

from made import TOP, program

from faults import RECORDING, REFUSED, WORDS, WRITE
from reading import read_recording
from selection import moment

SECOND = 1_000_000_000
TICK = (b"name: tick\nID: 7\nformat:\n\tfield:unsigned short common_type;\toffset:0;\tsize:2;\tsigned:0;\n"
        b"\tfield:int n;\toffset:4;\tsize:4;\tsigned:1;\n\tfield:void * at;\toffset:8;\tsize:8;\tsigned:0;\n"
        b"\tfield:char name[4];\toffset:16;\tsize:4;\tsigned:0;\n\tfield:__data_loc char[] path;\toffset:20;\tsize:4;\tsigned:0;\n"
        b"\tfield:unsigned long args[2];\toffset:24;\tsize:16;\tsigned:0;\n\tfield:__u8 small[2];\toffset:40;\tsize:2;\tsigned:0;\n"
        b"\tfield:struct x y;\toffset:42;\tsize:3;\tsigned:0;\n\tfield:unsigned long long big;\toffset:48;\tsize:8;\tsigned:0;\n")
TOCK = b"name: tock\nID: 8\nformat:\n\tfield:unsigned short common_type;\toffset:0;\tsize:2;\tsigned:0;\n"


def event(time, process, thread, name, payload):
    """An event as it stands in a recording."""
    return struct.pack("<QIIII16sI", time, process, thread, 3, 4, name, len(payload)) + payload


def tick(n=-5, path=(56, 6), tail=b"/a\nb/\0"):
    """A record of demo:tick."""
    return struct.pack("<HHiQ4sHHQQ2s3s3xQ", 7, 0, n, 0xffff888000000001, b"nam\0", *path, 1, 0xabc, b"\x05\xff", b"\1\2\3", (1 << 64) - 1) + tail


TOCKED = struct.pack("<H", 8)
FIRST = [event(5 * SECOND + 10, 20, 21, b"sh", tick()), event(6 * SECOND, 20, 20, b"sh\0old", TOCKED), event(7 * SECOND, 30, 30, b"a,b\n", TOCKED)]
SECOND_CPU = [event(5 * SECOND + 10, 40, 40, b"dd", TOCKED), event(7 * SECOND + 1, 20, 21, b"sh", tick(2, (60, 9)))]


def mark(time, count):
    """A mark as it stands in a recording."""
    return struct.pack("<BQQ", 1, time, count)


def marked(events):
    """Events as they stand in a recording with marks; marks stay."""
    return [entry if len(entry) == 17 else b"\0" + entry for entry in events]


def recording(cpus, texts=(TICK, TOCK), start=5 * SECOND, end=8 * SECOND, magic=b"BTRACE01"):
    """A recording of these CPUs, whose entries are spelled."""
    out = magic + struct.pack("<IIQQ", len(cpus), len(texts), start, end)
    for text in texts:
        out += struct.pack("<H", 4) + b"demo" + struct.pack("<I", len(text)) + text
    return out + b"".join(struct.pack("<II", number, len(events)) + b"".join(events) for number, events in cpus)


WHOLE = recording([(0, FIRST), (2, []), (5, SECOND_CPU)])
# The same with marks: one before all events of a CPU without any, and others at the times of events and between.
MARKS = [mark(5 * SECOND, 1), mark(6 * SECOND, 20), mark(6 * SECOND, 300), mark(8 * SECOND, 4000)]


def lossy(first=3, cpu_2=True, second=2, last=True, texts=(TICK, TOCK), start=5 * SECOND, end=8 * SECOND):
    """The recording with marks: so many events of CPUs 0 and 5, and the marks among them."""
    cpus = [(0, [FIRST[0], MARKS[1], MARKS[2], *FIRST[1:]][:first + 2] if first else []), (2, MARKS[:1] if cpu_2 else []),
            (5, SECOND_CPU[:second] + ([MARKS[3]] if last else []))]
    return recording([(number, marked(of)) for number, of in cpus], texts, start, end, b"BTRACE02")


class Parts(unittest.TestCase):
    def setUp(self):
        folder = tempfile.TemporaryDirectory()
        self.addCleanup(folder.cleanup)
        self.folder = pathlib.Path(folder.name)
        self.path = str(self.folder / "r.btr")
        self.out = self.folder / "o"
        pathlib.Path(self.path).write_bytes(WHOLE)

    def told(self, *words):
        """The status, the output and the faults of the program with these words."""
        with contextlib.redirect_stdout(io.StringIO()) as out, contextlib.redirect_stderr(io.StringIO()) as err:
            try:
                status = program.main(list(words))
            except SystemExit as end:
                status = end.code
        return status, out.getvalue(), err.getvalue()

    def cut(self, *words):
        """What the program writes that cuts a recording with these words."""
        status, out, err = self.told("cut", self.path, *words, "-o", str(self.out))
        self.assertEqual((status, out), (0, ""), err)
        read_recording(self.out.read_bytes())
        return self.out.read_bytes()


class Cut(Parts):
    def test_all_of_it_is_the_same(self):
        self.assertEqual(self.cut(), WHOLE)
        small = pathlib.Path(TOP, "examples", "small.btr")
        self.path = str(small)
        self.assertEqual(self.cut("--from", "+0", "--event", "*:*"), small.read_bytes())

    def test_by_time_and_the_span_with_it(self):
        for begin in ("6", "6.0", "+1", "6000000000ns", "+1000000000ns", "6s"):
            self.assertEqual(self.cut("--from", begin, "--to", "+2"), recording([(0, FIRST[1:]), (2, []), (5, [])], start=6 * SECOND, end=7 * SECOND))
        self.assertEqual(self.cut("--to", "5.000000009"), recording([(0, []), (2, []), (5, [])], end=5 * SECOND + 9))
        self.assertEqual(self.cut("--to", "99"), WHOLE)

    def test_by_name_process_and_tracepoint(self):
        both = recording([(0, FIRST[:2]), (2, []), (5, SECOND_CPU[1:])])
        for words in (["--pid", "20"], ["--comm", "sh"], ["--comm", "s*"], ["--comm", "sh,x"], ["--pid", "9,20"], ["--pid", "9", "--pid", "20"]):
            self.assertEqual(self.cut(*words), both, words)
        self.assertEqual(self.cut("--comm", "a*b*"), recording([(0, FIRST[2:]), (2, []), (5, [])]))
        ticks = recording([(0, FIRST[:1]), (2, []), (5, SECOND_CPU[1:])], [TICK])
        for word in ("demo:tick", "tick", "t:demo:ti*", "tracepoint:*:tick", "*:tick"):
            self.assertEqual(self.cut("--event", word), ticks, word)
        self.assertEqual(self.cut("--event", "tick,tock", "--pid", "40"), recording([(0, []), (2, []), (5, SECOND_CPU[:1])]))

    def test_by_cpu(self):
        """Events and marks alike; the other CPUs stay, without any. A CPU that the recording does not have is refused."""
        self.assertEqual(self.cut("--cpu", "5"), recording([(0, []), (2, []), (5, SECOND_CPU)]))
        self.assertEqual(self.cut("--cpu", "0,2", "--pid", "20"), recording([(0, FIRST[:2]), (2, []), (5, [])]))
        self.assertEqual(self.cut("--cpu", "0", "--cpu", "5", "--cpu", "2"), WHOLE)
        pathlib.Path(self.path).write_bytes(lossy())
        self.assertEqual(self.cut("--cpu", "0"), recording([(0, marked([FIRST[0], *MARKS[1:3], *FIRST[1:]])), (2, []), (5, [])], magic=b"BTRACE02"))
        self.assertEqual(self.cut("--cpu", "0", "--from", "8"), recording([(0, []), (2, []), (5, [])], start=8 * SECOND))
        self.assertIn("btrecord: 2 of the 4 marks of lost events are kept\n", self.told("cut", self.path, "--cpu", "0", "-o", str(self.out))[2])
        self.assertEqual(self.told("cut", self.path, "--cpu", "1", "-o", str(self.out)), (2, "", f"btrecord: {self.path}: the recording has no CPU 1; it has 0, 2, 5\n"))
        self.assertEqual(self.told("dump", self.path, "--cpu", "2")[1], f"{'':>32} [002]      5.000000000: LOST 1 EVENT\n")

    def test_marks_stay_in_their_time(self):
        pathlib.Path(self.path).write_bytes(lossy())
        self.assertEqual(self.cut(), lossy())
        self.assertEqual(self.cut("--from", "5.000000001"), lossy(cpu_2=False, start=5 * SECOND + 1))
        middle = [(0, marked([MARKS[1], MARKS[2], FIRST[1]])), (2, []), (5, [])]
        self.assertEqual(self.cut("--from", "6", "--to", "6"), recording(middle, start=6 * SECOND, end=6 * SECOND, magic=b"BTRACE02"))
        # Nobody knows whose the lost events were.
        for words, texts in ((["--pid", "9"], (TICK, TOCK)), (["--comm", "no"], (TICK, TOCK)), (["--event", "tock", "--pid", "9"], (TOCK,))):
            none = [(0, MARKS[1:3]), (2, MARKS[:1]), (5, MARKS[3:])]
            self.assertEqual(self.cut(*words), recording(none, texts, magic=b"BTRACE02"))
        # Where there is none the rest is of version 1.
        self.assertEqual(self.cut("--from", "5.000000001", "--to", "5.9"), recording([(0, FIRST[:1]), (2, []), (5, SECOND_CPU[:1])],
                                                                                   start=5 * SECOND + 1, end=59 * SECOND // 10))
        self.assertEqual(self.cut("--v1"), WHOLE)
        self.assertEqual(self.cut("--v1", "--pid", "40"), recording([(0, []), (2, []), (5, SECOND_CPU[:1])]))

    def test_what_is_told_of_marks(self):
        pathlib.Path(self.path).write_bytes(lossy())
        first = f"btrecord: {{}} of the 5 events are in {self.out}, from {{}} to 8.000000000 s\nbtrecord: 2 of the 2 formats and all CPUs are kept\n"
        for words, told in [([], first.format(5, "5.000000000") + "btrecord: 4 of the 4 marks of lost events are kept\n"),
                            (["--from", "+1"], first.format(3, "6.000000000") + "btrecord: 3 of the 4 marks of lost events are kept\n"),
                            (["--from", "7.5"], first.format(0, "7.500000000") + "btrecord: 1 of the 4 marks of lost events are kept\n"),
                            (["--v1"], first.format(5, "5.000000000") + "btrecord: 4 of the 4 marks of lost events would be in it, and are left out, "
                                                                        "since --v1 asks for version 1\n")]:
            self.assertEqual(self.told("cut", self.path, *words, "-o", str(self.out)), (0, "", told))

    def test_many_marks_and_events(self):
        of = [event(6 * SECOND + k, 1, 1, b"x", TOCKED) if k % 3 else mark(6 * SECOND + k, k + 1) for k in range(30_000)]
        pathlib.Path(self.path).write_bytes(recording([(0, marked(of))], magic=b"BTRACE02"))
        half = ["--from", f"{6 * SECOND + 10_001}ns", "--to", f"{6 * SECOND + 20_000}ns"]
        span = {"start": 6 * SECOND + 10_001, "end": 6 * SECOND + 20_000}
        self.assertEqual(self.cut(*half), recording([(0, marked(of[10_001:20_001]))], magic=b"BTRACE02", **span))
        self.assertEqual(self.cut(*half, "--v1"), recording([(0, [entry for entry in of[10_001:20_001] if len(entry) != 17])], **span))

    def test_what_is_told(self):
        self.assertEqual(self.told("cut", self.path, "--event", "tick", "--from", "+0", "--to", "7", "-o", str(self.out)), (0, "", (
            f"btrecord: 1 of the 5 events are in {self.out}, from 5.000000000 to 7.000000000 s\n"
            "btrecord: 1 of the 2 formats and all CPUs are kept\n")))

    def test_it_does_not_take_the_place_of_the_recording(self):
        status, _, told = self.told("cut", self.path, "--pid", "40", "-o", self.path)
        self.assertEqual((status, told), (WORDS, f"btrecord: {self.path} is read, and would be written over: name another file by -o\n"))
        self.assertEqual(pathlib.Path(self.path).read_bytes(), WHOLE)
        self.assertEqual(os.listdir(self.folder), ["r.btr"])

    def test_from_a_pipe(self):
        done = subprocess.run([sys.executable, f"{TOP}/tools/btrecord", "cut", "/dev/stdin", "--pid", "20", "-o", "-"], input=WHOLE, capture_output=True)
        self.assertEqual(done.stdout, recording([(0, FIRST[:2]), (2, []), (5, SECOND_CPU[1:])]))

    def test_what_is_refused(self):
        words = ["-o", str(self.out)]
        for asked, status, told in [
                (["--from", "8.1"], WORDS, "--from 8.1 is outside of the recording, which goes from 5.000000000 to 8.000000000, or from +0 to +3.000000000"),
                (["--to", "+0", "--from", "+1"], WORDS, "--from +1 is after --to +0"), (["--to", "1"], WORDS, "--to 1 is outside of the recording"),
                (["--event", "tick,no"], REFUSED, "no tracepoint of the recording fits no"), (["--pid", "-1"], WORDS, "-1 is not a number from 0"),
                (["--from", "1.0000000001"], WORDS, "is no time"), (["--from", "yesterday"], WORDS, "is no time"), (["--pid", "x"], WORDS, "not a number")]:
            found = self.told("cut", self.path, *asked, *words)
            self.assertEqual((found[0], found[1]), (status, ""), asked)
            self.assertIn(told, found[2])
        self.assertEqual(self.told("cut", self.path, "-o", f"{self.folder}/no/r")[0], WRITE)
        pathlib.Path(self.path).write_bytes(WHOLE[:-1])
        self.assertEqual(self.told("cut", self.path, *words), (RECORDING, "", f"btrecord: {self.path}: C1 truncated at byte {len(WHOLE) - 1}\n"))
        self.assertEqual(os.listdir(self.folder), ["r.btr"])

    def test_times(self):
        for word, nanoseconds, behind in [("0", 0, False), ("12.5", 12_500_000_000, False), ("+0.000000001", 1, True), ("7ns", 7, False), ("+7ns", 7, True)]:
            found = moment(word)
            self.assertEqual((found.nanoseconds, found.is_behind_start), (nanoseconds, behind))
        for word in ("", "+", "-1", "1e3", "1ms", ".5", "5.", "0x1", "1ns0", "\u0665"):
            with self.assertRaises(ValueError, msg=word):
                moment(word)


TICK_TEXT = r"at=0xffff888000000001 name=nam path={} args={{0x1, 0xabc}} small={{5, 255}} y={{010203}} big=18446744073709551615"
LINES = ["              sh      20/21      [000]      5.000000010: demo:tick: n=-5 " + TICK_TEXT.format(r"/a\x0ab/"),
         "              dd      40/40      [005]      5.000000010: demo:tock:",
         "              sh      20/20      [000]      6.000000000: demo:tock:",
         r"         a,b\x0a      30/30      [000]      7.000000000: demo:tock:",
         f"              sh      20/21      [005]      7.000000001: demo:tick: n=2 {TICK_TEXT.format('')}"]


class Dump(Parts):
    def test_the_events_by_time(self):
        self.assertEqual(self.told("dump", self.path), (0, "".join(f"{line}\n" for line in LINES), ""))
        self.assertEqual(self.told("dump", self.path, "--event", "tock", "--from", "6"), (0, f"{LINES[2]}\n{LINES[3]}\n", ""))
        self.assertEqual(self.told("dump", self.path, "--comm", "none"), (0, "", ""))

    def test_marks_have_lines(self):
        pathlib.Path(self.path).write_bytes(lossy())
        blank = " " * 33
        lost = [f"{blank}[002]      5.000000000: LOST 1 EVENT", f"{blank}[000]      6.000000000: LOST 20 EVENTS",
                f"{blank}[000]      6.000000000: LOST 300 EVENTS", f"{blank}[005]      8.000000000: LOST 4000 EVENTS"]
        wanted = [lost[0], *LINES[:2], *lost[1:3], *LINES[2:], lost[3]]
        self.assertEqual(self.told("dump", self.path), (0, "".join(f"{line}\n" for line in wanted), ""))
        self.assertEqual(self.told("dump", self.path, "--to", "6", "--pid", "40"), (0, f"{lost[0]}\n{LINES[1]}\n{lost[1]}\n{lost[2]}\n", ""))
        self.assertEqual([line.index("[") for line in LINES[:3] + lost], [33] * 7)

    def test_into_a_file(self):
        self.assertEqual(self.told("dump", self.path, "-o", str(self.out)), (0, "", ""))
        self.assertEqual(self.out.read_text(), "".join(f"{line}\n" for line in LINES))

    def test_a_pipe_that_closes_early(self):
        done = subprocess.run(["sh", "-c", f"{sys.executable} {TOP}/tools/btrecord dump {TOP}/examples/small.btr | head -n 1"], capture_output=True, text=True)
        self.assertEqual((done.stdout.count("\n"), done.stderr), (1, ""))

    def test_the_examples_tell_the_same(self):
        """By outputs that were reckoned apart: the system calls that were begun, and the failed ones by their error."""
        _, out, _ = self.told("dump", f"{TOP}/examples/small.btr", "--event", "raw_syscalls:*")
        counts = {}
        for name in re.findall(r"^ *(\S+) .*sys_enter: ", out, re.MULTILINE):
            counts[name] = counts.get(name, 0) + 1
        self.assertEqual("".join(f"@calls[{name}]: {count}\n" for name, count in sorted(counts.items(), key=lambda item: item[1])),
                         pathlib.Path(TOP, "examples", "who_calls.out").read_text().rstrip("\n") + "\n")
        failed = {}
        for name, number, error in re.findall(r"^ *(\S+) .*sys_exit: id=(\d+) ret=-(\d+)$", out, re.MULTILINE):
            failed[name, number, error] = failed.get((name, number, error), 0) + 1
        self.assertEqual("".join(f"@failed[{', '.join(key)}]: {count}\n" for key, count in sorted(failed.items(), key=lambda item: (item[1], item[0]))),
                         pathlib.Path(TOP, "examples", "error_returns.out").read_text().rstrip("\n") + "\n")


def format(system, name, number, *fields):
    """A format whose fields are numbers of 4 bytes, or with a size arrays of characters, behind the ID."""
    text, at = f"name: {name}\nID: {number}\nformat:\n", 4
    for field in fields:
        field, _, size = field.partition(" ")
        text += f"\tfield:{f'char {field}[{size}]' if size else f'int {field}'};\toffset:{at};\tsize:{size or 4};\tsigned:1;\n"
        at += int(size or 4)
    return system.encode(), text.encode()


FORMATS = [format("sched", "sched_switch", 1, "prev_comm 16", "prev_pid", "next_comm 16", "next_pid"), format("raw_syscalls", "sys_enter", 2, "id"),
           format("raw_syscalls", "sys_exit", 3, "id", "ret"), format("syscalls", "sys_enter_read", 4, "__syscall_nr"),
           format("syscalls", "sys_exit_read", 5, "__syscall_nr", "ret"), format("irq", "softirq_entry", 6, "vec"), format("irq", "softirq_exit", 7, "vec"),
           format("block", "block_rq_issue", 8, "dev", "sector", "rwbs 4"), format("block", "block_rq_complete", 9, "dev", "sector"),
           format("demo", "mark", 10, "n")]


def viewed(events, start=1000, end=9000):
    """A recording of one CPU, 3, with these events: times, threads and the values of the fields."""
    out = b"BTRACE01" + struct.pack("<IIQQ", 1, len(FORMATS), start, end)
    for system, text in FORMATS:
        out += struct.pack("<H", len(system)) + system + struct.pack("<I", len(text)) + text
    out += struct.pack("<II", 3, len(events))
    for time, thread, number, *values in events:
        payload = struct.pack("<Hxx", number) + b"".join(struct.pack("<i", v) if isinstance(v, int) else v for v in values)
        out += struct.pack("<QIIII16sI", time, 100 if thread else 0, thread, 0, 0, b"t%d" % thread, len(payload)) + payload
    return out


def text(word, size=16):
    """An array of characters."""
    return word.ljust(size, b"\0")


def viewer_faults(text):
    """What of a timeline breaks the rules of the trace event format, or is not held exactly by a viewer that reads numbers as doubles."""
    def refused(word):
        raise ValueError(f"{word} is no number of JSON")

    whole = json.loads(text, parse_constant=refused)
    if set(whole) != {"displayTimeUnit", "otherData", "traceEvents"} or whole["displayTimeUnit"] not in ("ms", "ns"):
        yield f"the whole has {sorted(whole)}"
    begun, named, used = {}, set(), set()
    for e in whole["traceEvents"]:
        track = e.get("pid"), e.get("tid")
        phase, times = e.get("ph"), [e[key] for key in ("ts", "dur") if key in e]
        wants = {"X": {"ts", "dur", "cat"}, "i": {"ts", "s", "cat"}, "b": {"ts", "id", "cat"}, "e": {"ts", "id", "cat"}, "M": set()}.get(phase)
        if wants is None or set(e) != wants | {"ph", "pid", "tid", "name", "args"}:
            yield f"another form: {e}"
            continue
        if not all(type(number) is int and 0 <= number < 1 << 32 for number in track) or not e["name"] or type(e["name"]) is not str:
            yield f"another track or name: {e}"
        if not all(type(time) in (int, float) and time >= 0 for time in times) or phase == "i" and e["s"] not in "gpt":
            yield f"another time or scope: {e}"
        if not all(type(value) is str or type(value) is int and abs(value) <= 1 << 53 for value in e["args"].values()):
            yield f"other values: {e}"
        if phase == "M":
            if e["name"] not in ("process_name", "thread_name") or (track, e["name"]) in named or list(e["args"]) != ["name"]:
                yield f"another naming: {e}"
            named.add((track, e["name"]))
            continue
        used.add(track)
        key = e["cat"], e.get("id")
        if phase == "b":
            if key in begun:
                yield f"begun twice: {e}"
            begun[key] = track, e["name"], e["ts"]
        elif phase == "e":
            of, name, begin = begun.pop(key, (None, None, 0))
            if (of, name) != (track, e["name"]) or e["ts"] < begin:
                yield f"ends what did not begin: {e}"
    for track in used:
        if (track, "thread_name") not in named:
            yield f"a track without a name: {track}"


class Chrome(Parts):
    def events(self, *events):
        """What a viewer is given: the phase, the track, the time, the length and the name of each event, and the fields."""
        pathlib.Path(self.path).write_bytes(viewed(events))
        status, out, err = self.told("dump", "--chrome", self.path)
        self.assertEqual((status, err), (0, ""))
        self.assertEqual(list(viewer_faults(out)), [])
        whole = json.loads(out)
        self.assertEqual((whole["otherData"], whole["displayTimeUnit"]), ({"start_ns": "1000", "end_ns": "9000"}, "ns"))
        found = [e for e in whole["traceEvents"] if e["ph"] != "M"]
        self.names = {(e["pid"], e["tid"], e["name"]): e["args"]["name"] for e in whole["traceEvents"] if e["ph"] == "M"}
        return [(e["ph"], self.names.get((e["pid"], e["tid"], "thread_name")), e["ts"], e.get("dur"), e["name"], e["args"]) for e in found]

    def test_threads_on_a_cpu(self):
        found = self.events((1500, 7, 1, text(b"a"), 7, text(b"b"), 8), (2750, 8, 1, text(b"b"), 8, text(b"swapper/3"), 0),
                            (4000, 0, 1, text(b"swapper/3"), 0, text(b"a"), 7))
        self.assertEqual(found, [("X", "cpu 3", 0.0, 0.5, "a", {"tid": 7}), ("X", "cpu 3", 0.5, 1.25, "b", {"tid": 8}),
                                 ("X", "cpu 3", 3.0, 5.0, "a", {"tid": 7})])

    def test_system_calls_of_a_thread(self):
        found = self.events((1001, 7, 2, 5), (1002, 7, 4, 5), (1003, 7, 10, -1), (2001, 7, 3, 5, -2), (2002, 7, 5, 5, -2), (3000, 8, 3, 9, 1), (4000, 8, 2, 6))
        self.assertEqual(found, [("i", "t7", 0.003, None, "mark", {"n": -1}), ("X", "t7", 0.002, 0.999, "read", {"__syscall_nr": 5}),
                                 ("X", "t7", 0.001, 1.0, "syscall 5", {"id": 5, "ret": -2}), ("i", "t8", 2.0, None, "sys_exit", {"id": 9, "ret": 1}),
                                 ("X", "t8", 3.0, 5.0, "syscall 6", {"id": 6, "end": "not in the recording"})])
        self.assertEqual(self.names[100, 0, "process_name"], "t7")

    def test_interrupts_of_a_cpu(self):
        found = self.events((1001, 7, 6, 1), (1004, 7, 7, 1), (1005, 0, 10, 3))
        self.assertEqual(found, [("X", "cpu 3 interrupts", 0.001, 0.003, "softirq 1", {"vec": 1}), ("i", "cpu 3 interrupts", 0.005, None, "mark", {"n": 3})])

    def test_block_requests(self):
        device = 254 << 20 | 16
        found = self.events((1001, 7, 8, device, 64, text(b"WS", 4)), (1002, 0, 9, device, 65), (1003, 0, 9, device, 64), (1004, 0, 9, device, 64))
        fields = {"dev": device, "sector": 64}
        self.assertEqual(found, [("b", "block device 254:16", 0.001, None, "WS", {**fields, "rwbs": "WS"}), ("e", "block device 254:16", 0.003, None, "WS", fields)])

    def test_lost_events_of_a_cpu(self):
        whole = viewed([(1001, 7, 10, 1), (1003, 7, 10, 2)])
        head, size = whole[:-2 * (44 + 8) - 8], 44 + 8
        entries = [b"\0" + whole[-2 * size:-size], mark(1002, 5), mark(1002, 1 << 60), b"\0" + whole[-size:]]
        pathlib.Path(self.path).write_bytes(b"BTRACE02" + head[8:] + struct.pack("<II", 3, 4) + b"".join(entries))
        status, out, err = self.told("dump", "--chrome", self.path)
        self.assertEqual((status, err, list(viewer_faults(out))), (0, "", []))
        found = [e for e in json.loads(out)["traceEvents"] if e["ph"] != "M"]
        self.assertEqual([(e["ts"], e["name"], e["args"]) for e in found], [(0.001, "mark", {"n": 1}), (0.002, "lost events", {"count": 5}),
                         (0.002, "lost events", {"count": str(1 << 60)}), (0.003, "mark", {"n": 2})])
        self.assertEqual([(e["ph"], e["pid"], e["tid"], e["s"]) for e in found[1:3]], [("i", 1 << 23, 7, "t")] * 2)
        _, out, _ = self.told("dump", "--chrome", self.path, "--from", "1003ns", "--pid", "1")
        self.assertEqual([e for e in json.loads(out)["traceEvents"] if e["ph"] != "M"], [])

    def test_a_part_and_nothing(self):
        pathlib.Path(self.path).write_bytes(viewed([(1001, 7, 10, 1), (1003, 7, 10, 2)]))
        _, out, _ = self.told("dump", "--chrome", self.path, "--from", "1002ns")
        whole = json.loads(out)
        self.assertEqual([(e["ts"], e["args"]) for e in whole["traceEvents"] if e["ph"] == "i"], [(0.001, {"n": 2})])
        self.assertEqual(whole["otherData"]["start_ns"], "1002")
        self.assertEqual([e for e in json.loads(self.told("dump", "--chrome", self.path, "--pid", "1")[1])["traceEvents"] if e["ph"] != "M"], [])

    def test_what_breaks_the_rules_of_a_viewer_is_found(self):
        device = 254 << 20 | 16
        pathlib.Path(self.path).write_bytes(viewed([(1001, 7, 10, 1), (1002, 7, 8, device, 64, text(b"WS", 4)), (1003, 0, 9, device, 64)]))
        _, out, _ = self.told("dump", "--chrome", self.path)
        self.assertEqual(list(viewer_faults(out)), [])
        for old, new in [('"ph":"i"', '"ph":"Q"'), (',"s":"t"', ""), ('"ts":0.001', '"ts":-1'), ('"ts":0.001', '"ts":"0"'), ('"tid":7', '"tid":-7'), ('"n": 1', '"n": 1.5'),
                         ('"n": 1', f'"n": {1 << 60}'), ('"name":"mark"', '"name":""'), ('"ph":"b"', '"ph":"e"'), ('"ph":"e"', '"ph":"b"'),
                         ('"name":"thread_name"', '"name":"process_name"'), ('"displayTimeUnit":"ns"', '"displayTimeUnit":"us"')]:
            self.assertIn(old, out)
            self.assertNotEqual(list(viewer_faults(out.replace(old, new))), [], new)
        with self.assertRaises(ValueError):
            list(viewer_faults(out.replace('"n": 1', '"n": NaN')))

    def test_spans_of_the_examples_lie_one_in_the_other(self):
        _, out, _ = self.told("dump", "--chrome", f"{TOP}/examples/small.btr")
        self.assertEqual(list(viewer_faults(out)), [])
        tracks = {}
        for e in json.loads(out)["traceEvents"]:
            if e["ph"] == "X":
                begin = round(e["ts"] * 1000)
                tracks.setdefault((e["pid"], e["tid"]), []).append((begin, -begin - round(e["dur"] * 1000)))
        self.assertGreater(len(tracks), 5)
        for spans in tracks.values():
            ends = []
            for begin, end in sorted(spans):
                while ends and ends[-1] <= begin:
                    ends.pop()
                self.assertTrue(not ends or -end <= ends[-1])
                ends.append(-end)


if __name__ == "__main__":
    unittest.main()
