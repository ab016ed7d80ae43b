"""Tests of what recordings hold: each fault as `btreplay check` tells it, by the rows of its own tests, and what `info` and `list` tell."""
import contextlib
import io
import json
import os
import pathlib
import re
import struct
import tempfile
import unittest
import unittest.mock

from made import LITERAL, TOP, program, rust_bytes, rust_table

from faults import READ, RECORDING, REFUSED
from format_text import CHARS, DATA_LOC, NUMBER, OTHER, BadFormat, layout_of
from reading import BadRecording, read_recording

DATA = pathlib.Path(TOP, "crates", "bt_cases", "data")
FORMATS = "crates/recording_tests/src/formats.rt"
KINDS = {"Number": NUMBER, "Chars": CHARS, "DataLoc": DATA_LOC, "Other": OTHER}


def fault_of(read, contents, kind):
    """The fault that reading bytes ends with, or none."""
    try:
        read(contents)
    except kind as fault:
        return str(fault)
    return None


def recordings():
    """All recordings of the worked cases, with what the program tells of each, or nothing."""
    for path in sorted(DATA.glob("*.jsonl")):
        for line in path.read_text().splitlines():
            case = json.loads(line)
            if case.get("recording") and case["words"] and "r.bin" in case["words"]:
                if case["status"] == 3 and case["err"].startswith("r.bin: "):
                    yield case["recording"], case["err"][len("r.bin: "):].rstrip("\n")
                elif case["status"] == 0 and case["words"][0] in ("run", "check", "code"):
                    yield case["recording"], None


class Faults(unittest.TestCase):
    def test_the_worked_cases(self):
        codes, accepted = set(), 0
        for recording, fault in dict(recordings()).items():
            self.assertEqual(fault_of(read_recording, bytes.fromhex(recording), BadRecording), fault)
            codes.add(fault.split()[0] if fault else None)
            accepted += fault is None
        self.assertEqual(codes, {None} | {f"C{k}" for k in range(1, 14)})
        self.assertGreater(accepted, 100)

    def test_the_rows_of_layouts(self):
        found = re.findall(rf'\(\s*{LITERAL},\s*b"x",\s*([\d_]+),\s*([\d_]+),\s*&\[\],\s*&\[(.*?)\],?\s*\),', rust_table(FORMATS, "TEXTS"), re.DOTALL)
        self.assertEqual(len(found), 4)
        for literal, number, size, rows in found:
            layout = layout_of(rust_bytes(literal))
            self.assertEqual(layout.number, int(number))
            wanted = re.findall(rf"\({LITERAL}, ([\d_]+), (\d+), \w+, FieldKind::(\w+)\)", rows)
            self.assertEqual(layout.size, int(size))
            self.assertEqual([(field.name, field.offset, field.size, field.kind) for field in layout.fields],
                             [(rust_bytes(name), int(offset), int(length), KINDS[kind]) for name, offset, length, kind in wanted])

    def test_a_recording_that_ends_anywhere(self):
        code = pathlib.Path(TOP, "docs", "RECORDINGS.md").read_text().split("```python\n")[1].split("```")[0]
        there = {}
        exec(code, there)
        for size in range(175):
            self.assertEqual(fault_of(read_recording, there["example"][:size], BadRecording), f"C1 truncated at byte {size}")
        self.assertIsNone(fault_of(read_recording, there["example"], BadRecording))

    def test_one_with_a_mark_that_ends_anywhere(self):
        code = pathlib.Path(TOP, "docs", "RECORDINGS.md").read_text().split("```python\n")[1].split("```")[0]
        there = {}
        exec(code, there)
        marked = there["marked"]
        for size in range(193):
            self.assertEqual(fault_of(read_recording, marked[:size], BadRecording), f"C1 truncated at byte {size}")
        found = read_recording(marked)
        self.assertEqual((found.version, found.cpus, list(found.marks.times), list(found.marks.counts)), (2, [(2, 2)], [1_500], [5]))
        for kind in range(2, 256):
            for size in (120, 150, 193):
                wrong = marked[:119] + bytes([kind]) + marked[120:size]
                self.assertEqual(fault_of(read_recording, wrong, BadRecording), "C12 bad entry in event 0 of cpu 0")

    def test_digits_without_end(self):
        text = b"name: x\nID: " + b"0" * 9000 + b"7\nformat:\nfield:int a;offset:" + b"9" * 9000 + b";size:4;signed:1;\n"
        self.assertEqual(fault_of(layout_of, text, BadFormat), "F3 bad line 4")
        self.assertEqual(layout_of(text.split(b"field")[0]).number, 7)


def made():
    """A recording from 1,000,000 to 9,000,000 ns: three ticks on CPU 0 and one tock on CPU 3, with all kinds of fields."""
    texts = [b"name: tock\nID: 8\nformat:\n\tfield:char name[8];\toffset:2;\tsize:8;\tsigned:0;\n\tfield:int n[2];\toffset:10;\tsize:8;\tsigned:1;\n"
             b"\tfield:__data_loc char[] path;\toffset:20;\tsize:4;\tsigned:0;\n\tfield:struct x;\toffset:24;\tsize:0;\tsigned:0;\n"
             b"\tfield:;\toffset:24;\tsize:0;\tsigned:0;\n",
             b"name: tick\nID: 7\nformat:\n\tfield:const char * at;\toffset:8;\tsize:8;\tsigned:0;\n"]
    out = b"BTRACE01" + struct.pack("<IIQQ", 2, 2, 1_000_000, 9_000_000)
    for text in texts:
        out += struct.pack("<H", 4) + b"demo" + struct.pack("<I", len(text)) + text

    def event(time, process, name, number):
        return struct.pack("<QIIII16sI", time, process, process, 0, 0, name, 24) + struct.pack("<H22x", number)
    out += struct.pack("<II", 0, 3) + event(1_500_000, 5, b"sh", 7) + event(2_000_000, 5, b"ls\n", 7) + event(8_000_000, 6, b"cat", 7)
    return out + struct.pack("<II", 3, 1) + event(2_500_000, 5, b"sh", 8)


class Told(unittest.TestCase):
    def setUp(self):
        folder = tempfile.TemporaryDirectory()
        self.addCleanup(folder.cleanup)
        self.path = os.path.join(folder.name, "r.btr")
        pathlib.Path(self.path).write_bytes(made())

    def told(self, *words):
        """The status, the output and the faults of the program with these words."""
        with contextlib.redirect_stdout(io.StringIO()) as out, contextlib.redirect_stderr(io.StringIO()) as err:
            status = program.main(list(words))
        return status, out.getvalue(), err.getvalue()

    def test_what_a_recording_holds(self):
        self.assertEqual(self.told("info", self.path), (0, """\
span: 0.008000 s, from 1000000 to 9000000 ns
events: 4, from 0.000500 s to 0.007000 s
CPUs: 2
             3  cpu 0
             1  cpu 3
tracepoints: 2, of which 2 have events
             3  demo:tick
             1  demo:tock
processes: 2
             3  5 ls\\x0a, sh
             1  6 cat
greatest gaps, without an event of any CPU:
  0.005500 s from 0.001500 s
  0.001000 s from 0.007000 s
  0.000500 s from 0.000000 s
  0.000500 s from 0.000500 s
  0.000500 s from 0.001000 s
""", ""))

    def test_what_it_lost(self):
        contents = made()
        at = contents.index(struct.pack("<II", 0, 3))
        one = 44 + 24
        cpus = [contents[at + 8 + k * one:at + 8 + (k + 1) * one] for k in range(3)]
        mark = struct.pack("<BQQ", 1, 2_000_000, 5) + struct.pack("<BQQ", 1, 3_000_000, 1_000)
        body = struct.pack("<II", 0, 5) + b"".join(b"\0" + entry for entry in cpus[:2]) + mark + b"\0" + cpus[2]
        body += struct.pack("<II", 3, 2) + b"\0" + contents[-one:] + struct.pack("<BQQ", 1, 9_000_000, (1 << 64) - 1)
        marked = b"BTRACE02" + contents[8:at] + body
        plain = self.told("info", self.path)[1]
        pathlib.Path(self.path).write_bytes(marked)
        lost = 1_005 + (1 << 64) - 1
        wanted = plain.replace("CPUs: 2\n", f"lost events: {lost:,} in 3 marks, from 0.001000 s to 0.008000 s\nCPUs: 2\n")
        wanted = wanted.replace("3  cpu 0\n", "3  cpu 0, and 1,005 lost\n").replace("1  cpu 3\n", f"1  cpu 3, and {(1 << 64) - 1:,} lost\n")
        self.assertEqual(self.told("info", self.path), (0, wanted, ""))
        self.assertEqual(self.told("list", self.path), (0, "tracepoint:demo:tick\ntracepoint:demo:tock\n", ""))

    def test_its_tracepoints(self):
        self.assertEqual(self.told("list", self.path), (0, "tracepoint:demo:tick\ntracepoint:demo:tock\n", ""))
        for pattern in ("demo:tick", "tracepoint:demo:ti*", "t:*:*k", "tick", "*ick"):
            wanted = "tracepoint:demo:tick\n" + ("tracepoint:demo:tock\n" if pattern == "t:*:*k" else "")
            self.assertEqual(self.told("list", self.path, pattern), (0, wanted, ""))
        self.assertEqual(self.told("list", self.path, "t?ck"), (REFUSED, "", f"btrecord: {self.path}: no tracepoint of the recording fits t?ck\n"))

    def test_their_fields_as_a_script_sees_them(self):
        self.assertEqual(self.told("list", "-v", self.path), (0, """\
tracepoint:demo:tick
    args.at  number        const char * at
tracepoint:demo:tock
    args.name  string        char name[8]
    args.n     not readable  int n[2]
    args.path  string        __data_loc char[] path
    args.x     not readable  struct x
""", ""))

    def test_the_recording_of_the_examples(self):
        """By the outputs of who_calls.bt and of the pages: 3, 29 and 177 system calls were begun."""
        small = os.path.join(TOP, "examples", "small.btr")
        status, out, err = self.told("info", small)
        self.assertEqual((status, err), (0, ""))
        self.assertRegex(out, r"\n +209  raw_syscalls:sys_enter\n")
        calls = pathlib.Path(TOP, "examples", "who_calls.out").read_text()
        self.assertEqual(sum(int(count) for count in re.findall(r": (\d+)$", calls, re.MULTILINE)), 209)

    def test_what_is_refused(self):
        contents = made()
        for cut, told in [(contents[:-1], f"C1 truncated at byte {len(contents) - 1}"), (contents + b"x", f"C10 trailing bytes at byte {len(contents)}")]:
            pathlib.Path(self.path).write_bytes(cut)
            for words in (["info", self.path], ["list", self.path]):
                self.assertEqual(self.told(*words), (RECORDING, "", f"btrecord: {self.path}: {told}\n"))
        with unittest.mock.patch("container.MOST_BYTES", 99):
            self.assertEqual(self.told("info", self.path), (RECORDING, "", f"btrecord: {self.path}: recording too long\n"))
        os.unlink(self.path)
        self.assertEqual(self.told("info", self.path), (READ, "", f"btrecord: {self.path}: there is no such file\n"))


if __name__ == "__main__":
    unittest.main()
