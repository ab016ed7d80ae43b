"""Tests that what a hint says to write means the same as what stood there in bpftrace.

Each row has a script as it is written for bpftrace, the script as the hint has it, and what bpftrace prints of the first over the events below, which was
worked out by hand from bpftrace's own pages. The second is run by the built program, and has to print that.
"""
import os
import struct
import subprocess
import tempfile
import unittest

from stand_in import format_text

from built_program import NO_PROGRAM, real_program

from btreplay.hints import BARE_TEXTS, KINDS_OF_CALLS, WORDS, at_refusal
from btreplay.recorded import head_of_file
from btreplay.refusal import refusal_in
from btreplay.tokens import offset_of

PROGRAM = real_program()
FIELDS = ("\tfield:unsigned short common_type;\toffset:0;\tsize:2;\tsigned:0;\n\n\tfield:char text[8];\toffset:8;\tsize:8;\tsigned:0;\n"
          "\tfield:long n;\toffset:16;\tsize:8;\tsigned:1;\n\tfield:const char * at;\toffset:24;\tsize:8;\tsigned:0;\n")
# The time in milliseconds from the start, the process, the thread's name, n and text of each event of t:d:e.
EVENTS = [(1, 10, "dd", 3, "aa"), (2, 10, "ddrescue", 5, "bb"), (7, 11, "bash", -2, "aa")]
# Words, the script of bpftrace, the script by the hint, and what is printed.
SAME = [
    ("str", "t:d:e { @[str(args.text)] = count(); }", "t:d:e { @[args.text] = count(); }", "@[bb]: 1\n@[aa]: 2\n\n"),
    ("strncmp", 't:d:e /strncmp(comm, "dd", 2) == 0/ { @ = count(); }', 't:d:e /comm == "dd" || comm == "ddrescue"/ { @ = count(); }', "@: 2\n\n"),
    ("strcontains", 't:d:e /strcontains(comm, "dd")/ { @ = count(); }', 't:d:e /comm == "dd" || comm == "ddrescue"/ { @ = count(); }', "@: 2\n\n"),
    ("strstr", 't:d:e { if (strstr(comm, "bash") == 0) { @ = count(); } }', 't:d:e { if (comm == "bash") { @ = count(); } }', "@: 1\n\n"),
    ("stats", "t:d:e { @ = stats(args.n); }", "t:d:e { @c = count(); @s = sum(args.n); @a = avg(args.n); }", "@c: 3\n\n@s: 6\n\n@a: 2\n\n"),
    ("time", 't:d:e { time("%L "); }', 't:d:e { printf("%d ", elapsed / 1000000); }', "1 2 7 "),
    ("strftime", 't:d:e { printf("%s ", strftime("%L", nsecs)); }', 't:d:e { printf("%d ", elapsed / 1000000); }', "1 2 7 "),
    ("for", 't:d:e { @[pid] = count(); } END { for ($kv : @) { printf("@[%d]: %d\\n", $kv.0, $kv.1); } clear(@); }',
     "t:d:e { @[pid] = count(); } END { print(@); clear(@); }", "@[11]: 1\n@[10]: 2\n\n"),
    ("let", 'BEGIN { let $x = 5; printf("%d", $x); }', 'BEGIN { $x = 5; printf("%d", $x); }', "5"),
    ("sizeof", "t:d:e { @ = max(sizeof(args.n)); }", "t:d:e { @ = max(8); }", "@: 8\n\n"),
    ("offsetof", "t:d:e { @ = max(offsetof(struct s, n)); }", "t:d:e { @ = max(16); }", "@: 16\n\n"),
    ("ncpus", "BEGIN { @ = ncpus; }", "BEGIN { @ = 1; }", "@: 1\n\n"),
    ("bswap", "BEGIN { @ = bswap((uint16)0x0102); }", "BEGIN { @ = 0x0201; }", "@: 513\n\n"),
    ("has_key", "t:d:e { if (has_key(@m, pid)) { @ = count(); } @m[pid] = 1; } END { clear(@m); }",
     "t:d:e { if (@m[pid] != 0) { @ = count(); } @m[pid] = 1; } END { clear(@m); }", "@: 1\n\n"),
    ("has_key", "t:d:e { if (has_key(@m, pid)) { @ = count(); } @m[pid] = 0; } END { clear(@m); }",
     "t:d:e { if (@is[pid] != 0) { @ = count(); } @m[pid] = 0; @is[pid] = 1; } END { clear(@m); clear(@is); }", "@: 1\n\n"),
    ("len", 't:d:e { @m[pid] = 0; } END { printf("%d", len(@m)); clear(@m); }',
     't:d:e { @m[pid] = 0; if (@is[pid] == 0) { @is[pid] = 1; @n++; } } END { printf("%d", @n); clear(@m); clear(@is); clear(@n); }', "2"),
    ("and", "t:d:e /pid == 10 and args.n > 3/ { @ = count(); }", "t:d:e /pid == 10 && args.n > 3/ { @ = count(); }", "@: 1\n\n"),
    ("or", "t:d:e /pid == 11 or args.n > 3/ { @ = count(); }", "t:d:e /pid == 11 || args.n > 3/ { @ = count(); }", "@: 2\n\n"),
    ("not", "t:d:e /not (pid == 10)/ { @ = count(); }", "t:d:e /!(pid == 10)/ { @ = count(); }", "@: 1\n\n"),
    ("begin", 'begin { printf("x"); }', 'BEGIN { printf("x"); }', "x"),
    ("end", 'end { printf("x"); }', 'END { printf("x"); }', "x"),
    ("errorf", 'BEGIN { errorf("x"); }', 'BEGIN { printf("x"); }', "x"),
    ("kptr", "t:d:e { @ = max(kptr(args.n)); }", "t:d:e { @ = max(args.n); }", "@: 5\n\n"),
    ("uptr", "t:d:e { @ = max(uptr(args.n)); }", "t:d:e { @ = max(args.n); }", "@: 5\n\n"),
    ("probe", "t:d:e, t:d:e* { @[probe] = count(); }", 't:d:e { @["tracepoint:d:e"] = count(); }', "@[tracepoint:d:e]: 3\n\n"),
    ("buf", 't:d:e { printf("%s ", buf(args.text, 2)); }', 't:d:e { printf("%s ", args.text); }', "aa bb aa "),
    ("struct", "struct s { long n; }\nt:d:e { @ = max(((struct s *)args)->n); }", "t:d:e { @ = max(args.n); }", "@: 5\n\n"),
    ("", "BEGIN { @ = 1e6; }", "BEGIN { @ = 1_000_000; }", "@: 1000000\n\n"),
    ("", "t:d:e /nsecs - 0 > 5ms/ { @ = count(); }", "t:d:e /nsecs - 0 > 5_000_000/ { @ = count(); }", "@: 1\n\n"),
    ("", "interval:5ms { @++; }", "interval:ms:5 { @++; }", "@: 2\n\n"),
    ("", "BEGIN { @m[(1, 2)] = 3; }", "BEGIN { @m[1, 2] = 3; }", "@m[1, 2]: 3\n\n"),
    ("", "t:d:e { @ = count(pid); }", "t:d:e { @ = count(); }", "@: 3\n\n"),
    ("", "t:d:e { @m[pid] = count(); } END { print(@m[10]); clear(@m); }", 't:d:e { @m[pid] = count(); } END { printf("%d\\n", @m[10]); clear(@m); }', "2\n"),
    ("", "BEGIN { exit(1); }", "BEGIN { exit(); }", ""),
    ("", "BEGIN { printf('x'); }", 'BEGIN { printf("x"); }', "x"),
    ("", "BEGIN { @ = (int64)5; }", "BEGIN { @ = 5; }", "@: 5\n\n"),
    ("", "BEGIN { if (1) @ = 5; }", "BEGIN { if (1) { @ = 5; } }", "@: 5\n\n"),
    ("", "t:d:e { @ = max(pid()); }", "t:d:e { @ = max(pid); }", "@: 11\n\n"),
    ("", "t:d:e /args.n == TASK_RUNNING/ { @ = count(); }", "t:d:e /args.n == 0/ { @ = count(); }", ""),
    ("", "t:d:e /args.n == -ENOENT/ { @ = count(); }", "t:d:e /args.n == -2/ { @ = count(); }", "@: 1\n\n"),
    ("", "t:d:e { @ = lhist(args.n, 0, 10); }", "t:d:e { @ = lhist(args.n, 0, 10, 10); }",
     "@:\n(..., 0)               1 |@@@@@@@@@@@@@@@@@@@@@@@@@@                          |\n"
     "[0, 10)                2 |@@@@@@@@@@@@@@@@@@@@@@@@@@@@@@@@@@@@@@@@@@@@@@@@@@@@|\n\n"),
]
# Words whose hints say that something cannot be had, or name another thing that can: they claim no equal.
LACKING = {"kstack", "ustack", "ksym", "usym", "kaddr", "uaddr", "reg", "system", "cat", "join", "ntop", "func", "curtask", "cgroup", "rand", "username",
           "jiffies", "ppid", "pcomm", "fn", "macro", "import", "config", "strlen", "signal", "override", "strerror", "retval", "numaid", "usermode", "macaddr",
           "path", "cgroupid", "cgroup_path"}


def made():
    """The bytes of a recording of the events, and of one format more that has none."""
    out = b"BTRACE01" + struct.pack("<IIQQ", 1, 1, 0, 10_000_000)
    text = format_text("e", 7, FIELDS)
    out += struct.pack("<H", 1) + b"d" + struct.pack("<I", len(text)) + text + struct.pack("<II", 0, len(EVENTS))
    for milliseconds, process, name, n, letters in EVENTS:
        payload = struct.pack("<H6x8sqQ", 7, letters.encode(), n, 0xFFFF8000)
        out += struct.pack("<QIIII16sI", milliseconds * 1_000_000, process, process, 0, 0, name.encode(), len(payload)) + payload
    return out


class Table(unittest.TestCase):
    def test_each_word_is_tried_or_claims_no_equal(self):
        tried = {row[0] for row in SAME} - {""}
        self.assertEqual(set(WORDS), tried | LACKING)
        self.assertEqual(tried & LACKING, set())
        self.assertLessEqual(set(KINDS_OF_CALLS) | set(BARE_TEXTS), set(WORDS))


@unittest.skipUnless(PROGRAM, NO_PROGRAM)
class Same(unittest.TestCase):
    def setUp(self):
        folder = tempfile.TemporaryDirectory()
        self.addCleanup(folder.cleanup)
        self.recording = os.path.join(folder.name, "r.btr")
        self.script = os.path.join(folder.name, "s.bt")
        with open(self.recording, "wb") as file:
            file.write(made())

    def run_program(self, command, script):
        """What the program prints of a script, and what it tells."""
        with open(self.script, "w") as file:
            file.write(script)
        words = [PROGRAM, *command, self.script, self.recording]
        done = subprocess.run(words, stdin=subprocess.DEVNULL, stdout=subprocess.PIPE, stderr=subprocess.PIPE, timeout=60)
        return done.stdout.decode(), done.stderr

    def test_what_the_hints_say_means_the_same(self):
        """The script of bpftrace is refused and has a hint; the script by the hint prints what bpftrace prints of the first."""
        head = head_of_file(self.recording)
        for word, before, after, printed in SAME:
            with self.subTest(before):
                refusal = refusal_in(self.run_program(["check"], before)[1], [self.script])
                at = offset_of(before, refusal.line, refusal.column)
                hints = at_refusal(before, at, head)
                self.assertEqual(len(hints), 1)
                if word and word != "str":
                    self.assertEqual(hints[0], WORDS[word])
                self.assertEqual(self.run_program(["run", "--serial"], after), (printed, b""))

    def test_str(self):
        """By what the field is: a string, an address, or no field of the event."""
        head = head_of_file(self.recording)
        for field, wanted in (("text", "a string of an event is read as it is: str(args.text) is args.text"),
                              ("at", "args.at is an address here (const char * at), and the text there was not recorded; the event's strings are args.text"),
                              ("n", "args.n is no string here (long n): a number is read without str"),
                              ("nope", "a string of an event is read as it is: str(args.f) is args.f")):
            script = f"t:d:e {{ @[str(args.{field})] = count(); }}"
            self.assertEqual(at_refusal(script, script.index("str"), head), [wanted])


if __name__ == "__main__":
    unittest.main()
