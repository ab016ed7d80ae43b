"""Tests that all faults of a script are told at once, and nothing that is no fault: by the built program, over scripts whose faults are marked here."""
import random
import shutil
import subprocess
import sys
import tempfile
import unittest

import stand_in  # noqa: F401  (tools/ is on the path with it)

from built_program import NO_PROGRAM, TOP, real_program

from btreplay.checking import Checks
from btreplay.constants import OWN, value_of
from btreplay.further import faults_of
from btreplay.letters import about_letter, letter_at
from btreplay.tokens import text_of

PROGRAM = real_program()
SMALL = str(TOP / "examples" / "small.btr")
MARK = "\u00a7"
# Probes, each with a mark in front of each of its faults. They share no map, so each stands beside any other.
PROBES = [
    "BEGIN { @a1 = \u00a71e3; }",
    "BEGIN { printf(\u00a7\u201chello\\n\u201d); }",
    "BEGIN { printf(\u00a7'hello\\n'); @a2 = 1; }",
    "\u00a7software:cpu-clock:1000000 { @a3[\u00a7kstack] = count(); }",
    "\u00a7kprobe:vfs_read /comm == \"dd\"/ { @a4[comm] = count(); @a5 = hist(\u00a7arg2); }",
    "\u00a7kretprobe:vfs_read { @a6 = hist(\u00a7retval); }",
    "\u00a7profile:hz:99 { @a7[\u00a7ustack] = count(); }",
    "\u00a7uprobe:/bin/bash:readline { @a8 = count(); }",
    "t:sched:sched_switch /args->prev_state == \u00a7TASK_RUNNING/ { @b1[\u00a7str(args.prev_comm)] = count(); }",
    "t:sched:sched_switch { @b2[\u00a7str(args.next_comm), args.next_pid] = count(); }",
    "t:syscalls:sys_enter_openat { @b3[\u00a7str(args.filename)] = count(); }",
    "t:raw_syscalls:sys_exit /args.ret < 0/ { @b4[\u00a7strerror(args.ret)] = count(); }",
    "t:raw_syscalls:sys_exit { $x = (\u00a7int32)args.ret; @b5 = hist($x\u00a7, 3); }",
    "t:raw_syscalls:sys_exit { if (\u00a7strncmp(comm, \"dd\", 2) == 0) { @b6 = count(); } }",
    "t:raw_syscalls:sys_enter /\u00a7strncmp(\u00a7str(args.nope), \"dd\", 2) == 0/ { @b7 = count(); }",
    "\u00a7interval:1s { \u00a7time(\"%H\"); }",
    "\u00a7i:10ms { print(@b1); }",
    "t:block:block_rq_issue { @c1[args.\u00a7nope] = count(); \u00a7let $b = args.bytes; @c2 = sum($b); }",
    "t:block:block_rq_issue { printf(\u00a7\"%d %s\\n\", args.bytes); @c3 = count(); }",
    "t:block:block_rq_issue { @c4[args.bytes] = count(); \u00a7@c4[args.rwbs] = count(); }",
    "t:block:block_rq_issue { @c5 = count(); @c6 = \u00a7comm + 1; }",
    "t:block:block_rq_issue { @c7 = count() \u00a7@c8 = count(); }",
    "t:block:block_rq_issue { if (args.bytes > 5) \u00a7@d1 = count(); }",
    "END { \u00a7for ($kv : @b1) { print($kv.0); } }",
    "END { @d2 = 1; if (@d2 == 1 \u00a7and @d2 != 2) { @d3 = 1; } }",
    "\u00a7end { @d4 = 1; }",
    "BEGIN { @d5[(1\u00a7, 2)] = 3; }",
    "BEGIN { @d6 = $y; }".replace("$y", "\u00a7$y"),
    "BEGIN { @d7 = \u00a7args.pid; }",
    "t:raw_syscalls:sys_enter { @d8 = lhist(args.id, 0, 100\u00a7); \u00a7system(\"ls\"); }",
    "\u00a7t:sched:nope { @e1[args.nope] = count(); }",
    "t:raw_syscalls:sys_exit { @e2 = count(); exit(\u00a71); }",
    "BEGIN { @e3 = \u00a7$1; }",
    "t:raw_syscalls:sys_exit { @e4[\u00a7func] = count(); @e4[1] = count(); }",
    "t:raw_syscalls:sys_exit /args.ret == -\u00a7EAGAIN/ { @e5 = count(); }",
    "BEGIN { @e6 = 5\u00a7ms; }",
]
WHOLE = ["BEGIN { @w1 = 1; } END { clear(@w1); }", "t:sched:sched_switch { @w2[args.prev_comm] = count(); }",
         "t:raw_syscalls:sys_exit /args.ret > 0 && comm == \"dd\"/ { @w3 = hist(args.ret); $z = args.ret; if ($z > 5) { @w4 = max($z); } }"]
LINES = ["\u00a7#include <linux/sched.h>", "\u00a7#define LIMIT 5", "// a comment: kprobe:vfs_read { 1e3 }"]


def unmarked(marked):
    """A script without its marks, as a text of bytes, and the offsets at which marks stood."""
    places, text = [], ""
    for piece in marked.split(MARK):
        text += text_of(piece.encode())
        places.append(len(text))
    return text, places[:-1]


@unittest.skipUnless(PROGRAM, NO_PROGRAM)
class Further(unittest.TestCase):
    @classmethod
    def setUpClass(cls):
        cls.checks = Checks(PROGRAM, SMALL)
        cls.addClassCleanup(cls.checks.__exit__)

    def check(self, marked):
        """Tests that what is told of a marked script are its marks, the program's refusal first."""
        text, places = unmarked(marked)
        found, is_all = faults_of(text, self.checks.refusal, self.checks.head)
        told = [fault.at for fault in found]
        self.assertEqual((sorted(self.at_number(text, at) for at in told), is_all), (sorted(self.at_number(text, at) for at in places), True), text)
        refusal = self.checks.refusal(text)
        self.assertEqual(None if refusal is None else (refusal.code, refusal.text), (found[0].code, found[0].text) if found else None)
        self.assertEqual(told[1:], sorted(told[1:]))

    def at_number(self, text, at):
        """The offset of a fault; for one in a number that of the number's begin."""
        while at > 0 and text[at].isalnum() and text[at - 1].isalnum() and text[at - 1].isascii():
            at -= 1
        return at

    def test_each_alone(self):
        for marked in PROBES + WHOLE + LINES:
            with self.subTest(marked):
                self.check(marked + ("\nEND { @w0 = 1; }" if marked in LINES else ""))

    def test_many_together(self):
        chance = random.Random(87)
        for turn in range(6):
            probes = chance.sample(PROBES, 5) + chance.sample(WHOLE, 1)
            chance.shuffle(probes)
            with self.subTest(turn):
                self.check("\n".join(chance.sample(LINES, 2) + probes) + "\n")

    def test_marks_of_order_and_bytes_that_cannot_be_seen(self):
        self.check("\u00a7\ufeffBEGIN { @x = 1;\u00a7\u00a0@y = 2\u00a7\0; @z = \u00a71e6; }")

    def test_examples_have_none(self):
        for path in sorted((TOP / "examples").glob("*.bt"))[::6]:
            self.assertEqual(faults_of(text_of(path.read_bytes()), self.checks.refusal, self.checks.head), ([], True))

    def test_what_stops_the_search(self):
        """A comment that does not end, and brackets that do not fit: the first alone is told, and that there may be more."""
        for script, codes in (("/* BEGIN { @x = kstack; }", ["X3"]), ("BEGIN { @x = (1 + ; } END { @y = (2 }", ["P1"])):
            found, is_all = faults_of(script, self.checks.refusal, self.checks.head)
            self.assertEqual([fault.code for fault in found][:1], codes)
            self.assertLessEqual(len(found), 2)

    def test_a_token_that_is_missing(self):
        """What comes of a bracket, an = or a word that is missing is no fault of its own: one place is told."""
        script = "t:sched:sched_switch /args.prev_pid != 0/ { $x = args.next_pid; @a[args.prev_comm, $x] = count(); if ($x > 5) { @b = hist($x); } } END { clear(@a); }"
        for part in ("]", "[", "args", "(", ")", "}", "{", " = ", "/"):
            at = script.index(part)
            for missing in (script[:at] + script[at + len(part):], script.replace(part, "", 1)):
                found, _ = faults_of(missing, self.checks.refusal, self.checks.head)
                # Where no $x is set any more, each read of it is a fault of its own.
                others = [fault for fault in found[1:] if "$x =" in missing or fault.code != "Y5" or not missing.startswith("$x", fault.at)]
                self.assertEqual(others, [], missing)

    def test_any_cut_of_any_script(self):
        """Nothing that stands in a script makes the search fail, and it ends."""
        text = unmarked("\n".join(PROBES))[0]
        for end in range(0, len(text), 211):
            faults_of(text[:end], self.checks.refusal, self.checks.head)

    def test_what_is_written(self):
        """The command: the first with its place, line and meaning; each other one on a line of its own, with its place."""
        with tempfile.NamedTemporaryFile("w", suffix=".bt") as file:
            file.write("#include <a.h>\nsoftware:faults:1 { @ = count(); }\nt:sched:sched_switch /args.prev_state == TASK_RUNNING/ { @a[str(args.prev_comm)] = count(); }\n")
            file.flush()
            code = ("import sys; sys.path.insert(0, sys.argv.pop(1)); from btreplay.command import asked_of, explain; "
                    "sys.exit(explain(sys.argv[1], asked_of(sys.argv[2:])))")
            done = subprocess.run([sys.executable, "-B", "-c", code, str(TOP / "tools"), PROGRAM, "explain", file.name, SMALL], stdout=subprocess.PIPE,
                                  stderr=subprocess.PIPE, timeout=60)
            self.assertEqual((done.returncode, done.stderr.decode()), (2, f"{file.name}:1:1: X1 bad character\n"))
            self.assertEqual(done.stdout.decode().splitlines()[:2], ["  #include <a.h>", "  ^"])
            self.assertEqual(done.stdout.decode().splitlines()[-4:], [
                "Refused as well:",
                f"{file.name}:2:1: software: a recording holds tracepoints: the probes are tracepoint:SYSTEM:EVENT, interval:UNIT:NUMBER, BEGIN and END"
                "; these are tracepoint:exceptions:page_fault_user and those of the kernel",
                f"{file.name}:3:42: TASK_RUNNING: names of the kernel's constants are not known here: write 0",
                f"{file.name}:3:61: str: a string of an event is read as it is: str(args.prev_comm) is args.prev_comm"])


class Letters(unittest.TestCase):
    def test_names(self):
        for text, wanted in (("\ufeffx", "a byte order mark (U+FEFF) stands here: save the script without it"),
                             ("\u201c", 'a curly quote, LEFT DOUBLE QUOTATION MARK (U+201C), stands here: write "'),
                             ("\u2019", 'a curly quote, RIGHT SINGLE QUOTATION MARK (U+2019), stands here: write "'),
                             ("\0", "the byte NUL (0x00) stands here: take it out, or put it into a string"),
                             ("\u00a0", "NO-BREAK SPACE (U+00A0) stands here: write a blank"), ("\u2212", "MINUS SIGN (U+2212) stands here: write -"),
                             ("\u200b", "ZERO WIDTH SPACE (U+200B) stands here: take it out, or put it into a string"), ("x", ""), ("#", "")):
            self.assertEqual(about_letter(letter_at(text_of(text.encode()), 0)[0]), wanted)
        self.assertEqual(letter_at("\xff\xfe", 0), ("\xff", 1))


class Constants(unittest.TestCase):
    @unittest.skipUnless(shutil.which("gcc"), "there is no gcc")
    def test_values_by_the_headers(self):
        """The compiler's headers are the other witness; what only the kernel's own have is left out."""
        names = [name for name in OWN if name.startswith(("FUTEX_", "AT_"))] + ["EAGAIN", "ENOENT", "SIGKILL", "SIGTERM", "O_CREAT", "O_RDONLY", "AF_INET", "SOCK_STREAM",
                                                                                "IPPROTO_TCP", "S_IFREG", "PROT_EXEC", "MAP_ANONYMOUS"]
        headers = ("errno.h", "signal.h", "fcntl.h", "sys/socket.h", "netinet/in.h", "sys/stat.h", "sys/mman.h", "linux/futex.h", "stdio.h")
        code = "#define _GNU_SOURCE\n" + "".join(f"#include <{name}>\n" for name in headers)
        code += "int main(void) { " + "".join(f'printf("%d\\n", (int)({name})); ' for name in names) + "return 0; }\n"
        with tempfile.TemporaryDirectory() as folder:
            subprocess.run(["gcc", "-x", "c", "-", "-o", f"{folder}/values"], input=code.encode(), check=True, timeout=100)
            values = subprocess.run([f"{folder}/values"], stdout=subprocess.PIPE, check=True, timeout=10).stdout.split()
        self.assertEqual([value_of(name) for name in names], [int(value) for value in values])


if __name__ == "__main__":
    unittest.main()
