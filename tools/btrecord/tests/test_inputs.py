"""Tests of outputs that are inputs, and of files that stand in the place of others: what is told, and that nothing of them is changed."""
import contextlib
import io
import os
import pathlib
import shutil
import subprocess
import sys
import tempfile
import unittest

from made import TOP, program

from faults import READ, RECORDING, WORDS
from inputs import overwritten
from unread import in_place_of_recording, in_place_of_script, is_script, why_unread

SMALL = os.path.join(TOP, "examples", "small.btr")
SCRIPT = "// which calls\ntracepoint:raw_syscalls:sys_enter { @ = count(); }\n"
TOOL = os.path.join(TOP, "tools", "btrecord")


class InFolder(unittest.TestCase):
    def setUp(self):
        folder = tempfile.TemporaryDirectory()
        self.addCleanup(folder.cleanup)
        self.folder = pathlib.Path(folder.name)
        shutil.copy(SMALL, self.folder / "s.btr")
        (self.folder / "s.bt").write_text(SCRIPT)
        self.addCleanup(os.chdir, os.getcwd())
        os.chdir(self.folder)

    def told(self, *words):
        """The status of the program, what it printed and what it told."""
        with contextlib.redirect_stdout(io.StringIO()) as out, contextlib.redirect_stderr(io.StringIO()) as err:
            try:
                status = program.main(list(words))
            except SystemExit as ended:
                status = ended.code
        return status, out.getvalue(), err.getvalue()

    def left(self):
        """The bytes of all files of the folder, by their names."""
        return {path.name: path.read_bytes() for path in self.folder.iterdir() if path.is_file()}


class Outputs(InFolder):
    def refused(self, told, *words):
        """Tests that a command is refused, and leaves all as it was."""
        before = self.left()
        with self.subTest(words):
            self.assertEqual(self.told(*words), (WORDS, "", f"btrecord: {told}, and would be written over: name another file by -o\n"))
            self.assertEqual(self.left(), before)

    def test_the_file_itself_and_its_links(self):
        (self.folder / "data").mkdir()
        os.symlink("s.btr", "soft.btr")
        os.link("s.btr", "hard.btr")
        (self.folder / "p.data").write_bytes(b"PERFILE2" + bytes(200))
        self.refused("s.btr is read", "dump", "s.btr", "-o", "s.btr")
        self.refused("s.btr is read", "dump", "--chrome", "s.btr", "-o", "s.btr")
        self.refused("s.btr is read", "cut", "s.btr", "-o", "s.btr")
        self.refused("p.data is read", "convert", "p.data", "-o", "p.data")
        self.refused("s.bt is read", "record", "--for", "s.bt", "-o", "s.bt")
        for name in ("soft.btr", "hard.btr", "data/../s.btr"):
            self.refused(f"{name} is the same file as s.btr, which is read", "cut", "s.btr", "-o", name)
            self.refused(f"s.btr is the same file as {name}, which is read", "dump", name, "-o", "s.btr")

    def test_a_format_of_the_folder(self):
        format = self.folder / "events" / "sched" / "sched_switch" / "format"
        format.parent.mkdir(parents=True)
        format.write_text("name: sched_switch\n")
        (self.folder / "p.data").write_bytes(b"PERFILE2" + bytes(200))
        self.refused(f"{format} is the same file as events/sched/sched_switch/format, which is read", "convert", "p.data", "--formats", "events", "-o", str(format))

    def test_standard_output_that_is_the_recording(self):
        """Behind >> the file is whole when the command begins."""
        before = self.left()
        for words in (["cut", "s.btr", "-o", "-"], ["dump", "s.btr"], ["info", "s.btr"], ["list", "s.btr"]):
            with open("s.btr", "ab") as file:
                done = subprocess.run([sys.executable, "-B", TOOL, *words], stdout=file, stderr=subprocess.PIPE, timeout=60)
            self.assertEqual((done.returncode, done.stderr),
                             (WORDS, b"btrecord: standard output is s.btr, which is read, and would be written over: name another file\n"))
            self.assertEqual(self.left(), before)

    def test_other_outputs_are_taken(self):
        self.assertEqual(self.told("dump", "s.btr", "-o", "other")[0], 0)
        self.assertEqual(self.told("cut", "s.btr", "-o", "part.btr")[0], 0)
        self.assertEqual(self.told("cut", "s.btr", "-o", "part.btr")[0], 0)
        self.assertEqual(self.left()["part.btr"], self.left()["s.btr"])
        self.assertEqual(overwritten("/dev/null", ["/dev/null", "s.bt"]), "")
        self.assertEqual(overwritten("none", ["none", "s.bt"]), "")


class Places(InFolder):
    def test_files_of_others(self):
        """info, list, dump and cut tell what run tells."""
        for begin, what in ((b"PERFILE2", "is a file of perf: btrecord convert o -o my.btr makes a recording of it"),
                            (b"\x17\x08\x44tracing6", "is a file of trace-cmd: btrecord convert o -o my.btr makes a recording of it"),
                            (b"\x1f\x8b\x08", "is compressed by gzip: unpack it first"),
                            (SCRIPT.encode(), "is a script, and a recording belongs here: btrecord record --for o -o my.btr records what it names")):
            (self.folder / "o").write_bytes(begin + b"\n" * 100)
            for words in (["info", "o"], ["list", "o"], ["dump", "o"], ["cut", "o", "-o", "part.btr"]):
                with self.subTest(words=words, what=what):
                    self.assertEqual(self.told(*words), (RECORDING, "", f"btrecord: o: C2 bad magic\nbtrecord: o {what}\n"))
            self.assertFalse((self.folder / "part.btr").exists())

    def test_a_short_script(self):
        (self.folder / "o.bt").write_text("BEGIN { }")
        self.assertEqual(self.told("info", "o.bt")[2].splitlines()[1],
                         "btrecord: o.bt is a script, and a recording belongs here: btrecord record --for o.bt -o my.btr records what it names")

    def test_a_recording_in_the_place_of_others(self):
        self.assertEqual(self.told("convert", "s.btr", "-o", "n.btr"), (RECORDING, "", "btrecord: s.btr is a recording already\n"))
        self.assertEqual(self.told("record", "--for", "s.btr", "-o", "n.btr"), (WORDS, "", "btrecord: s.btr is a recording, and a script belongs here\n"))
        self.assertEqual(sorted(self.left()), ["s.bt", "s.btr"])

    def test_files_that_are_not_there(self):
        for words in (["info"], ["list"], ["dump"], ["cut", "-o", "n.btr"], ["convert", "-o", "n.btr"], ["record", "-o", "n.btr", "--for"]):
            with self.subTest(words):
                self.assertEqual(self.told(*words, "none"), (READ, "", "btrecord: none: there is no such file\n"))
                self.assertEqual(self.told(*words, "no/ne"), (READ, "", "btrecord: no/ne: there is no folder no\n"))
        self.assertEqual(self.told("info", "."), (READ, "", "btrecord: .: it is a folder\n"))

    def test_what_is_a_script(self):
        for text in ("#!/usr/bin/env bpftrace\n/* a */ // b\nkprobe:vfs_read { }", "BEGIN{ }", "t:a:b,t:a:c { }", "begin\n{ }", "t:a:b / pid == 1 / { }",
                     "#include <linux/x.h>\n\nBEGIN { }", "config = { x=1 }", "struct a { int x; }\nBEGIN { }"):
            self.assertTrue(is_script(text.encode()), text)
        for content in (b"", b"\0BEGIN { }", b"a text\n", b"name: x\nID: 5\n", b"{}", b"BEGINNING { }", b"https://a/ {"):
            self.assertFalse(is_script(content), content)
        for path in sorted(pathlib.Path(TOP, "examples").glob("*.bt")):
            self.assertTrue(is_script(path.read_bytes()), path)
        self.assertEqual(in_place_of_recording("r", b"BTRACE01"), [])
        self.assertEqual(in_place_of_script("s", SCRIPT.encode()), [])
        self.assertEqual(why_unread("s.bt"), "the system could not read it")


if __name__ == "__main__":
    unittest.main()
