"""Tests of the built program as a process: what it prints, what it tells, and the status that it ends with."""
import pathlib
import subprocess
import tempfile
import unittest

import stand_in  # noqa: F401  (tools/ is on the path with it)

from built_program import NO_PROGRAM, TOP, real_program

PROGRAM = real_program()
STORED = TOP / "crates" / "bt_program"
RECORDING = str(TOP / "examples" / "small.btr")


@unittest.skipUnless(PROGRAM, NO_PROGRAM)
class Ends(unittest.TestCase):
    def setUp(self):
        folder = tempfile.TemporaryDirectory()
        self.addCleanup(folder.cleanup)
        self.folder = pathlib.Path(folder.name)

    def ended(self, *words, out=subprocess.PIPE):
        """Runs the program in a folder of the test, and gives its status, and the bytes that it printed and told."""
        done = subprocess.run([PROGRAM, *words], cwd=self.folder, stdin=subprocess.DEVNULL, stdout=out, stderr=subprocess.PIPE, timeout=60)
        return done.returncode, done.stdout, done.stderr

    def script(self, text):
        """The name of a script with this text."""
        (self.folder / "s.bt").write_text(text)
        return "s.bt"

    def test_work_that_is_done(self):
        """Status 0, the whole text, and nothing told."""
        words = (STORED / "args").read_text().split()
        self.assertEqual(self.ended(*words), (0, (STORED / "stdout").read_bytes(), b""))

    def test_words_that_are_no_command(self):
        """Status 1, and how the program is used."""
        for words in ([], ["check", "s.bt"], ["run", "--serial", "--serial", "s.bt", "r.btr"]):
            status, printed, told = self.ended(*words)
            self.assertEqual((status, printed), (1, b""))
            self.assertTrue(told.startswith(b"usage: btreplay run "), told)
            self.assertEqual(len(told.splitlines()), 8)

    def test_a_script_that_is_refused(self):
        """Status 2, and the first fault with its place."""
        script = self.script("BEGIN { @x = 1;")
        self.assertEqual(self.ended("run", script, RECORDING), (2, b"", b"s.bt:1:16: P1 syntax\n"))

    def test_a_recording_that_is_refused(self):
        """Status 3, and the place of the fault."""
        (self.folder / "r.btr").write_bytes(b"BTRACE0")
        self.assertEqual(self.ended("run", self.script("BEGIN { @x = 1; }"), "r.btr"), (3, b"", b"r.btr: C1 truncated at byte 7\n"))

    def test_files_that_are_not_there(self):
        """Status 4 for the first of them, and nothing printed."""
        self.assertEqual(self.ended("run", "no_such.bt", "no_such.btr"), (4, b"", b"no_such.bt: read fault\n"))
        self.assertEqual(self.ended("run", self.script("BEGIN { @x = 1; }"), "no_such.btr"), (4, b"", b"no_such.btr: read fault\n"))

    def test_output_that_takes_nothing(self):
        """Status 5."""
        with open("/dev/full", "wb") as full:
            self.assertEqual(self.ended("big", "1", "3", out=full), (5, None, b"write fault\n"))


if __name__ == "__main__":
    unittest.main()
