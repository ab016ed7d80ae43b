"""Tests of `make install` and `make uninstall`, into a folder of the test, and of the completion for bash there."""
import os
import pathlib
import shutil
import subprocess
import sys
import tempfile
import unittest

from stand_in import PROGRAM, TOP, two_kinds


@unittest.skipUnless(shutil.which("make") and shutil.which("install"), "there is no make")
class Install(unittest.TestCase):
    def setUp(self):
        folder = tempfile.TemporaryDirectory()
        self.addCleanup(folder.cleanup)
        self.folder = pathlib.Path(folder.name)
        self.program = self.folder / "stand-in"
        self.program.write_text(PROGRAM)
        self.program.chmod(0o755)
        self.prefix = self.folder / "root" / "opt" / "some prefix"

    def make(self, target, program=None):
        """Makes a target into the folder, and gives the status and what was told."""
        done = subprocess.run(["make", "-s", "-C", str(TOP), target, f"PROGRAM={program or self.program}", f"DESTDIR={self.folder}/root", "PREFIX=/opt/some prefix"],
                              stdout=subprocess.PIPE, stderr=subprocess.STDOUT)
        return done.returncode, done.stdout.decode()

    def files(self):
        """All files below the folder that is installed into."""
        return {str(path.relative_to(self.folder / "root")) for path in (self.folder / "root").rglob("*") if not path.is_dir() or path.is_symlink()}

    def test_in_and_out_again(self):
        (self.prefix / "bin").mkdir(parents=True)
        (self.prefix / "bin" / "other").write_text("not ours")
        self.assertEqual(self.make("install"), (0, ""))
        self.assertEqual(self.make("install"), (0, ""))
        there = {str(path.relative_to(self.prefix)) for path in self.prefix.rglob("*")}
        for wanted in ("bin/btreplay", "bin/btrecord", "bin/btfleet", "share/man/man1/btfleet.1", "lib/btreplay/tools/btfleet/preload.py",
                       "lib/btreplay/tools/reckoning/layout.py", "share/man/man1/btreplay.1", "share/man/man1/btrecord.1", "lib/btreplay/bt_program",
                       "lib/btreplay/tools/btrecord/__main__.py", "share/bash-completion/completions/btreplay", "lib/btreplay/version"):
            self.assertIn(wanted, there)
        self.assertFalse([name for name in there if "tests" in name or "__pycache__" in name])
        self.check_commands()
        self.assertEqual(self.make("uninstall"), (0, ""))
        self.assertEqual(self.files(), {"opt/some prefix/bin/other"})
        self.assertEqual(self.make("uninstall"), (0, ""))

    def test_nothing_is_written_beside_the_tools(self):
        """As where root uses them in the folder of somebody else."""
        environment = {name: value for name, value in os.environ.items() if name != "PYTHONDONTWRITEBYTECODE"}
        ignored = shutil.ignore_patterns("tests", "__pycache__")
        shutil.copytree(TOP / "tools", self.folder / "top" / "tools", ignore=ignored)
        shutil.copy(TOP / "btreplay", self.folder / "top" / "btreplay")
        (self.folder / "btrecord").symlink_to(self.folder / "top" / "btreplay")
        for tool, words in (("btreplay", [self.folder / "top" / "btreplay"]), ("btrecord", [self.folder / "btrecord"]),
                            ("btrecord", [sys.executable, self.folder / "top" / "tools" / "btrecord"])):
            done = subprocess.run([*map(str, words), "--help"], stdout=subprocess.PIPE, env=environment)
            self.assertIn(f"usage: {tool}".encode(), done.stdout)
            self.assertEqual(list((self.folder / "top").rglob("__pycache__")), [])

    def check_commands(self):
        """The commands as they are installed, called by their links from another folder."""
        (self.folder / "s.bt").write_text("t:a:idle { }")
        (self.folder / "r.btr").write_bytes(two_kinds())
        environment = {**os.environ, "STAND_IN": str(self.folder), "STAND_IN_OUT": "text", "STAND_IN_STATUS": "0", "PYTHONDONTWRITEBYTECODE": "1"}
        done = subprocess.run([str(self.prefix / "bin" / "btreplay"), "run", "s.bt", "r.btr"], cwd=self.folder, env=environment,
                              stdout=subprocess.PIPE, stderr=subprocess.PIPE)
        self.assertEqual((done.returncode, done.stdout, done.stderr), (0, b"text", b"btreplay: s.bt:1:1: the recording has no event of t:a:idle\n"))
        done = subprocess.run([str(self.prefix / "bin" / "btrecord"), "list", "r.btr"], cwd=self.folder, env=environment, stdout=subprocess.PIPE)
        self.assertEqual(done.stdout, b"tracepoint:a:idle\ntracepoint:a:seen\n")
        done = subprocess.run([str(self.prefix / "bin" / "btfleet"), "run", "s.bt", "r.btr", "./r.btr"], cwd=self.folder, env=environment, stderr=subprocess.PIPE)
        self.assertEqual((done.returncode, done.stderr), (1, b"btfleet: ./r.btr is named twice\n"))
        version = subprocess.run([str(self.prefix / "bin" / "btreplay"), "--version"], env=environment, stdout=subprocess.PIPE).stdout
        self.assertRegex(version.decode(), r"^btreplay[ ,].*\n$")

    def test_no_program(self):
        status, told = self.make("install", self.folder / "none")
        self.assertNotEqual(status, 0)
        self.assertIn("make install: there is no", told)
        self.assertFalse((self.folder / "root").exists())

    def test_what_is_not_ours_stays(self):
        (self.prefix / "lib" / "btreplay").mkdir(parents=True)
        (self.prefix / "lib" / "btreplay" / "own").write_text("of somebody")
        (self.prefix / "bin").mkdir()
        (self.prefix / "bin" / "btreplay").write_text("another program")
        self.assertEqual(self.make("uninstall")[0], 0)
        self.assertEqual(self.files(), {"opt/some prefix/lib/btreplay/own", "opt/some prefix/bin/btreplay"})


@unittest.skipUnless(shutil.which("bash"), "there is no bash")
class Completion(unittest.TestCase):
    def setUp(self):
        folder = tempfile.TemporaryDirectory()
        self.addCleanup(folder.cleanup)
        self.folder = pathlib.Path(folder.name)
        for name in ("s.bt", "r.btr", "a.account", "notes.txt"):
            (self.folder / name).touch()
        (self.folder / "sub").mkdir()

    def completed(self, *words):
        """What the last of the words may become."""
        script = (f"source '{TOP}/tools/btreplay/completion.bash'\nCOMP_WORDS=(\"$@\")\nCOMP_CWORD=$(($# - 1))\n_btreplay\nprintf '%s\\n' \"${{COMPREPLY[@]}}\"")
        done = subprocess.run(["bash", "--norc", "-c", script, "bash", "btreplay", *words], cwd=self.folder, stdout=subprocess.PIPE, stderr=subprocess.PIPE)
        self.assertEqual(done.stderr, b"")
        return sorted(done.stdout.decode().split())

    def test_words(self):
        choice = ["--help", "--proved", "--unproved"]
        commands = "run check explain code gen big account verify vet prove help".split()
        self.assertEqual(self.completed(""), sorted([*commands, "--version", *choice]))
        self.assertEqual(self.completed("ru"), ["run"])
        self.assertEqual(self.completed("help", ""), sorted(commands))
        self.assertEqual(self.completed("--unproved", "c"), ["check", "code"])
        self.assertEqual(self.completed("--unproved", "-"), sorted(["--version", *choice]))
        self.assertEqual(self.completed("run", "-"), sorted(["--json", "--serial", "--stats", "-e", *choice]))
        self.assertEqual(self.completed("run", "--unproved", "--se"), ["--serial"])
        self.assertEqual(self.completed("prove", "-"), ["--background", "--help"])
        self.assertEqual(self.completed("gen", ""), [])
        self.assertEqual(self.completed("account", "-"), sorted(["--serial", "-e", *choice]))
        for command in ("check", "vet", "verify"):
            self.assertEqual(self.completed(command, "-"), sorted(["-e", *choice]))

    def test_files(self):
        self.assertEqual(self.completed("run", ""), ["s.bt", "sub"])
        self.assertEqual(self.completed("run", "--serial", "s"), ["s.bt", "sub"])
        self.assertEqual(self.completed("run", "s.bt", ""), ["r.btr", "sub"])
        self.assertEqual(self.completed("run", "-e", ""), [])
        self.assertEqual(self.completed("run", "-e", "BEGIN { }", ""), ["r.btr", "sub"])
        self.assertEqual(self.completed("explain", "-", "r"), ["r.btr"])
        self.assertEqual(self.completed("vet", "s.bt", ""), ["r.btr", "sub"])
        self.assertEqual(self.completed("run", "s.bt", "r.btr", ""), [])
        self.assertEqual(self.completed("verify", "s.bt", "r.btr", ""), ["a.account", "sub"])
        self.assertEqual(self.completed("account", "s.bt", "r.btr", ""), [])


if __name__ == "__main__":
    unittest.main()
