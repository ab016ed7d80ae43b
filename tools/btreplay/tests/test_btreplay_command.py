"""Tests of the command, by a stand-in for the program: what reaches it, what comes from it, and what is told beside it."""
import fcntl
import os
import pty
import re
import resource
import shutil
import signal
import subprocess
import tempfile
import time
import unittest

from stand_in import TOP, Installed, two_kinds

ORDER = "btreplay: @x is set in one probe and read in another, so the answer depends on the order of CPUs; run --serial takes all events by their times\n"
PAIR = "t:a:seen { @x[tid] = nsecs; } t:a:seen /@x[tid]/ { @h = hist(nsecs - @x[tid]); }"


TOLD = "btreplay: this build is not proved; ./btreplay prove makes the program that is\n"


class Command(unittest.TestCase):
    def setUp(self):
        folder = tempfile.TemporaryDirectory()
        self.addCleanup(folder.cleanup)
        self.at = Installed(folder.name)
        self.at.write("r.btr", two_kinds())
        self.at.write("s.bt", "t:a:seen { @ = count(); }")

    def test_words_text_and_status_are_the_programs_own(self):
        self.assertEqual(self.at.run("run", "--serial", "s.bt", "r.btr", "--stats", out="a\n\nb"), (0, "a\n\nb", ""))
        self.assertEqual(self.at.words(), ["run", "--serial", "s.bt", "r.btr", "--stats"])
        self.assertEqual(self.at.run("run", "--json", "s.bt", "r.btr", out="{}\n"), (0, "{}\n", ""))
        self.assertEqual(self.at.words(), ["run", "--json", "s.bt", "r.btr"])
        for status in (1, 2, 3, 5, 6, 7, 8, 77):
            self.assertEqual(self.at.run("gen", "1", "2", status=status, err="some fault"), (status, "", "some fault\n"))
        self.at.run("check", "a script -e", "r.btr --serial", status=4)
        self.assertEqual(self.at.words(), ["check", "a script -e", "r.btr --serial"])

    def test_huge_pages_are_asked_for(self):
        """Unless the caller says otherwise; what else the caller tells the C library stands."""
        words, does = ("gen", "1", "2"), 'printf %s "$GLIBC_TUNABLES"'
        for tunables, given in (("", "glibc.malloc.hugetlb=1"), ("glibc.malloc.hugetlb=0", "glibc.malloc.hugetlb=0"),
                                ("glibc.malloc.check=1", "glibc.malloc.check=1:glibc.malloc.hugetlb=1")):
            self.assertEqual(self.at.run(*words, does=does, more=[("GLIBC_TUNABLES", tunables)]), (0, given, ""))

    def test_the_order_of_cpus_is_told_once_and_for_a_run_without_serial_alone(self):
        self.at.write("pair.bt", PAIR)
        self.assertEqual(self.at.run("run", "pair.bt", "r.btr", out="text"), (0, "text", ORDER))
        for words in (["run", "--serial", "pair.bt", "r.btr"], ["run", "pair.bt", "r.btr", "--serial"], ["check", "pair.bt", "r.btr"],
                      ["code", "pair.bt", "r.btr"], ["vet", "pair.bt", "r.btr"]):
            self.assertEqual(self.at.run(*words, out="text"), (0, "text", ""))
        self.at.write("one.btr", two_kinds(cpus=1))
        self.assertEqual(self.at.run("run", "pair.bt", "one.btr"), (0, "", ""))
        self.assertEqual(self.at.run("run", "pair.bt", "r.btr", status=2, err="pair.bt:1:1: K1 frame too large"),
                         (2, "", "pair.bt:1:1: K1 frame too large\n"))

    def test_words_that_are_no_command(self):
        """What is wrong stands first and the usage behind it, and the program is not run."""
        files = "takes a script and a recording, and"
        for words, why in (([], "no command is given; btreplay run SCRIPT RECORDING is the first one to try"),
                           (["rum", "s.bt", "r.btr"], "there is no command rum; run may be meant"),
                           (["-v"], "there is no option -v; --version may be meant"),
                           (["run"], f"run {files} 0 words stand there"),
                           (["run", "s.bt"], f"run {files} 1 word stands there"),
                           (["run", "", "r.btr"], "an empty word is no name of a file"),
                           (["check"], f"check {files} 0 words stand there"),
                           (["gen", "1", "2", "3"], "gen takes two numbers, as in 7 1000, and 3 words stand there"),
                           (["big", "1", "x"], "big takes two numbers, as in 7 1000"),
                           (["run", "--seriall", "s.bt", "r.btr"], "run has no option --seriall; it has --serial, --stats and --json"),
                           (["run", "--serial", "s.bt", "r.btr", "--serial"], "--serial stands there more than once"),
                           (["check", "--serial", "s.bt", "r.btr"], "check has no option --serial"),
                           (["vet", "s.bt"], f"vet {files} 1 word stands there"),
                           (["account", "--stats", "s.bt", "r.btr"], "account has no option --stats; it has --serial"),
                           (["verify", "s.bt", "r.btr"], "verify takes a script, a recording and an account, and 2 words stand there"),
                           (["verify", "--serial", "s.bt", "r.btr", "a.account"], "verify has no option --serial"),
                           (["run", "-e"], "a script stands behind -e, and a recording"),
                           (["run", "-e", "BEGIN { }"], f"run {files} 1 word stands there"),
                           (["explain", "s.bt"], f"explain {files} 1 word stands there"),
                           (["run", "-"], f"run {files} 1 word stands there")):
            with self.subTest(words):
                status, out, err = self.at.run(*words, status=9)
                self.assertEqual((status, out, err.splitlines()[0]), (1, "", f"btreplay: {why}"))
                known = words and words[0] in ("run", "check", "gen", "big", "vet", "account", "verify", "explain")
                self.assertIn(f"\nusage: btreplay {words[0]} " if known else "\nusage: btreplay COMMAND ", err)
                self.assertFalse((self.at.folder / "words").exists())

    def test_a_script_in_the_words(self):
        self.assertEqual(self.at.run("run", "-e", PAIR, "r.btr", out="text"), (0, "text", ORDER))
        for words in (["run", "--serial", "-e", "BEGIN { }", "r.btr"], ["run", "r.btr", "--serial", "-e", "BEGIN { }"],
                      ["run", "-e", "BEGIN { }", "--serial", "r.btr"]):
            self.assertEqual(self.at.run(*words)[0], 0)
            got = self.at.words()
            operands = [word for word in got if not word.startswith("-")]
            self.assertEqual((got[0], got.count("--serial"), len(got), operands[2]), ("run", 1, 4, "r.btr"))
            self.assertRegex(operands[1], r"/dev/fd/\d+")
            self.assertEqual((self.at.folder / "script").read_text(), "BEGIN { }")
        self.assertEqual(self.at.run("check", "-e", "BEGIN #", "r.btr", status=2, err="@SCRIPT@:1:7: X1 bad character"),
                         (2, "", "-e:1:7: X1 bad character\n"))
        self.assertEqual(self.at.run("verify", "-e", "BEGIN { }", "r.btr", "a.account", status=7, err="a.account: N2 wrong step 0"),
                         (7, "", "a.account: N2 wrong step 0\n"))
        self.assertEqual([word for word in self.at.words() if not word.startswith("/dev/fd/")], ["verify", "r.btr", "a.account"])
        self.assertEqual(self.at.run("run", "-e", status=9)[0], 1)
        self.assertEqual([word for word in self.at.words() if not word.startswith("/dev/fd/")], ["verify", "r.btr", "a.account"])

    def test_a_script_on_standard_input(self):
        script = b"BEGIN { } // \xff\x00"
        self.assertEqual(self.at.run("run", "-", "r.btr", given=script, status=2, err="@SCRIPT@:1:14: P1 syntax"), (2, "", "-:1:14: P1 syntax\n"))
        self.assertEqual((self.at.folder / "script").read_bytes(), script)
        self.at.run("run", "-", "r.btr", given=b" " * 200_000)
        self.assertEqual(len((self.at.folder / "script").read_bytes()), 65_537)

    def test_why_a_file_was_not_read(self):
        self.at.write("shut.bt", "BEGIN { }")
        os.chmod(self.at.folder / "shut.bt", 0)
        for name, why in {"no.bt": "there is no such file", ".": "it is a folder", "no/s.bt": "there is no folder no",
                          "s.bt/x": "Not a directory", "shut.bt": "there is no permission to read it"}.items():
            if name == "shut.bt" and os.access(self.at.folder / name, os.R_OK):
                continue
            self.assertEqual(self.at.run("run", name, "r.btr", status=4, err=f"{name}: read fault"),
                             (4, "", f"{name}: read fault\nbtreplay: {name}: {why}\n"))
        self.assertEqual(self.at.run("run", "s.bt", "no.btr", status=4, err="no.btr: read fault")[2],
                         "no.btr: read fault\nbtreplay: no.btr: there is no such file\n")
        self.assertEqual(self.at.run("verify", "s.bt", "r.btr", "no.account", status=4, err="no.account: read fault")[2],
                         "no.account: read fault\nbtreplay: no.account: there is no such file\n")

    def test_operands_in_the_other_order(self):
        told = "btreplay: r.btr is a recording and s.bt is none: the script comes first, then the recording\n"
        self.assertEqual(self.at.run("check", "r.btr", "s.bt", status=3, err="s.bt: C1 truncated at byte 25"), (3, "", "s.bt: C1 truncated at byte 25\n" + told))
        self.assertEqual(self.at.run("check", "r.btr", "s.bt", status=2, err="r.btr: script too long"), (2, "", "r.btr: script too long\n" + told))
        self.assertEqual(self.at.run("check", "r.btr", "r.btr", status=2, err="r.btr:1:1: P1 syntax"), (2, "", "r.btr:1:1: P1 syntax\n"))

    def test_a_script_in_the_place_of_a_recording(self):
        told = "is a script, and a recording belongs here: btrecord record --for o.bt -o my.btr records what it names"
        self.at.write("o.bt", "BEGIN { }")
        self.assertEqual(self.at.run("run", "s.bt", "o.bt", status=3, err="o.bt: C1 truncated at byte 9"),
                         (3, "", f"o.bt: C1 truncated at byte 9\nbtreplay: o.bt {told}\n"))

    def test_an_output_that_is_an_input(self):
        """Nothing is run, and nothing is written behind what is read."""
        for words in (["run", "s.bt", "r.btr"], ["account", "s.bt", "r.btr"], ["explain", "s.bt", "r.btr"], ["verify", "s.bt", "r.btr", "r.btr"]):
            for name in ("s.bt", "r.btr"):
                before = (self.at.folder / name).read_bytes()
                with open(self.at.folder / name, "ab") as file:
                    done = subprocess.run([str(self.at.top / "btreplay"), *words], cwd=self.at.folder, env=self.at.environment(out="text"),
                                          stdin=subprocess.DEVNULL, stdout=file, stderr=subprocess.PIPE, timeout=60)
                told = f"btreplay: standard output is {name}, which is read, and would be written over: name another file\n"
                self.assertEqual((done.returncode, done.stderr.decode()), (1, told))
                self.assertEqual((self.at.folder / name).read_bytes(), before)

    def test_a_file_of_another_program(self):
        for begin, told in ((b"\x17\x08\x44tracing6", "is a file of trace-cmd: btrecord convert o.dat -o my.btr makes a recording of it"),
                            (b"PERFILE2", "is a file of perf: btrecord convert o.dat -o my.btr makes a recording of it"),
                            (b"\x1f\x8b\x08", "is compressed by gzip: unpack it first"), (b"\x28\xb5\x2f\xfd", "is compressed by zstd: unpack it first")):
            self.at.write("o.dat", begin + bytes(100))
            for words in (["run", "s.bt", "o.dat"], ["check", "-e", "BEGIN { }", "o.dat"], ["explain", "s.bt", "o.dat"]):
                self.assertEqual(self.at.run(*words, status=3, err="o.dat: C2 bad magic")[2], f"o.dat: C2 bad magic\nbtreplay: o.dat {told}\n")
        self.assertEqual(self.at.run("run", "s.bt", "r.btr", status=3, err="r.btr: C1 truncated")[2], "r.btr: C1 truncated\n")

    def test_files_that_a_shell_leaves_open(self):
        """As `btreplay run <(..) <(..)`, where the names are those of pipes that the shell holds open."""
        if not shutil.which("bash"):
            self.skipTest("there is no bash")
        done = subprocess.run(["bash", "-c", f'"{self.at.top}/btreplay" run <(echo one) <(echo two)'], stdout=subprocess.PIPE, stderr=subprocess.STDOUT,
                              env=self.at.environment(does='cat "$recording"'))
        self.assertEqual((done.returncode, done.stdout, (self.at.folder / "script").read_text()), (0, b"two\n", "one\n"))

    def test_a_reader_that_goes_away(self):
        """As `| head -1`: the program's own word for it, its end by the signal, and its status pass without a line."""
        for does in ("sleep 0.2; echo 'write fault' >&2; exit 5", "sleep 0.2; echo text; kill -PIPE $$"):
            child = subprocess.Popen([str(self.at.top / "btreplay"), "run", "s.bt", "r.btr"], stdout=subprocess.PIPE, stderr=subprocess.PIPE,
                                     cwd=self.at.folder, env=self.at.environment(does=does))
            child.stdout.close()
            self.assertEqual(child.stderr.read(), b"")
            child.stderr.close()
            self.assertIn(child.wait(), (5, -signal.SIGPIPE))
        with open("/dev/full", "wb") as full:
            done = subprocess.run([str(self.at.top / "btreplay"), "run", "s.bt", "r.btr"], stdout=full, stderr=subprocess.PIPE, cwd=self.at.folder,
                                  env=self.at.environment(err="write fault", status=5))
        self.assertEqual((done.returncode, done.stderr), (5, b"write fault\n"))

    def test_streams_that_are_closed(self):
        """The program finds closed what is closed, and nothing of this command stands in its place."""
        self.at.write("pair.bt", PAIR)
        for closed, wanted in ((">&-", "0 2"), ("2>&-", "0 1"), ("<&- >&- 2>&-", "")):
            does = 'for n in 0 1 2; do [ ! -e /proc/$$/fd/$n ] || open="$open${open:+ }$n"; done; echo "$open" >"$STAND_IN/open"'
            done = subprocess.run(["sh", "-c", f'"$0" run pair.bt r.btr {closed}', str(self.at.top / "btreplay")], stdin=subprocess.DEVNULL,
                                  stdout=subprocess.DEVNULL, stderr=subprocess.DEVNULL, cwd=self.at.folder, env=self.at.environment(does=does))
            opened = (self.at.folder / "open").read_text().strip().split()
            self.assertEqual((done.returncode, [number for number in opened if number != "2"]), (0, [number for number in wanted.split() if number != "2"]))

    def test_names_that_are_no_text(self):
        name = b"\xff.bt"
        with open(os.path.join(os.fsencode(str(self.at.folder)), name), "wb") as file:
            file.write(PAIR.encode())
        for command in ("run", "explain"):
            done = subprocess.run([os.fsencode(str(self.at.top / "btreplay")), command.encode(), name, b"r.btr"], stdin=subprocess.DEVNULL,
                                  stdout=subprocess.PIPE, stderr=subprocess.STDOUT, cwd=self.at.folder, env=self.at.environment())
            self.assertEqual((done.returncode, done.stdout.decode().splitlines()[0]), (1, "btreplay: a word that is no UTF-8 text is no name of a file"))
        done = subprocess.run([os.fsencode(str(self.at.top / "btreplay")), b"run", b"-e", b"// \xff", b"r.btr"], stdin=subprocess.DEVNULL,
                              stdout=subprocess.PIPE, stderr=subprocess.STDOUT, cwd=self.at.folder, env=self.at.environment())
        self.assertEqual((done.returncode, (self.at.folder / "script").read_bytes()), (0, b"// \xff"))

    def test_signals_reach_the_program(self):
        for number in (signal.SIGTERM, signal.SIGINT):
            # Where the tests run behind a shell that gave them up, that signal is ignored.
            child = subprocess.Popen([str(self.at.top / "btreplay"), "run", "s.bt", "r.btr"], stdout=subprocess.PIPE, stderr=subprocess.PIPE,
                                     cwd=self.at.folder, env=self.at.environment(does="echo $$; exec sleep 60"),
                                     preexec_fn=lambda: signal.signal(number, signal.SIG_DFL))
            running = int(child.stdout.readline())
            # The program stands in the list of processes until the command has waited for it.
            time.sleep(0.3)
            child.send_signal(number)
            self.assertEqual((child.communicate(timeout=120)[1], child.returncode), (b"", -number))
            with self.assertRaises(ProcessLookupError):
                os.kill(running, 0)

    def test_a_caret_on_a_terminal(self):
        self.at.write("s.bt", "BEGIN {\n\tprintf(\"\u00e4%d\\n\", comm);\n}\n")
        self.assertEqual(self.told_on_a_terminal("check", "s.bt", "r.btr", status=2, err="s.bt:2:9: Y7 bad format"),
                         ["s.bt:2:9: Y7 bad format", "   printf(\"\u00e4%d\\n\", comm);", "          ^"])
        self.assertEqual(self.told_on_a_terminal("check", "-e", "BEGIN #", "r.btr", status=2, err="@SCRIPT@:1:7: X1 bad character"),
                         ["-e:1:7: X1 bad character", "  BEGIN #", "        ^"])
        self.assertEqual(self.told_on_a_terminal("check", "s.bt", "r.btr", status=3, err="r.btr: C2 bad magic"), ["r.btr: C2 bad magic"])
        self.assertEqual(self.told_on_a_terminal("run", "s.bt", "r.btr"), [])

    def told_on_a_terminal(self, *words, **how):
        """The lines that come where standard error is a terminal."""
        ours, theirs = pty.openpty()
        try:
            subprocess.run([str(self.at.top / "btreplay"), *words], stdin=subprocess.DEVNULL, stdout=subprocess.DEVNULL, stderr=theirs, cwd=self.at.folder,
                           env=self.at.environment(**how), timeout=120)
            os.write(theirs, b"end\n")
            told = b""
            while not told.endswith(b"end\r\n"):
                told += os.read(ours, 4096)
        finally:
            os.close(ours)
            os.close(theirs)
        return told.decode().replace("\r\n", "\n").splitlines()[:-1]

    def test_help_and_version(self):
        status, out, err = self.at.run("--help")
        self.assertEqual((status, err), (0, ""))
        for word in ("runs scripts of the bpftrace language", "usage: ", "    explain  SCRIPT RECORDING", "-e 'PROGRAM'", "--version", "examples:"):
            self.assertIn(word, out)
        self.assertEqual([self.at.run(word) for word in ("-h", "help")], [(0, out, "")] * 2)
        of_run = self.at.run("help", "run")
        self.assertTrue(of_run[1].startswith("usage: btreplay run [--serial] [--stats] [--json] SCRIPT RECORDING\n"), of_run)
        for words in (["run", "-h"], ["run", "--help"], ["--help", "run"], ["run", "s.bt", "r.btr", "-h"]):
            self.assertEqual(self.at.run(*words), of_run)
        self.assertEqual(self.at.run("help", "rum")[2].splitlines()[0], "btreplay: there is no command rum; run may be meant")
        self.assertEqual(self.at.run("run", "-e", "--help", "r.btr")[0], 0)
        self.assertEqual(self.at.words()[-1], "r.btr")
        self.assertNotIn("--unproved", out)
        (self.at.top / "version").write_text("btreplay, proved with a kit at a commit\n")
        self.assertEqual(self.at.run("--version"), (0, "btreplay, proved with a kit at a commit\n", ""))
        self.assertEqual(self.at.run("--unproved", "check", "s.bt", "r.btr")[0], 1)
        self.assertEqual(self.at.run("check", "s.bt", "r.btr", "--proved")[0], 0)
        self.assertEqual(self.at.run("prove"), (1, "", "btreplay: prove is for a checkout of the repository; the program that is installed here is proved\n"))

    def test_the_stack_that_a_run_wants(self):
        """It is raised where it may be; where it may not and the run ends for it, that is told."""
        def limits(soft, hard):
            return lambda: resource.setrlimit(resource.RLIMIT_STACK, (soft * 1024, hard * 1024))
        for soft, hard, does, status, out, err in ((512, 4096, "ulimit -s", 0, "1024\n", ""), (2048, 4096, "ulimit -s", 0, "2048\n", ""),
                                                   (512, 700, "ulimit -s; kill -SEGV $$", -signal.SIGSEGV, "700\n",
                                                    "btreplay: a run wants a stack of 1024 KB, and may have 700; ulimit -s 1024 gives it\n")):
            done = subprocess.run([str(self.at.top / "btreplay"), "gen", "1", "2"], stdin=subprocess.DEVNULL, stdout=subprocess.PIPE, stderr=subprocess.PIPE,
                                  cwd=self.at.folder, env=self.at.environment(does=does), preexec_fn=limits(soft, hard), timeout=120)
            self.assertEqual((done.returncode, done.stdout.decode(), done.stderr.decode()), (status, out, err))

    def test_without_python(self):
        os.mkdir(self.at.folder / "empty")
        for name in ("readlink", "dirname", "sh"):
            os.symlink(subprocess.run(["which", name], stdout=subprocess.PIPE).stdout.decode().strip(), self.at.folder / "empty" / name)
        done = subprocess.run([str(self.at.top / "btreplay"), "check", "s.bt", "r.btr"], stdout=subprocess.PIPE, stderr=subprocess.PIPE,
                              env={"PATH": str(self.at.folder / "empty")})
        self.assertEqual((done.returncode, done.stdout, done.stderr), (1, b"", b"btreplay: this command needs python3, and there is none on the path\n"))


class Builds(unittest.TestCase):
    def setUp(self):
        folder = tempfile.TemporaryDirectory()
        self.addCleanup(folder.cleanup)
        self.at = Installed(folder.name)
        self.at.check_out()
        self.at.write("r.btr", two_kinds())
        self.at.write("s.bt", "t:a:seen { @ = count(); }")
        self.source = self.at.top / "crates" / "bt_core" / "src" / "main.rt"

    def builds(self):
        """How often the toolchain was asked to build."""
        path = self.at.folder / "builds"
        return len(path.read_text().splitlines()) if path.exists() else 0

    def unproved(self, *words, **how):
        """Runs the command by the build that is not proved."""
        return self.at.run("--unproved", *words, **how)

    def test_one_build_for_the_same_sources(self):
        status, out, err = self.unproved("run", "s.bt", "r.btr", out="text", status=3)
        self.assertEqual((status, out, err.splitlines(True)[0]), (3, "text", TOLD))
        self.assertEqual([line.partition(" (")[2].partition(")")[0] for line in err.splitlines()[1:]], ["1 of 3", "2 of 3", "3 of 3"])
        self.assertRegex(err, r"btreplay: [^\n]*, about \d+ seconds left\n")
        for words in (["--unproved", "run", "s.bt", "r.btr"], ["run", "--unproved", "s.bt", "r.btr"], ["run", "s.bt", "r.btr", "--unproved"],
                      ["run", "s.bt", "r.btr"]):
            self.assertEqual(self.at.run(*words, out="text", status=3), (3, "text", TOLD))
            self.assertEqual(self.at.words(), ["run", "s.bt", "r.btr"])
        self.assertEqual(self.builds(), 1)
        (self.at.top / "crates" / "other" / "src" / "main.rt").write_text("// not below the program\n")
        self.unproved("gen", "1", "2")
        self.assertEqual(self.builds(), 1)
        before = self.source.read_text()
        self.source.write_text("// changed\n")
        self.unproved("gen", "1", "2")
        self.assertEqual(self.builds(), 2)
        self.source.write_text(before)
        self.unproved("gen", "1", "2")
        self.assertEqual(self.builds(), 2)

    def test_the_build_is_optimised_and_linked_as_a_proved_program_is(self):
        self.assertEqual(self.unproved("gen", "1", "2", out="x")[:2], (0, "x"))
        kit, links = self.at.folder / "a kit", (self.at.folder / "builds").read_text().strip()
        self.assertNotEqual(links, str(kit))
        work = os.path.dirname(links)
        tools = [line for line in (self.at.folder / "tools").read_text().splitlines() if " -emit-llvm " not in line]
        self.assertEqual(tools, [
            f"clang --sysroot={links}/toolchain -c -x ir /dev/null -o probe.o -O0",
            f"clang --sysroot={links}/toolchain -c -x ir {work}/code.bc -o {work}/code.o -O1",
            f"rattle-link --target x86_64-unknown-linux-gnu --toolchain {kit}/toolchain -o {work}/program {work}/code.o {kit}/c/libos_c.a {kit}/c/liblibc_c.a"])
        self.assertFalse(os.path.exists(work))
        self.assertEqual(sorted(str(path.relative_to(kit)) for path in kit.rglob("*") if path.is_file()),
                         ["START-HERE.md", "bin/rattle-link", "bin/rt", "c/asan.a", "c/liblibc_c.a", "c/libos_c.a", "toolchain/bin/clang"])
        self.assertEqual((kit / "c" / "asan.a").read_text(), "asan")

    def test_a_check_that_fails_as_it_runs_is_told(self):
        self.unproved("gen", "1", "2")
        told = TOLD + "btreplay: a check of this build failed as it ran\n"
        self.assertEqual(self.unproved("gen", "1", "2", does="kill -ILL $$"), (-signal.SIGILL, "", told))
        self.assertEqual(self.unproved("gen", "1", "2", does="kill -TERM $$"), (-signal.SIGTERM, "", told.splitlines(True)[0]))

    def test_builds_are_bounded_and_nothing_else_is_left(self):
        for number in range(5):
            self.source.write_text(f"// {number}\n")
            self.unproved("gen", "1", "2")
        kept = sorted(path.name for path in (self.at.folder / "cache" / "btreplay").iterdir())
        self.assertEqual((len(kept), kept[0]), (4, "lock"))
        self.assertTrue(all(re.fullmatch("unproved-[0-9a-f]{32}", name) for name in kept[1:]))
        self.unproved("gen", "1", "2")
        self.assertEqual(self.builds(), 5)

    def test_a_build_that_fails_is_told_and_not_kept(self):
        status, out, err = self.unproved("gen", "1", "2", more={"STAND_IN_FAILS": "no such type"})
        self.assertEqual((status, out), (1, ""))
        self.assertTrue(err.startswith(TOLD) and err.endswith("error: no such type\nbtreplay: the program could not be built\n"), err)
        self.assertEqual([path.name for path in (self.at.folder / "cache" / "btreplay").iterdir()], ["lock"])
        for tool in ("clang", "rattle-link"):
            err = self.unproved("gen", "1", "2", more={"STAND_IN_BROKEN": tool})[2]
            self.assertRegex(err, f"(?s)error: .*/{tool} is broken\n.*btreplay: the program could not be built\n$")
        self.assertEqual(self.unproved("gen", "1", "2", out="x")[:2], (0, "x"))

    def test_two_at_once_build_once(self):
        children = [subprocess.Popen([str(self.at.top / "btreplay"), "--unproved", "gen", "1", "2"], stdout=subprocess.PIPE, stderr=subprocess.PIPE,
                                     cwd=self.at.folder, env=self.at.environment(out="x")) for _ in range(3)]
        self.assertEqual([(child.communicate(timeout=120)[0], child.returncode) for child in children], [(b"x", 0)] * 3)
        self.assertEqual(self.builds(), 1)

    def test_a_build_that_is_stopped_leaves_nothing(self):
        for words in (["gen", "1", "2"], ["prove"]):
            child = subprocess.Popen([str(self.at.top / "btreplay"), *words], stdout=subprocess.PIPE, stderr=subprocess.PIPE, cwd=self.at.folder,
                                     env=self.at.environment(more={"STAND_IN_SLOW": "yes", "TMPDIR": str(self.at.folder)}))
            until, before = time.monotonic() + 60, self.builds()
            while self.builds() == before and time.monotonic() < until:
                time.sleep(0.05)
            child.terminate()
            child.communicate(timeout=120)
            self.assertEqual(child.returncode, 128 + signal.SIGTERM)
        self.assertEqual(sorted(path.name for path in (self.at.folder / "cache" / "btreplay").iterdir()), ["lock", "proving"])
        self.assertEqual(list(self.at.folder.glob("btreplay-*")), [])

    def test_where_nothing_can_be_kept(self):
        self.at.write("file", "")
        self.assertEqual(self.unproved("gen", "1", "2", out="x", more={"XDG_CACHE_HOME": f"{self.at.folder}/file", "TMPDIR": str(self.at.folder)})[:2], (0, "x"))
        err = self.unproved("gen", "1", "2", more={"XDG_CACHE_HOME": f"{self.at.folder}/file", "TMPDIR": str(self.at.folder)})[2]
        self.assertIn("/file/btreplay: Not a directory, so the build is made for this use alone; XDG_CACHE_HOME names another folder", err)
        self.assertEqual([path.name for path in self.at.folder.glob("btreplay-*")], [])

    def test_the_proved_program_is_built_once_and_again_for_newer_sources(self):
        self.assertRegex(self.at.run("--version")[1], r"^btreplay at .*, not proved and built here\n$")
        refused = (1, "", "btreplay: the program is not proved and built here, or its sources are newer; ./btreplay prove does that\n")
        self.assertEqual(self.at.run("gen", "1", "2", "--proved", out="x"), refused)
        is_proved = f"the program is proved: {self.at.top}/crates/bt_program/out/bt_program\n"
        status, out, err = self.at.run("prove")
        self.assertEqual((status, out), (0, is_proved))
        self.assertRegex(err, r"^btreplay: proving and building the program, 2 crates, \d+ at a time; this takes a while the first time\n"
                              "btreplay: crate 1 of 2 is proved\nbtreplay: crate 2 of 2 is proved\n$")
        self.assertEqual(self.at.run("prove"), (0, is_proved, ""))
        self.assertEqual(self.at.run("gen", "1", "2", out="x"), (0, "x", ""))
        self.assertEqual(self.at.run("gen", "--proved", "1", "2", out="x"), (0, "x", ""))
        self.assertEqual(self.builds(), 1)
        self.assertRegex(self.at.run("--version")[1], r"^btreplay, proved with kit of the test at ")
        later = time.time() + 10
        os.utime(self.source, (later, later))
        self.assertEqual(self.at.run("gen", "1", "2", "--proved", out="x"), refused)
        self.assertEqual(self.at.run("gen", "1", "2", out="x")[2].splitlines(True)[0], TOLD)
        status, out, err = self.at.run("prove", more={"STAND_IN_FAILS": "not proved"})
        self.assertEqual((status, out), (1, ""))
        self.assertTrue(err.endswith("rt: bt_core proved\nerror: not proved\nrt: bt_program NOT PROVED\n1 passed, 1 failed\n"
                                     "btreplay: the program could not be built\n"), err)
        self.assertEqual(self.at.run("prove")[:2], (0, is_proved))

    def test_a_proof_in_the_background(self):
        status, out, err = self.at.run("prove", "--background")
        self.assertEqual((status, err), (0, ""))
        self.assertRegex(out, r"by process \d+, also where this terminal closes; kill \d+ ends it\nwhat it tells goes to .*/proving\.log\n$")
        log = self.at.folder / "cache" / "btreplay" / "proving.log"
        until = time.monotonic() + 60
        while "the program is proved: " not in log.read_text() and time.monotonic() < until:
            time.sleep(0.05)
        self.assertIn("btreplay: crate 2 of 2 is proved\nthe program is proved: ", log.read_text())

    def test_words_are_read_in_every_state(self):
        """Without a toolchain, and before anything is built or kept."""
        os.unlink(self.at.folder / "bin" / "rt")
        for words, status in (([], 1), (["runn", "x", "y"], 1), (["run"], 1), (["-v"], 1), (["run", "--unproved", "x"], 1), (["help"], 0),
                              (["-h"], 0), (["--help"], 0), (["--version"], 0), (["run", "-h"], 0), (["help", "prove"], 0), (["prove", "x"], 1),
                              (["run", "--proved", "--unproved", "s.bt", "r.btr"], 1)):
            with self.subTest(words):
                self.assertEqual(self.at.run(*words)[0], status)
        self.assertFalse((self.at.folder / "cache").exists())

    def test_who_waits_says_so(self):
        for words, name, told in ((["gen", "1", "2"], "lock", "another build that is not proved is being made; this waits for it"),
                                  (["prove"], "proving", "another proof goes on, of this checkout or another one; this waits for it")):
            path = self.at.folder / "cache" / "btreplay" / name
            path.parent.mkdir(parents=True, exist_ok=True)
            with open(path, "w") as lock:
                fcntl.flock(lock, fcntl.LOCK_EX)
                child = subprocess.Popen([str(self.at.top / "btreplay"), *words], stdout=subprocess.PIPE, stderr=subprocess.PIPE, cwd=self.at.folder,
                                         env=self.at.environment())
                lines = [child.stderr.readline().decode() for _ in range(2 if words[0] == "gen" else 1)]
                self.assertEqual(lines[-1], f"btreplay: {told}\n")
            self.assertNotIn(b"waits", child.communicate(timeout=120)[1])
            self.assertEqual(child.returncode, 0)

    def test_it_is_proved_from_nothing_of_its_own_crates_alone(self):
        """In a folder that is removed, without the wrong bodies that the gate tries; and where it is not proved, nothing is put in the program's place."""
        crate = self.at.top / "crates" / "bt_core"
        for name in ("must-fail/wrong.edit", "specs/out/Word.antt", "out/rlib/stamp"):
            (crate / name).parent.mkdir(parents=True)
            (crate / name).write_text("-- any\n")
        self.assertEqual(self.at.run("prove", more={"STAND_IN_FAILS": "not proved"})[0], 1)
        self.assertFalse((self.at.top / "crates" / "bt_program" / "out").exists())
        self.assertEqual(self.at.run("prove")[0], 0)
        self.assertEqual((self.at.folder / "given").read_text().splitlines(), [
            "./HANDLES", "./crates.txt", "./crates/bt_core/specs/out/Word.antt", "./crates/bt_core/src/main.rt", "./crates/bt_program/src/main.rt",
            "bt_core: thiserror", "bt_program: bt_core", "Handles allowed: none."])
        self.assertIn(int((self.at.folder / "lanes").read_text()), range(1, len(os.sched_getaffinity(0)) + 1))
        self.assertEqual([path.name for path in (self.at.folder / "cache" / "btreplay").iterdir()], ["proving"])
        for folder in (self.at.folder / "builds").read_text().splitlines():
            self.assertEqual(os.path.dirname(folder), str(self.at.folder / "cache" / "btreplay"))

    def test_it_is_proved_over_what_checks_by_hand_kept(self):
        (self.at.top / "crates" / "bt_core" / "out" / "incremental").mkdir(parents=True)
        status, _, err = self.at.run("prove")
        self.assertEqual((status, err.splitlines()[1:]), (0, ["btreplay: crate 1 of 2 is proved", "btreplay: crate 2 of 2 is proved"]))
        self.assertEqual(self.builds(), 0)
        later = time.time() + 10
        os.utime(self.source, (later, later))
        err = self.at.run("prove", more={"STAND_IN_FAILS": "not proved"})[2]
        self.assertTrue(err.endswith("== bt_program\nlogic=proved functions=2\nerror: not proved\nbtreplay: the program could not be built\n"), err)

    def test_two_that_prove_at_once_build_once(self):
        children = [subprocess.Popen([str(self.at.top / "btreplay"), "prove"], stdout=subprocess.PIPE, stderr=subprocess.PIPE,
                                     cwd=self.at.folder, env=self.at.environment(out="x")) for _ in range(3)]
        self.assertEqual([child.communicate(timeout=120) and child.returncode for child in children], [0] * 3)
        self.assertEqual(self.builds(), 1)

    def test_no_toolchain(self):
        os.unlink(self.at.folder / "bin" / "rt")
        python = os.path.dirname(os.path.realpath(subprocess.run(["which", "python3"], stdout=subprocess.PIPE).stdout.decode().strip()))
        status, _, err = self.unproved("gen", "1", "2", more={"PATH": f"{python}:/usr/bin:/bin"})
        self.assertEqual((status, err.splitlines()[-1]), (1, "btreplay: the toolchain is not there: rt is not on the path"))


class Pages(unittest.TestCase):
    def test_the_man_page_has_all_words(self):
        page = (TOP / "docs" / "btreplay.1").read_text().replace("\\-", "-")
        for word in ("explain", "prove", "--proved", "--unproved", "--background", "--help", "--version", "-e", "XDG_CACHE_HOME"):
            self.assertIn(word, page)


if __name__ == "__main__":
    unittest.main()
