"""Tests of the command, by a stand-in for the program in a folder as `make install` makes it: what is asked, where the
page goes, and each fault."""
import json
import os
import pathlib
import shlex
import shutil
import signal
import subprocess
import tempfile
import time
import unittest

from made_answers import EXAMPLES, TOOLS, TOP, json_of, read_page
from made_report import lines_of_questions

from btreplay.recorded import head_of_file
from btreport.questions import Recorded, details, first_questions

# It answers by the text of the script, and notes its words and the script's first line.
PROGRAM = """#!/usr/bin/env python3
import json, os, signal, sys, time
script = open(sys.argv[-2], encoding="utf-8", errors="surrogateescape").read()
with open(os.environ["STAND_IN"] + "/asked", "a") as file:
    file.write(json.dumps([sys.argv[1:-2], sys.argv[-1], script]) + "\\n")
known = json.load(open(os.environ["STAND_IN"] + "/answers"))
found = known.get("check" if sys.argv[1] == "check" else script, {})
if found.get("slow"):
    time.sleep(60)
if found.get("signal"):
    os.kill(os.getpid(), found["signal"])
sys.stdout.write(found.get("out", ""))
sys.stderr.write(found.get("err", "").replace("@SCRIPT@", sys.argv[-2]))
sys.exit(found.get("status", 0))
"""


class Command(unittest.TestCase):
    @classmethod
    def setUpClass(cls):
        head = head_of_file(str(EXAMPLES / "small.btr"))
        recorded = Recorded(frozenset(format.name for format in head.formats), head.span, False)
        cls.questions = first_questions(recorded) + [details(recorded, [60, 1], [6, 7])]
        lines = lines_of_questions("dd")
        cls.answers = {question.text: {"out": lines[question.name]} for question in cls.questions}

    def setUp(self):
        folder = tempfile.TemporaryDirectory()
        self.addCleanup(folder.cleanup)
        self.top = pathlib.Path(folder.name)
        lib = self.top / "lib"
        for tool in ("btreplay", "btrecord", "btreport"):
            shutil.copytree(TOOLS / tool, lib / "tools" / tool, ignore=shutil.ignore_patterns("tests", "__pycache__"))
        shutil.copy(TOP / "btreplay", lib / "btreplay")
        (lib / "version").write_text("btreplay, proved with a kit\n")
        (lib / "bt_program").write_text(PROGRAM)
        (lib / "bt_program").chmod(0o755)
        (self.top / "btreport").symlink_to(lib / "btreplay")
        self.home = self.top / "home"
        self.home.mkdir()
        shutil.copy(EXAMPLES / "small.btr", self.home / "small.btr")

    def run_report(self, *words, **answers):
        """Runs the command, and gives its status, what it printed and what it told."""
        known = {**self.answers, **answers.pop("known", {}), **answers}
        (self.top / "answers").write_text(json.dumps(known))
        (self.top / "asked").write_text("")
        done = subprocess.run(
            [str(self.top / "btreport"), *words],
            cwd=self.home,
            env={**os.environ, "STAND_IN": str(self.top)},
            stdin=subprocess.DEVNULL,
            stdout=subprocess.PIPE,
            stderr=subprocess.PIPE,
            timeout=120,
        )
        return done.returncode, done.stdout, done.stderr.decode()

    def asked(self):
        """What the stand-in was asked."""
        return [json.loads(found) for found in (self.top / "asked").read_text().splitlines()]

    def files(self):
        """The files in the caller's folder."""
        return sorted(path.name for path in self.home.iterdir())

    def page(self, name="small.html"):
        """The page that was written."""
        return read_page((self.home / name).read_bytes())

    def test_each_question_is_asked_once(self):
        self.assertEqual(self.run_report("small.btr"), (0, b"", "btreport: the report of small.btr is in small.html\n"))
        runs = [found for found in self.asked() if found[0][0] == "run"]
        self.assertEqual({tuple(words) for words, _, _ in runs}, {("run", "--serial", "--json")})
        self.assertEqual(sorted(script for _, _, script in runs), sorted(question.text for question in self.questions))
        self.assertLess(len(runs), 10)
        page = self.page()
        self.assertIn("btreplay, proved with a kit", page.one("section", id="foot").text())
        self.assertIn("btrecord cut small.btr -o small-part.btr --from +0ns", page.one("pre", id="cut").text())
        self.assertIn(
            subprocess.run(["sha256sum", "small.btr"], cwd=self.home, stdout=subprocess.PIPE)
            .stdout.decode()
            .split()[0],
            page.one("section", id="foot").text(),
        )

    def test_a_page_in_the_place_of_what_is_read(self):
        """Neither over the recording nor over a script, by whatever name, and before anything is asked."""
        (self.home / "own").mkdir()
        (self.home / "own" / "mine.bt").write_text("BEGIN { }")
        (self.home / "link.html").symlink_to("small.btr")
        os.link(self.home / "small.btr", self.home / "hard.html")
        before = (self.home / "small.btr").read_bytes()
        behind = "and would be written over: name another file by -o"
        for words, told in (
            (["-o", "small.btr"], f"small.btr is read, {behind}"),
            (["-o", "link.html"], f"link.html is the same file as small.btr, which is read, {behind}"),
            (["-o", "hard.html"], f"hard.html is the same file as small.btr, which is read, {behind}"),
            (["--scripts", "own", "-o", "own/mine.bt"], f"own/mine.bt is read, {behind}"),
        ):
            self.assertEqual(self.run_report("small.btr", *words), (1, b"", f"btreport: {told}\n"))
        self.assertEqual(self.asked(), [])
        self.assertEqual((self.home / "small.btr").read_bytes(), before)
        self.assertEqual((self.home / "own" / "mine.bt").read_text(), "BEGIN { }")

    def test_files_in_the_place_of_a_recording(self):
        for content, told in (
            (b"PERFILE2", "is a file of perf: btrecord convert o.btr -o my.btr makes a recording of it"),
            (b"BEGIN { }", "is a script, and a recording belongs here: btrecord record --for o.btr -o my.btr records what it names"),
        ):
            (self.home / "o.btr").write_bytes(content)
            answers = {"check": {"status": 3, "err": "o.btr: C2 bad magic\n"}}
            self.assertEqual(self.run_report("o.btr", known=answers), (3, b"", f"btreport: o.btr: C2 bad magic\nbtreport: o.btr {told}\n"))
        answers = {"check": {"status": 4, "err": "none.btr: read fault\n"}}
        self.assertEqual(self.run_report("none.btr", known=answers), (4, b"", "btreport: none.btr: there is no such file\n"))

    def test_where_the_page_goes(self):
        """What is there already stays, unless it is named."""
        (self.home / "small.html").write_text("of the user")
        status, _, told = self.run_report("small.btr")
        self.assertEqual(
            (status, told), (1, "btreport: small.html is there already; name it by -o to put the report in its place\n")
        )
        self.assertEqual((self.home / "small.html").read_text(), "of the user")
        self.assertEqual(self.asked(), [])
        self.assertEqual(self.run_report("small.btr", "-o", "small.html")[0], 0)
        self.assertTrue((self.home / "small.html").read_text().startswith("<!DOCTYPE html>"))
        status, printed, told = self.run_report("small.btr", "-o", "-")
        self.assertEqual((status, told, printed), (0, "", (self.home / "small.html").read_bytes()))
        self.assertEqual(self.run_report("small.btr", "-o", "no/such/file.html")[0], 5)
        self.assertEqual(self.run_report("small.btr", "-o", "/dev/full")[0], 5)
        self.assertEqual(self.files(), ["small.btr", "small.html"])

    def test_a_fault_leaves_no_page(self):
        text = self.questions[0].text
        for answers, wanted, told in (
            ({"check": {"status": 3, "err": "small.btr: C2 bad magic\n"}}, 3, "btreport: small.btr: C2 bad magic\n"),
            ({"check": {"status": 4, "err": "small.btr: read fault\n"}}, 4, "btreport: small.btr: the system could not read it\n"),
            ({text: {"status": 6, "err": "out of memory\n"}}, 6, "btreport: out of memory\n"),
            ({text: {"signal": int(signal.SIGKILL)}}, 1, "btreport: the program was ended by signal 9\n"),
            (
                {text: {"status": 1, "err": "usage: btreplay run ..\n"}},
                1,
                "btreport: the program that is here has no option --json: it is older than this command\n",
            ),
            (
                {text: {"out": "@: 3\n"}},
                1,
                "btreport: the program printed what is none of its lines: the line b'@: 3'\n",
            ),
        ):
            with self.subTest(told):
                self.assertEqual(self.run_report("small.btr", known=answers), (wanted, b"", told))
                self.assertEqual(self.files(), ["small.btr"])

    def test_words_and_files_that_are_not_there(self):
        status, _, told = self.run_report()
        self.assertEqual(status, 1)
        self.assertIn("btreport: the following arguments are required: RECORDING", told)
        status, _, told = self.run_report("small.btr", "--scripts", "none")
        self.assertEqual((status, told), (4, "btreport: none: there is no such file\n"))
        (self.home / "empty").mkdir()
        self.assertEqual(
            self.run_report("small.btr", "--scripts", "empty")[2],
            "btreport: empty: there is no script *.bt in this folder\n",
        )
        self.assertEqual(self.run_report("small.btr", "--unproved")[0], 1)
        self.assertEqual(self.run_report("--help")[0], 0)

    def test_own_scripts_are_panels(self):
        """All examples, a script that is refused, and one whose name is markup."""
        folder = self.home / "own scripts"
        folder.mkdir()
        known = {}
        for path in sorted(EXAMPLES.glob("*.bt")):
            (folder / path.name).write_bytes(path.read_bytes())
            known[path.read_text()] = {"out": json_of(path.with_suffix(".out").read_text())}
        (folder / '<b>&".bt').write_text("BEGIN { # }")
        known["BEGIN { # }"] = {"status": 2, "err": "@SCRIPT@:1:9: X1 bad character\n"}
        (folder / "notes.txt").write_text("no script")
        self.assertEqual(self.run_report("small.btr", "--scripts", "own scripts", "-o", "out.html", known=known)[0], 0)
        page = self.page("out.html")
        titles = [
            section.one("h2").text() for section in page.all("section") if section.attributes["id"].startswith("own_")
        ]
        self.assertEqual(titles, sorted([path.name for path in EXAMPLES.glob("*.bt")] + ['<b>&".bt']))
        self.assertIn(
            'refused: own scripts/<b>&".bt:1:9: X1 bad character', [told.text() for told in page.all("p", "red")]
        )
        self.assertIn(
            "./btreplay"[2:] + " run --serial --json 'own scripts/block_bytes.bt' small.btr",
            page.one("section", id="foot").text(),
        )
        self.assertEqual(
            len([found for found in self.asked() if found[0][0] == "run"]), len(self.questions) + len(titles)
        )

    def test_names_of_recordings(self):
        """A name that begins as an option does, and one that is markup."""
        for name in ("-o.btr", "<script>x.btr", "a 'b'.btr"):
            with self.subTest(name):
                shutil.copy(EXAMPLES / "small.btr", self.home / name)
                words = ["--", name] if name.startswith("-") else [name]
                self.assertEqual(self.run_report("-o", "out.html", *words)[0], 0)
                self.assertEqual(self.page("out.html").one("h1").text(), f"Recording {name}")
                cut = shlex.split(self.page("out.html").one("pre", id="cut").text())
                path, part = (f"./{one}" if one.startswith("-") else one for one in (name, f"{name[:-4]}-part.btr"))
                self.assertEqual(cut[:5], ["btrecord", "cut", path, "-o", part])
                self.assertEqual(
                    {recording for _, recording, _ in self.asked()}, {f"./{name}" if name.startswith("-") else name}
                )

    def test_a_fault_and_a_signal_end_the_other_runs(self):
        slow = {question.text: {"slow": True} for question in self.questions[1:]}
        began = time.monotonic()
        fault = {self.questions[0].text: {"status": 6}}
        self.assertEqual(self.run_report("small.btr", known={**slow, **fault})[0], 6)
        (self.top / "answers").write_text(json.dumps({**self.answers, **slow}))
        (self.top / "asked").write_text("")
        environment = {**os.environ, "STAND_IN": str(self.top)}
        words = [str(self.top / "btreport"), "small.btr"]
        run = subprocess.Popen(words, cwd=self.home, env=environment, stderr=subprocess.DEVNULL)
        while len(self.asked()) < 3:
            time.sleep(0.05)
        run.terminate()
        self.assertEqual(run.wait(), 128 + signal.SIGTERM)
        self.assertLess(time.monotonic() - began, 50)
        self.assertEqual(self.files(), ["small.btr"])

    def test_a_pipe_is_no_recording(self):
        os.mkfifo(self.home / "pipe")
        status, _, told = self.run_report("pipe", check={"out": "ok\n"})
        self.assertEqual(
            (status, told), (4, "btreport: pipe: this is no regular file, and each question reads it once\n")
        )

    def test_nothing_is_written_beside_the_tool(self):
        self.assertEqual(self.run_report("small.btr")[0], 0)
        self.assertEqual(list((self.top / "lib").rglob("__pycache__")), [])


if __name__ == "__main__":
    unittest.main()
