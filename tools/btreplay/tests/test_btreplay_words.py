"""Tests of the rule of words, beside the worked cases of the repository and beside the program, and of the code that is parted."""
import itertools
import json
import os
import subprocess
import sys
import unittest
from concurrent.futures import ThreadPoolExecutor

from stand_in import TOOLS, TOP

sys.path.insert(0, str(TOOLS))

from built_program import NO_PROGRAM, real_program
from btreplay import parted, words

COMMANDS = ("run", "check", "code", "vet", "account", "verify", "gen", "big", "explain", "Run", "")
LATER = ("a", "b", "-", "--serial", "--json", "-x", "", "1")


class Rule(unittest.TestCase):
    def test_the_worked_cases(self):
        """Status 1 of a worked case is that of words that are no command."""
        tried = 0
        for path in sorted((TOP / "crates" / "bt_cases" / "data").glob("*.jsonl")):
            for line in path.read_text().splitlines():
                case = json.loads(line)
                if "words" in case and "status" in case:
                    tried += 1
                    self.assertEqual(words.is_admitted(case["words"]), case["status"] != 1, case["words"])
        self.assertGreater(tried, 1000)

    def test_the_program_beside(self):
        """Many lists of words, none of which names a file that is there: the program refuses the same ones as no command."""
        program = real_program()
        if not program:
            self.skipTest(NO_PROGRAM)
        lists = [[first, *later] for first in COMMANDS if first != "explain" for count in range(4) for later in itertools.product(LATER, repeat=count)
                 if count < 3 or sum(word in ("a", "b") for word in later) > 1]
        lists += [["gen", *numbers] for numbers in itertools.product(("0", "00", "2147483647", "2147483648", "1048577", "00000000001", "+1", "\u0661"), ("0", "x"))]
        lists = [words for words in lists if words[0] not in ("gen", "big") or words[-1] != "1"] + [[]]

        def is_usage(given):
            done = subprocess.run([program, *given], stdin=subprocess.DEVNULL, stdout=subprocess.DEVNULL, stderr=subprocess.PIPE, cwd="/", timeout=60)
            return done.returncode == 1 and done.stderr.startswith(b"usage: ")

        with ThreadPoolExecutor(len(os.sched_getaffinity(0))) as pool:
            for given, refused in zip(lists, pool.map(is_usage, lists)):
                # A script on standard input is this command's own: the program gets a name in its place.
                if "-" not in given:
                    self.assertEqual(words.is_admitted(given), not refused, given)

    def test_scripts_in_the_words(self):
        for given, wanted in ((["run", "-e", "BEGIN { }", "r"], True), (["run", "r", "-e", "--serial"], True), (["run", "-e", "x"], False),
                              (["run", "-", "r"], True), (["run", "s", "-"], False), (["explain", "-", "r"], True), (["gen", "-e", "1", "2"], False),
                              (["verify", "-e", "x", "r", "a"], True), (["prove"], True), (["prove", "--background"], True), (["prove", "x"], False)):
            self.assertEqual(words.is_admitted(given), wanted, given)

    def test_what_chooses_the_program_stands_anywhere(self):
        for given, answering, rest in ((["--unproved", "run", "s", "r"], words.Answering.UNPROVED, ("run", "s", "r")),
                                       (["run", "s", "--proved", "r"], words.Answering.PROVED, ("run", "s", "r")),
                                       (["run", "-e", "--proved", "r"], words.Answering.ANY, ("run", "-e", "--proved", "r"))):
            self.assertEqual((words.given(given).answering, words.given(given).words), (answering, rest))
        self.assertRaises(words.BadWords, words.given, ["--proved", "run", "--unproved"])


CODE = b"""source_filename = "x"

@counter = private global [1 x i8] zeroinitializer, align 1
@text = private unnamed_addr constant [2 x i8] c"ok", align 1

define internal void @"low::small"() #0 {
  %r = load i8, ptr @counter
  call void @puts(ptr @text)
  ret void
}

define internal void @"lib::shared"() #0 {
  ret void
}

define internal void @"lib::unused"() #0 {
  ret void
}

define internal void @"high::large"() #0 {
  ; %s
  call void @"low::small"()
  call void @"lib::shared"()
  store i8 1, ptr @counter
  ret void
}

define internal void @"low::start"() #0 {
  call void @"high::large"()
  ret void
}

declare void @puts(ptr)

define i32 @main() {
  call void @"low::start"()
  call void @"high::large"()
  ret i32 0
}

attributes #0 = { nounwind sanitize_address }
""" .replace(b"%s", b"x" * parted.MOST_COPIED)


class Parts(unittest.TestCase):
    def test_each_function_is_code_of_one_part(self):
        low, high = parted.parted(CODE, ["low", "high"], 2)
        self.assertIn(b'define hidden void @"low::start"', low)
        self.assertIn(b'declare hidden void @"high::large"', low)
        self.assertIn(b'define hidden void @"high::large"', high)
        self.assertIn(b"define i32 @main", high)
        self.assertNotIn(b"@main", low)
        self.assertIn(b'define available_externally hidden void @"low::small"', high)
        for part in (low, high):
            self.assertNotIn(b"unused", part)
            self.assertNotIn(b"sanitize_address", part)
            self.assertIn(b"declare void @puts", part)
            self.assertIn(b"@text = private unnamed_addr constant", part)
        self.assertIn(b'define internal void @"lib::shared"', high)
        self.assertEqual(sorted(line for part in (low, high) for line in part.splitlines() if line.startswith(b"@counter")),
                         [b"@counter = external hidden global [1 x i8]", b"@counter = hidden global [1 x i8] zeroinitializer, align 1"])

    def test_code_without_a_main(self):
        self.assertRaises(parted.NotParted, parted.parted, b"define internal void @x() {\n}\n", ["x"], 2)


if __name__ == "__main__":
    unittest.main()
