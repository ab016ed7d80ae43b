"""Tests of the answers over examples/wide.btr, a recording of 16 CPUs: they come in every order of the CPUs, and the built program gives them."""
import pathlib
import subprocess
import sys
import unittest

TOP = pathlib.Path(__file__).resolve().parent.parent.parent.parent
sys.path.insert(0, str(TOP / "tools"))

from built_program import NO_PROGRAM, real_program
from reckoning import questions
from reckoning.events import read_recording

EXAMPLES = TOP / "examples"
WIDE = EXAMPLES / "wide.btr"
PROGRAM = real_program()


def wants_serial(name):
    """Whether the first comment of an example runs it with --serial."""
    return "run --serial" in (EXAMPLES / f"{name}.bt").read_text()


class Wide(unittest.TestCase):
    @classmethod
    def setUpClass(cls):
        cls.start, cls.events = read_recording(WIDE.read_bytes())

    def test_in_another_order(self):
        """What is run without --serial comes out the same where the last CPU goes first."""
        order = sorted(self.events, key=lambda one: (-one.cpu, one.time))
        names = [name for name in questions.QUESTIONS if not wants_serial(name)]
        self.assertTrue(names)
        for name in names:
            with self.subTest(name):
                answer = questions.QUESTIONS[name](self.start, self.events)
                self.assertEqual(questions.QUESTIONS[name](self.start, order), answer)

    @unittest.skipUnless(PROGRAM, NO_PROGRAM)
    def test_the_program(self):
        """The built program prints what is worked out here, also CPU by CPU where a script is run so."""
        answered = 0
        for name, question in questions.QUESTIONS.items():
            # Between 381 and 402 s the ticks of lost_events.bt, each 50 microseconds, are 420,000 lines.
            if name in questions.RECORDINGS:
                continue
            answer = question(self.start, self.events)
            answered += bool(answer)
            for words in [["run", "--serial"]] + ([] if wants_serial(name) else [["run"]]):
                with self.subTest(name, words=words):
                    done = subprocess.run([PROGRAM, *words, str(EXAMPLES / f"{name}.bt"), str(WIDE)], stdin=subprocess.DEVNULL, capture_output=True, text=True)
                    self.assertEqual((done.stdout, done.stderr, done.returncode), (answer, "", 0))
        # No write-back began while this was recorded; each other question has an answer.
        self.assertEqual(answered, len(questions.QUESTIONS) - len(questions.RECORDINGS) - 1)


if __name__ == "__main__":
    unittest.main()
