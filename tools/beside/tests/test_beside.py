"""Tests of the comparison with the real bpftrace, on texts that are written here: they need no guest."""
import pathlib
import sys
import unittest

TOP = pathlib.Path(__file__).resolve().parents[3]
sys.path.insert(0, str(TOP / "tools" / "beside"))

from comparing import differences, plain, printed  # noqa: E402
from known import KNOWN, told, unexplained, words_for  # noqa: E402

LIVE = """Attaching 3 probes...
READY
sig 10

@n[burst, 7]: 3
@n[burst, 8]: 4
@h:
[0]                    1 |@@@@@@@@@@@@@@@@@@@@@@@@@@                          |
[1K, 2K)               2 |@@@@@@@@@@@@@@@@@@@@@@@@@@@@@@@@@@@@@@@@@@@@@@@@@@@@|

"""
OURS = """READY
sig 10
@n[burst, 7]: 3
@n[burst, 8]: 4

@h:
[0]                    1 |@@@@@@@@@@@@@@@@@@@@@@@@@@                          |
[1024, 2048)           2 |@@@@@@@@@@@@@@@@@@@@@@@@@@@@@@@@@@@@@@@@@@@@@@@@@@@@|

"""


class Comparing(unittest.TestCase):
    def test_what_a_text_shows(self):
        found = printed(LIVE)
        self.assertEqual(found.lines, ["sig 10"])
        self.assertEqual(found.rows["@n", "[burst, 7]"], ["3"])
        self.assertEqual([step[:2] for step in found.rows["@h", ""][0]], [("[0]", 1), ("[1024, 2048)", 2)])
        self.assertEqual(plain("[64K, 1M)"), "[65536, 1048576)")

    def test_equal_ones(self):
        """Empty lines, the number of probes and how great numbers are spelled in labels are no differences."""
        self.assertEqual(differences(LIVE, OURS), [])

    def test_what_differs_is_told(self):
        self.assertEqual(differences(LIVE, OURS.replace("8]: 4", "8]: 5")), ["@n[burst, 8]: live 4, here 5"])
        self.assertEqual(differences(LIVE, OURS.replace("@n[burst, 8]: 4\n", "")), ["@n[burst, 8]: live 4, here nothing"])
        self.assertEqual(differences(LIVE, OURS.replace("sig 10", "sig 11")), ["line only live, 1 times: sig 10", "line only here, 1 times: sig 11"])
        self.assertEqual(differences(LIVE, "status 3: no recording"), [
            "@h: live [('[0]', 1, '@@@@@@@@@@@@@@@@@@@@@@@@@@                          '), ('[1024, 2048)', 2, '" + "@" * 52 + "')], here nothing",
            "@n[burst, 7]: live 3, here nothing", "@n[burst, 8]: live 4, here nothing", "line only live, 1 times: sig 10",
            "line only here, 1 times: status 3: no recording"])

    def test_the_order_of_rows(self):
        self.assertEqual(differences("@[1]: 1\n@[2]: 2\n", "@[2]: 2\n@[1]: 1\n"), ["@: its rows stand in another order"])
        self.assertEqual(differences("@[1]: 2\n@[2]: 2\n", "@[2]: 2\n@[1]: 2\n"), [])


class Explained(unittest.TestCase):
    def test_only_what_is_known_is_explained(self):
        self.assertEqual(words_for("11_clear_zero", "@a: live 0, here nothing"), "a `count()` that was cleared, or to which nothing was added yet")
        for script, difference in [("11_clear_zero", "@a: live 5, here nothing"), ("12_printf_forms", "@a: live 0, here nothing"),
                                   ("09_map_changes", "@e[7]: live 3, here 4"), ("29_users", "@[0, 0]: live nothing, here 30"),
                                   ("43_wakeups_in_interrupts", "@n: live 175, here 174"), ("43_wakeups_in_interrupts", "@n: live 1, here nothing")]:
            self.assertEqual(unexplained(script, [difference]), [difference])
        self.assertEqual(words_for("43_wakeups_in_interrupts", "@n: live 173, here 174"), "events in interrupts")
        self.assertEqual(told("01_count_keys", ["@: its rows stand in another order"] * 2), ["order of rows"])

    def test_the_page_says_why(self):
        page = (TOP / "docs" / "DIFFERENCES.md").read_text().replace("\n", " ")
        for known in KNOWN:
            self.assertIn(known.words, page)

    def test_each_is_of_a_script(self):
        names = {path.stem for path in (TOP / "tools/beside/scripts").glob("*.bt")}
        self.assertLessEqual({known.script for known in KNOWN} - {"*"}, names)


class Scripts(unittest.TestCase):
    def setUp(self):
        self.texts = {path.stem: path.read_text() for path in (TOP / "tools/beside/scripts").glob("*.bt")}

    def test_there_are_enough_and_each_tells_when_it_is_ready(self):
        self.assertGreaterEqual(len(self.texts), 40)
        for name, text in self.texts.items():
            self.assertTrue(text.startswith('BEGIN { printf("READY\\n"); }\n'), name)

    def test_all_parts_of_the_language_are_in_them(self):
        """The words that a body sees, the aggregations, the statements and the operators."""
        together = "\n".join(self.texts.values())
        for word in ("pid", "tid", "uid", "gid", "comm", "cpu", "nsecs", "elapsed", "count(", " sum(", " min(", " max(", " avg(", " hist(", "lhist(", "printf(",
                     "print(", "clear(", "zero(", "delete(", "exit(", "return;", "while (", "unroll (", "break;", "continue;", "else if", "BEGIN", "END",
                     "interval:ms:", "interval:hz:", ":sched_process_* /", ":task:* /", " ? ", "||", "&&", " | ", " ^ ", " & ", "==", "!=", " < ", " <= ", " > ",
                     " >= ", " >> ", " << ", "+=", "-=", "|=", "^=", "*=", "/=", "%=", "<<=", ">>=", "&=", "++", "--", "!", "~", "%d",
                     "%lld", "%s", "%c", "%llu", "%llx", "%08lld", "%-10s"):
            self.assertIn(word, together)


if __name__ == "__main__":
    unittest.main()
