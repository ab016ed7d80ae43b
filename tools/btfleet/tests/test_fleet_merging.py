"""Tests of the laws of maps, of how answers are read, and of what is printed of them, byte by byte. All numbers and
texts are worked out by hand."""
import json
import unittest

from fleet_hosts import count_line, printf_line

from btfleet.answers import answer_of
from btfleet.causes import cause_of
from btfleet.faults import NotMerged
from btfleet.laws import POWERS, law_of, steps
from btfleet.merged import Merged
from btfleet.operands import Operand, operand
from btfleet.plan import plan_of
from btfleet.printing import divided, printed

MOST, LEAST = 2**63 - 1, -2**63
FULL = "|" + "@" * 52 + "|\n"


def ranges(name, rows):
    """A line of a map of histograms, by its rows as pairs of key and ranges, these as pairs of label and count."""
    data = [{"key": list(key), "value": [{"count": count, "label": label} for label, count in found]} for key, found in rows]
    return json.dumps({"data": data, "map": name, "type": "map"})


def merged(script, answers, by_host=False):
    """What several recordings answer to a script together. Answers are lists of lines."""
    found = Merged(plan_of(script), by_host)
    for place, lines in enumerate(answers):
        found.take(place, f"h{place}", answer_of("".join(f"{line}\n" for line in lines).encode(), found.plan))
    return found


def text(script, answers, as_json=False, by_host=False):
    """What is printed of answers."""
    return b"".join(printed(merged(script, answers, by_host), as_json))


class Laws(unittest.TestCase):
    def test_numbers(self):
        for word, pairs in {"count": [(1, 2, 3), (MOST, 1, LEAST), (-1, 1, 0)], "sum": [(-5, 3, -2), (LEAST, -1, MOST), (LEAST, LEAST, 0)],
                            "min": [(LEAST, 0, LEAST), (3, -2, -2)], "max": [(LEAST, 0, 0), (MOST, -1, MOST)]}.items():
            for one, other, wanted in pairs:
                with self.subTest((word, one, other)):
                    self.assertEqual(law_of(word).merged(one, other), wanted)
                    self.assertEqual(law_of(word).merged(other, one), wanted)
        self.assertIsNone(law_of("median"))

    def test_ranges(self):
        self.assertEqual(POWERS[:6], ["(..., 0)", "[0]", "[1]", "[2, 4)", "[4, 8)", "[8, 16)"])
        self.assertEqual([POWERS[12], POWERS[13], POWERS[22], POWERS[64]], ["[1K, 2K)", "[2K, 4K)", "[1M, 2M)", "[4E, 8E)"])
        self.assertEqual(len(POWERS), 65)
        self.assertEqual(steps(0, 25, 10), ["(..., 0)", "[0, 10)", "[10, 20)", "[20, 25)", "[25, ...)"])
        self.assertEqual(steps(-3, 3, 3), ["(..., -3)", "[-3, 0)", "[0, 3)", "[3, ...)"])
        self.assertEqual(steps(LEAST, MOST, MOST), [f"(..., {LEAST})", f"[{LEAST}, -1)", f"[-1, {MOST - 1})",
                                                    f"[{MOST - 1}, {MOST})", f"[{MOST}, ...)"])

    def test_buckets(self):
        law = law_of("lhist", (0, 30, 10))
        one = law.read([{"label": "[0, 10)", "count": 2}])
        other = law.read([{"label": "[20, 30)", "count": 2**64 - 1}, {"label": "[30, ...)", "count": 4}])
        both = law.merged(one, other)
        self.assertEqual(law.rows(both), [("[0, 10)", 2), ("[10, 20)", 0), ("[20, 30)", 2**64 - 1), ("[30, ...)", 4)])
        self.assertEqual(law.rows(law.merged(both, law.read([{"label": "[20, 30)", "count": 3}])))[2], ("[20, 30)", 2))
        self.assertEqual(law.rows(law.merged(other, law.read([{"label": "[20, 30)", "count": 1}]))), [("[30, ...)", 4)])
        self.assertEqual(law.rows({}), [])

    def test_what_is_no_value(self):
        for law, value in ((law_of("count"), 1.5), (law_of("count"), True), (law_of("count"), "1"), (law_of("sum"), 2**63), (law_of("hist"), 5),
                           (law_of("hist"), [5]), (law_of("hist"), [{"label": "[3, 4)", "count": 1}]), (law_of("hist"), [{"label": "[1]"}]),
                           (law_of("hist"), [{"label": "[1]", "count": -1}]), (law_of("hist"), [{"label": "[1]", "count": 1}] * 2)):
            with self.subTest(value):
                self.assertRaises(NotMerged, law.read, value)

    def test_division(self):
        self.assertEqual([divided(number, 10) for number in (25, -25, 9, -9, 0)], [2, -2, 0, 0, 0])


class Printed(unittest.TestCase):
    def test_by_value_and_then_key(self):
        script = "t:a:b { @c[comm, pid] = count(); }"
        answers = [[count_line("@c", [(("b", 9), 1), (("a", 10), 2)])],
                   [count_line("@c", [(("a", 10), 1), (("a", 9), 3), (("z", 0), 2), (("b", 9), 1)])]]
        self.assertEqual(text(script, answers), b"@c[b, 9]: 2\n@c[z, 0]: 2\n@c[a, 9]: 3\n@c[a, 10]: 3\n\n")
        self.assertEqual(text(script, answers, by_host=True), b"@c[h0, b, 9]: 1\n@c[h1, a, 10]: 1\n@c[h1, b, 9]: 1\n"
                                                              b"@c[h0, a, 10]: 2\n@c[h1, z, 0]: 2\n@c[h1, a, 9]: 3\n\n")
        self.assertEqual(text(script, answers, as_json=True),
                         b'{"data":[{"key":["b",9],"value":2},{"key":["z",0],"value":2},{"key":["a",9],"value":3},'
                         b'{"key":["a",10],"value":3}],"map":"@c","type":"map"}\n')

    def test_histograms(self):
        """Of two recordings the ranges between are there with 0; rows stand by the sums of their counts, and bars by
        the merged counts."""
        script = "t:a:b { @h[comm] = hist(1); }"
        answers = [[ranges("@h", [(("x",), [("[1]", 1)]), (("y",), [("[0]", 1), ("[1]", 3)])])],
                   [ranges("@h", [(("x",), [("[4, 8)", 2), ("[8, 16)", 4)])])]]
        half, quarter, none = "|" + "@" * 26 + " " * 26 + "|\n", "|" + "@" * 13 + " " * 39 + "|\n", "|" + " " * 52 + "|\n"
        third = "|" + "@" * 17 + " " * 35 + "|\n"
        self.assertEqual(text(script, answers).decode(),
                         f"@h[y]:\n[0]                    1 {third}[1]                    3 {FULL}"
                         f"@h[x]:\n[1]                    1 {quarter}[2, 4)                 0 {none}"
                         f"[4, 8)                 2 {half}[8, 16)                4 {FULL}\n")
        self.assertEqual(text(script, answers, as_json=True).decode().splitlines(),
                         ['{"data":[{"key":["y"],"value":[{"count":1,"label":"[0]"},{"count":3,"label":"[1]"}]},'
                          '{"key":["x"],"value":[{"count":1,"label":"[1]"},{"count":0,"label":"[2, 4)"},{"count":2,"label":"[4, 8)"},'
                          '{"count":4,"label":"[8, 16)"}]}],"map":"@h","type":"map"}'])

    def test_steps(self):
        """A count below the least in one recording and one from the greatest on in the other: all steps stand
        between."""
        script = "t:a:b { @l = lhist(args.n, 0, 25, 10); }"
        answers = [[ranges("@l", [((), [("(..., 0)", 1)])])], [ranges("@l", [((), [("[25, ...)", 1)])])]]
        none = "|" + " " * 52 + "|\n"
        self.assertEqual(text(script, answers).decode(), f"@l:\n(..., 0)               1 {FULL}[0, 10)                0 {none}"
                                                         f"[10, 20)               0 {none}[20, 25)               0 {none}"
                                                         f"[25, ...)              1 {FULL}\n")

    def test_greatest_rows_of_all(self):
        """In each recording alone another key is the greatest; values are divided behind the choice, towards 0."""
        script = "t:a:b { @s[comm] = sum(args.n); } END { print(@s, 2, 10); clear(@s); }"
        answers = [[count_line("@s", [(("b",), -15), (("a",), 90), (("c",), 100)])], [count_line("@s", [(("c",), -95), (("a",), 19), (("d",), 101)])]]
        self.assertEqual(text(script, answers), b"@s[d]: 10\n@s[a]: 10\n\n")
        script = "t:a:b { @h = hist(args.n); } END { print(@h, 0, 4); clear(@h); }"
        answers = [[ranges("@h", [((), [("[0]", 3), ("[1]", 3), ("[2, 4)", 2)])])], [ranges("@h", [((), [("[1]", 1), ("[2, 4)", 7)])])]]
        self.assertEqual(text(script, answers).decode(), f"@h:\n[1]                    1 |{'@' * 26}{' ' * 26}|\n[2, 4)                 2 {FULL}\n")

    def test_averages(self):
        """The sums divided by the counts, towards 0; the greatest of all recordings together need not be that of one."""
        script = "t:a:b { @a[comm] = avg(args.n); @c = count(); } END { print(@a, 2, 2); clear(@c); }"

        def answer(rows):
            """The lines of a recording, by its rows as triples of key, sum and count."""
            sums, counts = (count_line(name, [((row[0],), row[part]) for row in rows]) for name, part in (("@a", 1), ("@a_count", 2)))
            return [sums, counts] * 2

        answers = [answer([("x", 10, 1), ("y", -7, 1), ("z", 0, 3)]), answer([("x", 1, 9), ("y", 0, 1), ("w", 9, 4)])]
        self.assertEqual(text(script, answers), b"@a[x]: 0\n@a[w]: 1\n\n@a[y]: -3\n@a[z]: 0\n@a[x]: 1\n@a[w]: 2\n\n")
        self.assertEqual(text(script, answers, as_json=True).decode().splitlines()[0],
                         '{"data":[{"key":["x"],"value":0},{"key":["w"],"value":1}],"map":"@a","type":"map"}')
        self.assertEqual(text(script, answers, by_host=True).decode().split("\n\n")[0], "@a[h1, w]: 1\n@a[h0, x]: 5")
        lost = [json.dumps({"count": 2, "map": name, "type": "lost_updates"}) for name in ("@a", "@a_count")]
        self.assertEqual(text(script, [lost]), b"WARNING: 2 updates lost in @a\n")

    def test_averages_without_counts(self):
        plan = plan_of("t:a:b { @a[comm] = avg(args.n); }")
        for lines in ([count_line("@a", [(("x",), 1)])], [count_line("@a", [(("x",), 1)]), count_line("@a_count", [(("y",), 1)])]):
            self.assertRaises(NotMerged, answer_of, "".join(f"{line}\n" for line in lines).encode(), plan)

    def test_lines_and_maps_stand_as_one_run_prints_them(self):
        script = ('BEGIN { printf("x"); } t:a:b { @a = count(); @b[pid] = sum(1); @c = max(1); } END { printf("A\\n"); print(@a); clear(@a); '
                  'printf("B\\n"); print(@b, 1); printf("C\\n"); }')
        sums = count_line("@b", [((1,), 1), ((2,), 5)])
        one = [printf_line("x"), printf_line("A\n"), count_line("@a", [((), 1)]), printf_line("B\n"), sums, printf_line("C\n"), sums,
               count_line("@c", [((), 7)])]
        self.assertEqual(text(script, [one]), b"xA\n@a: 1\n\nB\n@b[2]: 5\n\nC\n@b[1]: 1\n@b[2]: 5\n\n@c: 7\n\n")
        other = [printf_line("x"), printf_line("A\n"), printf_line("B\n"), printf_line("C\n"), count_line("@c", [((), 9)])]
        self.assertEqual(text(script, [one, other]), b"xA\nxA\nB\nC\n@a: 1\n\nB\n@b[2]: 5\n\nC\n@b[1]: 1\n@b[2]: 5\n\n@c: 9\n\n")
        self.assertEqual(text(script, [one, one], by_host=True).decode().splitlines()[:5], ["h0: xA", "h1: xA", "@a[h0]: 1", "@a[h1]: 1", ""])

    def test_warnings(self):
        script = "t:a:b { @b = count(); @a = count(); }"
        lost = [json.dumps({"count": 5, "cpu": 1, "type": "lost_events"}), json.dumps({"line": 4, "type": "cut"})]
        answers = [lost + [json.dumps({"count": 2**64 - 1, "map": "@b", "type": "lost_updates"})],
                   [json.dumps({"count": 2, "map": "@b", "type": "lost_updates"}), json.dumps({"count": 3, "map": "@a", "type": "lost_updates"})]]
        head = "WARNING: 5 events lost on cpu 1\nWARNING: loop limit reached at line 4\n"
        self.assertEqual(text(script, answers).decode(), head + "WARNING: 1 updates lost in @b\nWARNING: 3 updates lost in @a\n")
        self.assertEqual(text(script, answers, by_host=True).decode(),
                         "h0: WARNING: 5 events lost on cpu 1\nh0: WARNING: loop limit reached at line 4\n"
                         "h0: WARNING: 18446744073709551615 updates lost in @b\n"
                         "h1: WARNING: 2 updates lost in @b\nh1: WARNING: 3 updates lost in @a\n")
        self.assertEqual(text(script, answers, as_json=True).decode().splitlines(),
                         ['{"count":5,"cpu":1,"type":"lost_events"}', '{"line":4,"type":"cut"}', '{"count":1,"map":"@b","type":"lost_updates"}',
                          '{"count":3,"map":"@a","type":"lost_updates"}'])
        self.assertEqual(text(script, answers, True, True).decode().splitlines()[0], '{"count":5,"cpu":1,"host":"h0","type":"lost_events"}')

    def test_strings_are_bytes(self):
        """Bytes that are no UTF-8, one that other readers take for the end of a line, and those that JSON escapes."""
        script = "t:a:b { @c[comm] = count(); }"
        line = '{"data":[{"key":["\u00c3\u00a9\u0085\u00ff\\"\\\\\\n\\u001f\\u007f"],"value":1}],"map":"@c","type":"map"}'
        self.assertEqual(text(script, [[line], [line]]), b'@c[\xc3\xa9\x85\xff"\\\n\x1f\x7f]: 2\n\n')
        self.assertEqual(text(script, [[line]], as_json=True).decode(), line.replace("\\u007f", "\x7f") + "\n")
        self.assertEqual(text('t:a:b { printf("x"); }', [[printf_line("\u00e9")]], by_host=True), b"h0: \xe9\n")

    def test_nothing(self):
        self.assertEqual(text("t:a:b { @c = count(); } END { print(@c); }", [[], []]), b"")


class Answers(unittest.TestCase):
    def test_prints_by_the_number_of_lines(self):
        line = count_line("@a", [((), 1)])
        for end, lines, places in (("print(@a);", 2, ([0], True)), ("print(@a);", 0, ([], False)), ("print(@a); clear(@a);", 1, ([0], False)),
                                   ("", 1, ([], True)), ("print(@a); print(@a, 1); if (1) { clear(@a); }", 2, ([0, 1], False))):
            with self.subTest(end):
                answer = answer_of(f"{line}\n".encode() * lines, plan_of("t:a:b { @a = count(); } END { %s }" % end))
                self.assertEqual((sorted(answer.printed), "@a" in answer.ends), places)

    def test_what_is_no_answer(self):
        line = count_line("@a", [((), 1)])
        plan = plan_of("t:a:b { @a = count(); @b = count(); @s = 1; } END { print(@b); clear(@s); }")
        for came in ("no JSON", "[]", '{"type":"news"}', '{"map":"@a","type":"map"}', '{"data":[{"key":[]}],"map":"@a","type":"map"}',
                     '{"data":5,"map":"@a","type":"map"}', f"{line}\n{line}", count_line("@s", [((), 1)]), count_line("@x", [((), 1)]),
                     count_line("@a", [((), 1), ((), 2)]), "{}", "\xff",
                     f"{line}\n" + "\n".join([count_line("@b", [((), 1)])] * 2), '{"type":"lost_updates"}'):
            with self.subTest(came):
                self.assertRaises(NotMerged, answer_of, came.encode("latin-1"), plan)

    def test_causes(self):
        older = "the program there does not know run --json: it is an older one"
        for status, told, wanted in ((3, b"/r.btr: C1 truncated at byte 9\n", "C1 truncated at byte 9"),
                                     (2, b"-:1:7: A1 unknown tracepoint\n", "s.bt:1:7: A1 unknown tracepoint"),
                                     (2, b"-: script too long\n", "s.bt: script too long"), (4, b"/r.btr: read fault\n", "read fault"),
                                     (3, b"/r.btr: C2 bad magic\n/r.btr is a file of perf: ..\n", "C2 bad magic; /r.btr is a file of perf: .."),
                                     (6, b"out of memory\n", "out of memory"), (1, b"usage: btreplay run ..\n", older),
                                     (-9, b"", "its run was ended by SIGKILL"), (77, b"", "its run ended with status 77")):
            with self.subTest(told):
                self.assertEqual(cause_of(status, told, "/r.btr", "s.bt"), wanted)


class Operands(unittest.TestCase):
    def test_each(self):
        self.assertEqual(operand("/a/b:c.btr", True), Operand("/a/b:c.btr", "", "/a/b:c.btr"))
        self.assertEqual(operand("web1:/a.btr", True), Operand("web1:/a.btr", "web1", "/a.btr"))
        self.assertEqual(operand("*:/a.btr", True), Operand("*:/a.btr", "*", "/a.btr"))
        self.assertEqual(operand(":/a", True).host, "")
        self.assertTrue(operand("web1:a.btr", False).path.endswith("/a.btr"))
        self.assertEqual(operand("./web1:a.btr", False).host, "")


if __name__ == "__main__":
    unittest.main()
