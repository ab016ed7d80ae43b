"""Tests of the panels: what they draw of answers that were made by hand, and that names come out as text whatever they
are."""
import unittest

from made_answers import line, read_page
from made_report import RECORDED, SPAN, asked_of, own

from btreport.block import device
from btreport.charts import grid
from btreport.command import own_panels, panels_of
from btreport.foot import commands
from btreport.page import SCRIPT, page
from btreport.questions import COLUMNS, Recorded, first_questions
from btreport.scales import following, level, ticks
from btreport.time_line import Loss, head, time_line, time_line_of

HOSTILE = [
    "<script>alert(1)</script>",
    "\"&'",
    "</title></svg><img src=x onerror=alert(1)>",
    "--><!--",
    "&lt;b&gt;",
    "a b  c",
    "' onload='alert(1)",
    "]]>",
    "${x}`",
]


def whole(asked, scripts=(), name="r.btr"):
    """A whole page of answers."""
    found = time_line_of(asked["time_line"].answer)
    panels = [
        head(name, found, asked["time_line"], ["this"]),
        time_line(found, asked, f"btrecord cut {name}"),
        *panels_of(found, asked),
    ]
    return page(f"Recording {name}", panels + own_panels(list(scripts)))


def titles(node):
    """What is told where parts of a drawing are pointed at."""
    return [title.text() for title in node.all("title")]


class Names(unittest.TestCase):
    def test_hostile_names_are_text(self):
        for name in HOSTILE:
            with self.subTest(name):
                scripts = [
                    own(
                        name,
                        line(type="printf", data=name)
                        + line(type="map", map="@", data=[{"key": [name, 1], "value": name}])
                        + line(type="map", map="@n", data=[{"key": [name], "value": 5}]),
                    ),
                    own("x", refusal=name),
                ]
                markup = whole(asked_of(name, path=name, kind=name), scripts, name=name)
                found = read_page(markup)
                self.assertEqual([script.text() for script in found.all("script")], [SCRIPT])
                self.assertEqual(list(found.all("img")) + list(found.all("b", "", src="x")), [])
                for node in found.all():
                    self.assertFalse([key for key in node.attributes if key.startswith("on")], node.name)
                text = found.text()
                for wanted in (f"Recording {name}", f"{name} 7", f"executed {name} at"):
                    self.assertIn(wanted, text)
                for panel, wanted in (
                    ("runs", f"{name} 7: 300000 ns from 0 ns"),
                    ("icicle", f"{name} 9: 4444 ns"),
                    ("own_1", f"{name}: 5"),
                ):
                    self.assertIn(wanted, titles(found.one("section", id=panel)))
                self.assertIn(name, [cell.text() for cell in found.one("section", id="slow_calls").all("td")])
                self.assertEqual(found.one("section", id="own_2").one("p", "red").text(), f"refused: {name}")
                self.assertEqual(found.one("div", id="lanes").attributes["data-cut"], f"btrecord cut {name}")

    def test_a_script_may_have_any_text(self):
        text = "</pre></details><script>alert(1)</script>"
        asked = own("a.bt")
        panel = own_panels([type(asked)(asked.name, text, asked.answer)])[0]
        found = read_page(page("t", [panel]))
        self.assertEqual(found.one("details", "script").one("pre").text(), text)
        self.assertEqual(len(list(found.all("script"))), 1)


class Panels(unittest.TestCase):
    def setUp(self):
        self.page = read_page(whole(asked_of()))

    def panel(self, name):
        """A panel of the page."""
        return self.page.one("section", id=name)

    def test_all_panels_with_the_scripts_that_asked(self):
        asked = {
            "head": ["time_line"],
            "time_line": ["time_line", "threads", "block", "calls"],
            "waits": ["threads"],
            "block": ["block"],
            "calls": ["calls", "details"],
            "who": ["threads"],
            "runs": ["runs"],
            "icicle": ["calls", "details"],
            "slow_calls": ["calls"],
            "errors": ["calls"],
            "slow_requests": ["block"],
            "processes": ["processes"],
        }
        self.assertEqual([section.attributes["id"] for section in self.page.all("section")], list(asked))
        texts = {name: one.text for name, one in asked_of().items()}
        for name, names in asked.items():
            scripts = [
                (script.one("summary").text(), script.one("pre").text())
                for script in self.panel(name).all("details", "script")
            ]
            self.assertEqual(scripts, [(f"the script that asked: {which}", texts[which]) for which in names])
        self.assertEqual([link.attributes["href"] for link in self.page.all("a")], [f"#{name}" for name in asked])

    def test_the_head_tells_losses_in_red_and_gaps(self):
        line = time_line_of(asked_of()["time_line"].answer)
        self.assertEqual(line.losses, [Loss(1, 60, 9_000, 18_000), Loss(0, 11_280, 9_000, 18_000)])
        self.assertEqual(line.gaps, {0: [(300_000, 700_000)], 1: [(31_000, SPAN - 31_000)]})
        self.assertEqual(
            (line.start, line.end, line.span, line.of_cpu), (1_000_000, 3_000_000, SPAN, {0: 123_456, 1: 4})
        )
        head = self.panel("head")
        self.assertEqual(head.one("p", "red").text(), "11280 events lost on cpu 0; 60 events lost on cpu 1")
        self.assertEqual(
            [value.text() for value in head.all("dd")],
            ["r.btr", "2000000 ns", "1000000 ns", "3000000 ns", "2", "cpu 0: 123456, cpu 1: 4"],
        )
        gap = next(head.all("rect", "gap"))
        self.assertEqual(
            (gap.attributes["x"], gap.attributes["width"], gap.one("title").text()),
            ("150", "350", "no event for 700000 ns from 300000 ns"),
        )
        self.assertIn("60 events lost, told between 9000 ns and 18000 ns", titles(head))

    def test_the_time_line_has_each_part(self):
        column = SPAN // COLUMNS + 1
        found = titles(self.panel("time_line"))
        for wanted in (
            "123000 events from 0 ns on",
            f"456 events from {199 * column} ns on",
            f"4 events from {3 * column} ns on",
            f"3777 ns from {6 * column} ns on",
            "2 issued from 0 ns on",
            f"5 failed from {6 * column} ns on",
        ):
            self.assertIn(wanted, found)
        self.assertEqual(self.page.one("pre", id="cut").text(), f"btrecord cut r.btr --from +0ns --to +{SPAN}ns")

    def test_who_ran_waited_and_was_blocked(self):
        lanes = list(self.panel("who").all("div", "stacked"))
        self.assertEqual([lane.one("div", "label").text() for lane in lanes], ["other 8", "dd 7"])
        self.assertEqual(
            [part.text() for part in lanes[1].all("span", "part")],
            ["on a CPU 400000", "waits for one 50000", "sleeps 70000", "something else 3"],
        )
        widths = [float(rect.attributes["width"]) for rect in lanes[1].all("rect")]
        self.assertAlmostEqual(widths[0], 1_000 * 400_000 / 900_001, delta=0.01)

    def test_runs_of_threads(self):
        found = titles(self.panel("runs"))
        self.assertEqual(
            found,
            [
                "dd 7: 300000 ns from 0 ns",
                f"dd 7: {SPAN - 300_000} ns from 300000 ns",
                "other 8: 90000 ns from 10 ns",
                "3 shorter runs",
            ],
        )

    def test_the_icicle_by_time_and_by_count(self):
        drawings = list(self.panel("icicle").all("div", "icicle"))
        self.assertEqual(
            titles(drawings[0]),
            [
                "dd 7: 7777 ns",
                "dd 9: 4444 ns",
                "dd 7: 3333 ns",
                "exit: 4444 ns",
                "write: 3333 ns",
                "ok: 4444 ns",
                "ENOENT: 3333 ns",
            ],
        )
        self.assertEqual(titles(drawings[1])[0], "dd 7: 3 calls")
        boxes = [(float(rect.attributes["x"]), float(rect.attributes["width"])) for rect in drawings[1].all("rect")]
        self.assertEqual(boxes[:2], [(0, 750), (750, 250)])

    def test_tables(self):
        def rows(name):
            return [[cell.text() for cell in row.all("td")] for row in self.panel(name).all("tr")][1:]

        self.assertEqual(
            rows("slow_calls"),
            [["900", "4444", "exit", "5", "dd", "9", "7"], ["500", "3333", "write", "-2 ENOENT", "dd", "7", "7"]],
        )
        self.assertEqual(rows("errors"), [["ENOENT", "2", "write", "1", "5"]])
        self.assertEqual(rows("slow_requests"), [["700", "91234", "WS", "4096", "254:0", "1234", "dd"]])
        self.assertEqual(device(254 << 20 | 3), "254:3")
        items = [item.text() for item in self.panel("processes").all("li")]
        self.assertEqual(items, ["dd 7", "dd 9 began at 10, executed /bin/true at 20, ended at 30"])

    def test_scripts_that_were_refused_lost_updates_or_were_cut(self):
        asked = asked_of()
        asked["block"] = own("block", refusal="block:1:1: A1 unknown tracepoint")
        losing = own(
            "own.bt", line(type="lost_updates", map="@m", count=9) + line(type="cut", line=4) + line(type="cut", line=4)
        )
        found = read_page(whole(asked, [losing]))
        self.assertEqual(
            found.one("section", id="refused_block").one("p", "red").text(), "refused: block:1:1: A1 unknown tracepoint"
        )
        self.assertEqual(
            [told.text() for told in found.one("section", id="own_1").all("p", "red")],
            [
                "own.bt: 9 updates lost in @m, for there was no room for their keys",
                "own.bt: loop limit reached at line 4",
            ],
        )

    def test_nothing_but_what_the_page_has_itself(self):
        for node in self.page.all():
            self.assertFalse(
                {"src", "href", "action", "xlink:href"} & set(node.attributes)
                and not node.attributes.get("href", "").startswith("#"),
                node.name,
            )
        self.assertNotIn("url(", self.page.one("style").text())
        self.assertIn(
            "default-src 'none'",
            self.page.one("meta", **{"http-equiv": "Content-Security-Policy"}).attributes["content"],
        )


class Questions(unittest.TestCase):
    def names(self, *points, span=5_000_000_000):
        """The questions that are asked of a recording with these tracepoints."""
        return [question.name for question in first_questions(Recorded(frozenset(points), span, False))]

    def test_only_what_a_recording_can_answer_is_asked(self):
        self.assertEqual(self.names(), ["time_line"])
        self.assertEqual(self.names("sched:sched_switch"), ["time_line"])
        self.assertEqual(self.names("sched:sched_switch", span=9), ["time_line", "runs"])
        self.assertEqual(self.names("sched:sched_switch", "sched:sched_wakeup_new"), ["time_line", "threads"])
        self.assertEqual(self.names("raw_syscalls:sys_enter", "sched:sched_process_exec"), ["time_line", "processes"])
        self.assertEqual(self.names("syscalls:sys_enter_read", "syscalls:sys_exit_read"), ["time_line", "calls"])
        self.assertEqual(self.names("syscalls:sys_enter_read", "syscalls:sys_exit_write"), ["time_line"])

    def test_numbers_stand_in_the_scripts(self):
        texts = {question.name: question.text for question in first_questions(RECORDED)}
        self.assertIn(f"elapsed / {SPAN // 200 + 1}]", texts["time_line"])
        self.assertIn("interval:us:10 {", texts["time_line"])
        self.assertIn("while ($k < 20)", texts["calls"])
        for text in texts.values():
            self.assertLess(max(map(len, text.splitlines())), 125)
            self.assertNotRegex(text, r"\b[A-Z]{4,}_?[A-Z]*\b(?<!BEGIN)")
        self.assertEqual(
            commands("a b.btr", [own("x/y.bt"), own("calls")]),
            "./btreplay run --serial --json x/y.bt 'a b.btr'\n./btreplay run --serial --json calls.bt 'a b.btr'",
        )


class Scales(unittest.TestCase):
    def test_levels(self):
        self.assertEqual([level(value, 1_000) for value in (-1, 0, 1, 2, 999, 1_000)], [0, 0, 1, 1, 7, 8])
        self.assertEqual(level(1, 1), 8)

    def test_rows_without_a_label(self):
        self.assertEqual(following({"[4, 8)", "[0]", "(..., 0)"}), ["(..., 0)", "[0]", None, None, "[4, 8)"])
        self.assertEqual(
            following({"[0, 10)", "[30, 40)", "[40, ...)"}), ["[0, 10)", None, None, "[30, 40)", "[40, ...)"]
        )
        self.assertEqual(following({"[512, 1K)", "[2K, 4K)"}), ["[512, 1K)", None, "[2K, 4K)"])

        self.assertEqual(following({"[-10, -5)", "[5, 10)"}), ["[-10, -5)", None, None, "[5, 10)"])
        self.assertEqual(following({"(..., 0)", "[10, ...)"}), ["(..., 0)", "[10, ...)"])
        self.assertEqual(len(following({"[0, 1)", "[1000, ...)"})), 1_001)

    def test_a_grid_of_many_rows_is_not_too_high(self):
        for count, rows in ((3, 3), (60, 60), (1_000, 125)):
            labels = [f"[{k}, {k + 1})" for k in range(count)]
            found = read_page(grid([(0, [(labels[0], 1)])], labels, 1, "", ""))
            self.assertEqual(len(found.one("div", "label").inside), rows)
            self.assertLessEqual(int(found.one("svg").attributes["style"][len("height:") : -2]), 2_000)

    def test_ticks(self):
        self.assertEqual(ticks(0), [(0, "0")])
        self.assertEqual(ticks(51_927_737), [(0, "0"), (20_000_000, "20 ms"), (40_000_000, "40 ms")])
        self.assertEqual(ticks(240_000)[1], (100_000, "100 µs"))
        self.assertEqual([word for _, word in ticks(2_000_000)], ["0", "0.5 ms", "1 ms", "1.5 ms", "2 ms"])
        self.assertEqual([word for _, word in ticks(7_009_825_187)], ["0", "2 s", "4 s", "6 s"])


if __name__ == "__main__":
    unittest.main()
