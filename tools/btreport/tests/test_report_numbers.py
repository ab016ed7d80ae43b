"""Tests that the numbers of a page are those that the program printed, to the digit: for all examples, and for what
they do not print."""
import re
import unittest

from made_answers import BUCKET, EXAMPLES, ROW, json_of, key_of, line, read_page, value_of

from btreport.answers import NotOfTheProgram, answer_of
from btreport.markup import number
from btreport.own_panels import body_of, first_comment, has_heads, lines_of


def drawn(text):
    """The page of what a script printed as text."""
    return read_page(body_of(answer_of(json_of(text).encode())))


def cells(table):
    """The texts of a table's cells, row by row, without its heads."""
    rows = ([cell.text() for cell in row.all("td")] for row in table.all("tr"))
    return [row for row in rows if row]


def wanted_of(text):
    """What an example printed: its lines, and for each map its rows; of a histogram a row for each bucket. The key's
    parts stand before the value."""
    lines, maps, name, key = [], {}, None, []
    for part in text.splitlines():
        row, bucket = ROW.fullmatch(part), BUCKET.fullmatch(part)
        if row:
            name, key = row[1], [str(word) for word in key_of(row[2])]
            rows = maps.setdefault(name, [])
            if row[3] is not None:
                rows.append(key + [row[3]])
        elif bucket:
            maps[name].append(key + [bucket[1], bucket[2]])
        elif part or not maps:
            lines.append(part)
    return lines, maps


class Examples(unittest.TestCase):
    def test_each_number_and_name_of_all_examples(self):
        seen = 0
        for path in sorted(EXAMPLES.glob("*.out")):
            with self.subTest(path.name):
                text = path.read_text()
                page, (lines, maps) = drawn(text), wanted_of(text)
                self.assertEqual([block.one("h3").text() for block in page.all("div", "map")], list(maps))
                for block, (name, rows) in zip(page.all("div", "map"), maps.items()):
                    self.check_map(block, rows)
                self.check_lines(page, answer_of(json_of(text).encode()), lines)
                seen += 1
        self.assertGreaterEqual(seen, 36)

    def check_map(self, block, rows):
        """The numbers of a map: all of them in its table, and as bars the greatest."""
        told = cells(block.one("details"))
        is_histogram = bool(list(block.all("div", "histograms")))
        if not is_histogram:
            self.assertEqual(told, rows[::-1])
            bars = [
                (bar.one("div", "label").text(), bar.one("div", "number").text()) for bar in block.all("div", "bar")
            ]
            self.assertEqual(bars, [(", ".join(row[:-1]) or "all", row[-1]) for row in rows[::-1][:24]])
            self.check_widths(list(block.all("div", "bar")))
            return
        self.assertEqual(sorted(told), sorted(rows))
        for key in block.one("div", "histograms").inside:
            bars = [(bar.one("div", "label").text(), bar.one("div", "number").text()) for bar in key.all("div", "bar")]
            name = [] if key.one("h4").text() == "all" else key.one("h4").text().split(", ")
            self.assertEqual(bars, [tuple(row[len(name) :]) for row in rows if row[: len(name)] == name])
            self.check_widths(list(key.all("div", "bar")))

    def check_widths(self, bars):
        """The length of a bar is to the longest as its number is to the greatest, and its title has the number."""
        numbers = [int(bar.one("div", "number").text()) for bar in bars]
        for bar, found in zip(bars, numbers):
            shape = bar.one("rect")
            self.assertAlmostEqual(float(shape.attributes["width"]), 1_000 * found / max(*numbers, 1), delta=0.01)
            self.assertEqual(shape.one("title").text(), f"{bar.one('div', 'label').text()}: {found}")

    def check_lines(self, page, answer, lines):
        """The lines that printf wrote, and the losses between them."""
        printed = list(page.all("div", "lines"))
        if not lines or not answer.printed():
            self.assertEqual(printed, [])
            return
        told = [re.sub(r"WARNING: ", "", part) for part in lines]
        if has_heads(lines_of(answer)):
            self.assertEqual([head.text() for head in printed[0].all("th")], lines[0].split())
            self.assertEqual(cells(printed[0]), [part.split() for part in told[1:]])
        else:
            self.assertEqual(cells(printed[0]), [[part] for part in told])


class Numbers(unittest.TestCase):
    def test_digits_stay_as_they_are(self):
        for found in (
            0,
            7,
            12,
            123,
            1_234,
            -5,
            -123,
            -1_234,
            123_456,
            18_446_744_073_709_551_615,
            -9_223_372_036_854_775_808,
        ):
            self.assertEqual(read_page(number(found)).text(), str(found))

    def test_histograms_of_several_prints_are_a_heat_map(self):
        first = line(
            type="map",
            map="@h",
            data=[
                {
                    "key": ["a"],
                    "value": [
                        {"count": 3, "label": "[2, 4)"},
                        {"count": 0, "label": "[4, 8)"},
                        {"count": 1, "label": "[8, 16)"},
                    ],
                }
            ],
        )
        second = line(
            type="map",
            map="@h",
            data=[{"key": ["a"], "value": [{"count": 9, "label": "[1K, 2K)"}]}, {"key": ["b"], "value": []}],
        )
        page = read_page(body_of(answer_of((first + second).encode())))
        grid = page.one("div", "heat")
        self.assertEqual(
            [label.text() for label in grid.one("div", "label").inside],
            ["[1K, 2K)"] + [""] * 6 + ["[8, 16)", "[4, 8)", "[2, 4)"],
        )
        shapes = [
            (rect.attributes["x"], rect.attributes["y"], rect.one("title").text())
            for rect in grid.one("div", "drawn").all("rect")
        ]
        self.assertEqual(shapes, [("0", "9", "[2, 4): 3"), ("0", "7", "[8, 16): 1"), ("1", "0", "[1K, 2K): 9")])
        self.assertIn(["2", "a", "[1K, 2K)", "9"], cells(page.one("details")))

    def test_numbers_of_several_prints_are_a_grid(self):
        prints = "".join(
            line(type="map", map="@n", data=[{"key": [cpu], "value": 10 * cpu + k} for cpu in (1, 2)]) for k in range(3)
        )
        page = read_page(body_of(answer_of(prints.encode())))
        self.assertEqual([label.text() for label in page.one("div", "label").inside], ["2", "1"])
        self.assertEqual(len(list(page.one("div", "drawn").all("rect"))), 6)
        self.assertEqual(
            cells(page.one("details")), [[str(k + 1), str(cpu), str(10 * cpu + k)] for k in range(3) for cpu in (1, 2)]
        )

    def test_maps_of_texts_and_what_is_below_0(self):
        page = drawn("@t[5]: some text\n\n@n[x]: -3\n@n[y]: 4\n\n")
        self.assertEqual(cells(page.one("div", "wide")), [["5", "some text"]])
        self.assertEqual([bar.one("div", "number").text() for bar in page.all("div", "bar")], ["4", "-3"])
        self.assertEqual([rect.attributes["width"] for rect in page.all("rect")], ["1000", "0"])

    def test_what_is_left_out_is_told_in_red(self):
        page = drawn("".join(f"line {k}\n" for k in range(600)))
        self.assertEqual(page.one("p", "red").text(), "100 more lines left out")
        page = drawn("".join(f"@n[{k}]: {k}\n" for k in range(1_200)))
        self.assertEqual(page.one("p", "red").text(), "200 more rows left out")
        self.assertEqual(page.one("summary").text(), "the numbers, 1200 rows")

    def test_lines_that_the_program_does_not_print(self):
        for made in (
            "{",
            "[]",
            '{"type":"other"}',
            '{"type":"map","map":"@"}',
            '{"type":"map","map":"@","data":[{"key":["\u0161"],"value":1}]}',
        ):
            with self.subTest(made), self.assertRaises(NotOfTheProgram):
                answer_of(made.encode())

    def test_the_question_of_a_script(self):
        script = (EXAMPLES / "write_back.bt").read_text()
        self.assertTrue(
            first_comment(script).startswith("Why is write-back begun, by device, and for how many pages at")
        )
        self.assertNotIn("Run:", first_comment(script))
        self.assertEqual(first_comment("BEGIN { } // later"), "")

    def test_bytes_of_names(self):
        """A byte is a character of the line: UTF-8 is read as it, and what cannot be seen is spelled."""
        made = line(
            type="map",
            map="@",
            data=[{"key": ["caf\u00c3\u00a9", "\u00ff", "a\x1bb", "\u00e2\u0080\u00ae"], "value": 1}],
        )
        self.assertEqual(answer_of(made.encode()).rows("@")[0].key, ("café", "\\xff", "a\\x1bb", "\\x202e"))
        self.assertEqual(value_of("5"), 5)


if __name__ == "__main__":
    unittest.main()
