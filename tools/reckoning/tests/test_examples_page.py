"""Tests of examples/README.md: that it has each script, says rightly which want --serial and why, and names the events to record."""
import fnmatch
import pathlib
import re
import unittest

EXAMPLES = pathlib.Path(__file__).resolve().parent.parent.parent.parent / "examples"
AGGREGATIONS = "count|sum|min|max|avg|hist|lhist|stats"
MAP = r"(@\w*)(\[[^\[\]]*\])?"
POINT = re.compile(r"(?:tracepoint|t):(\w+:\w+)\b(?!\*)")


def rows_of(title):
    """The rows of the table whose first title is this one, as lists of cells."""
    rows, inside = [], False
    for line in (EXAMPLES / "README.md").read_text().splitlines():
        cells = [cell.strip() for cell in line.strip().strip("|").split(" |")] if line.startswith("|") else []
        inside = bool(cells) and (inside or cells[0].strip() == title)
        if inside and cells[0] not in (title, "---") and not cells[0].startswith("---"):
            rows.append(cells)
    return rows


def probes_of(script):
    """The probes of a script without its comments and strings: what stands before the block, with the predicate, and the block."""
    plain = re.sub(r'"(?:\\.|[^"\\])*"', '""', re.sub(r"//.*", "", script))
    found, head, depth, begin = [], 0, 0, 0
    for place, letter in enumerate(plain):
        if letter == "{":
            depth += 1
            begin = place if depth == 1 else begin
        elif letter == "}":
            depth -= 1
            if depth == 0:
                found.append((plain[head:begin].strip(), plain[begin:place + 1]))
                head = place + 1
    return found


def shared_maps(script):
    """The maps that events or ticks set and also read, and that hold no aggregation and do not have the CPU in their keys."""
    adds = set(re.findall(rf"{MAP} = (?:{AGGREGATIONS})\(", script))
    aggregations, are_set, are_read, keyed = {name for name, _ in adds}, [], set(), {}
    for head, block in probes_of(script):
        if head in ("BEGIN", "END"):
            continue
        block = re.sub(r"\b(delete|clear|print|zero)\(@[^;]*\);", "", block)
        for name, key in re.findall(MAP, head + block):
            keyed[name] = keyed.get(name, True) and re.search(r"\bcpu\b", key) is not None
        are_set += [name for name, _, _ in re.findall(MAP + r"(\+\+|--| [^ =!<>]?= )", block)]
        are_set += [name for name, _ in re.findall(r"(?:\+\+|--)" + MAP, block)]
        are_read |= {name for name, _ in re.findall(MAP, head)} | {name for name, _ in re.findall(MAP + r"(?! = )", block)}
    return [name for name in keyed if name in are_read.intersection(are_set) - aggregations and not keyed[name]]


def prints_lines(script):
    """Whether events or ticks print lines."""
    return any("printf(" in block for head, block in probes_of(script) if head not in ("BEGIN", "END"))


def why(script):
    """What the page has to say of a script: its maps, and whether it prints lines."""
    maps = [f"`{name}`" for name in shared_maps(script)]
    parts = [("maps " if len(maps) > 1 else "map ") + ", ".join(maps)] if maps else []
    return "; ".join(parts + ["lines"] * prints_lines(script))


class Page(unittest.TestCase):
    def setUp(self):
        self.scripts = {path.name: path.read_text() for path in EXAMPLES.glob("*.bt")}

    def test_every_script_has_a_row(self):
        rows = rows_of("Script")
        self.assertEqual(sorted(row[0].strip("`") for row in rows), sorted(self.scripts))
        self.assertEqual(len(rows), 36)

    def test_marks(self):
        """By the rule, by the page, and by the script's own command."""
        for row in rows_of("Script"):
            script = self.scripts[row[0].strip("`")]
            command = re.search("^// Run: .*", script, re.M).group(0)
            cells = [cell.strip("| ") for cell in row[2:] + [""] * (4 - len(row))]
            with self.subTest(row[0]):
                self.assertEqual(cells[1], why(script))
                self.assertEqual((cells[0] == "yes", "--serial" in command.split()), (why(script) != "",) * 2)

    def test_events_to_record(self):
        """The names in the last column reach every tracepoint of the scripts in the one before it."""
        rows = [row for row in rows_of("Name") if len(row) == 3]
        self.assertGreater(len(rows), 25)
        for name, scripts, events in rows:
            patterns = events.replace("'", "").strip("`| ").split()
            if "btrecord" in scripts:
                continue
            named = re.findall(r"\w+\.bt", scripts)
            text = "\n".join(self.scripts[script] for script in named) if named else scripts
            wanted = set(POINT.findall(re.sub(r"//.*", "", text)))
            with self.subTest(name):
                self.assertTrue(wanted)
                self.assertEqual({point for point in wanted if not any(fnmatch.fnmatchcase(point, pattern) for pattern in patterns)}, set())


class Rule(unittest.TestCase):
    def test_traps(self):
        """Comments, strings, keys with the CPU, aggregations, and what only BEGIN sets."""
        for script, maps in (
                ("t:x:a { @a[tid] = nsecs; }\nt:x:b /@a[tid]/ { @h = hist(nsecs - @a[tid]); }\n", ["@a"]),
                ("t:x:a { @a[cpu, tid] = nsecs; }\nt:x:b /@a[cpu, tid]/ { @h = hist(1); }\n", []),
                ("t:x:a { @a = count(); }\nEND { print(@a); clear(@a); }\n", []),
                ("BEGIN { @a = 1; }\nt:x:b /@a/ { @h = hist(1); }\n", []),
                ("t:x:a { @a++; }\n", ["@a"]),
                ("t:x:a { @c[\"@a = 1; @a\"] = count(); } // @a = 1 @a\n", []),
                ("t:x:a { if (@a == args.n) { @h = count(); } @a = args.n; }\n", ["@a"])):
            with self.subTest(script):
                self.assertEqual(shared_maps(script), maps)


if __name__ == "__main__":
    unittest.main()
