"""Tests of hosts in groups, and of what differs between them. All numbers are worked out by hand."""
import json
import tempfile
import unittest

from fleet_hosts import WithFolder, count_line, printf_line

from btfleet.answers import answer_of
from btfleet.comparing import compared
from btfleet.differing import MOST_ROWS, Comparison
from btfleet.faults import Refused
from btfleet.labels import groups_of, labels_in, labels_of
from btfleet.merged import Merged
from btfleet.plan import exit_in, plan_of

SECOND = 10**9
FILE = "web1 role=web zone=eu  # the first\n\n# db1 role=none\nweb2\trole=web\ndb1 role=db\n"


def comparison(script, hosts):
    """What differs between hosts, by their names, seconds and lines."""
    merged = Merged(plan_of(script, True), True)
    for place, (host, seconds, lines) in enumerate(hosts):
        lines = [*lines, count_line("@btfleet_span", [((), seconds * SECOND)])]
        merged.take(place, host, answer_of("".join(f"{line}\n" for line in lines).encode(), merged.plan))
    return Comparison(merged)


def rows(script, hosts):
    """The rows that differ, as their host, map, key, numbers of both, and whether there are few counts."""
    return [(row.host, row.name, row.key, round(row.here, 3), round(row.others, 3), row.is_few) for row in comparison(script, hosts).differences()]


class Rates(unittest.TestCase):
    COUNT = "t:a:b { @c[comm] = count(); }"

    def count(self, host, seconds, **counts):
        """A host with counts by keys."""
        return host, seconds, [count_line("@c", [((key,), count) for key, count in counts.items()])]

    def test_per_second_and_the_most_different_first(self):
        """a has 10 a second, b 10, and c 1, though a has twice as many as b: others have 5.5, 7 and 10."""
        hosts = [self.count("a", 100, k=1000), self.count("b", 50, k=500), self.count("c", 50, k=50)]
        self.assertEqual(rows(self.COUNT, hosts), [("c", "@c", ("k",), 1.0, 10.0, False), ("a", "@c", ("k",), 10.0, 5.5, False),
                                                   ("b", "@c", ("k",), 10.0, 7.0, False)])
        self.assertEqual(b"".join(compared(comparison(self.COUNT, hosts).differences(), "host", False)).decode(),
                         "HOST  SECONDS  ROW       HERE   OTHERS  TIMES\n"
                         "c      50.000  @c[k]   1.00/s  10.00/s   0.10\n"
                         "a     100.000  @c[k]  10.00/s   5.50/s   1.82\n"
                         "b      50.000  @c[k]  10.00/s   7.00/s   1.43\n")

    def test_few_counts(self):
        """9 where none is expected are few, and 10 are not; so are 0 where 9 are expected, and 10 are not. What is few stands last."""
        hosts = [self.count("a", 10, nine=9, ten=10, many=100), self.count("b", 10, many=101)]
        self.assertEqual(rows(self.COUNT, hosts), [
            ("a", "@c", ("ten",), 1.0, 0.0, False), ("a", "@c", ("many",), 10.0, 10.1, False), ("a", "@c", ("nine",), 0.9, 0.0, True),
            ("b", "@c", ("ten",), 0.0, 1.0, False), ("b", "@c", ("many",), 10.1, 10.0, False), ("b", "@c", ("nine",), 0.0, 0.9, True)])
        found = b"".join(compared(comparison(self.COUNT, hosts).differences(), "host", False)).decode().splitlines()
        self.assertEqual([line.split("  ")[-1].strip() for line in found], ["TIMES", "only here", "0.99", "few", "not here", "1.01", "few"])

    def test_several_recordings_of_a_host(self):
        hosts = [self.count("a", 10, k=100), self.count("b", 10, k=50), self.count("a", 30, k=300)]
        self.assertEqual(rows(self.COUNT, hosts), [("a", "@c", ("k",), 10.0, 5.0, False), ("b", "@c", ("k",), 5.0, 10.0, False)])

    def test_sums_are_few_by_their_counts(self):
        """One great number is few, and so is told; many are not. Sums of other signs are infinitely far apart."""
        script = "t:a:b { @s[comm] = sum(args.n); }"
        hosts = [("a", 1, [count_line("@s", [(("x",), 10**9), (("y",), 4000)]), count_line("@s_count", [(("x",), 1), (("y",), 40)])]),
                 ("b", 2, [count_line("@s", [(("y",), -4000)]), count_line("@s_count", [(("y",), 40)])])]
        self.assertEqual(rows(script, hosts), [("a", "@s", ("y",), 4000.0, -2000.0, False), ("a", "@s", ("x",), 10.0**9, 0.0, True),
                                               ("b", "@s", ("y",), -2000.0, 4000.0, False), ("b", "@s", ("x",), 0.0, 10.0**9, True)])

    def test_averages_are_not_per_second(self):
        script = "t:a:b { @v[comm] = avg(args.n); }"
        hosts = [("a", 1, [count_line("@v", [(("x",), 900), (("z",), 8)]), count_line("@v_count", [(("x",), 30), (("z",), 1)])]),
                 ("b", 5, [count_line("@v", [(("x",), 1000)]), count_line("@v_count", [(("x",), 10)])]),
                 ("c", 5, [count_line("@v", [(("x",), 800)]), count_line("@v_count", [(("x",), 20)])])]
        self.assertEqual(rows(script, hosts), [("b", "@v", ("x",), 100.0, 34.0, False), ("a", "@v", ("x",), 30.0, 60.0, False),
                                               ("c", "@v", ("x",), 40.0, 47.5, False)])

    def test_histograms_by_their_counts_and_lines(self):
        line = json.dumps({"data": [{"key": [], "value": [{"label": "[1]", "count": 30}, {"label": "[2, 4)", "count": 10}]}], "map": "@h", "type": "map"})
        found = comparison("t:a:b { @h = hist(1); }", [("a", 4, [line]), ("b", 8, [line])]).differences()
        # 40 where 80 are expected, each with its half count, is less by 1.988 times, and 40 where 20 are is more by 1.976.
        self.assertEqual([json.loads(line) for line in compared(found, "host", True)], [
            {"type": "difference", "host": "b", "seconds": 8.0, "map": "@h", "key": [], "value": 40, "here": 5.0, "others": 10.0, "times": 0.5,
             "is_rate": True, "few": False},
            {"type": "difference", "host": "a", "seconds": 4.0, "map": "@h", "key": [], "value": 40, "here": 10.0, "others": 5.0, "times": 2.0,
             "is_rate": True, "few": False}])

    def test_ten_rows_of_a_host(self):
        hosts = [self.count("a", 1, **{f"k{number:02}": 100 * (number + 1) for number in range(30)}),
                 self.count("b", 1, **{f"k{number:02}": 100 for number in range(30)})]
        found = [key for host, _, (key,), *_ in rows(self.COUNT, hosts) if host == "a"]
        self.assertEqual(found, [f"k{number:02}" for number in range(29, 29 - MOST_ROWS, -1)])

    def test_what_is_told_beside(self):
        script = 't:a:b { @c = count(); @least = min(1); printf("x"); }'
        lines = [printf_line("x"), count_line("@c", [((), 50)]), count_line("@least", [((), 1)])]
        found = comparison(script, [("a", 1, lines), ("b", 0, lines), ("c", 1, lines)])
        self.assertEqual(sorted({row.host for row in found.differences()}), ["a", "c"])
        self.assertEqual(found.told(), ["@least: least and greatest numbers are not compared",
                                        "b: its recording has no length, so nothing of it is per second",
                                        "what recordings print by themselves is not compared, and left out: 3 pieces"])
        alone = comparison(script, [("a", 1, lines)])
        self.assertEqual((alone.differences(), alone.told()[-1]), ([], "there are no two hosts to compare"))

    def test_first_prints(self):
        """Of a map that is printed and cleared the rows are those of its print, all of them."""
        script = "t:a:b { @c[comm] = count(); } END { print(@c, 1); clear(@c); }"
        hosts = [self.count("a", 1, k=100, m=20), self.count("b", 1, k=100, m=40)]
        self.assertEqual([row[:3] for row in rows(script, hosts)][:2], [("a", "@c", ("m",)), ("a", "@c", ("k",))])

    def test_exit(self):
        self.assertEqual(exit_in("t:a:b { if (1) { exit(); } }"), 17)
        self.assertIsNone(exit_in('t:a:b { printf("exit()"); } END { exit(); }'))


class Labels(unittest.TestCase):
    def test_labels(self):
        self.assertEqual(labels_in(FILE, "role", "f"), {"web1": "web", "web2": "web", "db1": "db"})
        self.assertEqual(labels_in(FILE, "zone", "f"), {"web1": "eu"})
        self.assertEqual(labels_in("h a=b=c", "a", "f"), {"h": "b=c"})
        for text, why in ((FILE, "f: no host has the label rack"), ("h rack=1\nh rack=2", "f:2: h has its labels twice"),
                          ("h rack=1 rack=2", "f:1: h has its labels twice"), ("\nh rack", "f:2: a line is HOST NAME=VALUE .."),
                          ("h rack=", "f:1: a line is HOST NAME=VALUE .."), ("h =1", "f:1: a line is HOST NAME=VALUE .."),
                          ("", "f: no host has the label rack")):
            with self.subTest(text), self.assertRaises(Refused) as refused:
                labels_in(text, "rack", "f")
            self.assertEqual((str(refused.exception), refused.exception.status), (why, 1))

    def test_groups(self):
        with tempfile.NamedTemporaryFile("w", suffix=".txt") as file:
            file.write(FILE)
            file.flush()
            self.assertEqual(groups_of(["web1", "db1"], file.name, "role"), {"web1": "web", "db1": "db"})
            with self.assertRaises(Refused) as refused:
                groups_of(["web2", "web1", *(f"w{number}" for number in range(6))], file.name, "role")
            self.assertEqual(str(refused.exception), f"{file.name}: no role is said of w0, w1, w2, w3, w4 and 1 more")
        with self.assertRaises(Refused) as refused:
            labels_of("/no/labels", "role")
        self.assertEqual((str(refused.exception), refused.exception.status), ("/no/labels: there is no folder /no", 4))


ALIKE = "btfleet: web1:plain0.btr, web2:plain1.btr are alike in size, head and end: a copy is counted as often as it is named\n"


class Command(WithFolder):
    """The command over files here, with the stand-in for the program."""

    def recordings(self):
        """Three hosts and their labels."""
        spans = [count_line("@btfleet_span", [((), seconds * SECOND)]) for seconds in (10, 20, 10)]
        counts = [count_line("@calls", [(("x",), count)]) for count in (100, 100, 400)]
        for name, lines in (("plain", [[count] for count in counts]), ("spans", [list(pair) for pair in zip(counts, spans)])):
            for number, of_one in enumerate(lines):
                self.installed.recording(f"{name}{number}.btr", [printf_line("hi\n"), *of_one])
        self.installed.write("hosts", "web1 role=web\nweb2 role=web\ndb1 role=db\n")

    def words(self, name):
        """The words for the recordings of the hosts."""
        return [f"{host}:{name}{number}.btr" for number, host in enumerate(("web1", "web2", "db1"))]

    def test_groups_and_differences(self):
        self.recordings()
        told = "btfleet: the result has 3 of 3 recordings\n"
        by = ["--by", "role", "--labels", "hosts"]
        self.assertEqual(self.installed.run("run", "s.bt", *self.words("plain"), *by),
                         (0, b"web: hi\nweb: hi\ndb: hi\n@calls[web, x]: 200\n@calls[db, x]: 400\n\n", ALIKE + told))
        lines = self.installed.run("run", "s.bt", *self.words("plain"), *by, "--json")[1].splitlines()
        self.assertEqual(json.loads(lines[2]), {"data": "hi\n", "group": "db", "type": "printf"})
        left = "btfleet: what recordings print by themselves is not compared, and left out: 3 pieces\n"
        table = (b"HOST  SECONDS  ROW           HERE   OTHERS  TIMES\n"
                 b"db1    10.000  @calls[x]  40.00/s   6.67/s   6.00\n"
                 b"web2   20.000  @calls[x]   5.00/s  25.00/s   0.20\n"
                 b"web1   10.000  @calls[x]  10.00/s  16.67/s   0.60\n")
        self.assertEqual(self.installed.run("run", "s.bt", *self.words("spans"), "--diff"), (0, table, left + told))
        # 200 where 1,200 are expected is less by 5.988 times, and 400 where 66.7 are is more by 5.963.
        self.assertEqual(self.installed.run("run", "s.bt", *self.words("spans"), "--diff", *by)[1],
                         b"GROUP  SECONDS  ROW           HERE   OTHERS  TIMES\n"
                         b"web     30.000  @calls[x]   6.67/s  40.00/s   0.17\n"
                         b"db      10.000  @calls[x]  40.00/s   6.67/s   6.00\n")

    def test_what_is_refused(self):
        self.recordings()
        self.installed.write("exit.bt", "t:a:b { @ = count();\n  exit(); }")
        for words, status, why in ((["--by", "role"], 1, "--by LABEL and --labels FILE are given together"),
                                   (["--by", "", "--labels", "hosts"], 1, "--by wants the name of a label"),
                                   (["--by", "role", "--labels", "none"], 4, "none: there is no such file"),
                                   (["--by", "rack", "--labels", "hosts"], 1, "hosts: no host has the label rack")):
            with self.subTest(words):
                found = self.installed.run("run", "s.bt", *self.words("plain"), *words)
                self.assertEqual((found[0], found[1]), (status, b""))
                self.assertEqual(found[2].splitlines()[0][:len("btfleet: " + why)], "btfleet: " + why)
        self.assertEqual(self.installed.run("run", "exit.bt", *self.words("plain"), "--diff"),
                         (2, b"", "btfleet: exit.bt:2:3: exit ends a run before its recording, so nothing of it is per second: --diff wants none\n"))
        self.assertEqual(self.installed.run("run", "s.bt", "web1:plain0.btr", "web1:plain1.btr", "--diff"),
                         (1, b"", "btfleet: --diff compares hosts, and all recordings are of web1: name them, as web1:PATH\n"))
        self.assertEqual(self.installed.runs(), [])


if __name__ == "__main__":
    unittest.main()
