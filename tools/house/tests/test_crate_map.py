"""The map of the crates, and that they keep to it."""
import pathlib
import sys
import unittest

TOP = pathlib.Path(__file__).resolve().parents[3]
sys.path.insert(0, str(TOP / "tools"))

from house.crate_map import BadMap, read_map, wrong_edges  # noqa: E402

SMALL = """# what a map is
# 1. base: what all stand on
# numbers
low: thiserror
# beside base: tests
# tests of numbers
low_tests tests_may=Threads: low high

# 2. top: the program
# the program
high: low
"""


class Small(unittest.TestCase):
    """Maps that are written here."""

    def test_a_map_is_read(self):
        crates = read_map(SMALL)
        self.assertEqual(["low", "low_tests", "high"], list(crates))
        self.assertEqual((1, False, "numbers", ("thiserror",)), (crates["low"].section, crates["low"].is_beside, crates["low"].meaning, crates["low"].names))
        self.assertTrue(crates["low_tests"].is_beside)
        self.assertEqual(2, crates["high"].section)
        self.assertEqual([], wrong_edges(crates))

    def test_a_later_section_is_refused(self):
        crates = read_map(SMALL.replace("low: thiserror", "low: thiserror high"))
        self.assertEqual(["low names high of a later section"], wrong_edges(crates))

    def test_what_stands_beside_is_not_named(self):
        crates = read_map(SMALL.replace("high: low", "high: low low_tests"))
        self.assertEqual(["high names low_tests, which stands beside the program"], wrong_edges(crates))

    def test_faults_of_a_map(self):
        for old, new, word in (("# numbers\n", "", "no line above"), ("# 2. top", "# 3. top", "does not follow"), ("high: low", "high low", "no line of a map")):
            with self.subTest(new=new), self.assertRaisesRegex(BadMap, word):
                read_map(SMALL.replace(old, new))


class Repository(unittest.TestCase):
    """The repository's own map."""

    @classmethod
    def setUpClass(cls):
        cls.crates = read_map((TOP / "crates.txt").read_text())

    def test_no_edge_leads_to_a_later_section(self):
        self.assertEqual([], wrong_edges(self.crates))

    def test_each_folder_is_on_the_map(self):
        self.assertEqual(sorted(path.parent.name for path in (TOP / "crates").glob("*/src")), sorted(self.crates))

    def test_there_are_ten_sections(self):
        self.assertEqual(10, max(crate.section for crate in self.crates.values()))

    def test_the_program_stands_on_no_crate_beside_it(self):
        wanted, left = set(), ["bt_program"]
        while left:
            crate = self.crates.get(left.pop())
            if crate and crate.name not in wanted:
                wanted.add(crate.name)
                left += crate.names
        self.assertEqual([], [name for name in wanted if self.crates[name].is_beside])


if __name__ == "__main__":
    unittest.main()
