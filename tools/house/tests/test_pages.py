"""The pages for developers and the README.md of each crate: links lead somewhere, rows are no wider than a page, and what is named is there."""
import pathlib
import re
import sys
import unittest

TOP = pathlib.Path(__file__).resolve().parents[3]
sys.path.insert(0, str(TOP / "tools"))

from house.crate_map import read_map  # noqa: E402

WIDEST = 120
LINK = re.compile(r"\[[^\]]*\]\(([^)#\s]+)(#[^)]*)?\)")
SLIM = ("ARCHITECTURE.md", "CONTRIBUTING.md", "DECISIONS.md", "GATE.md", "PROVED.md")
FUNCTION = re.compile(r"`([a-z_]+)((?:::[a-z_0-9]+)+)`")


def broken_links(page):
    """The links of a page that lead to no file beside it."""
    text = re.sub(r"```.*?```", "", page.read_text(), flags=re.S)
    return [f"{page.relative_to(TOP)}: {link}" for link, _ in LINK.findall(text) if "://" not in link and not (page.parent / link).exists()]


def names_missing(page, crates):
    """The functions and modules that a page names by their crate and that are in none of its files."""
    missing = []
    for crate, rest in FUNCTION.findall(page.read_text()):
        if crate in crates:
            source = "".join(path.read_text() for path in (TOP / "crates" / crate / "src").rglob("*.rt"))
            missing += [f"{page.name}: {crate}{rest}" for name in rest.split("::")[1:] if not re.search(rf"\b{name}\b", source)
                        and not any((TOP / "crates" / crate / "src").rglob(f"{name}.rt"))]
    return missing


class Pages(unittest.TestCase):
    """What holds of the pages."""

    @classmethod
    def setUpClass(cls):
        cls.crates = read_map((TOP / "crates.txt").read_text())
        cls.readmes = [TOP / "crates" / name / "README.md" for name in cls.crates]
        cls.pages = [TOP / "README.md", *sorted((TOP / "docs").glob("*.md")), *sorted((TOP / "tools").glob("*/README.md"))]

    def test_each_crate_has_a_page(self):
        for page in self.readmes:
            with self.subTest(crate=page.parent.name):
                self.assertTrue(page.is_file())
                self.assertTrue(page.read_text().startswith(f"# {page.parent.name}\n\n"))

    def test_links_lead_to_files(self):
        self.assertEqual([], [link for page in [*self.pages, *self.readmes] for link in broken_links(page)])

    def test_lines_are_no_wider_than_a_page(self):
        pages = [*(TOP / "docs" / name for name in SLIM), *self.readmes]
        self.assertEqual([], [f"{page.relative_to(TOP)}:{number}" for page in pages for number, line in enumerate(page.read_text().splitlines(), 1)
                              if len(line) > WIDEST])

    def test_what_is_named_is_there(self):
        pages = [TOP / "docs" / "PROVED.md", TOP / "docs" / "ARCHITECTURE.md", *self.readmes]
        self.assertEqual([], [name for page in pages for name in names_missing(page, self.crates)])


if __name__ == "__main__":
    unittest.main()
