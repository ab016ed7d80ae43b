#!/usr/bin/env python3
"""Prints what the must-fail edits guard: python3 bench/edits.py

A line for each crate that has edits, in the order of crates.txt, with what each edit says that the proof must refuse, and the count of all at the end.
What an edit says is its name.
"""
import pathlib
import sys

TOP = pathlib.Path(__file__).resolve().parent.parent
sys.path.insert(0, str(TOP / "tools"))

from house.crate_map import read_map  # noqa: E402


def edits_of(crate):
    """What the edits of a crate say, in the order of their names."""
    return [path.stem.replace("_", " ") for path in sorted((TOP / "crates" / crate / "must-fail").glob("*.edit"))]


def main():
    """Prints the lines."""
    count = 0
    for crate in read_map((TOP / "crates.txt").read_text()):
        found = edits_of(crate)
        count += len(found)
        if found:
            print(f"{crate}: {'; '.join(found)}")
    print(f"{count} edits")


if __name__ == "__main__":
    main()
