"""The map of the crates, as `crates.txt` has it: sections in build order, each crate with a line that says what it has."""
import re
from dataclasses import dataclass

SECTION = re.compile(r"# (\d+)\. ([a-z]+): \S.*")
BESIDE = re.compile(r"# beside ([a-z]+): \S.*")
CRATE = re.compile(r"([a-z0-9_]+)( [a-z_]+=[A-Za-z0-9+]+)*:(.*)")


class BadMap(Exception):
    """What is wrong with a line of the map."""


@dataclass(frozen=True)
class Crate:
    """A crate: its name, the number of its section, whether it stands beside the program (tests, and laws that nothing of it names), the line that
    says what it has, and the crates that it names itself."""

    name: str
    section: int
    is_beside: bool
    meaning: str
    names: tuple


def read_map(text):
    """The crates of a map by their names, in its order. Refuses a line that is none of a map's, sections out of order, and a crate without its line."""
    crates, section, is_beside, meaning = {}, 0, False, ""
    for number, line in enumerate(text.splitlines(), 1):
        begun, beside, crate = SECTION.fullmatch(line), BESIDE.fullmatch(line), CRATE.fullmatch(line)
        if begun:
            if int(begun[1]) != section + 1:
                raise BadMap(f"line {number}: section {begun[1]} does not follow section {section}")
            section, is_beside, meaning = section + 1, False, ""
        elif beside:
            is_beside, meaning = True, ""
        elif line.startswith("# "):
            meaning = line[2:].strip()
        elif crate:
            if not section or not meaning:
                raise BadMap(f"line {number}: {crate[1]} has no line above it that says what it has, or no section")
            crates[crate[1]] = Crate(crate[1], section, is_beside, meaning, tuple(crate[3].split()))
            meaning = ""
        elif line.strip():
            raise BadMap(f"line {number} is no line of a map")
    return crates


def wrong_edges(crates):
    """What is wrong with the crates that a crate of the program names: a later section, or a crate that stands beside the program. Crates that stand
    beside it may name any. Those of the toolchain are passed over."""
    found = []
    for crate in crates.values():
        for name in crate.names if not crate.is_beside else ():
            other = crates.get(name)
            if other and other.is_beside:
                found.append(f"{crate.name} names {name}, which stands beside the program")
            elif other and other.section > crate.section:
                found.append(f"{crate.name} names {name} of a later section")
    return found
