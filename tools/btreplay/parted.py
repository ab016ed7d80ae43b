"""The code of the program, as the compiler's text of it, parted so that the parts are compiled side by side.

What is not reached from `main` is left out. The functions of a part lie near each other in the order of calls, and each part has copies of the small
functions of others that it calls, which the compiler may put in place of the calls and which are not code of that part.
"""
import re
from dataclasses import dataclass, field

NAME = re.compile(rb'@(?:"([^"]*)"|([-\w.$]+))')
ITEM = re.compile(rb"^(?:define [^\n]*\{\n.*?^\}\n|@[^\n]*\n|declare [^\n]*\n)", re.S | re.M)
ENTRY = b"main"
# The text of a function that is copied for others to use it has at most so many bytes.
MOST_COPIED = 1_500
# An attribute that only a build with a check of each access has a use for, and that holds the compiler back.
CHECKED_ACCESSES = b" sanitize_address"


class NotParted(Exception):
    """Why the code cannot be parted."""


@dataclass
class Item:
    """A function or a static of the code: its name, its text, and the names of what it uses."""

    name: bytes
    text: bytes
    uses: list = field(default_factory=list)

    @property
    def is_function(self):
        """Whether it is a function."""
        return self.text.startswith(b"define ")

    @property
    def crate(self):
        """The crate that it is of, as its name begins."""
        return self.name.lstrip(b"<").partition(b"::")[0]

    @property
    def head(self):
        """Its first line."""
        return self.text[:self.text.index(b"\n")]

    @property
    def is_copied(self):
        """Whether each part that uses it has it: a constant whose address tells nothing, or a small function."""
        if self.is_function:
            return len(self.text) <= MOST_COPIED and self.name != ENTRY
        return b" private unnamed_addr constant " in self.head

    def declared(self):
        """The line that stands for it in a part that it is no part of."""
        if self.is_function:
            return self.head.replace(b"define internal ", b"declare hidden ", 1).rstrip(b"{ ") + b"\n"
        kind = re.match(rb"^(@\S+ = )private (constant|global) ", self.text)
        return kind.group(1) + b"external hidden " + kind.group(2) + b" " + static_type(self.text[kind.end():]) + b"\n"

    def copied(self):
        """Its text as a copy of what another part has."""
        return self.text.replace(b"define internal ", b"define available_externally hidden ", 1)

    def shared(self):
        """Its text where other parts use it too."""
        found = self.text.replace(b"define internal ", b"define hidden ", 1)
        return re.sub(rb"^(@\S+ = )private ", rb"\1hidden ", found)


def static_type(text):
    """The type with which the text of a static's value begins."""
    closing, depth = {b"[": b"]", b"<": b">", b"{": b"}", b"(": b")"}, 0
    for place in range(len(text)):
        letter = text[place:place + 1]
        depth += (letter in closing) - (letter in closing.values())
        if letter == b" " and depth == 0:
            return text[:place]
    raise NotParted("a static has no value")


def items_of(text):
    """The functions and statics of a text by their names, and all else that stands in it."""
    items, rest, at = {}, [], 0
    for found in ITEM.finditer(text):
        rest.append(text[at:found.start()])
        at = found.end()
        if found.group().startswith(b"declare "):
            rest.append(found.group())
            continue
        quoted, plain = NAME.search(found.group()).groups()
        items[quoted or plain] = Item(quoted or plain, found.group())
    rest.append(text[at:])
    if ENTRY not in items:
        raise NotParted("the code has no main")
    return items, b"".join(rest).replace(CHECKED_ACCESSES, b"")


def reached(items):
    """The items that are reached from `main`, by their names."""
    found, left = {}, [ENTRY]
    while left:
        name = left.pop()
        if name in found or name not in items:
            continue
        item = found[name] = items[name]
        names = dict.fromkeys(quoted or plain for quoted, plain in NAME.findall(item.text))
        item.uses = [used for used in names if used != name and used in items]
        left += item.uses
    return found


def used_by(roots, items, is_entered, seen):
    """The items that some items use, themselves included, and what those use that are entered; each is told once of what is not seen yet."""
    left = list(roots)
    while left:
        name = left.pop()
        if name not in seen:
            seen.add(name)
            yield items[name]
            left += [used for used in items[name].uses if is_entered(items[used])]


def shares(items, crates, count):
    """Which part each crate is of: so many runs of the crates in their order, of about the same size with what they use of libraries."""
    of_crate = {crate: [] for crate in crates}
    for item in items.values():
        if item.crate in of_crate:
            of_crate[item.crate].append(item.name)
    seen, sizes = set(), []
    for crate in crates:
        sizes.append(sum(len(item.text) for item in used_by(of_crate[crate], items, lambda item: item.crate not in of_crate, seen)))
    whole, taken, found = sum(sizes), 0, {}
    for crate, size in zip(crates, sizes):
        found[crate] = min((taken + size // 2) * count // max(whole, 1), count - 1)
        taken += size
    return found


@dataclass
class Part:
    """A part of the code: what it has, what it has as copies of another part's, and what it only names."""

    own: list = field(default_factory=list)
    copied: list = field(default_factory=list)
    named: dict = field(default_factory=dict)

    def text(self, wanted):
        """Its text, in which other parts find those of its items whose names they want."""
        lines = [item.shared() if item.name in wanted else item.text for item in self.own]
        lines += [item.copied() for item in self.copied]
        return b"".join(lines + [item.declared() for item in self.named.values()])


def part_of(number, items, share, owners):
    """A part: the functions of its crates with what they use of libraries, and copies of small functions of other crates."""
    part = Part()

    def is_near(item):
        return share.get(item.crate, number) == number

    roots = [item.name for item in items.values() if share.get(item.crate) == number]
    for item in used_by(roots, items, lambda item: is_near(item) or item.is_copied, set()):
        if not is_near(item):
            part.copied.append(item)
        elif item.is_function or item.is_copied or owners.setdefault(item.name, number) == number:
            part.own.append(item)
        else:
            part.named[item.name] = item
        part.named.update((used, items[used]) for used in item.uses if not is_near(items[used]) and not items[used].is_copied)
    return part


def parted(text, crates, count):
    """The code of the program, parted into so many texts that are compiled apart and linked together. It takes the compiler's text of the code and the
    names of the program's crates in the order in which they stand on each other, and raises NotParted where the text is not as it should be."""
    items, rest = items_of(text)
    items, owners = reached(items), {}
    share = shares(items, [crate.encode() for crate in crates], count)
    share[items[ENTRY].crate] = count - 1
    parts = [part_of(number, items, share, owners) for number in range(count)]
    wanted = {name for part in parts for name in (*part.named, *(item.name for item in part.copied))}
    return [rest + part.text(wanted) for part in parts]
