"""Texts that a script compares with `comm` or a field and that no event of the recording has there, and fields that are addresses of texts."""
import difflib
import re
import struct
import time
from dataclasses import dataclass, field

from btreplay.recorded import SEEN, entries, matcher
from btreplay.tokens import MARK, STRING, WORD, place_of
from values import MOST_TEXT, located

COMM = "comm"
# Where the name stands in an event's head, behind the time and four numbers.
NAME = slice(24, 40)
MOST_VALUES, MOST_NEAR, EVENTS_BETWEEN_LOOKS = 4_096, 3, 65_536
ESCAPES = {"n": "\n", "t": "\t", "r": "\r"}
TEXT_AT = re.compile(rb"\bchar\s*\*")


@dataclass
class Compared:
    """A text that is compared: where it stands, what it is compared with, by which operator, how events of each ID hold that, and what these held."""

    at: int
    of: str
    by: str
    text: bytes
    fields: dict
    seen: set = field(default_factory=set)


def bytes_of(literal):
    """The bytes of a string as it stands in a script."""
    return re.sub(r"\\(.)", lambda found: ESCAPES.get(found[1], found[1]), literal[1:-1]).encode("latin-1")


def operand(tokens, place, step):
    """The name of what is compared that ends, or for the step 1 begins, at a place: `comm`, or `args.NAME`; or nothing."""
    first = place if step == 1 else place - 2
    names = [token.text for token in tokens[max(first, 0):first + 3]] if first >= 0 else []
    if len(names) == 3 and names[0] == "args" and names[1] in (".", "->"):
        return f"args.{names[2]}"
    return COMM if 0 <= place < len(tokens) and tokens[place].kind == WORD and tokens[place].text == COMM else ""


def compared_in(probe, head):
    """The texts that a probe of tracepoints compares with `comm` or a field."""
    formats = [format for format in head.formats if any(matcher(point)(format) for point, _ in probe.points if point[0] == "t")]
    for place, token in enumerate(probe.tokens):
        if token.kind != STRING or len(token.text) < 2:
            continue
        for mark, step in ((place - 1, -1), (place + 1, 1)):
            by = probe.tokens[mark].text if 0 <= mark < len(probe.tokens) and probe.tokens[mark].kind == MARK else ""
            of = operand(probe.tokens, mark + step, step) if by in ("==", "!=") else ""
            fields = {format.layout.number: None if of == COMM else next((one for one in format.layout.fields if one.name and of == f"args.{one.name.decode()}"), None)
                      for format in formats}
            if of and fields and all(one is None and of == COMM or one is not None and SEEN.get(one.kind) == "string" for one in fields.values()):
                yield Compared(token.at, of, by, bytes_of(token.text), fields)


def value_of(one, name, payload):
    """What an event holds where a text is compared: its thread's name, or the text of a field, as the program reads it."""
    if one is None:
        found = name
    elif one.kind == "characters":
        found = payload[one.offset:one.offset + one.size]
    else:
        found = located(payload[one.offset:one.offset + one.size], payload)
    return bytes(found).split(b"\0", 1)[0][:MOST_TEXT]


def look(data, head, compared, until):
    """Looks events through until each text was seen. Says whether it came to the end; not where the time is over or the recording is damaged."""
    left = {}
    for one in compared:
        for which in one.fields:
            left.setdefault(which, []).append(one)
    try:
        for number, (at, payload, end) in enumerate(entries(data, head)):
            if number % EVENTS_BETWEEN_LOOKS == 0 and time.monotonic() > until:
                return False
            which = data[payload] | data[payload + 1] << 8
            for one in left.get(which, ()):
                if len(one.seen) < MOST_VALUES:
                    one.seen.add(value_of(one.fields[which], data[at + NAME.start:at + NAME.stop], data[payload:end]))
    except (struct.error, IndexError):
        return False
    return True


def instead(one):
    """The texts that are there and may be meant: those that begin as this one does, or else those that are nearest."""
    shown = sorted(value.decode(errors="replace") for value in one.seen)
    text = one.text.decode(errors="replace")
    begun = [value for value in shown if text and value.startswith(text)]
    if begun:
        more = f" and {len(begun) - MOST_NEAR} more" if len(begun) > MOST_NEAR else ""
        return "; there begin by it: " + ", ".join(f'"{value}"' for value in begun[:MOST_NEAR]) + more
    near = difflib.get_close_matches(text, shown, 1, 0.6)
    return f'; did you mean "{near[0]}"?' if near else ""


def unseen_texts(probes, text, data, head, until):
    """A line for each text that is compared with what no event of the recording holds there."""
    compared = [one for probe in probes for one in compared_in(probe, head)]
    if not compared or not look(data, head, compared, until):
        return []
    lines = []
    for one in compared:
        if one.seen and one.text not in one.seen and len(one.seen) < MOST_VALUES:
            line, column = place_of(text, one.at)
            literal = one.text.decode(errors="replace")
            lines.append(f'{line}:{column}: no event of this probe has the {one.of} "{literal}"{instead(one)}')
    return lines


def addresses(probes, text, head):
    """A line for each field that a script reads and that is the address of a text, once for each name."""
    lines, told = [], set()
    for probe in probes:
        formats = [format for format in head.formats if any(matcher(point)(format) for point, _ in probe.points if point[0] == "t")]
        for place, token in enumerate(probe.tokens[:-2]):
            if token.text != "args" or probe.tokens[place + 1].text not in (".", "->"):
                continue
            name = probe.tokens[place + 2]
            found = next((one for format in formats for one in format.layout.fields if one.name == name.text.encode() and TEXT_AT.search(one.declaration)), None)
            if found is not None and found.kind == "number" and name.text not in told:
                told.add(name.text)
                line, column = place_of(text, token.at)
                lines.append(f"{line}:{column}: args.{name.text} is an address here ({found.declaration.decode(errors='replace')}), "
                             "and the text there was not recorded")
    return lines
