"""What the program printed for a script: its lines of JSON, as docs/JSON.md has them."""
import json
from dataclasses import dataclass, field

PRINTF, MAP, CUT, LOST_EVENTS, LOST_UPDATES = "printf", "map", "cut", "lost_events", "lost_updates"


class NotOfTheProgram(Exception):
    """A line that the program does not print."""


def text_of(characters):
    """A text as people read it. Each character of the program's lines is a byte; what cannot be seen is spelled by its
    number."""
    try:
        text = characters.encode("latin-1").decode("utf-8", "backslashreplace")
    except UnicodeEncodeError as fault:
        raise NotOfTheProgram(f"a text with the character {fault.object[fault.start]!r}, which is no byte") from fault
    return (
        text
        if text.isprintable()
        else "".join(letter if letter.isprintable() else f"\\x{ord(letter):02x}" for letter in text)
    )


@dataclass(frozen=True)
class Row:
    """A row of a map: the parts of its key, numbers and texts, and its value, a number, a text, or the pairs of label
    and count of a histogram."""

    key: tuple
    value: object


@dataclass
class Answer:
    """What a script printed, in its order: pairs of a kind of line and what the line has."""

    lines: list = field(default_factory=list)

    def printed(self):
        """The texts of printf, in their order."""
        return [found for kind, found in self.lines if kind == PRINTF]

    def maps(self, name):
        """The rows of each time that a map was printed."""
        return [found[1] for kind, found in self.lines if kind == MAP and found[0] == name]

    def rows(self, name):
        """The rows of a map as it was printed last; none where it was not."""
        found = self.maps(name)
        return found[-1] if found else []

    def values(self, name):
        """The values of a map by the parts of their keys; a key of one part is that part."""
        return {row.key[0] if len(row.key) == 1 else row.key: row.value for row in self.rows(name)}

    def lost_updates(self):
        """How many updates each map lost that lost some."""
        return [found for kind, found in self.lines if kind == LOST_UPDATES]

    def cuts(self):
        """The lines of loops that reached their limit, each once."""
        return sorted({found for kind, found in self.lines if kind == CUT})


def part_of(part):
    """A part of a key."""
    return text_of(part) if isinstance(part, str) else part


def value_of(value):
    """The value of a row."""
    if isinstance(value, list):
        return [(text_of(bucket["label"]), bucket["count"]) for bucket in value]
    return part_of(value)


def rows_of(data):
    """The rows of a map."""
    return [Row(tuple(part_of(part) for part in row["key"]), value_of(row["value"])) for row in data]


def line_of(found):
    """The kind of a line, and what it has."""
    kind = found["type"]
    if kind == PRINTF:
        return kind, found["data"]
    if kind == MAP:
        return kind, (text_of(found["map"]), rows_of(found["data"]))
    if kind == CUT:
        return kind, found["line"]
    if kind == LOST_EVENTS:
        return kind, (found["cpu"], found["count"])
    if kind == LOST_UPDATES:
        return kind, (text_of(found["map"]), found["count"])
    raise NotOfTheProgram(f"a line of the type {kind}")


def answer_of(output):
    """What the bytes mean that the program printed."""
    answer = Answer()
    for line in output.splitlines():
        try:
            answer.lines.append(line_of(json.loads(line)))
        except (ValueError, KeyError, TypeError) as fault:
            raise NotOfTheProgram(f"the line {line[:80]!r}") from fault
    return answer
