"""What the tests stand on: the outputs of the examples as lines of JSON, answers made by hand, and what a page holds,
read again."""
import html.parser
import json
import pathlib
import re
import sys

TOOLS = pathlib.Path(__file__).resolve().parent.parent.parent
TOP = TOOLS.parent
EXAMPLES = TOP / "examples"
if str(TOOLS) not in sys.path:
    sys.path.insert(0, str(TOOLS))

ROW = re.compile(r"(@\w*)(?:\[(.*)\])?:(?: (.*))?")
BUCKET = re.compile(r"([\[(].*?[\])]) +(\d+) \|[@ ]*\|")
LOST_EVENTS = re.compile(r"WARNING: (\d+) events lost on cpu (\d+)")
EMPTY = ("img", "meta", "input", "br")


def line(**parts):
    """A line of JSON as the program prints it."""
    return json.dumps(parts, separators=(",", ":"), sort_keys=True, ensure_ascii=False) + "\n"


def value_of(word):
    """A number or a text."""
    return int(word) if re.fullmatch(r"-?\d+", word) else word


def key_of(word):
    """The parts of a key, of which none has a comma."""
    return [value_of(part) for part in word.split(", ")] if word else []


class Lines:
    """Turns the text that a script of examples/ prints into lines of JSON."""

    def __init__(self):
        self.found, self.name, self.rows = [], None, []

    def end_map(self):
        """Ends the map whose rows were read."""
        if self.rows:
            self.found.append(line(type="map", map=self.name, data=self.rows))
        self.name, self.rows = None, []

    def take(self, text):
        """Takes a line of the text."""
        row, bucket, lost = ROW.fullmatch(text), BUCKET.fullmatch(text), LOST_EVENTS.fullmatch(text)
        if row:
            if row[1] != self.name:
                self.end_map()
            self.name = row[1]
            self.rows.append({"key": key_of(row[2]), "value": value_of(row[3]) if row[3] is not None else []})
        elif bucket:
            self.rows[-1]["value"].append({"count": int(bucket[2]), "label": bucket[1]})
        else:
            is_behind_map = bool(self.rows)
            self.end_map()
            if lost:
                self.found.append(line(type="lost_events", count=int(lost[1]), cpu=int(lost[2])))
            elif text or not is_behind_map:
                self.found.append(line(type="printf", data=text + "\n"))


def json_of(text):
    """The lines of JSON of a text."""
    lines = Lines()
    for part in text.splitlines():
        lines.take(part)
    lines.end_map()
    return "".join(lines.found)


class Node:
    """An element of a page: its name, attributes, and what is in it, elements and texts."""

    def __init__(self, name, attributes):
        self.name, self.attributes, self.inside = name, attributes, []

    def text(self):
        """All text in it."""
        return "".join(part if isinstance(part, str) else part.text() for part in self.inside)

    def all(self, name=None, kind=None, **attributes):
        """The elements in it of a name, of a class, and with attributes, in their order."""
        for part in self.inside:
            if isinstance(part, str):
                continue
            if (
                name in (None, part.name)
                and (kind is None or kind in part.attributes.get("class", "").split())
                and all(part.attributes.get(key) == wanted for key, wanted in attributes.items())
            ):
                yield part
            yield from part.all(name, kind, **attributes)

    def one(self, name=None, kind=None, **attributes):
        """The first of them."""
        return next(self.all(name, kind, **attributes))


class Reader(html.parser.HTMLParser):
    """Reads a page, and refuses one whose elements do not end in their order."""

    def __init__(self):
        super().__init__()
        self.open = [Node("page", {})]

    def handle_starttag(self, tag, attrs):
        node = Node(tag, dict(attrs))
        self.open[-1].inside.append(node)
        if tag not in EMPTY:
            self.open.append(node)

    def handle_endtag(self, tag):
        if self.open[-1].name != tag and tag not in EMPTY:
            raise ValueError(f"</{tag}> in {self.open[-1].name}")
        if tag not in EMPTY:
            self.open.pop()

    def handle_data(self, data):
        self.open[-1].inside.append(data)


def read_page(markup):
    """A page as its elements."""
    reader = Reader()
    reader.feed(markup if isinstance(markup, str) else markup.decode())
    reader.close()
    if len(reader.open) != 1:
        raise ValueError(f"{reader.open[-1].name} does not end")
    return reader.open[0]
