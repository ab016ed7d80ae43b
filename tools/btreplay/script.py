"""What a script does with its maps, and where: its probes, their points, and each mention of a map.

It reads tokens, and no tree: a script that the program accepts is read rightly, and one that it refuses as far as that goes.
"""
from dataclasses import dataclass, field

from btreplay.tokens import MAP, MARK, NUMBER, POINT, STRING, WORD, tokens_of

AGGREGATIONS = {"count", "sum", "min", "max", "avg", "hist", "lhist"}
CHANGES = {"+=", "-=", "*=", "/=", "%=", "&=", "|=", "^=", "<<=", ">>="}
OPENING, CLOSING = {"(", "[", "{"}, {")", "]", "}"}

# What a mention of a map does with it. CLEAR stands for `clear` and `zero`.
READ, SET, CHANGE, ADD, PRINT, CLEAR, DELETE = "read", "set", "change", "add", "print", "clear", "delete"
CALLS = {"print": PRINT, "clear": CLEAR, "zero": CLEAR, "delete": DELETE}


@dataclass(frozen=True)
class Mention:
    """A mention of a map: its name and place, what it does, the texts of its key's parts, and the constant that it sets, if that is one."""

    name: str
    at: int
    does: str
    key: tuple
    constant: str = ""


@dataclass
class Probe:
    """A probe: its points with their places, its mentions of maps, and its calls, as pairs of a word and its place."""

    points: list = field(default_factory=list)
    mentions: list = field(default_factory=list)
    calls: list = field(default_factory=list)
    tokens: list = field(default_factory=list)

    def kinds(self):
        """The kinds of its points: `BEGIN`, `END`, `tracepoint` and `interval`."""
        names = {"t": "tracepoint", "i": "interval"}
        return {names.get(head, head) for head in (text.split(":", 1)[0] for text, _ in self.points)}


def end_of(tokens, start):
    """The place behind the bracket that closes the one at `start`, or the end where none does."""
    depth = 0
    for place in range(start, len(tokens)):
        token = tokens[place]
        if token.kind == MARK:
            depth += (token.text in OPENING) - (token.text in CLOSING)
            if depth == 0:
                return place + 1
    return len(tokens)


def parts_of(tokens):
    """The texts of tokens, cut at the commas that stand in no bracket."""
    parts, depth = [[]], 0
    for token in tokens:
        if token.kind == MARK:
            depth += (token.text in OPENING) - (token.text in CLOSING)
        if token.kind == MARK and token.text == "," and depth == 0:
            parts.append([])
        else:
            parts[-1].append(token.text)
    return tuple(" ".join(part) for part in parts if part)


def constant_of(tokens, place):
    """The text of a number or a string that stands alone as a statement's value, or nothing."""
    is_negative = place < len(tokens) and tokens[place].text == "-"
    place += is_negative
    behind = tokens[place + 1].text if place + 1 < len(tokens) else "}"
    if place < len(tokens) and tokens[place].kind in (NUMBER, STRING) and behind in (";", "}"):
        return "-" * is_negative + tokens[place].text
    return ""


def mention_at(tokens, place):
    """The mention of the map at a place of a probe's tokens."""
    token = tokens[place]
    before = [one.text for one in tokens[max(place - 2, 0):place]]
    behind, key = place + 1, ()
    if behind < len(tokens) and tokens[behind].text == "[":
        behind = end_of(tokens, behind)
        key = parts_of(tokens[place + 2:behind - 1])
    follows = tokens[behind].text if behind < len(tokens) else ""
    if len(before) == 2 and before[1] == "(" and before[0] in CALLS and follows in (")", ","):
        if before[0] == "delete" and follows == ",":
            key = parts_of(tokens[behind + 1:end_of(tokens, place - 1) - 1])
        return Mention(token.text, token.at, CALLS[before[0]], key)
    if follows == "=":
        value = [one.text for one in tokens[behind + 1:behind + 3]]
        if len(value) == 2 and value[0] in AGGREGATIONS and value[1] == "(":
            return Mention(token.text, token.at, ADD, key)
        return Mention(token.text, token.at, SET, key, constant_of(tokens, behind + 1))
    if follows in CHANGES or follows in ("++", "--") or before[-1:] in (["++"], ["--"]):
        return Mention(token.text, token.at, CHANGE, key)
    return Mention(token.text, token.at, READ, key)


def probe_of(tokens):
    """The probe that tokens spell: its points up to a predicate or its block, and what stands in both."""
    head = next((place for place, token in enumerate(tokens) if token.kind == MARK and token.text in ("/", "{")), len(tokens))
    probe = Probe(tokens=tokens)
    probe.points = [(token.text, token.at) for token in tokens[:head]
                    if token.kind == POINT or token.kind == WORD and token.text in ("BEGIN", "END")]
    rest = tokens[head:]
    for place, token in enumerate(rest):
        if token.kind == MAP:
            probe.mentions.append(mention_at(rest, place))
        elif token.kind == WORD and place + 1 < len(rest) and rest[place + 1].text == "(":
            probe.calls.append((token.text, token.at))
    return probe


def probes_of(text):
    """The probes of a script's text, in their order."""
    tokens = tokens_of(text)
    probes, start = [], 0
    while start < len(tokens):
        block = next((place for place in range(start, len(tokens)) if tokens[place].text == "{" and tokens[place].kind == MARK), len(tokens))
        end = end_of(tokens, block) if block < len(tokens) else block
        probes.append(probe_of(tokens[start:end]))
        start = end
    return probes
