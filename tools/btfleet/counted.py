"""Maps that are asked with a count beside them: an average does not add up over recordings, and its sum and its count do.

Of `@a[K] = avg(X)` comes `@a[K] = sum(X); @a_count[K] = count()`, and of what else the script does with @a comes the same with both: `print`, `clear`
and `zero` of one and then of the other, and for its number the first divided by the second, which is how an average is read. All that is put in
stands in the line of what it belongs to, and each place of the text that comes is known by its place in the script.
"""
import bisect
from dataclasses import dataclass

from btreplay.script import ADD, READ, end_of, probes_of
from btreplay.tokens import MAP, MARK, VARIABLE, WORD

BOTH = ("print", "clear", "zero")
STEPS = ("++", "--")
AVERAGE, SUM = "avg", "sum"
MOST_MAPS = 32


@dataclass(frozen=True)
class Piece:
    """A piece of the text that is asked: its letters, and where they stand in the script, or where that stands to which they are put."""

    text: str
    at: int
    is_copied: bool = True


class Rewritten:
    """A text that was made of pieces of another one."""

    def __init__(self, pieces):
        self.pieces = [piece for piece in pieces if piece.text]
        self.text = "".join(piece.text for piece in self.pieces)
        self.starts, length = [], 0
        for piece in self.pieces:
            self.starts.append(length)
            length += len(piece.text)

    def origin(self, at):
        """Where that stands in the other text which is at an offset here."""
        place = bisect.bisect_right(self.starts, at) - 1
        if place < 0:
            return at
        piece = self.pieces[place]
        return piece.at + min(at - self.starts[place], len(piece.text)) * piece.is_copied


def behind_key(tokens, place):
    """The place behind the key of the map at a place, or behind the map where it has none."""
    return end_of(tokens, place + 1) if place + 1 < len(tokens) and tokens[place + 1].text == "[" else place + 1


def call_of(tokens, place):
    """Of the map at a place to which an aggregation is assigned: the places behind its key, and behind the call."""
    behind = behind_key(tokens, place)
    return behind, end_of(tokens, behind + 2)


def can_be_doubled(tokens, place):
    """Whether the key of the map at a place, to which an aggregation is assigned, is the same when it is read a second time behind the assignment."""
    behind, end = call_of(tokens, place)
    key, call = tokens[place + 1:behind], tokens[behind:end]
    if any(token.text in STEPS or token.text == tokens[place].text for token in key if token.kind in (MARK, MAP)):
        return False
    steps = any(token.kind == MARK and token.text in STEPS for token in call)
    return not (steps and any(token.kind in (MAP, VARIABLE) for token in key))


def free_name(name, names):
    """This name, or a longer one where a map has it."""
    while name in names:
        name += "_"
    return name


class Writer:
    """Writes a probe with counts beside maps: `counts` has their names by those of the maps, `averages` the maps whose numbers are averages. What is
    flat is written on one line, without remarks."""

    def __init__(self, script, probe, counts, averages, is_flat=False):
        self.script, self.probe, self.tokens, self.counts, self.averages = script, probe, probe.tokens, counts, averages
        self.is_flat = is_flat
        self.does = {mention.at: mention.does for mention in probe.mentions}

    def copied(self, begin, end):
        """What stands from the beginning of a token up to that of another one, or up to the end of the last."""
        for place in range(begin, end):
            token = self.tokens[place]
            until = self.tokens[place + 1].at if place + 1 < len(self.tokens) else token.at + len(token.text)
            yield Piece(token.text + " " if self.is_flat else self.script[token.at:until], token.at)

    def count(self, place, behind):
        """The count beside the map at a place, under the key that stands up to another one."""
        yield Piece(self.counts[self.tokens[place].text], self.tokens[place].at, False)
        yield from Writer(self.script, self.probe, self.counts, self.averages, True).written(place + 1, behind)

    def added(self, place, behind, end):
        """The assignment of an aggregation, with that of its count."""
        word = self.tokens[behind + 1]
        yield from self.copied(place, place + 1)
        yield from self.written(place + 1, behind)
        yield from self.copied(behind, behind + 1)
        yield Piece(f"{SUM} ", word.at, False)
        yield from self.written(behind + 2, end)
        yield Piece("; ", self.tokens[place].at, False)
        yield from self.count(place, behind)
        yield Piece(" = count()", self.tokens[place].at, False)

    def both(self, place, end):
        """A call of `print`, `clear` or `zero`, with that of the count behind it."""
        yield from self.copied(place, end)
        count = self.counts[self.tokens[place + 2].text]
        yield Piece(f"; {self.tokens[place].text}({count})", self.tokens[place].at, False)

    def number(self, place, behind):
        """The number of an average: its sum divided by its count."""
        at = self.tokens[place].at
        yield Piece("(", at, False)
        yield from self.copied(place, place + 1)
        yield from self.written(place + 1, behind)
        yield Piece("/ ", at, False)
        yield from self.count(place, behind)
        yield Piece(")", at, False)

    def is_both(self, place):
        """Whether a call begins here that is made of a map and of its count."""
        texts = [token.text for token in self.tokens[place:place + 3]]
        return len(texts) == 3 and texts[0] in BOTH and texts[1] == "(" and texts[2] in self.counts

    def step(self, place):
        """What is written of what begins at a place, and the place behind that."""
        tokens, token = self.tokens, self.tokens[place]
        if token.kind == WORD and self.is_both(place):
            end = end_of(tokens, place + 1)
            return self.both(place, end), end
        does = self.does.get(token.at) if token.kind == MAP and token.text in self.counts else None
        if does == ADD:
            behind, end = call_of(tokens, place)
            if end < len(tokens) and tokens[end].text in (";", "}"):
                return self.added(place, behind, end), end
        if does == READ and token.text in self.averages:
            behind = behind_key(tokens, place)
            return self.number(place, behind), behind
        return self.copied(place, place + 1), place + 1

    def written(self, place, end):
        """What is written of the tokens between two places."""
        while place < end:
            pieces, place = self.step(place)
            yield from pieces


def with_counts(script, counts, averages):
    """A script with counts beside maps, by their names."""
    pieces, behind = [], 0
    for probe in probes_of(script):
        begin, last = probe.tokens[0].at, probe.tokens[-1]
        pieces.append(Piece(script[behind:begin], behind))
        pieces += Writer(script, probe, counts, averages).written(0, len(probe.tokens))
        behind = last.at + len(last.text)
    return Rewritten([*pieces, Piece(script[behind:], behind)])
