"""What is written in the place of a fault so that the faults behind it can be found: something neutral of the right kind.

A remedy has edits of the text and says what is in doubt behind them: a place whose kind is not known, as that of an unknown field, and the maps
and variables that are set by it. What is refused there for its type may come of the remedy, so it is not told.
"""
import re
from dataclasses import dataclass, replace

from btreplay.constants import about_constant, value_of
from btreplay.hints import (BARE_TEXTS, BUILTINS, CASTS, KINDS_OF_CALLS, PROBES, at_point, exponent_of, is_end_of_a_statement, needs_braces,
                            opened_by, tuple_at)
from btreplay.letters import DOUBLE, SINGLE, in_place_of, letter_at
from btreplay.recorded import SEEN
from btreplay.script import ADD, CHANGE, SET, end_of, mention_at, parts_of
from btreplay.tokens import MAP, MARK, NUMBER, POINT, STRING, VARIABLE, WORD, tokens_of

FIELD = re.compile(r"args\s*(?:\.|->)\s*(\w+)")
BLOCKS = ("config", "struct", "union", "enum", "fn", "macro")


@dataclass(frozen=True)
class Remedy:
    """Edits, as triples of begin, end and new text; the ranges in which types are in doubt; names in doubt; whether a point was replaced, so that
    `args` stand for nothing in its probe; and whether it is a guess, so that in the ranges nothing is sure."""

    edits: tuple
    doubts: tuple = ()
    names: frozenset = frozenset()
    is_foreign: bool = False
    is_guess: bool = False


class Place:
    """The place of a refusal in a text: its token, those around it, the brackets that are open, and the statement."""

    def __init__(self, text, at):
        self.text, self.at = text, at
        self.tokens = tokens_of(text)
        found = [place for place, token in enumerate(self.tokens) if token.at <= at < token.at + len(token.text)]
        self.here = found[0] if found else None
        self.token = self.tokens[self.here] if found else None
        self.before = self.tokens[self.here - 1] if found and self.here else None
        self.opened = opened_by(self.tokens, self.here) if found else []
        self.is_in_block = any(self.tokens[place].text == "{" for place in self.opened)

    def is_in_predicate(self):
        """Whether a / stands between the block in front of this place and the place, outside of all blocks."""
        for token in reversed(self.tokens[:self.here]):
            if token.kind == MARK and token.text in ("/", "{", "}"):
                return token.text == "/"
        return False

    def end(self, place):
        """The offset behind a token."""
        return self.tokens[place].at + len(self.tokens[place].text)

    def begin(self, place):
        """The offset of a token, or the text's end behind the last one."""
        return self.tokens[place].at if place < len(self.tokens) else len(self.text)

    def is_at(self, place, *texts):
        """Whether a token is there and is one of these."""
        return 0 <= place < len(self.tokens) and self.tokens[place].text in texts

    def statement(self):
        """The first token of the statement here, and the one behind it; of a condition and a predicate what stands inside."""
        depth, first = 0, self.here
        while first > 0:
            text = self.tokens[first - 1].text if self.tokens[first - 1].kind == MARK else ""
            if depth == 0 and (text in (";", "{", "}") or text == "(" and self.is_at(first - 2, "if", "while", "unroll") or text == "/" and not self.is_in_block):
                break
            # A bracket that is open here is behind the statement's first token.
            depth = max(depth + (text in (")", "]")) - (text in ("(", "[")), 0)
            first -= 1
        depth, behind = 0, first
        while behind < len(self.tokens):
            text = self.tokens[behind].text if self.tokens[behind].kind == MARK else ""
            if depth == 0 and (text in (";", "}", "{", ")") or text == "/" and not self.is_in_block and behind >= self.here):
                break
            depth += (text in ("(", "[")) - (text in (")", "]"))
            behind += 1
        return first, behind

    def all_names(self, first, behind):
        """The maps and variables that stand in tokens."""
        return frozenset(token.text for token in self.tokens[first:behind] if token.kind in (MAP, VARIABLE))

    def set_names(self, first, behind):
        """The maps and variables that tokens set."""
        part = self.tokens[first:behind]
        return frozenset(token.text for place, token in enumerate(part)
                         if token.kind in (MAP, VARIABLE) and mention_at(part, place).does in (SET, CHANGE, ADD))


def without_statement(place):
    """Takes the statement here out; a condition or a predicate becomes 1. Nothing where its brackets do not fit."""
    if place.here is None or not (place.is_in_block or any(token.text == "/" for token in place.tokens[:place.here])):
        return None
    first, behind = place.statement()
    if first >= behind:
        return None
    begin, end = place.begin(first), place.end(behind - 1)
    is_condition = place.is_at(first - 1, "(", "/")
    if place.is_at(behind, ";"):
        end = place.end(behind)
    return Remedy(((begin, end, "1" if is_condition else ""),), ((begin, end),), place.set_names(first, behind))


def replaced(place, begin, end, new, is_doubted=False):
    """Puts a new text in the place of a range; where its kind is in doubt, so is its statement."""
    if not is_doubted:
        return Remedy(((begin, end, new),))
    first, behind = place.statement()
    return Remedy(((begin, end, new),), ((place.begin(first), place.begin(behind)),), place.set_names(first, behind))


def at_letter(place):
    """In the place of a byte that begins no token, or does not fit its number."""
    text, at, token = place.text, place.at, place.token
    if token is not None and token.kind == NUMBER and at > token.at:
        return replaced(place, token.at, token.at + len(token.text), str(exponent_of(token.text) or 1))
    line = text.find("\n", at)
    line = line if line >= 0 else len(text)
    if text[at] == "#":
        return Remedy(((at, line, ""),))
    if text[at] == "$":
        return replaced(place, at, re.compile(r"\$\w*|\$#").match(text, at).end() + text.startswith("$#", at), "1", True)
    letter, size = letter_at(text, at)
    new = in_place_of(letter)
    if letter in DOUBLE or letter in SINGLE:
        for other in range(at + size, line):
            found, length = letter_at(text, other)
            if found in (DOUBLE if letter in DOUBLE else SINGLE) or found == '"':
                return Remedy(((at, at + size, '"'), (other, other + length, '"')))
        return Remedy(((at, at + size, ""),), ((at, line),))
    return Remedy(((at, at + size, new),))


def of_string(place, code):
    """In the place of a string that does not end, is too long, or has an escape that is none."""
    text, at = place.text, place.at
    if code == "X5":
        return Remedy(((at, at + 1, ""),)) if text[at] == "\\" else Remedy(((at - 1, at, ""),))
    line = text.find("\n", at)
    line = line if line >= 0 else len(text)
    if code == "X2":
        tail = re.compile(r"[\s;)}]*\Z").search(text[at:line])
        end = at + tail.start() if tail and ")" in tail[0] else line
        return Remedy(((end, end, '"'),), ((at, line),))
    token = place.token
    return Remedy(((token.at, token.at + len(token.text), '""'),), ((at, line),)) if token and token.kind == STRING else None


def at_points(place):
    """In the place of what stands outside of all blocks and belongs into no script."""
    token, text = place.token, place.text
    block = next((at for at in range(place.here, len(place.tokens)) if place.tokens[at].text == "{" and place.tokens[at].kind == MARK), None)
    if token.text in BLOCKS and block is not None:
        end = end_of(place.tokens, block)
        return Remedy(((token.at, place.end(end if place.is_at(end, ";") else end - 1), ""),))
    if token.text == "import" and place.is_at(place.here + 2, ";"):
        return Remedy(((token.at, place.end(place.here + 2), ""),))
    if token.text in ("begin", "end"):
        return Remedy(((token.at, token.at + len(token.text), token.text.upper()),))
    if token.kind == POINT and at_point(token.text).startswith("write "):
        return Remedy(((token.at, token.at + len(token.text), at_point(token.text)[len("write "):]),))
    if token.kind == POINT and token.text.startswith("i"):
        return Remedy(((token.at, token.at + len(token.text), "interval:s:1"),))
    if token.kind == POINT or token.text in PROBES and place.is_at(place.here + 1, ":"):
        is_path = token.text in ("uprobe", "uretprobe", "u", "ur", "usdt")
        end = re.compile(r"[^\s{,]+" if is_path else r"[^\s{,/]+").match(text, token.at).end()
        return Remedy(((token.at, end, "BEGIN"),), is_foreign=True)
    return None


def of_call(place, formats):
    """In the place of a call of bpftrace's that is no call here: something of its kind, with what it is given where that is looked at as well."""
    word, opening = place.token.text, place.here + 1
    end = end_of(place.tokens, opening)
    begin, behind = place.token.at, place.end(end - 1)
    given = place.tokens[opening + 1:end - 1]
    parts = parts_of(given)
    if place.is_at(place.here - 1, ";", "{", "}") and word not in ("str",):
        return without_statement(place)
    if word in ("strncmp", "strcontains") and len(parts) >= 2:
        commas = [at for at in range(opening + 1, end - 1) if place.tokens[at].text == "," and len(opened_by(place.tokens, at)) == len(place.opened) + 1]
        last = place.begin(commas[1]) if len(commas) > 1 else place.begin(end - 1)
        edits = ((begin, place.begin(opening), ""), (place.begin(commas[0]), place.end(commas[0]), " !="), (last, place.begin(end - 1), ""))
        return Remedy(tuple(edit for edit in edits if edit[0] < edit[1] or edit[2]), ((begin, behind),))
    if word == "str":
        field = FIELD.fullmatch(place.text[place.begin(opening + 1):place.end(end - 2)].split(",")[0].strip()) if given else None
        kinds = kinds_of(field[1], formats) if field else set()
        if kinds == {"string"}:
            return Remedy(((begin, behind, field[0]),))
        return replaced(place, begin, behind, '""', True)
    if word == "stats":
        return Remedy(((begin, begin + len(word), "avg"),))
    new = KINDS_OF_CALLS.get(word)
    return replaced(place, begin, behind, new or "1", new != "1")


def kinds_of(name, formats):
    """How scripts see a field of this name in these formats: `number`, `string`, or nothing for one that cannot be read, or is not there."""
    return {SEEN.get(field.kind, "") for format in formats for field in format.layout.fields if field.name == name.encode()}


def at_word(place, formats):
    """In the place of a word that is none of the language."""
    token, here = place.token, place.here
    begin, end = token.at, token.at + len(token.text)
    if token.text in CASTS and place.is_at(here - 1, "("):
        return Remedy(((place.begin(here - 1), place.end(end_of(place.tokens, here - 1) - 1), ""),))
    if token.text == "for":
        behind = end_of(place.tokens, here + 1)
        behind = end_of(place.tokens, behind) if place.is_at(behind, "{") else behind
        return Remedy(((begin, place.end(behind - 1), ""),), ((begin, place.end(behind - 1)),), place.set_names(here, behind))
    if token.text == "let":
        return Remedy(((begin, end, ""),))
    if token.text in ("and", "or", "not"):
        return Remedy(((begin, end, {"and": "&&", "or": "||", "not": "!"}[token.text]),))
    if place.is_at(here + 1, "("):
        return of_call(place, formats)
    if place.is_at(here - 1, ";", "{", "}") and not place.is_at(here + 1, ".", "->", "["):
        return without_statement(place)
    value = value_of(token.text)
    if token.text in BARE_TEXTS:
        return replaced(place, begin, end, '""', True)
    return replaced(place, begin, end, str(value) if value is not None and value >= 0 else "1", not about_constant(token.text))


def at_mark(place):
    """In the place of a mark that belongs to a form of bpftrace's that is none here."""
    tokens, here, text = place.tokens, place.here, place.token.text
    last = place.opened[-1] if place.opened else None
    called = tokens[last - 1].text if last and tokens[last].text == "(" else ""
    if text == "," and tuple_at(place.tokens, here):
        closing = end_of(tokens, last) - 1
        if place.is_at(last - 1, "[", ",") and len(place.opened) > 1 and tokens[place.opened[-2]].text == "[":
            return Remedy(((place.begin(last), place.end(last), ""), (place.begin(closing), place.end(closing), "")))
        return without_statement(place)
    if text == "," and called == "hist":
        return Remedy(((place.token.at, place.begin(end_of(tokens, last) - 1), ""),))
    if text == ")" and called == "lhist":
        given = len(parts_of(tokens[last + 1:here]))
        return Remedy(((place.token.at, place.token.at, "".join([", 0", ", 10", ", 1"][given - 1:])),)) if 1 <= given < 4 else None
    if text == "(" and place.before and place.before.text in BUILTINS:
        return Remedy(((place.token.at, place.end(end_of(tokens, here) - 1), ""),))
    if text == "[" and place.before and place.before.kind in (WORD, VARIABLE):
        return replaced(place, place.token.at, place.end(end_of(tokens, here) - 1), "", True)
    if text in (".", "->") and here + 1 < len(tokens) and (place.before.kind in (WORD, VARIABLE, MAP) or place.is_at(here - 1, ")", "]")):
        return as_guess(place, replaced(place, place.token.at, place.end(here + 1), "", True))
    return None


def in_a_call(place):
    """In the place of what is given to `print`, `exit` or `count` and does not belong there."""
    for at in place.opened:
        word = place.tokens[at - 1].text if at and place.tokens[at].text == "(" else ""
        if word in ("exit", "count"):
            return Remedy(((place.end(at), place.begin(end_of(place.tokens, at) - 1), ""),))
        if word == "print":
            return without_statement(place)
    return None


def of_what_is_missing(place):
    """Puts in what is missing: a ; between statements, or the braces of a block of one statement."""
    first, end = place.statement()
    doubts, names = ((place.begin(first), place.end(min(end, len(place.tokens) - 1))),), place.all_names(first, end)
    if needs_braces(place.tokens, place.here):
        behind = next((at for at in range(place.here, len(place.tokens)) if place.is_at(at, ";", "}", "{")), None)
        if behind is not None and place.is_at(behind, ";"):
            return Remedy(((place.token.at, place.token.at, "{ "), (place.end(behind), place.end(behind), " }")), doubts, names, is_guess=True)
        return None
    if place.before and is_end_of_a_statement(place.before) and place.token.kind not in (MARK, "other"):
        return Remedy(((place.token.at, place.token.at, "; "),), doubts, names, is_guess=True)
    return None


def of_syntax(place, formats):
    """In the place of what is refused as P1."""
    if place.here is None:
        depth = len(opened_by(place.tokens, len(place.tokens)))
        is_all = all(place.tokens[at].text == "{" for at in opened_by(place.tokens, len(place.tokens)))
        return Remedy(((len(place.text), len(place.text), " }" * depth),)) if depth and is_all else None
    if not place.is_in_block and not any(token.text == "/" for token in place.tokens[:place.here][-1:]) and at_points(place):
        return at_points(place)
    if not place.is_in_block and not place.is_in_predicate():
        return None
    if place.token.kind == WORD and place.token.text in ("for", "let", "and", "or", "not"):
        return at_word(place, formats)
    found = in_a_call(place) or of_what_is_missing(place)
    if not found and place.token.kind == MARK:
        found = at_mark(place)
    if not found and place.token.kind == WORD and (place.is_in_block or place.opened or place.before):
        found = at_word(place, formats)
    return found or as_guess(place, without_statement(place))


def as_guess(place, remedy):
    """A remedy of which it is not known whether it is what was meant: all that stands in its statement is in doubt."""
    first, behind = place.statement()
    return remedy and replace(remedy, names=remedy.names | place.all_names(first, behind), is_guess=True)


def is_balanced(text):
    """Whether each bracket of a text has its other one."""
    opened, pairs = [], {")": "(", "]": "[", "}": "{"}
    for token in tokens_of(text):
        if token.kind == MARK and token.text in pairs.values():
            opened.append(token.text)
        elif token.kind == MARK and token.text in pairs and (not opened or opened.pop() != pairs[token.text]):
            return False
    return not opened


def of_point(place):
    """In the place of a point that the recording does not have, or of an interval that has no or too many ticks."""
    token = place.token
    is_interval = token.text.startswith("i")
    return Remedy(((token.at, token.at + len(token.text), "interval:s:1" if is_interval else "BEGIN"),), is_foreign=not is_interval)


def of_field(place):
    """In the place of a field that the event does not have, or that cannot be read."""
    first = place.here - 2 if place.is_at(place.here - 1, ".", "->") and place.is_at(place.here - 2, "args") else place.here
    return replaced(place, place.begin(first), place.end(place.here), "1", True)


def remedy_of(text, at, code, formats):
    """The remedy for a refusal by its code at an offset, with the formats of its probe; none where there is nothing behind it that can be told."""
    place = Place(text, at)
    if code in ("X2", "X5", "X6"):
        return of_string(place, code)
    if code == "X1":
        return at_letter(place) if at < len(text) else None
    if code == "X4" and place.token:
        return Remedy(((place.token.at, place.token.at + len(place.token.text), "1"),))
    if code == "P1":
        return of_syntax(place, formats)
    if place.token is None:
        return None
    if code in ("A1", "A2", "A3", "A4"):
        return of_point(place)
    if code in ("Y1", "Y2"):
        return of_field(place)
    if code == "Y5":
        return replaced(place, place.token.at, place.token.at + len(place.token.text), "1", True)
    return without_statement(place) if code in ("Y3", "Y4", "Y6", "Y7", "Y8", "Y9", "Y10", "Y12") else None
