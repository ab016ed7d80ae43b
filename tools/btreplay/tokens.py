"""The tokens of a script, as docs/LANGUAGE.md has them.

A script is looked at by its bytes: a text here has one letter for each byte, so that places count bytes as the program's do.
"""
import re
from dataclasses import dataclass

WORD, POINT, MAP, VARIABLE, NUMBER, STRING, MARK, OTHER = "word", "point", "map", "variable", "number", "string", "mark", "other"

PIECES = re.compile(r"""
    (?P<blank>[ \t\r\n]+ | //[^\n]* | /\*.*?\*/ | /\*.*\Z)
  | (?P<string>"(?:\\.|[^"\\\n])*"?)
  | (?P<point>(?:tracepoint|t|interval|i):[A-Za-z0-9_:*-]*)
  | (?P<word>[A-Za-z_][A-Za-z0-9_]*)
  | (?P<map>@(?:[A-Za-z_][A-Za-z0-9_]*)?)
  | (?P<variable>\$[A-Za-z_][A-Za-z0-9_]*)
  | (?P<number>[0-9][A-Za-z0-9_]*)
  | (?P<mark><<=|>>=|\+\+|--|->|&&|\|\||<<|>>|[-+*/%&|^<>=!]=|[-+*/%&|^<>=!~?:;,.(){}\[\]])
  | (?P<other>.)
""", re.X | re.S)


@dataclass(frozen=True)
class Token:
    """A token: its kind, its text, and where it begins, as an offset in bytes."""

    kind: str
    text: str
    at: int


def text_of(script):
    """The text of a script's bytes, with a letter for each byte."""
    return script.decode("latin-1")


def tokens_of(text):
    """All tokens of a text. What begins no token is one of the kind `other`, so that a refused script can be looked at as well."""
    start = len(text.split("\n", 1)[0]) if text.startswith("#!") else 0
    found = []
    for piece in PIECES.finditer(text, start):
        if piece.lastgroup != "blank":
            found.append(Token(piece.lastgroup, piece[0], piece.start()))
    return found


def place_of(text, at):
    """The line and the column of an offset, both from 1."""
    return text.count("\n", 0, at) + 1, at - (text.rfind("\n", 0, at) + 1) + 1


def offset_of(text, line, column):
    """The offset of a line and a column, or the text's end where it has no such place."""
    lines = text.split("\n")
    if line > len(lines):
        return len(text)
    return min(sum(len(part) + 1 for part in lines[:line - 1]) + column - 1, len(text))
