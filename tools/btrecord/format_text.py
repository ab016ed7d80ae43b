"""The texts by which the kernel describes the records of tracepoints.

docs/RECORDINGS.md has the rules and the order in which a text's first fault is told.
"""
import re
from dataclasses import dataclass

MOST_FIELD_END = 4096
MOST_ID = 65_535
MOST_NUMBER = 4_294_967_295

NUMBER, CHARS, DATA_LOC, OTHER = "number", "characters", "dynamic characters", "other"

BLANKS = b" \t"
NAME_LINE = re.compile(rb"name:[ \t]*([A-Za-z0-9_]+)")
LAST_WORD = re.compile(rb"[A-Za-z0-9_]*\Z")
WORD = re.compile(rb"[A-Za-z0-9_]+")


class BadFormat(Exception):
    """The first rule that a text breaks, as F1 to F5."""


@dataclass(frozen=True)
class Field:
    """A field of a record: how it is declared, where it stands, how a script may read it, and whether a number has a sign."""

    name: bytes
    declaration: bytes
    offset: int
    size: int
    kind: str
    signed: bool = False


@dataclass(frozen=True)
class Layout:
    """What a text says: the event's name and ID, the least size of its records, and their fields."""

    name: bytes
    number: int
    size: int
    fields: tuple


def number_in(digits, greatest):
    """The number that decimal digits spell, or none where they spell none or a greater one."""
    if not digits.isdigit() or len(digits.lstrip(b"0")) > len(str(greatest)):
        return None
    number = int(digits.lstrip(b"0") or b"0")
    return number if number <= greatest else None


def labelled(label, part):
    """What stands behind a label, without the blanks round it, or none."""
    part = part.strip(BLANKS)
    return part[len(label):].strip(BLANKS) if part.startswith(label) else None


def kind_of(type_words, is_array, size):
    """How a script may read a field of this type: what stands before its name."""
    words = WORD.findall(type_words)
    if type_words.startswith(b"__data_loc"):
        return DATA_LOC if b"char" in words and size == 4 else OTHER
    if type_words.startswith(b"__rel_loc"):
        return OTHER
    if is_array:
        return CHARS if words in ([b"char"], [b"const", b"char"]) and b"*" not in type_words else OTHER
    return NUMBER if size in (1, 2, 4, 8) else OTHER


def field_on(line):
    """The field that a line describes, or none where it is no field line."""
    parts = line.split(b";")
    if len(parts) != 5 or parts[4]:
        return None
    declaration = labelled(b"field:", parts[0])
    offset, size = (number_in(labelled(label, part) or b"", MOST_NUMBER) for label, part in ((b"offset:", parts[1]), (b"size:", parts[2])))
    signed = labelled(b"signed:", parts[3])
    if declaration is None or offset is None or size is None or signed not in (b"0", b"1"):
        return None
    is_array = declaration.endswith(b"]") and b"[" in declaration
    named = declaration[:declaration.rindex(b"[")] if is_array else declaration
    name = LAST_WORD.search(named)[0]
    return Field(name, declaration, offset, size, kind_of(named[:len(named) - len(name)], is_array, size), signed == b"1")


def fields_on(lines):
    """The fields of the lines behind the third, in their order."""
    fields, names = [], set()
    for place, line in enumerate(lines, start=4):
        if line.startswith(b"print fmt:"):
            break
        if not line:
            continue
        field = field_on(line)
        if not field:
            raise BadFormat(f"F3 bad line {place}")
        if field.offset + field.size > MOST_FIELD_END:
            raise BadFormat(f"F4 overlong line {place}")
        if field.name in names:
            raise BadFormat(f"F5 same name line {place}")
        if field.name:
            names.add(field.name)
        fields.append(field)
    return tuple(fields)


def layout_of(text):
    """The layout that a text describes. Its first fault is raised as BadFormat."""
    lines = [line.rstrip(b" \t\r") for line in text.split(b"\n")] + [b"", b""]
    name = NAME_LINE.fullmatch(lines[0])
    if not name:
        raise BadFormat("F1 no name")
    number = number_in(lines[1][3:].lstrip(BLANKS), MOST_ID) if lines[1].startswith(b"ID:") else None
    if number is None:
        raise BadFormat("F2 bad id")
    if lines[2] != b"format:":
        raise BadFormat("F3 bad line 3")
    fields = fields_on(lines[3:])
    return Layout(name[1], number, max((field.offset + field.size for field in fields), default=0), fields)
