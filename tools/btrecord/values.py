"""The fields of events, as the program reads them, and beside these what it can't read."""
import re

from format_text import CHARS, DATA_LOC, NUMBER

MOST_TEXT = 63
SIZES = (1, 2, 4, 8)
ELEMENTS = re.compile(rb"\[(\d{1,4})\]\Z")


def shown(name):
    """A text of the kernel, up to its first zero byte, whatever its bytes are."""
    text = name.split(b"\0", 1)[0].decode("utf-8", "backslashreplace")
    return text if text.isprintable() else "".join(letter if letter.isprintable() else f"\\x{ord(letter):02x}" for letter in text)


def located(word, payload):
    """The bytes that a data location says: its low 16 bits are their place, its high ones how many there are. What is not inside is nothing."""
    where = int.from_bytes(word, "little")
    place, count = where & 0xFFFF, where >> 16
    return payload[place:place + count] if place + count <= len(payload) else b""


class Value:
    """How a field is read: `of` answers its number or its text."""

    def __init__(self, field):
        self.name = field.name.decode()
        self.begin, self.end = field.offset, field.offset + field.size
        self.is_signed = field.signed
        self.is_pointer = b"*" in field.declaration
        found = ELEMENTS.search(field.declaration)
        count = int(found[1]) if found else 0
        self.element = field.size // count if count and field.size % count == 0 and field.size // count in SIZES else 0
        self.of = {NUMBER: self.number, CHARS: self.characters, DATA_LOC: self.dynamic}.get(field.kind, self.other)
        if field.kind not in (NUMBER, CHARS, DATA_LOC) and field.declaration.startswith(b"__data_loc"):
            self.of = self.dynamic_bytes

    def number(self, payload):
        """A number, with its sign where it has one."""
        return int.from_bytes(payload[self.begin:self.end], "little", signed=self.is_signed)

    def characters(self, payload):
        """The text of an array of characters."""
        return shown(payload[self.begin:self.end][:MOST_TEXT])

    def dynamic(self, payload):
        """The text that a data location says."""
        return shown(located(payload[self.begin:self.end], payload)[:MOST_TEXT])

    def other(self, payload):
        """What a script can't read, in braces: the numbers of an array, or bytes."""
        part = payload[self.begin:self.end]
        if not self.element:
            return "{" + part.hex() + "}"
        numbers = (int.from_bytes(part[k:k + self.element], "little", signed=self.is_signed) for k in range(0, len(part), self.element))
        return "{" + ", ".join(f"{number:#x}" if self.element == 8 and not self.is_signed else str(number) for number in numbers) + "}"

    def dynamic_bytes(self, payload):
        """What a script can't read, in braces: the bytes that a data location says."""
        return "{" + located(payload[self.begin:self.end], payload)[:MOST_TEXT].hex() + "}"

    def text(self, payload):
        """The field as text: of a pointer its number in hexadecimal."""
        found = self.of(payload)
        return f"{found:#x}" if self.is_pointer and isinstance(found, int) else str(found)


def values_of(layout):
    """The fields of an event that have a name and at least a byte, without those that all events have."""
    return [Value(field) for field in layout.fields if field.name and field.size and not field.name.startswith(b"common_")]
