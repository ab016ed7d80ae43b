"""Letters that begin no token of the language: which they are, and what is written in their place."""
import unicodedata

MARK_OF_ORDER = "\ufeff"
DOUBLE, SINGLE = "\u201c\u201d\u201e\u201f\u00ab\u00bb\u2033", "\u2018\u2019\u201a\u201b\u2032`'"
DASHES = "\u2010\u2011\u2012\u2013\u2014\u2015\u2212"
CONTROLS = {"\0": "NUL", "\a": "BELL", "\b": "BACKSPACE", "\v": "VERTICAL TAB", "\f": "FORM FEED", "\x1a": "CTRL-Z", "\x1b": "ESCAPE", "\x7f": "DELETE"}
MOST_BYTES = 4


def letter_at(text, at):
    """The letter that begins at an offset of a script's text, whose letters are bytes, and how many bytes it has; the byte itself where it is none
    of UTF-8."""
    begin = text[at:at + MOST_BYTES].encode("latin-1")
    for size in range(1, len(begin) + 1):
        try:
            return begin[:size].decode(), size
        except UnicodeDecodeError:
            continue
    return text[at:at + 1], 1


def name_of(letter):
    """The name of a letter, as a sentence has it."""
    if letter in CONTROLS:
        return f"the byte {CONTROLS[letter]} (0x{ord(letter):02x})"
    name = unicodedata.name(letter, "")
    if name:
        return f"{name} (U+{ord(letter):04X})"
    return f"the byte 0x{ord(letter):02x}" if ord(letter) < 256 else f"the letter U+{ord(letter):04X}"


def in_place_of(letter):
    """What is written in the place of a letter that begins no token."""
    if letter in DOUBLE or letter in SINGLE:
        return '"'
    return "-" if letter in DASHES else " " if unicodedata.category(letter) == "Zs" else ""


def about_letter(letter):
    """What to do with a letter that begins no token; nothing for one of ASCII that can be seen."""
    if letter == MARK_OF_ORDER:
        return "a byte order mark (U+FEFF) stands here: save the script without it"
    if letter == "'":
        return 'a string stands in double quotes: "text"'
    if letter.isascii() and letter.isprintable():
        return ""
    if letter in DOUBLE or letter in SINGLE:
        return f'a curly quote, {name_of(letter)}, stands here: write "'
    new = in_place_of(letter)
    return f"{name_of(letter)} stands here: " + (f"write {new}" if new.strip() else "write a blank" if new else "take it out, or put it into a string")
