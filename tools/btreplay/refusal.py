"""What the program refuses, and what can be said of it at once: where in the script it is, why a file could not be read, and operands in the other order."""
import os
import re
import stat
from dataclasses import dataclass

from btreplay.recorded import begins_a_recording
from btreplay.tokens import offset_of
from inputs import overwritten  # noqa: F401  (the command has it from here)
from unread import begin_of, in_place_of_recording, why_unread

SCRIPT, RECORDING, READ, WRITE = 2, 3, 4, 5
# The commands, each with its options and what it takes.
FILES, NUMBERS, THREE = "a script and a recording", "two numbers, as in 7 1000", "a script, a recording and an account"
COMMANDS = {"run": ("--serial --stats --json", FILES), "check": ("", FILES), "explain": ("", FILES), "code": ("", FILES), "vet": ("", FILES),
            "account": ("--serial", FILES), "verify": ("", THREE), "gen": ("", NUMBERS), "big": ("", NUMBERS)}
MOST_SCRIPT = 65_536
WIDTH = 120


@dataclass(frozen=True)
class Refusal:
    """A line of the program that refuses a file: its name, the code and the text of the fault, and its place, for a script's."""

    name: str
    code: str
    text: str
    line: int = 0
    column: int = 0


def refusal_in(told, names):
    """The refusal that the program told of a file of one of these names, or none."""
    for name in names:
        for line in told.decode(errors="surrogateescape").splitlines():
            if line.startswith(f"{name}:"):
                found = re.fullmatch(r"(?:(\d+):(\d+):)? (?:([A-Z]\d+) )?(.*)", line[len(name) + 1:])
                if found:
                    return Refusal(name, found[3] or "", found[4], int(found[1] or 0), int(found[2] or 0))
    return None


def shown(letters):
    """Letters of a script as a terminal may show them: bytes of a letter together, a tab as a blank, and no control."""
    text = letters.encode("latin-1").decode(errors="replace")
    return "".join(letter if letter.isprintable() else " " if letter == "\t" else "?" for letter in text)


def pointed(text, line, column):
    """The line of a script, and below it a caret at the column. Of a long line it is a part."""
    at = offset_of(text, line, column)
    begin = text.rfind("\n", 0, at) + 1
    end = text.find("\n", at)
    before, behind = shown(text[begin:at]), shown(text[at:end if end >= 0 else len(text)])
    if len(before) + len(behind) > WIDTH:
        before = "..." + before[-WIDTH // 2:] if len(before) > WIDTH // 2 + 3 else before
        room = WIDTH - len(before)
        behind = behind[:room - 3] + "..." if len(behind) > room else behind
    return ["  " + (before + behind).rstrip(), "  " + " " * len(before) + "^"]


def about_files(status, told, script, recording, account=None):
    """Lines for files that were not read, and for operands in the other order."""
    if status == READ:
        name = next((name for name in (script, recording, account) if name is not None and told == f"{name}: read fault\n".encode(errors="surrogateescape")), None)
        return [f"{name}: {why_unread(name)}"] if name is not None else []
    if status in (SCRIPT, RECORDING) and begins_a_recording(script) and not begins_a_recording(recording):
        return [f"{script} is a recording and {recording} is none: the script comes first, then the recording"]
    return []


def about_recording(status, recording):
    """A line for a file that stands in the place of a recording, where it is known what it is."""
    return in_place_of_recording(recording, begin_of(recording)) if status == RECORDING else []


def listed(words):
    """Words as a sentence lists them."""
    *before, last = words
    return f"{', '.join(before)} and {last}" if before else last


def about_words(words):
    """Lines for words that are no command: a word that none has, an option that the command does not have, or more or fewer words than it takes."""
    if not words:
        return []
    if words[0] not in COMMANDS:
        return [f"there is no command {words[0]}; btreplay --help has all of them"]
    options, takes = COMMANDS[words[0]]
    other = [word for word in words[1:] if word.startswith("-") and word != "-" and word not in options.split()]
    if other[:1] == ["-e"] and takes in (FILES, THREE):
        return ["a script stands behind -e, and a recording" + (", and an account" if takes == THREE else "")]
    if other:
        return [f"{words[0]} has no option {other[0]}" + (f"; it has {listed(options.split())}" if options else "")]
    count = sum(word == "-" or not word.startswith("-") for word in words[1:])
    wanted = 3 if takes == THREE else 2
    return [f"{words[0]} takes {takes}" + (f", and {count} {'word stands' if count == 1 else 'words stand'} there" if count != wanted else "")]


def text_of_file(path, most=MOST_SCRIPT):
    """The bytes of a script, as far as a script may go, or so many of another file; none where it is no regular file or cannot be read."""
    try:
        if not stat.S_ISREG(os.stat(path).st_mode):
            return None
        with open(path, "rb") as file:
            return file.read(most)
    except (OSError, ValueError):
        return None
