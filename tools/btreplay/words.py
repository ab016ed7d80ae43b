"""The words of the command: which are its own, and whether the others are a command of the program. Nothing is built or read for it."""
import enum
from dataclasses import dataclass

MOST_X, MOST_N, MOST_DIGITS = 2_147_483_647, 1_048_576, 10
FILES, THREE = ("SCRIPT", "RECORDING"), ("SCRIPT", "RECORDING", "ACCOUNT")
NUMBERS = ("X", "N")
SCRIPT = "s"


class BadWords(Exception):
    """Why words are no command."""


class Answering(enum.Enum):
    """Which program is to answer."""

    ANY = "the proved program where it is there, else the build that is checked as it runs"
    PROVED = "the proved program alone"
    UNPROVED = "the build that is checked as it runs"


@dataclass(frozen=True)
class Command:
    """A command: its operands, its options, what it does, and whether the program has it as well."""

    operands: tuple
    meaning: str
    options: tuple = ()
    is_programs: bool = True


COMMANDS = {
    "run": Command(FILES, "runs the script over the recording, and writes what it prints", ("--serial", "--stats", "--json")),
    "check": Command(FILES, "looks both over for all that refuses them"),
    "explain": Command(FILES, "does what check does, and says what a fault means and how it is mended"),
    "code": Command(FILES, "lists the BPF code of each body"),
    "gen": Command(NUMBERS, "writes a made recording of N events, drawn from the seed X"),
    "big": Command(NUMBERS, "runs a built-in script over that recording"),
    "account": Command(FILES, "runs the script as run does, and writes an account: all steps, and the text", ("--serial",)),
    "verify": Command(THREE, "checks an account against the script and the recording"),
    "vet": Command(FILES, "checks the BPF code of each body"),
    "prove": Command((), "proves and builds the program, as make does", ("--background",), False),
    "help": Command(("[COMMAND]",), "writes how the command is used, or one of its commands", (), False),
}
OPTIONS = {
    "--serial": "takes the events of all CPUs in one order, by their times",
    "--stats": "tells how many instructions were run",
    "--json": "writes JSON lines in place of text",
    "--background": "goes on when the terminal closes, and writes what it tells to a file",
}
CHOICES = {"--proved": Answering.PROVED, "--unproved": Answering.UNPROVED}


@dataclass(frozen=True)
class Given:
    """What words ask for: the words of a command, which program is to answer, and whether help or the version is wanted in its place."""

    words: tuple
    answering: Answering = Answering.ANY
    is_help: bool = False
    is_version: bool = False

    @property
    def command(self):
        """The command's word."""
        return self.words[0] if self.words else ""


def given(words):
    """What words ask for. Words that choose the program, and those for help, may stand anywhere but behind -e. It raises BadWords where both programs
    are asked for."""
    rest, choices, is_help, is_text = [], [], False, False
    for word in words:
        is_option, is_text = not is_text, not is_text and word == "-e"
        if is_option and word in CHOICES:
            choices.append(CHOICES[word])
        elif is_option and word in ("-h", "--help"):
            is_help = True
        else:
            rest.append(word)
    if len(set(choices)) > 1:
        raise BadWords("--proved and --unproved do not go together")
    if rest[:1] == ["help"]:
        is_help, rest = True, rest[1:]
    return Given(tuple(rest), choices[0] if choices else Answering.ANY, is_help, rest[:1] in (["--version"], ["-V"]))


def operands(words):
    """The places of the words behind the command that are no options; `-` alone is standard input."""
    return [place for place, word in enumerate(words) if place and (word == "-" or not word.startswith("-"))]


def as_program_gets(words):
    """The words as the program gets them, with a name in the place of a script that stands in them or comes from standard input."""
    words = list(words)
    command = COMMANDS.get(words[0]) if words else None
    if not command or "SCRIPT" not in command.operands:
        return words
    if "-e" in words[:-1]:
        place = words.index("-e")
        del words[place:place + 2]
        words.insert((operands(words) or [len(words)])[0], SCRIPT)
        return words
    places = operands(words)
    if len(places) == len(command.operands) and words[places[0]] == "-":
        words[places[0]] = SCRIPT
    return words


def is_number(word, most):
    """Whether the program takes a word for a number of at most so much."""
    return word.isascii() and word.isdigit() and len(word) <= MOST_DIGITS and int(word) <= most


def is_text(word):
    """Whether a word is UTF-8, as the program wants all of its own."""
    try:
        word.encode()
    except UnicodeEncodeError:
        return False
    return True


def is_admitted(words):
    """Whether words are a command of this command: those of the program, by the program's own rule, and prove."""
    words = as_program_gets(words)
    command = COMMANDS.get(words[0]) if words else None
    if not command or words[0] == "help" or not all(is_text(word) for word in words):
        return False
    later = words[1:]
    options = [word for word in later if word in command.options]
    rest = [word for word in later if word not in command.options]
    if len(set(options)) < len(options) or len(rest) != len(command.operands):
        return False
    if command.operands == NUMBERS:
        return is_number(rest[0], MOST_X) and is_number(rest[1], MOST_N)
    return all(word and not word.startswith("-") for word in rest)
