"""The words of the command `btreplay`, and what it does beside running the program."""
import contextlib
import errno
import os
import signal
import subprocess
import sys
from dataclasses import dataclass

from btreplay import proved
from btreplay.choice import NoProgram, chosen
from btreplay.compiled import NotBuilt
from btreplay.places import is_checkout
from btreplay.running import STACK, Ended, end_as, end_in_order, hold_streams, is_read_no_more, pass_on, run_program, stack_here, tell
from btreplay.words import Answering, BadWords, given, is_admitted, operands

TAKES_SCRIPT = ("run", "check", "code", "vet", "explain", "account", "verify")
FAILED = 1
MOST_SCRIPT = 65_536


@dataclass
class Asked:
    """A call of the program: its words, the operands where there are as many as it takes, the handles that it takes, how a script is called, and
    whether the program is the one that is not proved."""

    words: list
    script: str = None
    recording: str = None
    account: str = None
    shown: str = None
    text: bytes = None
    handles: tuple = ()
    is_unproved: bool = False

    @property
    def command(self):
        """The command's word."""
        return self.words[0] if self.words else ""

    @property
    def takes(self):
        """How many files the command takes."""
        return 3 if self.command == "verify" else 2


def handle_of(script):
    """A handle of a file without a name that holds a script."""
    handle = os.memfd_create("script", 0)
    with os.fdopen(os.dup(handle), "wb") as file:
        file.write(script)
    return handle


def standard_input():
    """What standard input holds, as far as one byte more than a script may have."""
    with contextlib.suppress(OSError), os.fdopen(os.dup(0), "rb") as file:
        return file.read(MOST_SCRIPT + 1)
    raise BadWords("standard input could not be read")


def asked_of(words):
    """What words ask for. A script that stands in them or on standard input is put into a file without a name."""
    asked = Asked(list(words))
    if asked.command not in TAKES_SCRIPT:
        return asked
    text = None
    if "-e" in asked.words[:-1]:
        place = asked.words.index("-e")
        text = os.fsencode(asked.words[place + 1])
        del asked.words[place:place + 2]
        asked.words.insert((operands(asked.words) or [len(asked.words)])[0], "-e")
        at = asked.words.index("-e")
    else:
        places = operands(asked.words)
        at = places[0] if len(places) == asked.takes else None
        if at is not None and asked.words[at] == "-":
            text = standard_input()
    if text is not None:
        asked.shown, asked.text = asked.words[at], text
        handle = handle_of(text)
        asked.handles = (handle,)
        asked.words[at] = f"/dev/fd/{handle}"
    found = [asked.words[place] for place in operands(asked.words)]
    if len(found) == asked.takes:
        asked.script, asked.recording, *more = found
        asked.account = more[0] if more else None
        asked.shown = asked.shown or asked.script
    return asked


def named_as_asked(told, asked):
    """What the program told, with the name of a script that has no file of its own as the words have it."""
    if asked.handles and told.startswith(os.fsencode(asked.script or "") + b":"):
        return os.fsencode(asked.shown) + told[len(os.fsencode(asked.script)):]
    return told


def script_text(asked):
    """The text of the script, or none where it cannot be read."""
    from btreplay.refusal import text_of_file
    from btreplay.tokens import text_of
    content = asked.text if asked.text is not None else text_of_file(asked.script)
    return None if content is None else text_of(content)


def run_asked(program, asked):
    """Runs the program, passes on what it tells, and adds what this command has to say. It gives the status."""
    notes = []

    def look():
        if asked.command == "run" and asked.script is not None:
            from btreplay.notes import notes_of
            from btreplay.script import probes_of
            text = script_text(asked)
            if text is not None:
                notes.extend(notes_of(text, probes_of(text), asked.recording, asked.shown, "--serial" in asked.words))

    ended, _ = run_program(program, asked.words, meanwhile=look)
    ended = Ended(ended.status, named_as_asked(ended.told, asked))
    if ended.told == b"write fault\n" and is_read_no_more():
        return ended.status
    pass_on(ended.told)
    tell(notes if ended.status == 0 else after_refusal(ended, asked))
    return end_as(ended.status)


def after_refusal(ended, asked):
    """What is told behind a refusal; where standard error is a terminal, the script's line with a caret first."""
    if asked.is_unproved and ended.status == -signal.SIGILL:
        return ["a check of this build failed as it ran"]
    if ended.status == -signal.SIGSEGV and stack_here() < STACK:
        return [f"a run wants a stack of {STACK // 1024} KB, and may have {stack_here() // 1024}; ulimit -s {STACK // 1024} gives it"]
    if asked.script is None or ended.status <= 0:
        return []
    from btreplay.refusal import pointed, refusal_in
    refusal = refusal_in(ended.told, [asked.shown]) if sys.stderr.isatty() else None
    text = script_text(asked) if refusal and refusal.line else None
    if text is not None:
        pass_on("".join(f"{line}\n" for line in pointed(text, refusal.line, refusal.column)).encode())
    return after_refusal_files(ended, asked)


def explain(program, asked):
    """Checks a script, and writes what there is to say behind what the program tells."""
    from btreplay.checking import Checks
    from btreplay.explain import explanation
    asked.words[0] = "check"
    ended, output = run_program(program, asked.words, output=subprocess.PIPE)
    ended = Ended(ended.status, named_as_asked(ended.told, asked))
    sys.stdout.buffer.write(output)
    sys.stdout.flush()
    pass_on(ended.told)
    with Checks(program, asked.recording) as checks:
        for line in explanation(ended, script_text(asked), (asked.script, asked.shown), asked.recording, checks):
            print(line)
    sys.stdout.flush()
    tell(after_refusal_files(ended, asked))
    return end_as(ended.status)


def after_refusal_files(ended, asked):
    """What is told of files that were refused, of the script where it is one."""
    from btreplay.refusal import about_files, about_recording
    lines = about_files(ended.status, ended.told, asked.script, asked.recording, asked.account) if not asked.handles else []
    return lines or about_recording(ended.status, asked.recording)


def keep_inputs(asked):
    """Refuses a standard output that is a file that is read, which would be written over."""
    from btreplay.refusal import overwritten
    fault = overwritten("-", [path for path in (asked.script, asked.recording, asked.account) if path])
    if fault:
        raise BadWords(fault)


def refused(words):
    """Tells what is wrong with words, and how the command is used; gives the status."""
    from btreplay.usage import usage_of, what_is_wrong
    tell([what_is_wrong(words)])
    pass_on(usage_of(words).encode())
    return FAILED


def helped(words):
    """Writes how the command is used, or the one command that is named."""
    from btreplay.usage import commands_here, help_of, whole_help
    if words and words[0] not in commands_here() and not words[0].startswith("-"):
        return refused(words)
    print(help_of(words[0]) if words and words[0] in commands_here() else whole_help(), end="")
    return 0


def prove(words):
    """Proves and builds the program, here or in the background, and tells where it is."""
    if not is_checkout():
        raise BadWords("prove is for a checkout of the repository; the program that is installed here is proved")
    if proved.is_current():
        print(f"the program is proved: {proved.PROGRAM}")
        return 0
    if "--background" in words:
        number, log = proved.in_background()
        print(f"the program is proved in the background by process {number}, also where this terminal closes; kill {number} ends it\n"
              f"what it tells goes to {log}")
        return 0
    proved.build()
    print(f"the program is proved: {proved.PROGRAM}")
    return 0


def answer(words):
    """Does what words ask for, and gives the status. Words are judged before anything is built or read."""
    asks = given(words)
    if asks.is_help:
        return helped(asks.words)
    if asks.is_version:
        print(proved.version())
        return 0
    if not is_admitted(asks.words) or asks.command == "prove" and asks.answering is not Answering.ANY:
        return refused(asks.words)
    if asks.command == "prove":
        return prove(asks.words)
    with chosen(asks.answering) as program:
        asked = asked_of(asks.words)
        asked.is_unproved = not program.is_proved
        keep_inputs(asked)
        does = explain if asked.command == "explain" else run_asked
        return does(program.path, asked)


def tell_if_memory(fault):
    """Tells what to do where a build was ended for want of memory or of room on the disk."""
    said = str(fault)
    if "No space left on device" in said:
        tell(["the disk is full: make room, or name another folder for builds by XDG_CACHE_HOME, and for files that are in use by TMPDIR"])
    if "Killed" in said or "signal: 9" in said or "out of memory" in said.lower() or "bad_alloc" in said:
        tell(["memory may have run out: a build that is not proved wants 2 GB of free memory, and a proof 2 GB for each crate at a time"])


def main(words):
    """Does what words ask for. Where the program cannot be run that is told, with what its build said, and the status is 1."""
    hold_streams()
    end_in_order()
    try:
        return answer(words)
    except NotBuilt as fault:
        pass_on(str(fault).encode(errors="replace"))
        tell(["the program could not be built"])
        tell_if_memory(fault)
    except (BadWords, NoProgram) as fault:
        tell([str(fault)])
    except BrokenPipeError:
        with contextlib.suppress(OSError):
            os.dup2(os.open(os.devnull, os.O_WRONLY), 1)
    except OSError as error:
        is_lacking = error.filename == "rt" and isinstance(error, FileNotFoundError)
        tell(["the toolchain is not there: rt is not on the path" if is_lacking else f"{error.filename or 'the program'}: {error.strerror}"])
        if error.errno == errno.ENOSPC and "XDG_CACHE_HOME" not in (error.strerror or ""):
            tell(["make room, or name another folder for builds by XDG_CACHE_HOME, and for files that are in use by TMPDIR"])
    except KeyboardInterrupt:
        return end_as(-signal.SIGINT)
    return FAILED
