"""What is done where a recording is: what one answers to a script. A worker finds this in its own copy of btfleet, so what is sent to it are the script
and paths. A worker finds this module with the folder of btfleet on its path, so nothing of btrecord's is imported here, some of whose modules have the
same names.
"""
import contextlib
import importlib.util
import os
from dataclasses import dataclass

from btfleet.child import Child, Ended, Limits
from btfleet.faults import NONE_IN
from btfleet.recording import NoRecording, Recording, look
from btreplay import proved, unproved
from btreplay.choice import NoProgram, chosen
from btreplay.compiled import NotBuilt
from btreplay.places import TOOLS, is_checkout
from btreplay.words import Answering

REPLACED = "it was replaced or changed since it was looked at"


@dataclass(frozen=True)
class Question:
    """What is asked of a recording: the script, the path, the recording as it was looked at, which program is to answer, and the program, where
    that is known."""

    script: bytes
    path: str
    seen: Recording
    answering: Answering = Answering.ANY
    program: str = ""


@contextlib.contextmanager
def program_for(question):
    """The path of the program that is run, by the choice of btreplay; NoProgram where the one that is asked for is not here."""
    if question.program:
        yield question.program
        return
    with chosen(question.answering, lambda lines: None) as found:
        yield found.path


def what_it_is(path):
    """Lines that say what stands in the place of the recording at a path, where that is known."""
    spec = importlib.util.spec_from_file_location("unread", TOOLS / "btrecord" / "unread.py")
    unread = importlib.util.module_from_spec(spec)
    spec.loader.exec_module(unread)
    return "".join(f"{line}\n" for line in unread.in_place_of_recording(path, unread.begin_of(path))).encode(errors="surrogateescape")


def version(answering):
    """The version of the program here that answers, in words: with what it was proved, or which sources a build is made from that is not."""
    if is_checkout() and (answering is Answering.UNPROVED or answering is Answering.ANY and not proved.is_current()):
        return f"the build that is not proved, of sources {unproved.checksum()[:12]}"
    return proved.version()


class Run:
    """One question, which is answered in the thread that calls `answer` and can be ended from another one."""

    def __init__(self, question, limits=Limits(), folders=()):
        self.question, self.limits, self.folders = question, limits, folders
        self.child, self.why = None, ""

    def end(self, why):
        """Ends it, for a reason."""
        self.why = self.why or why
        if self.child:
            self.child.end(self.why)

    def is_replaced(self):
        """Whether the recording is another one than was looked at."""
        return look(self.question.path, self.folders) != self.question.seen

    def run(self, program):
        """Runs a program over the recording. The script's name is `-` in what is told."""
        handle = os.memfd_create("script", 0)
        with os.fdopen(handle, "wb", buffering=0) as file:
            file.write(self.question.script)
            name = f"/dev/fd/{handle}"
            words = [program, "run", "--serial", "--json", name, self.question.path]
            self.child = Child(words, self.limits, (handle,))
            if self.why:
                self.child.end(self.why)
            ended = self.child.ended()
        told = ended.told.replace(f"{name}:".encode(), b"-:")
        if ended.status == NONE_IN:
            told += what_it_is(self.question.path)
        return Ended(ended.status, ended.printed, told, ended.why)

    def answer(self):
        """How the run ended. Where nothing could be run, or the recording is another one, only why is told."""
        try:
            if self.is_replaced():
                return Ended(-1, b"", b"", REPLACED)
            with program_for(self.question) as program:
                ended = self.run(program)
            return Ended(-1, b"", b"", REPLACED) if not ended.why and self.is_replaced() else ended
        except (NoProgram, NoRecording) as fault:
            return Ended(-1, b"", b"", str(fault))
        except NotBuilt as fault:
            return Ended(-1, b"", b"", f"the program could not be built there: {str(fault)[-1000:]}")
        except OSError as error:
            return Ended(-1, b"", b"", f"{error.filename or 'the program'}: {error.strerror}")
