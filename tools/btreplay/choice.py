"""Which program answers: the one place where this command, btreport and btfleet choose it."""
import contextlib
from dataclasses import dataclass

from btreplay import proved, unproved
from btreplay.places import INSTALLED, is_checkout
from btreplay.running import tell as told_by_btreplay
from btreplay.words import Answering

IS_UNPROVED = "this build is not proved; ./btreplay prove makes the program that is"


def add_choice(parser):
    """Gives a tool's parser of words those that choose the program; the choice is its `answering`."""
    choice = parser.add_mutually_exclusive_group()
    choice.add_argument("--proved", dest="answering", action="store_const", const=Answering.PROVED, default=Answering.ANY,
                        help="answer by the proved program alone")
    choice.add_argument("--unproved", dest="answering", action="store_const", const=Answering.UNPROVED, default=Answering.ANY,
                        help="answer by the build that is checked as it runs, as where there is no proved program")


class NoProgram(Exception):
    """Why there is no program to answer."""


@dataclass(frozen=True)
class Chosen:
    """A program that answers: its path, and whether it is proved."""

    path: str
    is_proved: bool

    def version(self):
        """Which program it is, in words."""
        return proved.version() if self.is_proved else f"btreplay at {proved.commit()}, by a build that is not proved"


@contextlib.contextmanager
def chosen(answering=Answering.ANY, tell=told_by_btreplay):
    """The program that answers, while it is used: the proved one where it is there and current, else the build that is checked as it runs, made where
    it is not there, of which a line is told. It raises NoProgram where the one that is asked for cannot answer, NotBuilt where a build fails, and OSError."""
    if not is_checkout():
        if answering is Answering.UNPROVED:
            raise NoProgram("--unproved is for a checkout of the repository; the program that is installed here is proved")
        yield Chosen(str(INSTALLED), True)
        return
    if answering is not Answering.UNPROVED and proved.is_current():
        yield Chosen(str(proved.PROGRAM), True)
        return
    if answering is Answering.PROVED:
        raise NoProgram("the program is not proved and built here, or its sources are newer; ./btreplay prove does that")
    tell([IS_UNPROVED])
    with unproved.build() as path:
        yield Chosen(str(path), False)
