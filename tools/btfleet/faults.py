"""Why a command did not do all of its work, with the status that tells the cause.

docs/FLEET.md and docs/btfleet.1 have the table of statuses.
"""

WORDS = 1
SCRIPT = 2
NONE_IN = 3
READ = 4
WRITE = 5
MEMORY = 6
SOME_OUT = 7
ENGINE = 8


class Refused(Exception):
    """What is told where nothing could be asked, line by line, and the status of the program."""

    def __init__(self, text, status):
        super().__init__(text)
        self.status = status


class NotMerged(Exception):
    """Why the answer of one recording cannot be merged with the others."""
