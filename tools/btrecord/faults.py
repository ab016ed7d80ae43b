"""Why a command did not do its work, with the status that tells the cause.

README.md and docs/btrecord.1 have the table of statuses.
"""
from unread import why_unread

WORDS = 1
REFUSED = 2
RECORDING = 3
READ = 4
WRITE = 5
MEMORY = 6


class Refused(Exception):
    """What is told where a command could not be done, and the status of the program."""

    def __init__(self, text, status=REFUSED):
        super().__init__(text)
        self.status = status


class Ended(Exception):
    """A signal came while there was nothing yet, or nothing more, that could be kept."""

    def __init__(self, number, name):
        super().__init__(f"{name} ended it, and nothing was written")
        self.status = 128 + number


def of_file(path, error, status):
    """A fault of the system with a file; why one cannot be read is told as by all tools."""
    return Refused(f"{path}: {why_unread(path) if status == READ else error.strerror or error}", status)
