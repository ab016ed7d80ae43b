"""Why a command did not do its work, with the status that tells the cause: those of btrecord, and one for the
program."""
import btreplay.recorded  # noqa: F401  (it has the modules of the recorder found)
from faults import MEMORY, READ, RECORDING, WORDS, WRITE, Refused, of_file  # noqa: F401

PROGRAM = WORDS
