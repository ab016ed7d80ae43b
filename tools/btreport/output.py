"""Where the page goes: tested before anything is asked, and written whole or not at all."""
import contextlib
import os
import sys

import btreport.faults  # noqa: F401  (it has the modules of the recorder found)
from btreport.faults import WORDS, WRITE, Refused, of_file
from output import Output

ENDING = ".btr"


def stem(recording):
    """The name of a recording without its folder and ending."""
    name = os.path.basename(recording)
    return name[: -len(ENDING)] if name.endswith(ENDING) and name != ENDING else name


def at_default(recording):
    """The name of the page where none is given: the recording's, in the caller's folder. What is there already
    stays."""
    path = f"{stem(recording) or 'report'}.html"
    if os.path.lexists(path):
        raise Refused(f"{path} is there already; name it by -o to put the report in its place", WORDS)
    return path


@contextlib.contextmanager
def written(path):
    """Hands out what writes the page to a path, once it is whole; `-` is standard output."""
    if path == "-":
        yield write_to_standard
        return
    with Output(path) as output:

        def write(contents):
            with output.writing() as file:
                file.write(contents)

        yield write


def write_to_standard(contents):
    """Writes the page to standard output."""
    if not sys.stdout:
        raise Refused("standard output is closed", WRITE)
    try:
        sys.stdout.buffer.write(contents)
        sys.stdout.buffer.flush()
    except BrokenPipeError:
        raise
    except OSError as error:
        raise of_file("standard output", error, WRITE) from error
