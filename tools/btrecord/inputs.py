"""Whether an output is a file that is read: the same device and number, by whatever names and links. A recording cannot be made again."""
import os
import stat
import sys

STANDARD = "-"


def same_file_of(path):
    """What tells a file or a device of blocks apart from all others; none for what keeps nothing, as a pipe, or is not there."""
    try:
        found = os.fstat(sys.stdout.fileno()) if path == STANDARD else os.stat(path)
    except (OSError, ValueError, AttributeError):
        return None
    return (found.st_dev, found.st_ino) if stat.S_ISREG(found.st_mode) or stat.S_ISBLK(found.st_mode) else None


def overwritten(output, inputs):
    """Why an output cannot go to where it is told to, as it would be written over one of the files that are read; nothing where it can.

    `-` as the output is standard output; a file that is not there is none of the others."""
    target = same_file_of(output)
    found = next((path for path in inputs if target is not None and path != STANDARD and same_file_of(path) == target), None)
    if found is None:
        return ""
    if output == STANDARD:
        return f"standard output is {found}, which is read, and would be written over: name another file"
    which = "is read" if output == found else f"is the same file as {found}, which is read"
    return f"{output} {which}, and would be written over: name another file by -o"
