"""The foot of a report: the commands that ask the same, what the recording is by its checksum, and what is proved."""
import hashlib
import shlex

from btreplay.places import is_checkout
from btreport.faults import READ, of_file
from btreport.markup import element, escaped, text
from btreport.panel import Panel
from btreport.running import path_of

CHUNK = 1 << 20


def checksum(path):
    """The SHA-256 of a file."""
    found = hashlib.sha256()
    try:
        with open(path, "rb") as file:
            for part in iter(lambda: file.read(CHUNK), b""):
                found.update(part)
    except OSError as error:
        raise of_file(path, error, READ) from error
    return found.hexdigest()


def commands(path, asked):
    """The commands that print what the page shows. A script of the page's own is first written into a file of its
    name."""
    program = "./btreplay" if is_checkout() else "btreplay"
    names = [one.name if "." in one.name else f"{one.name}.bt" for one in asked]
    return "\n".join(
        f"{program} run --serial --json {shlex.quote(name)} {shlex.quote(path_of(path))}" for name in names
    )


def foot(path, asked, version, is_proved):
    """The foot."""
    what = element(
        "dl",
        text("dt", "program"),
        text("dd", version),
        text("dt", "SHA-256 of the recording"),
        text("dd", checksum(path)),
    )
    if is_proved:
        told = text("p", "Proved: what the program printed is what the scripts mean over the recording.")
    else:
        told = text("p", "The build that printed this is not proved.", class_="red")
    told += text(
        "p",
        "Not proved, but tested: this drawing, and the tools that make and cut recordings. Its numbers are those that "
        "the program printed; the drawing adds where things stand, and the names of system calls and errors. What a "
        "recording does not hold, no script can know.",
    )
    return Panel(
        "foot",
        "How this was made",
        what
        + told
        + text("p", "Each script of this page, in a file of its name, prints the same again by:", class_="note")
        + element("pre", escaped(commands(path, asked))),
    )
