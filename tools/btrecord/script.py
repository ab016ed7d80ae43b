"""The tracepoints that a script names."""
import re

from faults import READ, WORDS, Refused, of_file
from unread import in_place_of_script

# Strings and comments are passed over: no probe begins in one.
PASSED = re.compile(r'"(?:\\.|[^"\\\n])*"|//[^\n]*|/\*.*?\*/', re.DOTALL)
PART = re.compile(r"[{}]|(?<![A-Za-z0-9_@$.:])(?:tracepoint|t)\s*:\s*([A-Za-z0-9_*-]+)\s*:\s*([A-Za-z0-9_*]+)")
MOST_BYTES = 65_536


def points(text):
    """The tracepoints of a script's probes, as SYSTEM:EVENT and each once: what stands outside of all blocks."""
    depth, found = 0, {}
    for part in PART.finditer(PASSED.sub(" ", text)):
        if part[0] in "{}":
            depth += 1 if part[0] == "{" else -1
        elif depth == 0:
            found[f"{part[1]}:{part[2]}"] = None
    return list(found)


def points_in(path):
    """The tracepoints that a file names which is a script."""
    try:
        with open(path, "rb") as file:
            text = file.read(MOST_BYTES + 1)
    except OSError as error:
        raise of_file(path, error, READ) from error
    for line in in_place_of_script(path, text):
        raise Refused(line, WORDS)
    if len(text) > MOST_BYTES:
        raise Refused(f"{path}: script too long", WORDS)
    found = points(text.decode("latin-1"))
    if not found:
        raise Refused(f"{path}: the script names no tracepoints", WORDS)
    return found
