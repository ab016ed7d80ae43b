"""Why a recording is not in the result, in one line, by what its run told."""
import re
import signal

from btfleet.faults import SCRIPT, WORDS

REFUSAL = re.compile(r"-:(?:(\d+:\d+):)? (.*)")


def signal_name(number):
    """The name of a signal."""
    try:
        return signal.Signals(number).name
    except ValueError:
        return f"signal {number}"


def cause_of(status, told, path, shown):
    """The cause in words. The script is called as the words have it, and the recording's own name is left out."""
    text = told.decode(errors="backslashreplace").strip()
    first, *more = text.split("\n")
    if status < 0:
        return f"its run was ended by {signal_name(-status)}" + (f": {first}" if first else "")
    if status == WORDS and first.startswith("usage: "):
        return "the program there does not know run --json: it is an older one"
    if first.startswith(f"{path}: "):
        return "; ".join([first[len(path) + 2:], *more])
    found = REFUSAL.fullmatch(first)
    if found:
        return f"{shown}:{found[1]}: {found[2]}" if found[1] else f"{shown}: {found[2]}"
    return first or f"its run ended with status {status}"


def is_refused_script(status, told):
    """Whether a run refused the script itself."""
    return status == SCRIPT and told.startswith(b"-:")
