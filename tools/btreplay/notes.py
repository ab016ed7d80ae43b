"""What a user would want to know of a script that is accepted, beside what it prints."""
import difflib
import time

from btreplay.order import reasons_of
from btreplay.recorded import head_of, mapped, matcher, without_events
from btreplay.script import ADD, CHANGE, SET
from btreplay.tokens import place_of
from btreplay.unseen import addresses, unseen_texts

# How long a recording is looked through for events that a script names.
SECONDS = 3
UNITS = {"s": 1_000_000_000, "ms": 1_000_000, "us": 1_000}


def about_order(probes, head):
    """One line where what the script prints depends on the order of CPUs: none for a recording of one CPU."""
    if head is not None and head.cpus == 1:
        return []
    reasons = reasons_of(probes)
    if reasons:
        return [f"{', and '.join(reasons)}, so the answer depends on the order of CPUs; run --serial takes all events by their times"]
    if head and head.version == 2:
        return ["the answer is the same in every order of CPUs; the lines of lost events alone come as each CPU gets to them, with run --serial by their times"]
    return []


def never_set(probes, text):
    """A line for each map that the script uses and that no probe sets: with its place, and the name that may be meant."""
    mentions = [mention for probe in probes for mention in probe.mentions]
    is_set = dict.fromkeys(mention.name for mention in mentions if mention.does in (SET, CHANGE, ADD))
    lines, told = [], set()
    for mention in mentions:
        if mention.name not in is_set and mention.name not in told:
            told.add(mention.name)
            near = difflib.get_close_matches(mention.name, is_set, 1, 0.6)
            line, column = place_of(text, mention.at)
            lines.append(f"{line}:{column}: no probe sets {mention.name}, so there is nothing in it" + (f"; did you mean {near[0]}?" if near else ""))
    return lines


def period_of(point):
    """The period of `interval:UNIT:NUMBER` in nanoseconds, or none where it has none."""
    parts = point.split(":")
    digits = parts[2].replace("_", "") if len(parts) == 3 else ""
    if not digits.isdigit() or int(digits) == 0:
        return None
    return 1_000_000_000 // int(digits) if parts[1] == "hz" else UNITS[parts[1]] * int(digits) if parts[1] in UNITS else None


def idle_points(probes, text, data, head):
    """A line for each point that no event of the recording has, or whose first tick is behind the recording's end."""
    points = [(point, at) for probe in probes for point, at in probe.points if ":" in point]
    fitting = {at: {format.layout.number for format in head.formats if matcher(point)(format)} for point, at in points if point[0] == "t"}
    named = {at: numbers for at, numbers in fitting.items() if numbers}
    idle = without_events(data, head, named, time.monotonic() + SECONDS)
    lines = []
    for point, at in points:
        line, column = place_of(text, at)
        if at in idle:
            lines.append(f"{line}:{column}: the recording has no event of {point}")
        elif point[0] == "i" and (period_of(point) or 0) > head.span:
            lines.append(f"{line}:{column}: {point} has no tick: the recording spans {head.span / 1e9:.6f} s")
    return lines


def notes_of(text, probes, recording, name, is_ordered):
    """All lines for a script that runs over a recording: each with the script's name where it has a place."""
    with mapped(recording) as data:
        head = head_of(data) if data is not None else None
        placed = never_set(probes, text)
        if head:
            placed += idle_points(probes, text, data, head) + unseen_texts(probes, text, data, head, time.monotonic() + SECONDS)
            placed += addresses(probes, text, head)
    return ([] if is_ordered else about_order(probes, head)) + [f"{name}:{line}" for line in placed]
