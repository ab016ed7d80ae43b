"""The tracepoints that tracefs has, and those that words choose."""
import difflib
import fnmatch
import os
import re
from dataclasses import dataclass

from container import format_of
from faults import WORDS, Refused

NAME = re.compile(r"[A-Za-z0-9_*-]+:[A-Za-z0-9_*]+")
KINDS = ("tracepoint:", "t:", "rawtracepoint:", "rt:")
MOST_HINTS = 3


@dataclass(frozen=True)
class Chosen:
    """The tracepoints to record, as pairs of system and event, with their formats in the same order, and why others are left out."""

    pairs: list
    formats: list
    left_out: dict


def all_pairs(top):
    """All tracepoints of a tracefs, as pairs of system and event, by name."""
    events = f"{top}/events"
    return [(system, event) for system in sorted(os.listdir(events)) if os.path.isdir(f"{events}/{system}")
            for event in sorted(os.listdir(f"{events}/{system}")) if os.path.exists(f"{events}/{system}/{event}/format")]


def near(word, pairs):
    """The names of tracepoints that are most like a word: those of its event in other systems first."""
    system, _, event = word.rpartition(":")
    same = [f"{s}:{e}" for s, e in pairs if e == event or not system and s == event]
    if same and same[0].startswith(f"{event}:") and not system:
        same = [f"{event}:*"]
    by_event = {}
    for s, e in pairs:
        by_event.setdefault(e, []).append(f"{s}:{e}")
    names = [f"{s}:{e}" for s, e in pairs] if system else list(by_event)
    likely = difflib.get_close_matches(word if system else event, names, MOST_HINTS, 0.6)
    found = same + (likely if system else [name for e in likely for name in by_event[e]])
    return list(dict.fromkeys(found))[:MOST_HINTS]


def nearest(word, pairs):
    """A word that names tracepoints, and of another one the nearest name, or the word itself."""
    return word if NAME.fullmatch(word) and matching(word, pairs) else (near(word, pairs) + [word])[0]


def hint(word, pairs):
    """What a word that names no tracepoint may have meant, as the end of a sentence, or nothing."""
    if "," in word:
        parts = [part.strip() for part in word.split(",") if part.strip()]
        return "; give each tracepoint as a word of its own: " + " ".join(nearest(part, pairs) for part in parts)
    for kind in KINDS:
        if word.startswith(kind) and word.count(":") > 1:
            rest = word[len(kind):]
            names = [rest] if NAME.fullmatch(rest) and matching(rest, pairs) else near(rest, pairs)
            return f"; leave {kind} out" + (f": {' or '.join(names)}" if names else "")
    names = near(word.replace("/", ":"), pairs)
    return f"; did you mean {' or '.join(names)}?" if names else ""


def matching(pattern, pairs):
    """The tracepoints that a pattern names. `*` stands for any letters."""
    system, _, event = pattern.partition(":")
    return [pair for pair in pairs if fnmatch.fnmatchcase(pair[0], system) and fnmatch.fnmatchcase(pair[1], event)]


def chosen(top, patterns):
    """What patterns choose of a tracefs. Those without the means to enable them, or whose format no recording can hold, are left out."""
    pairs = all_pairs(top)
    found = {}
    for pattern in patterns:
        if not NAME.fullmatch(pattern):
            raise Refused(f"{pattern} is not of the form SYSTEM:EVENT{hint(pattern, pairs)}", WORDS)
        named = matching(pattern, pairs)
        if not named:
            raise Refused(f"{pattern}: the kernel has no such tracepoint{hint(pattern, pairs)}", WORDS)
        found.update(dict.fromkeys(named))
    kept, left_out = {}, {}
    for system, event in found:
        folder = f"{top}/events/{system}/{event}"
        try:
            with open(f"{folder}/format", "rb") as file:
                format = format_of(system.encode(), file.read())
        except (OSError, Refused) as fault:
            left_out[f"{system}:{event}"] = getattr(fault, "strerror", None) or str(fault)
            continue
        if os.path.exists(f"{folder}/enable"):
            kept[system, event] = format
        else:
            left_out[f"{system}:{event}"] = "it can't be enabled"
    return Chosen(list(kept), list(kept.values()), left_out)
