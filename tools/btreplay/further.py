"""All faults of a script that can be found: a copy of it is mended where it is refused, and asked for again, until nothing is refused.

What is refused in a part that was put in here, and what may come of it, is not told: each fault that is told is one of the script's own.
"""
import time
from dataclasses import dataclass, field

from btreplay.hints import at_refusal, is_known
from btreplay.mending import Place, is_balanced, remedy_of
from btreplay.recorded import formats_of
from btreplay.script import probes_of
from btreplay.tokens import offset_of

MOST_ROUNDS = 100
SECONDS = 10
# Faults of types, which can come of a part whose kind is not known.
OF_TYPES = ("Y3", "Y4", "Y5", "Y6", "Y7", "Y8", "Y9", "Y10")
OWN = -1


@dataclass(frozen=True)
class Fault:
    """A fault of a script: its offset, the program's code and words, and what is known of the very word, as lines."""

    at: int
    code: str
    text: str
    hints: tuple = ()


@dataclass
class Copy:
    """A copy of a script that is mended: of each of its letters the offset in the script, or OWN for what was put in; and what is in doubt."""

    text: str
    places: list
    doubts: list = field(default_factory=list)
    names: set = field(default_factory=set)
    foreign: list = field(default_factory=list)
    guessed: list = field(default_factory=list)

    def own(self, begin, end):
        """The offsets in the script of a range that come from it."""
        return [place for place in self.places[begin:end] if place != OWN]

    def mend(self, remedy, probe):
        """Does the edits of a remedy, from the last to the first, and notes what is in doubt."""
        for begin, end in remedy.doubts:
            found = [(min(own), max(own)) for own in [self.own(begin, end)] if own]
            self.doubts += found
            # The ; behind a statement belongs to it.
            self.guessed += [(first, last + 1) for first, last in found] if remedy.is_guess else []
        self.names |= remedy.names
        if remedy.is_foreign and probe:
            own = self.own(*probe)
            self.foreign += [(min(own), max(own))] if own else []
        for begin, end, new in sorted(remedy.edits, reverse=True):
            self.text = self.text[:begin] + new + self.text[end:]
            self.places[begin:end] = [OWN] * len(new)

    def is_doubtful(self, at, code):
        """Whether a refusal may come of what was put in."""
        place = self.places[at] if at < len(self.places) else len(self.text)
        if place == OWN or any(begin <= place <= end for begin, end in self.guessed):
            return True
        if code == "Y10" and any(begin <= place <= end for begin, end in self.foreign):
            return True
        if code not in OF_TYPES:
            return False
        here = Place(self.text, at)
        if here.here is None:
            return False
        first, behind = here.statement()
        return any(begin <= place <= end for begin, end in self.doubts) or any(token.text in self.names for token in here.tokens[first:behind])


def is_sure(text, at):
    """Whether a fault is none of the brackets round it: a word of bpftrace's, or an end that lacks braces alone."""
    token = Place(text, at).token
    return is_known(token) and token.text not in ("BEGIN", "END") if token is not None else at >= len(text.rstrip())


def probe_range(text, at):
    """The range of the probe at an offset, or none."""
    for probe in probes_of(text):
        if probe.tokens and probe.tokens[0].at <= at <= probe.tokens[-1].at:
            return probe.tokens[0].at, probe.tokens[-1].at + len(probe.tokens[-1].text)
    return None


def faults_of(script, check, head):
    """All faults of a script's text that can be found, the one that the program refuses first, and the others in the order of their places; and
    whether the search came to the end.

    `check` answers the first refusal of a text, or none; `head` is the recording's, or none."""
    copy, found, is_all = Copy(script, list(range(len(script)))), [], False
    until = time.monotonic() + SECONDS
    for _ in range(MOST_ROUNDS):
        refusal = check(copy.text)
        is_all = refusal is None
        if refusal is None or not refusal.line or time.monotonic() > until:
            break
        at = offset_of(copy.text, refusal.line, refusal.column)
        formats = formats_of(copy.text, at, head)
        if not copy.is_doubtful(at, refusal.code):
            place = copy.places[at] if at < len(copy.places) else len(script)
            found.append(Fault(place, refusal.code, refusal.text, tuple(at_refusal(copy.text, at, head)) if refusal.code[0] in "XP" else ()))
        remedy = remedy_of(copy.text, at, refusal.code, formats)
        before = copy.text
        if refusal.code == "P1" and not is_balanced(copy.text) and not is_sure(copy.text, at):
            break
        if remedy is not None:
            copy.mend(remedy, probe_range(copy.text, at))
        if copy.text == before:
            break
    return found[:1] + sorted(once(found[1:], found[:1]), key=lambda fault: fault.at), is_all


def once(faults, before):
    """Faults without those of a place that was told."""
    told = {fault.at for fault in before}
    return [fault for fault in faults if not (fault.at in told or told.add(fault.at))]
