"""How what a script prints is merged over recordings: the law of each map, and the maps that END prints. Or why it
cannot be merged exactly.

What is asked of each recording is the script itself, but for the numbers of `print` in END: there all rows are wanted,
and nothing divided, since the greatest rows of all recordings together need not be among the greatest of each.
"""
import re
from dataclasses import dataclass, field

from btfleet import ends
from btfleet.counted import AVERAGE, MOST_MAPS, SUM, can_be_doubled, free_name, with_counts
from btfleet.laws import law_of, signed
from btreplay.script import ADD, SET, end_of, parts_of, probes_of
from btreplay.tokens import WORD, offset_of, place_of

MOST_WRITTEN = (1 << 64) - 1
MOST_STEPS = 1000
LEAST_OR_MOST = {"min", "max"}
# Each fault, with its text and how it is mended.
FAULTS = {
    "M1": ("average under a key that changes",
           "its sum and its count are asked one behind the other, and both want the key: keep what changes in a variable "
           "first, as $key = ..; {map}[$key] = avg(..)"),
    "M2": ("numbers and strings cannot be merged",
           "count and add by count() and sum(), which add up over recordings; where {map} only keeps something for "
           "later, write END {{ clear({map}); }}"),
    "M3": ("print before the end",
           "a moment of one recording has no counterpart in another: print {map} in END, or leave the print out, since "
           "each map is printed at the end"),
    "M4": ("print under a condition",
           "all recordings have to print alike: write print({map}) in END in no block of its own, without a predicate, "
           "and before loops, return and exit"),
    "M5": ("map changed behind its print",
           "let END do no more with {map} behind print({map}) than print, clear and zero it"),
    "M6": ("zero of a least or greatest number",
           "it would stand as the number 0 beside those of other recordings: write clear({map})"),
    "M7": ("unknown aggregation",
           "count, sum, min, max, avg, hist and lhist can be merged: {map} takes another one"),
    "M8": ("too many maps for averages",
           "an average is asked by two maps, its sum and its count, and a run has 32 at most: ask for some of them alone"),
}
REFUSED = re.compile(rb"-:(\d+):(\d+):")
# The span of each recording in nanoseconds, which a comparison asks for.
SPAN = "END {{ {name} = max(elapsed); }}"


@dataclass(frozen=True)
class Fault:
    """Why a script cannot be merged: its code and text, the offset where that stands, and the remedy."""

    code: str
    text: str
    at: int
    remedy: str


@dataclass(frozen=True)
class Printed:
    """A print of a map in END: its name, how many rows, where 0 stands for all, and by what they are divided."""

    name: str
    top: int = 0
    div: int = 1


@dataclass(frozen=True)
class Plan:
    """How a script is asked and its answers are merged: the text that is asked, the law of each map by its name,
    none for those that have no rows at the end, in the order in which that text names them first, and the prints of
    END in their order. `counts` has for each map that is asked with a count the name of that, `averages` those of them
    whose numbers are averages, `aggregations` the word of each map, and `span` the map with a recording's length."""

    script: str
    laws: dict
    prints: list
    counts: dict = field(default_factory=dict)
    averages: frozenset = frozenset()
    aggregations: dict = field(default_factory=dict)
    span: str = ""
    source: str = ""
    asked: object = None

    def beside(self):
        """The names of the maps that only stand beside others."""
        return {*self.counts.values(), self.span}

    def in_script(self, told):
        """What a run told, with the place in the script where it has that of the text that was asked."""
        found = REFUSED.match(told)
        if not found or not self.asked:
            return told
        at = self.asked.origin(offset_of(self.script, int(found[1]), int(found[2])))
        return b"-:%d:%d:" % place_of(self.source, at) + told[found.end():]


def number_of(text):
    """The number that a token spells, with - in front or not; none where it is none."""
    digits = text.lstrip("-").replace("_", "")
    base = 16 if re.match("0[xX]", digits) else 8 if digits[:1] == "0" else 10
    try:
        found = int(digits, base)
    except ValueError:
        return None
    return signed(-found if text[:1] == "-" else found) if found <= MOST_WRITTEN else None


def assigned(use):
    """The tokens of the aggregation that a use assigns to its map, from its word to its closing bracket."""
    tokens = use.probe.tokens
    place = next(place for place, token in enumerate(tokens) if token.at == use.mention.at) + 1
    if tokens[place].text == "[":
        place = end_of(tokens, place)
    return tokens[place + 1:end_of(tokens, place + 2)]


def bounds_of(call):
    """The least, the greatest and the step of a call of `lhist`, by its tokens; none where they make no histogram,
    so that the program refuses it."""
    found = [number_of(part.replace(" ", "")) for part in parts_of(call[2:-1])[1:]]
    if len(found) != 3 or None in found:
        return None
    least, most, step = found
    return found if least < most and step >= 1 and -(-(most - least) // step) <= MOST_STEPS else None


def word_in(uses):
    """The word of the aggregation that a map holds, which is empty for numbers and strings, and the tokens of its call."""
    call = next((assigned(use) for use in uses if use.mention.does == ADD), None)
    return (call[0].text, call) if call else ("", None)


def law_in(uses):
    """The word of the aggregation that a map holds, which is empty for numbers and strings, and its law, if it has
    one. An average has that of its sum."""
    word, call = word_in(uses)
    if not call:
        return "", None
    bounds = bounds_of(call) if word == "lhist" else ()
    return word, law_of(SUM if word == AVERAGE else word, bounds) if bounds is not None else law_of("hist")


def is_unknown(use):
    """Whether a use assigns what looks like an aggregation and is none of those that are known."""
    tokens = assigned(use) if use.mention.does == SET else []
    return len(tokens) > 1 and tokens[0].kind == WORD and tokens[1].text == "("


def changes_key(use):
    """Whether a use adds to a map under a key that is not the same a second time."""
    tokens = use.probe.tokens
    place = next(place for place, token in enumerate(tokens) if token.at == use.mention.at)
    return use.mention.does == ADD and not can_be_doubled(tokens, place)


def has_rows(uses):
    """Whether a map may have rows at the end or at a print, by its uses."""
    return any(use.call == "print" for use in uses) or not ends.is_emptied(uses)


def fault_in(uses, word, law):
    """The code of the first fault of a map, by its uses, its aggregation's word and law, and the use where it is; or
    none."""
    prints = [use for use in uses if use.call == "print"]
    faults = [("M7", use) for use in uses if is_unknown(use)]
    if law is None and not faults and has_rows(uses):
        is_held = next(use for use in uses if use.mention.does in ends.ADDING or use.call == "print")
        return "M7" if word else "M2", is_held
    faults += [("M1", use) for use in uses if word == AVERAGE and has_rows(uses) and changes_key(use)]
    faults += [("M3", use) for use in prints if not ends.runs_at_end_alone(use)]
    faults += [("M4", use) for use in prints if not use.is_sure]
    faults += [("M5", use) for use in [ends.changed_printed(uses)] if use]
    faults += [("M6", use) for use in uses if use.call == "zero" and word in LEAST_OR_MOST]
    return min(faults, key=lambda fault: fault[1].mention.at, default=None)


def fault_of(name, uses, word, law):
    """The first fault of a map with its text and remedy, or none."""
    found = fault_in(uses, word, law)
    if not found:
        return None
    code, use = found
    text, remedy = FAULTS[code]
    return Fault(code, text, use.mention.at, remedy.format(map=name))


def printed_of(use):
    """The print that a use is; none where its numbers are none, so that the program refuses it."""
    numbers = [number_of(text) for text in use.arguments]
    if None in numbers or len(numbers) > 2:
        return None
    found = Printed(use.mention.name, *numbers)
    return found if found.top >= 0 and found.div >= 1 else None


def without_numbers(script, uses):
    """A script without the numbers of these prints: blanks stand in their place, so that all else keeps its place."""
    letters = list(script)
    for use in uses:
        if printed_of(use) and use.span:
            begin, end = use.span
            letters[begin:end] = [letter if letter == "\n" else " " for letter in letters[begin:end]]
    return "".join(letters)


def uses_of(script):
    """The uses of each map of a script by its name, in the order of their first, and all prints."""
    uses, prints = {}, []
    for probe in probes_of(script):
        for use in ends.uses_in(probe):
            uses.setdefault(use.mention.name, []).append(use)
            prints += [use] if use.call == "print" else []
    return uses, prints


def counts_of(uses, laws, with_sums):
    """The names of the counts that are asked beside maps, and of the maps whose numbers are averages. Of sums a count
    is asked where that is wanted and can be."""
    counts, averages = {}, set()
    for name, (word, _) in laws.items():
        adding = [use for use in uses[name] if use.mention.does == ADD]
        if not has_rows(uses[name]) or any(assigned(use)[0].text != word for use in adding):
            continue
        if word == AVERAGE or with_sums and word == SUM and not any(map(changes_key, adding)):
            counts[name] = free_name(f"{name}_count", {*uses, *counts.values()})
            averages |= {name} if word == AVERAGE else set()
    return counts, averages


def too_many(uses, averages):
    """The fault of a script that has more maps than a run, since some of them are averages; or none."""
    if len(uses) > MOST_MAPS or len(uses) + len(averages) <= MOST_MAPS:
        return None
    name = min(averages, key=lambda name: uses[name][0].mention.at)
    text, remedy = FAULTS["M8"]
    return Fault("M8", text, uses[name][0].mention.at, remedy)


def plan_of(script, with_spans=False):
    """How the answers to a script's text are merged, or its first fault. With spans each recording is asked for its
    length, and for the counts behind its sums."""
    uses, prints = uses_of(script)
    laws = {name: law_in(found) for name, found in uses.items()}
    faults = [fault for fault in (fault_of(name, uses[name], *laws[name]) for name in uses) if fault]
    counts, averages = counts_of(uses, laws, with_spans)
    if with_spans and len(uses) + len(counts) >= MOST_MAPS:
        counts, averages = counts_of(uses, laws, False)
    faults += [fault for fault in [too_many(uses, averages)] if fault]
    if faults:
        return min(faults, key=lambda fault: fault.at)
    span = free_name("@btfleet_span", {*uses, *counts.values()}) if with_spans else ""
    asked = with_counts(without_numbers(script, prints), counts, averages)
    text = asked.text + ("\n" + SPAN.format(name=span) if span else "")
    beside = {**{count: law_of("count") for count in counts.values()}, **({span: law_of("max")} if span else {})}
    ordered = {name: laws[name][1] if name in laws else beside[name] for name in uses_of(text)[0]}
    shown = [(use, [Printed(counts[use.mention.name])] if use.mention.name in counts else []) for use in prints]
    return Plan(text, ordered, [one for use, more in shown for one in [printed_of(use) or Printed(use.mention.name), *more]], counts,
                frozenset(averages), {name: word for name, (word, _) in laws.items()}, span, script, asked)


def exit_in(script):
    """The offset of the first call of `exit` in a probe that is not of END alone; none where there is none."""
    return min((at for probe in probes_of(script) if probe.kinds() != {"END"} for word, at in probe.calls if word == "exit"), default=None)


def told_fault(fault, script, shown):
    """A fault as the program tells its own, for a script that is called so."""
    line, column = place_of(script, fault.at)
    return f"{shown}:{line}:{column}: {fault.code} {fault.text}"
