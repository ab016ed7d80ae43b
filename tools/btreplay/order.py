"""Whether what a script prints depends on the order in which the events of different CPUs are taken.

docs/LANGUAGE.md says under "What comes in which order" what is promised without --serial: a script prints the same in every order where
it only adds to aggregations, or keeps the CPU in the keys of its other maps, and prints at the end. What else it does counts here:

- A map of numbers or strings that the bodies of events or ticks both write and read, `delete`, `clear`, `++` and `+=` among the writes, and
  that not all of them keep by `cpu`. Where all do, each CPU sees its own alone. A predicate reads as well.
- One that they write, and that no such body reads: what was written last stays, unless all of them write one constant and nothing else.
- An aggregation that they both change and read, unless all of them keep it by `cpu`: a read adds up what all CPUs have gathered by then.
- `print` of a map, `printf`, `exit`, and `clear` or `zero` of an aggregation in the body of an event, and all but `printf` in that of a tick.

Ticks come one behind another, so a map that no event's body mentions does not count. `BEGIN` and `END` run before and behind all events, so
what they do counts for nothing; and so does a map in a comment or in a string.
"""
from dataclasses import dataclass

from btreplay.script import ADD, CHANGE, CLEAR, DELETE, PRINT, READ, SET

WRITES = {SET, CHANGE, DELETE, CLEAR}


@dataclass(frozen=True)
class Use:
    """A mention of a map in the body of an event or a tick: by the number of the probe, whether it is a tick's, and the mention."""

    probe: int
    is_tick: bool
    mention: object

    def keeps_to_its_cpu(self):
        """Whether it reaches what its own CPU wrote alone."""
        return not self.is_tick and self.mention.does != CLEAR and "cpu" in self.mention.key


def uses_of(probes):
    """The mentions of each map in bodies of events and ticks, by the maps' names, in the order of the script. Maps of ticks alone are left out."""
    found = {}
    for number, probe in enumerate(probes):
        kinds = probe.kinds()
        for is_tick in [kind == "interval" for kind in ("tracepoint", "interval") if kind in kinds]:
            for mention in probe.mentions:
                found.setdefault(mention.name, []).append(Use(number, is_tick, mention))
    return {name: uses for name, uses in found.items() if not all(use.is_tick for use in uses)}


def is_aggregation(name, probes):
    """Whether a map holds an aggregation: the script assigns one to it."""
    return any(mention.name == name and mention.does == ADD for probe in probes for mention in probe.mentions)


def fault_of(uses):
    """Why the numbers or strings of a map depend on the order, or nothing where they do not."""
    writes = [use for use in uses if use.mention.does in WRITES]
    reads = [use for use in uses if use.mention.does in (READ, CHANGE)]
    if not writes or all(use.keeps_to_its_cpu() for use in writes + reads):
        return ""
    setting = {use.probe for use in writes if use.mention.does in (SET, CHANGE)}
    if any(use.probe != probe for use in reads for probe in setting):
        return "set in one probe and read in another"
    if reads and all(use.mention.does == CHANGE for use in writes + reads):
        return "changed by all CPUs at once, so that changes can be lost"
    if reads:
        return "set and read by all CPUs"
    constants = {use.mention.constant for use in writes}
    if len(constants) == 1 and "" not in constants and all(use.mention.does == SET for use in writes):
        return ""
    return "set by all CPUs, and keeps what was set last"


def fault_of_reads(uses):
    """Why what is read of an aggregation depends on the order, or nothing where it does not."""
    reads = [use for use in uses if use.mention.does == READ]
    changes = [use for use in uses if use.mention.does in (ADD, CLEAR)]
    if not reads or not changes or all(use.keeps_to_its_cpu() for use in reads + changes):
        return ""
    return "read before all CPUs have added"


def faults_of_maps(probes):
    """The maps whose numbers or strings depend on the order, by why they do."""
    found = {}
    for name, uses in uses_of(probes).items():
        why = fault_of_reads(uses) if is_aggregation(name, probes) else fault_of(uses)
        if why:
            found.setdefault(why, []).append(name)
    return found


def faults_of_output(probes):
    """What else depends on the order: what is printed, emptied or ended before the end."""
    found = {}
    for name, uses in uses_of(probes).items():
        does = {use.mention.does for use in uses}
        if PRINT in does:
            found.setdefault("printed before the end", []).append(name)
        elif CLEAR in does and is_aggregation(name, probes):
            found.setdefault("emptied before the end", []).append(name)
    calls = {(kind, word) for probe in probes for kind in probe.kinds() for word, _ in probe.calls}
    lines = ["lines are printed by events of all CPUs"] if ("tracepoint", "printf") in calls else []
    ends = ["exit() is called before the end"] if calls & {("tracepoint", "exit"), ("interval", "exit")} else []
    return found, lines + ends


def named(names):
    """Names of maps as a part of a sentence, with the word that follows them."""
    names = list(dict.fromkeys(names))
    return ", ".join(names[:-1]) + (" and " if len(names) > 1 else "") + names[-1] + (" is" if len(names) == 1 else " are")


def reasons_of(probes):
    """Why what the probes print depends on the order of CPUs, as sentences; none where it does not."""
    maps = faults_of_maps(probes)
    output, others = faults_of_output(probes)
    return [f"{named(names)} {why}" for found in (maps, output) for why, names in found.items()] + others
