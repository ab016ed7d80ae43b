"""What came of the recordings: the merged answers, why some are not among them, what some lost, and the status of the whole."""
import os

from btfleet.answers import answer_of
from btfleet.causes import cause_of, is_refused_script
from btfleet.faults import ENGINE, NONE_IN, SCRIPT, SOME_OUT, NotMerged
from btfleet.fleet import GONE, Unasked
from btfleet.merged import GROUP, Merged

MOST_ALONE, MOST_NAMED = 3, 10


class Result:
    """The merged answers, and by the places of recordings why others are not among them and what was lost. `refusals` has the recordings over which the
    script itself was refused. `least` is how many recordings have to answer."""

    def __init__(self, plan, by_host, shown, least=0):
        self.merged, self.shown, self.least, self.groups = Merged(plan, by_host), shown, least, {}
        self.asked, self.causes, self.losses = [], {}, {}
        self.refusals = set()

    def group(self, groups):
        """Puts hosts into groups, which stay apart in their place."""
        self.groups, self.merged.by_host, self.merged.apart = groups, True, GROUP

    def take(self, asked, found):
        """Takes what a recording answers, or why it does not."""
        if isinstance(found, Unasked) or found.why:
            self.causes[asked.place] = str(found) if isinstance(found, Unasked) else found.why
            return
        if found.status != 0:
            self.causes[asked.place] = cause_of(found.status, self.merged.plan.in_script(found.told), asked.path, self.shown)
            self.refusals.update({asked.place} if is_refused_script(found.status, found.told) else ())
            return
        try:
            answer = answer_of(found.printed, self.merged.plan)
            self.merged.take(asked.place, bytes_as_letters(self.groups.get(asked.host, asked.host)), answer)
            self.losses[asked.place] = answer.lost_events(), sum(answer.lost.values())
        except NotMerged as fault:
            self.causes[asked.place] = str(fault)

    def count(self):
        """How many recordings are in the result."""
        return len(self.asked) - len(self.causes)

    def is_too_few(self):
        """Whether fewer recordings have answered than are wanted."""
        return self.count() < self.least

    def status(self):
        """The status of the whole."""
        if self.is_refused():
            return SCRIPT
        if self.count() and not self.is_too_few():
            return SOME_OUT if self.causes else 0
        return ENGINE if self.causes and all(cause.startswith(GONE) for cause in self.causes.values()) else NONE_IN

    def is_refused(self):
        """Whether the script is refused, for one fault, over each recording."""
        return bool(self.asked) and len(self.refusals) == len(self.asked) and len(set(self.causes.values())) == 1

    def failures(self):
        """The recordings that are not in the result, as pairs of what was asked and why."""
        return [(asked, self.causes[asked.place]) for asked in self.asked if asked.place in self.causes]

    def told_failures(self):
        """Why recordings are not in the result: a line for each, and one for many of one cause."""
        causes = {}
        for asked, cause in self.failures():
            causes.setdefault(cause, []).append(asked.word)
        for cause, words in causes.items():
            if len(words) <= MOST_ALONE:
                yield from (f"{word}: {cause}" for word in words)
            else:
                more = f" and {len(words) - MOST_NAMED:,} more, which --json lists" if len(words) > MOST_NAMED else ""
                yield f"{len(words):,} recordings: {cause}: {', '.join(words[:MOST_NAMED])}{more}"

    def told(self):
        """What is told of the recordings: why some are not in the result, what some lost, and how many are in it."""
        if self.is_refused():
            return []
        lines = list(self.told_failures())
        for asked in self.asked:
            events, updates = self.losses.get(asked.place, (0, 0))
            lines += [f"{asked.word}: {counted(events, 'event')} lost while it was recorded"] if events else []
            lines += [f"{asked.word}: {counted(updates, 'update')} of maps lost"] if updates else []
        few = f", fewer than the {self.least:,} that are wanted" if self.is_too_few() else ""
        return lines + [f"the result has {self.count():,} of {counted(len(self.asked), 'recording')}{few}"]


def counted(count, word):
    """So many of something."""
    return f"{count:,} {word}" + ("" if count == 1 else "s")


def bytes_as_letters(text):
    """A text with a letter for each of its bytes, as strings of scripts have them."""
    return os.fsencode(text).decode("latin-1")
