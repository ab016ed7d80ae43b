"""Panels about system calls: their times as heat maps, who makes them as an icicle, the slowest ones, and those that
fail."""
from btreport.answers import text_of
from btreport.charts import heat_map, icicle
from btreport.markup import axis, element, escaped, folded, number, table, text
from btreport.names import call, error
from btreport.panel import Panel
from btreport.questions import CELLS, SLOWEST

# So many calls have a heat map, and so many processes are in the icicle by their time, and by how many calls they make.
MOST_CALLS = 12
MOST_PROCESSES = 20
# A box of an icicle that is narrower is not seen, and not drawn.
LEAST_BOX = 0.0005
HUES = 6
MOST_ERRORS = 30


def greatest(counts, most):
    """The keys of the greatest values, the greatest first."""
    return sorted(counts, key=lambda key: (-counts[key], key))[:most]


def chosen(answer):
    """The numbers of the calls and of the processes that are asked about once more."""
    calls = greatest(answer.values("@nanoseconds"), MOST_CALLS)
    by_time, by_count = (greatest(answer.values(name), MOST_PROCESSES) for name in ("@nanoseconds_of", "@calls_of"))
    return calls, sorted(set(by_time) | set(by_count))


def heat_maps(totals, details, span):
    """The heat maps of the calls that take most time in all."""
    times, counts = totals.answer.values("@nanoseconds"), totals.answer.values("@calls")
    found = {}
    for (which, cell), buckets in details.answer.values("@took").items():
        found.setdefault(which, []).append((cell, buckets))
    drawn = [
        element(
            "div",
            element(
                "h3",
                escaped(call(which)),
                element("small", f"call {which}: ", number(times[which]), " ns in ", number(counts[which]), " calls"),
            ),
            heat_map(found[which], CELLS, axis(span), "calls"),
            class_="map",
        )
        for which in greatest(times, MOST_CALLS)
        if which in found
    ]
    rest = len(times) - len(drawn)
    told = f" {rest} more calls took less time, and are in the numbers." if rest else ""
    rows = [
        [escaped(call(which)), str(which), number(times[which]), number(counts.get(which, 0))]
        for which in greatest(times, len(times))
    ]
    body = element("div", *drawn, class_="maps") + folded(
        f"the numbers, {len(rows)} calls", table(["call", "number", "ns in all", "calls"], rows)
    )
    return Panel(
        "calls",
        "System calls, by their length",
        body,
        [totals, details],
        "The calls that took most time in all. Names are those of x86-64. Ranges are nanoseconds." + told,
    )


class Boxes:
    """The boxes of an icicle by one measure. A box of a level stands under the one that has it, as wide as its number
    says."""

    def __init__(self, answer, of_process, levels):
        self.of_process = of_process
        self.levels = [answer.values(name) for name in levels]
        self.names = answer.values("@name")
        self.processes = {key[0] for key in self.levels[0]}
        self.all = sum(of_process.values()) or 1

    def name_of(self, key):
        """What a box is called."""
        if len(key) == 1:
            known = [
                self.names[thread] for process, thread in self.levels[0] if process == key[0] and thread in self.names
            ]
            return f"{self.names.get(key[0], known[0] if known else 'process')} {key[0]}"
        if len(key) == 2:
            return f"{self.names.get(key[1], 'thread')} {key[1]}"
        if len(key) == 3:
            return call(key[2])
        return error(key[3]) if key[3] else "ok"

    def kind_of(self, key, place):
        """The colour of a box."""
        if len(key) < 3:
            return f"i{place % HUES + 1}" + (" paler" if len(key) == 2 else "")
        return f"i{key[2] % HUES + 1}" if len(key) == 3 else "failed" if key[3] else "well"

    def under(self, parents, counts, depth):
        """The keys of a level by the boxes above them, each with its place and width: the greatest first."""
        children = {}
        for key, count in counts.items():
            children.setdefault(key[: depth - 1], []).append((count, key))
        found = []
        for parent, at in parents:
            for count, key in sorted(children.get(parent, []), key=lambda child: (-child[0], child[1])):
                width = count / self.all
                if width >= LEAST_BOX:
                    found.append((key, at, width, count))
                at += width
        return found

    def drawn(self, unit):
        """The levels, as an icicle takes them."""
        counts, parents, levels = (
            {(key,): count for key, count in self.of_process.items() if key in self.processes},
            [((), 0.0)],
            [],
        )
        for depth, level in enumerate([counts, *self.levels], 1):
            found = self.under(parents, level, depth)
            levels.append(
                [
                    (at, width, self.name_of(key), f"{self.name_of(key)}: {count} {unit}", self.kind_of(key, place))
                    for place, (key, at, width, count) in enumerate(found)
                ]
            )
            parents = [(key, at) for key, at, _, _ in found]
        rest = max(0.0, 1 - sum(width for _, width, *_ in levels[0])) if levels[0] else 1.0
        if rest >= LEAST_BOX:
            levels[0].append((1 - rest, rest, "other processes", "other processes", "i0"))
        return levels


def switched(drawings):
    """Drawings of which one is seen at a time, by a switch that needs no script."""
    inputs = "".join(
        element("input", type="radio", name="measure", id=f"by_{name}", checked="" if place == 0 else None)
        + text("label", f"by {name}", for_=f"by_{name}")
        for place, (name, _) in enumerate(drawings)
    )
    return element(
        "div", inputs, *(element("div", drawn, class_=f"shown by_{name}") for name, drawn in drawings), class_="switch"
    )


def hierarchy(totals, details):
    """The icicle: process, thread, call, result."""
    measures = [
        ("time", "ns", "@nanoseconds_of", ["@of_thread", "@of_call", "@of_result"]),
        ("count", "calls", "@calls_of", ["@count_of_thread", "@count_of_call", "@count_of_result"]),
    ]
    drawn = [
        (name, icicle(Boxes(details.answer, totals.answer.values(of_process), levels).drawn(unit)))
        for name, unit, of_process, levels in measures
    ]
    return Panel(
        "icicle",
        "Who spends it where: process, thread, call, result",
        switched(drawn),
        [totals, details],
        "Each box stands under the one that it is a part of. Those of no width to be seen are not drawn. The "
        "processes are those that took most time in calls, and those that made most.",
    )


def slow_lines(answer, parts):
    """The lines of the slowest, the slowest first: so many parts that are words, and a last one that may have any
    letters."""
    found = [line[:-1].split(" ", parts) for line in answer.printed()]
    found = [[text_of(part) for part in words[1:]] for words in found if words[0] == "slow"]
    return sorted(found, key=lambda words: (-int(words[1]), int(words[0])))[:SLOWEST]


def slowest(asked):
    """A table of the slowest calls."""
    rows = [
        [
            number(int(begin)),
            number(int(took)),
            escaped(call(int(which))),
            result_of(int(result)),
            escaped(comm),
            escaped(thread),
            escaped(process),
        ]
        for begin, took, process, thread, which, result, comm in slow_lines(asked.answer, 7)
    ]
    return Panel(
        "slow_calls",
        "The slowest system calls",
        table(["began, ns", "took, ns", "call", "result", "thread", "number", "process"], rows),
        [asked],
        "When each began is counted from the start of the recording.",
    )


def result_of(result):
    """What a call answered, with the error's name where it is one."""
    return number(result) + (f" {escaped(error(-result))}" if -4095 <= result < 0 else "")


def errors(asked):
    """A table of the calls that fail, by error."""
    failed = asked.answer.values("@failed")
    keys = greatest(failed, MOST_ERRORS)
    rows = [
        [escaped(error(which)), str(which), escaped(call(name)), str(name), number(failed[name, which])]
        for name, which in keys
    ]
    rest = len(failed) - len(rows)
    body = (
        table(["error", "number", "call", "number", "times"], rows)
        if rows
        else text("p", "no call failed", class_="quiet")
    )
    return Panel(
        "errors",
        "System calls that fail",
        body + (text("p", f"{rest} rarer ones left out", class_="red") if rest else ""),
        [asked],
    )
