"""The head of a report, with what was lost and the gaps of each CPU, and its time line."""
from dataclasses import dataclass, field

from btreport.answers import LOST_EVENTS, PRINTF
from btreport.charts import BAR_UNITS, MOST_ROWS, columns, left_out, strip
from btreport.markup import axis, drawing, element, escaped, lane, number, rectangle, table, text
from btreport.panel import Panel
from btreport.questions import COLUMNS

MOST_LOSSES = 12
# A loss is drawn so wide that it is seen, of the thousand parts of the span.
LEAST_LOSS = 5


@dataclass
class TimeLine:
    """What the question about the time line printed: when the recording starts and ends and the time between, how many
    events each CPU has, in all and by part of the time, its gaps as pairs of when each began and how long it is, and
    the losses."""

    start: int = 0
    end: int = 0
    span: int = 0
    of_cpu: dict = field(default_factory=dict)
    events: dict = field(default_factory=dict)
    gaps: dict = field(default_factory=dict)
    losses: list = field(default_factory=list)

    @property
    def cpus(self):
        """The CPUs that the recording tells of."""
        return sorted(set(self.of_cpu) | {loss.cpu for loss in self.losses})


@dataclass(frozen=True)
class Loss:
    """That a CPU lost so many events, as the recording tells behind one tick and before another."""

    cpu: int
    count: int
    begin: int
    end: int


def losses_of(answer, span):
    """The losses that an answer tells of."""
    found, waiting, tick = [], [], 0
    for kind, what in answer.lines + [(PRINTF, f"tick {span}\n")]:
        if kind == LOST_EVENTS:
            waiting.append(what)
        elif kind == PRINTF and what.startswith("tick "):
            now = int(what.split()[1])
            found += [Loss(cpu, count, tick, now) for cpu, count in waiting]
            waiting, tick = [], now
    return found


def time_line_of(answer):
    """The time line that an answer tells of."""
    words = [line.split() for line in answer.printed()]
    line = TimeLine(start=next(int(found[1]) for found in words if found[0] == "starts"))
    line.end, line.span = next((int(found[1]), int(found[2])) for found in words if found[0] == "ends")
    line.of_cpu = dict(sorted(answer.values("@of_cpu").items()))
    for (cpu, column), count in answer.values("@events").items():
        line.events.setdefault(cpu, {})[column] = count
    for found in words:
        if found[0] == "gap":
            line.gaps.setdefault(int(found[1]), []).append((int(found[2]), int(found[3])))
    for cpu, last in answer.values("@last").items():
        if line.span - last > line.span // COLUMNS + 1:
            line.gaps.setdefault(cpu, []).append((last, line.span - last))
    line.losses = losses_of(answer, line.span)
    return line


def fact(name, markup):
    """A fact of the head."""
    return text("dt", name) + element("dd", markup)


def counted(line):
    """How many events each CPU has."""
    return ", ".join(f"cpu {cpu}: {number(count)}" for cpu, count in line.of_cpu.items()) or "none"


def lost(line):
    """What was lost, in red."""
    if not line.losses:
        return ""
    shown = sorted(line.losses, key=lambda loss: -loss.count)[:MOST_LOSSES]
    told = "; ".join(f"{number(loss.count)} events lost on cpu {loss.cpu}" for loss in shown)
    rest = len(line.losses) - len(shown)
    return element("p", told + (f"; and {rest} smaller losses" if rest else ""), class_="red")


def gap_lane(line, cpu):
    """The lane of a CPU with its gaps and losses."""
    span = max(line.span, 1)
    parts = [rectangle(0, 0, BAR_UNITS, 1, "busy")]
    for begin, length in line.gaps.get(cpu, []):
        parts.append(
            rectangle(
                BAR_UNITS * begin / span,
                0,
                BAR_UNITS * length / span,
                1,
                "gap",
                f"no event for {length} ns from {begin} ns",
            )
        )
    for loss in line.losses:
        if loss.cpu == cpu:
            width = max(BAR_UNITS * (loss.end - loss.begin) / span, LEAST_LOSS)
            parts.append(
                rectangle(
                    min(BAR_UNITS * loss.begin / span, BAR_UNITS - width),
                    0,
                    width,
                    1,
                    "loss",
                    f"{loss.count} events lost, told between {loss.begin} ns and {loss.end} ns",
                )
            )
    return lane(f"cpu {cpu}", drawing(BAR_UNITS, 1, 14, "".join(parts), f"the gaps of cpu {cpu}"))


def gaps_key(line):
    """What the colours of the gaps mean."""
    kinds = [("busy", "events"), ("gap", "none for longer than a two-hundredth of the span")]
    kinds += [("loss", "events were lost")] if line.losses else []
    return element(
        "p",
        *(element("span", element("b", class_=f"dot {kind}"), escaped(name), class_="part") for kind, name in kinds),
        class_="parts",
    )


def greatest_gaps(line):
    """A table of the longest gaps."""
    found = sorted(((length, begin, cpu) for cpu, gaps in line.gaps.items() for begin, length in gaps), reverse=True)
    rows = [[escaped(f"cpu {cpu}"), number(begin), number(length)] for length, begin, cpu in found[:MOST_ROWS]]
    return element(
        "details",
        text("summary", f"the gaps, {len(found)}"),
        table(["CPU", "from, ns", "for, ns"], rows),
        left_out(len(found) - len(rows), "gaps"),
    )


def head(name, line, asked, not_asked):
    """The head: what was recorded, and what is lacking."""
    facts = element(
        "dl",
        fact("recording", escaped(name)),
        fact("span", number(line.span) + " ns"),
        fact("from", number(line.start) + " ns"),
        fact("to", number(line.end) + " ns"),
        fact("CPUs with events", number(len(line.of_cpu))),
        fact("events", counted(line)),
    )
    lanes = element("div", *(gap_lane(line, cpu) for cpu in line.cpus), lane("", axis(line.span)), class_="lanes")
    why = "Not asked, as the recording has no tracepoints for it: " + "; ".join(not_asked)
    told = text("p", why, class_="quiet") if not_asked else ""
    return Panel(
        "head", "What was recorded", facts + lost(line) + told + lanes + gaps_key(line) + greatest_gaps(line), [asked]
    )


def part_title(line, what):
    """What is told of a part of the time line."""
    column = line.span // COLUMNS + 1
    return lambda place, count: f"{count} {what} from {place * column} ns on"


def measured(line, asked, name, of_map, label, what, kind):
    """A lane of bars by a map of one of the answers; nothing where there is none."""
    if name not in asked or asked[name].answer is None:
        return ""
    counts = asked[name].answer.values(of_map)
    most = number(max(counts.values())) if counts else "none"
    return columns(
        f"{escaped(label)}<small>at most {most} {escaped(what)}</small>"
        if counts
        else f"{escaped(label)}<small>none</small>",
        counts,
        COLUMNS,
        part_title(line, what),
        kind,
    )


def time_line(line, asked, cut):
    """The time line. `cut` is the command that cuts a part out of the recording, without the words for its ends."""
    strips = [strip(f"cpu {cpu}", line.events.get(cpu, {}), COLUMNS, part_title(line, "events")) for cpu in line.cpus]
    strips.append(measured(line, asked, "threads", "@longest_wait", "longest wait for a CPU", "ns", "wait"))
    strips.append(measured(line, asked, "block", "@issued_in", "block requests issued", "issued", "request"))
    strips.append(measured(line, asked, "calls", "@failed_in", "system calls that fail", "failed", "error"))
    whole = f"{cut} --from +0ns --to +{line.span}ns"
    body = element(
        "div",
        *strips,
        element("div", class_="selected"),
        lane("", axis(line.span)),
        class_="lanes",
        id="lanes",
        data_span=line.span,
        data_cut=cut,
    )
    told = text("p", "This command cuts out a part; as it stands it takes all.", class_="note")
    told += text("p", "Drag over a window above, and it takes that.", class_="note", id="drag", hidden="")
    names = ["time_line"] + [name for name in ("threads", "block", "calls") if name in asked]
    return Panel(
        "time_line",
        "Time line",
        body + told + text("pre", whole, id="cut"),
        [asked[name] for name in names],
        "Events by CPU, and below them what each two-hundredth of the span had.",
    )
