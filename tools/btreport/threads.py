"""Panels about threads: how long they wait for a CPU, how long they run, wait and are blocked, and which runs when on
which CPU."""
from btreport.answers import text_of
from btreport.charts import BAR_UNITS, LANE_PIXELS, MOST_BARS, MOST_ROWS, heat_map, left_out, stacked
from btreport.markup import axis, drawing, element, escaped, folded, lane, number, rectangle, table, text
from btreport.panel import Panel
from btreport.questions import CELLS, COLUMNS
from btreport.scales import level

BLOCKED = [
    ("sleeps", "sleep"),
    ("waits for input or output", "io"),
    ("has no work", "idle"),
    ("something else", "else"),
]
COLOURS = 8


def waits(asked, span):
    """The heat map of waits for a CPU."""
    columns = list(asked.answer.values("@waits").items())
    return Panel(
        "waits",
        "Waits for a CPU, by their length",
        heat_map(columns, CELLS, axis(span), "waits"),
        [asked],
        "A wait begins when a thread can run, and ends when it does. Ranges are nanoseconds: K is about a "
        "microsecond, M a millisecond, G a second.",
    )


def times_of(answer):
    """The threads, each with its parts: how long it ran, waited, and was blocked and why. Those that ran longest come
    first."""
    found = {}
    for name, kind in (("@on_cpu", "run"), ("@waited", "wait")):
        for key, time in answer.values(name).items():
            found.setdefault(key, {})[kind] = time
    kinds = dict(BLOCKED)
    for (comm, thread, why), time in answer.values("@blocked").items():
        found.setdefault((comm, thread), {})[kinds.get(why, "else")] = time
    return sorted(found.items(), key=lambda item: (-item[1].get("run", 0), -item[1].get("wait", 0), item[0]))


KINDS = [("run", "on a CPU"), ("wait", "waits for one")] + [(kind, name) for name, kind in BLOCKED]


def who(asked):
    """Threads by their time on a CPU, waiting and blocked."""
    threads = times_of(asked.answer)
    shown = threads[:MOST_BARS]
    most = max((sum(parts.values()) for _, parts in shown), default=0)
    drawn = [
        stacked(f"{comm} {thread}", [(kind, name, parts[kind]) for kind, name in KINDS if kind in parts], most)
        for (comm, thread), parts in shown
    ]
    rows = [
        [escaped(comm), str(thread)] + [number(parts[kind]) if kind in parts else "" for kind, _ in KINDS]
        for (comm, thread), parts in threads
    ]
    all_of = folded(
        f"the numbers, {len(threads)} threads",
        table(["thread", "number"] + [name for _, name in KINDS], rows[:MOST_ROWS])
        + left_out(len(rows) - MOST_ROWS, "threads"),
    )
    rest = len(threads) - len(shown)
    more = text("p", f"{rest} more threads: see the numbers", class_="quiet") if rest else ""
    body = (
        element("div", *drawn, class_="lanes") + more + all_of
        if drawn
        else text("p", "no thread was seen to run", class_="quiet")
    )
    return Panel(
        "who",
        "Who: on a CPU, waiting, blocked",
        body,
        [asked],
        "In nanoseconds; those that were on a CPU for longest. A span counts where both its ends are in the recording.",
    )


def runs_of(answer, span):
    """The runs of each CPU, as when each began, how long it was, and the thread's number and name; the last one ends
    with the recording."""
    found = {}
    for line in answer.printed():
        _, cpu, begin, length, thread, comm = line[:-1].split(" ", 5)
        found.setdefault(int(cpu), []).append((int(begin), int(length), int(thread), text_of(comm)))
    since, runs, names = answer.values("@since"), answer.values("@runs"), answer.values("@name")
    for cpu, thread in runs.items():
        if thread:
            found.setdefault(cpu, []).append((since[cpu], span - since[cpu], thread, names.get(cpu, "")))
    for cpu, _ in answer.values("@short"):
        found.setdefault(cpu, [])
    return dict(sorted(found.items()))


def coloured(runs):
    """The threads that run for longest, each with its colour."""
    times = {}
    for begin, length, thread, comm in (run for of_cpu in runs.values() for run in of_cpu):
        times[thread, comm] = times.get((thread, comm), 0) + length
    order = sorted(times, key=lambda key: (-times[key], key))
    return {key: f"t{place}" for place, key in enumerate(order[:COLOURS], 1)}


def lane_of_runs(cpu, runs, short, span, colours):
    """The lane of a CPU: its runs, and below them how many short ones there were."""
    shapes = [
        rectangle(
            BAR_UNITS * begin / span,
            0,
            max(BAR_UNITS * length / span, 0.4),
            78,
            colours.get((thread, comm), "t0"),
            f"{comm} {thread}: {length} ns from {begin} ns",
        )
        for begin, length, thread, comm in runs
    ]
    most, width = max(short.values(), default=0), BAR_UNITS / COLUMNS
    shapes += [
        rectangle(width * column, 82, width, 18, f"h{level(count, most)}", f"{count} shorter runs")
        for column, count in sorted(short.items())
    ]
    names = [
        text(
            "span",
            comm,
            style=f"left:{100 * begin / span:.3f}%;width:{100 * length / span:.3f}%",
            title=f"{comm} {thread}",
        )
        for begin, length, thread, comm in runs
        if length / span >= 0.06
    ]
    return lane(
        f"cpu {cpu}",
        drawing(BAR_UNITS, 100, LANE_PIXELS + 4, "".join(shapes), f"the threads of cpu {cpu}")
        + element("div", *names, class_="over"),
        "runs",
    )


def gantt(asked, span):
    """The threads of each CPU, one by one."""
    runs = runs_of(asked.answer, span)
    colours, short = coloured(runs), {}
    for (cpu, column), count in asked.answer.values("@short").items():
        short.setdefault(cpu, {})[column] = count
    lanes = [lane_of_runs(cpu, found, short.get(cpu, {}), max(span, 1), colours) for cpu, found in runs.items()]
    key = [
        element("span", element("b", class_=f"dot {kind}"), escaped(f"{comm} {thread}"), class_="part")
        for (thread, comm), kind in colours.items()
    ]
    key += [element("span", element("b", class_="dot t0"), "other threads", class_="part")]
    body = element("div", *lanes, lane("", axis(span)), class_="lanes") + element("div", *key, class_="parts")
    return Panel(
        "runs",
        "Which thread runs when",
        body,
        [asked],
        "Runs shorter than a thousandth of the span are counted in the strip below each CPU. Nothing is drawn where a "
        "CPU is idle, or where the recording lacks the switch at which a run began.",
    )
