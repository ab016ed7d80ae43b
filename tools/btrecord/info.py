"""What a recording holds, in words."""
from array import array
from collections import Counter

from faults import Refused
from format_text import CHARS, DATA_LOC, NUMBER
from reading import read_file
from selection import fits, without_kind
from users import UNKNOWN
from values import shown

MOST_NAMES = 20
MOST_PROCESSES = 20
MOST_GAPS = 5

# How a script sees a field: what cannot be read is refused there as Y2.
SEEN = {NUMBER: "number", CHARS: "string", DATA_LOC: "string"}


def seconds(nanoseconds):
    """A span of time, to the microsecond."""
    return f"{nanoseconds / 1e9:.6f} s"


class Seen:
    """The events of a recording: how many of each kind, of each process and CPU, and their times."""

    def __init__(self):
        self.kinds = Counter()
        self.processes = Counter()
        self.names = {}
        self.times = array("Q")

    def take(self, cpu, time, process, name, number):
        """Takes an event."""
        self.kinds[number] += 1
        self.processes[process] += 1
        self.names.setdefault(process, {}).setdefault(name, None)
        self.times.append(time)


def gaps(times, start, end):
    """The greatest spans without an event of any CPU, the longest first: each with its length and when it began."""
    found = []
    before = start
    for time in sorted(times) + [end]:
        if time > before:
            found.append((time - before, before))
        before = time
    return sorted(found, key=lambda gap: (-gap[0], gap[1]))[:MOST_GAPS]


def most(counted, limit, name):
    """Lines for the greatest counts, and one for how many there are beside them."""
    order = sorted(counted.items(), key=lambda item: (-item[1], item[0]))
    lines = [f"  {count:>12,}  {name(key)}" for key, count in order[:limit]]
    rest = order[limit:]
    return lines + ([f"  {sum(count for _, count in rest):>12,}  of {len(rest):,} others"] if rest else [])


def info(path):
    """What a recording holds: its span, CPUs, events by name and by process, and the greatest gaps."""
    seen = Seen()
    contents = read_file(path, seen.take)
    start, end = contents.start, contents.end
    names = {format.layout.number: format.name for format in contents.formats}
    lines = [f"span: {seconds(end - start)}, from {start} to {end} ns"]
    if seen.times:
        lines.append(f"events: {len(seen.times):,}, from {seconds(min(seen.times) - start)} to {seconds(max(seen.times) - start)}")
    else:
        lines.append("events: 0")
    lines += lines_of_marks(contents)
    lines += lines_of_users(contents)
    lines.append(f"CPUs: {len(contents.cpus)}")
    of_cpus = contents.marks.of_cpus()
    lines += [line_of_cpu(number, count, *of_cpus.get(number, (0, 0))) for number, count in contents.cpus]
    lines.append(f"tracepoints: {len(names):,}, of which {len(seen.kinds):,} have events")
    lines += most(seen.kinds, MOST_NAMES, lambda number: names[number])
    lines.append(f"processes: {len(seen.processes):,}")
    lines += most(seen.processes, MOST_PROCESSES, lambda process: f"{process} {told_names(seen.names[process])}")
    lines.append("greatest gaps, without an event of any CPU:")
    lines += [f"  {seconds(length)} from {seconds(began - start)}" for length, began in gaps(seen.times, start, end)]
    return lines


def lines_of_marks(contents):
    """A line for the lost events that a recording tells of, or none where it tells of none."""
    marks = contents.marks
    if not marks:
        return []
    first, last = min(marks.times) - contents.start, max(marks.times) - contents.start
    return [f"lost events: {sum(marks.counts):,} in {len(marks):,} mark{'' if len(marks) == 1 else 's'}, from {seconds(first)} to {seconds(last)}"]


def lines_of_users(contents):
    """A line for the events whose thread's user nobody knows, or none where all are known."""
    found = contents.without_user
    if not found:
        return []
    return [f"events without a known user: {sum(found.values()):,} of {len(found):,} thread{'' if len(found) == 1 else 's'}, with the user {UNKNOWN}"]


def line_of_cpu(number, entries, marks, lost):
    """How many events a CPU has, and how many it lost."""
    return f"  {entries - marks:>12,}  cpu {number}" + (f", and {lost:,} lost" if lost else "")


def told_names(names):
    """The names that the threads of a process had."""
    texts = sorted({shown(name) for name in names})
    return ", ".join(texts[:4]) + (f" and {len(texts) - 4} more" if len(texts) > 4 else "")


def fields_of(layout):
    """A line for each field that has a name: as a script names it, how it sees it, and how the kernel declares it."""
    named = [field for field in layout.fields if field.name and not field.name[:1].isdigit()]
    width = max((len(field.name) for field in named), default=0)
    return [f"    args.{field.name.decode():<{width}}  {SEEN.get(field.kind, 'not readable'):<12}  {field.declaration.decode(errors='replace')}"
            for field in named]


def listing(path, pattern, with_fields):
    """The tracepoints of a recording that fit a pattern, by name, and with their fields where that is asked."""
    formats = sorted(read_file(path).formats, key=lambda format: format.name)
    pattern = without_kind(pattern)
    lines = []
    for format in filter(fits(pattern), formats):
        lines.append(f"tracepoint:{format.name}")
        lines += fields_of(format.layout) if with_fields else []
    if not lines and formats:
        raise Refused(f"{path}: no tracepoint of the recording fits {pattern}")
    return lines
