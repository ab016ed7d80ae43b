"""The questions of examples/ that are worked out here. Each takes the recording's start and its events by time, and answers the text."""
from collections import defaultdict

from reckoning.events import LOST
from reckoning.layout import histograms_text, map_text

SWITCH = "sched:sched_switch"
STATES = {0: "preempted", 256: "preempted", 1: "sleeps", 2: "waits for input or output", 128: "has no work"}


def time_off_cpu(start, events):
    """From each thread's switch to its next one back."""
    left, total = {}, defaultdict(int)
    for event in events:
        if event.name != SWITCH:
            continue
        old, new = event.fields["prev_pid"], event.fields["next_pid"]
        if old:
            left[old] = event.time, STATES.get(event.fields["prev_state"], "something else")
        if new in left:
            since, why = left.pop(new)
            total[event.fields["next_comm"], why] += (event.time - since) // 1000
    return map_text("@microseconds", total)


def run_lengths(start, events):
    """Between two switches of one CPU that follow each other, where the second takes off whom the first brought."""
    latest, lengths = {}, defaultdict(list)
    for event in events:
        if event.name == SWITCH:
            since, who = latest.get(event.cpu, (0, None))
            if who == event.fields["prev_pid"] != 0:
                lengths[event.fields["prev_comm"],].append((event.time - since) // 1000)
            latest[event.cpu] = event.time, event.fields["next_pid"]
    return histograms_text("@microseconds", lengths)


def block_requests(start, events):
    """From the latest issue of a sector to its next completion."""
    lines, issued = [f"{'when':>9} {'thread':15} {'kind':4} {'sector':>10} {'bytes':>9} {'took':>8}\n"], {}
    for event in events:
        fields = event.fields
        if event.name == "block:block_rq_issue":
            issued[fields["dev"], fields["sector"]] = event.time, fields["bytes"], fields["comm"]
        elif event.name == "block:block_rq_complete" and (fields["dev"], fields["sector"]) in issued:
            time, size, comm = issued.pop((fields["dev"], fields["sector"]))
            when, took = (event.time - start) // 1000, (event.time - time) // 1000
            lines.append(f"{when:9} {comm:15} {fields['rwbs']:4} {fields['sector']:10} {size:9} {took:8}\n")
    return "".join(lines)


def open_calls(start, events):
    """Each return from openat whose beginning is there."""
    lines, flags = [f"{'when':>9} {'process':>7} {'thread':15} {'flags':>8} {'result':>6}\n"], {}
    for event in events:
        if event.name == "syscalls:sys_enter_openat":
            flags[event.tid] = event.fields["flags"]
        elif event.name == "syscalls:sys_exit_openat" and event.tid in flags:
            when = (event.time - start) // 1000
            lines.append(f"{when:9} {event.pid:7} {event.comm:15} {flags.pop(event.tid):8x} {event.fields['ret']:6}\n")
    return "".join(lines)


def call_time(start, events):
    """Each system call whose beginning and end are there."""
    began, took, failed = {}, defaultdict(list), defaultdict(int)
    for event in events:
        if event.name == "raw_syscalls:sys_enter":
            began[event.tid] = event.time
        elif event.name == "raw_syscalls:sys_exit" and event.tid in began:
            key = event.comm, event.fields["id"]
            took[key].append(event.time - began.pop(event.tid))
            if -4095 <= event.fields["ret"] < 0:
                failed[key] += 1
    return (map_text("@nanoseconds", {key: sum(times) for key, times in took.items()}, 10)
            + map_text("@calls", {key: len(times) for key, times in took.items()}, 10) + map_text("@failed", failed))


def long_waits(start, events):
    """From the latest moment at which a thread could run to the switch that brought it."""
    lines, ready = [], {}
    for event in events:
        if event.name in ("sched:sched_wakeup", "sched:sched_wakeup_new"):
            ready[event.fields["pid"]] = event.time
        elif event.name == SWITCH:
            old, new = event.fields["prev_pid"], event.fields["next_pid"]
            if old and event.fields["prev_state"] in (0, 256):
                ready[old] = event.time
            elif old:
                ready.pop(old, None)
            waited = (event.time - ready.pop(new, event.time)) // 1000
            if waited > 500:
                lines.append(f"{(event.time - start) // 1000:6} cpu {event.cpu}: {event.fields['next_comm']} ({new}) waited {waited}\n")
    return "".join(lines)


def write_back(start, events):
    """Each beginning of write-back."""
    pages = defaultdict(list)
    for event in events:
        if event.name == "writeback:writeback_start":
            pages[event.fields["name"], event.fields["reason"]].append(event.fields["nr_pages"])
    return (map_text("@begun", {key: len(numbers) for key, numbers in pages.items()})
            + map_text("@pages", {key: max(numbers) for key, numbers in pages.items()}))


def block_pattern(start, events):
    """Each request but the first of its device, by whether it begins where the one before it ended."""
    ends, sizes = {}, defaultdict(list)
    for event in events:
        if event.name != "block:block_rq_issue":
            continue
        fields = event.fields
        if fields["dev"] in ends:
            sizes[fields["rwbs"], "follows" if ends[fields["dev"]] == fields["sector"] else "jumps"].append(fields["bytes"])
        ends[fields["dev"]] = fields["sector"] + fields["nr_sector"]
    return (map_text("@requests", {key: len(numbers) for key, numbers in sizes.items()})
            + map_text("@kibibytes", {key: sum(number // 1024 for number in numbers) for key, numbers in sizes.items()}))


def lost_events(start, events):
    """The calls up to each tick, which stands before what has its time, and each mark where it comes."""
    text, calls, ticks = "", 0, 1
    for event in events:
        while event.time >= start + 50_000 * ticks:
            text, calls, ticks = text + f"{50 * ticks:3} us: {calls:3} calls\n", 0, ticks + 1
        if event.name == LOST:
            text += f"WARNING: {event.fields['count']} events lost on cpu {event.cpu}\n"
        elif event.name == "raw_syscalls:sys_enter":
            calls += 1
    return text + f"the rest: {calls} calls\n"


# The recordings of those questions whose recording is not small.btr.
RECORDINGS = {"lost_events": "lossy.btr"}
QUESTIONS = {question.__name__: question for question in (
    time_off_cpu, run_lengths, block_requests, open_calls, call_time, long_waits, write_back, block_pattern, lost_events)}
