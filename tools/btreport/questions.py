"""The questions that a report asks: scripts, with the numbers of the recording in the places of their words in
capitals.

Each is asked where the recording has the tracepoints that it names. All times are nanoseconds; those from the start of
the recording are `elapsed`.
"""
import re
from dataclasses import dataclass

# So many parts has the recording's span on the time line, and in a heat map.
COLUMNS = 200
CELLS = 100
# So many of the slowest calls and requests are printed, in any case.
SLOWEST = 20
# A recording that is shorter than this has the threads of each CPU drawn one by one, but for runs shorter than a part
# of so many.
SHORT_SPAN = 1_000_000_000
RUNS = 1_000

TIME_LINE = """\
// How many events does each CPU have in each part of the recording, and how many in all? Where has it none for longer
// than such a part? What it had last stands in @last.
BEGIN {
    printf("starts %d\\n", nsecs);
}

tracepoint:*:* {
    @of_cpu[cpu] = count();
    @events[cpu, elapsed / COLUMN] = count();
    if (elapsed - @last[cpu] > COLUMN) {
        printf("gap %d %d %d\\n", cpu, @last[cpu], elapsed - @last[cpu]);
    }
    @last[cpu] = elapsed;
}

END {
    printf("ends %d %d\\n", nsecs, elapsed);
}
"""

# Marks of lost events are printed between ticks, so that it is known when they were.
TICKS = """
// Between which ticks were events lost?
interval:us:TICK {
    printf("tick %d\\n", elapsed);
}
"""

THREADS = """\
// For how many nanoseconds is each thread on a CPU, waits for one, and is blocked, and how do waits for a CPU go over
// time? A span counts where both its ends are in the recording.
tracepoint:sched:sched_switch {
    if (args.prev_pid != 0) {
        if (@runs[cpu] == args.prev_pid) {
            @on_cpu[args.prev_comm, args.prev_pid] = sum(nsecs - @since[cpu]);
        }
        $state = args.prev_state;
        if ($state == 0 || $state == 256) {
            @ready[args.prev_pid] = nsecs;
        } else {
            delete(@ready[args.prev_pid]);
            @left[args.prev_pid] = nsecs;
            @why[args.prev_pid] = $state == 1 ? "sleeps" : $state == 2 ? "waits for input or output"
                : $state == 128 ? "has no work" : "something else";
        }
    }
    if (@left[args.next_pid] != 0) {
        @blocked[args.next_comm, args.next_pid, @why[args.next_pid]] = sum(nsecs - @left[args.next_pid]);
        delete(@left[args.next_pid]);
    }
    if (@ready[args.next_pid] != 0) {
        $waited = nsecs - @ready[args.next_pid];
        @waited[args.next_comm, args.next_pid] = sum($waited);
        @waits[elapsed / CELL] = hist($waited);
        @longest_wait[elapsed / COLUMN] = max($waited);
        delete(@ready[args.next_pid]);
    }
    @since[cpu] = nsecs;
    @runs[cpu] = args.next_pid;
}

WAKEUPS {
    if (@left[args.pid] != 0) {
        @blocked[args.comm, args.pid, @why[args.pid]] = sum(nsecs - @left[args.pid]);
        delete(@left[args.pid]);
    }
    @ready[args.pid] = nsecs;
}

END {
    clear(@left);
    clear(@why);
    clear(@ready);
    clear(@since);
    clear(@runs);
}
"""

# What stands where a call or a request has taken $took, and is one of the slowest so far: it takes the place of the
# least of them.
KEEP_SLOWEST = """\
        $k = 0;
        @slow[@place] = $took;
        @least = $took;
        while ($k < SLOWEST) {
            if (@slow[$k] < @least) {
                @least = @slow[$k];
                @place = $k;
            }
            $k++;
        }
"""
CLEAR_SLOWEST = """\
    clear(@slow);
    clear(@least);
    clear(@place);
"""

CALLS = """\
// Which system calls take how many nanoseconds in all, how many are there, and which fail with which error? Which
// processes make them? The slowest so far are printed: when they began, the time they took, process, thread, call,
// result and the thread's name.
ENTER {
    @began[tid] = nsecs;
}

EXIT /@began[tid] != 0/ {
    $took = nsecs - @began[tid];
    @nanoseconds[args.NUMBER] = sum($took);
    @calls[args.NUMBER] = count();
    @nanoseconds_of[pid] = sum($took);
    @calls_of[pid] = count();
    if ($took > @least) {
        printf("slow %d %d %d %d %d %d %s\\n", elapsed - $took, $took, pid, tid, args.NUMBER, args.ret, comm);
KEEP_SLOWEST    }
    delete(@began[tid]);
}

EXIT /args.ret < 0 && args.ret >= -4095/ {
    @failed[args.NUMBER, -args.ret] = count();
    @failed_in[elapsed / COLUMN] = count();
}

END {
    clear(@began);
CLEAR_SLOWEST}
"""

DETAILS = """\
// How do the times of some system calls go over time, in nanoseconds? What do some processes do: by thread, call and
// error (0 is none), for how many nanoseconds and how often?
BEGIN {
CHOSEN}

ENTER {
    @began[tid] = nsecs;
}

EXIT /@began[tid] != 0/ {
    $took = nsecs - @began[tid];
    if (@is_call[args.NUMBER]) {
        @took[args.NUMBER, elapsed / CELL] = hist($took);
    }
    if (@is_process[pid]) {
        $error = args.ret < 0 && args.ret >= -4095 ? -args.ret : 0;
        @of_thread[pid, tid] = sum($took);
        @of_call[pid, tid, args.NUMBER] = sum($took);
        @of_result[pid, tid, args.NUMBER, $error] = sum($took);
        @count_of_thread[pid, tid] = count();
        @count_of_call[pid, tid, args.NUMBER] = count();
        @count_of_result[pid, tid, args.NUMBER, $error] = count();
        @name[tid] = comm;
    }
    delete(@began[tid]);
}

END {
    clear(@began);
    clear(@is_call);
    clear(@is_process);
}
"""

BLOCK = """\
// How many block requests are issued over time, and for how many nanoseconds is each with the device, by kind? The
// slowest so far are printed: when they were issued, the time they took, device, sector, bytes, kind and thread.
tracepoint:block:block_rq_issue {
    @requests[args.rwbs] = count();
    @issued_in[elapsed / COLUMN] = count();
    @issued[args.dev, args.sector] = nsecs;
    @bytes[args.dev, args.sector] = args.bytes;
    @by[args.dev, args.sector] = args.comm;
}

tracepoint:block:block_rq_complete /@issued[args.dev, args.sector] != 0/ {
    $took = nsecs - @issued[args.dev, args.sector];
    @took[args.rwbs, elapsed / CELL] = hist($took);
    if ($took > @least) {
        printf("slow %d %d %d %d %d %s %s\\n", elapsed - $took, $took, args.dev, args.sector,
            @bytes[args.dev, args.sector], args.rwbs, @by[args.dev, args.sector]);
KEEP_SLOWEST    }
    delete(@issued[args.dev, args.sector]);
    delete(@bytes[args.dev, args.sector]);
    delete(@by[args.dev, args.sector]);
}

END {
    clear(@issued);
    clear(@bytes);
    clear(@by);
CLEAR_SLOWEST}
"""

PROCESSES = "// Which processes and threads begin, what do they execute, and when do they end?\n"
FORK = """\
tracepoint:sched:sched_process_fork {
    printf("fork %d %d %d %s\\n", elapsed, args.parent_pid, args.child_pid, args.parent_comm);
}
"""
EXEC = """
tracepoint:sched:sched_process_exec {
    printf("exec %d %d %s\\n", elapsed, args.pid, args.filename);
}
"""
EXITS = """
tracepoint:sched:sched_process_exit {
    printf("exit %d %d %s\\n", elapsed, args.pid, args.comm);
}
"""

RUNS_OF_THREADS = """\
// Which thread runs when on which CPU? Runs shorter than RUN nanoseconds are counted. What runs last stands in the
// maps. Before the first switch of a CPU the thread runs that leaves it there.
tracepoint:sched:sched_switch {
    if (args.prev_pid != 0 && (@runs[cpu] == args.prev_pid || @since[cpu] == 0)) {
        if (elapsed - @since[cpu] >= RUN) {
            printf("ran %d %d %d %d %s\\n", cpu, @since[cpu], elapsed - @since[cpu], args.prev_pid, args.prev_comm);
        } else {
            @short[cpu, elapsed / COLUMN] = count();
        }
    }
    @since[cpu] = elapsed;
    @runs[cpu] = args.next_pid;
    @name[cpu] = args.next_comm;
}
"""

ENTER = {"raw_syscalls": "tracepoint:raw_syscalls:sys_enter", "syscalls": "tracepoint:syscalls:sys_enter_*"}
EXIT = {"raw_syscalls": "tracepoint:raw_syscalls:sys_exit", "syscalls": "tracepoint:syscalls:sys_exit_*"}
NUMBER = {"raw_syscalls": "id", "syscalls": "__syscall_nr"}


@dataclass(frozen=True)
class Question:
    """A script with its name."""

    name: str
    text: str


@dataclass(frozen=True)
class Recorded:
    """What the questions are chosen by: the names of a recording's tracepoints, its span, and whether it may have marks
    of lost events."""

    points: frozenset
    span: int
    has_marks: bool

    def has(self, *names):
        """Whether the recording has all of these tracepoints."""
        return self.points.issuperset(names)

    @property
    def column(self):
        """How many nanoseconds a part of the time line has. The last moment is in the last part."""
        return self.span // COLUMNS + 1

    @property
    def cell(self):
        """How many nanoseconds a column of a heat map has."""
        return self.span // CELLS + 1

    @property
    def calls(self):
        """The system of tracepoints that tells of system calls, or none."""
        if self.has("raw_syscalls:sys_enter", "raw_syscalls:sys_exit"):
            return "raw_syscalls"
        begins = {name[len("syscalls:sys_enter_") :] for name in self.points if name.startswith("syscalls:sys_enter_")}
        ends = {name[len("syscalls:sys_exit_") :] for name in self.points if name.startswith("syscalls:sys_exit_")}
        return "syscalls" if begins & ends else None


def written(text, recorded, **more):
    """A script with the numbers in their places."""
    numbers = {
        "COLUMN": recorded.column,
        "CELL": recorded.cell,
        "SLOWEST": SLOWEST,
        "RUN": recorded.span // RUNS + 1,
        "TICK": max(recorded.column // 1_000, 1),
        "KEEP_SLOWEST": KEEP_SLOWEST.replace("SLOWEST", str(SLOWEST)),
        "CLEAR_SLOWEST": CLEAR_SLOWEST,
        **more,
    }
    system = recorded.calls
    if system:
        numbers.update(ENTER=ENTER[system], EXIT=EXIT[system], NUMBER=NUMBER[system])
    return re.sub(r"\b(?:" + "|".join(numbers) + r")\b", lambda found: str(numbers[found[0]]), text)


def processes(recorded):
    """The script about processes, of the tracepoints that there are; empty where there is none."""
    parts = [
        text
        for name, text in (("fork", FORK), ("exec", EXEC), ("exit", EXITS))
        if recorded.has(f"sched:sched_process_{name}")
    ]
    return (PROCESSES + "".join(parts).lstrip("\n")) if parts else ""


def first_questions(recorded):
    """The questions that are asked of a recording at once, those that take longest first."""
    wakeups = [f"tracepoint:{name}" for name in ("sched:sched_wakeup", "sched:sched_wakeup_new") if recorded.has(name)]
    texts = {"time_line": TIME_LINE + TICKS * recorded.has_marks}
    if recorded.calls:
        texts["calls"] = CALLS
    if wakeups and recorded.has("sched:sched_switch"):
        texts["threads"] = THREADS
    if recorded.has("block:block_rq_issue", "block:block_rq_complete"):
        texts["block"] = BLOCK
    if recorded.has("sched:sched_switch") and recorded.span < SHORT_SPAN:
        texts["runs"] = RUNS_OF_THREADS
    texts["processes"] = processes(recorded)
    return [Question(name, written(text, recorded, WAKEUPS=", ".join(wakeups))) for name, text in texts.items() if text]


def details(recorded, calls, processes_chosen):
    """The question about some calls and processes, by their numbers."""
    chosen = [f"    @is_call[{number}] = 1;\n" for number in calls] + [
        f"    @is_process[{number}] = 1;\n" for number in processes_chosen
    ]
    return Question("details", written(DETAILS, recorded, CHOSEN="".join(chosen)))
