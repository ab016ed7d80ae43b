#!/usr/bin/env python3
"""Measures this program beside `perf script` with awk on one real recording, by hand: python3 bench/peer.py PERF.DATA [TIMES [PROGRAM [BEFORE]]]

PERF.DATA is a file of `perf record -a -R -T -e raw_syscalls:sys_enter --exclude-perf`, of at most 1,048,576 events; bench/README.md has a
load that makes about a million. Without `--exclude-perf` each write of perf is an event, which it writes again, and the CPU that it is on has
a third of all events. It is made a recording by `tools/btrecord convert`, whole and its first half, in a folder that is removed at the end.
Then each line of the table is run TIMES times in turn (5 where nothing is said), the runs by PROGRAM or else by the built program
crates/bt_program/out/bt_program, which is given huge pages as `btreplay` asks for them, and `check` and the count on one thread by an earlier
program BEFORE too, where it is said, without huge pages, for which none asked then, and the count with them. A line has the median and the
least of the processor times in seconds (of the user and of the system together, of a pipe's programs too), the same of the wall times, and
the greatest memory of a process in MB. Each run is made twice and the second is measured: the host of a virtual machine may take memory back
that is free for some seconds, and a process that is given it pays for its way back. Behind the table stand how the medians compare, and how
the least do, which tell of the machine at its fastest; then the same of those runs alone in which the machine had its processors to itself,
as bench/machine.py tells. The counts of all ways are compared: where they differ it ends with status 1.
"""
import os
import shlex
import statistics
import subprocess
import sys
import tempfile

from machine import Machine
from serial import PROGRAM, TOP

POINT = "tracepoint:raw_syscalls:sys_enter"
SCRIPTS = {"count by name": POINT + " { @[comm] = count(); }\n",
           "histogram": POINT + " { @ = hist(args.id); }\n",
           "printf": POINT + ' { printf("%s %d\\n", comm, args.id); }\n'}
# What a process needs at least is told for who starts it, so each line is run by a small process of its own.
RUNNER = """
import os, resource, subprocess, sys, time
began = time.monotonic()
status = subprocess.run(sys.argv[2:], stdout=open(sys.argv[1], "wb"), stderr=subprocess.DEVNULL).returncode
wall = time.monotonic() - began
usage = resource.getrusage(resource.RUSAGE_CHILDREN)
print(status, usage.ru_utime + usage.ru_stime, wall, usage.ru_maxrss / 1024)
"""
AWK = "awk '{ n[$1]++ } END { for (name in n) print name, n[name] }'"


FIELDS, NO_FIELDS = "perf script -F comm,event,trace | awk", "perf script -F comm,event | awk"
SERIAL, THREADS, EARLIER = "count by name, run --serial", "count by name, run", "count by name, before"
HUGE_PAGES, NO_HUGE_PAGES = "GLIBC_TUNABLES=glibc.malloc.hugetlb=1", "GLIBC_TUNABLES="


def measured(words, output):
    """The processor seconds, the wall seconds and the greatest memory in MB of a run, whose output goes to a file."""
    done = subprocess.run([sys.executable, "-S", "-c", RUNNER, output, "env", *words], stdout=subprocess.PIPE, text=True, check=True)
    status, *figures = done.stdout.split()
    if status != "0":
        sys.exit(f"{shlex.join(words)} ended with status {status}")
    return [float(figure) for figure in figures]


def second(machine, words, output):
    """The figures of a run right behind another one of the same words, and whether the machine had its processors to itself."""
    measured(words, output)
    return machine.watched(lambda: measured(words, output))


def peer(data, fields):
    """The words of a count of the events by the name of their thread, by perf and awk."""
    return [NO_HUGE_PAGES, "sh", "-c", f"perf script -i {shlex.quote(data)} -F {fields} 2>/dev/null | {AWK}"]


def lines_of(program, earlier, folder, recordings, data):
    """The lines of the table: a name, a share of the events, and words."""
    lines = [(FIELDS, 1, peer(data, "comm,event,trace")), (NO_FIELDS, 1, peer(data, "comm,event"))]
    count = os.path.join(folder, "count by name.bt")
    if earlier:
        whole = recordings[-1][1]
        lines.append(("check, before", 1, [NO_HUGE_PAGES, earlier, "check", count, whole]))
        for name, pages in ((EARLIER, NO_HUGE_PAGES), (EARLIER + ", huge pages", HUGE_PAGES)):
            lines.append((name, 1, [pages, earlier, "run", "--serial", count, whole]))
    for share, recording in recordings:
        lines.append(("check", share, [HUGE_PAGES, program, "check", count, recording]))
        for name in SCRIPTS:
            source = os.path.join(folder, f"{name}.bt")
            for words in (["run", "--serial"], ["run"]):
                lines.append((f"{name}, {' '.join(words)}", share, [HUGE_PAGES, program, *words, source, recording]))
    return lines


def tell_table(lines, runs):
    """Prints the medians and the least of some runs of each line, and how many these are."""
    print(f"{'way':40}{'events':>8}{'runs':>6}{'processor s':>13}{'least':>8}{'wall s':>8}{'least':>8}{'MB':>7}")
    for (name, share, _), some in zip(lines, runs):
        if some:
            processor, wall = ([run[which] for run in some] for which in (0, 1))
            print(f"{name:40}{'all' if share == 1 else 'half':>8}{len(some):>6}{statistics.median(processor):>13.3f}{min(processor):>8.3f}"
                  f"{statistics.median(wall):>8.3f}{min(wall):>8.3f}{max(run[2] for run in some):>7.0f}")


def tell_ratios(lines, runs):
    """Prints how the medians of the count compare, and how the least do, where there are runs of both."""
    of_line = {name: some for (name, share, _), some in zip(lines, runs) if share == 1 and some}
    for name, base, which, what in ((FIELDS, SERIAL, 0, "processor"), (NO_FIELDS, SERIAL, 0, "processor"), (SERIAL, EARLIER, 0, "processor"),
                                    (SERIAL, EARLIER + ", huge pages", 0, "processor"), (THREADS, SERIAL, 1, "wall")):
        if name in of_line and base in of_line:
            medians, least = (how(run[which] for run in of_line[name]) / how(run[which] for run in of_line[base])
                              for how in (statistics.median, min))
            print(f"{name} takes {medians:.3f} of the {what} seconds of {base}; by the least {least:.3f}")


def total(path):
    """The sum of all counts in an output: of the lines `@[name]: N`, or `name N`."""
    with open(path, "rb") as file:
        return sum(int(line.split()[-1]) for line in file if line.strip())


def made(data, folder):
    """The recording of all events of a file of perf, and that of its first half by time."""
    tool = [sys.executable, "-B", os.path.join(TOP, "tools", "btrecord")]
    whole, half = os.path.join(folder, "whole.btr"), os.path.join(folder, "half.btr")
    subprocess.run([*tool, "convert", data, "-o", whole], check=True)
    times = subprocess.run([*tool, "dump", whole], stdout=subprocess.PIPE, text=True, check=True).stdout.splitlines()
    middle = times[len(times) // 2].split("]", 1)[1].split(":", 1)[0].strip()
    subprocess.run([*tool, "cut", whole, "--to", middle, "-o", half], check=True)
    return [(0.5, half), (1, whole)]


def main():
    if len(sys.argv) < 2:
        sys.exit(__doc__)
    data, times = sys.argv[1], int(sys.argv[2]) if len(sys.argv) > 2 else 5
    program, earlier = sys.argv[3] if len(sys.argv) > 3 else PROGRAM, sys.argv[4] if len(sys.argv) > 4 else None
    if not os.path.exists(program):
        sys.exit("build the program first: ./btreplay")
    machine = Machine()
    with tempfile.TemporaryDirectory() as folder:
        for name, script in SCRIPTS.items():
            with open(os.path.join(folder, f"{name}.bt"), "w") as file:
                file.write(script)
        recordings = made(data, folder)
        lines, rounds = lines_of(program, earlier, folder, recordings, data), []
        for _ in range(times):
            rounds.append([second(machine, words, os.path.join(folder, f"output{at}")) for at, (_, _, words) in enumerate(lines)])
        runs = list(zip(*rounds))
        for is_any in (True, False):
            some = [[figures for figures, is_alone in row if is_any or is_alone] for row in runs]
            tell_table(lines, some)
            tell_ratios(lines, some)
            print()
        counts = {total(os.path.join(folder, f"output{at}")) for at, (name, share, _) in enumerate(lines)
                  if share == 1 and name.startswith(("perf", "count"))}
        if len(counts) != 1:
            sys.exit(f"the ways count differently: {sorted(counts)}")
        print(f"each way counted {counts.pop():,} events; the recording has {os.path.getsize(recordings[1][1]) / 1e6:.0f} MB")


if __name__ == "__main__":
    main()
