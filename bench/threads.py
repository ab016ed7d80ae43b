#!/usr/bin/env python3
"""Measures runs on threads beside runs on one thread, by hand: python3 bench/threads.py [EVENTS [TIMES [BUSY]]]

It makes the recording of bench/serial.py, of EVENTS events over 4 CPUs (1,000,000 where nothing is said), and runs `check`,
`run --serial` and `run` on it with the scripts of bench/serial.py, TIMES times in turn (5 where nothing is said), by the built
program crates/bt_program/out/bt_program, while BUSY processes beside it take as much of the processors as they get (none where nothing is
said). For each script it tells the medians of the wall times in seconds, the ratio of a run on threads to one on one thread, the medians of
the processor times of these two and their ratio, and the greatest memory of each in MB; and in the line behind it the least of the times,
which tell of the machine at its fastest.

Each run is made twice and the second is measured: the host of a virtual machine may take memory back that is free for some seconds, and a
process that is given it pays for its way back. Behind these lines stands the first one of those runs alone in which the machine had its
processors to itself, as bench/machine.py tells, and how many of each way these were.
"""
import contextlib
import os
import signal
import statistics
import sys
import tempfile

from machine import Machine
from serial import PROGRAM, SCRIPTS, make, measured

WAYS = [["check"], ["run", "--serial"], ["run"]]


@contextlib.contextmanager
def busy(count):
    """So many processes that take as much of the processors as they get, as long as this goes on."""
    pids = []
    try:
        for _ in range(count):
            pid = os.fork()
            if pid == 0:
                signal.alarm(3600)
                while True:
                    pass
            pids.append(pid)
        yield
    finally:
        for pid in pids:
            os.kill(pid, signal.SIGKILL)
            os.waitpid(pid, 0)


def second(machine, words):
    """The figures of a run right behind another one of the same words, and whether the machine had its processors to itself."""
    measured(words)
    return machine.watched(lambda: measured(words))


def line_of(name, runs, middle=statistics.median):
    """The line of a script by some runs of each way: by their medians, or by what else is said."""
    check, wall, wall_threads = [middle(run[0] for run in some) for some in runs]
    used, used_threads = [middle(run[1] for run in some) for some in runs[1:]]
    megabytes = [max(run[2] for run in some) / 1024 for some in runs[1:]]
    counts = ", ".join(str(len(some)) for some in runs)
    return (f"{name:16}{counts:>14}{check:>9.3f}{wall:>10.3f}{wall_threads:>11.3f}{wall_threads / wall:>8.2f}"
            f"{used:>14.3f}{used_threads:>15.3f}{used_threads / used:>8.2f}{megabytes[0]:>11.0f}{megabytes[1]:>12.0f}")


def told(machine, name, source, path, times):
    """The lines of a script."""
    rounds = [[second(machine, way + [source, path]) for way in WAYS] for _ in range(times)]
    runs = list(zip(*rounds))
    alone = [[figures for figures, is_alone in some if is_alone] for some in runs]
    every = [[figures for figures, _ in some] for some in runs]
    lines = [line_of(name, every), line_of("  least", every, min)]
    return "\n".join(lines + ([line_of("  to itself", alone)] if all(alone) else []))


def main():
    events, times, beside = [int(word) for word in sys.argv[1:4]] + [1_000_000, 5, 0][len(sys.argv[1:4]):]
    if not os.path.exists(PROGRAM):
        sys.exit("build the program first: ./btreplay")
    machine = Machine()
    with tempfile.TemporaryDirectory() as folder:
        path = os.path.join(folder, "r.bin")
        make(path, events)
        print(f"{'script':16}{'runs':>14}{'check s':>9}{'serial s':>10}{'threads s':>11}{'ratio':>8}"
              f"{'serial used':>14}{'threads used':>15}{'ratio':>8}{'serial MB':>11}{'threads MB':>12}")
        with busy(beside):
            for name, script in SCRIPTS:
                source = os.path.join(folder, "s.bt")
                with open(source, "w") as file:
                    file.write(script)
                print(told(machine, name, source, path, times), flush=True)


if __name__ == "__main__":
    main()
