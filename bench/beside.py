#!/usr/bin/env python3
"""Measures processor time and memory beside another build, by hand: python3 bench/beside.py OTHER [EVENTS [TIMES]]

It makes the recording of bench/serial.py, of EVENTS events over 4 CPUs (1,048,576 where nothing is said), and runs `check`,
`run --serial` and `run` on it with the scripts of bench/serial.py, and `big 7 EVENTS`, TIMES times in turn (5 where nothing is said),
by OTHER, the built program of another commit, and by crates/bt_program/out/bt_program. For each it tells the medians of the processor
times in seconds (of the user and of the system together), their ratio, and the greatest memory of each in MB. Where both print other
texts in a run on one thread or in `big`, it ends with status 1.
"""
import os
import statistics
import sys
import tempfile

from serial import PROGRAM, SCRIPTS, make

WAYS = [["check"], ["run", "--serial"], ["run"]]


def measured(program, words, output):
    """The processor seconds and the greatest memory in MB of a run of a program, which writes to a file."""
    pid = os.posix_spawn(program, [program] + words, os.environ,
                         file_actions=[(os.POSIX_SPAWN_OPEN, 1, output, os.O_WRONLY | os.O_CREAT | os.O_TRUNC, 0o600)])
    _, status, usage = os.wait4(pid, 0)
    if status != 0:
        sys.exit(f"{words} ended with status {status}")
    return usage.ru_utime + usage.ru_stime, usage.ru_maxrss / 1024


def text(path):
    """What stands in a file."""
    with open(path, "rb") as file:
        return file.read()


def compared(name, words, other, times, folder, is_one_text):
    """Measures one command by both programs in turn and tells its line."""
    outputs = [os.path.join(folder, "other"), os.path.join(folder, "this")]
    rounds = []
    for _ in range(times):
        rounds.append([measured(program, words, output) for program, output in zip((other, PROGRAM), outputs)])
        if is_one_text and text(outputs[0]) != text(outputs[1]):
            sys.exit(f"{name}: the two programs print other texts")
    theirs, ours = (statistics.median(row[which][0] for row in rounds) for which in (0, 1))
    before, after = (max(row[which][1] for row in rounds) for which in (0, 1))
    print(f"{name:32}{theirs:>9.2f}{ours:>9.2f}{ours / theirs:>8.2f}{before:>10.0f}{after:>9.0f}", flush=True)


def main():
    if len(sys.argv) < 2:
        sys.exit(__doc__)
    other = sys.argv[1]
    events = int(sys.argv[2]) if len(sys.argv) > 2 else 1_048_576
    times = int(sys.argv[3]) if len(sys.argv) > 3 else 5
    if not os.path.exists(PROGRAM):
        sys.exit("build the program first: ./btreplay")
    with tempfile.TemporaryDirectory() as folder:
        path, source = os.path.join(folder, "r.btr"), os.path.join(folder, "s.bt")
        make(path, events)
        print(f"{'command':32}{'other s':>9}{'this s':>9}{'ratio':>8}{'other MB':>10}{'this MB':>9}")
        for name, script in SCRIPTS:
            with open(source, "w") as file:
                file.write(script)
            for way in WAYS:
                compared(f"{name}, {' '.join(way)}", way + [source, path], other, times, folder, way[-1] == "--serial")
        compared(f"big 7 {events}", ["big", "7", str(events)], other, times, folder, True)


if __name__ == "__main__":
    main()
