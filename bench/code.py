#!/usr/bin/env python3
"""Measures runs beside those of another build, by hand: python3 bench/code.py OTHER [EVENTS [TIMES]]

It makes the recording of bench/serial.py, of EVENTS events over 4 CPUs (1,000,000 where nothing is said), and runs `check`,
`run --serial` and `run` on it with the scripts of bench/serial.py, TIMES times in turn (5 where nothing is said), by OTHER, the built
program of another commit (that of fbe5960 walks the trees of the bodies), and by crates/bt_program/out/bt_program, which runs their code.
For each it tells the medians of the wall times in seconds and the ratio of this program's to the other's; and for this program the
instructions that a run executes, and how many there are a second of what a run takes beyond `check`.
"""
import os
import statistics
import subprocess
import sys
import tempfile
import time

from serial import PROGRAM, SCRIPTS, make

WAYS = [["check"], ["run", "--serial"], ["run"]]


def seconds(program, words):
    """The wall time of a run of a program."""
    began = time.monotonic()
    subprocess.run([program] + words, stdout=subprocess.DEVNULL, check=True)
    return time.monotonic() - began


def instructions(files):
    """How many instructions a run of this program executes."""
    text = subprocess.run([PROGRAM, "run", "--serial", "--stats"] + files, stdout=subprocess.PIPE, check=True).stdout
    return int(text.split(b"instructions: ")[-1])


def told(name, other, files, times):
    """The lines of a script."""
    rounds = [[[seconds(program, way + files) for program in (other, PROGRAM)] for way in WAYS] for _ in range(times)]
    medians = [[statistics.median(row[way][which] for row in rounds) for which in (0, 1)] for way in range(len(WAYS))]
    count = instructions(files)
    for way, (theirs, ours) in zip(WAYS, medians):
        beyond = ours - medians[0][1]
        rate = f"{count:>14}{count / beyond / 1e6:>16.0f}" if way[0] == "run" and beyond > 0 else ""
        yield f"{name:16}{' '.join(way):16}{theirs:>9.2f}{ours:>9.2f}{ours / theirs:>8.2f}{rate}"


def main():
    if len(sys.argv) < 2:
        sys.exit(__doc__)
    other = sys.argv[1]
    events = int(sys.argv[2]) if len(sys.argv) > 2 else 1_000_000
    times = int(sys.argv[3]) if len(sys.argv) > 3 else 5
    if not os.path.exists(PROGRAM):
        sys.exit("build the program first: ./btreplay")
    with tempfile.TemporaryDirectory() as folder:
        path, source = os.path.join(folder, "r.bin"), os.path.join(folder, "s.bt")
        make(path, events)
        print(f"{'script':16}{'command':16}{'other s':>9}{'this s':>9}{'ratio':>8}{'instructions':>14}{'million a second':>18}")
        for name, script in SCRIPTS:
            with open(source, "w") as file:
                file.write(script)
            for line in told(name, other, [source, path], times):
                print(line, flush=True)


if __name__ == "__main__":
    main()
