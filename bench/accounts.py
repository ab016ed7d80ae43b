#!/usr/bin/env python3
"""Measures accounts by hand: python3 bench/accounts.py [EVENTS [TIMES [PROGRAM]]]

It makes the recording of bench/serial.py, of EVENTS events over 4 CPUs (1,048,576 where nothing is said), and one of half as many, and counts
the events of each by the names of their threads: `run --serial`, `account --serial`, and `verify` of the account that this wrote, TIMES times in
turn (5 where nothing is said), by PROGRAM or else by the built program crates/bt_program/out/bt_program. For each it tells the median of the
processor times in seconds (of the user and of the system together), its ratio to that of the run, and the greatest memory in MB; and of each
account its bytes for an event. Where the account does not have a step for each event, or is not true, it ends with status 1.
"""
import os
import statistics
import sys
import tempfile

from beside import measured, text
from serial import PROGRAM, SCRIPTS, make

COUNT = SCRIPTS[0]


def ways_of(source, recording, account):
    """The commands in their order, each with the file that it writes."""
    output = account + ".out"
    return [("run --serial", ["run", "--serial", source, recording], output),
            ("account --serial", ["account", "--serial", source, recording], account),
            ("verify", ["verify", source, recording, account], output)]


def compared(program, source, recording, count, times):
    """Measures the commands over a recording of so many events in turn, and tells their lines."""
    account = recording + ".account"
    ways, rounds = ways_of(source, recording, account), []
    for _ in range(times):
        rounds.append([measured(program, words, output) for _, words, output in ways])
        verified = text(ways[-1][2])
        if verified != b"verified: %d steps\n" % count:
            sys.exit(f"the account of {count} events is told to be {verified}")
    medians = [statistics.median(row[at][0] for row in rounds) for at in range(len(ways))]
    for at, (name, _, _) in enumerate(ways):
        print(f"{name:20}{count:>10}{medians[at]:>13.2f}{medians[at] / medians[0]:>8.2f}{max(row[at][1] for row in rounds):>7.0f}", flush=True)
    print(f"the account has {os.path.getsize(account) / count:.0f} bytes an event")


def main():
    events = int(sys.argv[1]) if len(sys.argv) > 1 else 1_048_576
    times = int(sys.argv[2]) if len(sys.argv) > 2 else 5
    program = sys.argv[3] if len(sys.argv) > 3 else PROGRAM
    if not os.path.exists(program):
        sys.exit("build the program first: ./btreplay")
    with tempfile.TemporaryDirectory() as folder:
        source = os.path.join(folder, "s.bt")
        with open(source, "w") as file:
            file.write(COUNT[1])
        print(f"{'command':20}{'events':>10}{'processor s':>13}{'ratio':>8}{'MB':>7}")
        for count in (events // 2, events):
            recording = os.path.join(folder, f"{count}.btr")
            make(recording, count)
            compared(program, source, recording, count, times)


if __name__ == "__main__":
    main()
