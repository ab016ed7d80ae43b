#!/usr/bin/env python3
"""Measures runs on one thread by hand: python3 bench/serial.py [EVENTS [TIMES]]

It makes a recording of EVENTS events (500,000 where nothing is said) over 4 CPUs from a fixed seed, and one of twice as many,
at most 1,048,576 (the limit of a recording), and runs `check` and `run --serial` on both with three scripts, TIMES times in turn
(5 where nothing is said), by the built program crates/bt_program/out/bt_program. For each it tells the median of the wall times in
seconds and the greatest memory in MB; for the runs the ratio of the medians, the least and the greatest ratio of a run to the `check`
before it, and the bytes of memory for each event beside what `check` needs.
"""
import multiprocessing
import os
import random
import statistics
import struct
import sys
import tempfile
import time

TOP = os.path.dirname(os.path.dirname(os.path.abspath(__file__)))
PROGRAM = os.path.join(TOP, "crates", "bt_program", "out", "bt_program")

# Name, ID, the fields behind the first 8 bytes, and the bytes of a payload.
FORMATS = [
    ("enter", 11, "\tfield:long id;\toffset:8;\tsize:8;\tsigned:1;\n", 16),
    ("leave", 12, "\tfield:long id;\toffset:8;\tsize:8;\tsigned:1;\n\tfield:long ret;\toffset:16;\tsize:8;\tsigned:1;\n", 24),
    ("wide", 13, "\tfield:long ret;\toffset:8;\tsize:8;\tsigned:1;\n\tfield:char text[184];\toffset:16;\tsize:184;\tsigned:0;\n", 200),
]

SCRIPTS = [
    ("count by comm", "tracepoint:t:* { @[comm] = count(); }"),
    ("histogram", "tracepoint:t:leave { @ = hist(args.ret); }"),
    ("latency", "tracepoint:t:enter { @start[tid] = nsecs; } "
                "tracepoint:t:leave /@start[tid]/ { @ns = hist(nsecs - @start[tid]); delete(@start[tid]); }"),
]


def recording(events, seed=7):
    """The bytes of a recording of so many events over 4 CPUs."""
    rng = random.Random(seed)
    out = [b"BTRACE01" + struct.pack("<IIQQ", 4, len(FORMATS), 0, 10 ** 12)]
    for name, number, fields, _ in FORMATS:
        text = f"name: {name}\nID: {number}\nformat:\n{fields}".encode()
        out.append(struct.pack("<H", 1) + b"t" + struct.pack("<I", len(text)) + text)
    comms = [f"worker{n}".encode() for n in range(40)]
    for cpu in range(4):
        share = events // 4
        out.append(struct.pack("<II", cpu, share))
        now = 0
        for k in range(share):
            now += rng.randrange(1, 1000)
            thread = 100 * cpu + rng.randrange(50)
            name, number, _, size = FORMATS[k % 2 if rng.random() < 0.8 else 2]
            payload = struct.pack("<Hxxi", number, thread) + struct.pack("<q", rng.randrange(-5, 1 << rng.randrange(1, 40)))
            payload = payload.ljust(size, b"\x07")
            out.append(struct.pack("<QIIII16sI", now, thread, thread, 0, 0, comms[thread % 40], len(payload)) + payload)
    return b"".join(out)


def write(path, events):
    """Writes a recording of so many events to a file."""
    with open(path, "wb") as file:
        file.write(recording(events))


def make(path, events):
    """Makes the file of a recording of so many events in a process of its own: what the system tells of a program's greatest memory
    begins with what the process that starts it needed at most."""
    maker = multiprocessing.Process(target=write, args=(path, events))
    maker.start()
    maker.join()
    if maker.exitcode != 0:
        sys.exit("the recording could not be made")


def measured(words):
    """The wall seconds, the processor seconds and the greatest memory in kilobytes of a run of the program."""
    began = time.monotonic()
    pid = os.posix_spawn(PROGRAM, [PROGRAM] + words, os.environ,
                         file_actions=[(os.POSIX_SPAWN_OPEN, 1, os.devnull, os.O_WRONLY, 0)])
    _, status, usage = os.wait4(pid, 0)
    if status != 0:
        sys.exit(f"{words} ended with status {status}")
    return time.monotonic() - began, usage.ru_utime + usage.ru_stime, usage.ru_maxrss


def compared(source, path, times):
    """The seconds of `check` and of `run --serial`, so many of each taken in turn, and the greatest memory of each in kilobytes."""
    pairs = [(measured(["check", source, path]), measured(["run", "--serial", source, path])) for _ in range(times)]
    checks = [check[0] for check, _ in pairs]
    runs = [run[0] for _, run in pairs]
    return checks, runs, max(check[2] for check, _ in pairs), max(run[2] for _, run in pairs)


def told(name, count, checks, runs, check_kb, run_kb):
    """The line of a script on a recording."""
    ratios = [run / check for check, run in zip(checks, runs)]
    check_s, run_s = statistics.median(checks), statistics.median(runs)
    return (f"{name:16}{count:>10}{check_s:>9.2f}{run_s:>8.2f}{run_s / check_s:>7.2f}{min(ratios):>7.2f}{max(ratios):>7.2f}"
            f"{check_kb / 1024:>10.0f}{run_kb / 1024:>8.0f}{(run_kb - check_kb) * 1024 / count:>16.0f}")


def main():
    events = int(sys.argv[1]) if len(sys.argv) > 1 else 500_000
    times = int(sys.argv[2]) if len(sys.argv) > 2 else 5
    if not os.path.exists(PROGRAM):
        sys.exit("build the program first: ./btreplay")
    with tempfile.TemporaryDirectory() as folder:
        print(f"{'script':16}{'events':>10}{'check s':>9}{'run s':>8}{'ratio':>7}{'least':>7}{'most':>7}"
              f"{'check MB':>10}{'run MB':>8}{'bytes an event':>16}")
        for count in (events, min(2 * events, 1_048_576)):
            path = os.path.join(folder, f"{count}.bin")
            make(path, count)
            for name, script in SCRIPTS:
                source = os.path.join(folder, "s.bt")
                with open(source, "w") as file:
                    file.write(script)
                print(told(name, count, *compared(source, path, times)), flush=True)


if __name__ == "__main__":
    main()
