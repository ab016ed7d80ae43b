#!/usr/bin/env python3
"""Measures one script over many small recordings: /usr/bin/python3 bench/fleet.py [--scheduler ADDRESS] BTFLEET PROGRAM [COUNT ..]

BTFLEET is the command (tools/btfleet, or an installed one), PROGRAM the built program, which makes 1,000 recordings of 200
events. For each COUNT (1, 100, 200, 500 and 1,000 where none is said) it tells the seconds from the beginning to the end of
`btfleet run`, the processor seconds of it and of what it began, and the milliseconds for each recording beyond the first.
"""
import argparse
import pathlib
import resource
import subprocess
import sys
import tempfile
import time

MOST, EVENTS = 1000, 200
COUNTS = [1, 100, 200, 500, MOST]
SCRIPT = "t:raw_syscalls:sys_enter { @calls[comm] = count(); @ids = hist(args.id); }"


def processor_seconds():
    """What all that was begun has taken of the processors."""
    found = resource.getrusage(resource.RUSAGE_CHILDREN)
    return found.ru_utime + found.ru_stime


def measured(words):
    """The seconds and the processor seconds of a command, which has to do all."""
    began, before = time.monotonic(), processor_seconds()
    subprocess.run(words, check=True, stdout=subprocess.DEVNULL, stderr=subprocess.DEVNULL)
    return time.monotonic() - began, processor_seconds() - before


def main():
    """Measures, and prints a row for each count."""
    words = argparse.ArgumentParser(description="Measures one script over many small recordings.")
    words.add_argument("--scheduler", metavar="ADDRESS")
    words.add_argument("btfleet")
    words.add_argument("program")
    words.add_argument("counts", nargs="*", type=int, metavar="COUNT")
    asked = words.parse_args()
    command = [sys.executable, asked.btfleet] if pathlib.Path(asked.btfleet).is_dir() else [asked.btfleet]
    at = ["--scheduler", asked.scheduler] if asked.scheduler else []
    with tempfile.TemporaryDirectory() as name:
        folder = pathlib.Path(name)
        (folder / "s.bt").write_text(SCRIPT)
        recordings = [folder / f"{number}.btr" for number in range(MOST)]
        for number, path in enumerate(recordings):
            path.write_bytes(subprocess.run([asked.program, "gen", str(number), str(EVENTS)], check=True, stdout=subprocess.PIPE).stdout)
        print("| recordings | seconds | processor seconds | ms for each beyond the first |\n|---|---|---|---|")
        first = None
        for count in asked.counts or COUNTS:
            seconds, used = measured([*command, "run", str(folder / "s.bt"), *map(str, recordings[:count]), *at])
            first = first or (count, seconds)
            each = f"{1000 * (seconds - first[1]) / (count - first[0]):.1f}" if count > first[0] else ""
            print(f"| {count:,} | {seconds:.1f} | {used:.1f} | {each} |", flush=True)


if __name__ == "__main__":
    main()
