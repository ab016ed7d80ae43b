#!/usr/bin/env python3
"""Measures one run of the gate: python3 bench/gate.py [REPORT [COMMAND ..]]

As root, at the top of the repository, it runs `rt ci --anew`, or another command, with the kernel's accounting of processes turned on, which counts the
processor time of each process to its end, and notes meanwhile, every tenth of a second, which crate each process works for that comes from the command,
by its folder and its words. What ends without being seen goes to the crate of the process that began it. The accounting is of the whole machine, into a
file that is removed again, and is turned off at the end; what does not come from the command is not counted.

Then it prints, and writes to the file REPORT where one is given, the processor seconds of each crate: of its proof, with the building of a program, of its
tests, of its edits, and of a program's second build, by the compiler that is written in Rattle; their sums, beside what the command took with all its
processes; what the first build takes of it; and the dearest chains of crates by the seconds of proofs.
"""
import collections
import contextlib
import ctypes
import os
import pathlib
import re
import resource
import struct
import subprocess
import sys
import tempfile
import threading
import time

import proofs

TOP = pathlib.Path(__file__).resolve().parent.parent
EVERY = 0.1
RECORD = struct.Struct("<BBHIIIIIIfHHHHHHHH16s")
TICKS = 100
SECOND_COMPILER = "rattle-x64"
# A program is built once more by the compiler that is written in Rattle, which only the gate does.
KINDS = ("proof", "tests", "edits", "second compiler")


class Watch(threading.Thread):
    """Notes of each process that comes from the command whose child it is, and for which crate it works and how."""

    def __init__(self, first):
        super().__init__(daemon=True)
        self.first = first
        self.seen = {}
        self.ended = threading.Event()

    def run(self):
        while not self.ended.wait(EVERY):
            self.look()

    def look(self):
        """Notes those that are there now."""
        found = {}
        for name in os.listdir("/proc"):
            if name.isdigit():
                with contextlib.suppress(OSError, ValueError, IndexError):
                    fields = pathlib.Path(f"/proc/{name}/stat").read_text().rpartition(")")[2].split()
                    found[int(name)] = int(fields[1]), int(fields[19])
        for pid in found:
            above = pid
            while above in found and above != self.first:
                above = found[above][0]
            if above == self.first:
                self.note(pid, *found[pid])

    def note(self, pid, parent, began):
        known = self.seen.get((pid, began))
        if known and known[1] in KINDS:
            return
        with contextlib.suppress(OSError):
            words = pathlib.Path(f"/proc/{pid}/cmdline").read_bytes().decode(errors="replace").split("\0")
            self.seen[pid, began] = (*work_of(words, os.readlink(f"/proc/{pid}/cwd")), parent)


def work_of(words, folder):
    """For which crate a process works, and how: by the name of the crate that it is given, or by the folder that it is in."""
    text = " ".join(words)
    found = re.search(r"--crate-name (\w+)", text) or re.search(r"/crates/(\w+)(/|$)", folder) or re.search(r"/crates/(\w+)/", text)
    if not found:
        return None, None
    if "/rt-edit" in folder or "/rt-edit" in text:
        return found[1], "edits"
    if "--test" in words:
        return found[1], "tests"
    return found[1], "second compiler" if is_second_compiler(words) else "proof"


def is_second_compiler(words):
    """Whether a process builds by the compiler that is written in Rattle."""
    return ("--backend", "rattle") in zip(words, words[1:]) or os.path.basename(words[0]) == SECOND_COMPILER


def spent(number):
    """A number of the accounting, in seconds: three bits of exponent to the base of eight, and 13 of mantissa."""
    return ((number & 0x1FFF) << (3 * (number >> 13))) / TICKS


def records(path):
    """Each process that ended: its number, its parent's, the second in which it began, and its processor seconds."""
    for fields in RECORD.iter_unpack(path.read_bytes()):
        yield fields[6], fields[7], fields[8], spent(fields[10]) + spent(fields[11])


def booted():
    """The second in which the machine was booted."""
    return int(re.search(r"btime (\d+)", pathlib.Path("/proc/stat").read_text())[1])


def accounted(path, seen):
    """The seconds of each crate and kind, and of what has none, from the records of the processes and what was seen of them."""
    boot = booted()
    at = collections.defaultdict(list)
    for (pid, began), it in seen.items():
        at[pid].append((boot + began / os.sysconf("SC_CLK_TCK"), it))
    ended = list(records(path))
    began_of = collections.defaultdict(list)
    for pid, parent, began, _ in ended:
        began_of[pid].append((began, parent))

    def known(pid, began):
        near = [it for it in at[pid] if abs(it[0] - began) <= 2]
        return min(near, key=lambda it: abs(it[0] - began))[1] if near else None

    def owner(pid, parent, began):
        for _ in range(50):
            it = known(pid, began)
            if it and it[0]:
                return it[0], it[1]
            if it:
                parent = it[2]
            older = [one for one in at[parent] if one[0] <= began + 2] or [(one[0], (None, None, one[1])) for one in began_of[parent] if one[0] <= began + 2]
            if not older:
                return None
            began, (crate, kind, above) = max(older, key=lambda one: one[0])
            if crate:
                return crate, kind
            pid, parent = parent, above
        return None

    sums = collections.Counter()
    for pid, parent, began, seconds in ended:
        sums[owner(pid, parent, began)] += seconds
    return sums


def chains(sums, names):
    """The dearest chain of crates that ends in each crate, by the seconds of the proofs."""
    best = {}

    def chain(crate):
        if crate not in best:
            below = max((chain(it) for it in names[crate] if it in names), default=(0, ()))
            best[crate] = (below[0] + sums[crate, "proof"], (*below[1], crate))
        return best[crate]

    for crate in names:
        chain(crate)
    return best


def told(sums, wall, children, names):
    """The lines of the report."""
    crates = sorted({it[0] for it in sums if it}, key=lambda it: -sum(sums[it, kind] for kind in KINDS))
    lines = [f"| Crate | {' | '.join(kind.capitalize() for kind in KINDS)} |", "|---" * (len(KINDS) + 1) + "|"]
    for crate in crates:
        cells = [f"{sums[crate, kind]:,.0f}" if sums[crate, kind] >= 0.5 else "" for kind in KINDS]
        lines.append(f"| `{crate}` | {' | '.join(cells)} |")
    lines += [f"{kind}: {sum(sums[it, kind] for it in crates):,.0f}" for kind in KINDS]
    known = sum(sums[it, kind] for it in crates for kind in KINDS)
    lines.append(f"of crates: {known:,.0f} seconds, {known / 60:.1f} minutes of processors; the command with all its processes: {children:,.0f}; by the clock: {wall:,.0f}")
    best = chains(sums, names)
    first = {"bt_program"} & set(best)
    for crate in first:
        below, left = {crate}, [crate]
        while left:
            left += [it for it in names[left.pop()] if it in names and it not in below and not below.add(it)]
        proofs = sum(sums[it, "proof"] for it in below)
        lines.append(f"the first build: {len(below) - 1} crates and the program, {proofs:,.0f} seconds, {proofs / 60:.1f} minutes")
    for crate in [it for it in ("bt_program", "bt_top") if it in best]:
        ways = sorted((best[it] for it in names[crate] if it in best), reverse=True)[:6]
        lines += [f"to {crate}: {seconds + sums[crate, 'proof']:,.0f}: {' '.join(way)}" for seconds, way in ways]
    return lines


def main(words):
    """Runs the command, and prints the report. The status is the command's."""
    report, command = (words[0] if words else None), words[1:] or ["rt", "ci", "--anew"]
    libc = ctypes.CDLL(None, use_errno=True)
    with tempfile.TemporaryDirectory(prefix="gate-") as room:
        path = pathlib.Path(room) / "acct"
        path.touch(mode=0o600)
        if libc.acct(bytes(path)):
            sys.exit(f"the accounting of processes cannot be turned on: {os.strerror(ctypes.get_errno())}")
        began = time.monotonic()
        try:
            run = subprocess.Popen(command, cwd=TOP)
            watch = Watch(run.pid)
            watch.start()
            status = run.wait()
        finally:
            libc.acct(None)
        watch.ended.set()
        watch.join()
        wall = time.monotonic() - began
        used = resource.getrusage(resource.RUSAGE_CHILDREN)
        sums = accounted(path, watch.seen)
    lines = told(sums, wall, used.ru_utime + used.ru_stime, proofs.dependencies())
    print("\n".join(lines))
    if report:
        pathlib.Path(report).write_text("\n".join(lines) + "\n")
    return status


if __name__ == "__main__":
    sys.exit(main(sys.argv[1:]))
