#!/usr/bin/env python3
"""Refuses each request for memory of two runs in turn, by hand: python3 bench/refuse_memory.py [PROGRAM]

One run is on one thread, of a script of start times in a shared map; the other is on threads, of a count with an interval that prints it.
Both are cases of crates/bt_cases. PROGRAM is the built program crates/bt_program/out/bt_program where none is named; it has to take
its memory from the C library, as the proved program does. A library that stands before the C library counts the requests for memory of the
process, those of the C library for itself among them, and refuses the one that it is told. Each such run has to end with status 0 and the whole
output, or with status 6, nothing in the output and the line of want of memory. On threads the number of requests differs from run to run, so
each number up to the greatest that was seen is refused ten times.

It needs a C compiler (CC, or cc or clang on the path). What it builds stands in a folder that is removed at the end. It ends with status 1 where a
run ends otherwise.
"""
import collections
import json
import mmap
import os
import shutil
import struct
import subprocess
import sys
import tempfile

from serial import PROGRAM, TOP

CASES = os.path.join(TOP, "crates", "bt_cases", "data")
# The file, the words and the beginning of the script of each case, and how often each request is refused.
RUNS = [("rows.jsonl", ["run", "--serial"], "tracepoint:t:enter { @start[tid] = nsecs; }", 1),
        ("schedules.jsonl", ["run"], "tracepoint:t:e { @ = count(); } interval:s:1 { print(@); }", 10)]
SECONDS = 60
LIBRARY = r"""
#include <errno.h>
#include <fcntl.h>
#include <stddef.h>
#include <stdlib.h>
#include <sys/mman.h>
#include <unistd.h>

extern void *__libc_malloc(size_t), *__libc_calloc(size_t, size_t), *__libc_realloc(void *, size_t), *__libc_memalign(size_t, size_t);

/* The number of the request that is refused, and how many there were: two words of a file that the parent reads. */
static unsigned long *words, idle[2];

static int is_refused(void) {
    if (words == NULL) {
        const char *path = getenv("REFUSE_MEMORY");
        int file = path == NULL ? -1 : open(path, O_RDWR);
        void *mapped = file < 0 ? MAP_FAILED : mmap(NULL, sizeof idle, PROT_READ | PROT_WRITE, MAP_SHARED, file, 0);
        words = mapped == MAP_FAILED ? idle : mapped;
        if (file >= 0)
            close(file);
    }
    if (__atomic_add_fetch(&words[1], 1, __ATOMIC_SEQ_CST) != words[0])
        return 0;
    errno = ENOMEM;
    return 1;
}

void *malloc(size_t size) { return is_refused() ? NULL : __libc_malloc(size); }
void *calloc(size_t count, size_t size) { return is_refused() ? NULL : __libc_calloc(count, size); }
void *realloc(void *old, size_t size) { return is_refused() ? NULL : __libc_realloc(old, size); }
void *memalign(size_t align, size_t size) { return is_refused() ? NULL : __libc_memalign(align, size); }
void *aligned_alloc(size_t align, size_t size) { return is_refused() ? NULL : __libc_memalign(align, size); }
int posix_memalign(void **place, size_t align, size_t size) {
    void *made = is_refused() ? NULL : __libc_memalign(align, size);
    if (made == NULL)
        return ENOMEM;
    *place = made;
    return 0;
}
"""


def built(folder):
    """The path of the library that refuses."""
    compiler = os.environ.get("CC") or shutil.which("cc") or shutil.which("clang")
    if not compiler:
        sys.exit("there is no C compiler: set CC")
    source, library = os.path.join(folder, "refuse.c"), os.path.join(folder, "refuse.so")
    with open(source, "w") as file:
        file.write(LIBRARY)
    subprocess.run([compiler, "-O1", "-fno-builtin", "-shared", "-fPIC", "-o", library, source], check=True)
    return library


def case_of(name, words, script):
    """The case of a file with these first words whose script begins so."""
    with open(os.path.join(CASES, name)) as file:
        for line in file:
            case = json.loads(line)
            if case["words"] == words + ["s.bt", "r.bin"] and case["script"].startswith(script):
                return case
    sys.exit(f"{name} has no case of {words} that begins with {script}")


def is_due(case, status, output, errors):
    """Whether a run ended well with what the case wants, or for want of memory with nothing."""
    wanted = [text.encode() for text in case.get("outs") or [case["out"]]]
    return status == 0 and output in wanted and not errors or (status, output, errors) == (6, b"", b"out of memory\n")


class Refusing:
    """Runs of a program, each with one of its requests for memory refused."""

    def __init__(self, program, folder):
        self.words, self.folder = [os.path.abspath(program)], folder
        self.environment = {**os.environ, "LD_PRELOAD": built(folder), "REFUSE_MEMORY": os.path.join(folder, "count")}

    def run(self, words, number):
        """The status and the texts of a run whose request of this number is refused, and how many requests there were. 0 refuses none."""
        with open(self.environment["REFUSE_MEMORY"], "wb+") as file:
            file.write(struct.pack("QQ", number, 0))
            file.flush()
            # The names of its files are those of the case, in the folder.
            done = subprocess.run(self.words + words, cwd=self.folder, env=self.environment, capture_output=True, timeout=SECONDS)
            with mmap.mmap(file.fileno(), 0) as words:
                return done.returncode, done.stdout, done.stderr, struct.unpack("QQ", words[:16])[1]

    def tried(self, case, times):
        """How many requests there are at most, how each run ended, and which ended as they must not."""
        with open(os.path.join(self.folder, "s.bt"), "w") as file:
            file.write(case["script"])
        with open(os.path.join(self.folder, "r.bin"), "wb") as file:
            file.write(bytes.fromhex(case["recording"]))
        *came, most = self.run(case["words"], 0)
        if came[0] != 0 or not is_due(case, *came) or most == 0:
            sys.exit(f"without a refusal {case['words']} came to {came}, with {most} requests")
        ends, bad, number = collections.Counter(), [], 0
        while number < most:
            number += 1
            for _ in range(times):
                *came, count = self.run(case["words"], number)
                most = max(most, count) if came[0] == 0 else most
                ends[came[0]] += 1
                if not is_due(case, *came):
                    bad.append((number, came))
        return most, ends, bad


def main():
    program = sys.argv[1] if len(sys.argv) > 1 else PROGRAM
    if not os.path.exists(program):
        sys.exit("build the program first: ./btreplay")
    is_well = True
    with tempfile.TemporaryDirectory() as folder:
        refusing = Refusing(program, folder)
        for name, words, script, times in RUNS:
            most, ends, bad = refusing.tried(case_of(name, words, script), times)
            is_well = is_well and not bad
            told = ", ".join(f"{count} ended with status {status}" for status, count in sorted(ends.items()))
            print(f"{' '.join(words)}: {most} requests for memory, each refused {times} times: {told}; {len(bad)} otherwise than they must")
            for number, came in bad[:20]:
                print(f"  request {number}: {came}")
    sys.exit(0 if is_well else 1)


if __name__ == "__main__":
    main()
