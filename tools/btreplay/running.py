"""Runs the program, with the caller's streams and the program's own status."""
import contextlib
import os
import resource
import select
import signal
import subprocess
import sys
from dataclasses import dataclass

HUGE_PAGES = "glibc.malloc.hugetlb=1"
# So much stack is enough for a run of every script that could be found.
STACK = 1_048_576
PASSED_ON = (signal.SIGINT, signal.SIGTERM, signal.SIGHUP, signal.SIGQUIT)


@dataclass(frozen=True)
class Ended:
    """How a run of the program ended: its status, which is below 0 for a signal, and what it told on standard error."""

    status: int
    told: bytes


def with_huge_pages(environment):
    """The environment of the program: its C library asks the system for huge pages, which are given where the system gives them by asking, and
    with which a large recording is read faster. What the caller tells the C library otherwise stands."""
    told = [tunable for tunable in environment.get("GLIBC_TUNABLES", "").split(":") if tunable]
    if any(tunable.startswith("glibc.malloc.hugetlb=") for tunable in told):
        return environment
    return {**environment, "GLIBC_TUNABLES": ":".join([*told, HUGE_PAGES])}


def stack_here():
    """How much stack a program gets that is run from here, in bytes, after more was asked for where it is less than a run wants and may be raised."""
    soft, hard = resource.getrlimit(resource.RLIMIT_STACK)
    if soft == resource.RLIM_INFINITY or soft >= STACK:
        return STACK
    wanted = STACK if hard == resource.RLIM_INFINITY else min(STACK, hard)
    with contextlib.suppress(OSError, ValueError):
        resource.setrlimit(resource.RLIMIT_STACK, (wanted, hard))
        return wanted
    return soft


def run_program(program, words, output=None, meanwhile=lambda: None):
    """Runs the program with words and the caller's standard input and output, and does `meanwhile` beside it.

    It has all files that the caller left open for it, as those of a shell's <(..). Signals that would end this command go to the program, whose end is waited for. What the program tells is handed back."""
    stack_here()
    child = subprocess.Popen([str(program), *words], close_fds=False, stdout=output, stderr=subprocess.PIPE,
                             env=with_huge_pages(dict(os.environ)))
    before = {}
    try:
        for number in PASSED_ON:
            if signal.getsignal(number) != signal.SIG_IGN:
                before[number] = signal.signal(number, lambda got, _: child.send_signal(got))
        meanwhile()
        output_of, told = child.communicate()
    except BaseException:
        child.kill()
        child.wait()
        raise
    finally:
        for number, handler in before.items():
            signal.signal(number, handler)
    return Ended(child.returncode, told), output_of


def is_read_no_more(handle=1):
    """Whether standard output is a pipe or a socket whose other end is closed."""
    poll = select.poll()
    poll.register(handle, select.POLLOUT)
    return any(found & select.POLLERR for _, found in poll.poll(0))


def end_in_order():
    """Lets the signals that end a program end this one as a fault does, so that what a build has begun is stopped and removed."""
    for number in (signal.SIGTERM, signal.SIGHUP):
        if signal.getsignal(number) != signal.SIG_IGN:
            signal.signal(number, lambda got, _: sys.exit(128 + got))


def hold_streams():
    """Puts a file that takes nothing in the place of each standard stream that is closed, so that no file of this command gets its number.

    The program does not get it: it finds the stream closed. What this command says goes nowhere then, and is never refused for its letters."""
    for number in (0, 1, 2):
        try:
            os.fstat(number)
        except OSError:
            os.open(os.devnull, os.O_RDONLY)
    sys.stdout = sys.stdout or open(os.devnull, "w")
    sys.stderr = sys.stderr or open(os.devnull, "w")
    for stream in (sys.stdout, sys.stderr):
        stream.reconfigure(errors="backslashreplace")


def tell(lines):
    """Writes lines of this command to standard error."""
    with contextlib.suppress(OSError):
        sys.stderr.write("".join(f"btreplay: {line}\n" for line in lines))
        sys.stderr.flush()


def pass_on(told):
    """Writes what the program told, to the byte."""
    with contextlib.suppress(OSError):
        sys.stderr.buffer.write(told)
        sys.stderr.flush()


def end_as(status):
    """The status to end with; where the program was ended by a signal, this command ends by the same one."""
    if status < 0:
        with contextlib.suppress(OSError, ValueError):
            signal.signal(-status, signal.SIG_DFL)
            os.kill(os.getpid(), -status)
        return 128 - status
    return status
