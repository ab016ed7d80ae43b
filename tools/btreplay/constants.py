"""Names of constants of the kernel and of C, which scripts of bpftrace have from headers, with their values on Linux."""
import errno
import mmap
import os
import re
import signal
import socket
import stat

OWN = {"TASK_RUNNING": 0, "TASK_INTERRUPTIBLE": 1, "TASK_UNINTERRUPTIBLE": 2, "NULL": 0, "true": 1, "false": 0,
       "FUTEX_WAIT": 0, "FUTEX_WAKE": 1, "FUTEX_FD": 2, "FUTEX_REQUEUE": 3, "FUTEX_CMP_REQUEUE": 4, "FUTEX_WAKE_OP": 5, "FUTEX_LOCK_PI": 6,
       "FUTEX_UNLOCK_PI": 7, "FUTEX_TRYLOCK_PI": 8, "FUTEX_WAIT_BITSET": 9, "FUTEX_WAKE_BITSET": 10, "FUTEX_PRIVATE_FLAG": 128, "FUTEX_CMD_MASK": -385,
       "FUTEX_CLOCK_REALTIME": 256, "FUTEX_WAIT_PRIVATE": 128, "FUTEX_WAKE_PRIVATE": 129, "AT_FDCWD": -100,
       "HI_SOFTIRQ": 0, "TIMER_SOFTIRQ": 1, "NET_TX_SOFTIRQ": 2, "NET_RX_SOFTIRQ": 3, "BLOCK_SOFTIRQ": 4, "IRQ_POLL_SOFTIRQ": 5,
       "TASKLET_SOFTIRQ": 6, "SCHED_SOFTIRQ": 7, "HRTIMER_SOFTIRQ": 8, "RCU_SOFTIRQ": 9}
# The prefixes of names, and the module of Python that has them.
OF_PYTHON = {"E": errno, "SIG": signal, "O_": os, "AF_": socket, "SOCK_": socket, "IPPROTO_": socket, "S_I": stat, "PROT_": mmap, "MAP_": mmap}
NAME = re.compile(r"_*[A-Z][A-Z0-9_]+")


def value_of(name):
    """The value of a constant by its name, or none where it is not known here."""
    if name in OWN:
        return OWN[name]
    found = next((getattr(module, name, None) for prefix, module in OF_PYTHON.items() if name.startswith(prefix)), None)
    return int(found) if isinstance(found, int) else None


def about_constant(name):
    """What to write for a name of a constant, or nothing where a word is no such name."""
    value = value_of(name)
    if value is not None:
        return f"names of the kernel's constants are not known here: write {value}"
    return "names of the kernel's constants are not known here: write the number" if NAME.fullmatch(name) else ""
