"""The user and the group of a thread, as the kernel's events of the calls that change them tell, with a look right behind where there is one.

They are the real ones, in the numbers of the initial user namespace, as the kernel's `current_uid_gid` tells them. What a call asks for is
in the numbers of its caller's namespace, so the arguments tell only for threads of the initial one. execve changes neither.
"""
from bisect import bisect_left
from typing import NamedTuple

# The kernel gives no thread this user or group.
UNKNOWN = 0xFFFFFFFF
# What a call takes to leave a number as it is.
SAME = 0xFFFFFFFF
USER, GROUP, NAMESPACE = "user", "group", "namespace"
NEW_NAMESPACE = 0x10000000  # CLONE_NEWUSER
# What each call changes. The first argument is what it asks for the real number. setfsuid and setfsgid, which change others, are none of them.
CALLS = {"setuid": USER, "setreuid": USER, "setresuid": USER, "setgid": GROUP, "setregid": GROUP, "setresgid": GROUP,
         "unshare": NAMESPACE, "setns": NAMESPACE}
# They ask for all numbers of a thread that may do so, and for others than the real one of a thread that may not.
OF_PRIVILEGE = ("setuid", "setgid")
EXEC = "exec"
FOREVER = float("inf")
# The numbers of these calls for 32-bit callers on a 64-bit kernel, which are other calls' for 64-bit ones: a look alone tells what it was.
COMPAT = "compat"
COMPAT_NUMBERS = (23, 70, 164, 203, 208, 213, 46, 71, 170, 204, 210, 214)
# Settings under /proc/sys/abi that a kernel has which runs 32-bit programs.
COMPAT_SETTINGS = {"x86_64": ("vsyscall32",), "aarch64": ("cp15_barrier", "setend", "swp")}
COMPAT_FILTER = "ret == 0 && (" + " || ".join(f"id == {number}" for number in COMPAT_NUMBERS) + ")"


class Seen(NamedTuple):
    """A look at a thread: the times before and behind it, the user, the group, and whether it is of the initial user namespace."""

    before: int
    behind: int
    user: int
    group: int
    is_initial: bool


class Call(NamedTuple):
    """A call of a thread that may have changed what it is: when it began and came back, its name, and its first argument where it is known.

    `seen` is a look at what came of it, where there was one before the next such call. Of an exec the argument is the thread that it was.
    """

    began: int
    time: int
    thread: int
    name: str
    argument: int = None
    seen: Seen = None


def with_looks(calls, looks):
    """The calls of a recording, each with the look that came behind it and before the next call of its thread. `looks` has those of each thread,
    by time."""
    times = {thread: [seen.before for seen in of] for thread, of in looks.items()}
    following, following_compat, found = {}, {}, []
    for call in reversed(sorted(calls, key=lambda call: call.time)):
        is_compat = call.name == COMPAT
        until = min(following.get(call.thread, FOREVER), following_compat.get(call.thread, FOREVER) if is_compat else FOREVER)
        place = bisect_left(times.get(call.thread, ()), call.time)
        seen = looks[call.thread][place] if place < len(times.get(call.thread, ())) else None
        found.append(call._replace(seen=seen if seen and seen.behind <= until else None))
        (following_compat if is_compat else following)[call.thread] = call.began
    return found[::-1]


def after(user, group, is_initial, call):
    """The user, the group and the namespace of a thread behind a call, of which UNKNOWN is told where nobody knows it."""
    if call.seen:
        return call.seen.user, call.seen.group, call.seen.is_initial
    kind = CALLS.get(call.name)
    if kind == NAMESPACE:
        return user, group, is_initial and call.name == "unshare" and not (call.argument or 0) & NEW_NAMESPACE
    if kind == USER:
        return told(call, user, user, is_initial), group, is_initial
    if kind == GROUP:
        return user, told(call, group, user, is_initial), is_initial
    return user, group, is_initial


def leaves_all(call):
    """Whether a call leaves the real number as it is, and asks for others alone."""
    return CALLS.get(call.name, NAMESPACE) != NAMESPACE and call.name not in OF_PRIVILEGE and call.argument == SAME


def told(call, number, user, is_initial):
    """The number behind a call of a thread that has this number and this user, as the arguments tell."""
    if leaves_all(call):
        return number
    if call.argument is None or not is_initial or call.name in OF_PRIVILEGE and user != 0 and call.argument != number:
        return UNKNOWN
    return call.argument
