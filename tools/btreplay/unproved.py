"""The build that is not proved: made once, and kept by the checksum of what it is made from."""
import contextlib
import errno
import fcntl
import hashlib
import os
import pathlib
import shutil
import tempfile

from btreplay.compiled import LEVEL, made
from btreplay.places import CRATES, TOP
from btreplay.running import tell

MOST_KEPT = 3
# What changes with the way in which the code is built.
FORM = f"{LEVEL} in parts"


def needed():
    """The names of the crates that the program stands on, itself included, in the order of crates.txt, in which they stand on each other."""
    below = {}
    for line in (TOP / "crates.txt").read_text().splitlines():
        if line.strip() and not line.startswith("#"):
            head, _, rest = line.partition(":")
            below[head.split()[0]] = rest.split()
    found, left = set(), ["bt_program"]
    while left:
        name = left.pop()
        if name in below and name not in found:
            found.add(name)
            left += below[name]
    return [name for name in below if name in found]


def toolchain():
    """What tells one toolchain from another at once: where `rt` is, its size and when it was written."""
    path = os.path.realpath(shutil.which("rt") or "rt")
    with contextlib.suppress(OSError):
        found = os.stat(path)
        return f"{path} {found.st_size} {found.st_mtime_ns}"
    return path


def checksum():
    """The checksum of all that the build is made from: the toolchain, how it optimises, the list of crates, and the sources of those that the
    program needs."""
    found = hashlib.sha256(f"{toolchain()} {FORM}".encode())
    paths = [TOP / "crates.txt"] + [path for name in sorted(needed()) for path in sorted((CRATES / name / "src").rglob("*")) if path.is_file()]
    for path in paths:
        content = path.read_bytes()
        found.update(f"\n{path.relative_to(TOP)} {len(content)}\n".encode())
        found.update(content)
    return found.hexdigest()[:32]


def cache():
    """The folder for builds: btreplay's own in the user's cache folder. It is made where it is not there, and OSError is raised where it cannot be."""
    named = os.environ.get("XDG_CACHE_HOME", "")
    place = named if os.path.isabs(named) else os.path.expanduser("~/.cache")
    if not os.path.isabs(place):
        raise FileNotFoundError(errno.ENOENT, "there is no home folder", "~/.cache")
    folder = pathlib.Path(place, "btreplay")
    folder.mkdir(mode=0o700, parents=True, exist_ok=True)
    return folder


def tidy(folder, wanted):
    """Removes what a killed build left, and the builds that were not used for longest, but for so many."""
    for path in folder.glob("building-*"):
        shutil.rmtree(path, ignore_errors=True)
    builds = sorted(folder.glob("unproved-*"), key=lambda path: path.stat().st_mtime, reverse=True)
    for path in [path for path in builds if path.name != wanted][MOST_KEPT - 1:]:
        with contextlib.suppress(FileNotFoundError):
            path.unlink()


def locked(lock, waits):
    """Takes a lock for this process alone, and tells first that it waits where another has it."""
    try:
        fcntl.flock(lock, fcntl.LOCK_EX | fcntl.LOCK_NB)
    except BlockingIOError:
        tell([waits])
        fcntl.flock(lock, fcntl.LOCK_EX)


def kept_build(folder):
    """The build of the sources as they are, from a folder that keeps builds: made where it is not there."""
    name = f"unproved-{checksum()}"
    path = folder / name
    with open(folder / "lock", "w") as lock:
        if not path.is_file():
            locked(lock, "another build that is not proved is being made; this waits for it")
        if not path.is_file():
            tidy(folder, name)
            with tempfile.TemporaryDirectory(prefix="building-", dir=folder) as work:
                os.replace(made(work, needed()), path)
            tidy(folder, name)
    os.utime(path)
    return path


@contextlib.contextmanager
def build():
    """The path of the build, while it is used. Where nothing can be kept that is told, and it is made for this use alone."""
    try:
        folder = cache()
        (folder / "lock").touch()
    except OSError as error:
        folder = None
        tell([f"{error.filename or 'the folder for builds'}: {error.strerror}, so the build is made for this use alone; XDG_CACHE_HOME names another "
              "folder to keep it in"])
    if folder:
        yield kept_build(folder)
        return
    with tempfile.TemporaryDirectory(prefix="btreplay-") as work:
        yield made(work, needed())
