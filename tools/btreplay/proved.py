"""The proved program: where it is, how it is proved and built, and with what it was."""
import contextlib
import os
import pathlib
import shutil
import subprocess
import sys
import tempfile
import time

from btreplay.compiled import NotBuilt, asked_of_rt
from btreplay.places import CRATE, CRATES, INSTALLED_VERSION, TOP, is_checkout
from btreplay.running import tell
from btreplay.unproved import cache, locked, needed

PROGRAM = CRATE / "out" / "bt_program"
RECORD = CRATE / "out" / "proved_at"
# What the build does not read of a crate: what checks kept, and the wrong bodies that the gate tries.
LEFT_OUT = ("out", "must-fail")


def is_current():
    """Whether the program is built and none of its sources is newer."""
    try:
        built = PROGRAM.stat()
    except OSError:
        return False
    sources = [TOP / "crates.txt"] + [path for crate in CRATES.iterdir() for path in [crate / "src", *(crate / "src").rglob("*")]]
    return os.access(PROGRAM, os.X_OK) and not any(path.stat().st_mtime_ns > built.st_mtime_ns for path in sources if path.exists())


def jobs():
    """As many crates at a time as processors and memory hold, at 2 GB a crate."""
    room = len(os.sched_getaffinity(0))
    with contextlib.suppress(OSError, StopIteration, ValueError, IndexError):
        with open("/proc/meminfo") as file:
            free = next(line for line in file if line.startswith("MemAvailable:"))
        room = min(room, int(free.split()[1]) // 2_000_000)
    return max(room, 1)


def has_kept_work():
    """Whether checks by hand kept their work of a crate of the program, over which it is proved faster."""
    return any((CRATES / name / "out" / "incremental").is_dir() for name in needed())


def left(begun, proved, count):
    """About how long a proof still takes, by how long the crates took that are proved; nothing of the first minutes, which say little."""
    took = time.monotonic() - begun
    return f", about {round(took / proved * (count - proved) / 60) or 1} minutes left" if took > 300 and proved < count else ""


def run_proofs(words, folder, is_proved, log, **more):
    """Runs a command of the toolchain in a folder, with more words of the environment, tells at each line that says that a crate is proved how many
    are, and gives its status. What it says goes to the log."""
    count, proved, begun = len(needed()), 0, time.monotonic()
    with subprocess.Popen(words, cwd=folder, env={**os.environ, **more}, stdin=subprocess.DEVNULL, stdout=subprocess.PIPE, stderr=subprocess.STDOUT) as proofs:
        try:
            for line in proofs.stdout:
                log.write(line)
                if is_proved(line):
                    proved += 1
                    tell([f"crate {proved} of {count} is proved{left(begun, proved, count)}"])
        except BaseException:
            proofs.terminate()
            raise
    return proofs.returncode


def tell_begin():
    """Tells that a proof begins, and what it takes."""
    tell([f"proving and building the program, {len(needed())} crates, {jobs()} at a time; this takes a while the first time"])


def build_over_kept(log):
    """Proves the crates of the program over what checks by hand kept, and builds it. Says whether it is proved."""
    tell_begin()
    run_proofs(["rt", "all", "check", "--jobs", str(jobs())], CRATE, lambda line: line.startswith(b"logic=proved"), log)
    # With no words the program only says how it is used, so its own status says nothing here.
    run = subprocess.run(["rt", "run"], cwd=CRATE, stdin=subprocess.DEVNULL, stdout=subprocess.PIPE, stderr=subprocess.STDOUT)
    log.write(run.stdout)
    return any(line.startswith(b"logic=proved") for line in run.stdout.splitlines())


def copy_sources(folder):
    """Copies what the program is made from: its crates alone, without the wrong bodies that the gate tries of them."""
    # The toolchain takes a folder that has this one for the top of a repository, wherever it lies.
    (folder / ".git").mkdir()
    wanted = needed()
    lines = [line for line in (TOP / "crates.txt").read_text().splitlines() if line.strip() and line.partition(":")[0].split()[0] in wanted]
    (folder / "crates.txt").write_text("".join(f"{line}\n" for line in lines))
    shutil.copy(TOP / "HANDLES", folder)
    for name in wanted:
        shutil.copytree(CRATES / name, folder / "crates" / name, ignore=lambda at, _, top=str(CRATES / name): LEFT_OUT if at == top else ())


@contextlib.contextmanager
def room_to_prove():
    """A folder for a build from nothing, in the cache folder where there is one, in which one build goes on at a time."""
    try:
        kept = cache()
        lock = open(kept / "proving", "w")
    except OSError:
        with tempfile.TemporaryDirectory(prefix="btreplay-") as folder:
            yield pathlib.Path(folder)
        return
    with lock:
        locked(lock, "another proof goes on, of this checkout or another one; this waits for it")
        for path in kept.glob("proving-*"):
            shutil.rmtree(path, ignore_errors=True)
        with tempfile.TemporaryDirectory(prefix="proving-", dir=kept) as folder:
            yield pathlib.Path(folder)


def build_from_nothing(log):
    """Proves the crates of the program from nothing and builds it, as the gate does, in a folder of its own that is removed. Says whether it is proved.

    So the crates above read of those below what they state and not how it was proved, the longest chain comes first, and no look over all sources
    comes before: it takes less of the processors, and less memory, than a check over nothing kept. Each crate is proved by one process, as many
    crates at a time as there is room for: several processes for one crate take a third more of the processors."""
    with room_to_prove() as folder:
        if is_current():
            return True
        tell_begin()
        copy_sources(folder)
        status = run_proofs(["rt", "ci"], folder, lambda line: line.startswith(b"rt: ") and line.endswith(b" proved\n") and line.count(b" ") == 2, log,
                            RT_JOBS=str(jobs()))
        made = folder / "crates" / CRATE.name / "out" / PROGRAM.name
        if status != 0 or not os.access(made, os.X_OK):
            return False
        PROGRAM.parent.mkdir(exist_ok=True)
        part = PROGRAM.with_name(f"{PROGRAM.name}.{os.getpid()}")
        shutil.copy(made, part)
        os.replace(part, PROGRAM)
    return True


def build():
    """Proves and builds the program. It raises NotBuilt, with what the toolchain said, and OSError."""
    with tempfile.TemporaryFile() as log:
        with contextlib.suppress(FileNotFoundError):
            RECORD.unlink()
        is_proved = build_over_kept(log) if has_kept_work() else build_from_nothing(log)
        if not is_proved or not os.access(PROGRAM, os.X_OK):
            log.seek(0)
            raise NotBuilt(log.read().decode(errors="replace"))
    PROGRAM.touch()
    with contextlib.suppress(OSError):
        RECORD.write_text(f"proved with {asked_of_rt('version')} at {commit()}\n")


def in_background():
    """Begins a proof that goes on where the terminal closes, and gives its number and the file that it writes what it tells to."""
    try:
        log = cache() / "proving.log"
    except OSError:
        log = pathlib.Path(tempfile.mkdtemp(prefix="btreplay-"), "proving.log")
    with open(log, "wb") as file:
        words = [sys.executable, "-B", "-S", str(pathlib.Path(__file__).parent), "prove"]
        proof = subprocess.Popen(words, stdin=subprocess.DEVNULL, stdout=file, stderr=file, start_new_session=True)
    return proof.pid, log


def git(*words):
    """What git answers of this repository, or none."""
    with contextlib.suppress(OSError):
        done = subprocess.run(["git", "-C", str(TOP), *words], stdin=subprocess.DEVNULL, stdout=subprocess.PIPE, stderr=subprocess.DEVNULL)
        return done.stdout.decode(errors="replace").strip() if done.returncode == 0 else None
    return None


def commit():
    """The commit of the sources, in words."""
    found = git("rev-parse", "--short=12", "HEAD")
    if not found:
        return "no known commit"
    return f"commit {found}" + (", changed since" if git("status", "--porcelain", "--", "crates", "crates.txt") else "")


def version():
    """What --version tells: with what the program was proved, and at which commit."""
    if not is_checkout():
        return INSTALLED_VERSION.read_text().strip() if INSTALLED_VERSION.is_file() else "btreplay, installed without a word of its version"
    if not is_current():
        return f"btreplay at {commit()}, not proved and built here"
    with contextlib.suppress(OSError):
        return f"btreplay, {RECORD.read_text().strip()}"
    return f"btreplay, proved with {asked_of_rt('version')} at {commit()}"
