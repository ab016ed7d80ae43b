"""What a worker answers to the command: which recordings are there, and what one answers to a script.

It is one handler beside Dask's own. It takes a message and answers one, both bytes (`wire`). What may wait for a disk is done in threads that the worker
does not wait for, so that it hears others meanwhile. A run goes on while its asker asks for it, and ends some seconds after that.
"""
import asyncio
import getpass
import logging
import threading
import time
import uuid
from dataclasses import dataclass, field

from btfleet.asking import Question, Run, version
from btfleet.child import Ended, Limits, killed_for_memory
from btfleet.machine import this_machine
from btfleet.recording import NoRecording, look, recording_of
from btfleet.wire import FORM, Unreadable, coded, read
from btreplay.words import Answering

# The name of the handler, and of what the scheduler knows of a worker beside Dask's own.
NAME = "btfleet"
LOOK_SECONDS, LOOKS_AT_A_TIME = 3, 8
# How many threads may hang, before nothing more is begun.
MOST_HUNG = 64
# How long an answer is waited for in one message, and for how long a run goes on for which nobody asks.
TURN_SECONDS, LEASE_SECONDS = 1, 30
MOST_SCRIPT, MOST_PATHS, MOST_RUNS = 65_536, 100_000, 10_000
BUILD_SECONDS = 600

log = logging.getLogger("distributed.btfleet")


@dataclass(frozen=True)
class Allowed:
    """What the host's owner allows: the folders from which recordings are read, where there are some, and the limits of a run."""

    folders: tuple = ()
    limits: Limits = Limits()


@dataclass
class Asked:
    """A run that was asked for: when it was asked for last, the run, and its end as it comes."""

    by: str
    run: Run
    heard: float = field(default_factory=time.monotonic)
    ended: asyncio.Future = None


class Hung(Exception):
    """Something in a thread did not end in time."""


def in_a_thread(does, loop):
    """Does something in a thread that nobody waits for, and gives the future of what it gives."""
    found = loop.create_future()

    def put(how, what):
        if not found.done():
            how(what)

    def work():
        try:
            how, what = found.set_result, does()
        except Exception as fault:
            how, what = found.set_exception, fault
        try:
            loop.call_soon_threadsafe(put, how, what)
        except RuntimeError:
            pass

    threading.Thread(target=work, daemon=True, name="btfleet").start()
    return found


def told_of(path, folders):
    """The recording at a path as fields of a message, or why there is none."""
    try:
        return look(path, folders).fields()
    except NoRecording as fault:
        return {"fault": str(fault)}


def checked(fields, name, kind):
    """A field of a message; Unreadable where it is of another kind."""
    if type(fields.get(name)) is not kind:
        raise Unreadable(f"{name} is lacking")
    return fields[name]


def answering_of(fields):
    """Which program is to answer, of a message; Unreadable where it names none of them."""
    name = fields.get("answering", Answering.ANY.name)
    if name not in Answering.__members__:
        raise Unreadable("answering is none of the programs")
    return Answering[name]


class Host:
    """What this worker answers, so many runs at a time."""

    def __init__(self, allowed, count):
        self.allowed, self.room = allowed, asyncio.Semaphore(count)
        self.looks, self.runs, self.hung = asyncio.Semaphore(LOOKS_AT_A_TIME), {}, 0
        self.machine, self.start, self.began = this_machine(), uuid.uuid4().hex, killed_for_memory()
        self.does = {"look": self.look, "ask": self.ask, "wait": self.wait, "end": self.end}

    def known(self, _worker=None):
        """What the scheduler is told of this worker when it registers."""
        return {"form": FORM, "machine": self.machine.fields(), "start": self.start, "killed_for_memory": self.began}

    async def answer(self, message):
        """Answers a message by one; what is wrong with it is its answer."""
        try:
            fields, content = read(message)
            self.end_forgotten()
            return await self.does[checked(fields, "does", str)](fields, content)
        except (Unreadable, KeyError) as fault:
            return coded({"fault": f"the host does not know what is asked: {fault}"})
        except Exception as fault:
            log.exception("btfleet: a message could not be answered")
            return coded({"fault": f"the host could not answer: {type(fault).__name__}: {fault}"})

    async def timed(self, does, seconds):
        """Does something in a thread, for at most so many seconds; Hung where it does not end."""
        if self.hung >= MOST_HUNG:
            raise Hung(f"{MOST_HUNG} files there do not answer")
        future = in_a_thread(does, asyncio.get_running_loop())
        self.hung += 1
        future.add_done_callback(self.is_no_more_hung)
        try:
            return await asyncio.wait_for(asyncio.shield(future), seconds)
        except asyncio.TimeoutError as fault:
            raise Hung(f"the file did not answer within {seconds:g} seconds") from fault

    def is_no_more_hung(self, future):
        """A thread has ended."""
        self.hung -= 1
        if not future.cancelled():
            future.exception()

    async def look_at(self, path):
        """A recording as fields of a message, or why there is none, in a thread for this one alone."""
        async with self.looks:
            try:
                return await self.timed(lambda: told_of(path, self.allowed.folders), LOOK_SECONDS)
            except Hung as fault:
                return {"fault": str(fault)}

    async def look(self, fields, _):
        """What lies at paths, and the version of the program. One thread looks at all; where it hangs, one for each."""
        paths = checked(fields, "paths", list)
        if len(paths) > MOST_PATHS or not all(isinstance(path, str) and path.startswith("/") for path in paths):
            raise Unreadable("paths are lacking")
        try:
            found = await self.timed(lambda: [told_of(path, self.allowed.folders) for path in paths], LOOK_SECONDS)
        except Hung:
            found = await asyncio.gather(*map(self.look_at, paths))
        return coded({"found": dict(zip(paths, found)), "program": await self.version(answering_of(fields))})

    async def version(self, answering):
        """The version of the program there, in words."""
        try:
            return await self.timed(lambda: version(answering), LOOK_SECONDS)
        except (Hung, OSError) as fault:
            return f"unknown: {fault}"

    async def ask(self, fields, script):
        """Begins a run, and waits for it for a while."""
        name, path, by = (checked(fields, part, str) for part in ("run", "path", "by"))
        seen, seconds = recording_of(fields.get("seen")), fields.get("seconds")
        if not seen or len(script) > MOST_SCRIPT or len(self.runs) >= MOST_RUNS:
            raise Unreadable("the recording or the script is lacking, or too much is asked at a time")
        if name not in self.runs:
            limits = self.allowed.limits
            if type(seconds) in (int, float) and 0 < seconds < limits.seconds:
                limits = Limits(limits.memory, seconds, limits.printed)
            question = Question(script, path, seen, answering_of(fields))
            asked = self.runs[name] = Asked(by, Run(question, limits, self.allowed.folders))
            asked.ended = asyncio.ensure_future(self.run(asked))
        return await self.wait(fields, b"")

    async def run(self, asked):
        """Runs what was asked, where there is room for it, and notes it in the log."""
        async with self.room:
            began, question = time.monotonic(), asked.run.question
            seconds = asked.run.limits.seconds + BUILD_SECONDS * (question.answering is not Answering.PROVED) + 4 * LOOK_SECONDS
            try:
                ended = await self.timed(asked.run.answer, seconds)
            except Hung as fault:
                asked.run.end("its time is over")
                ended = Ended(-1, b"", b"", str(fault))
            log.info("btfleet: %s asked %r of %s: %s, %.1f seconds, %d bytes", asked.by, question.script[:200].decode("latin-1"), question.path,
                     ended.why or f"status {ended.status}", time.monotonic() - began, len(ended.printed))
        return ended

    async def wait(self, fields, _):
        """How a run ended, or that it goes on."""
        name = checked(fields, "run", str)
        asked = self.runs.get(name)
        if not asked:
            return coded({"state": "unknown"})
        asked.heard = time.monotonic()
        done, _ = await asyncio.wait([asked.ended], timeout=TURN_SECONDS)
        if not done:
            return coded({"state": "running" if asked.run.child else "waiting"})
        self.runs.pop(name, None)
        ended = asked.ended.result()
        told = ended.told.decode("latin-1")
        return coded({"state": "ended", "status": ended.status, "told": told, "why": ended.why}, ended.printed)

    async def end(self, fields, _):
        """Ends runs."""
        for name in checked(fields, "runs", list):
            self.drop(name, "its asker ended it")
        return coded({})

    def drop(self, name, why):
        """Ends a run that nobody asks for any more."""
        asked = self.runs.pop(name, None) if isinstance(name, str) else None
        if asked:
            asked.run.end(why)

    def end_forgotten(self):
        """Ends the runs for which nobody has asked for a while."""
        now = time.monotonic()
        for name in [name for name, asked in self.runs.items() if now - asked.heard > LEASE_SECONDS]:
            self.drop(name, "nobody asks for it any more")

    async def watch(self):
        """Looks after forgotten runs for as long as the worker is there."""
        while True:
            await asyncio.sleep(TURN_SECONDS)
            self.end_forgotten()

    def end_all(self):
        """Ends all runs."""
        for name in list(self.runs):
            self.drop(name, "the worker ends")


def asker():
    """Who asks, by the word of the asker itself."""
    try:
        user = getpass.getuser()
    except (KeyError, OSError):
        user = "somebody"
    return f"{user}@{this_machine().name}"


def serve(worker, allowed):
    """Lets a worker answer the command. It gives the host, and the task that looks after its runs."""
    host = Host(allowed, worker.state.nthreads)
    worker.handlers[NAME] = host.answer
    worker.startup_information[NAME] = host.known
    return host, asyncio.ensure_future(host.watch())
