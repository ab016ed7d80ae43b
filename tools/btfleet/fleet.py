"""Asks the hosts for all recordings, and hands on what each answers as it comes.

What a worker was asked that dies or falls silent is asked of another one that holds the recording. Where there is none, this waits some seconds for one, as
a nanny starts a worker anew.
"""
import asyncio
import collections
import contextlib
import time
import uuid
from dataclasses import dataclass, field

from btfleet.child import Ended
from btfleet.engine import CONNECT_SECONDS, Gone, Lost, Silent, Unknowing
from btfleet.hosts import hosts_of
from btfleet.serving import asker
from btfleet.wire import Unreadable
from btreplay.words import Answering

LOOK_SECONDS = 1
GRACE_SECONDS = 20
HANG_SECONDS = 30
END_SECONDS = 3
MOST_DEATHS = 4
STATES = ("waiting", "running", "silent")
GONE = "the scheduler is gone"
KILLED = ", and processes were killed there for want of memory meanwhile"
DIED, LEFT = "each worker that was asked died of it", "no worker that holds it is there any more"


class Unasked(Exception):
    """Why a recording could not be asked."""


@dataclass
class Waits:
    """A recording that has not answered: how many workers died of it, since when none is there that holds it, whether a worker is asked, and what to tell
    where none answers it."""

    asked: object
    deaths: int = 0
    since: float = None
    is_out: bool = False
    why: str = LEFT
    tried: set = field(default_factory=set)


@dataclass
class Question:
    """What is asked of all recordings: the script, which programs are to answer, and how many seconds a run may take, if that is said."""

    script: bytes
    answering: Answering = Answering.ANY
    seconds: float = None


class Fleet:
    """The recordings that are asked and have not answered, by the places of the hosts that hold them, and the workers that are asked."""

    def __init__(self, link, question, progress):
        self.link, self.question, self.progress = link, question, progress
        self.left, self.queues = {}, collections.defaultdict(collections.deque)
        self.came, self.has_come, self.slots, self.runs, self.live = collections.deque(), asyncio.Event(), {}, {}, {}
        self.gone, self.killed, self.short = None, {}, set()
        self.left_text = LEFT

    async def answers(self, all_asked, known):
        """Asks all, and yields each recording with what it answers, or why it does not, as these come; and nothing where a while went by."""
        for asked in all_asked:
            if asked.seen is None:
                yield asked, Unasked(asked.cause)
                continue
            waits = self.left[asked.place] = Waits(asked)
            for place in asked.holders:
                self.queues[place].append(waits)
        self.employ(known)
        watch = asyncio.ensure_future(self.watch())
        try:
            while self.left or self.came:
                if not self.came:
                    with contextlib.suppress(asyncio.TimeoutError):
                        await asyncio.wait_for(self.has_come.wait(), self.progress.TURN)
                self.has_come.clear()
                yield self.came.popleft() if self.came else None
        finally:
            watch.cancel()
            await self.end()

    def settle(self, waits, found):
        """Hands on what came of a recording, once."""
        if self.left.pop(waits.asked.place, None):
            self.came.append((waits.asked, found))
            self.has_come.set()

    def employ(self, known):
        """Lets each worker that holds what is left ask, as many at a time as it does runs."""
        hosts = hosts_of(known)
        self.live = {host.place(): [worker.key for worker in host.workers] for host in hosts}
        for host in hosts:
            self.note_killed(host, known)
            if not self.queues.get(host.place()):
                continue
            for worker in host.workers:
                tasks = self.slots.setdefault(worker.key, [])
                tasks[:] = [task for task in tasks if not task.done()]
                room = min(worker.threads, len(self.queues[host.place()])) - len(tasks)
                tasks += [asyncio.ensure_future(self.slot(worker, host)) for _ in range(room)]

    def note_killed(self, host, known):
        """Notes whether processes were killed on a host for want of memory since it was first seen, by what its workers tell when they are started."""
        for worker in host.workers:
            count = known[worker.address].get("btfleet")
            count = count.get("killed_for_memory") if isinstance(count, dict) else None
            if type(count) is int and count > self.killed.setdefault(host.place(), count):
                self.short.add(host.place())

    def next_for(self, worker, host):
        """The next recording that a worker is asked; none where there is none."""
        queue = self.queues[host.place()]
        for _ in range(len(queue)):
            waits = queue.popleft()
            if waits.asked.place in self.left and not waits.is_out:
                if worker.key not in waits.tried:
                    return waits
                queue.append(waits)
        return None

    async def slot(self, worker, host):
        """Asks a worker for one recording after the other, for as long as it answers."""
        waits = self.next_for(worker, host)
        while waits:
            waits.is_out, waits.since = True, None
            try:
                self.settle(waits, await self.ask(worker, host, waits.asked))
            except Unreadable as fault:
                self.settle(waits, Unasked(f"its host answers what is no answer: {fault}"))
            except (Lost, Unknowing, asyncio.CancelledError):
                waits.deaths += 1
                self.again(waits, worker, LEFT)
                return
            except Silent as fault:
                self.again(waits, worker, f"its host does not answer: {fault}")
                return
            except Gone:
                self.again(waits, None, LEFT)
                return
            waits = self.next_for(worker, host)

    def again(self, waits, worker, why):
        """Lets a recording be asked of another worker, and tells that it cannot where four have died of it."""
        waits.is_out, waits.why = False, why
        waits.tried.update({worker.key} if worker else ())
        if waits.deaths >= MOST_DEATHS:
            self.settle(waits, Unasked(DIED + (KILLED if self.short & set(waits.asked.holders) else "")))
        elif waits.asked.place in self.left:
            for place in waits.asked.holders:
                if waits not in self.queues[place]:
                    self.queues[place].append(waits)

    async def ask(self, worker, host, asked):
        """What a recording answers, asked of a worker. It raises what the link raises, Silent where the worker is silent for long."""
        name = uuid.uuid4().hex
        fields = {"does": "ask", "run": name, "path": asked.path, "seen": asked.seen.fields(), "by": asker(), "answering": self.question.answering.name,
                  "seconds": self.question.seconds}
        content, heard, began = self.question.script, time.monotonic(), time.monotonic()
        self.runs[name] = worker.address
        try:
            while True:
                try:
                    answer, printed = await self.link.call(worker.address, fields, content, CONNECT_SECONDS)
                    heard = time.monotonic()
                except Silent:
                    self.progress.silent(host.name, time.monotonic() - heard)
                    if time.monotonic() - heard > HANG_SECONDS:
                        raise
                    answer = {"state": "silent"}
                if answer.get("state") == "ended":
                    del self.runs[name]
                    return ended_of(answer, printed)
                if answer.get("state") == "unknown":
                    raise Lost("it was started anew")
                if answer.get("state") not in STATES:
                    raise Unreadable("it tells no state of a run")
                self.progress.slow(asked.word, time.monotonic() - began)
                if answer["state"] != "silent":
                    fields, content = {"does": "wait", "run": name}, b""
        except (Lost, Gone):
            self.runs.pop(name, None)
            raise

    async def watch(self):
        """Looks each second which workers are there: cancels what is asked of those that are gone, employs those that came, and gives up recordings
        that none holds any more."""
        while True:
            await asyncio.sleep(LOOK_SECONDS)
            try:
                known = await self.link.workers()
                self.gone = None
            except Gone as fault:
                known, self.gone = {}, f"{GONE}: {fault}"
                self.left_text = f"{GONE}, another one answers, and {LEFT}"
            self.employ(known)
            live = {key for keys in self.live.values() for key in keys}
            for key in [key for key in self.slots if key not in live]:
                for task in self.slots.pop(key):
                    task.cancel()
            self.give_up(time.monotonic())

    def give_up(self, now):
        """Gives up the recordings that no worker can be asked for, for some seconds; those of silent hosts at once."""
        for waits in list(self.left.values()):
            if waits.is_out or self.can_be_asked(waits):
                waits.since = None
                continue
            waits.since = waits.since or now
            if now - waits.since >= (GRACE_SECONDS if waits.why == LEFT else 0):
                self.settle(waits, Unasked(self.gone or (self.left_text if waits.why == LEFT else waits.why)))

    def can_be_asked(self, waits):
        """Whether a worker is there that holds a recording, and was not asked before."""
        return any(key not in waits.tried for place in waits.asked.holders for key in self.live.get(place, ()))

    async def end(self):
        """Ends all that is asked: here, and on the hosts."""
        for task in [task for tasks in self.slots.values() for task in tasks]:
            task.cancel()
        left = collections.defaultdict(list)
        for name, address in self.runs.items():
            left[address].append(name)
        with contextlib.suppress(asyncio.TimeoutError):
            calls = [self.link.call(address, {"does": "end", "runs": names}, seconds=END_SECONDS) for address, names in left.items()]
            await asyncio.wait_for(asyncio.gather(*calls, return_exceptions=True), END_SECONDS)


def ended_of(answer, printed):
    """How a run ended, by what its host answers; Unreadable where that is no end."""
    status, told, why = answer.get("status"), answer.get("told"), answer.get("why")
    if type(status) is not int or not isinstance(told, str) or not isinstance(why, str):
        raise Unreadable("an end of a run lacks a part")
    return Ended(status, printed, told.encode("latin-1", "replace"), why)
