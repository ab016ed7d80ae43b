"""What lies at the paths that are asked, by what the hosts answer; a host that does not answer is known as that."""
import asyncio
from dataclasses import dataclass, field

from btfleet.engine import Gone, Lost, Silent, Unknowing
from btfleet.hosts import UNKNOWING, why_not_asked
from btfleet.recording import recording_of
from btfleet.wire import Unreadable

LOOK_SECONDS = 10


@dataclass
class Seen:
    """What a host has: for each path the recording, or why there is none; the version of its program; or why it does not answer."""

    found: dict = field(default_factory=dict)
    program: str = ""
    fault: str = ""

    def recording(self, path):
        """The recording at a path, or none."""
        found = self.found.get(path)
        return None if isinstance(found, str) else found

    def why(self, path):
        """Why there is no recording at a path."""
        found = self.found.get(path)
        return self.fault or (found if isinstance(found, str) else "the host does not say what lies there")


def seen_of(answer, paths):
    """What a host has, by its answer."""
    told, seen = answer.get("found"), Seen(program=str(answer.get("program", "")))
    for path in paths:
        fields = told.get(path) if isinstance(told, dict) else None
        fault = fields.get("fault") if isinstance(fields, dict) else None
        seen.found[path] = fault if isinstance(fault, str) else recording_of(fields)
    return seen


async def look_by(link, worker, asked):
    """What the host of a worker has, or why this worker does not tell."""
    try:
        answer, _ = await link.call(worker.address, {"does": "look", **asked}, seconds=LOOK_SECONDS)
        return seen_of(answer, asked["paths"])
    except Silent:
        return Seen(fault=f"it does not answer within {LOOK_SECONDS} seconds")
    except Lost:
        return Seen(fault="its worker went away")
    except Unknowing:
        return Seen(fault=UNKNOWING)
    except Unreadable as fault:
        return Seen(fault=f"it answers what is no answer: {fault}")
    except Gone as fault:
        return Seen(fault=f"the scheduler is gone: {fault}")


async def look_at(link, host, asked):
    """What a host has: by the first of its workers that tells, and each is asked."""
    why = why_not_asked(host)
    if why:
        return Seen(fault=why)
    tasks = [asyncio.ensure_future(look_by(link, worker, asked)) for worker in host.workers if worker.machine]
    try:
        found = None
        for task in asyncio.as_completed(tasks):
            found = await task
            if not found.fault:
                break
        return found
    finally:
        for task in tasks:
            task.cancel()


async def survey(link, wanted, answering, progress):
    """What hosts have, by their places. `wanted` has pairs of a host and the paths that are asked of it. The version of the program is that of the one
    that answers there."""
    waited = {host.place(): host.name for host, _ in wanted}
    found = {}

    async def one(host, paths):
        """What one has."""
        found[host.place()] = await look_at(link, host, {"paths": sorted(paths), "answering": answering.name})
        del waited[host.place()]

    tasks = asyncio.gather(*(one(host, paths) for host, paths in wanted))
    try:
        while not tasks.done():
            await asyncio.wait([tasks], timeout=progress.TURN)
            progress.waits(sorted(waited.values()))
        tasks.result()
    finally:
        tasks.cancel()
    return found
