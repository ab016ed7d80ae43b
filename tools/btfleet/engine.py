"""The engine: Dask's distributed scheduler, which knows the workers and takes messages to them.

It is imported only where a scheduler is asked. Nothing that comes from it is unpickled: what is read are numbers, texts and bytes, and each answer of a
worker is a message of its own (`wire`).
"""
import asyncio
import contextlib
import datetime
import logging
import os
import re
import sys
import warnings

from btfleet.faults import ENGINE, WORDS, Refused
from btfleet.wire import Unreadable, coded, read

CONNECT_SECONDS = 10
MOST_CALLS = 200
DEBIAN = "/usr/bin/python3"
DEBIAN_FOLDER = "/usr/lib/python3/dist-packages/distributed"
HANDLER = "btfleet"
TAKEN = re.compile(r"Worker tried to connect with a duplicate name: (.*)")


class Gone(Exception):
    """The scheduler does not answer any more."""


class Silent(Exception):
    """A worker did not answer in time."""


class Lost(Exception):
    """A worker is not there any more."""


class Unknowing(Exception):
    """A worker does not know btfleet."""


def imported():
    """The package of the engine, which tells nothing of its own and unpickles nothing."""
    if sys.flags.no_site:
        import site
        site.main()
    try:
        import dask
        import distributed
        import distributed.core
    except ImportError as fault:
        why = f"{sys.executable} has no Dask ({fault}): Debian's package python3-distributed brings it for {DEBIAN}"
        there = ", where it is installed: take that Python" if os.path.isdir(DEBIAN_FOLDER) else ""
        raise Refused(why + there, ENGINE) from fault
    logging.disable(logging.CRITICAL)
    warnings.simplefilter("ignore")
    dask.config.set({"distributed.scheduler.pickle": False})
    return distributed


def cause(fault):
    """The innermost cause of a fault, in one line."""
    while fault.__cause__ or fault.__context__:
        fault = fault.__cause__ or fault.__context__
    text = " ".join(str(fault).split())
    return text or type(fault).__name__


def checked_address(distributed, address):
    """The address as the engine has it; refused where it is none."""
    try:
        scheme, _ = distributed.comm.parse_address(address if "://" in address else f"tcp://{address}")
        if scheme not in ("tcp", "tls"):
            raise ValueError(f"{scheme}:// is none of tcp:// and tls://")
        host, port = distributed.comm.addressing.parse_host_port(distributed.comm.parse_address(address)[1])
        if not host or not 0 < int(port) < 65_536:
            raise ValueError("a port from 1 to 65535 is lacking")
    except (ValueError, TypeError) as fault:
        raise Refused(f"{address or 'an empty word'} is no address of a scheduler, as tcp://HOST:8786: {fault}", WORDS) from fault
    return f"{scheme}://{host}:{port}"


class Link:
    """A way to the scheduler and through it to the workers."""

    def __init__(self, distributed, address):
        self.address, self.distributed = address, distributed
        security = distributed.Security()
        if address.startswith("tls://") and not (security.tls_ca_file and security.tls_client_cert):
            raise Refused(f"{address}: tls:// wants Dask's settings distributed.comm.tls.ca-file and .client.cert and .client.key, and they are lacking",
                          WORDS)
        try:
            how = security.get_connection_args("client")
        except (OSError, ValueError) as fault:
            raise Refused(f"{address}: the certificates for tls:// cannot be read: {cause(fault)}", WORDS) from fault
        self.pool = distributed.core.ConnectionPool(limit=MOST_CALLS, deserialize=False, connection_args=how, timeout=CONNECT_SECONDS)
        self.calls = asyncio.Semaphore(MOST_CALLS)

    async def asked(self, op, seconds, **words):
        """What the scheduler answers to one of its own operations."""
        async def ask():
            comm = await self.pool.connect(self.address)
            try:
                return await self.distributed.core.send_recv(comm, op=op, **words)
            finally:
                self.pool.reuse(self.address, comm)

        async with self.calls:
            return await asyncio.wait_for(ask(), seconds)

    async def begin(self):
        """Finds the scheduler; refused where none answers."""
        await self.pool.start()
        try:
            return await self.workers()
        except Gone as fault:
            is_tls = self.address.startswith("tls://")
            hint = ", as where it refuses a certificate" if is_tls else ", as one with certificates, whose address begins with tls://"
            raise Refused(f"{self.address}: no scheduler answers there within {CONNECT_SECONDS} seconds: {fault}{hint}", ENGINE) from fault

    async def workers(self):
        """What the scheduler knows of each worker, by their addresses; Gone where it does not answer."""
        try:
            found = await self.asked("identity", CONNECT_SECONDS)
            return {str(address): dict(info) for address, info in found["workers"].items()}
        except asyncio.TimeoutError as fault:
            raise Gone(f"it did not answer within {CONNECT_SECONDS} seconds") from fault
        except (OSError, ValueError, KeyError, TypeError, AttributeError, RuntimeError) as fault:
            raise Gone(cause(fault)) from fault
        except Exception as fault:
            raise Gone(f"{type(fault).__name__}: {cause(fault)}") from fault

    async def taken_names(self):
        """The names of workers that the scheduler refused as taken, each with when it did last."""
        with contextlib.suppress(Exception):
            lines = await self.asked("get_logs", CONNECT_SECONDS, timestamps=True)
            found = [(TAKEN.search(str(text)), when) for when, _, text in lines]
            return {match[1].strip(): datetime.datetime.fromtimestamp(when).strftime("%H:%M:%S") for match, when in found if match}
        return {}

    async def call(self, worker, fields, content=b"", seconds=CONNECT_SECONDS):
        """What a worker answers to a message, as its fields and bytes. It raises Silent, Lost, Unknowing, Unreadable or Gone."""
        words = {"msg": {"op": HANDLER, "message": coded(fields, content)}, "workers": [worker], "on_error": "ignore"}
        try:
            found = await self.asked("broadcast", seconds, **words)
        except asyncio.TimeoutError as fault:
            raise Silent(f"no answer within {seconds:g} seconds") from fault
        except Exception as fault:
            raise Gone(cause(fault)) from fault
        if not isinstance(found, dict) or worker not in found:
            raise Lost("it is not there any more")
        if found[worker] is None:
            raise Unknowing()
        answer, content = read(found[worker])
        if "fault" in answer:
            raise Unreadable(str(answer["fault"]))
        return answer, content

    async def close(self):
        """Closes it."""
        with contextlib.suppress(Exception):
            await self.pool.close()


@contextlib.asynccontextmanager
async def connected(address):
    """A link to the scheduler at an address, with what it knows of its workers first; refused where none answers."""
    distributed = imported()
    link = Link(distributed, checked_address(distributed, address))
    try:
        yield link, await link.begin()
    finally:
        await link.close()
