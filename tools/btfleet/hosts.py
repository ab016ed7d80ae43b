"""The hosts of a fleet, by what the scheduler knows of its workers: those for which each path is one file are one host."""
import re
from dataclasses import dataclass, field

from btfleet.faults import WORDS, Refused
from btfleet.machine import machine_of
from btfleet.wire import FORM

PRELOAD = "--preload tools/btfleet/preload.py"
UNKNOWING = f"its worker does not know btfleet: start it with {PRELOAD}"
COUNTED = re.compile(r"(.+)-\d+")


@dataclass
class Worker:
    """A worker: its address, the name that was given to it, if one was, the address of its machine, the machine, if it knows btfleet, how many runs it
    does at a time, the form of its messages, and what tells it from one that had its address before."""

    address: str
    given: str
    at: str
    machine: object
    threads: int
    form: int
    start: str = ""

    @property
    def key(self):
        """What no other worker has, also where it is started anew at one address."""
        return self.address, self.start

    def place(self):
        """What it has alike with the workers for which each path is the same file."""
        return self.machine.place() if self.machine else (self.address,)


@dataclass
class Host:
    """A host: its name as the result has it, all names that words may have for it, and its workers."""

    name: str
    names: set
    workers: list = field(default_factory=list)

    def place(self):
        """What tells it from other hosts."""
        return self.workers[0].place()

    def told(self):
        """It, as it is told where its name is that of another one too."""
        machine = self.workers[0].machine
        return self.workers[0].address + (f" (machine {machine.machine[:8]}, boot {machine.boot[:8]})" if machine else "")


def worker_of(address, info):
    """A worker, by what the scheduler knows of it. A name that is no address and no number was given to it."""
    name, known = str(info.get("name", "")), info.get("btfleet")
    known = known if isinstance(known, dict) else {}
    threads = info.get("nthreads")
    return Worker(address, "" if "://" in name or name.isdigit() else name, str(info.get("host", "")), machine_of(known.get("machine")),
                  threads if type(threads) is int and threads > 0 else 1, known.get("form"), str(known.get("start", "")))


def name_of(workers):
    """The name of a host by its workers: the one that was given; of several the part that `--nworkers` counts on, or the first."""
    given = sorted({worker.given for worker in workers if worker.given})
    counted = {match[1] for match in map(COUNTED.fullmatch, given) if match}
    if len(given) > 1 and len(counted) == 1 and all(map(COUNTED.fullmatch, given)):
        return counted.pop()
    if given:
        return given[0]
    return workers[0].machine.name if workers[0].machine else workers[0].at


def hosts_of(known):
    """The hosts of all workers, by what the scheduler knows, in the order of their names."""
    places = {}
    for address in sorted(known):
        worker = worker_of(address, known[address])
        places.setdefault(worker.place(), []).append(worker)
    found = []
    for workers in places.values():
        names = {name_of(workers), *(worker.at for worker in workers), *(worker.given for worker in workers if worker.given),
                 *(worker.machine.name for worker in workers if worker.machine)}
        found.append(Host(name_of(workers), names, workers))
    return sorted(found, key=lambda host: (host.name, host.workers[0].address))


def of_two_names(name, hosts):
    """The refusal of a name that several hosts have."""
    return Refused(f"{name} is {' and '.join(host.told() for host in hosts)}, which are not one host: start their workers with names of their own (--name)",
                   WORDS)


def host_named(name, hosts):
    """The host that a word calls so; none where there is none. Refused where several have this name."""
    called = [host for host in hosts if name in host.names]
    exact = [host for host in called if name == host.name or name in {worker.given for worker in host.workers}]
    if not called:
        called = [host for host in hosts if any(match and match[1] == name for match in (COUNTED.fullmatch(worker.given) for worker in host.workers))]
    found = exact or called
    if len(found) > 1:
        raise of_two_names(name, found)
    return found[0] if found else None


def each_of(hosts):
    """All hosts; refused where two have one name."""
    names = {}
    for host in hosts:
        names.setdefault(host.name, []).append(host)
    for name, found in names.items():
        if len(found) > 1:
            raise of_two_names(name, found)
    return hosts


def why_not_asked(host):
    """Why a host cannot be asked, by what is known of it; nothing where it can."""
    forms = {worker.form for worker in host.workers}
    if FORM in forms:
        return ""
    return UNKNOWING if forms == {None} else (
        "its btfleet is of another version than this one")
