"""Where recordings are: which hosts hold what words name, and that each is asked once."""
from dataclasses import dataclass, field

from btfleet.faults import WORDS, Refused
from btfleet.hosts import each_of, host_named
from btfleet.operands import EACH
from btfleet.progress import named
from btfleet.recording import NOT_THERE


@dataclass
class Asked:
    """A recording that is asked: its place in the result, the word for it, its host, its path, what it is, where it is there, the places of the hosts
    that hold it, and else why it cannot be asked."""

    place: int
    word: str
    host: str
    path: str
    seen: object = None
    holders: list = field(default_factory=list)
    cause: str = ""


def wanted_of(operands, hosts):
    """The hosts that words name, each with the paths that are asked of it. Refused where a name is that of several."""
    wanted = {}
    for operand in operands:
        if operand.host == EACH:
            asked = each_of(hosts)
        elif operand.host:
            asked = [host for host in [host_named(operand.host, hosts)] if host]
        else:
            asked = hosts
        for host in asked:
            wanted.setdefault(host.place(), (host, set()))[1].add(operand.path)
    return list(wanted.values())


def one_file(one, other):
    """The refusal of two words for one file."""
    return Refused(f"{one} and {other} are one file, which would be counted twice", WORDS)


class Places:
    """The recordings so far, by what they are: each is asked once."""

    def __init__(self, hosts, seen):
        self.hosts, self.seen = hosts, seen
        self.found, self.known, self.alike, self.notes = [], {}, {}, []

    def add(self, word, label, path, holders, cause=""):
        """Adds a recording, by the hosts that hold it; refused where it is there under another word."""
        recording = self.seen[holders[0].place()].recording(path) if holders else None
        if recording:
            for host in holders:
                key = (host.workers[0].machine.kernel, recording)
                if key in self.known:
                    raise one_file(self.known[key], word)
            if recording.alike() in self.alike:
                raise Refused(f"{self.alike[recording.alike()]} and {word} are one file, as on a shared disk or copied with its disk: name it by "
                              f"{path} alone", WORDS)
            self.known.update({(host.workers[0].machine.kernel, recording): word for host in holders})
            self.alike[recording.alike()] = word
        self.found.append(Asked(len(self.found), word, label, path, recording, [host.place() for host in holders], cause))

    def holders(self, path, hosts):
        """Those hosts that hold a recording at a path."""
        return [host for host in hosts if host.place() in self.seen and self.seen[host.place()].recording(path)]

    def add_of(self, operand):
        """The recording of one named host."""
        host = host_named(operand.host, self.hosts)
        if not host:
            self.add(operand.word, operand.host, operand.path, [], "no worker is on a host of this name")
            return
        given = {worker.given for worker in host.workers}
        label = operand.host if operand.host in given else host.name
        self.add(operand.word, label, operand.path, self.holders(operand.path, [host]), self.seen[host.place()].why(operand.path))

    def add_any(self, operand):
        """The recording at a path, where any host holds it. Other files of this path are refused."""
        holders, files = self.holders(operand.path, self.hosts), {}
        for host in holders:
            files.setdefault(self.seen[host.place()].recording(operand.path).alike(), host.name)
        if len(files) > 1:
            one, other = sorted(files.values())[:2]
            raise Refused(f"{operand.word} is another file on {one} than on {other}: name one by {one}:{operand.path}, or that of each host by "
                          f"'{EACH}:{operand.path}'", WORDS)
        silent = [host.name for host in self.hosts if self.seen[host.place()].fault]
        if silent and holders:
            self.notes.append(f"{operand.word}: {named(silent)} could not be asked whether it is another file there")
        whys = {self.seen[host.place()].why(operand.path) for host in self.hosts if host not in holders}
        cause = min(whys) if len(whys) == 1 else NOT_THERE + (f", and {named(silent)} could not be asked" if silent else "")
        self.add(operand.word, holders[0].name if holders else "", operand.path, holders, cause)

    def add_each(self, operand):
        """The recordings of all hosts. What several hosts of one machine see as one file is one recording."""
        files = {}
        for host in self.hosts:
            recording = self.seen[host.place()].recording(operand.path)
            key = (host.workers[0].machine.kernel, recording) if recording else host.place()
            files.setdefault(key, []).append(host)
        for hosts in files.values():
            holders = self.holders(operand.path, hosts)
            self.add(f"{hosts[0].name}:{operand.path}", hosts[0].name, operand.path, holders, self.seen[hosts[0].place()].why(operand.path))


def placed(operands, hosts, seen):
    """All recordings that are asked, in the order of the words, by what was seen of the hosts; and what is told of them."""
    places = Places(hosts, seen)
    for operand in operands:
        if operand.host == EACH:
            places.add_each(operand)
        elif operand.host:
            places.add_of(operand)
        else:
            places.add_any(operand)
    return places.found, places.notes


def expected(found, names, hosts, operands):
    """Adds to the recordings those of hosts that were expected and that the scheduler does not know."""
    for operand in operands:
        for name in names if operand.host == EACH else ():
            if not host_named(name, hosts):
                found.append(Asked(len(found), f"{name}:{operand.path}", name, operand.path, cause="no worker is on a host of this name"))
    return found
