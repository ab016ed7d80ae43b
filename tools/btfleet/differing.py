"""What differs between hosts: each row of one beside that of all others together, per second of recording."""
import heapq
import math
from dataclasses import dataclass

from btfleet.laws import Buckets

# A row is one of few counts where neither what a host counted nor what it would have counted at the rate of the others comes to so many.
FEW = 10
# So many rows are shown of a host.
MOST_ROWS = 10
NANOSECONDS = 1_000_000_000
COMPARED = {"count", "hist", "lhist", "sum", "avg"}


@dataclass(frozen=True)
class Amount:
    """What a host has of a row, or others together: the number, how many counts are behind it, where that is known, and the seconds of recording."""

    number: int
    count: object
    seconds: float


@dataclass(frozen=True)
class Difference:
    """A row of a host beside the others: the numbers of both, which are per second but for averages, how many times the others' it is, where that can be
    said, whether few counts are behind it, and how far apart both are, which orders rows."""

    host: str
    seconds: float
    name: str
    key: tuple
    value: int
    here: float
    others: float
    is_rate: bool
    is_few: bool
    distance: float

    @property
    def times(self):
        """How many times the others' number it is; none where that is 0 or of the other sign."""
        return self.here / self.others if self.others and self.here / self.others >= 0 else None

    def order(self):
        """What orders rows, the most different last."""
        return not self.is_few, self.distance

    def place(self):
        """What orders the rows of a host."""
        return (*(-part for part in self.order()), self.name, tuple(map(str, self.key)))


def apart(one, other):
    """How far two numbers are apart, by how many times one is the other."""
    if one == other:
        return 0.0
    return abs(math.log(one / other)) if one and other and one / other > 0 else math.inf


def apart_by_counts(count, expected):
    """How far a count is from one that is expected; half a count is added to both, so that none is compared as well."""
    return abs(math.log((count + 0.5) / (expected + 0.5)))


def rate_apart(here, others):
    """How far two amounts per second are apart, and whether few counts are behind that."""
    one, other = here.number / here.seconds, others.number / others.seconds
    if here.count is None:
        return apart(one, other), False
    expected = others.count / others.seconds * here.seconds
    is_few = max(here.count, expected) < FEW
    is_counted = here.number == here.count or not one or not other
    return apart_by_counts(here.count, expected) if is_counted else apart(one, other), is_few


def difference(host, name, key, here, others, is_average):
    """What differs between a host and the others in a row; none for an average where one of both has none."""
    if is_average:
        if not here.count or not others.count:
            return None
        one, other = here.number / here.count, others.number / others.count
        found = one, other, False, min(here.count, others.count) < FEW, apart(one, other)
    else:
        distance, is_few = rate_apart(here, others)
        found = here.number / here.seconds, others.number / others.seconds, True, is_few, distance
    return Difference(host, here.seconds, name, key, here.number, *found)


class Comparison:
    """What differs between the hosts of merged answers, whose rows stay apart by hosts."""

    def __init__(self, merged):
        self.merged, self.plan = merged, merged.plan
        self.seconds = {host: time / NANOSECONDS for host, time in merged.nanoseconds.items() if time > 0}
        self.all_seconds = sum(self.seconds.values())
        self.rows = {host: [] for host in self.seconds}

    def names(self):
        """The maps that are compared."""
        return [name for name in self.plan.laws if self.plan.aggregations.get(name) in COMPARED]

    def left_out(self):
        """The maps that are not compared, though they have rows."""
        return [name for name in self.plan.laws if self.plan.aggregations.get(name) in ("min", "max") and self.found(name)]

    def found(self, name):
        """The rows of a map: those of its first print in END, or those of the end."""
        places = [place for place, one in enumerate(self.plan.prints) if one.name == name]
        return self.merged.printed.get(places[0], {}) if places else self.merged.ends.get(name, {})

    def amounts(self, name):
        """For each key of a map the numbers and counts of hosts, as pairs by hosts."""
        counts = self.found(self.plan.counts[name]) if name in self.plan.counts else None
        is_sum = self.plan.aggregations[name] == "sum"
        amounts = {}
        for whole, value in self.found(name).items():
            number = sum(value.values()) if isinstance(self.plan.laws[name], Buckets) else value
            count = counts[whole] if counts is not None else None if is_sum else number
            amounts.setdefault(whole[1:], {})[whole[0]] = number, count
        return amounts

    def compare(self, name, key, of_hosts):
        """Compares a row of each host with that of the others."""
        is_average = name in self.plan.averages
        known = [pair for host, pair in of_hosts.items() if host in self.seconds]
        has_counts = all(count is not None for _, count in known)
        number, count = sum(pair[0] for pair in known), sum(pair[1] for pair in known) if has_counts else None
        for host, seconds in self.seconds.items():
            mine, mine_count = of_hosts.get(host, (0, 0 if has_counts else None))
            here = Amount(mine, mine_count, seconds)
            others = Amount(number - mine, count - mine_count if has_counts else None, self.all_seconds - seconds)
            found = difference(host, name, key, here, others, is_average)
            if found:
                self.keep(found)

    def keep(self, found):
        """Keeps a row, where it is one of the most different of its host."""
        rows = self.rows[found.host]
        entry = (found.order(), found.name, tuple(map(str, found.key)), found)
        if len(rows) < MOST_ROWS:
            heapq.heappush(rows, entry)
        else:
            heapq.heappushpop(rows, entry)

    def differences(self):
        """The most different rows of each host, the most different host first."""
        if len(self.seconds) < 2:
            return []
        for name in self.names():
            for key, of_hosts in self.amounts(name).items():
                self.compare(name, key, of_hosts)
        of_hosts = [sorted((entry[-1] for entry in rows), key=Difference.place) for rows in self.rows.values() if rows]
        return [row for rows in sorted(of_hosts, key=lambda rows: (rows[0].place()[:2], rows[0].host)) for row in rows]

    def told(self):
        """What is told beside the rows."""
        lines = [f"{name}: least and greatest numbers are not compared" for name in self.left_out()]
        idle = sorted(host for host, time in self.merged.nanoseconds.items() if time <= 0)
        lines += [f"{host}: its recording has no length, so nothing of it is per second" for host in idle]
        printed = sum(item["type"] == "printf" for part in self.merged.parts_in_order() for items in part.items for item in items)
        lines += [f"what recordings print by themselves is not compared, and left out: {printed:,} pieces"] if printed else []
        return lines + ([] if len(self.seconds) > 1 else ["there are no two hosts to compare"])
