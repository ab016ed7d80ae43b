"""The answers of many recordings as one: the rows of each map, and what each recording printed beside them."""
from dataclasses import dataclass, field

from btfleet.laws import MOST_COUNT


@dataclass
class Part:
    """What a recording printed beside rows: its host, its items as its answer has them, and its lost updates by
    maps."""

    host: str
    items: list
    lost: dict


HOST, GROUP = "host", "group"


def put_together(rows, more, law, host):
    """Puts rows to those that are there, by the law of their map; the key begins with the host, where there is one."""
    for key, value in more.items():
        whole = key if host is None else (host, *key)
        rows[whole] = law.merged(rows[whole], value) if whole in rows else value


@dataclass
class Merged:
    """The answers so far. Rows are put together as they come, since their laws know no order; what is printed by
    recordings stands in the order in which the words name them. With `by_host` the rows of each host stay apart, or
    those of each group of hosts; `apart` says which."""

    plan: object
    by_host: bool = False
    printed: dict = field(default_factory=dict)
    ends: dict = field(default_factory=dict)
    parts: dict = field(default_factory=dict)
    apart: str = HOST
    nanoseconds: dict = field(default_factory=dict)

    def take(self, place, host, answer):
        """Takes the answer of the recording at a place among the words."""
        shown = host if self.by_host else None
        for at, rows in answer.printed.items():
            put_together(self.printed.setdefault(at, {}), rows, self.plan.laws[self.plan.prints[at].name], shown)
        for name, rows in answer.ends.items():
            put_together(self.ends.setdefault(name, {}), rows, self.plan.laws[name], shown)
        if self.plan.span:
            span = answer.ends.get(self.plan.span, {}).get((), 0)
            self.nanoseconds[host] = self.nanoseconds.get(host, 0) + span
        self.parts[place] = Part(host, answer.items, answer.lost)

    def parts_in_order(self):
        """What each recording printed beside rows, in the order of the words."""
        return [self.parts[place] for place in sorted(self.parts)]

    def lost_updates(self):
        """The lost updates of each map in the order of the maps, as triples of the host, the map's name and how
        many; where hosts do not stay apart there is one sum for a map, without a host."""
        sums = {}
        for name in [name for name in self.plan.laws if name not in self.plan.beside()]:
            for part in self.parts_in_order():
                key = (part.host if self.by_host else None, name)
                sums[key] = (sums.get(key, 0) + part.lost.get(name, 0)) & MOST_COUNT
        return [(host, name, count) for (host, name), count in sums.items() if count]
