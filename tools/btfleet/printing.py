"""The merged answers as the program prints them: as text, or as its JSON lines.

Strings of scripts are bytes, and a letter stands here for each, as in the program's JSON lines.
"""
import json

from btfleet.laws import Buckets
from btfleet.plan import Printed
from reckoning.layout import by_value, number_rows, range_rows


def ordered(rows, top, law):
    """The rows of a map as pairs of key and value, the greatest last: so many of them, or all for 0."""
    sums = isinstance(law, Buckets)
    order = by_value((key, sum(value.values()) if sums else value) for key, value in rows.items())
    return [(key, rows[key]) for key, _ in order[-top if top else 0:]]


def divided(number, div):
    """A number divided towards 0."""
    return number // div if (number >= 0) == (div > 0) else -(-number // div)


def shown_rows(rows, printed, law):
    """The rows that a print shows, with their values as they are shown: numbers, or lists of ranges with their
    counts."""
    found = ordered(rows, printed.top, law)
    if not isinstance(law, Buckets):
        return [(key, divided(value, printed.div)) for key, value in found]
    counts = [(key, {place: count // printed.div for place, count in value.items()}) for key, value in found]
    return [(key, law.rows(value)) for key, value in counts]


def averages(sums, counts):
    """The averages of rows, by their sums and counts: a sum divided by its count, towards 0; of none it is 0."""
    return {key: divided(number, counts[key]) if counts[key] else 0 for key, number in sums.items()}


class Lines:
    """JSON lines, as the program writes them. Where hosts stay apart, a line that is no map's names its host."""

    def __init__(self, apart):
        self.apart = apart

    def line(self, found, host):
        """The line of an object."""
        found = found if host is None else {**found, self.apart: host}
        return json.dumps(found, ensure_ascii=False, separators=(",", ":"), sort_keys=True) + "\n"

    def items(self, items, host):
        """What a recording printed by itself."""
        return "".join(self.line(item, host) for item in items)

    def rows(self, name, law, rows):
        """The rows of a map; nothing where there are none."""
        if isinstance(law, Buckets):
            rows = [(key, [{"count": count, "label": label} for label, count in ranges]) for key, ranges in rows]
        data = [{"key": key, "value": value} for key, value in rows]
        return self.line({"data": data, "map": name, "type": "map"}, None) if data else ""

    def lost_updates(self, name, count, host):
        """How many updates of a map were lost."""
        return self.line({"count": count, "map": name, "type": "lost_updates"}, host)

    def failures(self, failures):
        """The recordings that are not in the result, each with its cause."""
        return "".join(self.line({"cause": cause, "recording": asked.word, "type": "failure"}, asked.host) for asked, cause in failures)

    def coded(self, text):
        """The bytes of what was printed."""
        return text.encode(errors="surrogateescape")


class Text:
    """The text that the program prints. Where hosts stay apart, a line that is no map's begins with its host."""

    def line(self, text, host):
        """A text that may have several lines, or a part of one."""
        if host is None or not text:
            return text
        return "".join(f"{host}: {line}\n" for line in text[:-1 if text.endswith("\n") else None].split("\n"))

    def item(self, item):
        """An item of what is printed."""
        if item["type"] == "printf":
            return item["data"]
        return f"WARNING: loop limit reached at line {item['line']}\n" if item["type"] == "cut" else (
            f"WARNING: {item['count']} events lost on cpu {item['cpu']}\n")

    def items(self, items, host):
        """What a recording printed by itself."""
        return self.line("".join(map(self.item, items)), host)

    def rows(self, name, law, rows):
        """The rows of a map; nothing where there are none."""
        return range_rows(name, rows) if isinstance(law, Buckets) else number_rows(name, rows)

    def lost_updates(self, name, count, host):
        """How many updates of a map were lost."""
        return self.line(f"WARNING: {count} updates lost in {name}\n", host)

    def failures(self, _):
        """Nothing: they are told on standard error."""
        return ""

    def coded(self, text):
        """The bytes of what was printed."""
        return text.encode("latin-1")


def pieces(merged, form):
    """What is printed of merged answers, piece by piece: for each print of END what the recordings print before it,
    one behind the other, and its rows; what they print behind all, the maps of the end, and the lost updates."""
    laws, parts = merged.plan.laws, merged.parts_in_order()

    def items(place):
        """What the recordings print by themselves before a print of END, or behind all."""
        return "".join(form.items(part.items[place], part.host if merged.by_host else None) for part in parts)

    plan = merged.plan

    def rows(printed, found, counts):
        """The rows of a print, or of a map at the end. What only stands beside others is not shown."""
        found = averages(found, counts) if printed.name in plan.averages else found
        law = laws[printed.name]
        return "" if printed.name in plan.beside() else form.rows(printed.name, law, shown_rows(found, printed, law))

    for place, printed in enumerate(plan.prints):
        yield items(place)
        yield rows(printed, merged.printed.get(place, {}), merged.printed.get(place + 1, {}))
    yield items(-1)
    for name in laws:
        yield rows(Printed(name), merged.ends.get(name, {}), merged.ends.get(plan.counts.get(name), {}))
    for host, name, count in merged.lost_updates():
        yield form.lost_updates(name, count, host)


def printed(merged, as_json, failures=()):
    """All that is printed of merged answers, in bytes, piece by piece. JSON lines end with the recordings that failed, pairs of what was asked and why."""
    form = Lines(merged.apart) if as_json else Text()
    yield from (form.coded(piece) for piece in pieces(merged, form))
    yield form.coded(form.failures(failures))
