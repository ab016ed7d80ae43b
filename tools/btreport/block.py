"""Panels about block requests: how long they are with the device, and the slowest ones."""
from btreport.calls import slow_lines
from btreport.charts import heat_map
from btreport.markup import axis, element, escaped, number, table, text
from btreport.panel import Panel
from btreport.questions import CELLS

MINOR_BITS = 20
MOST_KINDS = 8


def device(number_of):
    """A device's major and minor number."""
    return f"{number_of >> MINOR_BITS}:{number_of & (1 << MINOR_BITS) - 1}"


def heat_maps(asked, span):
    """The heat maps of requests, by kind."""
    found, counts = {}, asked.answer.values("@requests")
    for (kind, cell), buckets in asked.answer.values("@took").items():
        found.setdefault(kind, []).append((cell, buckets))
    kinds = sorted(found, key=lambda kind: (-counts.get(kind, 0), kind))
    drawn = [
        element(
            "div",
            element("h3", escaped(kind), element("small", number(counts.get(kind, 0)), " issued")),
            heat_map(found[kind], CELLS, axis(span), "requests"),
            class_="map",
        )
        for kind in kinds[:MOST_KINDS]
    ]
    rest = len(kinds) - len(drawn)
    body = (
        element("div", *drawn, class_="maps")
        if drawn
        else text("p", "no request was seen from its issue to its completion", class_="quiet")
    )
    return Panel(
        "block",
        "Block requests, by their length",
        body + (text("p", f"{rest} rarer kinds left out", class_="red") if rest else ""),
        [asked],
        "By kind: R is a read, W a write, D a discard, F a flush, S synchronous. Ranges are nanoseconds.",
    )


def slowest(asked):
    """A table of the slowest requests."""
    rows = [
        [
            number(int(begin)),
            number(int(took)),
            escaped(kind),
            number(int(size)),
            escaped(device(int(dev))),
            escaped(sector),
            escaped(comm),
        ]
        for begin, took, dev, sector, size, kind, comm in slow_lines(asked.answer, 7)
    ]
    return Panel(
        "slow_requests",
        "The slowest block requests",
        table(["issued, ns", "took, ns", "kind", "bytes", "device", "sector", "thread"], rows),
        [asked],
    )
