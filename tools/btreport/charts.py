"""Drawings of what a map or some lines hold. Texts stand beside them as HTML, and keep their size at each width."""
from btreport.markup import drawing, element, escaped, folded, lane, number, rectangle, table, text
from btreport.scales import LEVELS, following, level, share

# So many rows are drawn as bars or are lanes, and so many are in a table of numbers; what more there are is told.
MOST_BARS = 24
MOST_ROWS = 1_000
ROW_PIXELS, LEAST_ROW_PIXELS = 15, 2
# A grid is not higher, unless its rows are as low as they may be.
GRID_PIXELS = 900
LANE_PIXELS = 26
BAR_UNITS = 1_000


def left_out(count, what):
    """What is told in red of what is not shown."""
    return text("p", f"{count} more {what} left out", class_="red") if count > 0 else ""


def bar(label, found, most, kind="bar1"):
    """A bar with its label and its number."""
    shape = rectangle(0, 0, BAR_UNITS * share(found, most), 1, kind, f"{label}: {found}")
    return element(
        "div",
        text("div", label, class_="label"),
        element("div", number(found), class_="number"),
        element("div", drawing(BAR_UNITS, 1, 12, shape, f"{label}: {found}"), class_="drawn"),
        class_="bar",
    )


def bars(rows, name_of, what="rows"):
    """The greatest of a map's rows as bars, the greatest first. The other ones stand in the numbers."""
    greatest = rows[::-1][:MOST_BARS]
    most = max((row.value for row in greatest), default=0)
    drawn = "".join(bar(name_of(row.key), row.value, most) for row in greatest)
    rest = len(rows) - len(greatest)
    more = text("p", f"{rest} smaller {what}: see the numbers", class_="quiet") if rest else ""
    return element("div", drawn, class_="bars") + more


def numbers(rows, heads, cells_of):
    """A folded table of a map's rows, the greatest first."""
    shown = rows[::-1][:MOST_ROWS]
    return folded(
        f"the numbers, {len(rows)} rows",
        table(heads, [cells_of(row) for row in shown]) + left_out(len(rows) - len(shown), "rows"),
    )


def histogram(buckets):
    """The rows of a histogram as bars, in their order."""
    most = max((count for _, count in buckets), default=0)
    return element("div", *(bar(label, count, most) for label, count in buckets), class_="bars histogram")


def legend(least, most, what):
    """What the colours of a heat map mean: its least and its greatest number."""
    if least == most:
        return element("div", element("b", class_=f"dot h{LEVELS}"), number(most), " " + escaped(what), class_="legend")
    swatches = drawing(
        LEVELS, 1, 12, "".join(rectangle(place, 0, 1, 1, f"h{place + 1}") for place in range(LEVELS)), "the colours"
    )
    return element(
        "div",
        number(least),
        element("span", swatches, class_="swatches"),
        number(most),
        " " + escaped(what),
        class_="legend",
    )


def cells(columns, labels, kind_of):
    """The cells of a grid. Each column is a list of labels and counts; the first label is the lowest row."""
    place = {label: len(labels) - 1 - row for row, label in enumerate(labels) if label is not None}
    return "".join(
        rectangle(column, place[label], 1, 1, kind_of(count), f"{label}: {count}")
        for column, buckets in columns
        for label, count in buckets
        if count > 0
    )


def heat_map(columns, width, below, what="in a cell"):
    """Histograms side by side, each a column: pairs of its place and its rows. `below` stands under it."""
    counts = [count for _, buckets in columns for _, count in buckets if count > 0]
    if not counts:
        return text("p", "nothing was counted", class_="quiet")
    labels = following({label for _, buckets in columns for label, _ in buckets})
    return grid(columns, labels, width, below, legend(min(counts), max(counts), what))


def names_of(labels, pixels):
    """The labels of a grid's rows, the last at the top. Where rows are lower than a text, some have none."""
    each = -(-ROW_PIXELS // pixels)
    shown = list(reversed(labels))[::each]
    return "".join(text("span", label or "", style=f"height:{each * pixels}px") for label in shown)


def grid(columns, labels, width, below, under):
    """A grid of cells with the labels of its rows, the last label at the top."""
    most = max((count for _, buckets in columns for _, count in buckets), default=0)
    pixels = max(LEAST_ROW_PIXELS, min(ROW_PIXELS, GRID_PIXELS // max(len(labels), 1)))
    shapes = cells(columns, labels, lambda count: f"h{level(count, most)}")
    shape = drawing(width, len(labels), pixels * len(labels), shapes, f"{len(labels)} rows by {width} columns")
    return element("div", lane(names_of(labels, pixels), shape + below, "grid"), under, class_="heat")


def strip(label, counts, width, title_of, pixels=LANE_PIXELS, kind="h"):
    """A lane of cells, one for each part of the time that has some. `counts` has them by the place of the part."""
    most = max(counts.values(), default=0)
    shapes = "".join(
        rectangle(place, 0, 1, 1, f"{kind}{level(count, most)}", title_of(place, count))
        for place, count in sorted(counts.items())
        if count > 0
    )
    return lane(label, drawing(width, 1, pixels, shapes, "a lane"))


def columns(label, counts, width, title_of, kind):
    """A lane of bars that stand up, one for each part of the time that has some."""
    most = max(counts.values(), default=0)
    shapes = "".join(
        rectangle(place, 100 - 100 * share(count, most), 1, 100 * share(count, most), kind, title_of(place, count))
        for place, count in sorted(counts.items())
        if count > 0
    )
    return lane(label, drawing(width, 100, 2 * LANE_PIXELS, shapes, "a lane"))


def stacked(label, parts, most):
    """A bar of parts, each a kind, its name and its number, and below it what they are."""
    at, shapes = 0.0, []
    for kind, name, found in parts:
        width = BAR_UNITS * share(found, most)
        shapes.append(rectangle(at, 0, width, 1, kind, f"{name}: {found}"))
        at += width
    named = "".join(
        element("span", element("b", class_=f"dot {kind}"), escaped(name) + " ", number(found), class_="part")
        for kind, name, found in parts
    )
    return element(
        "div",
        text("div", label, class_="label"),
        element(
            "div",
            drawing(BAR_UNITS, 1, 14, "".join(shapes), label),
            element("div", named, class_="parts"),
            class_="drawn",
        ),
        class_="lane stacked",
    )


def level_of_icicle(boxes, depth):
    """A level of an icicle: boxes with their place and width from 0 to 1, a name, a title and a kind."""
    shapes = "".join(
        rectangle(BAR_UNITS * at, 0, BAR_UNITS * width, 1, kind, title) for at, width, _, title, kind in boxes
    )
    names = "".join(
        text("span", name, style=f"left:{100 * at:.3f}%;width:{100 * width:.3f}%", title=title)
        for at, width, name, title, _ in boxes
        if width >= 0.02
    )
    return element(
        "div", drawing(BAR_UNITS, 1, 24, shapes, f"level {depth}"), element("div", names, class_="over"), class_="level"
    )


def icicle(levels):
    """An icicle, from its top level down."""
    return element("div", *(level_of_icicle(boxes, depth) for depth, boxes in enumerate(levels, 1)), class_="icicle")
