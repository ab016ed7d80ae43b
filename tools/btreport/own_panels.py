"""Panels of the user's own scripts: what each map and each line is drawn as follows from what it holds."""
import itertools

from btreport.answers import LOST_EVENTS, MAP, PRINTF, text_of
from btreport.charts import MOST_BARS, MOST_ROWS, bars, grid, heat_map, histogram, left_out, legend, numbers
from btreport.markup import element, escaped, folded, number, table, text, value

# So many keys of histograms are drawn; all are in the numbers.
MOST_HISTOGRAMS = 12
MOST_LINES = 500


def first_comment(script):
    """What the comment says that a script begins with, but for how it is run."""
    lines = itertools.takewhile(lambda line: line.startswith("//"), script.splitlines())
    words = [line[2:].strip() for line in lines]
    return " ".join(line for line in words if not line.startswith("Run:"))


def key_text(key):
    """The parts of a key as they stand in the program's text."""
    return ", ".join(map(str, key)) or "all"


def cells_of(row):
    """The cells of a map's row."""
    return [escaped(part) for part in row.key] + [value(row.value)]


def cells_of_histograms(rows):
    """The cells of the rows of histograms."""
    return [
        [escaped(part) for part in row.key] + [escaped(label), number(count)]
        for row in rows
        for label, count in row.value
    ]


def numbers_of_histograms(rows):
    """A folded table of histograms."""
    cells = cells_of_histograms(rows[::-1])
    shown = cells[:MOST_ROWS]
    return folded(f"the numbers, {len(rows)} keys", table([], shown) + left_out(len(cells) - len(shown), "rows"))


def printed_map(rows):
    """A map that was printed once."""
    if any(isinstance(row.value, list) for row in rows):
        drawn = [
            element("div", text("h4", key_text(row.key)), histogram(row.value)) for row in rows[::-1][:MOST_HISTOGRAMS]
        ]
        return element("div", *drawn, class_="histograms") + numbers_of_histograms(rows)
    if all(isinstance(row.value, int) for row in rows):
        return bars(rows, key_text) + numbers(rows, [], cells_of)
    return table([], [cells_of(row) for row in rows[:MOST_ROWS]]) + left_out(len(rows) - MOST_ROWS, "rows")


def under_prints(count):
    """What stands under a drawing of several prints of a map, the first at the left."""
    return element(
        "div", text("span", "first print", style="left:0"), text("span", f"print {count}", class_="last"), class_="axis"
    )


def histograms_over_prints(prints):
    """Histograms that were printed several times, as a heat map for each key."""
    keys = list(dict.fromkeys(row.key for rows in prints for row in rows))
    drawn = []
    for key in keys[:MOST_HISTOGRAMS]:
        found = [(place, row.value) for place, rows in enumerate(prints) for row in rows if row.key == key]
        drawn.append(text("h4", key_text(key)) + heat_map(found, len(prints), under_prints(len(prints))))
    return "".join(drawn) + left_out(len(keys) - MOST_HISTOGRAMS, "keys")


def numbers_over_prints(prints):
    """Numbers that were printed several times, as a grid of a row for each key."""
    totals = {}
    for row in (row for rows in prints for row in rows if isinstance(row.value, int)):
        totals[row.key] = totals.get(row.key, 0) + row.value
    keys = sorted(totals, key=totals.get, reverse=True)[:MOST_BARS]
    names = {key: key_text(key) for key in keys}
    columns = [
        (place, [(names[row.key], row.value) for row in rows if row.key in names]) for place, rows in enumerate(prints)
    ]
    counts = [count for _, found in columns for _, count in found if count > 0]
    under = (
        legend(min(counts), max(counts), "in a cell") if counts else text("p", "nothing was counted", class_="quiet")
    )
    return grid(
        columns, [names[key] for key in reversed(keys)], len(prints), under_prints(len(prints)), under
    ) + left_out(len(totals) - len(keys), "keys")


def several_prints(prints):
    """A map that was printed several times."""
    is_histogram = any(isinstance(row.value, list) for rows in prints for row in rows)
    drawn = histograms_over_prints(prints) if is_histogram else numbers_over_prints(prints)
    cells = [
        [str(place)] + cells
        for place, rows in enumerate(prints, 1)
        for cells in (cells_of_histograms(rows) if is_histogram else map(cells_of, rows))
    ]
    return drawn + folded(
        f"the numbers, {len(prints)} prints", table([], cells[:MOST_ROWS]) + left_out(len(cells) - MOST_ROWS, "rows")
    )


def lines_of(answer):
    """The lines of text that a script printed, each with whether it tells of lost events, which stand between them."""
    found, line = [], ""
    for kind, what in answer.lines:
        if kind == PRINTF:
            *whole, line = (line + what).split("\n")
            found += [(text_of(part), False) for part in whole]
        elif kind == LOST_EVENTS:
            found.append((f"{what[1]} events lost on cpu {what[0]}", True))
    return found + ([(text_of(line), False)] if line else [])


def has_heads(lines):
    """Whether the first line has the heads of a table: words without a digit, as many as each other line has."""
    words = [line.split() for line, is_loss in lines if not is_loss]
    return (
        len(words) > 1
        and not any(letter.isdigit() for letter in lines[0][0])
        and len(words[0]) > 1
        and all(len(found) == len(words[0]) for found in words)
    )


def printed_lines(lines):
    """The lines of text that a script printed, as a table."""
    shown = lines[:MOST_LINES]
    if has_heads(lines):
        rows = [
            [escaped(word) for word in line.split()] if not is_loss else [text("span", line, class_="red")]
            for line, is_loss in shown[1:]
        ]
        return table(lines[0][0].split(), rows, "lines") + left_out(len(lines) - len(shown), "lines")
    rows = [[text("span", line, class_="red" if is_loss else "mono")] for line, is_loss in shown]
    return table([], rows, "lines") + left_out(len(lines) - len(shown), "lines")


def body_of(answer):
    """All that a script printed."""
    drawn, lines = [], lines_of(answer)
    if any(not is_loss for _, is_loss in lines):
        drawn.append(printed_lines(lines))
    for name in dict.fromkeys(found[0] for kind, found in answer.lines if kind == MAP):
        prints = answer.maps(name)
        drawn.append(
            element(
                "div",
                text("h3", name),
                printed_map(prints[0]) if len(prints) == 1 else several_prints(prints),
                class_="map",
            )
        )
    return "".join(drawn) or text("p", "It printed nothing.", class_="quiet")
