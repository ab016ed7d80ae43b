"""What differs between hosts, as it is printed: as a table, or as JSON lines."""
import json

from reckoning.layout import key_text

HEAD = ("SECONDS", "ROW", "HERE", "OTHERS", "TIMES")
NUMBERS = {1, 3, 4, 5}


def times_text(row):
    """How many times the others' number it is, in words."""
    if row.is_few:
        return "few"
    if not row.here and row.others:
        return "not here"
    if row.here and not row.others:
        return "only here"
    return "the same" if row.here == row.others else "other sign" if row.times is None else f"{row.times:,.2f}"


def cells(row):
    """The cells of a row of the table."""
    unit, digits = ("/s", 2) if row.is_rate else ("", 0)
    here, others = (f"{number:,.{digits}f}{unit}" for number in (row.here, row.others))
    return row.host, f"{row.seconds:,.3f}", row.name + key_text(row.key), here, others, times_text(row)


def table(rows, head):
    """The text of a table of differences; nothing where there are none."""
    if not rows:
        return ""
    lines = [(head, *HEAD), *map(cells, rows)]
    widths = [max(len(line[place]) for line in lines) for place in range(len(lines[0]))]
    return "".join("  ".join(cell.rjust(width) if place in NUMBERS else cell.ljust(width)
                             for place, (cell, width) in enumerate(zip(line, widths))).rstrip() + "\n" for line in lines)


def lines(rows, head):
    """The JSON lines of differences."""
    for row in rows:
        times = None if row.times is None else round(row.times, 6)
        found = {"type": "difference", head: row.host, "seconds": row.seconds, "map": row.name, "key": list(row.key), "value": row.value,
                 "here": round(row.here, 6), "others": round(row.others, 6), "times": times, "is_rate": row.is_rate, "few": row.is_few}
        yield json.dumps(found, ensure_ascii=False, separators=(",", ":"), sort_keys=True) + "\n"


def compared(rows, head, as_json):
    """What is printed of differences, in bytes, piece by piece. `head` says what is compared: hosts or groups."""
    if as_json:
        return (line.encode() for line in lines(rows, head))
    return iter([table(rows, head.upper()).encode("latin-1")])
