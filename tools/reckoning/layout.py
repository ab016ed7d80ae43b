"""How maps are printed, as docs/LANGUAGE.md says under "Printed text"."""
UNITS = ["", "K", "M", "G", "T", "P", "E"]


def label(number):
    """A bound of a range: a power of two, or 0."""
    unit = 0
    while number >= 1024:
        number, unit = number // 1024, unit + 1
    return f"{number}{UNITS[unit]}"


def range_of(number):
    """The place of a number that is not below 0 among the ranges of a histogram: 0 for 0, and k + 1 for those from
    2^k on."""
    return number.bit_length()


def range_text(place):
    """The range at a place."""
    return f"[{place}]" if place < 2 else f"[{label(1 << (place - 1))}, {label(1 << place)})"


def ranges_of(numbers):
    """The ranges of a histogram of numbers, from the first to the last that has some, each as its text and count."""
    counts = {}
    for number in numbers:
        counts[range_of(number)] = counts.get(range_of(number), 0) + 1
    return [(range_text(place), counts.get(place, 0)) for place in range(min(counts), max(counts) + 1)]


def bars(ranges):
    """The rows of ranges with their counts, each with a bar beside the greatest; none where there are no ranges."""
    most = max((count for _, count in ranges), default=0)
    for text, count in ranges:
        yield f"{text:16}{count:8} |{'@' * (52 * count // most):52}|\n"


def key_text(key):
    """A key as it stands behind the map's name."""
    return f"[{', '.join(str(part) for part in key)}]" if key else ""


def by_value(rows):
    """Pairs of a key and a number, the greatest number last, and those of one number by their keys."""
    return sorted(rows, key=lambda row: (row[1], [part.encode() if isinstance(part, str) else part for part in row[0]]))


def number_rows(name, rows):
    """The text of a map of numbers by its rows, pairs of a key and a number, as they stand; nothing where there are
    none."""
    return "".join(f"{name}{key_text(key)}: {number}\n" for key, number in rows) + "\n" if rows else ""


def range_rows(name, rows):
    """The text of a map of histograms by its rows, pairs of a key and the ranges with their counts, as they stand;
    nothing where there are none."""
    return "".join(f"{name}{key_text(key)}:\n" + "".join(bars(ranges)) for key, ranges in rows) + "\n" if rows else ""


def map_text(name, rows, most=None):
    """The text of a map of numbers: all rows, or the greatest; nothing where there are none."""
    shown = by_value(rows.items())
    return number_rows(name, shown if most is None else shown[-most:])


def histograms_text(name, rows):
    """The text of a map of histograms, from the numbers under each key; nothing where there are none."""
    shown = by_value((key, len(numbers)) for key, numbers in rows.items())
    return range_rows(name, [(key, ranges_of(rows[key])) for key, _ in shown])
