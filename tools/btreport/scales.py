"""Where things stand: the geometry of a page, and nothing that the program did not print."""
import math
import re

LEVELS = 8
UNITS = [(1_000_000_000, "s"), (1_000_000, "ms"), (1_000, "µs"), (1, "ns")]
LETTERS = {"": 0, "K": 1, "M": 2, "G": 3, "T": 4, "P": 5, "E": 6}
BOUND = re.compile(r"(-?\d+)([KMGTPE]?)")
RANGE = re.compile(r"[\[(]([^,\])]+)(?:, ([^\])]+))?[\])]")


def level(value, most):
    """How strong the colour of a value is, from 1 to LEVELS, by its logarithm; 0 for what is not above 0."""
    if value <= 0:
        return 0
    if most <= 1:
        return LEVELS
    return min(LEVELS, 1 + math.floor((LEVELS - 1) * math.log(value) / math.log(most) + 1e-9))


def share(value, most):
    """Which part of the greatest value a value is, from 0 to 1."""
    return min(1.0, max(0.0, value / most)) if most > 0 else 0.0


def bound(word):
    """The number that a bound of a histogram's label is, or none for dots."""
    found = BOUND.fullmatch(word)
    return int(found[1]) * 1_024 ** LETTERS[found[2]] if found else None


def bounds(label):
    """The first number of a label's range and the one behind it; none where the range has no such end."""
    found = RANGE.fullmatch(label)
    if not found:
        return None, None
    low = bound(found[1])
    return low, bound(found[2]) if found[2] else (None if low is None else low + 1)


def is_doubled(low, high):
    """Whether a range is one of a histogram by powers of two: below 0, 0, 1, or a power of two up to the next."""
    if low is None or high is None:
        return high == 0
    return low in (0, 1) and high == low + 1 or high == 2 * low and low & low - 1 == 0


def following(labels):
    """The labels of a histogram by their ranges, the lowest first, with none in the places of ranges that have no label
    here."""
    ends = sorted((bounds(label) + (label,) for label in labels), key=lambda end: (end[0] is not None, end[0] or 0))
    steps = {high - low for low, high, _ in ends if low is not None and high is not None}
    by_powers = all(is_doubled(low, high) for low, high, _ in ends)
    found, before = [], None
    for low, high, label in ends:
        while before is not None and low is not None and before < low and steps:
            found.append(None)
            before = max(2 * before, 1) if by_powers else before + min(steps)
        found.append(label)
        before = high
    return found


def ticks(span, most=4):
    """The times to be marked on a time line, at most so many beside 0: each as its nanoseconds and a text."""
    if span <= 0:
        return [(0, "0")]
    step = next(
        factor * 10**power for power in range(20) for factor in (1, 2, 5) if span <= most * factor * 10**power
    )
    size, unit = next((size, unit) for size, unit in UNITS if span >= size)
    return [(time, f"{time / size:g} {unit}" if time else "0") for time in range(0, span + 1, step)]
