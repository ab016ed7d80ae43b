"""The laws by which the aggregations of several runs are one: of two lists of numbers, what is gathered of both.

Numbers have 64 bits and a sign, as those of scripts; the counts of buckets have 64 bits and none. Sums of both wrap.
"""
from dataclasses import dataclass

from btfleet.faults import NotMerged
from reckoning.layout import range_text

LEAST_NUMBER, MOST_NUMBER = -(1 << 63), (1 << 63) - 1
NUMBERS, MOST_COUNT = 1 << 64, (1 << 64) - 1
BELOW_ZERO = "(..., 0)"
# The ranges of `hist` in their order: below 0, 0, 1, and from each power of two up to the next.
POWERS = [BELOW_ZERO] + [range_text(place) for place in range(64)]


def signed(number):
    """A number modulo 2^64, with its sign."""
    return (number - LEAST_NUMBER) % NUMBERS + LEAST_NUMBER


def steps(least, most, step):
    """The ranges of `lhist` in their order: below the least, each step up to the greatest, and from that on."""
    bounds = [*range(least, most, step), most]
    return [f"(..., {least})", *(f"[{low}, {high})" for low, high in zip(bounds, bounds[1:])), f"[{most}, ...)"]


@dataclass(frozen=True)
class Numbers:
    """A map of numbers that are put together two by two."""

    both: object

    def read(self, value):
        """A value as it stands in a line."""
        if type(value) is not int or not LEAST_NUMBER <= value <= MOST_NUMBER:
            raise NotMerged(f"{value!r} is no number of 64 bits")
        return value

    def merged(self, one, other):
        """What is gathered in two."""
        return self.both(one, other)


class Buckets:
    """A map of histograms: of each the counts by the places of their ranges, without those that are 0."""

    def __init__(self, labels):
        self.labels = labels
        self.places = {label: place for place, label in enumerate(labels)}

    def read(self, value):
        """A value as it stands in a line: a list of ranges side by side, each with its label and count."""
        found = {}
        for bucket in value if isinstance(value, list) else [None]:
            label, count = (bucket.get("label"), bucket.get("count")) if isinstance(bucket, dict) else (None, None)
            if label not in self.places or type(count) is not int or not 0 <= count <= MOST_COUNT:
                raise NotMerged(f"{bucket!r} is no range of the histogram")
            if self.places[label] in found:
                raise NotMerged(f"the range {label} stands there twice")
            found[self.places[label]] = count
        return {place: count for place, count in found.items() if count}

    def merged(self, one, other):
        """What is gathered in two."""
        sums = {place: (one.get(place, 0) + other.get(place, 0)) & MOST_COUNT for place in {**one, **other}}
        return {place: count for place, count in sums.items() if count}

    def rows(self, counts):
        """The ranges from the first to the last whose count is not 0, each as its label and count."""
        shown = [place for place, count in counts.items() if count]
        places = range(min(shown), max(shown) + 1) if shown else ()
        return [(self.labels[place], counts.get(place, 0)) for place in places]


def added(one, other):
    """The sum of two numbers."""
    return signed(one + other)


def law_of(aggregation, bounds=()):
    """The law of an aggregation by its word, or none where it has none that is exact. `lhist` has three bounds."""
    if aggregation == "hist":
        return Buckets(POWERS)
    if aggregation == "lhist":
        return Buckets(steps(*bounds))
    both = {"count": added, "sum": added, "min": min, "max": max}.get(aggregation)
    return Numbers(both) if both else None
