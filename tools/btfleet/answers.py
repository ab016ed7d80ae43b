"""What one recording answers: the JSON lines that `btreplay run --json` prints, read by the plan of the script.

First come the items as the script prints them, the maps that END prints among them, then each map that has rows, and
then the lost updates. A map without rows has no line, so which print of END a line is follows from how many lines there
are of its map: none, one for each print, or one more, that of the end.
"""
import json
from dataclasses import dataclass, field

from btfleet.faults import NotMerged

ITEMS = ("printf", "cut", "lost_events")


@dataclass
class Answer:
    """What a recording answers. `items` has for each print of END what stands before it, and last what stands behind
    all, as lists of lines that are read; `printed` has the rows of the prints by their places, `ends` those of the
    end by the maps' names. Rows are by their keys."""

    items: list
    printed: dict = field(default_factory=dict)
    ends: dict = field(default_factory=dict)
    lost: dict = field(default_factory=dict)

    def lost_events(self):
        """How many events the recording has lost, by its marks."""
        return sum(item["count"] for items in self.items for item in items if item["type"] == "lost_events")


def lines_of(text):
    """The lines that a run printed, each as its object."""
    try:
        found = [json.loads(line) for line in text.decode().split("\n") if line]
    except ValueError as fault:
        raise NotMerged(f"a line of its answer is no JSON: {fault}") from fault
    for line in found:
        if not isinstance(line, dict) or line.get("type") not in (*ITEMS, "map", "lost_updates"):
            raise NotMerged(f"a line of its answer is of no kind that is known here: {json.dumps(line)[:200]}")
    return found


def rows_of(line, plan):
    """The rows of a map's line, each read by the law of the map."""
    law = plan.laws.get(line.get("map"))
    if law is None:
        raise NotMerged(f"it answers rows of {line.get('map')}, which are not merged")
    rows = {tuple(row["key"]): law.read(row["value"]) for row in line["data"]}
    if len(rows) != len(line["data"]):
        raise NotMerged(f"it answers two rows of one key in {line['map']}")
    return rows


def places_of(names, plan):
    """For the lines of maps by their names, in their order, the places of END's prints that they are, and none for
    those of the end."""
    printed = [one.name for one in plan.prints]
    count = {name: names.count(name) for name in plan.laws}
    if any(of_map not in (0, printed.count(name), printed.count(name) + 1) for name, of_map in count.items()):
        raise NotMerged("it answers other maps than the script prints")
    wanted = [(name, place) for place, name in enumerate(printed) if count[name]]
    wanted += [(name, None) for name in plan.laws if count[name] > printed.count(name)]
    if [name for name, _ in wanted] != names:
        raise NotMerged("it answers maps in another order than the script prints")
    return [place for _, place in wanted]


def test_counts(answer, plan):
    """Refuses an answer that has not a count for each row beside which one is asked."""
    rows = [(name, answer.ends.get(name, {}), answer.ends.get(count, {})) for name, count in plan.counts.items()]
    rows += [(one.name, answer.printed.get(place, {}), answer.printed.get(place + 1, {})) for place, one in enumerate(plan.prints)
             if one.name in plan.counts]
    for name, sums, counts in rows:
        if sums.keys() != counts.keys():
            raise NotMerged(f"it answers rows of {name} without their counts")


def answer_of(text, plan):
    """The answer of a recording, from what its run printed."""
    lines = lines_of(text)
    places = iter(places_of([line.get("map") for line in lines if line["type"] == "map"], plan))
    answer, part, beside = Answer([[] for _ in range(len(plan.prints) + 1)]), 0, plan.beside()
    try:
        for line in lines:
            if line["type"] in ITEMS:
                answer.items[part].append(line)
            elif line["type"] == "lost_updates":
                answer.lost.update({line["map"]: line["count"]} if line["map"] not in beside else {})
            else:
                place = next(places)
                if place is None:
                    answer.ends[line["map"]] = rows_of(line, plan)
                else:
                    answer.printed[place], part = rows_of(line, plan), place + 1
    except (KeyError, TypeError) as fault:
        raise NotMerged(f"a line of its answer lacks a part: {fault}") from fault
    test_counts(answer, plan)
    return answer
