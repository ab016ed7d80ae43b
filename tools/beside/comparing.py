"""What bpftrace printed live beside what the program prints over the recording of the same events."""
import re
from collections import Counter, defaultdict
from dataclasses import dataclass, field

ROW = re.compile(r"(@\w*)(\[.*\])?: (.*)")
HISTOGRAM = re.compile(r"(@\w*)(\[.*\])?: ?")
STEP = re.compile(r"([\[(].*?[\])]) +(\d+) \|(.*)\|")
NUMBER = re.compile(r"(-?\d+)([KMGTPE]?)")
NOT_PRINTED = ("READY", "WARNING: Addrspace")


@dataclass
class Printed:
    """What a script printed: the values of each map's key in their order, the rows' order, and the other lines."""

    rows: dict = field(default_factory=lambda: defaultdict(list))
    order: list = field(default_factory=list)
    lines: list = field(default_factory=list)


def plain(label):
    """The label of a histogram's step with its numbers written out."""
    def number(text):
        found = NUMBER.fullmatch(text.strip())
        return str(int(found[1]) * 1024 ** " KMGTPE".index(found[2] or " ")) if found else text.strip()
    return label[0] + ", ".join(map(number, label[1:-1].split(","))) + label[-1]


def printed(text):
    """What a text shows that a script printed. Empty lines and the lines that no script prints are left out."""
    found, steps = Printed(), None
    for line in text.split("\n"):
        step, row, head = STEP.fullmatch(line), ROW.fullmatch(line), HISTOGRAM.fullmatch(line)
        if step and steps is not None:
            steps.append((plain(step[1]), int(step[2]), step[3]))
        elif head or row:
            key = (head or row)[1], (head or row)[2] or ""
            steps = [] if head else None
            found.rows[key].append(steps if head else row[3])
            found.order.append(key)
        elif line.strip() and not line.startswith("Attaching ") and line.strip() not in NOT_PRINTED:
            steps = None
            found.lines.append(line)
    return found


def differences(live, ours):
    """What differs between the text that bpftrace printed and the program's, a line for each; the order of lines is not compared, since bpftrace
    hands them over CPU by CPU."""
    live, ours = printed(live), printed(ours)
    found = [f"{name}{key}: live {shown(live.rows.get((name, key)))}, here {shown(ours.rows.get((name, key)))}"
             for name, key in sorted(set(live.rows) | set(ours.rows)) if live.rows.get((name, key)) != ours.rows.get((name, key))]
    there, here = Counter(live.lines), Counter(ours.lines)
    found += [f"line only live, {count} times: {line}" for line, count in (there - here).items()]
    found += [f"line only here, {count} times: {line}" for line, count in (here - there).items()]
    return found or wrong_order(live, ours)


def shown(values):
    """The values of a key, or that there is none."""
    return "nothing" if values is None else " | ".join(map(str, values))


def wrong_order(live, ours):
    """The maps whose values stand in another order."""
    orders = []
    for text in (live, ours):
        taken, order = Counter(), defaultdict(list)
        for key in text.order:
            order[key[0]].append(text.rows[key][taken[key]])
            taken[key] += 1
        orders.append(order)
    return [f"{name}: its rows stand in another order" for name in sorted(orders[0]) if orders[0][name] != orders[1][name]]
