"""The tree of processes: which began which, what each executed, and when it ended."""
from dataclasses import dataclass, field

from btreport.answers import text_of
from btreport.markup import element, escaped, number, text
from btreport.panel import Panel

MOST_NODES = 300
MOST_DEEP = 40


@dataclass
class Node:
    """A process or a thread. Times are None where the recording does not have them."""

    number: int
    name: str = ""
    began: object = None
    ended: object = None
    executed: list = field(default_factory=list)
    children: list = field(default_factory=list)


def nodes_of(answer):
    """The processes that have no parent here, with all others under them. A number that comes again is another
    process."""
    known, roots = {}, []

    def node(which):
        if which not in known:
            known[which] = Node(which)
            roots.append(known[which])
        return known[which]

    for line in answer.printed():
        kind, time, which, rest = line[:-1].split(" ", 3)
        time, which = int(time), int(which)
        if kind == "fork":
            child, _, comm = rest.partition(" ")
            parent, comm = node(which), text_of(comm)
            parent.name = parent.name or comm
            known[int(child)] = Node(int(child), comm, began=time)
            parent.children.append(known[int(child)])
        elif kind == "exec":
            node(which).executed.append((time, text_of(rest)))
        else:
            found = node(which)
            found.name, found.ended = text_of(rest), time
    return roots


def told(node):
    """A process in words."""
    parts = [element("b", escaped(node.name or "process")), f" {node.number}"]
    parts += [f" began at {number(node.began)}"] if node.began is not None else []
    parts += [f", executed {escaped(path)} at {number(time)}" for time, path in node.executed]
    parts += [f", ended at {number(node.ended)}"] if node.ended is not None else []
    return "".join(parts)


def items(roots):
    """The lines of the tree in their order, each with how deep it stands, without recursion."""
    waiting = [(node, 0) for node in reversed(roots)]
    while waiting:
        node, depth = waiting.pop()
        yield node, depth
        waiting += [(child, depth + 1) for child in reversed(node.children)]


def tree(asked):
    """The tree as lines, each moved in by its depth."""
    found = list(items(nodes_of(asked.answer)))
    shown = [
        element("li", told(node), style=f"margin-left:{1.2 * min(depth, MOST_DEEP):.1f}em")
        for node, depth in found[:MOST_NODES]
    ]
    rest = len(found) - len(shown)
    body = (
        element("ul", *shown, class_="tree")
        if shown
        else text("p", "no process began, executed a file or ended", class_="quiet")
    )
    return Panel(
        "processes",
        "Processes that begin and end",
        body + (text("p", f"{rest} more processes left out", class_="red") if rest else ""),
        [asked],
        "Threads are among them. Times are nanoseconds from the start of the recording.",
    )
