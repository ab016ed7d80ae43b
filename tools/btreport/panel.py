"""A panel: a title, a drawing, what is told beside it, and the scripts that asked below it."""
from dataclasses import dataclass, field

from btreport.markup import element, escaped, folded, text


@dataclass
class Panel:
    """A part of the page. `name` is its own, for links and tests; `asked` has the scripts by whose answers it is
    drawn."""

    name: str
    title: str
    body: str
    asked: list = field(default_factory=list)
    note: str = ""


def losses(asked):
    """What is told in red of a script that was refused, or that lost updates or was cut."""
    if asked.answer is None:
        return [f"refused: {asked.refusal}"]
    lost = [
        f"{asked.name}: {count} updates lost in {name}, for there was no room for their keys"
        for name, count in asked.answer.lost_updates()
    ]
    return lost + [f"{asked.name}: loop limit reached at line {line}" for line in asked.answer.cuts()]


def markup_of(panel):
    """A panel's markup."""
    told = "".join(text("p", line, class_="red") for asked in panel.asked for line in losses(asked))
    scripts = "".join(
        folded(f"the script that asked: {asked.name}", element("pre", escaped(asked.text)), class_="script")
        for asked in panel.asked
    )
    note = text("p", panel.note, class_="note") if panel.note else ""
    return element("section", text("h2", panel.title), note, told, panel.body, scripts, class_="panel", id=panel.name)
