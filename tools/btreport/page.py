"""The page as a whole: one file, with its style and its small script in it, that asks for nothing else."""
import base64
import hashlib

from btreport.markup import element, escaped, text
from btreport.palette import style
from btreport.panel import markup_of

# What is dragged over becomes the command that cuts it out. All else on the page does without a script.
SCRIPT = """
"use strict";
(function () {
  const lanes = document.getElementById("lanes"), told = document.getElementById("cut");
  if (!lanes || !told) { return; }
  const selected = lanes.querySelector(".selected"), span = BigInt(lanes.dataset.span), parts = 1000000;
  let first = null;
  document.getElementById("drag").hidden = false;
  function area() { return lanes.querySelector(".drawn").getBoundingClientRect(); }
  function share(event) {
    const box = area();
    return Math.min(1, Math.max(0, (event.clientX - box.left) / box.width));
  }
  function time(part) { return span * BigInt(Math.round(part * parts)) / BigInt(parts); }
  function show(last) {
    const box = area(), begin = Math.min(first, last), end = Math.max(first, last);
    selected.style.display = "block";
    selected.style.left = (box.left - lanes.getBoundingClientRect().left + begin * box.width) + "px";
    selected.style.width = ((end - begin) * box.width) + "px";
    told.textContent = lanes.dataset.cut + " --from +" + time(begin) + "ns --to +" + time(end) + "ns";
  }
  lanes.addEventListener("pointerdown", function (event) {
    if (event.button !== 0 || !event.target.closest(".drawn")) { return; }
    first = share(event);
    show(first);
    event.preventDefault();
  });
  window.addEventListener("pointermove", function (event) { if (first !== null) { show(share(event)); } });
  window.addEventListener("pointerup", function (event) {
    if (first === null) { return; }
    show(share(event));
    first = null;
  });
  window.addEventListener("pointercancel", function () { first = null; });
})();
"""


def policy():
    """What the page may do: its own style and this script, and nothing from elsewhere."""
    checksum = base64.b64encode(hashlib.sha256(SCRIPT.encode()).digest()).decode()
    allowed = f"default-src 'none'; style-src 'unsafe-inline'; script-src 'sha256-{checksum}'"
    return f"{allowed}; base-uri 'none'; form-action 'none'"


def links(panels):
    """The panels by their titles."""
    return element("nav", *(text("a", panel.title, href=f"#{panel.name}") for panel in panels))


def page(title, panels):
    """The whole page, as bytes."""
    head = (
        f'<meta charset="utf-8"><meta http-equiv="Content-Security-Policy" content="{escaped(policy())}">'
        '<meta name="viewport" content="width=device-width, initial-scale=1">'
        '<meta name="color-scheme" content="light dark">'
        f"<title>{escaped(title)}</title><style>{style()}</style>"
    )
    body = text("h1", title) + links(panels) + "\n".join(map(markup_of, panels)) + f"<script>{SCRIPT}</script>"
    return f'<!DOCTYPE html>\n<html lang="en"><head>{head}</head>\n<body>{body}</body></html>\n'.encode(
        "utf-8", "backslashreplace"
    )
