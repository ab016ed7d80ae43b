"""The colours and the style of the page, for light and for dark."""

# For light and dark: the ground, boxes, lines, texts, quiet texts and red.
GROUNDS = {
    "ground": ("#f7f7f5", "#16181c"),
    "box": ("#ffffff", "#1f2228"),
    "line": ("#d9d9d4", "#3a3f48"),
    "text": ("#1c1e21", "#e6e7ea"),
    "quiet": ("#5c6069", "#a3a9b5"),
    "red": ("#b3151c", "#ff8278"),
    "redground": ("#fdeceb", "#43201f"),
    "link": ("#1f5fae", "#8ab8f5"),
    "busy": ("#b9cfe8", "#36506f"),
    "gap": ("#f1f1ee", "#262a31"),
    "loss": ("#d3222a", "#ff6a5e"),
}
# From the least to the greatest.
HEAT = [
    ("#bcd6f2", "#27496f"),
    ("#9cc3ec", "#2b5c8e"),
    ("#7db0e4", "#2f70aa"),
    ("#5c98d6", "#3a86c4"),
    ("#3f7fc2", "#559fd4"),
    ("#2a66ab", "#7abce2"),
    ("#1b4a86", "#a9d8ec"),
    ("#0f2c57", "#e2f5f9"),
]
# What a thread does.
STATES = {
    "run": ("#2f7d4f", "#58b37c"),
    "wait": ("#d98a1f", "#eba94a"),
    "io": ("#b0413e", "#e07a76"),
    "sleep": ("#a9b4c4", "#5d6878"),
    "idle": ("#d2d7de", "#444c58"),
    "else": ("#8d6bb0", "#b596d6"),
    "request": ("#3573b9", "#6da6e4"),
    "error": ("#b3151c", "#ff8278"),
    "bar1": ("#4485c8", "#4f93d2"),
}
# Things that are told apart by their colour alone; the first is for all others.
HUES = [
    ("#c9cdd4", "#4a515c"),
    ("#3573b9", "#5b9be0"),
    ("#d98a1f", "#e0a03f"),
    ("#2f7d4f", "#56b07a"),
    ("#8d6bb0", "#b08fd2"),
    ("#b0413e", "#dd7672"),
    ("#2a8f94", "#4fb8bd"),
    ("#9a7b2e", "#c3a452"),
    ("#c2578f", "#e084b4"),
]
ICICLE = [
    ("#dfe2e6", "#343a43"),
    ("#bfd6f0", "#274566"),
    ("#f2dcb4", "#5a4420"),
    ("#c4e3cf", "#23492f"),
    ("#dccfeb", "#43325a"),
    ("#f0cbc8", "#5a2c2a"),
    ("#c1e4e5", "#1f4a4c"),
]

RULES = """
*{box-sizing:border-box}
html{background:var(--ground);color:var(--text);color-scheme:light dark;-webkit-text-size-adjust:100%}
body{margin:0 auto;padding:16px;max-width:1500px;
font:14px/1.45 system-ui,-apple-system,"Segoe UI",Roboto,"DejaVu Sans",sans-serif}
h1{font-size:22px;margin:4px 0 12px;overflow-wrap:anywhere}h2{font-size:17px;margin:0 0 6px}
h3{font-size:14px;margin:12px 0 4px}h4{font-size:13px;margin:8px 0 2px;overflow-wrap:anywhere}
h3 small{display:block;font-weight:400;color:var(--quiet);font-size:12px}
section.panel{background:var(--box);border:1px solid var(--line);border-radius:8px;padding:14px 16px;margin:0 0 14px}
p{margin:4px 0 8px}.note,.quiet{color:var(--quiet)}.red{color:var(--red);font-weight:600}
p.red{background:var(--redground);padding:4px 8px;border-radius:4px;overflow-wrap:anywhere}a{color:var(--link)}
nav{display:flex;flex-wrap:wrap;gap:4px 14px;margin:0 0 14px}
dl{display:grid;grid-template-columns:max-content 1fr;gap:2px 16px;margin:0 0 10px}dt{color:var(--quiet)}
dd{margin:0;overflow-wrap:anywhere}svg{display:block;width:100%}rect{shape-rendering:crispEdges}
.n{font-variant-numeric:tabular-nums;white-space:nowrap}.n i{font-style:normal;margin-left:.16em}
.lane{display:grid;grid-template-columns:11em minmax(0,1fr);column-gap:10px;align-items:start;margin:0 0 3px}
.lane>.label{overflow-wrap:anywhere;line-height:1.25;padding-top:2px}
.lane .label small{display:block;color:var(--quiet);font-size:12px}.drawn{position:relative;min-width:0}
.lane>.drawn>svg{background:var(--gap)}.axis{position:relative;height:20px;font-size:12px;color:var(--quiet)}
.axis span{position:absolute;top:1px;transform:translateX(-50%);white-space:nowrap}
.axis span:first-child{transform:none}.axis .end{transform:translateX(-100%)}.axis .last{right:0;transform:none}
.axis span::before{content:"";position:absolute;left:50%;top:-3px;height:4px;border-left:1px solid var(--quiet)}
.axis span:first-child::before{left:0}.axis .end::before{left:100%}.axis .last::before{display:none}
.grid{grid-template-columns:7em minmax(0,1fr)}.grid>.label{padding:0;text-align:right}
.grid>.label span{display:block;line-height:15px;font-size:12px;white-space:nowrap;overflow:hidden;
text-overflow:ellipsis}
.legend{display:flex;align-items:center;gap:8px;font-size:12px;color:var(--quiet);margin:0 0 6px}
.swatches{display:inline-block;width:120px}
.maps{display:grid;grid-template-columns:repeat(auto-fit,minmax(min(100%,420px),1fr));gap:6px 28px}
.bar{display:grid;grid-template-columns:minmax(7em,16em) 8em minmax(0,1fr);column-gap:10px;align-items:center;
margin:0 0 2px}.bar .label{overflow-wrap:anywhere;line-height:1.25}.bar .number{text-align:right}
.histogram .bar{grid-template-columns:8em 7em minmax(0,1fr)}
.histograms{display:grid;grid-template-columns:repeat(auto-fill,minmax(min(100%,360px),1fr));gap:4px 28px}
.parts{display:flex;flex-wrap:wrap;gap:1px 14px;font-size:12px;line-height:1.5;margin:2px 0}
.stacked{margin-bottom:5px}.dot{display:inline-block;width:10px;height:10px;border-radius:2px;margin-right:5px}
.over{position:absolute;inset:0;pointer-events:none}
.over span{position:absolute;top:0;overflow:hidden;white-space:nowrap;text-overflow:ellipsis;font-size:12px;
line-height:24px;padding:0 4px}.runs .over span{color:#fff;text-shadow:0 0 2px #000,0 0 2px #000}
.level{position:relative;margin-bottom:1px}
.level rect{stroke:var(--box);stroke-width:1;vector-effect:non-scaling-stroke}.paler{opacity:.72}
.switch input{margin:0 4px 0 0}.switch label{margin-right:14px}.shown{display:none;margin-top:6px}
#by_time:checked~.by_time,#by_count:checked~.by_count{display:block}.wide{overflow-x:auto;max-width:100%}
table{border-collapse:collapse;font-size:13px}th{text-align:left;font-weight:600;color:var(--quiet)}
th.right{text-align:right}th,td{padding:2px 14px 2px 0;border-bottom:1px solid var(--line);vertical-align:top}
td:has(>.n:only-child){text-align:right}.lines td{white-space:nowrap}
.mono{font-family:ui-monospace,"DejaVu Sans Mono",Consolas,monospace;font-size:12px;white-space:pre}
details{margin:8px 0 0}summary{cursor:pointer;color:var(--link)}
pre{font:12px/1.45 ui-monospace,"DejaVu Sans Mono",Consolas,monospace;background:var(--ground);
border:1px solid var(--line);border-radius:4px;padding:8px; margin:6px 0 0;white-space:pre-wrap;
overflow-wrap:anywhere}.tree{list-style:none;margin:0;padding:0}.tree li{overflow-wrap:anywhere;padding:1px 0}
.lanes{position:relative}
.selected{position:absolute;top:0;bottom:22px;display:none;background:var(--link);opacity:.25;pointer-events:none}
#lanes .drawn{touch-action:pan-y;cursor:crosshair}
@media(max-width:700px){body{padding:8px}section.panel{padding:10px}.lane,.bar{grid-template-columns:minmax(0,1fr)}
.lane>.label:empty{display:none}.grid,.grid.lane{grid-template-columns:6em minmax(0,1fr)}.bar .number{text-align:left}
.bar,.histogram .bar{grid-template-columns:minmax(0,1fr) max-content}.bar .drawn{grid-column:1/3}
.lane:not(.grid)>.label small{display:inline;margin-left:8px}}@media print{section.panel{break-inside:avoid}}
"""


def variables(colours, place):
    """The values of the colours, for light (0) or dark (1)."""
    return "".join(f"--{name}:{shades[place]};" for name, shades in colours.items())


def all_colours():
    """Each colour by its name."""
    named = dict(GROUNDS)
    named.update({f"h{place}": shades for place, shades in enumerate(HEAT, 1)})
    named.update(STATES)
    named.update({f"t{place}": shades for place, shades in enumerate(HUES)})
    named.update({f"i{place}": shades for place, shades in enumerate(ICICLE)})
    named["well"], named["failed"] = ICICLE[3], ("#e2837d", "#8f3532")
    return named


def style():
    """The style sheet."""
    colours = all_colours()
    kinds = [
        name for name in colours if name not in ("ground", "box", "line", "text", "quiet", "red", "redground", "link")
    ]
    fills = "".join(f".{name}{{fill:var(--{name});}}b.{name}{{background:var(--{name})}}" for name in kinds)
    return (
        f":root{{{variables(colours, 0)}}}@media(prefers-color-scheme:dark){{:root{{{variables(colours, 1)}}}}}"
        + RULES
        + fills
    )
