"""Elements of a page. Whatever a name or a text holds comes out as text."""
import html

from btreport.scales import ticks

SEPARATED = 3
NUMBER = '<span class="n">'
# A time behind so many hundredths of the span stands left of its place.
NEAR_THE_END = 94


def escaped(text):
    """A text as it stands in HTML, in SVG and in attributes between double quotes."""
    return html.escape(str(text), quote=True)


def element(name, /, *content, **attributes):
    """An element with its attributes, whose values are escaped, and its content, which is markup already."""
    words = "".join(
        f' {key.rstrip("_").replace("_", "-")}="{escaped(value)}"'
        for key, value in attributes.items()
        if value is not None
    )
    return f"<{name}{words}>" + ("" if name == "input" else f"{''.join(content)}</{name}>")


def text(name, content, /, **attributes):
    """An element that has a text."""
    return element(name, escaped(content), **attributes)


def number(value):
    """A number with all of its digits, in groups that stand apart to the eye alone."""
    digits = str(value)
    sign, digits = (digits[:1], digits[1:]) if digits[:1] == "-" else ("", digits)
    first = len(digits) % SEPARATED or SEPARATED
    groups = [digits[at : at + SEPARATED] for at in range(first, len(digits), SEPARATED)]
    return f"{NUMBER}{sign}{digits[:first]}" + "".join(f"<i>{group}</i>" for group in groups) + "</span>"


def value(found):
    """A number or a text."""
    return number(found) if isinstance(found, int) else escaped(found)


def drawing(width, height, pixels, content, label):
    """A drawing that is as wide as there is room for, and so many pixels high. It has no text, which would be
    stretched."""
    return (
        f'<svg viewBox="0 0 {width} {height}" preserveAspectRatio="none" style="height:{pixels}px" role="img" '
        f'aria-label="{escaped(label)}">{content}</svg>'
    )


def rectangle(x, y, width, height, kind, title=None):
    """A rectangle of a kind that the style knows, and what is told where it is pointed at."""
    told = f"<title>{escaped(title)}</title>" if title is not None else ""
    return f'<rect x="{x:.6g}" y="{y:.6g}" width="{width:.6g}" height="{height:.6g}" class="{kind}">{told}</rect>'


def axis(span):
    """The times below a drawing of the whole span."""
    places = [(100 * time / max(span, 1), word) for time, word in ticks(span)]
    marks = [
        text("span", word, style=f"left:{place:.3f}%", class_="end" if place > NEAR_THE_END else None)
        for place, word in places
    ]
    return element("div", *marks, class_="axis")


def lane(label, content, kind=""):
    """A drawing behind its label."""
    return element(
        "div",
        element("div", label, class_="label"),
        element("div", content, class_="drawn"),
        class_=f"lane {kind}".strip(),
    )


def folded(title, content, **attributes):
    """What is seen once its title is clicked at."""
    return element("details", text("summary", title), content, **attributes)


def table(heads, rows, kind=""):
    """A table of markup, wider than the page where it has to be."""
    first = rows[0] if rows else []
    is_number = [cell.startswith(NUMBER) for cell in first] + [False] * (len(heads) - len(first))
    head = (
        element("tr", *(text("th", title, class_="right" if right else None) for title, right in zip(heads, is_number)))
        if heads
        else ""
    )
    body = "".join(element("tr", *(element("td", cell) for cell in row)) for row in rows)
    return element("div", element("table", head, body), class_=f"wide {kind}".strip())
