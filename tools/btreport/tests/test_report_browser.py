"""Opens a report in a real browser, Debian's chromium: no error in its console, each panel drawn, texts that can be
read, in both themes and at two widths. Left out, with a word, where there is no browser."""
import base64
import hashlib
import html
import json
import os
import pathlib
import re
import shutil
import subprocess
import tempfile
import unittest

from made_answers import EXAMPLES, json_of, read_page
from made_report import SPAN, asked_of

from btreport.answers import answer_of
from btreport.command import own_panels, panels_of
from btreport.foot import foot
from btreport.page import page
from btreport.palette import GROUNDS, ICICLE, all_colours
from btreport.running import Asked
from btreport.time_line import head, time_line, time_line_of

BROWSER = next(filter(None, map(shutil.which, ("chromium", "chromium-browser", "google-chrome"))), None)
SECONDS = 300
LEAST_FONT = 12
LEAST_CONTRAST = 4.5

# The page is opened in a frame, since a window of the browser cannot be narrow. The frame's page writes down what it is
# told.
FRAME = """<!DOCTYPE html><body style="margin:0"><script>
addEventListener("message", function (event) {
  const told = document.createElement("pre");
  told.id = "probe";
  told.textContent = event.data;
  document.body.append(told);
});
</script><iframe src="page.html" style="width:%dpx;height:900px;border:0"></iframe>"""

# It looks at the page as it is laid out, drags over a window of the time line, and tells what it found.
PROBE = r"""
(function () {
  "use strict";
  function numbers(colour) { return colour.match(/[\d.]+/g).map(Number); }
  function light(colour) {
    const parts = numbers(colour).slice(0, 3).map(function (part) {
      part /= 255;
      return part <= 0.03928 ? part / 12.92 : Math.pow((part + 0.055) / 1.055, 2.4);
    });
    return 0.2126 * parts[0] + 0.7152 * parts[1] + 0.0722 * parts[2];
  }
  function ground(node) {
    for (; node; node = node.parentElement) {
      const colour = getComputedStyle(node).backgroundColor, parts = numbers(colour);
      if (parts.length === 3 || parts[3] > 0.99) { return colour; }
    }
    return "rgb(255, 255, 255)";
  }
  document.querySelectorAll("details").forEach(function (node) { node.open = true; });
  const texts = [...document.querySelectorAll("body *")].filter(function (node) {
    const has_text = [...node.childNodes].some(function (child) { return child.nodeType === 3 && child.data.trim(); });
    return has_text && !node.closest("svg, script, .over") && node.getClientRects().length;
  });
  const fonts = texts.map(function (node) { return parseFloat(getComputedStyle(node).fontSize); });
  const faint = texts.map(function (node) {
    const one = light(getComputedStyle(node).color), other = light(ground(node));
    const contrast = (Math.max(one, other) + 0.05) / (Math.min(one, other) + 0.05);
    return [contrast, node.className, node.textContent.slice(0, 40)];
  }).filter(function (found) { return found[0] < 4.5; });
  const overlaps = [...document.querySelectorAll(".axis")].filter(function (axis) {
    const boxes = [...axis.children].map(function (child) { return child.getBoundingClientRect(); });
    return boxes.some(function (box, place) { return place && box.width && boxes[place - 1].right > box.left; });
  }).length;
  const panels = [...document.querySelectorAll("section.panel")].map(function (panel) {
    const drawings = [...panel.querySelectorAll("svg")].filter(function (one) { return one.getClientRects().length; });
    return [panel.id, drawings.length, drawings.filter(function (drawing) {
      const box = drawing.getBoundingClientRect();
      return box.width < 60 || box.height < 8;
    }).length, panel.getBoundingClientRect().height];
  });
  const area = document.querySelector("#lanes .drawn"), box = area.getBoundingClientRect();
  function point(kind, part) {
    const place = {clientX: box.left + part * box.width, clientY: box.top + 3};
    area.dispatchEvent(new PointerEvent(kind, {bubbles: true, button: 0, ...place}));
  }
  const before = document.getElementById("cut").textContent;
  point("pointerdown", 0.5); point("pointermove", 0.3); point("pointerup", 0.25);
  const selected = document.querySelector(".selected").getBoundingClientRect().width / box.width;
  window.parent.postMessage(JSON.stringify({
    least: Math.min(...fonts), faint: faint, overlaps: overlaps, panels: panels, before: before, selected: selected,
    cut: document.getElementById("cut").textContent, width: window.innerWidth,
    wide: document.documentElement.scrollWidth, dark: matchMedia("(prefers-color-scheme: dark)").matches
  }), "*");
})();
"""


def whole_page():
    """A report with all panels, those of all examples among them."""
    asked = asked_of("<script>alert(1)</script>")
    line = time_line_of(asked["time_line"].answer)
    own = [
        Asked(path.name, path.read_text(), answer_of(json_of(path.with_suffix(".out").read_text()).encode()))
        for path in sorted(EXAMPLES.glob("*.bt"))
    ]
    recording = str(EXAMPLES / "small.btr")
    panels = [
        head("small.btr", line, asked["time_line"], []),
        time_line(line, asked, "btrecord cut small.btr"),
        *panels_of(line, asked),
        *own_panels(own),
    ]
    return page("Recording small.btr", panels + [foot(recording, [*asked.values(), *own], "btreplay", True)]).decode()


def probed(markup):
    """A page with the probe behind it, which its policy lets run as it does the page's own script."""
    checksum = base64.b64encode(hashlib.sha256(PROBE.encode()).digest()).decode()
    allowed = markup.replace(html.escape("script-src "), html.escape(f"script-src 'sha256-{checksum}' "), 1)
    return allowed.replace("</body>", f"<script>{PROBE}</script></body>")


def contrast(one, other):
    """How well two colours are told apart, as WCAG has it."""

    def light(colour):
        parts = [int(colour[at : at + 2], 16) / 255 for at in (1, 3, 5)]
        parts = [part / 12.92 if part <= 0.03928 else ((part + 0.055) / 1.055) ** 2.4 for part in parts]
        return 0.2126 * parts[0] + 0.7152 * parts[1] + 0.0722 * parts[2]

    lights = sorted((light(one), light(other)))
    return (lights[1] + 0.05) / (lights[0] + 0.05)


class Colours(unittest.TestCase):
    def test_texts_stand_out(self):
        for place in (0, 1):
            for name in ("text", "quiet", "red", "link"):
                for ground in ("ground", "box"):
                    self.assertGreaterEqual(
                        contrast(GROUNDS[name][place], GROUNDS[ground][place]), LEAST_CONTRAST, (name, ground)
                    )
            for shades in ICICLE + [all_colours()["failed"]]:
                self.assertGreaterEqual(contrast(GROUNDS["text"][place], shades[place]), LEAST_CONTRAST, shades)

    def test_each_kind_of_shape_has_a_colour(self):
        known = set(all_colours())
        for shape in read_page(whole_page()).all("rect"):
            self.assertTrue(set(shape.attributes["class"].split()) & known, shape.attributes["class"])


@unittest.skipUnless(BROWSER, "there is no chromium to open a page in")
class Browser(unittest.TestCase):
    @classmethod
    def setUpClass(cls):
        cls.markup = whole_page()

    def opened(self, markup, width, is_dark):
        """What the probe found in a page that is opened at a width, and what the browser's console had."""
        with tempfile.TemporaryDirectory() as folder:
            pathlib.Path(folder, "page.html").write_text(markup)
            frame = pathlib.Path(folder, "frame.html")
            frame.write_text(FRAME % width)
            words = [
                BROWSER,
                "--headless=new",
                "--no-sandbox",
                "--disable-gpu",
                "--hide-scrollbars",
                f"--user-data-dir={folder}/user",
                f"--window-size={max(width, 600)},900",
                f"--blink-settings=preferredColorScheme={0 if is_dark else 1}",
                "--enable-logging=stderr",
                "--v=0",
                "--virtual-time-budget=5000",
                "--dump-dom",
                frame.as_uri(),
            ]
            done = subprocess.run(
                words,
                stdin=subprocess.DEVNULL,
                stdout=subprocess.PIPE,
                stderr=subprocess.PIPE,
                timeout=SECONDS,
                env={**os.environ, "HOME": folder},
            )
        console = [
            line
            for line in done.stderr.decode(errors="replace").splitlines()
            if re.search(r"CONSOLE|Uncaught|Refused to", line)
        ]
        probe = re.search(r'<pre id="probe">(.*?)</pre>', done.stdout.decode(errors="replace"), re.DOTALL)
        self.assertTrue(probe, done.stderr.decode(errors="replace")[-2_000:])
        return json.loads(html.unescape(probe[1])), console

    def check(self, found, width):
        """Each panel is drawn, and texts can be read."""
        self.assertEqual(found["width"], width)
        self.assertLessEqual(found["wide"], width, "the page is wider than the window")
        self.assertGreaterEqual(found["least"], LEAST_FONT)
        self.assertEqual(found["faint"], [])
        self.assertEqual(found["overlaps"], 0)
        ids = [name for name, *_ in found["panels"]]
        self.assertEqual(len(ids), len(set(ids)))
        for name, drawings, small, height in found["panels"]:
            self.assertEqual(small, 0, name)
            self.assertGreater(height, 40, name)
        drawn = {name for name, drawings, *_ in found["panels"] if drawings}
        self.assertLessEqual({"head", "time_line", "waits", "block", "calls", "who", "runs", "icicle"}, drawn)
        self.assertGreaterEqual(len([name for name in drawn if name.startswith("own_")]), 25)

    def test_a_wide_window_and_light(self):
        found, console = self.opened(probed(self.markup), 1_400, False)
        self.assertEqual(console, [])
        self.assertFalse(found["dark"])
        self.check(found, 1_400)
        self.assertEqual(found["before"], f"btrecord cut small.btr --from +0ns --to +{SPAN}ns")
        self.assertEqual(found["cut"], f"btrecord cut small.btr --from +{SPAN // 4}ns --to +{SPAN // 2}ns")
        self.assertAlmostEqual(found["selected"], 0.25, delta=0.01)

    def test_a_narrow_window_and_dark(self):
        found, console = self.opened(probed(self.markup), 420, True)
        self.assertEqual(console, [])
        self.assertTrue(found["dark"])
        self.check(found, 420)


if __name__ == "__main__":
    unittest.main()
