"""The pieces of which pictures are made: text that is measured and wrapped, boxes with titles, colours, and pages.

The colours are those of Okabe and Ito, which colour-blind readers tell apart; no meaning hangs on a colour alone, since
each box says its kind in words or by a mark. A dark scheme is used where the reader's system asks for one.
"""

import json
from collections.abc import Collection, Iterable, Mapping, Sequence
from html import escape
from typing import NamedTuple

from wrapper.reading import Names

CHAR, LINE, PAD = 6.65, 15, 6
FONT = "'DejaVu Sans Mono',Menlo,Consolas,'Liberation Mono',monospace"

# The kinds of boxes, each with its colour by day, its colour by night, and what it is in the legend.
KINDS = {
    "ok": ("#009E73", "#2BC79A", "✓ accepted command"),
    "refused": ("#D55E00", "#FF8A3D", "✗ refused"),
    "raise": ("#0072B2", "#4BA9E0", "raise"),
    "packet": ("#56B4E9", "#8CD0F7", "packet"),
    "later": ("#E69F00", "#F2BC4B", "left to a job, and the job"),
    "send": ("#CC79A7", "#E3A3C6", "deliveries and lost sends"),
    "retire": ("#000000", "#F0E442", "retirement"),
}
MOST_PARTS = 400_000


class Drawn(NamedTuple):
    """A picture, the values of its filter, why each box says what it does, by its number, and names."""

    text: str
    values: Mapping[str, set[int]]
    whys: Sequence[str]
    names: Names


class TooLarge(Exception):
    """More is to be drawn than a picture may hold."""


COMMON = """text{font-family:%s;font-size:11px;white-space:pre}.b{font-weight:700}.h{font-size:13px;font-weight:700}
rect{stroke-width:1}.fill{fill-opacity:.13}.solid{fill-opacity:.3;stroke-width:1.6}path{fill:none;stroke-width:1.4}
.retire.fill{stroke-dasharray:4 2}.dim{opacity:.12}"""
SCHEMES = {
    "day": {"paper": "#FFFFFF", "ink": "#15191E", "faint": "#56616B", "line": "#C3CCD4", "band": "#E9EEF3"},
    "night": {"paper": "#14181D", "ink": "#EDF1F5", "faint": "#A4B0BB", "line": "#3B4652", "band": "#232B34"},
}


def scheme(name: str, at: int) -> str:
    """The rules of style of one scheme."""
    of = SCHEMES[name]
    rules = [f".paper{{fill:{of['paper']}}}text{{fill:{of['ink']}}}.faint{{fill:{of['faint']}}}"]
    rules.append(f".rule{{stroke:{of['line']}}}.band{{fill:{of['band']}}}")
    rules.append(f".plain{{fill:{of['paper']};stroke:{of['line']}}}")
    for kind, look in KINDS.items():
        rules.append(f"rect.{kind}{{fill:{look[at]};stroke:{look[at]}}}path.{kind}{{stroke:{look[at]}}}")
    return "".join(rules)


def style() -> str:
    """The style that a picture carries."""
    night = f"@media (prefers-color-scheme:dark){{{scheme('night', 1)}}}"
    return f"<style>{COMMON % FONT}\n{scheme('day', 0)}\n{night}</style>"


def width_of(text: str) -> float:
    """How wide a text of the common size is at most."""
    return len(text) * CHAR


def wrapped(text: str, width: float) -> list[str]:
    """The text in lines that are no wider than that; a word that is too long is broken."""
    most, lines, line = max(8, int(width / CHAR)), list[str](), ""
    for word in text.split(" "):
        while len(word) > most:
            room = most - len(line) - 1 if line else most
            if room < 4:
                lines.append(line)
                line, room = "", most
            lines.append(f"{line} {word[:room]}" if line else word[:room])
            line, word = "", word[room:]
        if line and len(line) + 1 + len(word) > most:
            lines.append(line)
            line = word
        else:
            line = f"{line} {word}" if line else word
    return lines + [line] if line or not lines else lines


def shortened(word: str, most: int = 24) -> str:
    """A long value of bytes with its middle left out, and how many bytes it has."""
    if len(word) <= most or not word.startswith("x"):
        return word
    return f"{word[:most - 8]}…{word[-4:]}({(len(word) - 1) // 2} bytes)"


def marks(values: Mapping[str, Collection[int]]) -> str:
    """Attributes by which a page's filter finds a box: each name with its numbers."""
    return "".join(f' data-{name}="{" ".join(map(str, sorted(set(of))))}"' for name, of in values.items() if of)


class Sheet:
    """What is drawn so far, in the order of drawing."""

    def __init__(self, width: float) -> None:
        """Begins an empty sheet."""
        self.width = width
        self.parts: list[str] = []

    def add(self, part: str) -> None:
        """Adds a part, of which there is a most."""
        if len(self.parts) >= MOST_PARTS:
            raise TooLarge
        self.parts.append(part)

    def text(self, x: float, y: float, text: str, look: str = "") -> None:
        """A line of text whose base line is at y."""
        of = f' class="{look}"' if look else ""
        self.add(f'<text x="{x:.5g}" y="{y:.7g}"{of}>{escape(text)}</text>')

    def box(self, x: float, y: float, width: float, height: float, look: str, title: str = "") -> None:
        """A box, which tells its title."""
        inside = f"><title>{escape(title)}</title></rect>" if title else "/>"
        place = f'x="{x:.5g}" y="{y:.7g}" width="{width:.5g}" height="{height:.6g}"'
        self.add(f'<rect {place} rx="3" class="{look}"{inside}')

    def path(self, shape: str, look: str, title: str = "", data: str = "") -> None:
        """A line along a shape."""
        inside = f"><title>{escape(title)}</title></path>" if title else "/>"
        self.add(f'<path d="{shape}" class="{look}"{data}{inside}')

    def begin(self, look: str, title: str = "", data: str = "") -> None:
        """Begins a group, whose title each thing in it tells."""
        self.add(f'<g class="{look}"{data}>' + (f"<title>{escape(title)}</title>" if title else ""))

    def end(self) -> None:
        """Ends the group."""
        self.add("</g>")

    def write(self, height: float, title: str) -> str:
        """The whole picture as SVG."""
        head = (
            f'<svg xmlns="http://www.w3.org/2000/svg" width="{self.width:.0f}" height="{height:.0f}" '
            f'viewBox="0 0 {self.width:.0f} {height:.0f}" role="img"><title>{escape(title)}</title>'
        )
        paper = '<rect class="paper" width="100%" height="100%"/>'
        return "\n".join([f"{head}{style()}{paper}", *self.parts, "</svg>"]) + "\n"


def legend(sheet: Sheet, x: float, y: float, kinds: Mapping[str, str]) -> float:
    """The legend of these kinds, each with its words, in rows from there on; answers where it ends."""
    left = x
    for kind, text in kinds.items():
        wide = width_of(text) + 26
        if x + wide > sheet.width - 8:
            x, y = left, y + LINE + 3
        sheet.box(x, y - 10, 13, 12, f"{kind} fill")
        sheet.text(x + 18, y, text)
        x += wide + 10
    return y + 6


# ---- pages

PAGE = """<!DOCTYPE html>
<html lang="en"><head><meta charset="utf-8"><meta name="viewport" content="width=device-width"><title>%(title)s</title>
<style>:root{color-scheme:light dark}body{margin:0;font:13px sans-serif}
form{position:sticky;top:0;left:0;padding:8px;background:Canvas;border-bottom:1px solid GrayText;z-index:1}
label{margin-right:14px}output{color:GrayText}
pre{position:fixed;bottom:0;left:0;right:0;max-height:45vh;overflow:auto;margin:0;padding:10px;background:Canvas;
border-top:2px solid GrayText;z-index:2}pre:empty{display:none}[data-why]{cursor:pointer}</style></head><body>
<form><label>search <input type="search" name="search" size="24"></label>%(choices)s
<button type="reset">all</button> <output></output></form>
%(picture)s
<pre></pre>
<script type="application/json" id="whys">%(whys)s</script>
<script>
const whys = JSON.parse(document.getElementById("whys").textContent), told = document.querySelector("pre");
document.addEventListener("click", event => {
  const box = event.target.closest("[data-why]");
  if (box || !event.target.closest("pre, form")) told.textContent = box ? whys[box.dataset.why] : "";
});
document.addEventListener("keydown", event => { if (event.key === "Escape") told.textContent = ""; });
const form = document.querySelector("form");
const items = [...document.querySelectorAll(".item")];
const boxes = items.filter(item => item.tagName === "g");
const names = [...form.querySelectorAll("select")].map(one => one.name);
const text_of = item => (item.textContent + " " + (whys[item.dataset.why] || "")).toLowerCase();
const texts = new Map(items.map(item => [item, text_of(item)]));
function choose() {
  const words = form.search.value.toLowerCase().split(/\\s+/);
  for (const item of items) {
    const fits = names.every(name => form[name].value === "" ||
      (item.dataset[name] || "").split(" ").includes(form[name].value));
    item.classList.toggle("dim", !fits || !words.every(word => texts.get(item).includes(word)));
  }
  const shown = boxes.filter(box => !box.classList.contains("dim")).length;
  form.querySelector("output").textContent = shown + " of " + boxes.length + " boxes stand out";
}
form.addEventListener("change", choose);
form.addEventListener("input", choose);
form.addEventListener("submit", event => event.preventDefault());
form.addEventListener("reset", () => setTimeout(choose));
choose();
</script></body></html>
"""


def choice(name: str, values: Iterable[int], names: Mapping[tuple[str, int], str]) -> str:
    """A list of a page's filter, from which one number is chosen; those that have names are shown with them."""
    shown = {value: f"{value} {names.get((name, value), '')}".strip() for value in sorted(values)}
    options = "".join(f'<option value="{value}">{escape(text)}</option>' for value, text in shown.items())
    return f'<label>{name} <select name="{name}"><option value="">all</option>{options}</select></label>'


def page(drawn: Drawn, title: str) -> str:
    """The picture in a page with a filter by the names of its values; a click on a box tells why."""
    choices = "".join(choice(name, of, drawn.names) for name, of in drawn.values.items() if of)
    whys = json.dumps(list(drawn.whys)).replace("<", "\\u003c")
    return PAGE % {"title": escape(title), "choices": choices, "picture": drawn.text, "whys": whys}
