#!/usr/bin/env python3
"""Draws the pictures of docs/ARCHITECTURE.md: each NAME.txt beside this file becomes NAME.svg.

    draw.py           writes every picture
    draw.py --check   says which committed picture is not what its description gives, and fails then

A description is lines of `word: text`; `|` divides the parts of a text. The first line says which kind of picture it
is (layers, states, bytes, sequence); the functions below say what each kind's words mean. `#` starts a comment.
"""
import html
import pathlib
import sys

HERE = pathlib.Path(__file__).resolve().parent
ROOT = HERE.parent.parent
WIDTH = 880
MARGIN = 20
INK, GREY, LINE = "#1b1f24", "#57606a", "#57606a"
FILLS = {"plain": "#eef2f7", "key": "#fdebc8", "value": "#d9ecd9", "mac": "#f6d5d5", "grey": "#e4e4e4",
         "none": "#ffffff"}


class Canvas:
    """SVG elements, on a white background of their own so that they can be read on a dark page too."""

    def __init__(self, title):
        self.parts, self.title, self.height = [], title, 0

    def reach(self, y):
        self.height = max(self.height, y)

    def text(self, x, y, words, size=13, anchor="start", weight="normal", fill=INK):
        self.reach(y + size / 2)
        self.parts.append(f'<text x="{x:g}" y="{y:g}" font-size="{size}" text-anchor="{anchor}" '
                          f'font-weight="{weight}" fill="{fill}">{html.escape(words, quote=False)}</text>')

    def box(self, x, y, w, h, fill="plain", radius=3):
        self.reach(y + h)
        self.parts.append(f'<rect x="{x:g}" y="{y:g}" width="{w:g}" height="{h:g}" rx="{radius}" '
                          f'fill="{FILLS[fill]}" stroke="{LINE}"/>')

    def path(self, d, arrow=False, dashed=False):
        self.parts.append(f'<path d="{d}" fill="none" stroke="{LINE}" stroke-width="1.3"'
                          + (' stroke-dasharray="5 4"' if dashed else "")
                          + (' marker-end="url(#head)"' if arrow else "") + "/>")

    def svg(self):
        height = self.height + MARGIN
        return "\n".join([
            f'<svg xmlns="http://www.w3.org/2000/svg" width="{WIDTH}" height="{height:g}" '
            f'viewBox="0 0 {WIDTH} {height:g}" font-family="Helvetica, Arial, DejaVu Sans, sans-serif">',
            f"<title>{html.escape(self.title, quote=False)}</title>",
            '<defs><marker id="head" viewBox="0 0 10 10" refX="9" refY="5" markerWidth="8" markerHeight="8" '
            f'orient="auto-start-reverse"><path d="M0 0 L10 5 L0 10 z" fill="{LINE}"/></marker></defs>',
            f'<rect width="{WIDTH}" height="{height:g}" fill="#ffffff"/>',
            *self.parts, "</svg>"]) + "\n"


def text_width(words, size):
    """Wide enough for DejaVu Sans, the widest of the fonts that are named."""
    return sum({"i": 0.3, "l": 0.3, "_": 0.52, " ": 0.34, "m": 1.0, "w": 0.84}.get(c, 0.64) for c in words) * size


def layers(canvas, lines):
    """source: a file like crates.txt. Each heading `# layer: sentence` becomes a band with the crates after it."""
    bands = []
    for line in (ROOT / dict(lines)["source"]).read_text(encoding="utf-8").splitlines():
        if line.startswith("# ") and ":" in line and not line.startswith("# NAME:"):
            name, sentence = line[2:].split(":", 1)
            bands.append((name, sentence.strip(), []))
        elif line and not line.startswith("#"):
            bands[-1][2].append(line.split(":")[0].split()[0])
    y = 46
    for name, sentence, crates in bands:
        top = y
        chips, x, y = [], MARGIN + 100, y + 26
        for crate in crates:
            w = text_width(crate, 11) + 12
            if x + w > WIDTH - MARGIN - 8:
                x, y = MARGIN + 100, y + 23
            chips.append((x, y, w, crate))
            x += w + 6
        y += 27
        canvas.box(MARGIN, top, WIDTH - 2 * MARGIN, y - top, "plain")
        canvas.text(MARGIN + 10, top + 17, name, 14, weight="bold")
        canvas.text(MARGIN + 100, top + 17, sentence, 12, fill=GREY)
        for x, cy, w, crate in chips:
            canvas.box(x, cy, w, 19, "none")
            canvas.text(x + w / 2, cy + 13.5, crate, 11, "middle")
        y += 7


def states(canvas, lines):
    """state: id | x | y | label | fill; path: SVG path, with an arrow's head at its end; text: x | y | words | anchor;
    head: x | y | words."""
    for word, value in lines:
        parts = [p.strip() for p in value.split("|")]
        if word == "state":
            x, y, label, fill = float(parts[1]), float(parts[2]), parts[3], parts[4]
            canvas.box(x - 55, y - 20, 110, 40, fill, 18)
            canvas.text(x, y + 5, label, 14, "middle", "bold")
        elif word == "path":
            canvas.path(value, arrow=True)
        elif word == "text":
            canvas.text(float(parts[0]), float(parts[1]), parts[2], 12, parts[3])
        elif word == "head":
            canvas.text(float(parts[0]), float(parts[1]), parts[2], 14, "middle", "bold")


def byte_rows(canvas, lines):
    """head: a line of text; row: pixels to the left of it | pixels of each unit; cell: units | label | second line |
    fill | text above; endrow: ends it; brace: from | to | label, in units of the row above it; note: a line of small
    text; gap: pixels."""
    y, left, unit, x = 34, MARGIN, 1, MARGIN
    for word, value in lines:
        parts = [p.strip() for p in value.split("|")]
        if word == "head":
            y += 32
            canvas.text(MARGIN, y, value, 14, weight="bold")
        elif word == "row":
            y += 26
            left, unit = MARGIN + float(parts[0]), float(parts[1])
            x = left
        elif word == "cell":
            w = float(parts[0]) * unit
            canvas.box(x, y, w, 44, parts[3] or "plain", 0)
            canvas.text(x + w / 2, y + (19 if parts[2] else 27), parts[1], 12, "middle", "bold")
            if parts[2]:
                canvas.text(x + w / 2, y + 35, parts[2], 11, "middle", fill=GREY)
            if len(parts) > 4:
                canvas.text(x + 1, y - 4, parts[4], 11, fill=GREY)
            x += w
        elif word == "endrow":
            y += 44
        elif word == "brace":
            a, b = left + float(parts[0]) * unit + 2, left + float(parts[1]) * unit - 2
            middle = (a + b) / 2
            canvas.path(f"M{a:g} {y + 4:g} v7 H{middle:g} v6 v-6 H{b:g} v-7")
            canvas.text(middle, y + 31, parts[2], 12, "middle")
            y += 34
        elif word == "note":
            y += 19
            canvas.text(MARGIN, y, value, 12, fill=GREY)
        elif word == "gap":
            y += float(value)


def sequence(canvas, lines):
    """lanes: left | right; send: text, from left to right; answer: text, from right to left; left, right: what that
    end does then, beside its lane; gap: pixels; note: a line below the lanes."""
    y, a, b, notes = 62, 250, 630, []
    for word, value in lines:
        if word == "lanes":
            for x, name in zip((a, b), (p.strip() for p in value.split("|"))):
                canvas.text(x, y, name, 14, "middle", "bold")
            top = y + 10
            y += 24
        elif word in ("send", "answer"):
            y += 30
            start, end = (a + 4, b - 4) if word == "send" else (b - 4, a + 4)
            canvas.path(f"M{start} {y} H{end}", arrow=True)
            canvas.text((a + b) / 2, y - 6, value, 12, "middle")
        elif word == "left":
            canvas.text(a - 12, y + 4, value, 12, "end", fill=GREY)
        elif word == "right":
            canvas.text(b + 12, y + 4, value, 12, fill=GREY)
        elif word == "gap":
            y += float(value)
        elif word == "note":
            notes.append(value)
    for x in (a, b):
        canvas.path(f"M{x} {top} V{y + 14}")
    for number, value in enumerate(notes):
        canvas.text((a + b) / 2, y + 36 + 18 * number, value, 12, "middle", fill=GREY)


KINDS = {"layers": layers, "states": states, "bytes": byte_rows, "sequence": sequence}


def drawn(description):
    lines = []
    for line in description.read_text(encoding="utf-8").splitlines():
        if line.strip() and not line.startswith("#"):
            word, value = line.split(":", 1)
            lines.append((word.strip(), value.strip()))
    words = dict(lines)
    canvas = Canvas(words["title"])
    canvas.text(MARGIN, 30, words["title"], 16, weight="bold")
    KINDS[words["kind"]](canvas, [(w, v) for w, v in lines if w not in ("kind", "title")])
    return canvas.svg()


def stale():
    """The pictures whose committed file is not what their description gives."""
    return [d.with_suffix(".svg") for d in sorted(HERE.glob("*.txt"))
            if not d.with_suffix(".svg").exists() or d.with_suffix(".svg").read_text(encoding="utf-8") != drawn(d)]


if __name__ == "__main__":
    if sys.argv[1:] == ["--check"]:
        old = stale()
        for picture in old:
            print(f"{picture.relative_to(ROOT)}:1: is not what its description gives: make pictures")
        sys.exit(1 if old else 0)
    for description in sorted(HERE.glob("*.txt")):
        description.with_suffix(".svg").write_text(drawn(description), encoding="utf-8")
