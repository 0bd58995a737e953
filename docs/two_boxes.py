#!/usr/bin/env python3
"""Draws docs/two_boxes.svg: the layout of examples/two_boxes.cif, a square defect, and every placement of it that meets both
boxes. The placements are found by trying all of them, by the definition, and are drawn only where there are 25, the count
in the report that README shows.

    python3 docs/two_boxes.py
"""

import re
from pathlib import Path

DOCS = Path(__file__).resolve().parent
SIDE = 3  # hundredths of a micron, as in `carafe bridges examples/two_boxes.map examples/two_boxes.cif 3`
COUNT = 25
UNIT = 2  # cells in a hundredth of a micron
PIXELS = 12  # a cell

STYLE = """
    .paper { fill: #ffffff; stroke: #d0d7de }
    .grid { stroke: #e4e8ec; stroke-width: 1 }
    .box { fill: #9ec5f0; stroke: #2563a8; stroke-width: 2; fill-opacity: 0.75 }
    .defect { fill: #f2b84b; stroke: #a66300; stroke-width: 2; fill-opacity: 0.65 }
    .end { fill: none; stroke: #a66300; stroke-width: 1.5; stroke-dasharray: 5 4 }
    .placement { fill: #b3261e }
    text { fill: #1f2328; font: 15px sans-serif }
    @media (prefers-color-scheme: dark) {
      .paper { fill: #161b22; stroke: #3d444d }
      .grid { stroke: #262c35 }
      .box { fill: #24507f; stroke: #6cb0f5 }
      .defect { fill: #8a5a00; stroke: #f2b84b }
      .end { stroke: #f2b84b }
      .placement { fill: #ff8a80 }
      text { fill: #e6edf3 }
    }
"""


def boxes(text):
    """The boxes of the layout, as cells: left, bottom, right, top, the last two just outside."""
    found = []
    for numbers in re.findall(r"\bB (\d+) (\d+) (-?\d+) (-?\d+);", text):
        length, width, x, y = (UNIT * int(n) for n in numbers)
        found.append((x - length // 2, y - width // 2, x + length // 2, y + width // 2))
    return found


def cells(left, bottom, right, top):
    return {(x, y) for x in range(left, right) for y in range(bottom, top)}


def placements(first, second, side):
    """The lower left cell of each placement of a square of this side that has a cell of both boxes."""
    one, other = cells(*first), cells(*second)
    near = range(min(first[0], second[0]) - side, max(first[2], second[2]) + side)
    rows = range(min(first[1], second[1]) - side, max(first[3], second[3]) + side)
    return [(x, y) for x in near for y in rows
            if (square := cells(x, y, x + side, y + side)) & one and square & other]


class Drawing:
    """Lines of SVG over a window of cells, with y upwards."""

    def __init__(self, left, bottom, right, top, below):
        self.left, self.top = left, top
        self.width, self.height = (right - left) * PIXELS, (top - bottom) * PIXELS
        self.lines = [
            f'<svg xmlns="http://www.w3.org/2000/svg" viewBox="0 0 {self.width} {self.height + below}" role="img"'
            f' width="{self.width}" height="{self.height + below}">',
            f"<title>Two boxes of metal, and the {COUNT} placements of a square defect that touch both</title>",
            f"<style>{STYLE}</style>",
            f'<rect class="paper" x="0.5" y="0.5" width="{self.width - 1}" height="{self.height + below - 1}" rx="6"/>',
        ]
        for x in range(PIXELS, self.width, PIXELS):
            self.lines.append(f'<path class="grid" d="M{x} 1V{self.height}"/>')
        for y in range(PIXELS, self.height + 1, PIXELS):
            self.lines.append(f'<path class="grid" d="M1 {y}H{self.width - 1}"/>')

    def at(self, x, y):
        return (x - self.left) * PIXELS, (self.top - y) * PIXELS

    def rectangle(self, kind, left, bottom, right, top):
        x, y = self.at(left, top)
        width, height = (right - left) * PIXELS, (top - bottom) * PIXELS
        self.lines.append(f'<rect class="{kind}" x="{x}" y="{y}" width="{width}" height="{height}"/>')

    def dot(self, kind, x, y):
        x, y = self.at(x + 0.5, y + 0.5)
        self.lines.append(f'<circle class="{kind}" cx="{x:g}" cy="{y:g}" r="3.5"/>')

    def words(self, text, x, y, anchor="middle"):
        self.lines.append(f'<text x="{x}" y="{y}" text-anchor="{anchor}">{text}</text>')

    def text(self):
        return "\n".join(self.lines) + "\n</svg>\n"


def main():
    first, second = boxes((DOCS.parent / "examples" / "two_boxes.cif").read_text())
    side = UNIT * SIDE
    found = sorted(placements(first, second, side))
    assert len(found) == COUNT, f"{len(found)} placements"
    lefts, bottoms = [x for x, _ in found], [y for _, y in found]
    drawing = Drawing(first[0] - 3, min(bottoms) - 2, second[2] + 3, max(bottoms) + side + 2, 86)
    for name, box in (("Vdd", first), ("GND", second)):
        drawing.rectangle("box", *box)
        x, y = drawing.at((box[0] + box[2]) / 2, (box[1] + box[3]) / 2)
        drawing.words(name, x, y + 5)
    for x, y in (found[0], found[-1]):
        drawing.rectangle("end", x, y, x + side, y + side)
    x, y = found[COUNT // 2]
    drawing.rectangle("defect", x, y, x + side, y + side)
    for x, y in found:
        drawing.dot("placement", x, y)
    words = (
        f"Two boxes of metal, and a square defect of {side} cells a side.",
        f"It touches both boxes in {COUNT} places. Three of them are drawn.",
        "Each dot is the lower left cell of the square in one of them.",
    )
    for line, text in enumerate(words):
        drawing.words(text, 14, drawing.height + 26 + 22 * line, "start")
    (DOCS / "two_boxes.svg").write_text(drawing.text())
    print(f"{len(found)} placements, x {min(lefts)} to {max(lefts)}, y {min(bottoms)} to {max(bottoms)}")


if __name__ == "__main__":
    main()
