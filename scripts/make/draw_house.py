#!/usr/bin/env python3
"""Draws the crates of crates.txt by layer, as docs/house.svg.

    python3 scripts/make/draw_house.py [--check]

A comment of crates.txt right above crates begins a layer and is its heading; the last layer stands at the top of the
picture. A crate's box has its name and the first words of its root file, up to the first stop, colon or comma; where a
browser's pointer rests on it, it shows the first sentence, and what it uses. The boxes of a row share its width. With
--check nothing is written. Needs nothing but Python 3. Status 0: the picture is, or with --check was, what is drawn.
"""

import argparse
import os
import re
import sys
import textwrap
from xml.sax.saxutils import escape

TOP = os.path.dirname(os.path.dirname(os.path.dirname(os.path.abspath(__file__))))
PICTURE = os.path.join(TOP, "docs", "house.svg")
WIDTH, MARGIN, GAP, LEAST = 900, 16, 8, 165  # of the picture, around it, between boxes, and of a box
LINE, SMALL = 15, 5.9  # the height of a line, and the width of a small letter
FILLS = ["#eceaf6", "#f6e9f0", "#fdf0d9", "#e3f1ea", "#e8eef5"]  # from the lowest layer to the highest
BESIDE, BESIDE_FILL = "test_", "#f3f3f3"  # crates beside the product, by how their names begin
INK, PALE, EDGE = "#1d2b3a", "#5b6b7c", "#9fb0c0"


def layers_of(text):
    """The layers of crates.txt, each its heading and its crates; of a crate its name and what it uses."""
    layers, said = [], []
    for line in text.splitlines():
        name, colon, used = line.partition("#")[0].partition(":")
        if colon:
            if said or not layers:
                layers.append((" ".join(said), []))
            layers[-1][1].append((name.strip(), used.split()))
        said = said + [line.strip("# ")] if line.startswith("#") else []
    return layers


def page_of(name):
    """The first sentence of a crate's root file."""
    for root in ("lib.rt", "main.rt"):
        path = os.path.join(TOP, "crates", name, "src", root)
        if os.path.isfile(path):
            with open(path, encoding="utf-8") as file:
                said = re.match(r"(?://! ?.*\n)*", file.read())[0]
            words = " ".join(said.replace("//!", " ").replace("`", "").split())
            words = words.partition(". ")[0].rstrip(".").removeprefix(f"{name}: ")
            return words[:1].upper() + words[1:]
    return ""


def text_at(x, y, size, fill, words, more=""):
    return f'<text x="{x:g}" y="{y:g}" font-size="{size:g}" fill="{fill}"{more}>{escape(words)}</text>'


def drawn_box(x, y, width, height, fill, crate, lines):
    """A crate's box."""
    name, used = crate
    shown = f"{name}: {page_of(name)}." + (f" Uses {', '.join(used)}." if used else "")
    middle = x + width / 2
    return [f"<g><title>{escape(shown)}</title>",
            f'<rect x="{x:g}" y="{y:g}" width="{width:g}" height="{height:g}" rx="5" fill="{fill}" stroke="{EDGE}"/>',
            text_at(middle, y + 18, 13, INK, name,
                    ' font-weight="bold" text-anchor="middle" font-family="Menlo, Consolas, monospace"'),
            *(text_at(middle, y + 18 + LINE * (number + 1), 11.5, PALE, line, ' text-anchor="middle"')
              for number, line in enumerate(lines)), "</g>"]


def drawn_layer(y, fill, heading, crates):
    """A layer whose top is at y: its parts, and where the next one's top is."""
    title, colon, rest = heading.partition(":")
    parts = [f'<text x="{MARGIN}" y="{y + 12}" font-size="13" fill="{PALE}"><tspan font-weight="bold" fill="{INK}">'
             f"{escape(title)}</tspan>{escape(colon + rest)}</text>"]
    y += 20
    least = max(LEAST, 8 * max(len(name) for name, _ in crates) + 16)
    rows = -(-len(crates) // ((WIDTH - 2 * MARGIN + GAP) // (least + GAP)))
    across = -(-len(crates) // rows)
    for row in (crates[at:at + across] for at in range(0, len(crates), across)):
        width = round((WIDTH - 2 * MARGIN + GAP) / len(row) - GAP, 1)
        said = [re.split("[:;,.] ", page_of(name))[0] for name, _ in row]
        texts = [textwrap.wrap(words, int((width - 12) / SMALL), max_lines=3, placeholder=" …") for words in said]
        height = 27 + LINE * max(map(len, texts))
        for number, (crate, lines) in enumerate(zip(row, texts)):
            own = BESIDE_FILL if crate[0].startswith(BESIDE) else fill
            parts += drawn_box(round(MARGIN + number * (width + GAP), 1), y, width, height, own, crate, lines)
        y += height + GAP
    return parts, y + 6


def drawn(text):
    """The picture of a crates.txt."""
    layers, parts, y = layers_of(text), [], MARGIN
    for number, (heading, crates) in reversed(list(enumerate(layers))):
        more, y = drawn_layer(y, FILLS[number * len(FILLS) // len(layers)], heading, crates)
        parts += more
    return "\n".join([
        f'<svg xmlns="http://www.w3.org/2000/svg" viewBox="0 0 {WIDTH} {y}" width="{WIDTH}" height="{y}" role="img"',
        ' font-family="Helvetica, Arial, sans-serif">', "<title>The crates of holddesk, by layer</title>",
        "<desc>Each layer uses layers below it and none above, as crates.txt says.</desc>",
        f'<rect width="{WIDTH}" height="{y}" fill="#ffffff"/>', *parts, "</svg>", ""])


def main():
    parser = argparse.ArgumentParser(description=__doc__, usage=argparse.SUPPRESS,
                                     formatter_class=argparse.RawDescriptionHelpFormatter)
    parser.add_argument("--check", action="store_true", help="write nothing")
    is_check = parser.parse_args().check
    with open(os.path.join(TOP, "crates.txt"), encoding="utf-8") as file:
        picture = drawn(file.read())
    if not is_check:
        with open(PICTURE, "w", encoding="utf-8") as file:
            file.write(picture)
        return
    with open(PICTURE, encoding="utf-8") as file:
        if file.read() != picture:
            sys.exit("draw_house: docs/house.svg isn't what crates.txt draws; python3 scripts/make/draw_house.py draws it")
    print("draw_house: docs/house.svg is what crates.txt draws")


if __name__ == "__main__":
    main()
