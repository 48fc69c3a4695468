#!/usr/bin/env python3
"""Draws a CXF font of outlines as SVG files: all its letters, and a sign.

    python3 fonts/picture_font.py                                           writes the pictures of docs/FONTS.md
    python3 fonts/picture_font.py --font=own.cxf --out=own.svg --text=Hello    one picture; lines of the text end with \\n

The letters are laid by the rules of check_font.py, each line on its own.
"""

import argparse
from pathlib import Path

from check_font import PLATE, laid, nearest, points_of, read_font

PICTURES = Path(__file__).resolve().parent.parent / "docs" / "pictures"

ALPHABET = ["ABCDEFGHIJKLM", "NOPQRSTUVWXYZ", "abcdefghijklm", "nopqrstuvwxyz", "0123456789&#?!", ".,:-+/()'\""]
SIGN = ["Harbour Office", "WAVE & SON, ILLINOIS", "Hamburg 1897"]

# the letters' height, and in percent of it the space behind a letter, that of a blank, and from line to line
HEIGHT, BEHIND, BLANK, LINE = 360, 25, 100, 150

# the margin, in the same units, and how many of them are a pixel
MARGIN, FINE = 180, 4.5

LETTERS = 'fill="#e4e1da" stroke="#222" stroke-width="5" fill-rule="evenodd"'


def reach(elements):
    """The greatest x of a letter, in thousandths of a grid unit, or 0."""
    places = (point for kind, numbers in elements for point in points_of(kind, numbers, lambda x, y: (nearest(x * HEIGHT, 9000), y)))
    return max([0, *(x for x, _ in places)])


def line_segments(font, text):
    """The segments of a line of text from 0 on, and its width."""
    segments, pen, right = [], 0, 0
    for name in text:
        if name == " ":
            pen += HEIGHT * BLANK * 10
            continue
        segments += laid(font[name], HEIGHT, 100, (pen, 0), (1, 1))
        right = pen + reach(font[name])
        pen = right + HEIGHT * BEHIND * 10
    return segments, nearest(right, 1000)


def path_words(segments, left, base):
    """The segments as a path: where one goes on from the one before it, as a step."""
    at, steps = None, []
    for (x0, y0), (x1, y1) in segments:
        if at != (x0, y0):
            steps.append(f"{'Z' if at else ''}M{left + x0} {base - y0}l")
        steps.append(f"{x1 - x0} {y0 - y1}")
        at = (x1, y1)
    return " ".join([*steps, "Z"]).replace("l ", "l").replace(" Z", "Z").replace(" -", "-")


def picture(font, lines, plate=False):
    """The lines from the left on; on a plate, they stand in its middle."""
    rows = [line_segments(font, line) for line in lines]
    margin = 2 * MARGIN if plate else MARGIN
    width = max(right for _, right in rows) + 2 * margin
    height = len(rows) * HEIGHT * LINE // 100 + 2 * MARGIN
    sides = f'viewBox="0 0 {width} {height}" width="{width / FINE:.0f}" height="{height / FINE:.0f}"'
    parts = [f'<svg xmlns="http://www.w3.org/2000/svg" {sides}>', '<rect width="100%" height="100%" fill="white"/>']
    if plate:
        parts += screwed_plate(width, height)
    for row, (segments, right) in enumerate(rows):
        left = (width - right) // 2 if plate else margin
        base = MARGIN + (row * LINE + 115) * HEIGHT // 100
        parts.append(f'<path {LETTERS} d="{path_words(segments, left, base)}"/>')
    return "\n".join([*parts, "</svg>", ""])


def screwed_plate(width, height):
    """A plate with a hole for a screw in each corner."""
    yield f'<rect x="20" y="20" width="{width - 40}" height="{height - 40}" rx="90" fill="#c9a06a" stroke="#222" stroke-width="5"/>'
    for x in (110, width - 110):
        for y in (110, height - 110):
            yield f'<circle cx="{x}" cy="{y}" r="36" fill="white" stroke="#222" stroke-width="5"/>'


def main():
    parser = argparse.ArgumentParser(description=__doc__.splitlines()[0])
    parser.add_argument("--font", type=Path, default=PLATE)
    parser.add_argument("--text", help="its lines end with \\n; all pictures of docs/FONTS.md where there is none")
    parser.add_argument("--out", type=Path)
    options = parser.parse_args()
    font = read_font(options.font)
    if options.text and options.out:
        lines = options.text.split("\\n")
        if missing := set("".join(lines)).difference(font, " "):
            parser.error(f"the font hasn't {' '.join(sorted(missing))}")
        options.out.write_text(picture(font, lines))
    elif options.text or options.out:
        parser.error("--text and --out belong together")
    else:
        (PICTURES / "plate_font.svg").write_text(picture(font, ALPHABET))
        (PICTURES / "plate_sign.svg").write_text(picture(font, SIGN, plate=True))


if __name__ == "__main__":
    main()
