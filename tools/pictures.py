#!/usr/bin/env python3
"""Draws the pictures of docs/PROOFS.md and of docs/TUTORIAL.md as SVG files into docs/pictures.

    python3 tools/pictures.py
    python3 tools/pictures.py --program PATH    where the built program isn't in crates/engrave_cli/out

Those of the proofs are drawn here. Those of the tutorial are what tools/picture.py draws of cases of examples/, for which it runs the
built program.
"""

import argparse
import shlex
import subprocess
import sys
from pathlib import Path

TOP = Path(__file__).resolve().parent.parent
FOLDER = TOP / "docs" / "pictures"
BUILT = TOP / "crates/engrave_cli/out/engrave_cli"


def svg(width, height, parts):
    head = (
        f'<svg xmlns="http://www.w3.org/2000/svg" viewBox="0 0 {width} {height}" '
        f'width="{width}" height="{height}" font-family="sans-serif" font-size="14">'
    )
    arrow = (
        '<defs><marker id="tip" markerWidth="8" markerHeight="8" refX="6" refY="3" orient="auto">'
        '<path d="M0,0 L6,3 L0,6 z"/></marker></defs>'
    )
    background = f'<rect width="{width}" height="{height}" fill="white"/>'
    return "\n".join([head, arrow, background, *parts, "</svg>"]) + "\n"


def line(x1, y1, x2, y2, colour="black", width=1.5, extra=""):
    return f'<line x1="{x1}" y1="{y1}" x2="{x2}" y2="{y2}" stroke="{colour}" stroke-width="{width}" {extra}/>'


def text(x, y, words, anchor="middle"):
    return f'<text x="{x}" y="{y}" text-anchor="{anchor}">{words}</text>'


def dot(x, y, colour="black"):
    return f'<circle cx="{x}" cy="{y}" r="4" fill="{colour}"/>'


def ray():
    left, top, size = 70, 30, 240
    parts = [
        f'<rect x="{left}" y="{top}" width="{size}" height="{size}" fill="#eef" stroke="black"/>',
        text(left + size / 2, top + size + 32, "moment s = S/N"),
        text(left, top + size + 16, "0"),
        text(left + size, top + size + 16, "1"),
        text(left - 12, top + size / 2, "t = T/N", "end"),
        text(left - 12, top + size, "a, 0", "end"),
        text(left - 12, top + 10, "b, 1", "end"),
        line(150, 200, 304, 92, "#c00", 2, 'marker-end="url(#tip)"'),
        dot(150, 200, "#c00"),
        text(150, 222, "a hit"),
        dot(left + size, 87, "black"),
        text(left + size + 10, 84, "a hit on a border:", "start"),
        text(left + size + 10, 102, "test 1 or 2 fails", "start"),
        line(150, 200, 200, 130, "#06c", 2, 'stroke-dasharray="5 4"'),
        dot(200, 130, "#06c"),
        text(205, 120, "K inside: test 3 fails", "start"),
    ]
    return svg(480, 320, parts)


def levels():
    parts = [
        line(60, 260, 330, 40, "#06c", 2),
        dot(60, 260, "#06c"),
        dot(330, 40, "#06c"),
        text(50, 264, "v", "end"),
        text(342, 44, "w", "start"),
        line(190, 290, 400, 110, "black", 2),
        dot(190, 290),
        dot(400, 110),
        text(180, 304, "a", "end"),
        text(412, 114, "b", "start"),
        line(60, 260, 225, 260, "#888", 1, 'stroke-dasharray="4 3"'),
        text(140, 252, "gap at the row of v"),
        line(244, 110, 400, 110, "#888", 1, 'stroke-dasharray="4 3"'),
        text(322, 102, "gap at the row of b"),
    ]
    return svg(480, 320, parts)


def disc(x, y, radius, colour="#c00"):
    return f'<circle cx="{x}" cy="{y}" r="{radius}" fill="{colour}" fill-opacity="0.12" stroke="{colour}"/>'


def witness_at_an_end():
    """The disc at an end of the move holds a point of the edge: the moment is that end's."""
    parts = [
        line(60, 70, 420, 70, "black", 2),
        text(440, 74, "edge"),
        line(120, 260, 300, 140, "#06c", 2, 'marker-end="url(#tip)"'),
        disc(300, 140, 90),
        dot(300, 140, "#06c"),
        dot(300, 70, "#c00"),
        text(300, 60, "w, the nearest point"),
        text(110, 276, "start"),
        text(330, 160, "an end: the moment", "start"),
    ]
    return svg(480, 300, parts)


def witness_at_a_corner():
    """A disc on the way holds an end of the edge: the moment is that at which the margin is least."""
    parts = [
        line(240, 130, 400, 30, "black", 2),
        text(410, 34, "edge", "start"),
        line(60, 200, 420, 200, "#06c", 2, 'marker-end="url(#tip)"'),
        disc(240, 200, 90),
        dot(240, 200, "#06c"),
        text(240, 222, "the moment -B / 2A"),
        dot(240, 130, "#c00"),
        text(228, 126, "u", "end"),
        text(60, 190, "start"),
    ]
    return svg(480, 300, parts)


def witness_at_a_crossing():
    """Path and edge cross: at the moment of the crossing the tip is below the surface, over the edge."""
    parts = [
        line(90, 40, 330, 260, "black", 2),
        text(340, 272, "edge"),
        line(60, 231, 390, 11, "#06c", 2, 'marker-end="url(#tip)"'),
        dot(198, 139, "#c00"),
        disc(198, 139, 34),
        text(240, 120, "w, and the tip over it", "start"),
        text(60, 268, "first moment of the part"),
        text(400, 50, "last moment"),
    ]
    return svg(480, 300, parts)


PICTURES = [ray, levels, witness_at_an_end, witness_at_a_corner, witness_at_a_crossing]

# The pictures of the tutorial: the case in whose folder tools/picture.py draws each, and its words.
FONT = "--form=cxf --drawing=../../fonts/plate.cxf --justify=center --bit=571/989"
FRONT = "--form=dxf --drawing=front2.dxf --chord=20 --snap=3"
TUTORIAL = {
    "hall": ("cover_hall", f"{FONT} --text='HALL 7' --height=2000 --code=hall.ngc --rmax=300 --pitch=50"),
    "seven": ("flat_seven", f"{FONT} --text=7 --height=6000 --code=seven_walls.ngc --rmax=173 --flat=seven_floor.ngc --radius=100 --pitch=100"),
    "front": ("cover_front", f"{FRONT} --code=front.ngc --bit=1/1 --rmax=200 --pitch=50"),
    "arrow": ("cover_arrow", "--drawing=arrow.loops --code=arrow.ngc --bit=1/1 --rmax=200 --pitch=100 --edges=4"),
}


def draw_tutorial(program):
    for name, (case, words) in TUTORIAL.items():
        drawn = [sys.executable, TOP / "tools/picture.py", f"--program={program}", f"--out={FOLDER / name}.svg", *shlex.split(words)]
        subprocess.run(drawn, cwd=TOP / "examples" / case, check=True)


def main():
    parser = argparse.ArgumentParser(description=__doc__.splitlines()[0])
    parser.add_argument("--program", type=Path, default=BUILT)
    program = parser.parse_args().program.resolve()
    FOLDER.mkdir(parents=True, exist_ok=True)
    for picture in PICTURES:
        (FOLDER / f"{picture.__name__}.svg").write_text(picture())
    draw_tutorial(program)


if __name__ == "__main__":
    main()
