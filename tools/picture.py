#!/usr/bin/env python3
"""Draws a drawing, the path of a G-code program over it, and the points that it leaves uncut, as an SVG file.

    python3 tools/picture.py --drawing=oak.loops --code=oak.ngc --bit=571/989 --rmax=150 --pitch=50 --out=oak.svg
    python3 tools/picture.py --drawing=squares.loops --edges=1,4 --out=squares.svg

    python3 tools/picture.py --code=scale.ngc --bit=571/989 --rmax=150 --out=scale.svg

    python3 tools/picture.py --drawing=exit.loops --units=mm10 --code=walls.ngc --bit=571/989 --rmax=15 --flat=floor.ngc --radius=10 --out=both.svg

The second marks edges by their numbers, as a line `input cross 1,4` names them: such a drawing is drawn too, by the even-odd rule. Without
`--code` the drawing is all. The third draws a program alone, as one that engraves open lines. The fourth lays over it what a
flat bit of this radius sweeps below the surface, in green; then the points that are left are those of the floor, which the program of the
flat bit tells in its notes.

The options are those of `engrave_cli cover`, which is run for the points, as `moves` is for the path and `flatten` for the drawing; those
that say what a drawing is, as `--form=cxf --text=OAK`, are handed on. The drawing is grey, what a move below the surface removes of it
is blue, lifts and travels are dashed, and the points that are left are red. With `--png` a PNG file is written beside it, where
rsvg-convert, inkscape or ImageMagick is installed.
"""

import argparse
import math
import shutil
import subprocess
import sys
from pathlib import Path

BUILT = Path(__file__).resolve().parent.parent / "crates" / "engrave_cli" / "out" / "engrave_cli"

# grid units in a unit of length, and the name of that
UNITS = {"mm10": (10, "mm"), "mm100": (100, "mm"), "mm1000": (1000, "mm"), "in100": (100, "in"), "in1000": (1000, "in")}

# the longer side of a picture, its margin, and the room for the scale, in pixels
LONGER, MARGIN, FOOT = 960, 24, 36

STYLE = """
.outline { fill: #e4e1da; fill-rule: evenodd; stroke: #222; stroke-width: 1.2 }
.cut { fill: #2f6db5; opacity: 0.45 }
.flat { stroke: #3a8f4f; stroke-linecap: round; stroke-linejoin: round; fill: none; opacity: 0.55 }
.axis { stroke: #1d5a2c; stroke-width: 0.8; fill: none }
.way { stroke: #14406f; stroke-width: 0.8; fill: none }
.lift { stroke: #777; stroke-width: 0.8; stroke-dasharray: 4 3; fill: none }
.left { fill: #c8102e }
.edge { stroke: #c8102e; stroke-width: 4; stroke-linecap: round; fill: none; opacity: 0.7 }
.scale { stroke: #222; stroke-width: 1.5; fill: none }
text { font: 13px sans-serif; fill: #222 }
"""


def read_loops(text):
    """The loops of a text in loops form that the program writes."""
    lines = (line.strip() for line in text.splitlines())
    return [[tuple(map(int, word.split(","))) for word in line.split()] for line in lines if line and not line.startswith("#")]


def read_moves(text):
    """The ends of each listed move, in grid units."""
    words = (line.split() for line in text.splitlines()[:-1])
    return [tuple(tuple(map(float, end.split(","))) for end in ends) for _, *ends in words]


def read_runs(text):
    """The row, the first and the last x of each reported run, and the line with the counts."""
    *runs, counts = text.splitlines()
    words = (run.split() for run in runs)
    return [(int(word[2]), int(word[4]), int(word[6])) for word in words], counts


def read_floor(text):
    """The runs and the line with the counts in the notes of a flat bit's program."""
    notes = [line[1:-1] for line in text.splitlines() if line.startswith("(floor ")]
    return read_runs("\n".join(notes))


class Canvas:
    """SVG elements, placed by grid units; y goes up."""

    def __init__(self, points):
        xs, ys = zip(*points)
        self.left, self.top = min(xs), max(ys)
        self.width, self.height = max(xs) - self.left, self.top - min(ys)
        self.scale = LONGER / max(self.width, self.height, 1)
        self.parts = []

    def at(self, x, y):
        return f"{MARGIN + (x - self.left) * self.scale:.1f},{MARGIN + (self.top - y) * self.scale:.1f}"

    def path(self, loops, end="", kind=None):
        named = f'class="{kind}" ' if kind else ""
        steps = " ".join("M" + " L".join(self.at(*p) for p in loop) + end for loop in loops)
        self.parts.append(f'<path {named}d="{steps}"/>')

    def disc(self, x, y, radius):
        if radius > 0:
            cx, cy = self.at(x, y).split(",")
            self.parts.append(f'<circle cx="{cx}" cy="{cy}" r="{radius * self.scale:.1f}"/>')

    def together(self, kind, draw):
        """What is drawn in a group, as one: where its parts overlap they aren't darker."""
        self.parts.append(f'<g class="{kind}">')
        draw()
        self.parts.append("</g>")

    def bar(self, per_unit, name):
        """A bar of the greatest round length that is no more than a fifth of the width."""
        fifth = max(self.width, 1) / 5 / per_unit
        length = 10 ** math.floor(math.log10(fifth))
        length *= max(k for k in (1, 2, 5) if k * length <= fifth)
        y, right = MARGIN + self.height * self.scale + FOOT, MARGIN + length * per_unit * self.scale
        self.parts.append(f'<path class="scale" d="M{MARGIN},{y - 5:.1f} v5 H{right:.1f} v-5"/>')
        self.parts.append(f'<text x="{right + 8:.1f}" y="{y:.1f}">{length:g} {name}</text>')

    def note(self, words):
        x, y = MARGIN + self.width * self.scale, MARGIN + self.height * self.scale + FOOT
        self.parts.append(f'<text x="{x:.1f}" y="{y:.1f}" text-anchor="end">{words}</text>')

    def label(self, x, y, words):
        x, y = self.at(x, y).split(",")
        self.parts.append(f'<text x="{x}" y="{y}" dx="6" dy="-6">{words}</text>')

    def text(self):
        width, height = (round(2 * MARGIN + side * self.scale) for side in (self.width, self.height))
        head = f'<svg xmlns="http://www.w3.org/2000/svg" viewBox="0 0 {width} {height + FOOT}" width="{width}" height="{height + FOOT}">'
        return "\n".join([head, f"<style>{STYLE}</style>", '<rect width="100%" height="100%" fill="white"/>', *self.parts, "</svg>", ""])


def swept(first, last, slope):
    """The outline of what a move below the surface removes, but for the discs at its ends: the four points where tangents touch them."""
    (x0, y0, h0), (x1, y1, h1) = first, last
    r0, r1, way = -h0 * slope, -h1 * slope, math.hypot(x1 - x0, y1 - y0)
    if way <= abs(r1 - r0):
        return []
    lean, turn = math.atan2(y1 - y0, x1 - x0), math.acos((r0 - r1) / way)
    return [
        (x + r * math.cos(lean + side * turn), y + r * math.sin(lean + side * turn))
        for x, y, r, side in [(x0, y0, r0, 1), (x1, y1, r1, 1), (x1, y1, r1, -1), (x0, y0, r0, -1)]
    ]


def below(first, last):
    """The part of a move that isn't above the surface; None where there is none."""
    if first[2] >= 0 and last[2] >= 0:
        return None

    def clipped(end, other):
        if end[2] <= 0:
            return end
        s = end[2] / (end[2] - other[2])
        return (end[0] + s * (other[0] - end[0]), end[1] + s * (other[1] - end[1]), 0.0)

    return clipped(first, last), clipped(last, first)


def draw_cuts(canvas, moves, slope):
    """What the moves remove at the surface: their width goes with their depth."""
    for part in filter(None, (below(*mv) for mv in moves)):
        for x, y, h in part:
            canvas.disc(x, y, -h * slope)
        sides = swept(*part, slope)
        if sides:
            canvas.path([sides], " Z")


def draw_swept(canvas, moves, radius):
    """What a flat bit sweeps below the surface, as one: a wide line along each of its ways."""
    ways = [(first[:2], last[:2]) for first, last in filter(None, (below(*mv) for mv in moves))]
    steps = " ".join(f"M{canvas.at(*first)} L{canvas.at(*last)}" for first, last in dict.fromkeys(ways))
    canvas.parts.append(f'<path class="flat" stroke-width="{2 * radius * canvas.scale:.1f}" d="{steps}"/>')
    canvas.parts.append(f'<path class="axis" d="{steps}"/>')


def draw_ways(canvas, moves):
    for first, last in moves:
        if first[:2] != last[:2]:
            canvas.path([[first[:2], last[:2]]], kind="way" if below(first, last) else "lift")


def draw_left(canvas, runs, pitch):
    for y, x0, x1 in runs:
        for x in range(x0, x1 + 1, pitch):
            canvas.disc(x, y, max(pitch / 6, 3 / canvas.scale))


def draw_edges(canvas, loops, numbers):
    """Marks the edges of these numbers, each with its number beside its middle."""
    edges = [ends for loop in loops for ends in zip(loop, loop[1:] + loop[:1])]
    for number in numbers:
        if number not in range(len(edges)):
            sys.exit(f"the drawing has {len(edges)} edges, numbered from 0")
        p, q = edges[number]
        canvas.path([[p, q]], kind="edge")
        canvas.label((p[0] + q[0]) / 2, (p[1] + q[1]) / 2, number)


def draw_program(canvas, options, drawing, moves, asked):
    """What the moves remove, their ways, and what they leave."""
    sn, sd = map(int, options.bit.split("/"))
    canvas.together("cut", lambda: draw_cuts(canvas, moves, sn / sd))
    draw_ways(canvas, moves)
    if options.flat:
        draw_swept(canvas, read_moves(asked("moves", f"--code={options.flat}", f"--units={options.units}")), options.radius)
        draw_report(canvas, options, *read_floor(options.flat.read_text()))
    if options.flat or not options.drawing:
        return
    bit = [f"--bit={options.bit}", f"--rmax={options.rmax}"]
    draw_report(canvas, options, *read_runs(asked("cover", *drawing, *bit, f"--code={options.code}", f"--pitch={options.pitch}")))


def draw_report(canvas, options, runs, counts):
    """The points that are left, and how many they are."""
    canvas.together("left", lambda: draw_left(canvas, runs, options.pitch))
    canvas.note(f"{counts}, {options.pitch} grid units apart")


def picture(options, shape, asked):
    drawing = [f"--drawing={options.drawing}", f"--units={options.units}", *shape]
    # A drawing of which edges are marked may cross itself.
    taken = [] if options.edges is None or any(word.startswith("--cross") for word in shape) else ["--cross=evenodd"]
    loops = read_loops(asked("flatten", *drawing, *taken)) if options.drawing else []
    moves = read_moves(asked("moves", f"--code={options.code}", f"--units={options.units}")) if options.code else []
    canvas = Canvas([p for loop in loops for p in loop] + [end[:2] for mv in moves for end in mv] or [(0, 0)])
    if loops:
        canvas.path(loops, " Z", "outline")
    if options.code:
        draw_program(canvas, options, drawing, moves, asked)
    draw_edges(canvas, loops, options.edges or [])
    canvas.bar(*UNITS[options.units])
    return canvas.text()


def write_png(svg):
    png = svg.with_suffix(".png")
    renderers = [["rsvg-convert", "-o", png, svg], ["inkscape", svg, f"--export-filename={png}"], ["magick", svg, png], ["convert", svg, png]]
    for command in renderers:
        if shutil.which(command[0]) and subprocess.run(command).returncode == 0:
            return
    sys.exit("no renderer for --png: install rsvg-convert, inkscape or ImageMagick")


def main():
    parser = argparse.ArgumentParser(description=__doc__.splitlines()[0])
    parser.add_argument("--drawing", type=Path, help="left out, the program is drawn alone")
    parser.add_argument("--code", type=Path, help="the G-code program; then with --bit and --rmax")
    parser.add_argument("--bit", help="SN/SD")
    parser.add_argument("--rmax", type=int)
    parser.add_argument("--edges", type=lambda text: [int(number) for number in text.split(",")], help="edges to mark, as 1,4")
    parser.add_argument("--flat", type=Path, help="the G-code program of a flat bit, over the other; then with --radius")
    parser.add_argument("--radius", type=int, help="the flat bit's radius, in grid units")
    parser.add_argument("--units", choices=UNITS, default="mm100")
    parser.add_argument("--pitch", type=int, default=10)
    parser.add_argument("--out", type=Path, required=True, help="the SVG file")
    parser.add_argument("--png", action="store_true", help="a PNG file too")
    parser.add_argument("--program", type=Path, default=BUILT)
    options, shape = parser.parse_known_args()
    if options.code and not (options.bit and options.rmax):
        parser.error("--code goes with --bit and --rmax")
    if options.flat and not (options.code and options.radius):
        parser.error("--flat goes with --code and --radius")
    if not options.code and not options.drawing:
        parser.error("there is neither --drawing nor --code")

    def asked(*words):
        """What the program writes; where it refuses, its line is the end."""
        ran = subprocess.run([options.program, *words], capture_output=True, text=True)
        if ran.returncode:
            sys.exit(f"{words[0]}: {ran.stdout.strip()}")
        return ran.stdout

    options.out.write_text(picture(options, shape, asked))
    if options.png:
        write_png(options.out)


if __name__ == "__main__":
    main()
