#!/usr/bin/env python3
"""Tests svg_to_loops.py, without the built program.

    python3 tools/test_svg_to_loops.py

Each file of tools/svg/ is read with the options of its first line, and has to give the loops beside it, and what is told beside those; they
were worked by hand. Curves and arcs are sampled by other formulas than they are drawn by: the samples have to be as near to the written
outline as is promised, the points of the outline as near to the curve, and there may not be many more of them than are needed. What has to
be refused, is refused by its line.
"""

import math
import re
import sys
from fractions import Fraction
from pathlib import Path

# So that an import leaves no files beside the sources.
sys.dont_write_bytecode = True

import svg_outline
import svg_to_loops
from svg_values import SvgFault, cosine_and_sine

FOLDER = Path(__file__).resolve().parent / "svg"
SAMPLES, SLACK, ROUNDING = 40, 1e-6, math.sqrt(0.5)
FEW_POINTS = 500
HEAD = '<svg xmlns="http://www.w3.org/2000/svg" xmlns:xlink="http://www.w3.org/1999/xlink" width="300mm" height="300mm" viewBox="0 0 300 300">'

REFUSED = [
    ("<svg", "xml"),
    ("", "xml"),
    ('<!DOCTYPE a [<!ENTITY b "">]><a>&c;</a>', "xml"),
    ("<html/>", "no svg"),
    (HEAD + "</svg>", "no shape"),
    (HEAD + '<path id="a" fill="none" d="M0,0h1v1z"/></svg>', "no shape; skipped without fill: 1 (a)"),
    (HEAD + '<text id="a">A</text><path id="b" fill="none" stroke="red" d="M0,0h1v1z"/></svg>',
     "no shape; skipped text: 1 (a); skipped stroke without fill: 1 (b)"),
    (HEAD + '<defs><path id="a" d="M0,0h1"/></defs><use xlink:href="#a"/></svg>', "no shape; dropped loop of fewer than 3 points: 1 (a)"),
    (HEAD + '<rect id="a" x="400" width="1" height="1"/></svg>', "out of range a"),
    (HEAD + '<rect id="a" y="1e30" width="1" height="1"/></svg>', "out of range a"),
    (HEAD + '<path id="a" d="M0,0A1e-99,1 0 0 0 1e99,1"/></svg>', "out of range a"),
    (HEAD + '<rect id="a b" width="1e999" height="1"/></svg>', "number a_b"),
    (HEAD + '<rect id="a" width="1em" height="1"/></svg>', "length a"),
    (HEAD + '<rect id="a" width="-1" height="1"/></svg>', "negative a"),
    (HEAD + '<path d="L0,0 1,1"/></svg>', "path data path"),
    (HEAD + '<path id="a" d="M0,0 1,1 2"/></svg>', "path data a"),
    (HEAD + '<path id="a" d="M0,0A1,1 0 2 0 5,5"/></svg>', "path data a"),
    (HEAD + '<path id="a" d="M0,0h1v1z 5,5"/></svg>', "path data a"),
    (HEAD + '<polygon id="a" points="0,0 1"/></svg>', "points a"),
    (HEAD + '<g id="a" transform="turn(4)"/></svg>', "transform a"),
    (HEAD + '<g id="a" transform="rotate(4,5)"/></svg>', "transform a"),
    (HEAD + '<g id="a" transform="skewX(90)"/></svg>', "transform a"),
    (HEAD + '<g id="a"><use xlink:href="#a"/></g></svg>', "too deep use"),
    (HEAD + '<g id="a">' * 300 + "</g>" * 300 + "</svg>", "too deep a"),
    (HEAD + '<path id="a" d="M0,0' + "h1v1h-1z" * 200 + '"/></svg>', "too many a"),
    ('<svg viewBox="0 0 1"/>', "viewBox svg"),
    (HEAD.replace(" viewBox", ' preserveAspectRatio="middle" viewBox') + "</svg>", "preserveAspectRatio svg"),
]


def asked(words):
    return svg_to_loops.options(["-", *words])


def file_faults(path):
    """What is wrong with the loops of a file, or with what is told of it."""
    data = path.read_bytes()
    words = re.match(rb"<!-- (.*?) -->", data)
    shapes, notes = svg_to_loops.drawing(data, asked([f"--{word}" for word in words[1].decode().split()] if words else []))
    lines = [" ".join(f"{x},{y}" for x, y in loop) for shape in shapes for loop in shape.loops]
    told = path.with_suffix(".told")
    want = [path.with_suffix(".loops").read_text().splitlines(), told.read_text().splitlines() if told.exists() else []]
    for what, seen, due in zip(("loops", "told"), (lines, list(svg_to_loops.told(notes))), want):
        if seen != due:
            yield f"{path.name}: {what} {seen}, not {due}"


def refusal_faults():
    """What is taken though it shouldn't be, or refused by another line; with few points allowed, so that too many are soon made."""
    svg_outline.MOST_POINTS = FEW_POINTS
    for text, want in REFUSED:
        try:
            svg_to_loops.drawing(text.encode(), asked([]))
            yield f"{text[:300]} is taken"
        except SvgFault as fault:
            if " ".join(fault.args) != want:
                yield f"{text[:300]} is refused by {fault.args}, not by {want}"


def bezier(points, t):
    """The point of a Bezier curve, by halving as de Casteljau does."""
    while len(points) > 1:
        points = [((1 - t) * a[0] + t * b[0], (1 - t) * a[1] + t * b[1]) for a, b in zip(points, points[1:])]
    return points[0]


def ellipse_point(centre, radii, degrees, angle):
    x, y, turn = radii[0] * math.cos(angle), radii[1] * math.sin(angle), math.radians(degrees)
    return (centre[0] + x * math.cos(turn) - y * math.sin(turn), centre[1] + x * math.sin(turn) + y * math.cos(turn))


def samples(curve):
    return [curve(step / SAMPLES) for step in range(SAMPLES + 1)]


def arc_case(centre, radii, degrees, begin, sweep):
    """A shape closed by an arc, from its centre: the element, and samples of the arc."""
    def at(t):
        return ellipse_point(centre, radii, degrees, begin + t * sweep)

    flags = f"{int(abs(sweep) > math.pi)} {int(sweep > 0)}"
    return f'<path d="M{at(0)[0]!r},{at(0)[1]!r} A{radii[0]},{radii[1]} {degrees} {flags} {at(1)[0]!r},{at(1)[1]!r}Z"/>', samples(at), None


def bezier_case(data, *pieces):
    return f'<path d="{data}"/>', [point for piece in pieces for point in samples(lambda t, piece=piece: bezier(piece, t))], None


def curve_cases():
    """Shapes with curves: the element, samples of the curves in pixels, and its area where that is known."""
    circle = samples(lambda t: ellipse_point((40, 50), (30, 30), 0, 2 * math.pi * t))
    yield '<circle cx="40" cy="50" r="30"/>', circle, math.pi * 900
    yield '<path d="M70 50a30 30 0 1 1-60 0 30 30 0 1 1 60 0z"/>', circle, math.pi * 900
    cosine, sine = math.sqrt(0.75), 0.5
    middle = (100 + 40 * cosine - 20 * sine, 100 + 40 * sine + 20 * cosine)
    yield '<ellipse cx="40" cy="20" rx="35" ry="4" transform="translate(100,100) rotate(30)"/>', \
        samples(lambda t: ellipse_point(middle, (35, 4), 30, 2 * math.pi * t)), math.pi * 140
    corners = [((90, 40), 0), ((30, 40), 1), ((30, 30), 2), ((90, 30), 3)]
    rounded = [point for centre, quarter in corners for point in samples(lambda t: ellipse_point(centre, (10, 5), 0, (quarter + t) * math.pi / 2))]
    yield '<rect x="20" y="25" width="80" height="20" rx="10" ry="5"/>', rounded, 1600 - 200 + math.pi * 50
    yield arc_case((100, 100), (60, 25), 20, 0.3, 2.5)
    yield arc_case((100, 100), (60, 25), 20, 0.3, -2.5)
    yield arc_case((100, 100), (60, 25), -75, 1, 5)
    yield arc_case((100, 100), (5, 90), 45, 2, -4)
    yield arc_case((100, 100), (40, 40), 0, 0, math.pi)
    # Radii too small for the chord are made longer: half a circle of 20 about 30,10.
    yield '<path d="M10,10A1,1 0 0 1 50,10z"/>', samples(lambda t: ellipse_point((30, 10), (20, 20), 0, math.pi * (1 + t))), math.pi * 200
    yield bezier_case("M10,10C200,10 10,150 150,150z", [(10, 10), (200, 10), (10, 150), (150, 150)])
    yield bezier_case("M10,10c90,0 90,80 40,80s-50,20 0,60z", [(10, 10), (100, 10), (100, 90), (50, 90)], [(50, 90), (0, 90), (0, 110), (50, 150)])
    yield bezier_case("M10 100Q60 10 110 100T210 100z", [(10, 100), (60, 10), (110, 100)], [(110, 100), (160, 190), (210, 100)])
    yield bezier_case("M10,100 t50,50 S90,90 100,10z", [(10, 100), (60, 150)], [(60, 150), (60, 150), (90, 90), (100, 10)])
    yield '<path transform="matrix(.5 .2 -.3 .8 60 20)" d="M0,0C0,90 90,90 90,0z"/>', \
        samples(lambda t: (lambda p: (.5 * p[0] - .3 * p[1] + 60, .2 * p[0] + .8 * p[1] + 20))(bezier([(0, 0), (0, 90), (90, 90), (90, 0)], t))), None


def distance(point, edge):
    """How far a point is from a straight edge."""
    (x, y), (a, b) = edge
    length = (a - x) ** 2 + (b - y) ** 2
    along = max(0, min(1, ((point[0] - x) * (a - x) + (point[1] - y) * (b - y)) / length)) if length else 0
    return math.dist(point, (x + along * (a - x), y + along * (b - y)))


def curve_faults(element, truth, area, tolerance):
    """What is wrong with the outline of one shape with curves, at ten grid units a millimetre."""
    shapes, _ = svg_to_loops.drawing((HEAD + element + "</svg>").encode(), asked(["--units=mm10", f"--tolerance={tolerance}"]))
    loop, bound = shapes[0].loops[0], float(Fraction(tolerance)) + ROUNDING + SLACK
    truth = [(10 * x, 3000 - 10 * y) for x, y in truth]
    edges = list(zip(loop, loop[1:] + loop[:1]))
    far = max(min(distance(point, edge) for edge in edges) for point in truth)
    if far > bound:
        yield f"{element} at {tolerance}: a point of the curve is {far} away"
    # The samples stand as a polygon for the curve, which is as near to them as the square of their steps says.
    steps = list(zip(truth, truth[1:]))
    steps.append((truth[-1], truth[0]))
    reach = bound + 1.5
    for (x, y), (a, b) in edges:
        for point in ((x, y), ((x + a) / 2, (y + b) / 2)):
            if min(distance(point, step) for step in steps) > reach:
                yield f"{element} at {tolerance}: {point} is not near the curve"
    seen = abs(sum(x * b - a * y for (x, y), (a, b) in edges)) / 2
    round_it = sum(math.dist(*edge) for edge in edges)
    if area is not None and abs(seen - 100 * area) > round_it * bound:
        yield f"{element} at {tolerance}: its area is {seen}, not {100 * area}"


def count_faults():
    """Of a circle no more chords than are needed, and some for its quarters."""
    for tolerance in (Fraction(1, 10), Fraction(1), Fraction(10)):
        shapes, _ = svg_to_loops.drawing((HEAD + '<circle cx="100" cy="100" r="90"/></svg>').encode(), asked([f"--tolerance={tolerance}"]))
        count, need = len(shapes[0].loops[0]), math.pi / math.acos(1 - float(tolerance) / 9000)
        if not need <= count + 1e-9 or count > need + 5:
            yield f"a circle has {count} chords at {tolerance}, where {need} are needed"


def angle_faults():
    """Cosines and sines that are known exactly, and others to the digits of doubles."""
    for degrees, want in ((0, (1, 0)), (90, (0, 1)), (-180, (-1, 0)), (630, (0, -1))):
        if cosine_and_sine(Fraction(degrees)) != want:
            yield f"{degrees} degrees are {cosine_and_sine(Fraction(degrees))}"
    for degrees in range(-370, 370, 7):
        cosine, sine = map(float, cosine_and_sine(Fraction(degrees)))
        if max(abs(cosine - math.cos(math.radians(degrees))), abs(sine - math.sin(math.radians(degrees)))) > 1e-14:
            yield f"{degrees} degrees are {cosine}, {sine}"


def main():
    files, curves = sorted(FOLDER.glob("*.svg")), list(curve_cases())
    faults = [fault for path in files for fault in file_faults(path)]
    faults += [fault for case in curves for tolerance in ("1/4", "3") for fault in curve_faults(*case, tolerance)]
    faults += [*count_faults(), *angle_faults(), *refusal_faults()]
    print("\n".join([*faults, f"svg_to_loops: {len(files)} files, {len(curves)} curves, {len(REFUSED)} refusals, {len(faults)} faults"]))
    return 1 if faults else 0


if __name__ == "__main__":
    sys.exit(main())
