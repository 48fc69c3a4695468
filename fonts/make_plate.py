#!/usr/bin/env python3
"""Writes fonts/plate.cxf, the font of outlines that comes with the program.

    python3 fonts/make_plate.py            writes the file
    python3 fonts/make_plate.py --check    says whether the file is what would be written

A letter is drawn below as strokes of one width along lines and arcs, in font units, of which a capital has 9. Each stroke is a polygon;
the outline is the boundary of their union, in exact numbers: every edge is cut where it meets another one, the pieces with the inside on
one side alone are kept, and they are chained to loops. The outlines have lines alone, so their ends are equal at every height.
"""

import math
import sys
from fractions import Fraction
from pathlib import Path

FILE = Path(__file__).resolve().parent / "plate.cxf"

# the width of a stroke, the height of a capital, of a small letter and of a descender, in font units
THICK, CAP, SMALL, DOWN = 1.1, 9, 6.3, -2.5
HALF = THICK / 2

# a chord of an arc is about so many degrees wide, and more where it would be shorter than so many font units
CHORD, SHORTEST = 10, 0.34

# neighbours nearer than so much become one, where that moves the outline by no more than so much, in font units
NEAR, MOVED = 0.32, 0.04

# what stands before a letter with a straight side on its left, and before one with a round side; others begin at 0
STRAIGHT, ROUND = 0.3, 0.1

HEAD = """\
# Plate, a font of outlines for V-carving.
# Part of engrave_cli, and under the terms of that.
# Made by fonts/make_plate.py out of strokes that were drawn for it: no outline of another font is in it. Don't change it by hand.
# A capital is 9 units high, a small letter 6.3, a stroke 1.1 wide. All elements are lines, and all outlines are closed.
"""


# Strokes: each is a polygon, counterclockwise, a list of points in font units


def box(x0, y0, x1, y1):
    return [(x0, y0), (x1, y0), (x1, y1), (x0, y1)]


def stroke(x0, y0, x1, y1, first="across", last="across"):
    """A straight stroke. Its ends are cut across it, level, upright, or along a direction (x, y)."""
    length = math.hypot(x1 - x0, y1 - y0)
    along = ((x1 - x0) / length, (y1 - y0) / length)
    ways = {"across": (-along[1], along[0]), "level": (1, 0), "upright": (0, 1)}

    def cut(x, y, way):
        wx, wy = ways.get(way, way)
        reach = HALF / (along[0] * wy - along[1] * wx)
        return (x - reach * wx, y - reach * wy), (x + reach * wx, y + reach * wy)

    (right0, left0), (right1, left1) = cut(x0, y0, first), cut(x1, y1, last)
    return [right0, right1, left1, left0]


def slope(x0, y0, x1, y1):
    """A straight stroke that stands on one line of writing and reaches to another."""
    return stroke(x0, y0, x1, y1, "level", "level")


def round_points(x, y, radius, first, last):
    steps = max(2, math.floor((last - first) / max(CHORD, math.degrees(SHORTEST / radius))))
    turns = (math.radians(first + (last - first) * step / steps) for step in range(steps + 1))
    return [(x + radius * math.cos(turn), y + radius * math.sin(turn)) for turn in turns]


def arc(x, y, radius, first, last):
    """A stroke along an arc of less than a full turn, counterclockwise from one angle to the other, in degrees."""
    outer, inner = (round_points(x, y, radius + side, first, last) for side in (HALF, -HALF))
    return outer + inner[::-1]


def ring(width, height, x=0, y=0):
    """Closed strokes: a half circle below, a half circle above, and straight sides between them."""
    reach = width / 2
    low, high, radius = y + reach, y + height - reach, reach - HALF
    sides = [box(x, low, x + THICK, high), box(x + width - THICK, low, x + width, high)] if high > low else []
    return [arc(x + reach, low, radius, 180, 360), arc(x + reach, high, radius, 0, 180), *sides]


def bend(width, height, turn):
    """The left side of a ring as in C, from its end above to its end below, which are so many degrees past the level."""
    reach = width / 2
    low, high, radius = reach, height - reach, reach - HALF
    return [arc(reach, high, radius, turn, 180), box(0, low, THICK, high), arc(reach, low, radius, 180, 360 - turn)]


def arch(x, width, top):
    """A half circle and the stem on its right, as in n; on its left it ends in a stem."""
    reach = width / 2
    return [arc(x + reach, top - reach, reach - HALF, 0, 180), box(x + width - THICK, 0, x + width, top - reach)]


def turned(strokes, width, height):
    """Turned by half a turn within a box of this size."""
    return [[(width - x, height - y) for x, y in shape] for shape in strokes]


def dot(x, y):
    """A dot about x, on y."""
    return box(x - 0.65, y, x + 0.65, y + 1.3)


def curl(right, low, upper, lower, waist, top):
    """The strokes of S: two bends of these radii about the waist, and their ends."""
    left0, left1 = upper + HALF, lower + HALF
    right0 = right - 0.25 - left0
    right1 = right - left1
    return [
        arc(right0, top - left0, upper, 28, 90),
        box(left0 + 0.1, top - THICK, right0, top),
        arc(left0 + 0.1, top - left0, upper, 90, 270),
        box(left0 + 0.1, waist - HALF, right1, waist + HALF),
        arc(right1, low + left1, lower, -90, 90),
        box(left1, low, right1, low + THICK),
        arc(left1, low + left1, lower, 208, 270),
    ]


# The letters: what stands before each, and its strokes


def capitals():
    stem = box(0, 0, THICK, CAP)
    bowls = [box(HALF, 0, 3.5, THICK), box(HALF, 4.16, 3.5, 5.26), box(HALF, CAP - THICK, 3.5, CAP)]
    yield "A", 0, [slope(0.6, 0, 3.7, CAP), slope(6.8, 0, 3.7, CAP), box(1.55, 2.1, 5.85, 3.2)]
    yield "B", STRAIGHT, [stem, *bowls, arc(3.5, 6.58, 1.87, -90, 90), arc(3.5, 2.63, 2.08, -90, 90)]
    yield "C", ROUND, bend(6.8, CAP, 28)
    yield "D", STRAIGHT, [
        stem, box(HALF, 0, 3.2, THICK), box(HALF, CAP - THICK, 3.2, CAP), box(5.5, 3.4, 6.6, 5.6),
        arc(3.2, 3.4, 2.85, 270, 360), arc(3.2, 5.6, 2.85, 0, 90),
    ]
    yield "E", STRAIGHT, [stem, box(0, 0, 5.4, THICK), box(0, 4.05, 4.9, 5.15), box(0, CAP - THICK, 5.4, CAP)]
    yield "F", STRAIGHT, [stem, box(0, 3.9, 4.7, 5.0), box(0, CAP - THICK, 5.3, CAP)]
    yield "G", ROUND, [
        arc(3.4, 5.6, 2.85, 28, 180), box(0, 3.4, THICK, 5.6), arc(3.4, 3.4, 2.85, 180, 360),
        box(5.7, 3.4, 6.8, 4.7), box(3.8, 3.6, 6.8, 4.7),
    ]
    yield "H", STRAIGHT, [stem, box(5.5, 0, 6.6, CAP), box(HALF, 4.05, 6, 5.15)]
    yield "I", STRAIGHT, [stem]
    yield "J", 0, [box(3.6, 2.35, 4.7, CAP), arc(2.35, 2.35, 1.8, 185, 360)]
    yield "K", STRAIGHT, [stem, stroke(0.55, 3.3, 5.55, CAP, "upright", "level"), stroke(2.5, 5.523, 5.9, 0, "across", "level")]
    yield "L", STRAIGHT, [stem, box(0, 0, 4.9, THICK)]
    yield "M", STRAIGHT, [stem, box(6.9, 0, 8, CAP), slope(4, 2.1, 0.72, CAP), slope(4, 2.1, 7.28, CAP)]
    yield "N", STRAIGHT, [stem, box(5.7, 0, 6.8, CAP), slope(6.08, 0, 0.72, CAP)]
    yield "O", ROUND, ring(6.8, CAP)
    yield "P", STRAIGHT, [stem, box(HALF, CAP - THICK, 3.3, CAP), box(HALF, 3.4, 3.3, 4.5), arc(3.3, 6.2, 2.25, -90, 90)]
    yield "Q", ROUND, [*ring(6.8, CAP), stroke(3.9, 2.75, 6.5, -0.7, "across", "level")]
    yield "R", STRAIGHT, [
        stem, box(HALF, CAP - THICK, 3.4, CAP), box(HALF, 3.74, 3.4, 4.84), arc(3.4, 6.37, 2.08, -90, 90),
        slope(5.6, 0, 3.2, 4.29),
    ]
    yield "S", ROUND, curl(5.9, 0, 1.9, 2.05, 4.65, CAP)
    yield "T", 0, [box(2.65, 0, 3.75, CAP), box(0, CAP - THICK, 6.4, CAP)]
    yield "U", STRAIGHT, [box(0, 3.3, THICK, CAP), box(5.5, 3.3, 6.6, CAP), arc(3.3, 3.3, 2.75, 180, 360)]
    yield "V", 0, [slope(3.6, 0, 0.6, CAP), slope(3.6, 0, 6.6, CAP)]
    yield "W", 0, [slope(3, 0, 0.6, CAP), slope(3, 0, 5.4, CAP), slope(7.8, 0, 5.4, CAP), slope(7.8, 0, 10.2, CAP)]
    yield "X", 0, [slope(0.7, 0, 5.9, CAP), slope(5.9, 0, 0.7, CAP)]
    yield "Y", 0, [
        box(2.75, 0, 3.85, 4.3), stroke(3.3, 4, 0.6, CAP, "across", "level"), stroke(3.3, 4, 6, CAP, "across", "level"),
    ]
    yield "Z", 0, [slope(0.7, 0, 5.5, CAP), box(1, 0, 6.1, THICK), box(0.1, CAP - THICK, 5.2, CAP)]


def small_letters():
    tall, stem = box(0, 0, THICK, CAP), box(0, 0, THICK, SMALL)
    bowl = ring(5.7, SMALL)
    yield "a", ROUND, [*bowl, box(4.6, 0, 5.7, SMALL)]
    yield "b", STRAIGHT, [*bowl, tall]
    yield "c", ROUND, bend(5.7, SMALL, 40)
    yield "d", ROUND, [*bowl, box(4.6, 0, 5.7, CAP)]
    yield "e", ROUND, [
        arc(2.85, 3.45, 2.3, 0, 180), box(0, 2.85, THICK, 3.45), arc(2.85, 2.85, 2.3, 180, 318),
        box(4.6, 2.6, 5.7, 3.45), box(HALF, 2.6, 5.1, 3.7),
    ]
    hook = [box(1, 0, 2.1, 7.0), arc(3, 7.0, 1.45, 90, 180), box(3, CAP - THICK, 3.6, CAP)]
    yield "f", 0, [*hook, box(0, SMALL - THICK, 3.5, SMALL)]
    yield "g", ROUND, [*bowl, box(4.6, -0.4, 5.7, SMALL), arc(3.6, -0.4, 1.55, 270, 360), box(0.9, DOWN, 3.6, DOWN + THICK)]
    yield "h", STRAIGHT, [tall, *arch(0, 5.5, SMALL)]
    yield "i", STRAIGHT, [stem, dot(HALF, 7.6)]
    yield "j", 0, [box(1.7, -0.6, 2.8, SMALL), arc(0.9, -0.6, 1.35, 270, 360), box(0, DOWN, 0.9, DOWN + THICK), dot(2.25, 7.6)]
    yield "k", STRAIGHT, [tall, stroke(0.55, 1.9, 4.5, SMALL, "upright", "level"), stroke(2.2, 3.738, 4.8, 0, "across", "level")]
    yield "l", STRAIGHT, [tall]
    yield "m", STRAIGHT, [stem, *arch(0, 5.1, SMALL), *arch(4, 5.1, SMALL)]
    yield "n", STRAIGHT, [stem, *arch(0, 5.5, SMALL)]
    yield "o", ROUND, bowl
    yield "p", STRAIGHT, [*bowl, box(0, DOWN, THICK, SMALL)]
    yield "q", ROUND, [*bowl, box(4.6, DOWN, 5.7, SMALL)]
    yield "r", STRAIGHT, [stem, arc(2.6, 3.7, 2.05, 52, 180)]
    yield "s", ROUND, curl(4.7, 0, 1.27, 1.33, 3.21, SMALL)
    yield "t", 0, [
        box(1, 2, 2.1, 8.2), arc(3, 2, 1.45, 180, 270), box(3, 0, 3.7, THICK), box(0, SMALL - THICK, 3.6, SMALL),
    ]
    yield "u", STRAIGHT, turned([stem, *arch(0, 5.5, SMALL)], 5.5, SMALL)
    yield "v", 0, [slope(2.85, 0, 0.6, SMALL), slope(2.85, 0, 5.1, SMALL)]
    yield "w", 0, [slope(2.5, 0, 0.6, SMALL), slope(2.5, 0, 4.4, SMALL), slope(6.3, 0, 4.4, SMALL), slope(6.3, 0, 8.2, SMALL)]
    yield "x", 0, [slope(0.7, 0, 4.6, SMALL), slope(4.6, 0, 0.7, SMALL)]
    yield "y", 0, [slope(2, DOWN, 5.2, SMALL), stroke(2.909, 0, 0.6, SMALL, (3.2, 8.8), "level")]
    yield "z", 0, [slope(0.75, 0, 4.25, SMALL), box(1, 0, 4.9, THICK), box(0.1, SMALL - THICK, 4, SMALL)]


def figures():
    six = [*ring(5.8, 5.8), box(0, 2.9, THICK, 6.1), arc(2.9, 6.1, 2.35, 38, 180)]
    yield "0", ROUND, ring(5.8, CAP)
    yield "1", 0, [box(1.9, 0, 3, CAP), stroke(0.35, 7.25, 2.1, CAP, "across", "level")]
    turn = math.radians(-40)
    x, y = 2.9 + 2.3 * math.cos(turn), 6.15 + 2.3 * math.sin(turn)
    foot = x + y * math.tan(turn)
    yield "2", ROUND, [arc(2.9, 6.15, 2.3, -40, 168), stroke(x, y, foot, 0, "across", "level"), box(foot + 0.5, 0, 5.7, THICK)]
    yield "3", ROUND, [arc(2.8, 6.58, 1.87, -90, 155), arc(2.8, 2.63, 2.08, 205, 450), box(1.7, 4.16, 2.8, 5.26)]
    yield "4", 0, [box(3.6, 0, 4.7, CAP), slope(0.7, 2, 4.05, CAP), box(0.7, 2, 5.9, 3.1)]
    yield "5", ROUND, [box(0.7, 4.7, 1.8, CAP), box(0.7, CAP - THICK, 5.3, CAP), box(0.7, 4.7, 2.8, 5.8), arc(2.8, 2.9, 2.35, 205, 450)]
    yield "6", ROUND, six
    yield "7", 0, [box(0, CAP - THICK, 4.9, CAP), slope(1.7, 0, 5, CAP)]
    yield "8", ROUND, [*ring(5.26, 5.26), *ring(4.84, 4.84, 0.21, 4.16)]
    yield "9", ROUND, turned(six, 5.8, CAP)


def marks():
    bracket = arc(7.05, 4, 6.5, 130, 230)
    yield ".", 0.2, [dot(0.65, 0)]
    yield ",", 0, [[(0.75, 1.3), (0, -1.5), (0.95, -1.5), (2.05, 1.3)]]
    yield "-", 0, [box(0, 3.3, 3.2, 4.4)]
    yield "+", 0, [box(0, 3.65, 5.2, 4.75), box(2.05, 1.6, 3.15, 6.8)]
    yield "/", 0, [slope(0.6, 0, 4, CAP)]
    yield ":", 0.2, [dot(0.65, 0), dot(0.65, 4.6)]
    yield "(", 0.2, [bracket]
    yield ")", 0.2, turned([bracket], 0, 8)
    yield "&", ROUND, [
        arc(2.75, 6.95, 1.5, -55, 218.8),
        stroke(3.611, 5.721, 1.553, 4.279), stroke(1.581, 6.01, 6.3, 0, "across", "level"),
        arc(2.729, 2.6, 2.05, 125, 325), stroke(4.408, 1.424, 6.4, 4.268, "across", "level"),
    ]
    yield "!", 0.2, [box(0.1, 2.6, 1.2, CAP), dot(0.65, 0)]
    yield "?", 0, [arc(2.5, 6.5, 1.95, -90, 165), box(1.95, 2.6, 3.05, 5.1), dot(2.5, 0)]
    yield "'", 0.2, [box(0, 6.3, THICK, CAP)]
    yield '"', 0.2, [box(0, 6.3, THICK, CAP), box(2.1, 6.3, 3.2, CAP)]
    yield "#", 0, [slope(1.6, 0, 2.6, CAP), slope(4.3, 0, 5.3, CAP), box(0, 2.3, 6.8, 3.4), box(0.1, 5.5, 6.9, 6.6)]


# The union. From here on points are in hundredths of a font unit


def cross(o, p, q):
    return (p[0] - o[0]) * (q[1] - o[1]) - (p[1] - o[1]) * (q[0] - o[0])


def edges(loop):
    return list(zip(loop, loop[1:] + loop[:1]))


def rounded(loop):
    return [(round(x), round(y)) for x, y in loop]


def doubled_area(loop):
    return sum(p[0] * q[1] - p[1] * q[0] for p, q in edges(loop))


def on_segment(p, a, b):
    return cross(a, b, p) == 0 and min(a[0], b[0]) <= p[0] <= max(a[0], b[0]) and min(a[1], b[1]) <= p[1] <= max(a[1], b[1])


def apart(a, b, c, d):
    return any(max(a[i], b[i]) < min(c[i], d[i]) or max(c[i], d[i]) < min(a[i], b[i]) for i in (0, 1))


def meetings(a, b, c, d):
    """The points where the segment from a to b is to be cut for the one from c to d."""
    if apart(a, b, c, d):
        return []
    turn = (b[0] - a[0]) * (d[1] - c[1]) - (b[1] - a[1]) * (d[0] - c[0])
    if turn == 0:
        return [p for p in (c, d) if on_segment(p, a, b)]
    s = Fraction((c[0] - a[0]) * (d[1] - c[1]) - (c[1] - a[1]) * (d[0] - c[0]), turn)
    t = Fraction((c[0] - a[0]) * (b[1] - a[1]) - (c[1] - a[1]) * (b[0] - a[0]), turn)
    return [(a[0] + s * (b[0] - a[0]), a[1] + s * (b[1] - a[1]))] if 0 <= s <= 1 and 0 <= t <= 1 else []


def cut_pieces(polygons):
    """All edges, cut wherever they meet; each piece once, the lesser end first."""
    every = [edge for polygon in polygons for edge in edges(polygon)]
    pieces = set()
    for a, b in every:
        ends = {a, b}.union(*(meetings(a, b, c, d) for c, d in every))
        row = sorted(ends)
        pieces.update(zip(row, row[1:]))
    return sorted(pieces)


def sides(polygon, p, q):
    """Whether the polygon has the points just to the left, and just to the right, of the middle of a piece."""
    m = (Fraction(p[0] + q[0], 2), Fraction(p[1] + q[1], 2))
    for a, b in edges(polygon):
        if on_segment(m, a, b):
            same = (b[0] - a[0]) * (q[0] - p[0]) + (b[1] - a[1]) * (q[1] - p[1]) > 0
            return same, not same
    passed = [(a, b) for a, b in edges(polygon) if (a[1] <= m[1]) != (b[1] <= m[1])]
    inside = sum((cross(a, b, m) > 0) == (b[1] > a[1]) for a, b in passed) % 2 == 1
    return inside, inside


def boundary(polygons):
    """The pieces with the inside of the union on one side alone, which is their left."""
    for p, q in cut_pieces(polygons):
        left, right = (any(side) for side in zip(*(sides(polygon, p, q) for polygon in polygons)))
        if left and not right:
            yield p, q
        elif right and not left:
            yield q, p


def chained(name, pieces):
    following = {}
    for p, q in pieces:
        if p in following:
            sys.exit(f"{name}: the outline touches itself at {float(p[0]) / 100}, {float(p[1]) / 100}")
        following[p] = q
    while following:
        first = min(following)
        loop = [first]
        while (then := following.pop(loop[-1])) != first:
            loop.append(then)
        yield loop


def without_straight(loop):
    """Without the points that lie straight between their neighbours."""
    return [p for o, p, q in zip(loop[-1:] + loop[:-1], loop, loop[1:] + loop[:1]) if cross(o, p, q) != 0]


def without_near(loop):
    """Of neighbours that are too near the one goes away that the outline misses less."""
    loop = list(loop)

    def missed(i):
        o, p, q = loop[i - 1], loop[i], loop[(i + 1) % len(loop)]
        return abs(cross(o, p, q)) / math.dist(o, q)

    while True:
        near = [i for i, (p, q) in enumerate(edges(loop)) if math.dist(p, q) < 100 * NEAR]
        ends = {end % len(loop) for i in near for end in (i, i + 1)}
        least = min(ends, key=lambda i: (missed(i), i), default=None)
        if least is None or missed(least) > 100 * MOVED:
            return loop
        del loop[least]


def outline(name, before, strokes):
    """The loops of a letter, in hundredths of a font unit, the inside on their left."""
    polygons = [rounded([(100 * x, 100 * y) for x, y in shape]) for shape in strokes]
    if any(doubled_area(polygon) <= 0 for polygon in polygons):
        sys.exit(f"{name}: a stroke is inside out")
    loops = [without_near(without_straight(rounded(without_straight(loop)))) for loop in chained(name, boundary(polygons))]
    shift = round(100 * before) - min(x for loop in loops for x, _ in loop)
    return [[(x + shift, y) for x, y in loop] for loop in loops]


# The file


def number(hundredths):
    return f"{hundredths / 100:.2f}".rstrip("0").rstrip(".")


def glyph(name, loops):
    lines = [edge for loop in loops for edge in edges(loop)]
    yield f"[{name}] {len(lines)}"
    for ends in lines:
        yield "L " + ",".join(number(v) for end in ends for v in end)


def font():
    drawn = [*capitals(), *small_letters(), *figures(), *marks()]
    return HEAD + "".join(line + "\n" for name, before, strokes in drawn for line in glyph(name, outline(name, before, strokes)))


def main():
    made = font()
    if sys.argv[1:] == ["--check"]:
        if FILE.read_text(encoding="utf-8") != made:
            sys.exit(f"{FILE} isn't what make_plate.py writes")
    elif sys.argv[1:]:
        sys.exit(__doc__)
    else:
        FILE.write_text(made, encoding="utf-8")


if __name__ == "__main__":
    main()
