#!/usr/bin/env python3
"""Checks a CXF font of outlines for closed outlines that don't cross, at several heights.

    python3 fonts/check_font.py                               checks fonts/plate.cxf
    python3 fonts/check_font.py --font=own.cxf                another font; the shapes of plate.cxf aren't asked then
    python3 fonts/check_font.py --heights=57,100 --width=80   at other heights, in grid units, and another width, in percent

Each letter is laid on the grid as the program lays it, in whole numbers: snapped, joined, and every two of its edges compared. It is laid
upright, mirrored and flipped, and from several starts, for within a text a letter begins at any thousandth of a grid unit. The first
fault is told with the letter's name. This script shares nothing with make_plate.py.
"""

import argparse
import math
import re
import sys
from collections import Counter
from decimal import Decimal, InvalidOperation
from pathlib import Path

PLATE = Path(__file__).resolve().parent / "plate.cxf"

HEIGHTS = [57, 100, 300, 900]

# where letters begin, in thousandths of a grid unit
STARTS = [(0, 0), (250, 0), (333, 500), (501, 667), (875, 125)]

# along x and y: upright, mirrored, flipped, both
SIGNS = [(1, 1), (-1, 1), (1, -1), (-1, -1)]

# a full turn has so many parts, and a chord of an arc so many degrees
TURN, CHORD = 1 << 22, 10

# of each letter of plate.cxf, how many loops it has
LOOPS = {
    **dict.fromkeys("CEFGHIJKLMNSTUVWXYZcfhklmnrstuvwxyz12357.,-+/()'", 1),
    **dict.fromkeys('ADOPQRabdegijopq0469:!?"#', 2),
    **dict.fromkeys("B8&", 3),
}

# of some letters of plate.cxf, points in hundredths of a font unit, from the least x and the line of writing on: inside or not
POINTS = {
    "A": [((368, 800), True), ((368, 500), False), ((368, 265), True), ((368, 100), False), ((60, 10), True), ((10, 800), False)],
    "B": [((55, 450), True), ((250, 250), False), ((250, 650), False), ((250, 471), True), ((250, 850), True), ((590, 471), False)],
    "H": [((55, 800), True), ((330, 460), True), ((330, 800), False), ((605, 100), True), ((330, 100), False)],
    "I": [((55, 450), True), ((130, 450), False)],
    "O": [((55, 450), True), ((340, 450), False), ((340, 845), True), ((20, 20), False)],
    "S": [((300, 465), True), ((55, 655), True), ((300, 655), False), ((540, 260), True), ((300, 260), False), ((300, 845), True)],
    "e": [((275, 315), True), ((275, 440), False), ((275, 180), False), ((275, 575), True), ((500, 210), False)],
    "i": [((62, 300), True), ((62, 700), False), ((62, 820), True)],
    "n": [((55, 600), True), ((275, 575), True), ((275, 100), False), ((495, 100), True), ((530, 610), False)],
    "4": [((420, 100), True), ((290, 400), False), ((100, 255), True), ((550, 255), True), ((100, 800), False)],
    "8": [((263, 263), False), ((263, 658), False), ((263, 471), True), ((55, 263), True), ((10, 471), False)],
    "&": [((275, 695), False), ((272, 260), False), ((430, 260), True), ((600, 40), True), ((620, 150), False)],
    "#": [((345, 450), False), ((210, 280), True), ((345, 600), True), ((20, 450), False)],
    '"': [((55, 700), True), ((160, 700), False), ((265, 700), True)],
}


class Fault(Exception):
    pass


# Reading


def millionths(word):
    """A number in millionths, halves rounded upwards."""
    try:
        return nearest(*(Decimal(word) * 1000000).as_integer_ratio())
    except (InvalidOperation, OverflowError, ValueError):
        raise Fault(f"number {word}") from None


def text_of(data):
    """As UTF-8, where a byte that begins no character is the character of its own number."""
    text = data.decode("utf-8", errors="surrogateescape")
    return "".join(chr(ord(c) - 0xDC00) if 0xDC80 <= ord(c) <= 0xDCFF else c for c in text)


def character(line):
    """The character of a line that begins a glyph."""
    coded = re.match(r"\[#([0-9A-Fa-f]{1,6})\]", line)
    if coded and int(coded[1], 16) <= sys.maxunicode:
        return chr(int(coded[1], 16))
    if coded or line[2:3] != "]":
        raise Fault("syntax")
    return line[1]


def element(line):
    kind, *rest = line.split(maxsplit=1)
    words = rest[0].split(",") if rest else []
    if len(words) != {"L": 4, "A": 5, "AR": 5}.get(kind):
        raise Fault("syntax")
    return kind, [millionths(word.strip()) for word in words]


def read_font(path):
    """The elements of each letter: L, A or AR, with their numbers in millionths. The first glyph of a character counts."""
    font, elements = {}, None
    for at, line in enumerate(map(str.strip, text_of(path.read_bytes()).split("\n")), 1):
        try:
            if line.startswith("["):
                elements = []
                font.setdefault(character(line), elements)
            elif line and not line.startswith("#") and elements is not None:
                elements.append(element(line))
        except Fault as fault:
            sys.exit(f"{path}, line {at}: {fault}")
    return font


# Laying


def nearest(a, b):
    return (2 * a + b) // (2 * b)


def arc_turns(first, last):
    """The directions of an arc's points, in parts of a full turn."""
    start, end = ((8388608 * micro + 360000000) // 720000000 % TURN for micro in (first, last))
    span = (end - start) % TURN or TURN
    width = CHORD * TURN // 360
    pieces = (span + width - 1) // width
    return [start + i * span // pieces for i in range(pieces + 1)]


def points_of(kind, numbers, place):
    """The points of an element in thousandths of a grid unit; `place` takes there what is in millionths of a font unit."""
    if kind == "L":
        return [place(*numbers[:2]), place(*numbers[2:])]
    x, y, radius, first, last = numbers
    turns = arc_turns(first, last) if kind == "A" else arc_turns(last, first)[::-1]
    ways = [(math.cos(math.tau * turn / TURN), math.sin(math.tau * turn / TURN)) for turn in turns]
    return [place(round(x + radius * along), round(y + radius * up)) for along, up in ways]


def laid(elements, height, width, start, signs):
    """The letter's segments on the grid."""

    def place(x, y):
        fine = (start[0] + nearest(x * height * width, 900000), start[1] + nearest(y * height, 9000))
        return tuple(sign * part for sign, part in zip(signs, fine))

    for kind, numbers in elements:
        spots = [tuple(nearest(part, 1000) for part in spot) for spot in points_of(kind, numbers, place)]
        yield from ((p, q) for p, q in zip(spots, spots[1:]) if p != q)


def snapped(segments):
    """The segments without gaps of one grid unit: a point so near to kept ones becomes the first of them, others are kept."""
    kept = {}

    def to_kept(p):
        near = [(x, y) for x in (p[0] - 1, p[0], p[0] + 1) for y in (p[1] - 1, p[1], p[1] + 1) if (x, y) in kept]
        if near:
            return min(near, key=kept.get)
        kept[p] = len(kept)
        return p

    ends = [(to_kept(a), to_kept(b)) for a, b in segments]
    return [(a, b) for a, b in ends if a != b]


# Faults


def turn_of(o, p, q):
    return (p[0] - o[0]) * (q[1] - o[1]) - (p[1] - o[1]) * (q[0] - o[0])


def on_segment(p, a, b):
    return turn_of(a, b, p) == 0 and min(a[0], b[0]) <= p[0] <= max(a[0], b[0]) and min(a[1], b[1]) <= p[1] <= max(a[1], b[1])


def meet_ill(a, b, c, d):
    """Whether two edges share a point, but for one that is an end of both."""
    if max(a[1], b[1]) < min(c[1], d[1]) or max(c[1], d[1]) < min(a[1], b[1]):
        return False
    shared = {a, b} & {c, d}
    if len(shared) == 2:
        return True
    touching = {p for p in (a, b) if on_segment(p, c, d)} | {p for p in (c, d) if on_segment(p, a, b)}
    if shared:
        return touching != shared
    if touching:
        return True
    return (turn_of(a, b, c) > 0) != (turn_of(a, b, d) > 0) and (turn_of(c, d, a) > 0) != (turn_of(c, d, b) > 0)


def words(p):
    return f"{p[0]},{p[1]}"


def guard(edges):
    """That the edges are closed outlines which don't cross."""
    degrees = Counter(p for edge in edges for p in edge)
    for p, degree in sorted(degrees.items()):
        if degree % 2:
            raise Fault(f"open at {words(p)}")
    row = sorted((min(edge), max(edge)) for edge in edges)
    for i, (a, b) in enumerate(row):
        for c, d in row[i + 1 :]:
            if c[0] > b[0]:
                break
            if meet_ill(a, b, c, d):
                raise Fault(f"edges meet: {words(a)} {words(b)} and {words(c)} {words(d)}")


def loop_count(edges):
    """How many parts the edges are in, where no point has more than two of them."""
    leads = {}
    for a, b in edges:
        leads.setdefault(a, []).append(b)
        leads.setdefault(b, []).append(a)
    count = 0
    while leads:
        count += 1
        waiting = [next(iter(leads))]
        while waiting:
            waiting += leads.pop(waiting.pop(), [])
    return count


def is_inside(p, edges):
    """By the even-odd rule, for a point that isn't on an edge."""
    passed = [(a, b) if a[1] < b[1] else (b, a) for a, b in edges if (a[1] <= p[1]) != (b[1] <= p[1])]
    return sum(turn_of(a, b, p) > 0 for a, b in passed) % 2 == 1


def check_points(elements, points):
    """The points, in hundredths of a font unit, which at the height 900 are grid units."""
    edges = snapped(laid(elements, 900, 100, (0, 0), (1, 1)))
    left = min(x for edge in edges for x, _ in edge)
    for (x, y), inside in points:
        if is_inside((x + left, y), edges) != inside:
            raise Fault(f"the point {x},{y} is {'outside' if inside else 'inside'}")


def check_letter(elements, height, width, loops):
    for start in STARTS:
        for signs in SIGNS:
            try:
                edges = snapped(laid(elements, height, width, start, signs))
                guard(edges)
                if loops not in (None, loop_count(edges)):
                    raise Fault(f"{loop_count(edges)} loops in place of {loops}")
            except Fault as fault:
                raise Fault(f"height {height} width {width} start {words(start)} signs {words(signs)}: {fault}")


def check(font, heights, width, shapes):
    """The faults, of each letter the first."""
    if shapes and font.keys() != LOOPS.keys():
        yield f"letters that differ from the table: {' '.join(sorted(font.keys() ^ LOOPS.keys()))}"
    for name, elements in font.items():
        try:
            for height in heights:
                check_letter(elements, height, width, LOOPS.get(name) if shapes else None)
            if shapes:
                check_points(elements, POINTS.get(name, []))
        except Fault as fault:
            yield f"{name}: {fault}"


def main():
    parser = argparse.ArgumentParser(description=__doc__.splitlines()[0])
    parser.add_argument("--font", type=Path, default=PLATE)
    parser.add_argument("--heights", default=",".join(map(str, HEIGHTS)), help="in grid units, with commas between them")
    parser.add_argument("--width", type=int, default=100, help="percent")
    options = parser.parse_args()
    heights = [int(height) for height in options.heights.split(",")]
    font = read_font(options.font)
    faults = list(check(font, heights, options.width, options.font == PLATE))
    if faults:
        sys.exit("\n".join(faults))
    print(f"{len(font)} letters, {sum(len(elements) for elements in font.values())} elements: closed and without crossings")


if __name__ == "__main__":
    main()
