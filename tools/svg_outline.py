"""The outlines of SVG shapes, and points along them that are as near as is asked.

An outline is a list of subpaths, each of them its first point and the pieces that follow: curves of one, two or three further points, of
which the last is the end, and arcs of ellipses. Ends are exact fractions. What lies between them is computed in doubles: no number there
is greater than FAR grid units, so a point is wrong by less than a millionth of one.

A piece is cut into so many parts, alike in its parameter, that each chord is near enough: over a step h the point of a curve differs from
that of the chord, at the same parameter, by h h / 8 times the greatest second derivative at most.
"""

import math
import re
from fractions import Fraction
from typing import NamedTuple

from svg_values import GAP, NUMBER, SvgFault, cosine_and_sine, moved, number, numbers

MOST_POINTS = 131072
FAR = 10 ** 8
SLACK = 1e-6


def near(point):
    """The same point in doubles, where it is near enough to the grid."""
    if max(abs(point[0]), abs(point[1])) > FAR:
        raise SvgFault("out of range")
    return (float(point[0]), float(point[1]))


def parts(bend, tolerance):
    """How many chords a piece takes whose second derivative is `bend` at most, over a parameter from 0 to 1."""
    count = math.ceil(math.sqrt(bend / (8 * (tolerance - SLACK)))) or 1
    if count > MOST_POINTS:
        raise SvgFault("too many")
    return count


class Curve(NamedTuple):
    points: tuple

    @property
    def end(self):
        return self.points[-1]

    def placed(self, matrix):
        return Curve(tuple(moved(matrix, point) for point in self.points))

    def between(self, start, tolerance):
        """Points of the curve between its ends, in doubles."""
        controls = [near(point) for point in (start, *self.points)]
        degree = len(controls) - 1
        bends = [math.dist((a[0] + c[0], a[1] + c[1]), (2 * b[0], 2 * b[1])) for a, b, c in zip(controls, controls[1:], controls[2:])]
        count = parts(degree * (degree - 1) * max(bends, default=0), tolerance)
        for step in range(1, count):
            t = step / count
            weights = [math.comb(degree, i) * t ** i * (1 - t) ** (degree - i) for i in range(degree + 1)]
            yield tuple(sum(weight * point[axis] for weight, point in zip(weights, controls)) for axis in (0, 1))


class Arc(NamedTuple):
    """The points centre + first cos a + second sin a, where a goes from `begin` by `sweep`."""

    centre: tuple
    first: tuple
    second: tuple
    begin: float
    sweep: float
    end: tuple

    def placed(self, matrix):
        turned = (*matrix[:4], 0, 0)
        first, second = moved(turned, self.first), moved(turned, self.second)
        return Arc(moved(matrix, self.centre), first, second, self.begin, self.sweep, moved(matrix, self.end))

    def between(self, _, tolerance):
        (x, y), (a, b), (c, d) = near(self.centre), near(self.first), near(self.second)
        # The longer half axis, which is the greatest second derivative by the angle.
        longer = math.sqrt((a * a + b * b + c * c + d * d + math.hypot(a * a + b * b - c * c - d * d, 2 * (a * c + b * d))) / 2)
        count = parts(longer * self.sweep ** 2, tolerance)
        for step in range(1, count):
            angle = self.begin + self.sweep * step / count
            yield (x + a * math.cos(angle) + c * math.sin(angle), y + b * math.cos(angle) + d * math.sin(angle))


def loop_points(subpath, matrix, tolerance):
    """The points of a subpath on the grid: each to the nearest, halves upwards; of equal neighbours the first."""
    start, pieces = subpath
    start, pieces = moved(matrix, start), [piece.placed(matrix) for piece in pieces]
    near(start)
    found, half = [], Fraction(1, 2)
    points = [start]
    for piece in pieces:
        points += piece.between(points[-1], tolerance)
        near(piece.end)
        points.append(piece.end)
        if len(points) > MOST_POINTS:
            raise SvgFault("too many")
    for x, y in points:
        rounded = (math.floor(x + half), math.floor(y + half))
        if found[-1:] != [rounded]:
            found.append(rounded)
    while len(found) > 1 and found[0] == found[-1]:
        found.pop()
    return found


def arc_piece(start, end, radii, degrees, is_large, is_sweep):
    """The piece of a path's command A, as the standard's notes on elliptical arcs say it; none where it has no length."""
    if start == end:
        return []
    if not all(radii):
        return [Curve((end,))]
    cosine, sine = cosine_and_sine(degrees)
    x, y = (start[0] - end[0]) / 2, (start[1] - end[1]) / 2
    across, down = abs(radii[0]), abs(radii[1])
    # Half the chord, where the ellipse is the unit circle.
    p = ((cosine * x + sine * y) / across, (cosine * y - sine * x) / down)
    square = p[0] ** 2 + p[1] ** 2
    if square > 1:
        longer = Fraction(math.sqrt(square))
        across, down, p, square = across * longer, down * longer, (p[0] / longer, p[1] / longer), Fraction(1)
    reach, height = math.sqrt(square), math.sqrt(1 - square)
    side = -1 if is_large == is_sweep else 1
    centre = (side * height / reach * float(p[1]), -side * height / reach * float(p[0]))
    begin = math.atan2(float(p[1]) - centre[1], float(p[0]) - centre[0])
    turn = 2 * math.atan2(reach, height)
    turn = 2 * math.pi - turn if is_large else turn
    first, second = (across * cosine, across * sine), (-down * sine, down * cosine)
    middle = [(start[axis] + end[axis]) / 2 + Fraction(centre[0]) * first[axis] + Fraction(centre[1]) * second[axis] for axis in (0, 1)]
    return [Arc(tuple(middle), first, second, begin, turn if is_sweep else -turn, end)]


class Pen:
    """The outline that the commands of a path draw."""

    def __init__(self):
        self.outline, self.at, self.control, self.kind = [], (Fraction(0), Fraction(0)), None, ""
        self.is_closed = False

    def move(self, point):
        self.outline.append((point, []))
        self.at, self.is_closed = point, False

    def add(self, pieces):
        if self.is_closed:
            self.move(self.at)
        self.outline[-1][1].extend(pieces)
        self.at = pieces[-1].end if pieces else self.at

    def mirrored(self, kinds):
        """The control point of the curve before, on the other side; where there is none, the point itself."""
        if self.kind not in kinds:
            return self.at
        return (2 * self.at[0] - self.control[0], 2 * self.at[1] - self.control[1])

    def draw(self, letter, values):
        """One command with its numbers; a small letter's are from the point that was reached."""
        kind, base = letter.upper(), self.at if letter.islower() else (Fraction(0), Fraction(0))
        points = [(base[0] + x, base[1] + y) for x, y in zip(values[::2], values[1::2])]
        match kind:
            case "M":
                self.move(points[0])
            case "Z":
                self.at, self.is_closed = self.outline[-1][0], True
            case "L":
                self.add([Curve((points[0],))])
            case "H":
                self.add([Curve(((base[0] + values[0], self.at[1]),))])
            case "V":
                self.add([Curve(((self.at[0], base[1] + values[0]),))])
            case "C" | "Q":
                self.curve(points)
            case "S":
                self.curve([self.mirrored("CS"), *points])
            case "T":
                self.curve([self.mirrored("QT"), *points])
            case "A":
                end = (base[0] + values[5], base[1] + values[6])
                self.add(arc_piece(self.at, end, values[:2], values[2], values[3] == 1, values[4] == 1))
        self.kind = kind

    def curve(self, points):
        self.add([Curve(tuple(points))])
        self.control = points[-2]


COUNTS = {"M": 2, "Z": 0, "L": 2, "H": 1, "V": 1, "C": 6, "S": 4, "Q": 4, "T": 2, "A": 7}


def command_numbers(text, at, kind):
    """The numbers of a command that begin at a place of the text, and the place behind them; flags are one digit each."""
    values = []
    while len(values) < COUNTS[kind]:
        match = (re.compile("[01]") if kind == "A" and len(values) in (3, 4) else NUMBER).match(text, at)
        if not match:
            raise SvgFault("path data")
        values.append(number(match[0]))
        at = GAP.match(text, match.end()).end()
    return values, at


def path(text):
    """The outline of a path's data. A command that isn't well formed is a fault: nothing is guessed."""
    text = "" if text.strip() == "none" else text
    pen, letter, at = Pen(), "", GAP.match(text).end()
    while at < len(text):
        if text[at].upper() in COUNTS:
            letter, at = text[at], GAP.match(text, at + 1).end()
        elif letter in ("", "Z", "z"):
            raise SvgFault("path data")
        else:
            letter = {"M": "L", "m": "l"}.get(letter, letter)
        if not pen.outline and letter not in "Mm":
            raise SvgFault("path data")
        values, at = command_numbers(text, at, letter.upper())
        pen.draw(letter, values)
    return pen.outline


def polygon(text):
    """The outline of the points of a polygon or a polyline."""
    values = numbers(text)
    if len(values) % 2:
        raise SvgFault("points")
    points = list(zip(values[::2], values[1::2]))
    return [(points[0], [Curve((point,)) for point in points[1:]])] if points else []


def corner(centre, radii, quarter):
    """A quarter of an ellipse, that begins after so many quarters."""
    signs = ((0, 1), (-1, 0), (0, -1), (1, 0))[quarter]
    end = (centre[0] + signs[0] * radii[0], centre[1] + signs[1] * radii[1])
    return Arc(centre, (radii[0], Fraction(0)), (Fraction(0), radii[1]), quarter * math.pi / 2, math.pi / 2, end)


def ellipse(x, y, across, down):
    if across < 0 or down < 0:
        raise SvgFault("negative")
    if not across or not down:
        return []
    return [((x + across, y), [corner((x, y), (across, down), quarter) for quarter in range(4)])]


def rectangle(x, y, width, height, across, down):
    """The outline of a rectangle; `across` and `down` are the radii of its corners, none where they aren't given."""
    if min(width, height, across or 0, down or 0) < 0:
        raise SvgFault("negative")
    if not width or not height:
        return []
    across, down = (down if across is None else across) or Fraction(0), (across if down is None else down) or Fraction(0)
    across, down = min(across, width / 2), min(down, height / 2)
    right, bottom = x + width, y + height
    if not across or not down:
        return [((x, y), [Curve((point,)) for point in ((right, y), (right, bottom), (x, bottom))])]
    centres = [(right - across, bottom - down), (x + across, bottom - down), (x + across, y + down), (right - across, y + down)]
    pieces = [Curve(((right, bottom - down),)), corner(centres[0], (across, down), 0)]
    for quarter in (1, 2, 3):
        begin = corner(centres[quarter], (across, down), quarter - 1).end
        pieces += [Curve((begin,)), corner(centres[quarter], (across, down), quarter)]
    return [((right, y + down), pieces)]
