"""How the segments of a drawing become loops, and which of its edges cross, as plain programs.

Whole numbers and fractions alone, without haste, and nothing taken from the tool's code. A point is a pair of numbers on the grid, a
segment and an edge a pair of points.
"""

from collections import Counter
from fractions import Fraction
from itertools import chain


class Refused(Exception):
    """A line that refuses the file."""


def is_near(p, q, tolerance):
    return abs(p[0] - q[0]) <= tolerance and abs(p[1] - q[1]) <= tolerance


def earliest_near(kept, p, tolerance):
    return next((q for q in kept if is_near(p, q, tolerance)), None)


def snapped(segments, tolerance):
    """Each end becomes the earliest kept point near it, or is kept; what then has no length is dropped."""
    kept, result = [], []
    for ends in segments:
        moved = []
        for p in ends:
            found = earliest_near(kept, p, tolerance)
            if found is None:
                kept.append(p)
            moved.append(p if found is None else found)
        if moved[0] != moved[1]:
            result.append(tuple(moved))
    return result


def other_end(segment, p):
    return segment[1] if segment[0] == p else segment[0]


def first_with_end(segments, p):
    """The number of the first segment that ends at the point."""
    return next(i for i, ends in enumerate(segments) if p in ends)


def joined(segments):
    """The loops of the segments, each begun by the first that is left."""
    degrees = Counter(p for ends in segments for p in ends)
    for p in chain.from_iterable(segments):
        if degrees[p] % 2:
            raise Refused(f"input open {p[0]},{p[1]}")
    loops, left = [], list(segments)
    while left:
        start, p = left.pop(0)
        loop = [start]
        while p != start:
            loop.append(p)
            p = other_end(left.pop(first_with_end(left, p)), p)
        loops.append(loop)
    return loops


def edges_of(loops):
    return [(p, q) for loop in loops for p, q in zip(loop, loop[1:] + loop[:1])]


def cross(v, w):
    return v[0] * w[1] - v[1] * w[0]


def way(p, q):
    return q[0] - p[0], q[1] - p[1]


def box_of(ends):
    (x, y), (v, w) = ends
    return min(x, v), max(x, v), min(y, w), max(y, w)


def are_apart(box, other):
    return box[1] < other[0] or other[1] < box[0] or box[3] < other[2] or other[3] < box[2]


def is_end_of_both(point, s, t):
    return point in s and point in t


def meets_wrongly(s, t):
    """The segments, whose boxes meet, have a point in common that isn't an end of both, or more than one."""
    along_s, along_t, between = way(*s), way(*t), way(s[0], t[0])
    turned = cross(along_s, along_t)
    if turned == 0:
        if cross(along_s, between) != 0:
            return False
        # On one line and with boxes that meet: along the axis that they go along they have a point or more in common.
        axis = 0 if along_s[0] else 1
        low = max(min(end[axis] for end in ends) for ends in (s, t))
        high = min(max(end[axis] for end in ends) for ends in (s, t))
        return low < high
    at_s, at_t = Fraction(cross(between, along_t), turned), Fraction(cross(between, along_s), turned)
    if not (0 <= at_s <= 1 and 0 <= at_t <= 1):
        return False
    return not is_end_of_both((s[0][0] + at_s * along_s[0], s[0][1] + at_s * along_s[1]), s, t)


def first_crossing(edges):
    """The numbers of the first two edges that cross: the first number is the least there is, and then the second."""
    boxes = [box_of(ends) for ends in edges]
    for i, s in enumerate(edges):
        for j in range(i + 1, len(edges)):
            if not are_apart(boxes[i], boxes[j]) and meets_wrongly(s, edges[j]):
                return i, j
    return None
