"""Whether the filling of an SVG file's shapes is that of the even-odd rule over all their loops together.

Beside an edge of each loop two points are asked, as near to it as you like, one on each side: whether some shape is filled there by its own
rule, and whether an odd number of edges pass to the right. Where no edges cross, that tells of the whole drawing, for each part of the plane
is bounded by loops.
"""

from fractions import Fraction
from typing import NamedTuple

# More loops than this would take long, and aren't looked at.
MOST_LOOPS = 2000


class Shape(NamedTuple):
    name: str
    is_nonzero: bool
    loops: list


def edges_of(loop):
    return list(zip(loop, loop[1:] + loop[:1]))


def crossing(edge, level):
    """Where an edge meets the row at level / 2, an odd number, and whether upwards (1) or downwards (-1); None where it doesn't."""
    (x0, y0), (x1, y1) = edge
    if (2 * y0 < level) == (2 * y1 < level):
        return None
    return x0 + Fraction((x1 - x0) * (level - 2 * y0), 2 * (y1 - y0)), 1 if y0 < y1 else -1


def windings(loops, boxes, at, level, skipped):
    """How often the loops go round a point of the row, and how many edges pass to its right, but for the skipped one."""
    round_it, passing = 0, 0
    for loop, (right, low, high) in zip(loops, boxes):
        if right < at or not 2 * low < level < 2 * high:
            continue
        for edge in edges_of(loop):
            met = crossing(edge, level)
            if met and met[0] > at and edge != skipped:
                round_it, passing = round_it + met[1], passing + 1
    return round_it, passing


def is_alike(shapes, boxes, own, edge):
    """Whether both rules say the same on both sides of an edge of the shape with this number."""
    level = 2 * min(edge[0][1], edge[1][1]) + 1
    at, way = crossing(edge, level)
    counts = [windings(shape.loops, box, at, level, edge) for shape, box in zip(shapes, boxes)]
    for more in (0, 1):
        seen = [(turns + more * way * (i == own), passing + more * (i == own)) for i, (turns, passing) in enumerate(counts)]
        is_painted = any(turns != 0 if shape.is_nonzero else passing % 2 for shape, (turns, passing) in zip(shapes, seen))
        if is_painted != (sum(passing for _, passing in seen) % 2 == 1):
            return False
    return True


def unlike(shapes):
    """The names of the shapes with a loop beside which the two rules differ; None where there are too many loops to look."""
    if sum(len(shape.loops) for shape in shapes) > MOST_LOOPS:
        return None
    boxes = [[(max(x for x, _ in loop), min(y for _, y in loop), max(y for _, y in loop)) for loop in shape.loops] for shape in shapes]
    names = []
    for own, shape in enumerate(shapes):
        slanting = [next((edge for edge in edges_of(loop) if edge[0][1] != edge[1][1]), None) for loop in shape.loops]
        if not all(edge is None or is_alike(shapes, boxes, own, edge) for edge in slanting):
            names.append(shape.name)
    return names
