"""Samples rational moments of a move, rational points and depths, to see whether one removes what it shouldn't."""

from fractions import Fraction
from math import isqrt

from definitions import (
    corner_margin,
    deep_part,
    depth_at,
    is_in_disc,
    is_inside,
    is_removed,
    lowest_moment,
    nearest_point,
    on_the_way,
    place_at,
    side,
    squared_distance,
)


def fraction(rng):
    """A rational number from 0 to 1."""
    over = rng.randint(1, 10 ** rng.randint(1, 4))
    return Fraction(rng.randint(0, over), over)


def point_of(edge, s):
    (ax, ay), (bx, by) = edge
    return (on_the_way(ax, bx, s), on_the_way(ay, by, s))


def moments_about(rng, bit, mv, edge):
    """The ends, moments at which the edge is likely to be met, and some at random."""
    part = deep_part(mv)
    moments = [Fraction(0), Fraction(1), *part] + [lowest_moment(corner_margin(bit, mv, u), part) for u in edge]
    start, end = side(*edge, mv.start.at), side(*edge, mv.end.at)
    if start * end < 0:
        moments.append(Fraction(start, start - end))
    return moments + [fraction(rng), fraction(rng)]


def just_touches(rng, bit, mv, edge):
    """At one of the sampled moments the rim of the disc touches the edge."""
    for s in moments_about(rng, bit, mv, edge):
        p, depth = place_at(mv, s), depth_at(mv, s)
        if depth > 0 and squared_distance(p, nearest_point(p, edge)) * bit.sd**2 == (bit.sn * depth) ** 2:
            return True
    return False


def edge_witness(rng, bit, mv, edge):
    """A moment that removes a point of the edge, and that point, if there is one among the samples."""
    for s in moments_about(rng, bit, mv, edge):
        if depth_at(mv, s) > 0:
            for w in (nearest_point(place_at(mv, s), edge), *edge, point_of(edge, fraction(rng))):
                if is_removed(bit, mv, s, w):
                    return s, w
    return None


def removed_points(rng, bit, mv):
    """Moments and points that they remove: near the rim of the disc, at its middle, and anywhere in it."""
    for s in (Fraction(0), Fraction(1), *deep_part(mv), fraction(rng), fraction(rng), fraction(rng)):
        depth, (x, y) = depth_at(mv, s), place_at(mv, s)
        if depth <= 0:
            continue
        radius = Fraction(bit.sn) * depth / bit.sd
        for share in (0, fraction(rng), *[1 - Fraction(1, 10 ** rng.randint(1, 9)) for _ in range(5)]):
            # ((1 - t^2) / (1 + t^2), 2 t / (1 + t^2)) is a rational point of the unit circle
            t = fraction(rng) * rng.choice([-1, 1])
            length = share * radius / (1 + t * t) * rng.choice([-1, 1])
            w = (x + length * (1 - t * t), y + length * 2 * t)
            if is_removed(bit, mv, s, w):
                yield s, w


def outside_witness(rng, edges, bit, mv):
    """A moment that removes a point that isn't inside, and that point, if there is one among the samples."""
    return next(((s, w) for s, w in removed_points(rng, bit, mv) if not is_inside(edges, w)), None)


def towards(place, w, radius):
    """A place in the direction of w, nearer than the radius, but as far as a billionth of the way shows."""
    squared = squared_distance(place, w)
    share = Fraction(max(isqrt(int(radius**2 * 10**18 / squared)) - 1, 0), 10**9) if squared else 0
    return tuple(on_the_way(place[i], w[i], share) for i in (0, 1))


def milled_material(rng, radius, mv, edges):
    """Moments at which a flat bit of this radius removes material, and of that a point and a depth: much of it near the rim and the end."""
    for s in (Fraction(0), Fraction(1), fraction(rng), fraction(rng)):
        depth, place = depth_at(mv, s), place_at(mv, s)
        if depth <= 0:
            continue
        aims = [place, *(nearest_point(place, edge) for edge in rng.sample(edges, min(len(edges), 4)))]
        aims += [tuple(z + rng.randint(-9, 9) for z in place) for _ in range(3)]
        for aim in aims:
            w = towards(place, aim, radius * rng.choice([1, 1, fraction(rng)]))
            t = depth * rng.choice([0, fraction(rng), 1 - Fraction(1, 10**9)])
            if squared_distance(place, w) < radius**2 and t < depth:
                yield s, w, t


def is_in_target(edges, bit, deepest, w, t):
    """The material below w at the depth t might be removed by the conical bit, its tip at the deepest depth: from w itself it might."""
    return is_inside(edges, w) and deepest > t and not any(is_in_disc(bit, w, deepest, nearest_point(w, edge)) for edge in edges)
