"""Wrong definitions, which the comparison has to find out; of each the function that it replaces, and the wrong one.

To count a row's edges by `<` in place of `<=`, or a crossing at the point itself, isn't wrong: off the outline it
changes nothing. Nor is it to leave out a side of a report's box, or the last row of a floor: no point on it is inside. And that the way
between two good neighbours is free needn't be asked for a flat bit: it always is.
"""

import math
from collections import Counter

import definitions as d
import flats


def nearer_end(p, edge):
    return min(edge, key=lambda u: d.squared_distance(p, u))


def lowest_of_all(quadratic, part):
    """The moment of the lowest point wherever it is, also before the part and after it."""
    a, b, _ = quadratic
    return d.Fraction(-b) / (2 * a) if a > 0 else part[0]


def turned_part(mv):
    """The deep part of the move in the other direction."""
    first, last = mv.start.height, mv.end.height
    return (
        d.Fraction(-last) / (first - last) if first > 0 else d.Fraction(0),
        d.Fraction(-last) / (first - last) if last > 0 else d.Fraction(1),
    )


def clamped_margin(bit, mv, u):
    """The margin of a depth that goes evenly from that of the start to that of the end, 0 from the surface up."""
    ends = (mv.start, mv.end)
    below = [d.Spot(end.x, end.y, min(end.h, 0)) for end in ends]
    return MARGIN(bit, d.Move(mv.line, *below), u)


MARGIN, GREATEST_FREE = d.corner_margin, d.greatest_free


def meets_line(mv, edge):
    return d.are_parted(*edge, mv.start.at, mv.end.at)


def closed_row(edge, w):
    low, high = sorted((edge[0][1], edge[1][1]))
    return low < high and low <= w[1] <= high


def length_down(edge):
    return math.isqrt(d.squared_distance(*edge))


def one_less(edges, contact, side, rmax):
    return max(GREATEST_FREE(edges, contact, side, rmax) - 1, 0)


def rounded_down(point):
    return tuple(math.floor(z) for z in point)


def half_down(point):
    return tuple(math.ceil(z - d.Fraction(1, 2)) for z in point)


def pieces_of_rounded_length(edge, step):
    return max(1, length_down(edge) // step)


CHAINS, CHAIN_LINES = d.chains_along, d.chain_lines


def always_lifted(edges, bit, limit, p, q, halvings):
    return [] if p == q else [d.Step(q, True)]


def greatest_on_ties(chains, place, left):
    return min(left, key=lambda number: (d.squared_distance(place, chains[number][0].at), -number))


def deep_chains(first, steps):
    return [chain for chain in CHAINS(first, steps) if any(node.depth for node in chain)]


def halfway_up(p, q):
    return tuple(-((p[i] + q[i]) // -2) for i in (0, 1))


def never_up_again(job, chain):
    return CHAIN_LINES(job, chain)[:-1]


def at_the_ends_alone(bit, mv, w):
    return any(d.is_removed(bit, mv, s, w) for s in (0, 1))


def on_the_rim_too(bit, mv, w):
    margin, part = d.corner_margin(bit, mv, w), d.deep_part(mv) if d.is_deep(mv) else None
    return part is not None and d.value_at(margin, d.lowest_moment(margin, part)) <= 0


def above_the_surface_too(bit, mv, w):
    return d.is_deep(mv) and not d.is_nowhere_negative(d.corner_margin(bit, mv, w), (d.Fraction(0), d.Fraction(1)))


def from_the_corner(pitch, low, high):
    return range(low, high + 1, pitch)


def run_by_point(points, left):
    return [(y, x, x) for x, y in points if (x, y) in left]


JOINED, RUNS, AXIS_CHAINS, GREATEST_DEPTH = d.is_joined, d.runs_along, d.axis_chains, d.greatest_depth


def joined_across_a_gap(edges, bit, p, q):
    return JOINED(edges, bit, p, q) or d.squared_distance(p.at, q.at) == 4


def without_single_points(edges, bit, nodes):
    return [run for run in RUNS(edges, bit, nodes) if len(run) > 1]


def columns_by_rows(loops, bit, limit, over, axis):
    chains = AXIS_CHAINS(loops, bit, limit, over, axis)
    return sorted(chains, key=lambda chain: chain[0].at[::-1]) if axis == 1 else chains


def pocket_first(loops, job):
    floors = d.pocket(loops, job.bit, job.limit, job.over, job.pocket)
    return d.ordered(floors + d.loop_chains(loops, job.bit, job.limit, job.step))


def overlapped_left_out(edges, bit, limit, p):
    """Without the edges that are there an even number of times."""
    counts = Counter(frozenset(edge) for edge in edges)
    return GREATEST_DEPTH([edge for edge in edges if d.is_odd(counts[frozenset(edge)])], bit, limit, p)


def touches(a, b, v, w):
    return d.side(a, b, v) * d.side(a, b, w) <= 0


WRONG = {
    "even": ("is_odd", lambda count: count % 2 == 0),
    "rows-closed": ("passes_row", closed_row),
    "both-sides": ("crosses_right_of", lambda edge, w: True),
    "outline-inside": ("is_on_edge", lambda w, edge: False),
    "disc-closed": ("is_closer", lambda squared, bit, z: squared * bit.sd**2 <= (bit.sn * z) ** 2),
    "ends-of-edges-alone": ("nearest_point", nearer_end),
    "rmax-excluded": ("is_too_wide", lambda bit, z: bit.sn * z >= bit.sd * bit.rmax),
    "limit-excluded": ("is_within", lambda z, limit: z < limit),
    "whole-move-as-part": ("deep_part", lambda mv: (d.Fraction(0), d.Fraction(1))),
    "part-from-the-wrong-end": ("deep_part", turned_part),
    "clamped-depth": ("corner_margin", clamped_margin),
    "end-discs-alone": ("is_nowhere_negative", lambda q, part: all(d.value_at(q, s) >= 0 for s in part)),
    "lowest-of-all": ("lowest_moment", lowest_of_all),
    "touched-corner": ("is_nowhere_negative", lambda q, part: d.value_at(q, d.lowest_moment(q, part)) > 0),
    "no-crossing": ("is_crossing", lambda mv, edge: False),
    "line-of-edge": ("is_crossing", meets_line),
    "touching-crosses": ("are_parted", touches),
    "last-end-inside": ("first_deep", lambda mv: mv.end.at),
    "last-edge": ("named_edge", max),
    "length-down": ("length_up", length_down),
    "pieces-down": ("pieces", pieces_of_rounded_length),
    "number-one-less": ("greatest_free", one_less),
    "disc-closed-at-edges": ("is_off_disc", lambda squared, squared_radius: squared_radius == 0 or squared > squared_radius),
    "left-whatever-is-inside": ("is_side_taken", lambda edges, centre: True),
    "centre-down": ("rounded", rounded_down),
    "halves-down": ("rounded", half_down),
    "always-lifted": ("link", always_lifted),
    "straight-at-the-surface": ("are_at_surface", lambda p, q: False),
    "halved-once-less": ("MOST_HALVED", d.MOST_HALVED - 1),
    "halved-up": ("halfway", halfway_up),
    "neighbours-halved": ("are_neighbours", lambda p, q: False),
    "never-closed": ("closed", lambda nodes: nodes),
    "surface-left-out": ("chains_along", deep_chains),
    "last-on-ties": ("nearest_chain", greatest_on_ties),
    "from-where-it-began": ("place_behind", lambda chain: chain[0].at),
    "never-up-again": ("chain_lines", never_up_again),
    "removed-at-ends-alone": ("removes", at_the_ends_alone),
    "rim-removed": ("removes", on_the_rim_too),
    "removed-above-the-surface": ("removes", above_the_surface_too),
    "points-from-the-corner": ("multiples", from_the_corner),
    "a-run-a-point": ("runs_of_row", run_by_point),
    "run-across-a-gap": ("is_joined", joined_across_a_gap),
    "neighbours-always-joined": ("is_joined", lambda edges, bit, p, q: d.squared_distance(p.at, q.at) == 1),
    "run-of-one-left-out": ("runs_along", without_single_points),
    "columns-by-rows": ("axis_chains", columns_by_rows),
    "columns-before-rows": ("WAYS", {**d.WAYS, "both": [1, 0]}),
    "limit-alone": ("deepest_allowed", lambda bit, limit: limit),
    "pocket-first": ("plan", pocket_first),
    "overlapped-left-out": ("greatest_depth", overlapped_left_out),
    "first-move-alone": ("is_left", lambda bit, moves, w: not moves or not d.removes(bit, moves[0], w)),
}


FLAT_RUNS, ENDS_OF_RUN = flats.runs_along, d.ends_of_run


def one_short(run):
    return ENDS_OF_RUN(run[:-1] or run)


def whole_line(edges, job, points):
    """From the first good point of a line to the last one."""
    return [[p for run in FLAT_RUNS(edges, job, points) for p in run]] if FLAT_RUNS(edges, job, points) else []


WRONG_FLATS = {
    "flat-edge-at-the-outline": ("reach_of", lambda job: job.radius * job.bit.sd),
    "flat-cone-alone": ("reach_of", lambda job: job.bit.sn * flats.floor_of(job)),
    "flat-never-touching": ("is_far", lambda squared, job: squared * job.bit.sd**2 > flats.reach_of(job) ** 2),
    "flat-run-one-short": ("ends_of_run", one_short),
    "flat-across-gaps": ("runs_along", whole_line),
    "flat-lines-from-the-corner": ("lines_of", from_the_corner),
    "flat-rim-swept": ("is_swept_by", lambda squared, radius: squared <= radius**2),
    "flat-swept-at-any-height": ("places_at_floor", lambda job, mv: (mv.start.at, mv.end.at)),
    "flat-floor-is-inside": ("is_floor", lambda edges, job, w: d.is_inside(edges, w)),
}
