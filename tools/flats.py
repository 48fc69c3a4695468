"""The floor milled by a flat bit, by its definitions, as plain programs: the chains, the points that are left, and the text."""

from typing import NamedTuple

import forms
from definitions import (
    MOST_CHAINS,
    UNIT_WORDS,
    WAYS,
    Bit,
    Node,
    are_parted,
    chain_lines,
    code_moves,
    deepest_allowed,
    edges_of,
    ends_of_run,
    greatest_depth,
    is_inside,
    length_text,
    multiples,
    nearest_point,
    ordered,
    place_at,
    point_on,
    report_rows,
    runs_of_row,
    squared_distance,
)
from joining import Refused

# how many points a report may have
MOST_POINTS = 16_777_216


class FlatJob(NamedTuple):
    """What a program of a flat bit is written for: the conical bit that cut the walls, its limit, and the flat one's radius."""

    units: str
    bit: Bit
    limit: int
    radius: int
    over: int
    safe: int
    feed: int
    pitch: int
    way: str


def floor_of(job):
    """The depth of the floor."""
    return deepest_allowed(job.bit, job.limit)


def reach_of(job):
    """How far the axis keeps from the edges, times sd: the flat bit's radius and the conical bit's width at the floor."""
    return job.radius * job.bit.sd + job.bit.sn * floor_of(job)


def is_far(squared, job):
    """A distance of this square isn't below the reach."""
    return squared * job.bit.sd**2 >= reach_of(job) ** 2


def is_good(edges, job, p):
    """p is inside, and no point of an edge is nearer than the reach."""
    return all(is_far(squared_distance(p, nearest_point(p, edge)), job) for edge in edges) and is_inside(edges, p)


def squared_between(way, edge):
    """The square of the least distance between points of the way and of the edge: 0 where they cross, else at an end of one."""
    if are_parted(*edge, *way) and are_parted(*way, *edge):
        return 0
    pairs = [(u, edge) for u in way] + [(u, way) for u in edge]
    return min(squared_distance(u, nearest_point(u, other)) for u, other in pairs)


def is_way_good(edges, job, p, q):
    """No point of an edge is nearer than the reach to a point of the way."""
    return all(is_far(squared_between((p, q), edge), job) for edge in edges)


def runs_along(edges, job, points):
    """The good points of a line in runs, as long as can be, in each of which the way from every point to the next is good."""
    runs, before = [], None
    for p in points:
        good = is_good(edges, job, p)
        if good and before and is_way_good(edges, job, before, p):
            runs[-1].append(p)
        elif good:
            runs.append([p])
        before = p if good else None
    return runs


def lines_of(over, low, high):
    """The coordinates of the rows, or of the columns."""
    return multiples(over, low, high)


def axis_chains(loops, job, axis):
    """The chains of all rows, or of all columns: along each run, at the depth of the floor."""
    along, across = ([point[i] for loop in loops for point in loop] for i in (axis, 1 - axis))
    chains = []
    for line in lines_of(job.over, min(across), max(across)):
        points = [point_on(axis, line, place) for place in range(min(along), max(along) + 1)]
        chains += [[Node(p, floor_of(job)) for p in ends_of_run(run)] for run in runs_along(edges_of(loops), job, points)]
    return chains


def chains_of(loops, job):
    """All chains; none where no depth is allowed, or nothing is drawn."""
    if floor_of(job) == 0 or not loops:
        return []
    return [chain for axis in WAYS[job.way] for chain in axis_chains(loops, job, axis)]


def is_floor(edges, job, w):
    """The greatest depth that fits over w is that of the floor, which isn't 0."""
    return floor_of(job) > 0 and greatest_depth(edges, job.bit, job.limit, w) == floor_of(job)


def places_at_floor(job, mv):
    """Where the first and where the last of the moments is at which the tip of the move is at the floor's depth; None where there is none."""
    first, last = mv.start.height, mv.end.height
    if first == last:
        return (mv.start.at, mv.end.at) if first == -floor_of(job) else None
    s = (-floor_of(job) - first) / (last - first)
    return (place_at(mv, s),) * 2 if 0 <= s <= 1 else None


def is_swept_by(squared, radius):
    """A point at this squared distance from the axis is under the bit."""
    return squared < radius**2


def sweeps(job, mv, w):
    """At some moment of the move at the floor's depth the axis is nearer to w than the radius."""
    way = places_at_floor(job, mv)
    if way is None:
        return False
    return is_swept_by(squared_distance(w, nearest_point(w, way) if way[0] != way[1] else way[0]), job.radius)


def report_lines(loops, job, moves):
    """The lines of the report on the floor."""
    edges, rows = edges_of(loops), report_rows(loops, job.pitch)
    floor = [w for row in rows for w in row if is_floor(edges, job, w)]
    left = {w for w in floor if not any(sweeps(job, mv, w) for mv in moves)}
    runs = [run for row in rows for run in runs_of_row(row, left)]
    return [f"floor y {y} x {first} to {last}" for y, first, last in runs] + [f"floor {len(left)} of {len(floor)}"]


def count_of_points(loops, pitch):
    """How many points the report has, on the floor or not."""
    sides = [[point[axis] for loop in loops for point in loop] for axis in (0, 1)]
    columns, rows = (len(multiples(pitch, min(side), max(side))) if side else 0 for side in sides)
    return columns * rows


def text_of(loops, job):
    """The whole text that is written."""
    chains = chains_of(loops, job)
    if len(chains) > MOST_CHAINS:
        raise Refused("input too many chains")
    if count_of_points(loops, job.pitch) > MOST_POINTS:
        raise Refused("input too many points")
    chains = ordered(chains)
    lines = [f"(flat {job.radius})", UNIT_WORDS[job.units], "G90", f"F{job.feed}", f"G0 Z{length_text(job.units, job.safe)}"]
    lines += [line for chain in chains for line in chain_lines(job, chain)]
    lines += [f"({line})" for line in report_lines(loops, job, code_moves(job, chains))] + ["M2"]
    return "".join(line + "\n" for line in lines)


def milled(data, words, job):
    """The status and the text of `flat` for a drawing's file; without rows or columns the words aren't taken."""
    if not WAYS[job.way]:
        return 2, "usage\n"
    try:
        loops, _ = forms.drawing_of(data, words)
        return 0, text_of(loops, job)
    except Refused as refused:
        return 3, f"{refused}\n"
