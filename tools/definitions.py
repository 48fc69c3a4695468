"""The definitions of docs/definitions/ as plain programs: exact, without haste, and as near to their words as can be.

A point is a pair of whole or rational numbers, an edge a pair of points. Nothing here is taken from the tool's code:
what a definition says of all points of an edge, or of all moments of a move, is decided by the least value there is.
"""

from fractions import Fraction
from itertools import count
from math import floor
from typing import NamedTuple

MOST_DEPTH = 32767
MOST_PIECES = 8192
MOST_HALVED = 8

MOST_CHAINS = 131_072
MOST_NODES = 4_194_304

# along which axes the lines of a pocket go, for each --pocket: 0 for rows, 1 for columns
WAYS = {"none": [], "x": [0], "y": [1], "both": [0, 1]}

# how many zeros a length's unit has, and the word of that unit, for each --units
ZEROS = {"mm10": 1, "mm100": 2, "mm1000": 3, "in100": 2, "in1000": 3}
UNIT_WORDS = {units: "G20" if units.startswith("in") else "G21" for units in ZEROS}


class Bit(NamedTuple):
    """Its radius at depth z is sn z / sd; rmax is the greatest one it may cut with."""

    sn: int
    sd: int
    rmax: int


class Spot(NamedTuple):
    """Where the tip is: two coordinates and the height above the surface, in tenths of a grid unit."""

    x: int
    y: int
    h: int

    @property
    def at(self):
        """The place in grid units."""
        return (Fraction(self.x, 10), Fraction(self.y, 10))

    @property
    def height(self):
        """The height in grid units."""
        return Fraction(self.h, 10)


class Contact(NamedTuple):
    """The point at k / n of the way along the edge of this number."""

    edge: int
    k: int
    n: int


class Disc(NamedTuple):
    """The side of the edge on which a tangent disc lies, its number, and the grid point nearest to its centre."""

    side: str
    j: int
    centre: tuple


class Move(NamedTuple):
    """A straight move, with the number of its line."""

    line: int
    start: Spot
    end: Spot


class Node(NamedTuple):
    """A grid point, and how deep the tip goes there, in grid units."""

    at: tuple
    depth: int


class Step(NamedTuple):
    """The node that a step of a link leads to, by a lift or straight."""

    node: Node
    is_lift: bool


class Job(NamedTuple):
    """What a program is written for."""

    units: str
    bit: Bit
    limit: int
    step: int
    safe: int
    feed: int
    pocket: str = "none"
    over: int = 50


class Uncut(NamedTuple):
    """What a report says: the points that are left, in runs of (y, first x, last x), and how many points the drawing holds."""

    runs: list
    drawing: int
    left: int


def edges_of(loops):
    return [(loop[i], loop[(i + 1) % len(loop)]) for loop in loops for i in range(len(loop))]


def on_the_way(first, last, s):
    return first + s * (last - first)


def is_on_edge(w, edge):
    """For some s from 0 to 1, w is a + s (b - a): s is what the axis says along which the ends differ."""
    a, b = edge
    axis = 0 if a[0] != b[0] else 1
    s = Fraction(w[axis] - a[axis]) / (b[axis] - a[axis])
    return 0 <= s <= 1 and all(on_the_way(a[i], b[i], s) == w[i] for i in (0, 1))


def passes_row(edge, w):
    a, b = edge
    return (a[1] <= w[1]) != (b[1] <= w[1])


def crosses_right_of(edge, w):
    (ax, ay), (bx, by) = edge
    return ax + Fraction(w[1] - ay) * (bx - ax) / (by - ay) > w[0]


def is_odd(count):
    return count % 2 == 1


def is_inside(edges, w):
    """w is on no edge, and an odd number of edges pass its row to its right."""
    if any(is_on_edge(w, edge) for edge in edges):
        return False
    return is_odd(sum(1 for edge in edges if passes_row(edge, w) and crosses_right_of(edge, w)))


def squared_distance(v, w):
    return (w[0] - v[0]) ** 2 + (w[1] - v[1]) ** 2


def nearest_point(p, edge):
    """The point of the edge that is nearest to p: the foot of the perpendicular, or else an end."""
    (ax, ay), (bx, by) = edge
    s = ((p[0] - ax) * (bx - ax) + (p[1] - ay) * (by - ay)) / Fraction((bx - ax) ** 2 + (by - ay) ** 2)
    s = min(max(s, 0), 1)
    return (on_the_way(ax, bx, s), on_the_way(ay, by, s))


def is_closer(squared, bit, depth):
    """The distance of this square is below sn depth / sd, the bit's radius."""
    return squared * bit.sd**2 < (bit.sn * depth) ** 2


def is_in_disc(bit, p, depth, w):
    return depth > 0 and is_closer(squared_distance(p, w), bit, depth)


def is_edge_clear(bit, p, depth, edge):
    """No point of the edge is in the disc: the nearest one isn't."""
    return not is_in_disc(bit, p, depth, nearest_point(p, edge))


def is_too_wide(bit, depth):
    return bit.sn * depth > bit.sd * bit.rmax


def is_within(depth, limit):
    return depth <= limit


def greatest_depth(edges, bit, limit, p):
    """The greatest depth that fits, of all. What is the same at every depth is computed before the walk."""
    inside = is_inside(edges, p)
    squared = min((squared_distance(p, nearest_point(p, edge)) for edge in edges), default=None)

    def fits(z):
        return z == 0 or (
            inside and is_within(z, limit) and not is_too_wide(bit, z) and not is_closer(squared, bit, z)
        )

    return max(z for z in range(limit + 1) if fits(z))


def depth_of(height):
    return max(0, -height)


def is_deep(mv):
    return depth_of(mv.start.height) > 0 or depth_of(mv.end.height) > 0


def is_too_deep(bit, mv):
    return is_too_wide(bit, depth_of(mv.start.height)) or is_too_wide(bit, depth_of(mv.end.height))


def deep_part(mv):
    """The first and the last moment of the part of a deep move at which it isn't above the surface."""
    first, last = mv.start.height, mv.end.height
    return (
        first / (first - last) if first > 0 else Fraction(0),
        first / (first - last) if last > 0 else Fraction(1),
    )


def corner_margin(bit, mv, u):
    """A, B and C of |p0 + s (p1 - p0) - u|^2 sd^2 - sn^2 (h0 + s (h1 - h0))^2."""
    (x0, y0), (x1, y1) = mv.start.at, mv.end.at
    h0, h1 = mv.start.height, mv.end.height
    # each of the squared terms is (first + s by)^2, with its factor
    terms = [(x0 - u[0], x1 - x0, bit.sd**2), (y0 - u[1], y1 - y0, bit.sd**2), (h0, h1 - h0, -(bit.sn**2))]
    return (
        sum(k * by * by for first, by, k in terms),
        sum(k * 2 * first * by for first, by, k in terms),
        sum(k * first * first for first, by, k in terms),
    )


def value_at(quadratic, s):
    a, b, c = quadratic
    return a * s * s + b * s + c


def lowest_moment(quadratic, part):
    """The moment of the part at which A s^2 + B s + C is least: an end, or where the parabola turns."""
    a, b, _ = quadratic
    moments = list(part)
    if a != 0 and part[0] < Fraction(-b) / (2 * a) < part[1]:
        moments.append(Fraction(-b) / (2 * a))
    return min(moments, key=lambda s: value_at(quadratic, s))


def is_nowhere_negative(quadratic, part):
    return value_at(quadratic, lowest_moment(quadratic, part)) >= 0


def side(a, b, w):
    """Above 0 where w is left of the line from a through b, 0 on it, and below 0 right of it."""
    return (b[0] - a[0]) * (w[1] - a[1]) - (b[1] - a[1]) * (w[0] - a[0])


def are_parted(a, b, v, w):
    """v and w lie strictly on opposite sides of the line through a and b."""
    return side(a, b, v) * side(a, b, w) < 0


def is_crossing(mv, edge):
    """The places at the ends of the deep part are parted by the edge's line, and the edge's ends by the path's."""
    first, last = (place_at(mv, s) for s in deep_part(mv))
    return are_parted(*edge, first, last) and are_parted(mv.start.at, mv.end.at, *edge)


def passes_edge(bit, mv, edge):
    """The three tests: the discs at the ends, the two corners, no crossing."""
    return (
        is_edge_clear(bit, mv.start.at, depth_of(mv.start.height), edge)
        and is_edge_clear(bit, mv.end.at, depth_of(mv.end.height), edge)
        and all(is_nowhere_negative(corner_margin(bit, mv, u), deep_part(mv)) for u in edge)
        and not is_crossing(mv, edge)
    )


def first_deep(mv):
    return mv.start.at if depth_of(mv.start.height) > 0 else mv.end.at


def named_edge(failing):
    return min(failing)


def fault_of(edges, bit, mv):
    """What is wrong with the move, and the edge that it gouges; None where it is clear."""
    if not is_deep(mv):
        return None
    if is_too_deep(bit, mv):
        return ("too deep", None)
    failing = [number for number, edge in enumerate(edges) if not passes_edge(bit, mv, edge)]
    if failing:
        return ("gouge", named_edge(failing))
    return None if is_inside(edges, first_deep(mv)) else ("outside", None)


def verdict(edges, bit, moves):
    """The first move that isn't clear, with its fault and edge; None where every move is clear."""
    for mv in moves:
        fault = fault_of(edges, bit, mv)
        if fault:
            return (mv, *fault)
    return None


def place_at(mv, s):
    (x0, y0), (x1, y1) = mv.start.at, mv.end.at
    return (on_the_way(x0, x1, s), on_the_way(y0, y1, s))


def depth_at(mv, s):
    return -on_the_way(mv.start.height, mv.end.height, s)


def is_removed(bit, mv, s, w):
    return is_in_disc(bit, place_at(mv, s), depth_at(mv, s), w)


def removes(bit, mv, w):
    """Some moment removes the point: on the part that isn't above the surface the margin to the disc is negative somewhere."""
    return is_deep(mv) and not is_nowhere_negative(corner_margin(bit, mv, w), deep_part(mv))


def multiples(pitch, low, high):
    """The multiples of the pitch from low to high, both among them."""
    return range(-(-low // pitch) * pitch, high + 1, pitch)


def report_rows(loops, pitch):
    """The points of a report, row by row upwards, each row to the right."""
    points = [point for loop in loops for point in loop]
    if not points:
        return []
    xs, ys = zip(*points)
    return [[(x, y) for x in multiples(pitch, min(xs), max(xs))] for y in multiples(pitch, min(ys), max(ys))]


def is_left(bit, moves, w):
    return not any(removes(bit, mv, w) for mv in moves)


def runs_of_row(points, left):
    """The runs of neighbours in a row that are left."""
    runs, before = [], None
    for x, y in points:
        if (x, y) in left:
            if before in left:
                runs[-1] = (*runs[-1][:2], x)
            else:
                runs.append((y, x, x))
        before = (x, y)
    return runs


def uncut(loops, bit, moves, pitch):
    """Which points of the report are inside the drawing and removed at no moment of any move."""
    edges, rows = edges_of(loops), report_rows(loops, pitch)
    inside = [w for row in rows for w in row if is_inside(edges, w)]
    left = {w for w in inside if is_left(bit, moves, w)}
    return Uncut([run for row in rows for run in runs_of_row(row, left)], len(inside), len(left))


def report_lines(report):
    return [f"uncut y {y} x {first} to {last}" for y, first, last in report.runs] + [f"uncut {report.left} of {report.drawing}"]


def length_up(edge):
    """The least whole number that the edge is no longer than."""
    squared = squared_distance(*edge)
    return next(length for length in count(1) if squared <= length**2)


def pieces(edge, step):
    """The least number of even pieces, at least one, that are no longer than the step."""
    squared = squared_distance(*edge)
    return next(n for n in count(1) if squared <= (n * step) ** 2)


def first_too_fine(edges, step):
    return next((number for number, edge in enumerate(edges) if pieces(edge, step) > MOST_PIECES), None)


def contacts(edges, step):
    divided = enumerate(pieces(edge, step) for edge in edges)
    return [Contact(number, k, n) for number, n in divided for k in range(n + 1)]


def contact_point(edge, contact):
    return tuple(on_the_way(edge[0][i], edge[1][i], Fraction(contact.k, contact.n)) for i in (0, 1))


def way_to_side(edge, side):
    """The edge turned by a quarter to that side."""
    (ax, ay), (bx, by) = edge
    return (ay - by, bx - ax) if side == "left" else (by - ay, ax - bx)


def disc_centre(edge, contact, side, j):
    """The centre of the disc that touches the edge at the contact, of the radius j where the length is a whole number."""
    c, way = contact_point(edge, contact), way_to_side(edge, side)
    return tuple(c[i] + Fraction(j * way[i], length_up(edge)) for i in (0, 1))


def is_off_disc(squared, squared_radius):
    """A point at this squared distance from the centre isn't in the open disc."""
    return squared >= squared_radius


def is_free(edges, contact, side, j):
    """No point of an edge is in the open disc: of no edge the one that is nearest to the centre."""
    edge = edges[contact.edge]
    centre = disc_centre(edge, contact, side, j)
    squared_radius = Fraction(j**2 * squared_distance(*edge), length_up(edge) ** 2)
    return all(is_off_disc(squared_distance(centre, nearest_point(centre, other)), squared_radius) for other in edges)


def greatest_free(edges, contact, side, rmax):
    return max(j for j in range(rmax + 1) if is_free(edges, contact, side, j))


def is_side_taken(edges, centre):
    return is_inside(edges, centre)


def rounded(point):
    """The nearest grid point; of two the right one, and the upper one."""
    return tuple(floor(z + Fraction(1, 2)) for z in point)


def tangent(edges, contact, rmax):
    """The greatest tangent disc on the left where that is inside, else that on the right, else none."""
    edge = edges[contact.edge]
    for side in ("left", "right"):
        j = greatest_free(edges, contact, side, rmax)
        centre = disc_centre(edge, contact, side, j)
        if j >= 1 and is_side_taken(edges, centre):
            return Disc(side, j, rounded(centre))
    return Disc("none", 0, rounded(contact_point(edge, contact)))


def deepest(edges, bit, limit, p):
    return Node(p, greatest_depth(edges, bit, limit, p))


def spot_over(p, height):
    return Spot(10 * p[0], 10 * p[1], 10 * height)


def is_straight(edges, bit, p, q):
    """The move between the nodes is clear."""
    return fault_of(edges, bit, Move(0, spot_over(p.at, -p.depth), spot_over(q.at, -q.depth))) is None


def are_at_surface(p, q):
    return p.depth == 0 and q.depth == 0


def are_neighbours(p, q):
    return all(abs(q[i] - p[i]) <= 1 for i in (0, 1))


def halfway(p, q):
    return tuple((p[i] + q[i]) // 2 for i in (0, 1))


def link(edges, bit, limit, p, q, halvings):
    """The steps from one node to the next, whose way may be halved so many times."""
    if p == q:
        return []
    if are_at_surface(p, q):
        return [Step(q, True)]
    if is_straight(edges, bit, p, q):
        return [Step(q, False)]
    if halvings == 0 or are_neighbours(p.at, q.at):
        return [Step(q, True)]
    mid = deepest(edges, bit, limit, halfway(p.at, q.at))
    if mid.depth == 0:
        return [Step(q, True)]
    return link(edges, bit, limit, p, mid, halvings - 1) + link(edges, bit, limit, mid, q, halvings - 1)


def nodes_round(loops, bit, limit, step):
    """For each loop the nodes of its contacts: at the centre of each one's disc, as deep as fits there."""
    edges = edges_of(loops)
    nodes = {}
    for contact in contacts(edges, step):
        node = deepest(edges, bit, limit, tangent(edges, contact, bit.rmax).centre)
        nodes.setdefault(loop_number(loops, contact.edge), []).append(node)
    return list(nodes.values())


def loop_number(loops, edge):
    """The number of the loop that the edge of this number belongs to."""
    return [number for number, loop in enumerate(loops) for _ in loop][edge]


def closed(nodes):
    """The nodes, and the first one once more."""
    return nodes + nodes[:1]


def chains_along(first, steps):
    """From the first node on a straight step adds its node, and a lift ends the chain and begins the next."""
    chains = [[first]]
    for node, is_lift in steps:
        if is_lift:
            chains.append([node])
        else:
            chains[-1].append(node)
    return chains


def chains_round(edges, bit, limit, nodes):
    stops = closed(nodes)
    steps = [step for p, q in zip(stops, stops[1:]) for step in link(edges, bit, limit, p, q, MOST_HALVED)]
    return chains_along(stops[0], steps)


def nearest_chain(chains, place, left):
    """Of the chains that are left the one whose first node is nearest to the place, the least number on ties."""
    return min(left, key=lambda number: (squared_distance(place, chains[number][0].at), number))


def place_behind(chain):
    return chain[-1].at


def ordered(chains):
    """The chains as they are cut: always the nearest next."""
    place, left, order = (0, 0), list(range(len(chains))), []
    while left:
        order.append(nearest_chain(chains, place, left))
        left.remove(order[-1])
        place = place_behind(chains[order[-1]])
    return [chains[number] for number in order]


def loop_chains(loops, bit, limit, step):
    """The chains of all loops, in their order."""
    edges = edges_of(loops)
    rounds = nodes_round(loops, bit, limit, step)
    return [chain for nodes in rounds for chain in chains_round(edges, bit, limit, nodes)]


def deepest_allowed(bit, limit):
    """The greatest depth up to the limit at which the bit isn't wider than its greatest radius."""
    return min(limit, bit.sd * bit.rmax // bit.sn)


def point_on(axis, line, place):
    """The point of a row at this x, or of a column at this y."""
    return (place, line) if axis == 0 else (line, place)


def is_joined(edges, bit, p, q):
    """The nodes are neighbours on a line, and the move between them is clear."""
    return squared_distance(p.at, q.at) == 1 and is_straight(edges, bit, p, q)


def runs_along(edges, bit, nodes):
    """The nodes of a line in runs, as long as can be, in each of which every node is joined to the next."""
    runs = []
    for node in nodes:
        if runs and is_joined(edges, bit, runs[-1][-1], node):
            runs[-1].append(node)
        else:
            runs.append([node])
    return runs


def ends_of_run(run):
    """The chain along a run: its two ends, or its one node."""
    return [run[0]] if len(run) == 1 else [run[0], run[-1]]


def line_chains(edges, bit, limit, axis, line, places):
    """The chains of one line: along the runs of the points whose greatest depth is the greatest that is allowed."""
    nodes = [deepest(edges, bit, limit, point_on(axis, line, place)) for place in places]
    good = [node for node in nodes if node.depth == deepest_allowed(bit, limit)]
    return [ends_of_run(run) for run in runs_along(edges, bit, good)]


def axis_chains(loops, bit, limit, over, axis):
    """Those of all rows, or of all columns, whose coordinate is a multiple of `over`; none where nothing is drawn."""
    along, across = ([point[i] for loop in loops for point in loop] for i in (axis, 1 - axis))
    lines = multiples(over, min(across), max(across)) if across else []
    places = range(min(along), max(along) + 1) if along else []
    return [chain for line in lines for chain in line_chains(edges_of(loops), bit, limit, axis, line, places)]


def pocket(loops, bit, limit, over, way):
    """The chains that mill the flat floors that the greatest allowed depth leaves."""
    if deepest_allowed(bit, limit) == 0:
        return []
    return [chain for axis in WAYS[way] for chain in axis_chains(loops, bit, limit, over, axis)]


def plan_fault(round_loops, floors):
    """Of what there is too much, in the chains of loops and those of pockets; None where there isn't."""
    counted = round_loops + (floors if len(floors) <= MOST_CHAINS else [])
    if sum(map(len, counted)) > MOST_NODES:
        return "too many nodes"
    return "too many chains" if len(round_loops + floors) > MOST_CHAINS else None


def plan(loops, job):
    """The chains of all loops and then of the pocket, in the order in which they are cut."""
    round_loops = loop_chains(loops, job.bit, job.limit, job.step)
    return ordered(round_loops + pocket(loops, job.bit, job.limit, job.over, job.pocket))


def length_text(units, length):
    """A length in grid units, with as many decimals as its unit has zeros."""
    whole, part = divmod(abs(length), 10 ** ZEROS[units])
    return f"{'-' if length < 0 else ''}{whole}.{part:0{ZEROS[units]}}"


def chain_lines(job, chain):
    """Over the first node and down to it, straight to each other one, and up."""

    def words(**axes):
        return " ".join(letter + length_text(job.units, length) for letter, length in axes.items())

    (x, y), depth = chain[0]
    down = [f"G0 {words(X=x, Y=y)}", f"G1 {words(Z=-depth)}"]
    return down + [f"G1 {words(X=x, Y=y, Z=-z)}" for (x, y), z in chain[1:]] + [f"G0 {words(Z=job.safe)}"]


def code_lines(job, chains, report):
    """The lines of the program that cuts the chains, with the report on what it leaves."""
    bit = job.bit
    lines = [f"(bit {bit.sn}/{bit.sd} rmax {bit.rmax} limit {job.limit} step {job.step})"]
    lines += [UNIT_WORDS[job.units], "G90", f"F{job.feed}", f"G0 Z{length_text(job.units, job.safe)}"]
    lines += [line for chain in chains for line in chain_lines(job, chain)]
    return lines + [f"({line})" for line in report_lines(report)] + ["M2"]


def code_moves(job, chains):
    """The moves of that program; the first is the one that its line 7 makes."""
    spots = []
    for chain in chains:
        nodes = [spot_over(node.at, -node.depth) for node in chain]
        spots += [spot_over(chain[0].at, job.safe), *nodes, spot_over(chain[-1].at, job.safe)]
    return [Move(line, *ends) for line, ends in enumerate(zip(spots, spots[1:]), 7)]


def code_text(job, chains, report):
    return "".join(line + "\n" for line in code_lines(job, chains, report))


def over(place, safe):
    """The safe height, which is given in grid units, over the place."""
    return Spot(place.x, place.y, 10 * safe)


def can_land(edges, bit, safe, place):
    return place.h >= 0 or fault_of(edges, bit, Move(0, over(place, safe), place)) is None


def repaired(edges, bit, safe, moves):
    """The places that the bit visits when moves that aren't clear become lifts, and how many of them are changed."""
    if not moves:
        return [], 0
    visits, changed, is_up = [moves[0].start], 0, False
    for mv in moves:
        if fault_of(edges, bit, mv) is None:
            visits.append(mv.end)
            is_up = False
            continue
        changed += 1
        if not is_up:
            visits.append(over(mv.start, safe))
        visits.append(over(mv.end, safe))
        is_up = not can_land(edges, bit, safe, mv.end)
        if not is_up:
            visits.append(mv.end)
    return [*visits, over(moves[-1].end, safe)], changed


def tenths_text(units, length):
    """A length in tenths of a grid unit, with a decimal more than its unit has zeros."""
    whole, part = divmod(abs(length), 10 ** (ZEROS[units] + 1))
    return f"{'-' if length < 0 else ''}{whole}.{part:0{ZEROS[units] + 1}}"


def visit_line(units, before, visit):
    """To the visit: at the feed where that is below the surface, or the bit leaves a place below it sideways."""
    is_cut = visit.h < 0 or (before.h < 0 and (before.x, before.y) != (visit.x, visit.y))
    return f"G{int(is_cut)} X{tenths_text(units, visit.x)} Y{tenths_text(units, visit.y)} Z{tenths_text(units, visit.h)}"


def repair_lines(units, safe, feed, visits, changed, moves):
    """The lines of the repaired program."""
    lines = [f"(repaired {changed} of {moves})", UNIT_WORDS[units], "G90", f"F{feed}", f"G0 Z{tenths_text(units, 10 * safe)}"]
    if visits:
        first = over(visits[0], safe)
        lines.append(f"G0 X{tenths_text(units, first.x)} Y{tenths_text(units, first.y)}")
        lines += [visit_line(units, *pair) for pair in zip([first, *visits], visits)]
    return [*lines, "M2"]
