"""Makes the random drawings, bits and codes of tools/compare.py, rich in what touches, overlaps or ends a range."""

import math

from definitions import MOST_DEPTH, WAYS, Bit, Job, Move, Spot, edges_of, nearest_point, passes_edge, pieces, squared_distance
from flats import FlatJob

LEAST, MOST = -32768, 32767

# decimals of a tenth of a grid unit, and the G word, of each --units
UNITS = {"mm10": (2, "G21"), "mm100": (3, "G21"), "mm1000": (4, "G21"), "in100": (3, "G20"), "in1000": (4, "G20")}


def on_grid(x, y):
    return (min(max(x, LEAST), MOST), min(max(y, LEAST), MOST))


def in_tenths(x, y):
    """A place in tenths of a grid unit, brought into the range of G-code."""
    return (min(max(x, 10 * LEAST), 10 * MOST), min(max(y, 10 * LEAST), 10 * MOST))


def anywhere(rng, reach):
    return (rng.randint(-reach, reach), rng.randint(-reach, reach))


# Loops


def scattered(rng, reach):
    return [anywhere(rng, reach) for _ in range(rng.randint(3, 8))]


def star(rng, reach):
    loop = []
    for turn in sorted(rng.random() for _ in range(rng.randint(3, 10))):
        radius = reach * rng.uniform(0.5, 1)
        loop.append((round(radius * math.cos(math.tau * turn)), round(radius * math.sin(math.tau * turn))))
    return loop


def rectangle(rng, reach):
    (x, y), (v, w) = anywhere(rng, reach), anywhere(rng, reach)
    return [(x, y), (v, y), (v, w), (x, w)]


def steps(rng, reach):
    """Horizontal and vertical edges in turn."""
    corners = [anywhere(rng, reach) for _ in range(rng.randint(2, 5))]
    return [point for (x, y), (v, _) in zip(corners, corners[1:] + corners[:1]) for point in ((x, y), (v, y))]


def few_rows(rng, reach):
    """Many vertices on the same rows, and horizontal edges."""
    rows = [rng.randint(-reach, reach) for _ in range(3)]
    return [(rng.randint(-reach, reach), rng.choice(rows)) for _ in range(rng.randint(3, 9))]


def with_midpoints(rng, reach):
    """Collinear points: the middle of each edge is a point too."""
    ends = [(2 * x, 2 * y) for x, y in star(rng, reach // 2)]
    return [p for a, b in zip(ends, ends[1:] + ends[:1]) for p in (a, ((a[0] + b[0]) // 2, (a[1] + b[1]) // 2))]


def spiked(rng, reach):
    """A way out and back on the same edge."""
    loop = star(rng, reach)
    at = rng.randrange(len(loop))
    return loop[: at + 1] + [anywhere(rng, reach), loop[at]] + loop[at + 1 :]


def walked_twice(rng, reach):
    return 2 * rng.choice([star, rectangle])(rng, reach)


def pair(rng, reach):
    return [anywhere(rng, reach), anywhere(rng, reach)]


def wide(rng, _):
    """Points at the ends of the range, or near."""
    values = [LEAST, LEAST + 1, MOST, MOST - 1, 0, rng.randint(LEAST, MOST)]
    return [(rng.choice(values), rng.choice(values)) for _ in range(rng.randint(3, 6))]


LOOPS = [scattered, star, rectangle, steps, few_rows, with_midpoints, spiked, walked_twice, pair]


def any_loop(rng, reach):
    return rng.choice(LOOPS)(rng, reach)


# Drawings


def alone(rng, reach):
    return [any_loop(rng, reach)]


def several(rng, reach):
    return [any_loop(rng, reach) for _ in range(rng.randint(2, 4))]


def nested(rng, reach):
    """A plate, a hole, and sometimes an island."""
    square = [(-reach, -reach), (reach, -reach), (reach, reach), (-reach, reach)]
    within = [star(rng, max(2, reach // part)) for part in (2, 4)]
    return [rng.choice([star(rng, reach), square]), *within[: rng.randint(1, 2)]]


def touching(rng, reach):
    """Loops from a point, from an edge, or from the middle of an edge of the first one."""
    first = star(rng, reach)
    loops = [first]
    for _ in range(rng.randint(1, 3)):
        a, b = rng.choice(edges_of([first]))
        middle = ((a[0] + b[0]) // 2, (a[1] + b[1]) // 2)
        start = rng.choice([[a], [b], [a, b], [b, a], [middle], [a, middle]])
        loops.append(start + [anywhere(rng, reach) for _ in range(rng.randint(1, 3))])
    return loops


def apart(rng, reach):
    """Loops in quarters of their own, which don't cross."""
    half = max(2, reach // 2)
    quarters = rng.sample([(-1, -1), (1, -1), (1, 1), (-1, 1)], rng.randint(2, 4))
    loops = []
    for v, w in quarters:
        loop = rng.choice([star, with_midpoints, steps, few_rows])(rng, half - 1)
        loops.append([(x + v * half, y + w * half) for x, y in loop])
    return loops


def pinned(rng, reach):
    """A loop, and others outwards from some of its points, which are theirs too."""
    loops = [star(rng, max(2, reach // 2))]
    for x, y in rng.sample(loops[0], min(len(loops[0]), rng.randint(1, 3))):
        v, w = (reach if x > 0 else -reach), (reach if y > 0 else -reach)
        across, up = (x + v // rng.randint(2, 9), y), (x, y + w // rng.randint(2, 9))
        loops.append([(x, y), across, (across[0], up[1]), up] if rng.random() < 0.5 else [(x, y), across, up])
    return loops


def repeated(rng, reach):
    """A loop again, turned, reversed or not."""
    loop = any_loop(rng, reach)
    again = loop[1:] + loop[:1]
    return [loop, rng.choice([again, again[::-1]])] + ([any_loop(rng, reach)] if rng.random() < 0.5 else [])


def neighbours(rng, reach):
    """Two plates that share a side, or a part of an upright one; often a loop over both."""
    (x, y), (v, w) = (-rng.randint(1, reach), -rng.randint(1, reach)), (rng.randint(1, reach), rng.randint(1, reach))
    lean = rng.choice([0, 0, 1, -1, 2])
    low, high = (y, w) if lean else rng.choice([(y, w), (y + 1, w), (y - 1, w), (y, w + 2)])
    loops = [[(x, y), (0, y), (lean, w), (x, w)], [(0, low), (v, low), (v, high), (lean, high)]]
    return loops + ([rng.choice([star, rectangle])(rng, reach)] if rng.random() < 0.5 else [])


def far(rng, reach):
    return [wide(rng, reach) for _ in range(rng.randint(1, 2))]


def cornered(rng, reach):
    """A small drawing in a corner of the range."""
    x, y = rng.choice([LEAST + reach, MOST - reach]), rng.choice([LEAST + reach, MOST - reach])
    return [[(x + v, y + w) for v, w in loop] for loop in alone(rng, reach)]


def empty(*_):
    return []


DRAWINGS = {alone: 30, several: 20, nested: 20, apart: 40, pinned: 40, touching: 12, repeated: 8, neighbours: 16, far: 8, cornered: 4, empty: 1}


def as_loop(points):
    """Without points that equal the one before them, also around the end."""
    loop = [p for i, p in enumerate(points) if i == 0 or p != points[i - 1]]
    while len(loop) > 1 and loop[0] == loop[-1]:
        loop.pop()
    return loop


def drawing(rng):
    """The drawing's kind, how far it reaches, and its loops."""
    make = rng.choices(list(DRAWINGS), DRAWINGS.values())[0]
    reach = rng.choice([4, 4, 4, 7, 12, 25, 60])
    loops = [loop for loop in map(as_loop, make(rng, reach)) if len(loop) >= 2]
    return make.__name__, (MOST if make is far else reach), loops


def loops_text(rng, loops):
    """The drawing in loops form, in varied spelling."""
    lines = []
    for loop in loops:
        if rng.random() < 0.1:
            lines.append(rng.choice(["# a loop", "", " \t", "  #0,0"]))
        lines.append(rng.choice(["", "", " "]) + rng.choice([" ", "  ", "\t"]).join(f"{x},{y}" for x, y in loop))
    end = rng.choice(["\n", "\n", "\r\n"])
    return end.join(lines) + rng.choice([end, ""])


# Bits and depths


def bit(rng, reach):
    """A bit whose discs are of the drawing's size at some depths; its greatest radius is often about that size too."""
    slopes = [(1, 1), (1, 2), (2, 1), (577, 1000), (1, rng.randint(1, 9)), (rng.randint(1, 2000), rng.randint(1, 2000))]
    slopes += [(rng.randint(1, 50), rng.randint(50, 2000)), (rng.randint(1, 1000), 2000), (1, 2000)]
    slope = rng.choice(slopes) if rng.random() < 0.97 else (2000, 1)
    rmax = rng.choice([8191, 8191, rng.randint(1, 8191), rng.randint(1, 4 * reach), max(1, reach // 2), 1])
    return Bit(*slope, min(rmax, 8191))


def touching_depth(edges, cone, p):
    """The greatest depth at which the disc over p isn't wider than rmax and no edge is in it, be p inside or not."""
    widest = cone.sd * cone.rmax // cone.sn
    squared = min((squared_distance(p, nearest_point(p, edge)) for edge in edges), default=None)
    if squared is None:
        return min(widest, MOST_DEPTH)
    return min(widest, MOST_DEPTH, math.isqrt(int(squared * cone.sd**2 / cone.sn**2)))


def step(rng, edges):
    """A step that gives no more than some thousand contacts, or one that is too fine for a long edge."""
    longest = max((max(abs(bx - ax), abs(by - ay)) for (ax, ay), (bx, by) in edges), default=0)
    return rng.choice([1, 1, 2, 3, rng.randint(1, 40)] if longest < 1000 else [1, 2, 500, rng.randint(100, MOST)])


# how many points a report has at most
MOST_REPORTED = 120


def pitch(rng, loops):
    """A distance of the points of a report that gives few of them, sometimes one beyond the drawing."""
    xs, ys = zip(*(p for loop in loops for p in loop)) if loops else ((0,), (0,))
    longest = max(max(xs) - min(xs), max(ys) - min(ys), 1)
    pitches = [1, 2, 3, 5, 10, rng.randint(1, 40), longest // 9, longest // 5, longest // 2, longest]
    few = [p for p in pitches if p > 0 and (max(xs) - min(xs) + p) * (max(ys) - min(ys) + p) <= MOST_REPORTED * p * p]
    return min(rng.choice(few or [longest]), MOST)


def small_radius(rng, reach):
    """A greatest radius of a disc that is of the drawing's size or less."""
    most = min(reach, 60)
    return rng.choice([1, 2, rng.randint(1, 2 * most), rng.randint(1, 2 * most)])


def elbow(rng):
    """Two wide arms, and a slim bit that fits into them: round the inner corner the way is halved as often as it may be."""
    wide = rng.randint(130, 170)
    points = [(0, 0), (4, 0), (4, 2), (2, 2), (2, 4), (0, 4)]
    turn = rng.choice([lambda x, y: (x, y), lambda x, y: (y, x), lambda x, y: (-x, y), lambda x, y: (-y, -x)])
    jitter = rng.choice([0, 0, 9])
    loop = [turn(wide * x + rng.randint(0, jitter), wide * y + rng.randint(0, jitter)) for x, y in points]
    return [loop], Bit(1, rng.choice([100, 150, 200]), wide)


# how many contacts a drawing has at most that is carved, unless its corners are more
MOST_CARVED = 36


def carving_step(rng, edges):
    """A step that gives few contacts; across the whole grid, where discs take long to find, one that is too fine."""
    longest = max((max(abs(bx - ax), abs(by - ay)) for (ax, ay), (bx, by) in edges), default=0)
    if longest > 20_000:
        return rng.choice([1, 2])
    steps = [1, 2, 3, 4, rng.randint(1, 40), longest // 3, longest // 2]
    few = [step for step in steps if step > 0 and sum(1 + pieces(edge, step) for edge in edges) <= MOST_CARVED]
    return min(rng.choice(few or [2 * longest + 1]), MOST)


# how many points there are at most on the lines of a pocket
MOST_MILLED = 400


def points_on_lines(loops, way, over):
    """How many points there are at most on the lines of a pocket."""
    xs, ys = zip(*(p for loop in loops for p in loop)) if loops else ((0,), (0,))
    sides = [max(xs) - min(xs) + 1, max(ys) - min(ys) + 1]
    return sum(sides[axis] * (sides[1 - axis] // over + 1) for axis in WAYS[way])


def milling(rng, loops):
    """The way of a pocket, and a distance of its lines that gives few points on them: where there is none, no pocket."""
    way, overs = rng.choice(["none", "none", "x", "y", "both", "both"]), [1, 1, 2, 3, rng.randint(1, 40), rng.randint(1, 8191)]
    few = [over for over in overs if points_on_lines(loops, way, over) <= MOST_MILLED]
    return (way, rng.choice(few)) if few else ("none", rng.choice(overs))


def flat_limit(rng, cone, reach):
    """A limit that often leaves a flat floor: the bit's radius there is no more than a third of the drawing's reach, or half a unit."""
    widest = rng.choice([reach / 3, reach / 6, 0.5])
    return min(max(int(widest * cone.sd / cone.sn), 1), 400)


def job_of(cone, limit, step, way, over):
    return Job("mm100", cone, limit, step, 200, 500, way, over)


# Drawings with pockets, each of which tells what random ones seldom do: a square; a diamond whose columns begin equally far from X0 Y0 in
# pairs; a row that a corner of a hole parts by one point; and two plates whose common side passes between two points of a row.
WORKED = [
    ([[(0, 0), (10, 0), (10, 10), (0, 10)]], job_of(Bit(1, 1, 2), 2, 10, "both", 3)),
    ([[(7, 0), (14, 7), (7, 14), (0, 7)]], job_of(Bit(1, 1, 1), 1, 14, "y", 3)),
    ([[(0, 0), (12, 0), (12, 6), (0, 6)], [(6, 3), (7, 5), (5, 5)]], job_of(Bit(1, 2, 1), 1, 12, "x", 3)),
    ([[(-4, 0), (0, 0), (1, 10), (-4, 10)], [(0, 0), (4, 0), (4, 10), (1, 10)]], job_of(Bit(1, 2000, 1), 1, 10, "x", 5)),
]


def carved(rng, loops, reach):
    """A drawing to be carved, this one or an elbow, and the job."""
    cone = bit(rng, reach)._replace(rmax=small_radius(rng, min(reach, 20)))
    limit = rng.choice([1, rng.randint(1, 2 * min(reach, 60)), *[rng.choice([400, 400, 400, MOST_DEPTH])] * 6])
    if rng.random() < 0.03:
        (loops, cone), limit = elbow(rng), MOST_DEPTH
    safe = rng.choice([200, 200, 1, MOST, rng.randint(1, MOST)])
    feed = rng.choice([500, 500, 1, 10_000, rng.randint(1, 10_000)])
    way, over = milling(rng, loops)
    if way != "none":
        limit = rng.choice([min(limit, 400), flat_limit(rng, cone, reach), flat_limit(rng, cone, reach)])
    return loops, Job(rng.choice(list(UNITS)), cone, limit, carving_step(rng, edges_of(loops)), safe, feed, way, over)


# Drawings for a flat bit: a square, to which a bit's width at the floor is added, and points that lie just on the rim of what it sweeps;
# one in which the axis fits just on one row, between rows that the report asks; and a row that a corner of a hole parts.
WORKED_FLATS = [
    ([[(0, 0), (20, 0), (20, 20), (0, 20)]], FlatJob("mm100", Bit(1, 1, 9), 2, 3, 5, 200, 500, 1, "both")),
    ([[(-3, 1), (17, 1), (17, 11), (-3, 11)]], FlatJob("mm10", Bit(3, 2, 3), 2, 2, 3, 1, 1, 2, "x")),
    ([[(0, 0), (24, 0), (24, 12), (0, 12)], [(12, 6), (13, 10), (11, 10)]], FlatJob("in1000", Bit(1, 2, 1), 2, 1, 3, 7, 900, 1, "x")),
]


def flat_job(rng, loops, reach, reported):
    """What the floor of the drawing is milled for, by lines with few points; None where all have many."""
    cone, radius = bit(rng, reach)._replace(rmax=small_radius(rng, min(reach, 20))), rng.choice([1, 1, 2, rng.randint(1, max(1, min(8191, reach // 3)))])
    way, overs = rng.choice(["x", "y", "both"]), [1, 1, 2, 3, rng.randint(1, 40), rng.randint(1, 8191)]
    few = [over for over in overs if points_on_lines(loops, way, over) <= MOST_MILLED]
    if not few:
        return None
    limit = rng.choice([flat_limit(rng, cone, reach)] * 6 + [1, 400])
    units, safe, feed = rng.choice(list(UNITS)), rng.choice([200, 1, MOST]), rng.randint(1, 10_000)
    return FlatJob(units, cone, limit, radius, rng.choice(few), safe, feed, reported, way)


def box(edges, margin):
    """The least and the greatest x, and the least and the greatest y, of the drawing with a margin around it."""
    xs, ys = zip(*(a for a, _ in edges)) if edges else ((0,), (0,))
    left, low = on_grid(min(xs) - margin, min(ys) - margin)
    right, high = on_grid(max(xs) + margin, max(ys) + margin)
    return left, right, low, high


def tenths_touching(edges, cone, p):
    """The same in tenths of a grid unit, for a place in tenths."""
    widest = 10 * cone.sd * cone.rmax // cone.sn
    squared = min((squared_distance(p, nearest_point(p, edge)) for edge in scaled(edges)), default=None)
    if squared is None:
        return min(widest, 10 * MOST_DEPTH)
    return min(widest, 10 * MOST_DEPTH, math.isqrt(int(squared * cone.sd**2 / cone.sn**2)))


def scaled(edges):
    """The edges in tenths of a grid unit."""
    return [((10 * ax, 10 * ay), (10 * bx, 10 * by)) for (ax, ay), (bx, by) in edges]


def level_depth(edges, cone, p, q):
    """The greatest depth of a level move whose discs at the ends hold no edge, and between no end of an edge; in tenths."""
    # a disc over the path holds a corner where one over the corner holds a point of the path
    corners = [tenths_within(cone, u, (p, q)) for (u, _) in scaled(edges)] if p != q else []
    return min(tenths_touching(edges, cone, p), tenths_touching(edges, cone, q), *corners)


def tenths_within(cone, u, path):
    """The greatest depth in tenths at which the disc over a corner holds no point of the path."""
    squared = squared_distance(u, nearest_point(u, path))
    return min(10 * MOST_DEPTH, math.isqrt(int(squared * cone.sd**2 / cone.sn**2)))


def ramp_depth(edges, cone, p, start, q):
    """A greatest depth at q to which a move from the height start at p passes every edge; 0 if there is none. In tenths."""
    low, high = 0, tenths_touching(edges, cone, q)
    while low < high:
        middle = (low + high + 1) // 2
        mv = Move(0, Spot(*p, start), Spot(*q, -middle))
        low, high = (middle, high) if all(passes_edge(cone, mv, edge) for edge in edges) else (low, middle - 1)
    return low


def spot(rng, edges):
    """A grid point at, near or on an edge, or anywhere about the drawing."""
    if not edges or rng.random() < 0.4:
        left, right, low, high = box(edges, 2)
        return (rng.randint(left, right), rng.randint(low, high))
    (ax, ay), (bx, by) = rng.choice(edges)
    parts = math.gcd(bx - ax, by - ay)
    k = rng.choice([0, parts, rng.randint(0, parts)])
    beside = rng.choice([0, 0, 1, 2])
    dx, dy = anywhere(rng, beside)
    return on_grid(ax + k * (bx - ax) // parts + dx, ay + k * (by - ay) // parts + dy)


def fine_spot(rng, edges):
    """Such a point in tenths of a grid unit, sometimes a few tenths beside it."""
    (x, y), beside = spot(rng, edges), rng.choice([0, 0, 1, 9])
    dx, dy = anywhere(rng, beside)
    return in_tenths(10 * x + dx, 10 * y + dy)


# Codes


class Code:
    """A code that is written line by line, and the moves that its lines mean."""

    def __init__(self, rng, units, plain):
        self.rng, self.plain, (self.decimals, self.unit_word) = rng, plain, UNITS[units]
        self.lines, self.moves, self.at, self.ended = [], [], {}, False

    def number(self, value):
        """The value in tenths of a grid unit as a decimal, in one of its spellings."""
        rng, digits = self.rng, str(abs(value)).zfill(self.decimals + 1)
        whole, part = digits[: -self.decimals], digits[-self.decimals :]
        part = rng.choice([part, part, part.rstrip("0"), part + "0" * rng.randint(0, 9)])
        if whole == "0" and part and rng.random() < 0.5:
            whole = ""
        whole = "0" * rng.choice([0, 0, 0, 1, 30]) + whole
        point = "." if part or rng.random() < 0.5 else ""
        sign = "-" if value < 0 else rng.choice(["", "", "+", "-" if value == 0 else ""])
        return sign + whole + point + part

    def spaced(self, text):
        """The text with blanks, small letters and comments where they don't matter, also within numbers."""
        rng = self.rng
        if self.plain:
            return text
        said = "".join(rng.choice([c, c.lower()]) + rng.choice(["", "", "", "", " ", "\t"]) for c in text)
        for comment in rng.sample(["(a)", "(G91 X9 ; (no)", "()"], rng.choice([0, 0, 0, 1, 2])):
            cut = rng.randint(0, len(said)) if "(" not in said else 0
            said = said[:cut] + comment + said[cut:]
        return said + rng.choice(["", "", "", "; Z-99 (", ";"])

    def words_without_effect(self):
        """Some words that change no path, each letter but G and M at most once."""
        rng = self.rng
        words = [f"N{rng.randint(0, 99999)}", f"F{rng.randint(1, 900)}.5", "S12000", "P0.05", "M3", "M05", "M8", "G64"]
        words += [self.unit_word, "G90", "G17", "G91.1", "G094.0", "G40 G49", "G54", "G61 G80"]
        return rng.sample(words, rng.choice([0, 0, 1, 1, 2, 4]))

    def add(self, words):
        self.rng.shuffle(words)
        self.lines.append(self.spaced(("" if self.rng.random() < 0.3 else " ").join(words)))

    def filler(self):
        """A line that gives no move."""
        self.lines.append(self.rng.choice(["", "%", "(a comment)", "  ; another", " \t ", "(a) (b);"]))
        self.add(self.words_without_effect() + self.rng.choice([[], ["G0"], ["G1"]]))

    def go(self, **axes):
        """A line that names these axes, and its move where the place was known."""
        if not self.plain and self.rng.random() < 0.2:
            self.filler()
        words = [axis.upper() + self.number(value) for axis, value in axes.items()]
        words += self.rng.choice([[], ["G0"], ["G1"], ["G01"], ["G+0."], ["G1.0"]])
        self.add(words + ([] if self.plain else self.words_without_effect()))
        before = dict(self.at)
        self.at.update(axes)
        if len(before) == 3:
            ends = [Spot(at["x"], at["y"], at["z"]) for at in (before, self.at)]
            self.moves.append(Move(len(self.lines), *ends))

    def text(self):
        rng = self.rng
        if rng.random() < 0.5:
            self.lines.append(self.spaced(rng.choice(["M2", "M30", "M02", "N7 M2.0"])))
            # nothing behind the end is read
            self.lines += rng.choice([[], ["G2 X"], ["X1 ("]])
        end = rng.choice(["\n", "\n", "\r\n"])
        return end.join(self.lines) + rng.choice([end, ""])


def listed_code(rng, units):
    """A code of many moves anywhere, whose place is known sooner or later, or never."""
    code = Code(rng, units, plain=False)
    for _ in range(rng.choice([0, 1, 3, 10, 40])):
        axes = rng.sample("xyz", rng.choice([1, 1, 2, 3]))
        reach = rng.choice([9, 300, 10 * MOST])
        at = {axis: rng.choice([rng.randint(-reach, reach), 10 * MOST, 10 * LEAST, 0]) for axis in axes}
        if "z" in at:
            # the tip may not be below the surface before its place is known
            at["z"] = max(at["z"], -10 * MOST) if len(code.at) == 3 else abs(max(at["z"], -10 * MOST))
        code.go(**at)
    return code


def depth_at(rng, edges, cone, p, careful):
    """A depth at p, in tenths: what just touches, or less; where the code isn't careful also one more, at rmax, or beyond."""
    touching, widest = tenths_touching(edges, cone, p), 10 * cone.sd * cone.rmax // cone.sn
    depths = [touching, touching, touching - 1, rng.randint(0, touching)]
    depth = rng.choice(depths if careful else depths + [touching + 1, touching + 1, 1, widest, widest + 1])
    return min(max(depth, 1), 10 * MOST_DEPTH)


def next_place(rng, edges, reach, start):
    """Where the next move ends, in tenths: anywhere, through a vertex, along or beside an edge, near by, or where it is."""
    where = rng.choice(["spot", "spot", "spot", "through", "along", "near", "axis", "stay"])
    if where == "stay":
        return start
    if where == "near":
        by = rng.choice([2, 20])
        return in_tenths(start[0] + rng.randint(-by, by), start[1] + rng.randint(-by, by))
    if where == "axis":
        dx, dy = rng.choice([(1, 0), (0, 1), (1, 1), (1, -1)])
        by = rng.randint(-10 * reach, 10 * reach)
        return in_tenths(start[0] + by * dx, start[1] + by * dy)
    if where == "spot" or not edges:
        return fine_spot(rng, edges)
    (ax, ay), (bx, by) = rng.choice(scaled(edges))
    if where == "through":
        return in_tenths(2 * ax - start[0], 2 * ay - start[1])
    parts = math.gcd(bx - ax, by - ay)
    k = rng.choice([-parts, parts, rng.randint(-parts, parts)])
    return in_tenths(start[0] + k * (bx - ax) // parts, start[1] + k * (by - ay) // parts)


class Tip:
    """Where the tip of a code under way is, and where it goes next; a careful one mostly stays off the edges."""

    def __init__(self, rng, edges, reach, cone, inside):
        self.rng, self.edges, self.reach, self.cone, self.inside = rng, edges, reach, cone, inside
        self.careful = rng.random() < 0.7
        self.at = self.roomy() if inside and rng.random() < 0.8 else fine_spot(rng, edges)
        self.h = rng.choice([0, 0, rng.randint(1, 90)])

    def roomy(self):
        """A point inside, if it can be one of which no edge is too near for the least depth."""
        some = [(10 * x, 10 * y) for x, y in self.rng.sample(self.inside, min(5, len(self.inside)))]
        return next((p for p in some if tenths_touching(self.edges, self.cone, p) > 0), some[0])

    def below(self, p):
        return -depth_at(self.rng, self.edges, self.cone, p, self.careful)

    def step(self):
        """Moves the tip, and gives the axes that a line for it has to name, and sometimes others."""
        rng, old = self.rng, (*self.at, self.h)
        if self.h > 0 and rng.random() < 0.4:
            # often it goes down in place
            self.h = rng.choice([0, self.below(self.at), self.below(self.at)])
        else:
            aim = self.careful and self.inside and rng.random() < 0.7
            self.at = rng.choice([self.roomy(), self.at]) if aim else next_place(rng, self.edges, self.reach, self.at)
            up, down = rng.choice([0, rng.randint(1, 90)]), self.below(self.at)
            self.h = rng.choice([up, self.h, self.h, down, down, down, down])
        new = (*self.at, self.h)
        named = {axis: value for axis, value, was in zip("xyz", new, old) if value != was or rng.random() < 0.2}
        return named or {"z": self.h}

    def closest(self):
        """A way down in place, or none, and from there a move as deep as it may just be, or one tenth deeper."""
        rng, q = self.rng, self.roomy() if self.inside else fine_spot(self.rng, self.edges)
        if rng.random() < 0.5:
            last = level_depth(self.edges, self.cone, self.at, q) + rng.choice([0, 0, 1])
            first = -last
        else:
            # from below the surface, or on a slope from above it
            first = rng.choice([-rng.randint(0, tenths_touching(self.edges, self.cone, self.at)), rng.randint(1, 90)])
            last = ramp_depth(self.edges, self.cone, self.at, first, q) + rng.choice([0, 0, 1])
        first, last = max(first, -10 * MOST_DEPTH), min(last, 10 * MOST_DEPTH)
        self.at, self.h = q, -last
        return {"z": first}, {"x": q[0], "y": q[1], "z": -last}


def checked_code(rng, edges, reach, cone, inside):
    """A few moves, mostly from one of the points inside; seldom none at all."""
    units = rng.choice(list(UNITS))
    code = Code(rng, units, plain=rng.random() < 0.8)
    if rng.random() < 0.02:
        return units, code
    tip = Tip(rng, edges, reach, cone, inside)
    code.go(x=tip.at[0], y=tip.at[1], z=tip.h)
    if rng.random() < 0.25:
        for axes in tip.closest():
            code.go(**axes)
        return units, code
    for _ in range(rng.choice([1, 1, 2, 2, 3, 5])):
        code.go(**tip.step())
    return units, code
