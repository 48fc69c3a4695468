"""Makes the random files of tools/compare.py in the four forms, valid ones and ones with something broken in them."""

import math

import cases
from forms import UNITS, Words, circle_point, turn_of
from joining import edges_of, first_crossing

NOT_NUMBERS = ["", "x", "1,5", "--1", "+-1", "1e", "e1", ".", "-", "1.2.3", "1e1e1", "1e+", "1e1234", "1 0", "0x10", "9" * 28, "1." + "1" * 27, "inf"]
FAR_NUMBERS = ["1e300", "-1e99", "9007199254740993", "1e9", "-400", "327.675", "3276.75", "32.7675", "-327.685", "-1", "100001", "10000.1", "1000.0000005", "99999e9"]
NEAR_NUMBERS = ["1e-300", "-0", "+.5", "5.", "1E0", "0e999", "000" + "1", "-.0e+0", "0.0000005", "-0.0000005", "0." + "0" * 40 + "1", "1000", "1000.0000004", "100000"]
BAD_CODES = ["", "x", "12345", "00010", "00042", "+10", "1 0", "--1", "10.0", "-", "-12345"]
GOOD_CODES = ["00", "-0", "0010", "-1", "9999", "-9999", "1071"]
SKIPPED = ["TEXT", "INSERT", "LWPOLYLINE", "SPLINE", "ELLIPSE", "VERTEX", "SEQEND", "line", "3DFACE", "POINT"]


def plain(rng, size, places):
    """The number size / 10^places without an exponent."""
    sign, digits = ("-" if size < 0 else rng.choice(["", "", "", "+"])), str(abs(size)).rjust(places + 1, "0")
    before, behind = (digits[: len(digits) - places], digits[len(digits) - places :]) if places else (digits, "")
    behind = behind.rstrip("0") if rng.random() < 0.7 else behind + "0" * rng.randint(0, 2)
    return sign + before + (f".{behind}" if behind or rng.random() < 0.1 else "")


def decimal(rng, size, places):
    """The number size / 10^places, written in one of the ways that there are."""
    if rng.random() < 0.85:
        return plain(rng, size, places)
    shift = rng.randint(-places, 5)
    return plain(rng, size, places + shift) + f"{rng.choice('eE')}{rng.choice(['+', '']) if shift >= 0 else ''}{shift}"


def closed(points):
    return list(zip(points, points[1:] + points[:1]))


def round_of(rng, reach):
    """The corners of a star around the origin."""
    count = rng.randint(3, 7)
    turns = sorted((i + rng.random() * 0.9) / count for i in range(count))
    return [tuple(round(rng.uniform(0.4, 1) * reach * part) for part in (math.cos(math.tau * turn), math.sin(math.tau * turn))) for turn in turns]


def square_of(rng, reach):
    reach = rng.randint(1, reach)
    return [(-reach, -reach), (reach, -reach), (reach, reach), (-reach, reach)]


def outlines(rng, reach):
    """Closed lists of corners, alone, within each other, or with a corner in common."""
    first = rng.choice([round_of, square_of])(rng, reach)
    others = []
    if rng.random() < 0.3:
        others.append(round_of(rng, max(1, reach // 4)))
    if rng.random() < 0.35:
        # Three or four corners beyond a corner of the first, so that four edges or more end there.
        x, y = rng.choice(first)
        away = [(x + (1 if x > 0 else -1) * rng.randint(1, reach), y), (x, y + (1 if y > 0 else -1) * rng.randint(1, reach))]
        others.append([(x, y), *away])
    if rng.random() < 0.06:
        others.append(first[::-1])
    return [first, *others]


# DXF: an entity is a list of pairs of a code and a value.


class DxfMaker:
    """The entities of a file, with lengths in thousandths of a grid unit."""

    def __init__(self, rng, words):
        self.rng, self.snap = rng, words.snap
        self.places = 3 + str(UNITS[words.units]).count("0")
        self.entities = []

    def length(self, thousandths):
        return decimal(self.rng, thousandths, self.places)

    def place(self, point):
        """A point in thousandths, or near it: within the snap, or a little beyond."""
        if self.rng.random() < 0.3:
            off = 1000 * self.snap // 2 + self.rng.choice([0, 0, 0, 0, 0, 400, 499, 500, 1000])
            return tuple(z + self.rng.choice([-off, 0, off, self.rng.randint(-off, off)]) for z in point)
        if self.rng.random() < 0.3:
            return tuple(z + self.rng.choice([-500, -499, 0, 499]) for z in point)
        return point

    def pairs_of(self, x, y, point):
        return [(x, self.length(point[0])), (y, self.length(point[1]))]

    def lines(self, middle, reach):
        edges = []
        for corners in outlines(self.rng, reach):
            edges += closed([tuple(1000 * (m + z) for m, z in zip(middle, corner)) for corner in corners])
        self.rng.shuffle(edges)
        for p, q in edges:
            p, q = (p, q) if self.rng.random() < 0.5 else (q, p)
            self.entities.append([(0, "LINE"), *self.pairs_of(10, 20, self.place(p)), *self.pairs_of(11, 21, self.place(q))])

    def crowd(self, middle, _):
        """Lines between places so near each other that some have several kept ones within the snap."""
        wide = 1000 * (3 * self.snap + 3)
        corners = [tuple(1000 * m + self.rng.randint(0, wide) for m in middle) for _ in range(self.rng.randint(3, 9))]
        for p, q in closed(corners):
            self.entities.append([(0, "LINE"), *self.pairs_of(10, 20, p), *self.pairs_of(11, 21, q)])

    def circle(self, middle, reach):
        centre = self.place(tuple(1000 * z for z in middle))
        radius = self.rng.choice([self.rng.randint(0, 1000 * reach), 1000 * reach, 500, 1000, 0])
        self.entities.append([(0, "CIRCLE"), *self.pairs_of(10, 20, centre), (40, self.length(radius))])

    def arcs(self, middle, reach):
        """Arcs round a circle, one after the other, or one with its chord."""
        centre, radius = [1000 * z for z in middle], self.rng.randint(1, 1000 * reach)
        turns = sorted(self.rng.sample(range(-720_000_000, 360_000_000), self.rng.randint(1, 3)))
        if self.rng.random() < 0.4:
            turns = [90_000_000 * self.rng.randint(-4, 8) for _ in turns]
        ends = list(zip(turns, turns[1:] + [turns[0] + 360_000_000 * self.rng.randint(0, 2)]))
        if self.rng.random() < 0.4:
            start, end = ends[0]
            ends = ends[:1]
            corners = [tuple(round(c + radius * turned) for c, turned in zip(centre, (math.cos(math.radians(a / 1e6)), math.sin(math.radians(a / 1e6))))) for a in (end, start)]
            self.entities.append([(0, "LINE"), *self.pairs_of(10, 20, corners[0]), *self.pairs_of(11, 21, corners[1])])
        for start, end in ends:
            angles = [(50, decimal(self.rng, start, 6)), (51, decimal(self.rng, end, 6))]
            self.entities.append([(0, "ARC"), *self.pairs_of(10, 20, centre), (40, self.length(radius)), *angles])

    def great_arc(self, middle, reach):
        """An arc of a great radius that passes near the middle, with its chord."""
        radius = self.rng.choice([10**self.rng.randint(5, 11), self.rng.randint(1, 2 * 10**11), 10**11 + self.rng.randint(-1, 1)])
        angle, wide = self.rng.randint(0, 360_000_000), max(1, round(math.degrees(2000 * reach / radius) * 10**6))
        angle += 360_000_000 * self.rng.choice([0, 0, -1, 277, 278, -278, -279])
        towards = math.radians(angle / 1e6)
        centre = [round(1000 * m - radius * part) for m, part in zip(middle, (math.cos(towards), math.sin(towards)))]
        angles = [angle - wide, angle + wide]
        ends = [circle_point(centre, radius, turn_of(a)) for a in angles]
        self.entities.append([(0, "ARC"), *self.pairs_of(10, 20, centre), (40, self.length(radius)), (50, plain(self.rng, angles[0], 6)), (51, plain(self.rng, angles[1], 6))])
        self.entities.append([(0, "LINE"), *self.pairs_of(10, 20, ends[1]), *self.pairs_of(11, 21, ends[0])])

    def bulge(self):
        kind = self.rng.random()
        if kind < 0.4:
            return []
        return [(42, decimal(self.rng, self.rng.choice([self.rng.randint(-10**9, 10**9), 10**9, -(10**9), 414213562, 5 * 10**10, 43660943, 0, 10**13 + self.rng.randint(-1, 1)]), 9))]

    def polyline(self, middle, reach):
        corners = [tuple(1000 * (m + z) for m, z in zip(middle, corner)) for corner in self.rng.choice([round_of, square_of])(self.rng, reach)]
        is_closed = self.rng.random() < 0.7
        flags = (1 if is_closed else 0) + self.rng.choice([0, 0, 2, 4, 8, 128])
        if self.rng.random() < 0.1:
            corners.insert(1, corners[0])
        if self.rng.random() < 0.08:
            flags += self.rng.choice([16, 64])
        self.entities.append([(0, "POLYLINE"), (66, "1"), *([(70, str(flags))] if flags or self.rng.random() < 0.5 else [])])
        for corner in corners if is_closed else corners + corners[:1]:
            self.entities.append([(0, "VERTEX"), *self.pairs_of(10, 20, self.place(corner) if self.rng.random() < 0.2 else corner), *self.bulge()])
            if self.rng.random() < 0.1:
                self.entities.append([(0, "VERTEX"), *self.rng.choice([[], [(10, "x")], [(10, "0"), (20, "0")]]), (70, "16")])
        self.entities.append([(0, "SEQEND")])

    def skipped(self, *_):
        self.entities.append([(0, self.rng.choice(SKIPPED)), (10, self.rng.choice(["0", "x"])), (1, "a text")])

    def all(self):
        reach = self.rng.choice([2, 5, 30, 300])
        for number in range(self.rng.choice([0, 1, 1, 1, 2, 2, 3, 4])):
            middle = (3 * reach * (number % 2), 3 * reach * (number // 2)) if self.rng.random() < 0.95 else (0, 0)
            maker = self.rng.choices([self.lines, self.crowd, self.circle, self.arcs, self.great_arc, self.polyline, self.skipped], [4, 1, 2, 3, 1, 4, 1])[0]
            maker(middle, reach)
        return self.entities

    def decorated(self, entities):
        """With pairs that aren't looked at, or that stand twice."""
        for entity in entities:
            if self.rng.random() < 0.3:
                entity.insert(self.rng.randint(1, len(entity)), self.rng.choice([(8, "0"), (62, "x"), (30, "0.0"), (210, "0"), (999, ""), (6, "0 SECTION")]))
            if len(entity) > 1 and self.rng.random() < 0.08:
                code, value = self.rng.choice(entity[1:])
                entity.insert(self.rng.randint(1, len(entity)), (code, self.rng.choice([value, value, "7", "x"])))
        return entities


def broken_entities(rng, entities):
    """One thing broken in the entities."""
    entity = rng.choice(entities)
    at = rng.randrange(len(entity))
    kind = rng.randrange(7)
    if kind == 0:
        del entity[at]
    elif kind == 1:
        entity[at] = (entity[at][0], rng.choice(NOT_NUMBERS))
    elif kind == 2:
        entity[at] = (entity[at][0], rng.choice(FAR_NUMBERS))
    elif kind == 3:
        entity[at] = (rng.choice(BAD_CODES + GOOD_CODES), entity[at][1])
    elif kind == 4:
        entities.remove(entity)
    elif kind == 5:
        entities.insert(rng.randint(0, len(entities)), list(entity))
    else:
        entity[at] = (entity[at][0], rng.choice(NEAR_NUMBERS))
    return [entity for entity in entities if entity]


def pairs_text(rng, pairs):
    end, pad = rng.choice(["\n", "\n", "\r\n"]), rng.random() < 0.3
    lines = []
    for code, value in pairs:
        lines += [f"{code:>3}" if pad else str(code), rng.choice([f" {value}\t", value]) if pad else value]
    return end.join(lines) + ("" if rng.random() < 0.1 else end)


def around(rng, entities):
    """The pairs of a file with these entities."""
    head = [(0, "SECTION"), (2, "HEADER"), (9, "$ACADVER"), (1, "AC1009"), (0, "LINE"), (10, "x"), (0, "ENDSEC")]
    begin, end, last = [(0, "SECTION"), (2, "ENTITIES")], [(0, "ENDSEC")], [(0, "EOF")]
    body = [pair for entity in entities for pair in entity]
    pairs = (head if rng.random() < 0.4 else []) + begin + body + end + last
    kind = rng.random()
    if kind < 0.03:
        pairs = begin + body + last + head
    elif kind < 0.06:
        pairs = begin + body + end
    elif kind < 0.09:
        pairs = begin + end + body + begin + end + last
    elif kind < 0.12:
        pairs = begin + body + end + begin + body[: rng.randint(0, len(body))] + last
    elif kind < 0.14:
        pairs = begin[:1] + [(2, rng.choice(["BLOCKS", "entities", "ENTITIES "]))] + body + end + last
    return pairs


def dxf_file(rng, words):
    maker = DxfMaker(rng, words)
    entities = maker.decorated(maker.all())
    if entities and rng.random() < 0.35:
        entities = broken_entities(rng, entities)
    return pairs_text(rng, around(rng, entities)).encode()


# CXF

LETTERS = "IOAx#[]é漢\u00e4\U0001f600"
KEYS_BROKEN = ["[", "[]", "[I", "[II] 4", "[#D800] 1", "[#110000] 1", "[#zz]", "[#0000061]", "[#", "[##]"]
LINES_BROKEN = ["L 1,2,3", "L 1,2,3,4,5", "A 1,2,3,4", "AR 1,2,3,4", "B 1,2,3,4", "L", "L1,2,3,4", "A 0,0,-1,0,90", "L 0,0,1000.1,0", "A 0,0,1,0,100001", "x", "L 1,,2,3", "a 1,2,3,4,5"]


def key_line(rng, letter):
    hexadecimal = f"{ord(letter):{rng.choice('xX')}}".rjust(rng.choice([1, 4, 6]), "0")
    key = rng.choice([letter, f"#{hexadecimal}"])
    return f"[{key}]" + rng.choice([" 4", "", " x", "\t0 "])


def in_units(rng, millionths):
    return decimal(rng, millionths, 6)


def element_lines(rng):
    """The lines of a glyph: outlines of straight lines, circles and rings, and now and then what is open."""
    lines = []
    kind = rng.randrange(6)
    if kind < 3:
        for corners in outlines(rng, 4_000_000):
            even = rng.choice([1, 1, 10_000])
            edges = closed([(x // even * even + 4_000_000, y // even * even + 4_000_000) for x, y in corners])
            edges = [ends if rng.random() < 0.7 else ends[::-1] for ends in edges]
            if rng.random() < 0.3:
                rng.shuffle(edges)
            lines += ["L " + ",".join(in_units(rng, z) for p in ends for z in p) for ends in edges]
    elif kind == 3:
        for radius in rng.sample([4_500_000, 2_500_000, 1_000_000], rng.randint(1, 3)):
            start = rng.choice([0, 0, 90, -45, 720])
            lines.append(f"{rng.choice(['A', 'AR'])} 4.5,4.5,{in_units(rng, radius)},{start},{start + rng.choice([360, 0, -360])}")
    elif kind == 4:
        start, end = rng.sample(range(0, 360, 30), 2)
        ends = [(4 + 3 * math.cos(math.radians(a)), 4 + 3 * math.sin(math.radians(a))) for a in (start, end)]
        lines.append(rng.choice([f"A 4,4,3,{start},{end}", f"AR 4,4,3,{end},{start}", f"AR 4,4,3,{start},{end}"]))
        lines.append("L " + ",".join(f"{z:.6f}" for p in ends for z in p))
    elif rng.random() < 0.3:
        lines.append("L 0,0,2,9")
    return [rng.choice(["", " ", "\t"]) + line.replace(",", rng.choice([",", ",", " , "])) for line in lines]


def font_lines(rng, letters):
    lines = rng.choice([[], ["# a font"], ["a line before the first", ""]])
    for letter in letters:
        lines.append(key_line(rng, letter))
        lines += element_lines(rng) + ([""] if rng.random() < 0.5 else [])
    if letters and rng.random() < 0.15:
        lines += [key_line(rng, rng.choice(letters)), *element_lines(rng)]
    return lines


def broken_font(rng, lines):
    at = rng.randint(0, len(lines))
    kind = rng.randrange(4)
    if kind == 0:
        lines.insert(at, rng.choice(LINES_BROKEN + KEYS_BROKEN))
    elif kind == 1:
        del lines[at : at + 1]
    elif lines:
        line = lines[at - 1]
        number = rng.choice(NOT_NUMBERS + FAR_NUMBERS + NEAR_NUMBERS)
        lines[at - 1] = ",".join(rng.choice([part, number]) for part in line.split(","))
    return lines


def cxf_file(rng, words):
    letters = rng.sample(LETTERS, rng.randint(1, 4))
    lines = font_lines(rng, letters)
    if rng.random() < 0.3:
        lines = broken_font(rng, lines)
    data = rng.choice(["\n", "\r\n"]).join(lines).encode()
    if rng.random() < 0.05:
        data += b"\n[\xe9] 1\nL 0,0,1,0\n"
        letters.append("é")
    text = "".join(rng.choice(letters + [" ", "\n"]) for _ in range(rng.randint(1, 4)))
    return data, words._replace(text=text + ("?" if rng.random() < 0.05 else ""))


# PBM


def rows_of(rng):
    width, height = rng.randint(1, 19), rng.randint(1, 12)
    if rng.random() < 0.3:
        return [[rng.random() < rng.choice([0.1, 0.5, 0.9]) for _ in range(width)] for _ in range(height)]
    rows = [[False] * width for _ in range(height)]
    for _ in range(rng.randint(0, 4)):
        (x, v), (y, w) = sorted(rng.choices(range(width + 1), k=2)), sorted(rng.choices(range(height + 1), k=2))
        for row in rows[y:w]:
            row[x:v] = [rng.random() < 0.98 and not black for black in row[x:v]]
    return rows


def gap(rng):
    return rng.choice([b" ", b"\n", b"\t", b"\r\n", b" # a comment\n", b"#\n", b"\v\f "])


def pbm_file(rng, words):
    rows = rows_of(rng)
    magic = rng.choice([b"P1", b"P4"])
    if rng.random() < 0.04:
        magic = rng.choice([b"P2", b"P5", b"p1", b"P", b"", b"P14"])
    sides = [str(side).encode() for side in (len(rows[0]), len(rows))]
    if rng.random() < 0.12:
        sides[rng.randrange(2)] = rng.choice([b"0", b"8192", b"100000", b"00012", b"-1", b"x", b"", b"8191", b"3"])
    if magic == b"P4":
        pixels = b"".join(int("".join("01"[black] for black in row).ljust(-8 * (-len(row) // 8), rng.choice("01")), 2).to_bytes(-(-len(row) // 8), "big") for row in rows)
    else:
        pixels = b"".join((b"0", b"1")[black] + rng.choice([b"", b"", b" ", b"\n"]) for row in rows for black in row)
    if rng.random() < 0.12:
        at = rng.randint(0, len(pixels))
        pixels = rng.choice([pixels[:at], pixels[:at] + rng.choice([b"2", b"#", b"\0", b"x"]) + pixels[at:], pixels + b" more"])
    data = magic + gap(rng) + sides[0] + gap(rng) + sides[1] + rng.choice([b"\n", b"\n", b" ", b"\t"]) + pixels
    return data


# Loops


def loops_file(rng, words):
    for _ in range(30):
        _, _, loops = cases.drawing(rng)
        if first_crossing(edges_of(loops)) is None or rng.random() < (0.5 if words.cross == "evenodd" else 0.04):
            break
    return cases.loops_text(rng, loops).encode()


def mutated(rng, data):
    """A byte or some more changed, taken away or doubled; or the rest cut off."""
    for _ in range(rng.choice([1, 1, 2, 4])):
        at = rng.randint(0, len(data))
        kind = rng.randrange(6)
        end = min(len(data), at + rng.choice([1, 1, 2, 5, 20]))
        if kind == 0:
            data = data[:at]
        elif kind == 1:
            data = data[:at] + data[end:]
        elif kind == 2:
            data = data[:end] + data[at:]
        elif kind == 3:
            data = data[:at] + bytes([rng.choice(b"0123456789-+.,eE \t\r\n#[]LAR\x00\xff")]) + data[end:]
        elif kind == 4:
            data = data[:at] + bytes([rng.randrange(256)]) + data[at:]
        else:
            lines = data.split(b"\n")
            line = rng.randrange(len(lines))
            lines[line:line] = [lines[line]] * rng.choice([1, 1, 3])
            data = b"\n".join(lines)
    return data


RANGES = {"chord": (1, 90), "snap": (0, 16), "pixel": (1, 1000), "height": (1, 32767), "width": (10, 500), "charspace": (0, 500), "wordspace": (0, 500), "linespace": (10, 500)}
USUAL = {"chord": [90, 45, 10, 30, 1], "snap": [0, 1, 1, 2, 16], "pixel": [1, 10, 100], "height": [100, 300, 900, 9], "width": [100, 50], "charspace": [25, 0], "wordspace": [100, 0], "linespace": [150, 100]}
NAMES = {"justify": ["left", "center", "right"], "mirror": ["no", "yes"], "flip": ["no", "yes"], "cross": ["refuse", "evenodd", "evenodd"]}


def words_for(rng, form):
    """The words of a drawing in this form, many of them left at what holds usually."""
    chosen = {"form": form, "units": rng.choice(list(UNITS))}
    for name, (low, high) in RANGES.items():
        if rng.random() < 0.5:
            chosen[name] = rng.choice(USUAL[name]) if rng.random() < 0.8 else rng.randint(low, high)
    for name, values in NAMES.items():
        if rng.random() < 0.4:
            chosen[name] = rng.choice(values)
    return Words(**chosen)


MAKERS = {"loops": loops_file, "dxf": dxf_file, "cxf": cxf_file, "pbm": pbm_file}


def formed(rng, form):
    """The bytes of a file in this form, and the words that it is read by."""
    words = words_for(rng, form)
    data = MAKERS[form](rng, words)
    if form == "cxf":
        data, words = data
    return mutated(rng, data) if rng.random() < 0.12 else data, words


def options_of(rng, words):
    """The options that say so, some of them left out where they are what holds then."""
    given = []
    for name, usual in Words._field_defaults.items():
        value = getattr(words, name)
        if value != usual or (value is not None and rng.random() < 0.2):
            given.append(f"--{name}={value}")
    rng.shuffle(given)
    return given


def wrong_option(rng):
    """An option whose value isn't in its range, or isn't one of its words."""
    if rng.random() < 0.2:
        return f"--{rng.choice(list(NAMES))}={rng.choice(['', 'odd', 'none', 'Refuse'])}"
    name, (low, high) = rng.choice(list(RANGES.items()))
    return f"--{name}={rng.choice([low - 1, high + 1])}"
