"""The four forms of a drawing's file as plain programs: what each is read as, joined and guarded by joining.py.

Whole numbers and fractions alone, without haste, and nothing taken from the tool's code. A point is a pair of numbers, a
segment a pair of points. Points are in thousandths of a grid unit until they are taken to the grid.
"""

from functools import cache
from itertools import chain
from math import isqrt
from typing import NamedTuple

import joining
from joining import Refused

LEAST, MOST = -32_768, 32_767
MOST_SEGMENTS = 131_072
MOST_BYTES = 16_777_216
UNITS = {"mm10": 10, "mm100": 100, "mm1000": 1000, "in100": 100, "in1000": 1000}

# a full turn in parts, and the length of a direction
TURN, QUARTER, UNIT = 1 << 22, 1 << 20, 1 << 30


class Words(NamedTuple):
    """What the words of a command say of its drawing."""

    form: str = "loops"
    units: str = "mm100"
    chord: int = 10
    snap: int = 1
    pixel: int = 10
    text: str = None
    height: int = 900
    width: int = 100
    charspace: int = 25
    wordspace: int = 100
    linespace: int = 150
    justify: str = "left"
    mirror: str = "no"
    flip: str = "no"
    cross: str = "refuse"


# Numbers


class NotNumber(Exception):
    """The text is no number that is read."""


class TooLarge(Exception):
    """The number is above 2^53 in size."""


MOST_NUMBER = 2**53


def nearest(z, over):
    """The whole number nearest to z / over, of two the greater."""
    return (2 * z + over) // (2 * over)


def whole(text):
    """An optional minus and one to nine digits; else None."""
    digits = text[1:] if text[:1] == b"-" else text
    return int(text) if digits.isdigit() and len(digits) <= 9 else None


def without_sign(text):
    return (-1 if text[:1] == b"-" else 1), text[1:] if text[:1] in (b"+", b"-") else text


def exponent_of(text):
    sign, digits = without_sign(text)
    if not (digits.isdigit() and len(digits) <= 3):
        raise NotNumber
    return sign * int(digits)


def real(text, scale):
    """The number times the scale, rounded to the nearest, halves upwards."""
    mark = min((text.find(letter) for letter in (b"e", b"E") if letter in text), default=len(text))
    exponent = exponent_of(text[mark + 1 :]) if mark < len(text) else 0
    sign, number = without_sign(text[:mark])
    before, _, behind = number.partition(b".")
    digits = before + behind
    if not digits.isdigit() or len(digits.lstrip(b"0")) > 27:
        raise NotNumber
    size = sign * int(digits.lstrip(b"0") or b"0") * scale * 10 ** max(exponent, 0)
    rounded = nearest(size, 10 ** (len(behind) + max(-exponent, 0)))
    if abs(rounded) > MOST_NUMBER:
        raise TooLarge
    return rounded


# Lines


def lines_of(data):
    """The lines, without a carriage return at their very end; behind the last line feed there is one too."""
    return [line[:-1] if line.endswith(b"\r") else line for line in data.split(b"\n")]


def unpadded(text):
    return text.strip(b" \t")


# Arcs


def share(part, whole_square):
    return isqrt(UNIT**2 * part * part // whole_square)


def halfway(s, t):
    """The half direction of two."""
    x, y = s[0] + t[0], s[1] + t[1]
    return share(x, x * x + y * y), share(y, x * x + y * y)


@cache
def direction(u):
    """The direction at u parts of a turn: the quarter turn is halved twenty times, and then turned by quarters."""
    low, high, part = (UNIT, 0), (0, UNIT), u % QUARTER
    for bit in reversed(range(20)):
        middle = halfway(low, high)
        low, high = (middle, high) if part >> bit & 1 else (low, middle)
    x, y = low
    for _ in range(u // QUARTER % 4):
        x, y = -y, x
    return x, y


def turn_of(micro):
    """The nearest part of a turn to an angle in millionths of a degree."""
    return (8388608 * micro + 360_000_000) // 720_000_000 % TURN


def span_between(start, end):
    return (end - start) % TURN or TURN


def width_of(chord):
    return chord * TURN // 360


def pieces_over(span, width):
    return -(-span // width)


def circle_point(centre, radius, u):
    x, y = direction(u % TURN)
    return centre[0] + nearest(radius * x, UNIT), centre[1] + nearest(radius * y, UNIT)


def arc(centre, radius, start, span, chord):
    """The points of an arc, counterclockwise."""
    pieces = pieces_over(span, width_of(chord))
    return [circle_point(centre, radius, start + i * span // pieces) for i in range(pieces + 1)]


def half_bulge(bulge):
    size = abs(bulge)
    half = size * UNIT // (UNIT + isqrt(UNIT**2 + size * size))
    return half if bulge >= 0 else -half


def apex(p, q, bulge):
    """The middle of the arc from p to q."""
    x = (UNIT * (p[0] + q[0]) + bulge * (q[1] - p[1])) // (2 * UNIT)
    y = (UNIT * (p[1] + q[1]) + bulge * (p[0] - q[0])) // (2 * UNIT)
    return x, y


def is_flat(bulge, chord):
    x, y = direction(chord * QUARTER // 360)
    return abs(bulge) * x <= UNIT * y + 1024 * x


MOST_HALVED = 10


def halvings(bulge, chord):
    count = 0
    while count < MOST_HALVED and not is_flat(bulge, chord):
        bulge, count = half_bulge(bulge), count + 1
    return count


def points_behind(p, q, bulge, halved):
    if halved == 0:
        return [q]
    middle, half = apex(p, q, bulge), half_bulge(bulge)
    return points_behind(p, middle, half, halved - 1) + points_behind(middle, q, half, halved - 1)


def bent(p, q, bulge, chord):
    """The points of the arc from p to q of this bulge."""
    return [p] + points_behind(p, q, bulge, halvings(bulge, chord))


class OffGrid(Exception):
    """A point leaves the grid."""


def is_coordinate(z):
    return LEAST <= z <= MOST


def on_grid(point):
    x, y = (nearest(z, 1000) for z in point)
    if not (is_coordinate(x) and is_coordinate(y)):
        raise OffGrid
    return x, y


def along(points):
    """The segments between successive points that differ, on the grid."""
    places = [on_grid(point) for point in points]
    return [(p, q) for p, q in zip(places, places[1:]) if p != q]


# DXF

MOST_END, MOST_ROUND, MOST_ANGLE, MOST_BULGE = 10**8, 10**11, 10**11, 10**4 * UNIT
NAMED = {"LINE": (10, 11, 20, 21), "CIRCLE": (10, 20, 40), "ARC": (10, 20, 40, 50, 51), "POLYLINE": (70,), "VERTEX": (10, 20, 42, 70)}
NEEDED = {**NAMED, "POLYLINE": (), "VERTEX": (10, 20)}
UNREADABLE, LARGE = "unreadable", "too large"


class Pair(NamedTuple):
    at: int
    code: int
    value: bytes


def dxf_fault(pair, words):
    return Refused(f"input dxf pair {pair} {words}")


def code_of(text):
    code = whole(text)
    return code if len(text.removeprefix(b"-")) <= 4 else None


def pairs_of(data):
    """The pairs before the end of the file, and the fault where it breaks off."""
    lines = [unpadded(line) for line in lines_of(data)]
    if data[-1:] in (b"\n", b""):
        lines.pop()
    pairs = []
    for at in range(1, len(lines) + 2):
        text, *value = lines[2 * at - 2 : 2 * at] or [None]
        if text is None:
            return pairs, dxf_fault(at, "unended")
        code = code_of(text)
        if code is None:
            return pairs, dxf_fault(at, "bad code")
        if not value:
            return pairs, dxf_fault(at, "unended")
        if (code, value[0]) == (0, b"EOF"):
            return pairs, None
        pairs.append(Pair(at, code, value[0]))


def reading(per_unit, pair):
    if pair.code == 70:
        return int(pair.value) if pair.value.isdigit() and len(pair.value) <= 9 else UNREADABLE
    scale = {42: UNIT, 50: 10**6, 51: 10**6}.get(pair.code, 1000 * per_unit)
    try:
        return real(pair.value, scale)
    except NotNumber:
        return UNREADABLE
    except TooLarge:
        return LARGE


class Slots:
    """What the pairs of an entity say: the last reading of each code that it looks at, and the pairs that can't be read."""

    def __init__(self, kind, at, fields, per_unit):
        self.kind, self.at, self.last, self.unreadable = kind, at, {}, []
        for pair in fields:
            if pair.code in NAMED[kind]:
                said = reading(per_unit, pair)
                self.last[pair.code] = said
                if said == UNREADABLE:
                    self.unreadable.append(pair)

    def flags(self):
        said = self.last.get(70, 0)
        return said if isinstance(said, int) else 0

    def missing(self):
        return next((code for code in NEEDED[self.kind] if code not in self.last), None)

    def number(self, code, most):
        """The number, where it isn't too large; 0 where there is none."""
        said = self.last.get(code, 0)
        if not isinstance(said, int) or abs(said) > most:
            raise OffGrid
        return said

    def point(self, x, y, most):
        return self.number(x, most), self.number(y, most)

    def radius(self):
        radius = self.number(40, MOST_ROUND)
        if radius < 0:
            raise OffGrid
        return radius


def shape_points(slots, chord):
    if slots.kind == "LINE":
        return [slots.point(10, 20, MOST_END), slots.point(11, 21, MOST_END)]
    start, span = 0, TURN
    if slots.kind == "ARC":
        start, end = (turn_of(slots.number(code, MOST_ANGLE)) for code in (50, 51))
        span = span_between(start, end)
    return arc(slots.point(10, 20, MOST_ROUND), slots.radius(), start, span, chord)


def shape_segments(slots, chord):
    """Those of a LINE, a CIRCLE or an ARC."""
    if slots.unreadable:
        raise dxf_fault(slots.unreadable[0].at, "number")
    if slots.missing() is not None:
        raise dxf_fault(slots.at, f"missing {slots.missing()}")
    try:
        return along(shape_points(slots, chord))
    except OffGrid:
        raise dxf_fault(slots.at, "out of range") from None


def is_frame(vertex):
    """A point of a curve's frame, which is passed over."""
    return bool(vertex.flags() & 16)


def faults_of(vertex):
    """The pairs that can't be read, of those that count."""
    return [pair for pair in vertex.unreadable if pair.code == 70 or not is_frame(vertex)]


def round_again(corners):
    return corners + corners[:1] if len(corners) > 1 else corners


def polyline_segments(head, vertices, chord):
    for vertex in vertices:
        if faults_of(vertex):
            raise dxf_fault(faults_of(vertex)[0].at, "number")
    placed = [vertex for vertex in vertices if not is_frame(vertex)]
    for vertex in placed:
        if vertex.missing() is not None:
            raise dxf_fault(vertex.at, f"missing {vertex.missing()}")
    try:
        corners = [(vertex.point(10, 20, MOST_END), vertex.number(42, MOST_BULGE)) for vertex in placed]
        corners = round_again(corners) if head.flags() & 1 else corners
        return list(chain.from_iterable(along(bent(p, q, bulge, chord)) for (p, bulge), (q, _) in zip(corners, corners[1:])))
    except OffGrid:
        raise dxf_fault(head.at, "out of range") from None


def is_mesh(head):
    return bool(head.flags() & (16 | 64))


class Dxf:
    """The section of entities, pair by pair."""

    def __init__(self, data, per_unit, chord):
        self.pairs, self.broken = pairs_of(data)
        self.per_unit, self.chord = per_unit, chord
        self.segments, self.skipped, self.inside, self.head, self.vertices = [], 0, False, None, []

    def slots(self, kind, at):
        """What the pairs of the entity say that begins at this pair."""
        fields = []
        for pair in self.pairs[at:]:
            if pair.code == 0:
                return Slots(kind, at, fields, self.per_unit)
            fields.append(pair)
        if self.broken:
            raise self.broken
        return Slots(kind, at, fields, self.per_unit)

    def add(self, at, segments):
        if len(self.segments) + len(segments) > MOST_SEGMENTS:
            raise dxf_fault(at, "too many")
        self.segments += segments

    def follow(self, at, name):
        """A pair of code 0 along a POLYLINE."""
        if name == b"VERTEX":
            self.vertices.append(self.slots("VERTEX", at))
            return
        head, self.head = self.head, None
        if name != b"SEQEND":
            raise dxf_fault(head.at, "unended")
        if head.unreadable:
            raise dxf_fault(head.unreadable[0].at, "number")
        if is_mesh(head):
            self.skipped += 1
        else:
            self.add(head.at, polyline_segments(head, self.vertices, self.chord))

    def enter(self, at, name):
        """A pair of code 0 within the section."""
        if name == b"ENDSEC":
            self.inside = False
        elif name in (b"LINE", b"CIRCLE", b"ARC"):
            self.add(at, shape_segments(self.slots(name.decode(), at), self.chord))
        elif name == b"POLYLINE":
            self.head, self.vertices = self.slots("POLYLINE", at), []
        elif name != b"SECTION":
            self.skipped += 1

    def read(self):
        for pair, after in zip(self.pairs, self.pairs[1:] + [None]):
            if pair.code != 0:
                continue
            if self.head:
                self.follow(pair.at, pair.value)
            elif self.inside:
                self.enter(pair.at, pair.value)
            else:
                self.inside = pair.value == b"SECTION" and after is not None and after[1:] == (2, b"ENTITIES")
        if self.broken:
            raise self.broken
        if self.head:
            raise dxf_fault(self.head.at, "unended")
        return self.segments, self.skipped


def dxf(data, words):
    segments, skipped = Dxf(data, UNITS[words.units], words.chord).read()
    return joining.snapped(segments, words.snap), skipped


# CXF

MOST_LENGTH = 10**9
ELEMENTS = {b"L": 4, b"A": 5, b"AR": 5}


class Faulty(Exception):
    """The words of a line's fault."""


def is_character(number):
    return number < 0xD800 or 0xE000 <= number <= 0x10FFFF


def first_character(text):
    """The first character and what stands behind it; a byte that begins none is the character of its number."""
    for size in range(1, 5):
        try:
            return ord(text[:size].decode()), text[size:]
        except (UnicodeDecodeError, TypeError):
            pass
    return text[0], text[1:]


def key_of(text):
    """The character that stands behind the bracket of a line."""
    number, bracket, _ = text[1:].partition(b"]")
    if text[:1] == b"#" and bracket and 1 <= len(number) <= 6 and all(byte in b"0123456789abcdefABCDEF" for byte in number):
        if not is_character(int(number, 16)):
            raise Faulty("syntax")
        return int(number, 16)
    if not text:
        raise Faulty("syntax")
    character, behind = first_character(text)
    if behind[:1] != b"]":
        raise Faulty("syntax")
    return character


def number_in(text, low, high):
    try:
        number = real(text, 10**6)
    except (NotNumber, TooLarge):
        raise Faulty("number") from None
    if not low <= number <= high:
        raise Faulty("number")
    return number


def element_of(line):
    blank = next((i for i, byte in enumerate(line) if byte in b" \t"), None)
    if blank is None:
        raise Faulty("syntax")
    letter, fields = line[:blank], [unpadded(field) for field in line[blank:].split(b",")]
    if ELEMENTS.get(letter) != len(fields):
        raise Faulty("syntax")
    lows = [-MOST_LENGTH] * 4 if letter == b"L" else [-MOST_LENGTH, -MOST_LENGTH, 0, -MOST_ANGLE, -MOST_ANGLE]
    highs = [MOST_LENGTH] * 4 if letter == b"L" else [MOST_LENGTH] * 3 + [MOST_ANGLE] * 2
    return letter, [number_in(*limits) for limits in zip(fields, lows, highs)]


def first_glyphs(glyphs):
    """Of each character the first glyph."""
    return dict(reversed(glyphs))


def font_of(data):
    """The elements of each character."""
    glyphs = []
    for number, line in enumerate(lines_of(data), 1):
        line = unpadded(line)
        try:
            if line[:1] == b"[":
                glyphs.append((key_of(line[1:]), []))
            elif line and line[:1] != b"#" and glyphs:
                glyphs[-1][1].append(element_of(line))
        except Faulty as fault:
            raise Refused(f"input cxf line {number} {fault}") from None
    return first_glyphs(glyphs)


def element_points(element, chord):
    """The points of an element, in millionths of a font unit."""
    letter, numbers = element
    if letter == b"L":
        return [tuple(numbers[:2]), tuple(numbers[2:])]
    x, y, radius, *angles = numbers
    start, end = map(turn_of, angles)
    if letter == b"AR":
        return arc((x, y), radius, end, span_between(end, start), chord)[::-1]
    return arc((x, y), radius, start, span_between(start, end), chord)


class Line:
    """A line of lettering: its points in thousandths of a grid unit, element by element, with the pen."""

    def __init__(self, words, base):
        self.words, self.base, self.pen, self.elements = words, base, 0, []

    def blank(self):
        self.pen += self.words.height * self.words.wordspace * 10

    def across(self, x):
        return nearest(x * self.words.height * self.words.width, 900_000)

    def glyph(self, elements):
        points = [element_points(element, self.words.chord) for element in elements]
        for places in points:
            self.elements.append([(self.pen + self.across(x), self.base + nearest(y * self.words.height, 9000)) for x, y in places])
        widest = max((self.across(x) for places in points for x, _ in places), default=0)
        self.pen += max(widest, 0) + self.words.height * self.words.charspace * 10

    def placed(self):
        width = max(0, max((x for points in self.elements for x, _ in points), default=0))
        shift = {"left": 0, "center": width // 2, "right": width}[self.words.justify]
        turned, upside = -1 if self.words.mirror == "yes" else 1, -1 if self.words.flip == "yes" else 1
        return [[(turned * (x - shift), upside * y) for x, y in points] for points in self.elements]


def base_of(words, number):
    return -number * words.height * words.linespace * 10


def lay(font, words):
    """The segments of a text."""
    for place, letter in enumerate(words.text):
        if letter not in " \n" and ord(letter) not in font:
            raise Refused(f"input lay no glyph {place}")
    elements = []
    for number, text in enumerate(words.text.split("\n")):
        line = Line(words, base_of(words, number))
        for letter in text:
            line.blank() if letter == " " else line.glyph(font[ord(letter)])
        elements += line.placed()
    try:
        segments = list(chain.from_iterable(map(along, elements)))
    except OffGrid:
        raise Refused("input lay out of range") from None
    if len(segments) > MOST_SEGMENTS:
        raise Refused("input lay too many")
    return segments


def cxf(data, words):
    return joining.snapped(lay(font_of(data), words), words.snap), None


# PBM

MOST_SIDE = 8191
SPACE = b" \t\n\v\f\r"


def pbm_fault(word):
    return Refused(f"input pbm {word}")


def behind_space(data, at):
    """The place behind white space and comments, of which there is some."""
    start = at
    while at < len(data) and (data[at] in SPACE or data[at] == ord("#")):
        if data[at] == ord("#"):
            at = data.find(b"\n", at) if b"\n" in data[at:] else len(data)
        else:
            at += 1
    if at == start:
        raise pbm_fault("header")
    return at


def side_at(data, at):
    """A number of one to five digits behind white space, and the place behind it."""
    at = behind_space(data, at)
    end = at
    while data[end : end + 1].isdigit():
        end += 1
    if not 1 <= end - at <= 5:
        raise pbm_fault("header")
    return int(data[at:end]), end


def plain_pixels(data, count):
    black = []
    for byte in data:
        if len(black) == count:
            break
        if byte in b"01":
            black.append(byte == ord("1"))
        elif byte not in SPACE:
            raise pbm_fault("pixel")
    if len(black) < count:
        raise pbm_fault("short")
    return black


def bit_of(byte, col):
    return bool(byte >> (7 - col % 8) & 1)


def packed_pixels(data, width, height):
    row = (width + 7) // 8
    if len(data) < row * height:
        raise pbm_fault("short")
    return [bit_of(data[y * row + x // 8], x) for y in range(height) for x in range(width)]


def bitmap_of(data):
    """The width and the black pixels, row by row from the top."""
    if data[:2] not in (b"P1", b"P4"):
        raise pbm_fault("magic")
    width, at = side_at(data, 2)
    height, at = side_at(data, at)
    if data[at : at + 1] not in [bytes([byte]) for byte in SPACE]:
        raise pbm_fault("header")
    if not (1 <= width <= MOST_SIDE and 1 <= height <= MOST_SIDE):
        raise pbm_fault("size")
    rest = data[at + 1 :]
    return width, height, plain_pixels(rest, width * height) if data[:2] == b"P1" else packed_pixels(rest, width, height)


def runs(sides):
    """The maximal runs of equal sides of the boundary: where each begins and ends, and which way it goes."""
    found, begun = [], 0
    for i in range(1, len(sides) + 1):
        if i == len(sides) or sides[i] != sides[begun]:
            if sides[begun]:
                found.append((begun, i, sides[begun]))
            begun = i
    return found


def boundary(width, height, black):
    """The sides between black and white, in pixels: those across from the top, then those up from the left."""

    def is_black(x, y):
        return 0 <= x < width and 0 <= y < height and black[y * width + x]

    segments = []
    for k in range(height + 1):
        sides = [is_black(i, k - 1) - is_black(i, k) for i in range(width)]
        segments += [((a, height - k), (b, height - k))[::way] for a, b, way in runs(sides)]
    for k in range(width + 1):
        sides = [is_black(k - 1, height - 1 - i) - is_black(k, height - 1 - i) for i in range(height)]
        segments += [((k, a), (k, b))[::way] for a, b, way in runs(sides)]
    return segments


def pbm(data, words):
    width, height, black = bitmap_of(data)
    if max(width, height) * words.pixel > MOST:
        raise Refused("input pixels out of range")
    segments = boundary(width, height, black)
    if len(segments) > MOST_SEGMENTS:
        raise Refused("input pixels too many")
    return [tuple((x * words.pixel, y * words.pixel) for x, y in ends) for ends in segments], None


# Loops


def loops_fault(at, words):
    return Refused(f"input loops {at} {words}")


def words_of(data):
    """The words of each line with some, each with its place."""
    start = 0
    for line in data.split(b"\n"):
        shown, words = line[:-1] if line.endswith(b"\r") else line, []
        at = 0
        for word in shown.replace(b"\t", b" ").split(b" "):
            if word:
                words.append((start + at, word))
            at += len(word) + 1
        start += len(line) + 1
        if words and words[0][1][:1] != b"#":
            yield words


def point_of(at, word):
    x, comma, y = word.partition(b",")
    point = whole(x), whole(y)
    if not comma or None in point:
        raise loops_fault(at, "syntax")
    if not all(map(is_coordinate, point)):
        raise loops_fault(at, "out of range")
    return point


def loops_read(data, words):
    loops, count = [], 0
    for line in words_of(data):
        loop = []
        for at, word in line:
            point = point_of(at, word)
            if loop[-1:] == [point]:
                raise loops_fault(at, "same point")
            if count == MOST_SEGMENTS:
                raise loops_fault(at, "too many")
            loop.append(point)
            count += 1
        if len(loop) < 2:
            raise loops_fault(line[0][0], "short")
        if loop[0] == loop[-1]:
            raise loops_fault(line[-1][0], "same point")
        loops.append(loop)
    return loops


# All together


def is_guarded(words):
    """Edges that cross are refused, unless the even-odd rule is to decide what is inside."""
    return words.cross != "evenodd"


def guarded(loops, words):
    crossing = joining.first_crossing(joining.edges_of(loops)) if is_guarded(words) else None
    if crossing:
        raise Refused("input cross %d,%d" % crossing)
    return loops


def drawing_of(data, words):
    """The loops, and how many entities were skipped, where the form skips any."""
    if len(data) > MOST_BYTES:
        raise Refused("input too long drawing")
    if words.form == "loops":
        return guarded(loops_read(data, words), words), None
    segments, skipped = {"dxf": dxf, "cxf": cxf, "pbm": pbm}[words.form](data, words)
    return guarded(joining.joined(segments), words), skipped


def strokes_of(data, words):
    """The strokes of a file of open lines: its segments, snapped and not joined."""
    if len(data) > MOST_BYTES:
        raise Refused("input too long drawing")
    return {"dxf": dxf, "cxf": cxf}[words.form](data, words)[0]


def loops_text(loops):
    return "".join(" ".join(f"{x},{y}" for x, y in loop) + "\n" for loop in loops)


def flattened(data, words):
    """The status and the text of `flatten`."""
    try:
        loops, skipped = drawing_of(data, words)
    except Refused as refused:
        return 3, f"{refused}\n"
    return 0, ("" if skipped is None else f"# skipped {skipped}\n") + loops_text(loops)
