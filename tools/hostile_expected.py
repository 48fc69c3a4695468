"""Says which status and text are due for words and files: a plain reading of the manual, apart from the program."""

import re
from fractions import Fraction
from math import isqrt

import forms
import joining

MOST_DRAWING, MOST_CODE = 16_777_216, 536_870_912
MOST_PIECES, MOST_CONTACTS = 8192, 1_048_576
MOST_CHAINS, MOST_NODES, MOST_STEPS = 131_072, 4_194_304, 256
MOST_REPORTED = 16_777_216
PER_UNIT = {b"mm10": 10, b"mm100": 100, b"mm1000": 1000, b"in100": 100, b"in1000": 1000}
# The options of a drawing, and what the numbers of each range over.
SHAPE = {b"chord": (1, 90), b"snap": (0, 16), b"pixel": (1, 1000), b"height": (1, 32_767), b"width": (10, 500)}
SHAPE |= {b"charspace": (0, 500), b"wordspace": (0, 500), b"linespace": (10, 500)}
SHAPE_WORDS = {b"form": b"loops dxf cxf pbm", b"units": b"mm10 mm100 mm1000 in100 in1000", b"justify": b"left center right", b"mirror": b"no yes", b"flip": b"no yes", b"cross": b"refuse evenodd"}
WAYS = b"none x y both"
# The options that are numbers: what stands between the two where there are two, and what each ranges over.
NUMBERS = {b"at": (b",", -32_768, 32_767), b"bit": (b"/", 1, 2000), b"rmax": (b"", 1, 8191), b"limit": (b"", 1, 32_767)}
NUMBERS |= {b"step": (b"", 1, 32_767), b"safe": (b"", 1, 32_767), b"feed": (b"", 1, 10_000), b"pitch": (b"", 1, 32_767)}
NUMBERS |= {b"depth": (b"", 1, 32_767), b"over": (b"", 1, 8191), b"radius": (b"", 1, 8191), b"count": (b"", 1, 80), **{name: (b"", *ends) for name, ends in SHAPE.items()}}
DRAWN = b"drawing text " + b" ".join([*SHAPE, *SHAPE_WORDS])
OPTIONS = {
    b"flatten": (DRAWN, b"drawing"),
    b"probe": (DRAWN + b" bit rmax at limit", b"drawing bit rmax at"),
    b"contacts": (DRAWN + b" step rmax", b"drawing step rmax"),
    b"moves": (b"code units", b"code"),
    b"check": (DRAWN + b" bit rmax code", b"drawing bit rmax code"),
    b"carve": (DRAWN + b" bit rmax step limit safe feed pitch pocket over", b"drawing bit rmax step"),
    b"flat": (DRAWN + b" bit rmax radius limit over safe feed pitch pocket", b"drawing bit rmax radius"),
    b"cover": (DRAWN + b" bit rmax code pitch", b"drawing bit rmax code"),
    b"strokes": (DRAWN + b" bit rmax depth safe feed pitch", b"drawing bit rmax depth"),
    b"repair": (DRAWN + b" bit rmax code safe feed", b"drawing bit rmax code"),
    b"trial": (b"count", b"count"),
}
KNOWN = {name for known, _ in OPTIONS.values() for name in known.split()}
G_TAKEN = {Fraction(number, 10) for number in (170, 200, 210, 400, 490, 540, 610, 640, 800, 900, 911, 940)}


class Refusal(Exception):
    """A status and its line."""


def named_values(words):
    """The command and the values of its options, as they are written."""
    if not words or words[0] not in OPTIONS:
        raise Refusal(2, b"usage\n")
    known, required = (names.split() for names in OPTIONS[words[0]])
    values, rest = {}, list(words[1:])
    if rest[-1:] == [b"--"]:
        rest.pop()
    while rest:
        word = rest.pop(0)
        name, equals, value = word[2:].partition(b"=")
        if not equals and rest and (rest[0] == b"-" or not rest[0].startswith(b"-")):
            equals, value = b"=", rest.pop(0)
        if not word.startswith(b"--") or name not in known or name in values or not equals:
            raise Refusal(2, b"usage\n")
        values[name] = value
    if not all(name in values for name in required):
        raise Refusal(2, b"usage\n")
    return words[0], values


def numbers(text, separator, low, high):
    """The numbers that a value writes, each in the range."""
    parts = text.split(separator) if separator else [text]
    if len(parts) != 1 + len(separator) or not all(re.fullmatch(rb"-?[0-9]{1,9}", part) for part in parts):
        raise Refusal(2, b"usage\n")
    if not all(low <= int(part) <= high for part in parts):
        raise Refusal(2, b"usage\n")
    return [int(part) for part in parts]


def request(words):
    """The command, its values, and its numbers, where the words are taken."""
    command, values = named_values(words)
    taken = {name: numbers(values[name], *form) for name, form in NUMBERS.items() if name in values}
    if any(name in values and values[name] not in known.split() for name, known in {**SHAPE_WORDS, b"pocket": WAYS}.items()):
        raise Refusal(2, b"usage\n")
    if b"text" in values and not 1 <= len(values[b"text"].decode()) <= 200 or values.get(b"form") == b"cxf" and b"text" not in values:
        raise Refusal(2, b"usage\n")
    if command == b"flat" and values.get(b"pocket") == b"none":
        raise Refusal(2, b"usage\n")
    if command == b"strokes":
        (sn, sd), (rmax,), (depth,) = taken[b"bit"], taken[b"rmax"], taken[b"depth"]
        if values.get(b"form") not in (b"dxf", b"cxf") or sn * depth > sd * rmax:
            raise Refusal(2, b"usage\n")
    return command, values, taken


def read_by(read, values, taken, data):
    """What is read of a drawing's file by its words."""
    said = {name.decode(): values[name].decode() for name in (*SHAPE_WORDS, b"text") if name in values}
    said |= {name.decode(): taken[name][0] for name in SHAPE if name in taken}
    try:
        return read(data, forms.Words(**said))
    except joining.Refused as refused:
        raise Refusal(3, str(refused).encode() + b"\n") from None


def square_apart(p, a, b):
    """The squared distance of a point from an edge."""
    dx, dy, px, py = b[0] - a[0], b[1] - a[1], p[0] - a[0], p[1] - a[1]
    along, whole = px * dx + py * dy, dx * dx + dy * dy
    if along <= 0:
        return Fraction(px * px + py * py)
    if along >= whole:
        return Fraction((p[0] - b[0]) ** 2 + (p[1] - b[1]) ** 2)
    return Fraction((px * dy - py * dx) ** 2, whole)


def greatest_depth(edges, p, bit, rmax, limit):
    """The greatest whole depth at which the bit over the point touches the edges at most."""
    is_inside, depth = False, min(limit, bit[1] * rmax // bit[0])
    for a, b in edges:
        depth = min(depth, isqrt(int(square_apart(p, a, b) * bit[1] ** 2 / bit[0] ** 2)))
        if (a[1] <= p[1]) != (b[1] <= p[1]):
            side = (b[0] - a[0]) * (p[1] - a[1]) - (b[1] - a[1]) * (p[0] - a[0])
            is_inside ^= (side > 0) == (a[1] <= p[1])
    return depth if is_inside else 0


def contacts_of(edges, step):
    """How many contacts there are."""
    lengths = [isqrt((bx - ax) ** 2 + (by - ay) ** 2 - 1) + 1 for (ax, ay), (bx, by) in edges]
    pieces = [-(-length // step) for length in lengths]
    for number, count in enumerate(pieces):
        if count > MOST_PIECES:
            raise Refusal(3, b"input step too fine %d\n" % number)
    if sum(pieces) + len(pieces) > MOST_CONTACTS:
        raise Refusal(3, b"input too many contacts\n")
    return sum(pieces) + len(pieces)


def check_report(edges, pitch):
    """Refuses a report of too many points."""
    sides = [[a[axis] for a, _ in edges] for axis in (0, 1)]
    counts = [max(side) // pitch + -min(side) // pitch + 1 for side in sides if side]
    if counts and counts[0] * counts[1] > MOST_REPORTED:
        raise Refusal(3, b"input too many points\n")


def check_box(strokes, taken):
    """Refuses strokes with too many points round them."""
    if strokes:
        (sn, sd), (depth,), pitch = taken[b"bit"], taken[b"depth"], taken.get(b"pitch", [10])[0]
        reach, counts = -(-sn * depth // sd), []
        for axis in (0, 1):
            side = [end[axis] for stroke in strokes for end in stroke]
            low, high = max(min(side) - reach, -32_768), min(max(side) + reach, 32_767)
            counts.append(high // pitch + -low // pitch + 1)
        if counts[0] * counts[1] > MOST_REPORTED:
            raise Refusal(3, b"input too many points\n")


def milled(edges, way, taken):
    """How many points there are on the lines of a pocket, where there is one."""
    over, sides = taken.get(b"over", [50])[0], [[a[axis] for a, _ in edges] for axis in (0, 1)]
    wide, high = (max(side) - min(side) + 1 for side in sides) if edges else (0, 0)
    points = {b"x": wide * (high // over + 1), b"y": high * (wide // over + 1)}
    return {b"none": 0, **points, b"both": sum(points.values())}[way]


def number_of(text):
    """The number of a word of code."""
    found = re.fullmatch(rb"([-+]?)([0-9]*)\.?([0-9]*)", text)
    digits = found and found[2] + found[3]
    if not digits or len(digits.lstrip(b"0")) > 27:
        raise ValueError("number")
    return Fraction(int(digits), 10 ** len(found[3])) * (-1 if found[1] == b"-" else 1)


def judge_word(letter, text, said, units):
    """Adds to what a line says what one more word says."""
    if letter not in b"NGMXYZFSP":
        raise ValueError("word")
    value = number_of(text)
    key = letter if letter not in b"GM" else b"G0" if letter == b"G" and value in (0, 1) else None
    if key in said:
        raise ValueError("twice")
    if letter == b"G" and value in (20, 21) and (value == 20) != units.startswith(b"in"):
        raise ValueError("units")
    if letter == b"G" and value == 91:
        raise ValueError("incremental")
    if letter == b"G" and not key and value not in G_TAKEN:
        raise ValueError("word")
    if letter == b"M" and value not in (2, 3, 4, 5, 7, 8, 9, 30):
        raise ValueError("word")
    if letter in b"XYZ":
        # in tenths of a grid unit
        value *= 10 * PER_UNIT[units]
        if value.denominator != 1:
            raise ValueError("off grid")
        if not (-327_680 if letter != b"Z" else -327_670) <= value <= 327_670:
            raise ValueError("out of range")
    said[key or letter + (b" last" if letter == b"M" and value in (2, 30) else b"")] = int(value)


def said_by(line, units):
    """What a line of code says."""
    if len(line) > 1024:
        raise ValueError("long line")
    shown = re.sub(rb"\([^)]*\)|;.*", b"", line, flags=re.DOTALL)
    if b"(" in shown:
        raise ValueError("open comment")
    shown, said = shown.translate(None, b" \t").upper(), {}
    if shown != b"%":
        for word in re.finditer(rb"(.)([-+.0-9]*)", shown, re.DOTALL):
            judge_word(word[1], word[2], said, units)
    return said


def shown_number(tenths):
    """A number of tenths in grid units, with a decimal where it isn't whole."""
    sign, size = b"-" if tenths < 0 else b"", abs(tenths)
    return sign + b"%d" % (size // 10) + (b".%d" % (size % 10) if size % 10 else b"")


def moves_of(text, units):
    """The moves of a code, as the program lists them."""
    place, moves = {}, []
    for line, shown in enumerate(text.split(b"\n"), 1):
        try:
            said = said_by(shown[:-1] if shown.endswith(b"\r") else shown, units)
            after = place | {letter: said[letter] for letter in (b"X", b"Y", b"Z") if letter in said}
            if len(place) < 3 and after.get(b"Z", 0) < 0:
                raise ValueError("unplaced")
        except ValueError as fault:
            raise Refusal(3, b"input code line %d %s\n" % (line, str(fault).encode())) from None
        if len(place) == 3 and said.keys() & place.keys():
            ends = [b",".join(shown_number(end[letter]) for letter in (b"X", b"Y", b"Z")) for end in (place, after)]
            moves.append(b"%d %s %s\n" % (line, *ends))
        place = after
        if b"M last" in said:
            break
    return moves


def file_of(files, name, which, most):
    """The bytes of a file."""
    if name == b"folder":
        raise Refusal(5, b"read fault\n")
    if name not in files:
        # What stands in another folder isn't known here.
        raise Refusal(*((4, b"absent %s\n" % which) if len(name) < 256 and not {*b"./"} & {*name} else (None, None)))
    if len(files[name]) > most:
        raise Refusal(3, b"input too long %s\n" % which)
    return files[name]


def carved_title(taken):
    """The first line of a carved program."""
    return b"(bit %d/%d rmax %d limit %d step %d)" % (*taken[b"bit"], *taken[b"rmax"], *taken.get(b"limit", [32_767]), *taken[b"step"])


def empty_program(title, counts, values, taken):
    """The program that is written where nothing is drawn."""
    units = values.get(b"units", b"mm100")
    safe, zeros = taken.get(b"safe", [200])[0], len(str(PER_UNIT[units])) - 1
    setup = (b"G20" if units.startswith(b"in") else b"G21", b"G90", b"F%d" % taken.get(b"feed", [500])[0])
    up = b"G0 Z%d.%0*d" % (safe // PER_UNIT[units], zeros, safe % PER_UNIT[units])
    return b"\n".join((title, *setup, up, counts, b"M2\n"))


def due_chains(chains, edges, taken):
    """The statuses where there are no more chains than so many; few of them are never too many, and then the points are counted."""
    if chains <= MOST_CHAINS:
        check_report(edges, taken.get(b"pitch", [10])[0])
    return (0,) if chains <= MOST_CHAINS else (0, 3)


def due(words, files):
    """The statuses that may be due, and the text that is due with the first of them; None where it isn't known here."""
    try:
        for word in words:
            word.decode()
        command, values, taken = request(words)
        if command == b"trial":
            return (0,), None
        if command != b"moves":
            read = forms.strokes_of if command == b"strokes" else forms.drawing_of
            drawn = read_by(read, values, taken, file_of(files, values[b"drawing"], b"drawing", MOST_DRAWING))
        if command == b"strokes":
            # Where there are strokes, the lines are judged by their form.
            check_box(drawn, taken)
            return (0,), None
        if command != b"moves":
            loops, skipped = drawn
            edges = joining.edges_of(loops)
        if command == b"flatten":
            return (0,), (b"" if skipped is None else b"# skipped %d\n" % skipped) + forms.loops_text(loops).encode()
        if command == b"probe":
            limit = taken.get(b"limit", [32_767])[0]
            return (0,), b"depth %d\n" % greatest_depth(edges, taken[b"at"], taken[b"bit"], taken[b"rmax"][0], limit)
        if command == b"contacts":
            # Where there are some, their lines are judged by their form.
            return (0,), None if contacts_of(edges, taken[b"step"][0]) else b""
        if command == b"carve":
            # Where the contacts and the points of a pocket are few, so are the chains. What is written is judged by its form.
            chains = MOST_STEPS * contacts_of(edges, taken[b"step"][0]) + milled(edges, values.get(b"pocket", b"none"), taken)
            empty = empty_program(carved_title(taken), b"(uncut 0 of 0)", values, taken)
            return due_chains(chains, edges, taken), None if edges else empty
        if command == b"flat":
            empty = empty_program(b"(flat %d)" % taken[b"radius"][0], b"(floor 0 of 0)", values, taken)
            return due_chains(milled(edges, values.get(b"pocket", b"x"), taken), edges, taken), None if edges else empty
        moves = moves_of(file_of(files, values[b"code"], b"code", MOST_CODE), values.get(b"units", b"mm100"))
        if command == b"cover":
            # Where something is drawn, the lines are judged by their form.
            check_report(edges, taken.get(b"pitch", [10])[0])
            return (0,), None if edges else b"uncut 0 of 0\n"
        if command == b"repair":
            # The lines are judged by their form.
            return (0,), None
    except UnicodeDecodeError:
        return (8,), b""
    except Refusal as refusal:
        status, line = refusal.args
        return (range(6) if status is None else (status,)), line
    if command == b"moves":
        return (0,), b"".join(moves) + b"moves %d\n" % len(moves)
    if command == b"check":
        return (0, 1), b"clear %d moves\n" % len(moves)
    raise NotImplementedError(f"what is due for {command.decode()} isn't said here")
