"""What stands in the attributes of SVG files: numbers, lengths, transforms, view boxes and styles, as exact fractions.

A matrix is six numbers a b c d e f, which take x y to a x + c y + e and b x + d y + f. Cosines and sines have 40 digits.
"""

import math
import re
from fractions import Fraction

NUMBER = re.compile(r"[+-]?(?:[0-9]+\.?[0-9]*|\.[0-9]+)(?:[eE][+-]?[0-9]+)?")
GAP = re.compile(r"[ \t\r\n\f]*,?[ \t\r\n\f]*")
LENGTH = re.compile(rf"\s*({NUMBER.pattern}?)\s*(px|mm|cm|in|pt|pc|Q|%|)\s*")
TRANSFORM = re.compile(r"\s*,?\s*([A-Za-z]+)\s*\(([^()]*)\)\s*")
LONGEST_NUMBER, GREATEST_EXPONENT = 60, 99

# So many of each unit are an inch.
IN_AN_INCH = {"in": Fraction(1), "mm": Fraction(254, 10), "cm": Fraction(254, 100), "pt": Fraction(72), "pc": Fraction(6), "Q": Fraction(1016, 10)}

UNCHANGED = (Fraction(1), Fraction(0), Fraction(0), Fraction(1), Fraction(0), Fraction(0))
SCALE = 10 ** 40
PI = 31415926535897932384626433832795028841971


class SvgFault(Exception):
    """Why a file isn't taken: a kind, and the name of the element where it comes."""


def number(text):
    """The value of a number, exactly."""
    exponent = re.split("[eE]", text)[1:]
    if not NUMBER.fullmatch(text) or len(text) > LONGEST_NUMBER or (exponent and abs(int(exponent[0])) > GREATEST_EXPONENT):
        raise SvgFault("number")
    return Fraction(text)


def numbers(text):
    """The numbers of a list that are parted by blanks or commas."""
    found, at = [], GAP.match(text).end()
    while at < len(text):
        match = NUMBER.match(text, at)
        if not match:
            raise SvgFault("number")
        found.append(number(match[0]))
        at = GAP.match(text, match.end()).end()
    return found


def length(text, whole, ppi):
    """A length in pixels; a percentage is one of `whole`, of which there may be none."""
    match = LENGTH.fullmatch(text)
    if not match or not match[1] or (match[2] == "%" and whole is None):
        raise SvgFault("length")
    value = number(match[1])
    if match[2] == "%":
        return value * whole / 100
    return value * ppi / IN_AN_INCH[match[2]] if match[2] in IN_AN_INCH else value


def cosine_and_sine(degrees):
    """Both of an angle in degrees, from their series; exact at the quarter turns."""
    quarters, rest = divmod(degrees % 360, 90)
    angle, term, sums = int(rest * PI / 180), SCALE, [0, 0, 0, 0]
    for power in range(60):
        sums[power % 4] += term
        term = term * angle // (SCALE * (power + 1))
    cosine, sine = Fraction(sums[0] - sums[2], SCALE), Fraction(sums[1] - sums[3], SCALE)
    for _ in range(int(quarters)):
        cosine, sine = -sine, cosine
    return cosine, sine


def product(outer, inner):
    """The matrix that takes a point by the inner one, and then by the outer one."""
    a, b, c, d, e, f = outer
    g, h, i, j, k, m = inner
    return (a * g + c * h, b * g + d * h, a * i + c * j, b * i + d * j, a * k + c * m + e, b * k + d * m + f)


def moved(matrix, point):
    a, b, c, d, e, f = matrix
    return (a * point[0] + c * point[1] + e, b * point[0] + d * point[1] + f)


def translation(x, y):
    return (Fraction(1), Fraction(0), Fraction(0), Fraction(1), Fraction(x), Fraction(y))


def one_transform(name, values):
    """The matrix of one word of a transform, by its name and how many numbers it has."""
    zero, one = Fraction(0), Fraction(1)
    match (name, values):
        case ("matrix", [_, _, _, _, _, _]):
            return tuple(values)
        case ("translate", [x]):
            return translation(x, 0)
        case ("translate", [x, y]):
            return translation(x, y)
        case ("scale", [x]):
            return (x, zero, zero, x, zero, zero)
        case ("scale", [x, y]):
            return (x, zero, zero, y, zero, zero)
        case ("rotate", [degrees]):
            cosine, sine = cosine_and_sine(degrees)
            return (cosine, sine, -sine, cosine, zero, zero)
        case ("rotate", [degrees, x, y]):
            return product(translation(x, y), product(one_transform(name, [degrees]), translation(-x, -y)))
        case ("skewX" | "skewY", [degrees]):
            cosine, sine = cosine_and_sine(degrees)
            if cosine:
                lean = sine / cosine
                return (one, zero, lean, one, zero, zero) if name == "skewX" else (one, lean, zero, one, zero, zero)
    raise SvgFault("transform")


def transform(text):
    """The matrix of an attribute `transform`; of its words the last is applied first."""
    matrix, at = UNCHANGED, 0
    text = "" if text.strip() == "none" else text.rstrip()
    while at < len(text):
        match = TRANSFORM.match(text, at)
        if not match:
            raise SvgFault("transform")
        matrix, at = product(matrix, one_transform(match[1], numbers(match[2]))), match.end()
    return matrix


def view_box(text):
    """The four numbers of an attribute `viewBox`, its sides greater than 0."""
    box = numbers(text)
    if len(box) != 4 or box[2] <= 0 or box[3] <= 0:
        raise SvgFault("viewBox")
    return box


def fitted(box, width, height, aspect):
    """The matrix that puts a view box into a rectangle of these sides, as `preserveAspectRatio` says."""
    words = [word for word in aspect.split() if word != "defer"] or ["xMidYMid"]
    match = re.fullmatch(r"none|x(Min|Mid|Max)Y(Min|Mid|Max)", words[0])
    if not match or words[1:] not in ([], ["meet"], ["slice"]):
        raise SvgFault("preserveAspectRatio")
    across, down = width / box[2], height / box[3]
    if words[0] != "none":
        across = down = (max if words[1:] == ["slice"] else min)(across, down)
    parts = {None: Fraction(0), "Min": Fraction(0), "Mid": Fraction(1, 2), "Max": Fraction(1)}
    x = parts[match[1]] * (width - box[2] * across) - box[0] * across
    y = parts[match[2]] * (height - box[3] * down) - box[1] * down
    return (across, Fraction(0), Fraction(0), down, x, y)


def diagonal(width, height):
    """What a percentage of a radius is one of."""
    return Fraction(math.hypot(width, height)) / Fraction(math.sqrt(2))


def declarations(text):
    """The properties of a style, by their names."""
    pairs = [part.partition(":") for part in re.sub(r"/\*.*?\*/", " ", text, flags=re.S).split(";")]
    return {name.strip().lower(): re.sub(r"!\s*important\s*$", "", value).strip() for name, colon, value in pairs if colon}


def sheet_rules(text):
    """The rules of a style sheet that are read: how heavy each one is, its element, classes and ids, and its properties; and how many aren't."""
    rules, unread = [], 0
    text = re.sub(r"/\*.*?\*/|<!--|-->", " ", text, flags=re.S)
    for selectors, body in re.findall(r"([^{}]*)\{([^{}]*)\}", text):
        for selector in selectors.split(","):
            match = re.fullmatch(r"\s*(\*|[\w-]+|)((?:[.#][\w-]+)*)\s*", selector)
            if match and selector.strip():
                classes, names = re.findall(r"\.([\w-]+)", match[2]), re.findall(r"#([\w-]+)", match[2])
                heavy = (len(names), len(classes), match[1] not in ("", "*"))
                rules.append((heavy, match[1], classes, names, declarations(body)))
            else:
                unread += 1
    return sorted(rules, key=lambda rule: rule[0]), unread + text.count("@")
