"""Wrong rules of the forms of drawings, which the comparison has to find out; of each the function, and the wrong one.

To take a number above 2^53 isn't wrong: no code's own limit is above it. Nor is an end of a LINE of any size: off the grid it is
out of range anyhow.
"""

import forms as f
import joining as j

APEX, CROSSES, ELEMENT, PIXELS = f.apex, j.meets_wrongly, f.element_points, f.plain_pixels


def halves_down(z, over):
    return -((over - 2 * z) // (2 * over))


def bulged_the_other_way(p, q, bulge):
    return APEX(p, q, -bulge)


def nearest_kept(kept, p, tolerance):
    found = [q for q in kept if j.is_near(p, q, tolerance)]
    return min(found, key=lambda q: (p[0] - q[0]) ** 2 + (p[1] - q[1]) ** 2, default=None)


def latest_kept(kept, p, tolerance):
    return next((q for q in reversed(kept) if j.is_near(p, q, tolerance)), None)


def last_with_end(segments, p):
    return max(i for i, ends in enumerate(segments) if p in ends)


def by_the_second(edges):
    """The first pair by the second number, and then the first."""
    pairs = ((i, k) for k in range(len(edges)) for i in range(k))
    boxes = [j.box_of(ends) for ends in edges]
    return next(((i, k) for i, k in pairs if not j.are_apart(boxes[i], boxes[k]) and j.meets_wrongly(edges[i], edges[k])), None)


def never_along(s, t):
    return j.cross(j.way(*s), j.way(*t)) != 0 and CROSSES(s, t)


def pixel_by_pixel(sides):
    return [(i, i + 1, side) for i, side in enumerate(sides) if side]


def without_comments(data, count):
    lines = [line.split(b"#")[0] for line in data.split(b"\n")]
    return PIXELS(b"\n".join(lines), count)


def counterclockwise(element, chord):
    letter, numbers = element
    return ELEMENT((b"A" if letter == b"AR" else letter, numbers), chord)


def not_reversed(element, chord):
    points = ELEMENT(element, chord)
    return points[::-1] if element[0] == b"AR" else points


def angle_down(micro):
    return f.TURN * micro // 360_000_000 % f.TURN


def without_return(data):
    return data.split(b"\n")


def one_less(span, width):
    return max(1, span // width)


def plainly_halved(bulge):
    return bulge // 2


def exactly_flat(bulge, chord):
    x, y = f.direction(chord * f.QUARTER // 360)
    return abs(bulge) * x <= f.UNIT * y


WRONG_FORMS = {
    "number-down": ("nearest", lambda z, over: z // over),
    "number-halves-down": ("nearest", halves_down),
    "exponent-left-out": ("exponent_of", lambda text: 0),
    "exponent-turned": ("exponent_of", lambda text: -int(text)),
    "return-kept": ("lines_of", without_return),
    "blanks-kept": ("unpadded", lambda text: text),
    "angle-down": ("turn_of", angle_down),
    "no-full-turn": ("span_between", lambda start, end: max(1, (end - start) % f.TURN)),
    "arc-the-other-way": ("span_between", lambda start, end: (start - end) % f.TURN or f.TURN),
    "piece-less": ("pieces_over", one_less),
    "chord-doubled": ("width_of", lambda chord: 2 * chord * f.TURN // 360),
    "bulge-to-the-left": ("apex", bulged_the_other_way),
    "bulge-halved-plainly": ("half_bulge", plainly_halved),
    "bulge-without-tolerance": ("is_flat", exactly_flat),
    "polyline-open": ("round_again", lambda corners: corners),
    "frame-taken": ("is_frame", lambda vertex: False),
    "mesh-taken": ("is_mesh", lambda head: False),
    "code-of-any-length": ("code_of", f.whole),
    "round-of-any-size": ("MOST_ROUND", 10**400),
    "angle-of-any-size": ("MOST_ANGLE", 10**400),
    "bulge-of-any-size": ("MOST_BULGE", 10**400),
    "grid-by-one": ("is_coordinate", lambda z: f.LEAST < z <= f.MOST + 1),
    "snap-nearest": ("earliest_near", nearest_kept),
    "snap-latest": ("earliest_near", latest_kept),
    "snap-excluded": ("is_near", lambda p, q, tolerance: p == q or max(abs(p[0] - q[0]), abs(p[1] - q[1])) < tolerance),
    "snap-round": ("is_near", lambda p, q, tolerance: (p[0] - q[0]) ** 2 + (p[1] - q[1]) ** 2 <= tolerance**2),
    "never-snapped": ("snapped", lambda segments, tolerance: segments),
    "join-last": ("first_with_end", last_with_end),
    "touching-taken": ("is_end_of_both", lambda point, s, t: point in s or point in t),
    "sharing-refused": ("is_end_of_both", lambda point, s, t: False),
    "overlap-taken": ("meets_wrongly", never_along),
    "crossing-by-the-second": ("first_crossing", by_the_second),
    "no-guard": ("first_crossing", lambda edges: None),
    "guarded-all-the-same": ("is_guarded", lambda words: True),
    "refusal-forgotten": ("is_guarded", lambda words: False),
    "last-glyph": ("first_glyphs", dict),
    "surrogates-taken": ("is_character", lambda number: True),
    "clockwise-as-counterclockwise": ("element_points", counterclockwise),
    "clockwise-not-reversed": ("element_points", not_reversed),
    "lines-upwards": ("base_of", lambda words, number: number * words.height * words.linespace * 10),
    "bit-from-the-right": ("bit_of", lambda byte, col: bool(byte >> col % 8 & 1)),
    "sides-by-pixel": ("runs", pixel_by_pixel),
    "comments-in-pixels": ("plain_pixels", without_comments),
}
