#!/usr/bin/env python3
"""Makes the inputs of the benchmark: drawings of so many edges, and code of so many moves that are clear within them.

usage: make_inputs.py FOLDER   writes into the folder a ring of 10,000 edges, a field of 1,296 octagons, a name plate, 4,096
                               squares, and code of 10,000 short and long moves for the ring and for the field

The same numbers give the same files. Places of code are in tenths of a grid unit, those of drawings in grid units.
"""

import itertools
import math
import random
import sys
from pathlib import Path

# So that an import leaves no files beside the sources.
sys.dont_write_bytecode = True

ROOT = Path(__file__).resolve().parent.parent
sys.path.append(str(ROOT / "tools"))

import forms
import joining

SEED = 1

# A ring has the radius RADIUS; its edges go up and down by WAVE.
RADIUS, WAVE, WAVES = 30_000, 40, 12

# Octagons stand in a field of so many rows and columns, or at every third or ninth place of it, so that what is clear among the
# most of them is clear among fewer. They reach to OCTAGON to each side of their middle.
FIELD_ROWS, PITCH, OCTAGON, OCTAGON_SIDE, BORDER = 108, 600, 100, 41, 32_500
FIELD_STRIDES = (9, 3, 1)

# The name plate is 60 by 20 mm: two lines of letters, each in a cell, and each line of an outline in so many pieces.
LETTERS, CELL_WIDTH, CELL_HEIGHT, PIECES = 20, 300, 1_000, 62

# The lettered plate: its sides, and where its two lines of twenty letters begin and how high they are.
PLATE_SIDES, PLATE_LEFT, PLATE_HEIGHT = (6_000, 2_000), 100, 300
PLATE_LINES = ((1_350, "THEQUICKBROWNFOXJUMP"), (350, "SOVERTHELAZYDOGSNO47"))


def ring(edges, radius=RADIUS):
    """The points of a closed wavy loop around the origin, in turn, successive ones of which differ."""
    points = []
    for i in range(edges):
        angle = 2 * math.pi * i / edges
        reach = radius + WAVE * math.sin(WAVES * angle)
        points.append((round(reach * math.cos(angle)), round(reach * math.sin(angle))))
    if any(points[i - 1] == points[i] for i in range(edges)):
        raise ValueError(f"a ring of the radius {radius} has no room for {edges} edges")
    return points


def middles(stride):
    """The places of a field's octagons along one axis, at every so many of the most."""
    return [round((i - (FIELD_ROWS - 1) / 2) * PITCH) for i in range(stride // 2, FIELD_ROWS, stride)]


def octagon(x, y):
    far, near = OCTAGON, OCTAGON_SIDE
    corners = ((far, near), (near, far), (-near, far), (-far, near), (-far, -near), (-near, -far), (near, -far), (far, -near))
    return [(x + dx, y + dy) for dx, dy in corners]


def field(stride):
    """A square border, and within it octagons, which are holes."""
    border = [(-BORDER, -BORDER), (BORDER, -BORDER), (BORDER, BORDER), (-BORDER, BORDER)]
    return [border] + [octagon(x, y) for y in middles(stride) for x in middles(stride)]


def field_edges(stride):
    return 4 + 8 * len(middles(stride)) ** 2


def squares(rows):
    """Squares in so many rows and columns, with room between them."""
    corners = ((0, 0), (100, 0), (100, 100), (0, 100))
    return [[(x + dx, y + dy) for dx, dy in corners] for y in range(0, 200 * rows, 200) for x in range(0, 200 * rows, 200)]


def loose_sides(rows):
    """The sides of squares in 256 columns and so many rows, in any order and direction."""
    generator, sides = random.Random(SEED), []
    corners = ((0, 0), (100, 0), (100, 100), (0, 100))
    for x, y in itertools.product(range(-32_000, 32_000, 250), range(-16_000, -16_000 + 250 * rows, 250)):
        points = [(x + dx, y + dy) for dx, dy in corners]
        sides += [generator.choice([(p, q), (q, p)]) for p, q in zip(points, points[1:] + points[:1])]
    generator.shuffle(sides)
    return sides


def write_lines(path, sides, padded):
    """A DXF file of LINEs, each of some 126 bytes where they are padded."""
    layer = "8\nOUTLINES OF THE PLATE AND OF ALL ITS HOLES AND EDGES\n62\n7\n" if padded else ""
    length, height = ("{:.5f}", "30\n0.0\n") if padded else ("{:.2f}", "")
    with open(path, "w") as file:
        file.write("0\nSECTION\n2\nENTITIES\n")
        for (x, y), (v, w) in sides:
            x, y, v, w = (length.format(z / 100) for z in (x, y, v, w))
            file.write(f"0\nLINE\n{layer}10\n{x}\n20\n{y}\n{height}11\n{v}\n21\n{w}\n")
        file.write("0\nENDSEC\n0\nEOF\n")


def write_bitmap(path, side):
    """A packed bitmap of so many pixels to each side, with black squares of 32 by 32 pixels at every 64th place."""
    width = (side + 7) // 8
    dotted = bytes(255 if i % 8 < 4 else 0 for i in range(width))
    with open(path, "wb") as file:
        file.write(b"P4\n%d %d\n" % (side, side))
        file.writelines(dotted if y % 64 < 32 else bytes(width) for y in range(side))


def oval(width, height, pieces):
    angles = (2 * math.pi * i / pieces for i in range(pieces))
    return [(width * math.cos(angle), height * math.sin(angle)) for angle in angles]


def stroke(line, half_width, pieces):
    """The outline of a stroke along a line from its parameter 0 to 1."""
    sides = ([], [])
    for i in range(pieces + 1):
        part, delta = i / pieces, 1e-6
        (x, y), (u, v) = line(part), line(part + delta)
        length = math.hypot(u - x, v - y)
        across, up = -(v - y) / length * half_width, (u - x) / length * half_width
        sides[0].append((x - across, y - up))
        sides[1].append((x + across, y + up))
    return sides[0] + sides[1][::-1]


def bow(part):
    return 15 * math.sin(math.pi * part), 720 * part - 360


def snake(part):
    return 70 * math.sin(2 * math.pi * part), 720 * part - 360


def open_oval(part):
    angle = math.pi * (1 + 6 * part) / 4
    return 105 * math.cos(angle), 280 * math.sin(angle)


def letter(number, pieces):
    """The outlines of a letter around the origin: an O, a C, an S or an I, more or less."""
    kinds = (
        (oval(120, 400, pieces), oval(50, 325, pieces)),
        (stroke(open_oval, 30, pieces),),
        (stroke(snake, 40, pieces),),
        (stroke(bow, 45, pieces),),
    )
    return kinds[number % len(kinds)]


def name_plate(pieces=PIECES):
    loops = []
    for line, column in itertools.product(range(2), range(LETTERS)):
        x, y = column * CELL_WIDTH + CELL_WIDTH // 2, line * CELL_HEIGHT + CELL_HEIGHT // 2
        for outline in letter(line + column, pieces):
            loops.append([(round(x + dx), round(y + dy)) for dx, dy in outline])
    return loops


def lettered_plate():
    """A plate of PLATE_SIDES with forty letters of the font that comes with the program, which are left standing."""
    wide, high = PLATE_SIDES
    loops = [[(0, 0), (wide, 0), (wide, high), (0, high)]]
    font = forms.font_of((ROOT / "fonts" / "plate.cxf").read_bytes())
    for y, text in PLATE_LINES:
        words = forms.Words(form="cxf", text=text, height=PLATE_HEIGHT)
        letters = joining.joined(joining.snapped(forms.lay(font, words), words.snap))
        loops += [[(x + PLATE_LEFT, y + up) for x, up in loop] for loop in letters]
    return loops


def short_places(count):
    """A walk in the middle of a ring by steps of at most 1 mm along each axis."""
    generator = random.Random(SEED)
    x, y = 0, 0
    for _ in range(count):
        x = max(-50_000, min(50_000, x + generator.randint(-1000, 1000)))
        y = max(-50_000, min(50_000, y + generator.randint(-1000, 1000)))
        yield x, y, -generator.randint(500, 1500)


def long_places(count):
    """Places near two far corners of a ring in turn."""
    generator = random.Random(SEED)
    for i in range(count):
        side = 1 if i % 2 else -1
        x = side * 187_500 + generator.randint(-5000, 5000)
        y = side * 187_500 + generator.randint(-5000, 5000)
        yield x, y, -generator.randint(500, 1500)


def round_places():
    """Rounds by eight steps about the octagons that each field has, near their edges, with a lift from one to the next."""
    generator = random.Random(SEED)
    while True:
        for y, x in itertools.product(middles(FIELD_STRIDES[0]), repeat=2):
            radius, height = generator.randint(1950, 2000), -generator.randint(200, 700)
            angles = [math.pi * i / 4 for i in range(9)]
            places = [(10 * x + round(radius * math.cos(angle)), 10 * y + round(radius * math.sin(angle))) for angle in angles]
            yield (*places[0], 2000)
            yield from ((*place, height) for place in places)
            yield (*places[-1], 2000)


def street_places():
    """From crossing to crossing of the streets between octagons, along x and along y in turn."""
    generator = random.Random(SEED)
    places = [0, 0]
    for axis in itertools.cycle((0, 1)):
        streets = FIELD_ROWS // 2 - 1
        places[axis] = 10 * PITCH * generator.randint(-streets, streets) + generator.randint(-200, 200)
        yield *places, -generator.randint(500, 1500)


def slanted_places():
    """Between octagons at 45 degrees, up and down in turn: the sum and the difference of the coordinates are odd halves of the pitch."""
    generator = random.Random(SEED)
    half = 5 * PITCH
    most = FIELD_ROWS - 10
    turned = [half, half]
    for axis in itertools.cycle((0, 1)):
        room = most - abs(turned[1 - axis]) // half
        turned[axis] = half * (2 * generator.randint(-room // 2, room // 2 - 1) + 1)
        x, y = (turned[0] - turned[1]) // 2, (turned[0] + turned[1]) // 2
        yield x + generator.randint(-100, 100), y + generator.randint(-100, 100), -generator.randint(200, 500)


def scratch_places(count):
    """A walk all over the name plate by steps of at most 0.2 mm along each axis, at most 0.4 mm deep."""
    generator = random.Random(SEED)
    width, height = 10 * LETTERS * CELL_WIDTH, 20 * CELL_HEIGHT
    x, y = width // 2, height // 2
    for _ in range(count):
        x = max(0, min(width, x + generator.randint(-200, 200)))
        y = max(0, min(height, y + generator.randint(-200, 200)))
        yield x, y, -generator.randint(50, 400)


def field_rounds(count):
    # The first is above the surface, and so is each move to another octagon.
    return itertools.islice(round_places(), count)


def field_streets(count):
    return itertools.islice(street_places(), count)


def field_slants(count):
    return itertools.islice(slanted_places(), count)


def number(tenths):
    return f"{tenths / 1000:.3f}"


def code(places):
    """The lines of code that plunges at the first place and then moves straight to each."""
    for i, (x, y, height) in enumerate(places):
        if i == 0:
            yield from ("G21", "G90", "G0 Z2.000", f"G0 X{number(x)} Y{number(y)}", f"G1 Z{number(height)}")
        else:
            yield f"G1 X{number(x)} Y{number(y)} Z{number(height)}"
    yield "M2"


def write_drawing(path, loops):
    with open(path, "w") as file:
        file.writelines(" ".join(f"{x},{y}" for x, y in points) + "\n" for points in loops)


def write_code(path, places):
    with open(path, "w") as file:
        file.writelines(line + "\n" for line in code(places))


def main():
    if len(sys.argv) != 2 or sys.argv[1].startswith("-"):
        sys.exit(__doc__)
    folder = Path(sys.argv[1])
    folder.mkdir(parents=True, exist_ok=True)
    write_drawing(folder / "ring.loops", [ring(10_000)])
    write_drawing(folder / "field.loops", field(FIELD_STRIDES[1]))
    write_drawing(folder / "plate.loops", name_plate())
    write_drawing(folder / "squares.loops", squares(64))
    for name, places in (("ring_short", short_places), ("ring_long", long_places), ("field_short", field_rounds), ("field_long", field_streets)):
        write_code(folder / f"{name}.ngc", places(10_000))


if __name__ == "__main__":
    main()
