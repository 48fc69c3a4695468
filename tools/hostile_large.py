"""The larger inputs of tools/hostile.py, written by hand: files in pieces that are repeated, and what is due for each."""

from hostile_rows import CARVE, CHECK, CONTACTS, CXF, DOWN, DXF, EVENODD, FLAT, FLATTEN, FONT, LETTER_I, MOVES, PBM, PROBE, REPAIR, SPREAD, SQUARE, STROKES

# Names that are read up to the limit, and how far that is.
DRAWING_LIMIT, CODE_LIMIT = 16_777_216, 536_870_912
ENDLESS = {b"--drawing=/dev/": DRAWING_LIMIT, b"--code=/dev/zero": CODE_LIMIT}

# Larger inputs, in pieces that are repeated: the words, the drawing, the code, the status, the text.
# One loop of as many points as there may be: a zigzag there, and one back above it.
ZIGZAG = [b"%d,%d" % (x, x % 2) for x in range(-32_768, 32_768)] + [b"%d,%d" % (x, 9 + x % 2) for x in range(32_767, -32_769, -1)]
RING = [(b" ".join(ZIGZAG) + b"\n", 1)]
# Edges that a check has to compare with each move, since they are nearer than the bit's greatest radius.
HOLES = b"".join(b"%d,%d %d,%d %d,%d %d,%d\n" % (x, y, x + 2, y, x + 2, y + 2, x, y + 2) for y in range(0, 512, 4) for x in range(1000, 1508, 4))
HOLE_EDGES = 4 * HOLES.count(b"\n")
NEAR = [(b"-9999,-9999 9999,-9999 9999,9999 -9999,9999\n", 1), (HOLES, 1)]
# The largest square.
WHOLE = b"-32768,-32768 32767,-32768 32767,32767 -32768,32767\n"


def within(count):
    """So many squares within each other, the largest first."""
    return b"".join(b"%d,%d %d,%d %d,%d %d,%d\n" % (a, a, b, a, b, b, a, b) for a, b in ((i - 32_768, 32_767 - i) for i in range(count)))


# Four squares apart, which the step 4 divides into 8188 pieces a side.
SPREAD_SQUARES = b"".join(
    b"%d,%d %d,%d %d,%d %d,%d\n" % (x, y, x + 32_752, y, x + 32_752, y + 32_752, x, y + 32_752) for x in (-32_768, 0) for y in (-32_768, 0)
)


def between(squares, triangles):
    """So many small squares and triangles between them."""
    corners = [b"-10,%d -6,%d -6,%d -10,%d\n"] * squares + [b"-10,%d -8,%d -10,%d\n"] * triangles
    return b"".join(text % ((y, y, y + 4, y + 4) if text.count(b"%") == 4 else (y, y, y + 2)) for y, text in zip(range(9, 200, 9), corners))


def strips(height, width=2):
    """Ten strips of the width 2, which a bit of radius 1 fits into along their middle; or of another width."""
    sides = ((x, x + width) for x in range(0, 20 * width, 2 * width))
    return b"".join(b"%d,0 %d,0 %d,%d %d,%d\n" % (x, v, v, height, x, height) for x, v in sides)


MILLED = "carve --drawing=d --bit=1/1 --rmax=1 --step=32767 --pitch=32767 --pocket=x --over=1"
FLATS = FLAT.replace("600", "1").replace("50", "1") + " --over=1 --pitch=32767"
# A triangle far from strips, in which no bit fits: with it a report of every point has too many.
AWAY = b"32764,0 32767,0 32767,3\n"
LARGE = [
    (PROBE, [(b"1", DRAWING_LIMIT)], [], 3, "input loops 0 syntax"),
    (PROBE, [(b"1", DRAWING_LIMIT + 1)], [], 3, "input too long drawing"),
    (PROBE, [(b" ", DRAWING_LIMIT)], [], 0, "depth 0"),
    (PROBE, [(b"\n", DRAWING_LIMIT)], [], 0, "depth 0"),
    (PROBE, [(b"#", DRAWING_LIMIT)], [], 0, "depth 0"),
    (PROBE, [(b"#\n", DRAWING_LIMIT // 2)], [], 0, "depth 0"),
    (PROBE, [(b"\t \r\n", DRAWING_LIMIT // 4)], [], 0, "depth 0"),
    (PROBE, [(SQUARE, 1), (b" ", DRAWING_LIMIT - 28)], [], 0, "depth 500"),
    (PROBE, [(SQUARE, 1), (b" ", DRAWING_LIMIT - 27)], [], 3, "input too long drawing"),
    (PROBE, [(b" ", DRAWING_LIMIT - 1), (b"5", 1)], [], 3, "input loops 16777215 syntax"),
    (PROBE, RING, [], 0, "depth 0"),
    (PROBE, [*RING, (b"9,9 8,8\n", 1)], [], 3, f"input loops {len(RING[0][0])} too many"),
    (PROBE, [(b"0,0 1,1\n", 65_536)], [], 3, "input cross 0,1"),
    (PROBE + EVENODD, [(b"0,0 1,1\n", 65_536)], [], 0, "depth 0"),
    (PROBE, [(b"0,0 1,1 ", 65_535), (b"2,3 4,5\n", 1)], [], 3, "input cross 0,1"),
    (PROBE, [(HOLES, 1), (b"0,0 9,9 9,0 0,9\n", 1)], [], 3, f"input cross {HOLE_EDGES},{HOLE_EDGES + 2}"),
    ("flatten --drawing=d", RING, [], 0, RING[0][0].decode()[:-1]),
    (PROBE, [(b"0,0 1,1\n", 65_537)], [], 3, "input loops 524288 too many"),
    (PROBE, [(b"0,0 1,1 ", 65_536), (b"9,9\n", 1)], [], 3, "input loops 524288 too many"),
    (CHECK, [(b"0,0 1,1\n", 65_536)], [(DOWN, 1)], 3, "input cross 0,1"),
    (CHECK + EVENODD, [(b"0,0 1,1\n", 65_536)], [(DOWN, 1)], 1, "line 4 outside"),
    (CHECK, RING, [(DOWN, 1)], 1, "line 4 outside"),
    (CHECK.replace("200", "8191"), NEAR, [(b"X5Y5Z1\nZ-.01\n", 1), (b"X6Z-.9\nX5Z-.01\n", 50)], 0, "clear 101 moves"),
    (CONTACTS.replace("250", "8"), [(within(31), 1)], [], 0, "30 123 8185/8185 none 0 -32738,-32738"),
    (CONTACTS.replace("250", "8"), [(within(33), 1)], [], 3, "input too many contacts"),
    (CONTACTS.replace("250", "7"), [(SQUARE, 1), (within(33), 1)], [], 3, "input step too fine 4"),
    # Where no depth fits, each node is a chain, and the first one of a loop twice: 4 * 32,753 + 12 * 5, and one more by 9 * 5 + 4 * 4.
    (SPREAD, [(SPREAD_SQUARES + between(12, 0), 1)], [], 0, "M2"),
    (SPREAD, [(SPREAD_SQUARES + between(9, 4), 1)], [], 3, "input too many chains"),
    # Every row of the plate is a chain; and so is every column.
    (CARVE.replace("600", "1") + " --pocket=both --over=1 --pitch=1000", [(b"0,0 4000,0 4000,4000 0,4000\n", 1)], [], 0, ...),
    # Of a strip each row is a chain of one node, from 1 below its top to 1 above its foot; each of its corners is one, and the first twice.
    (MILLED, [(strips(13_103), 1)], [], 0, "(uncut 0 of 0)\nM2"),
    (MILLED, [(strips(13_104), 1)], [], 3, "input too many chains"),
    (MILLED, [(strips(13_109), 1)], [], 3, "input too many chains"),
    (MILLED.replace("=x", "=y"), [(strips(13_109), 1)], [], 0, ...),
    # Of a strip of the width 4 each row is a chain of one node, from 2 below its top to 2 above its foot; and each column is one.
    (FLATS, [(strips(13_110, 4), 1)], [], 0, "(floor 0 of 0)\nM2"),
    (FLATS, [(strips(13_111, 4), 1)], [], 3, "input too many chains"),
    (FLATS.replace("32767", "1"), [(strips(13_110, 4) + AWAY, 1)], [], 3, "input too many points"),
    (FLATS.replace("32767", "1"), [(strips(13_111, 4) + AWAY, 1)], [], 3, "input too many chains"),
    (FLATS + " --pocket=y", [(strips(13_111, 4), 1)], [], 0, ...),
    (FLATS + " --pocket=both", [(b"0,0 4000,0 4000,4000 0,4000\n", 1)], [], 0, ...),
    (CARVE.replace("500", "8"), [(within(33), 1)], [], 3, "input too many contacts"),
    (CARVE.replace("500", "7"), [(SQUARE, 1), (within(33), 1)], [], 3, "input step too fine 4"),
    (MOVES, [], [(b"N1\n", 1_000_000), (b"Q", 1)], 3, "input code line 1000001 word"),
    (MOVES, [], [(b"(" + b"a" * 1022 + b")\n", 20_000)], 0, "moves 0"),
    (MOVES, [], [(b"X" + b"0" * 1023 + b"\n", 20_000)], 0, "moves 0"),
    (MOVES, [], [(b"G90" * 341 + b"\n", 20_000)], 0, "moves 0"),
    (MOVES, [], [(b"X0Y0Z1\n", 1), (b"X1\n", 300_000)], 0, "moves 300000"),
    (REPAIR, [(SQUARE, 1)], [(b"X0Y0Z1\n", 1), (b"X1\n", 300_000)], 0, "M2"),
    # A plunge outside, with which each move that stays below the surface is mended too.
    (REPAIR, [(SQUARE, 1)], [(b"X-9Y0Z1\nZ-1\n", 1), (b"X-8\nX-9\n", 100_000)], 0, "M2"),
]

BEGIN, END = b"0\nSECTION\n2\nENTITIES\n", b"0\nENDSEC\n0\nEOF\n"
LINE = b"0\nLINE\n10\n0\n20\n0\n11\n1\n21\n0\n"
VERTEX = b"0\nVERTEX\n10\n0\n20\n0\n"
IN_DXF, IN_CXF, IN_PBM = (f"{FLATTEN} {form}" for form in (DXF, CXF, PBM))
# The outlines of every other column of the widest bitmap, for pixels of 4.
STRIPES = "\n".join(f"{x + 4},32764 {x},32764 {x},0 {x + 4},0" for x in range(0, 32_764, 8))
# Where the text isn't written here, its form is judged alone.
LARGE += [
    (IN_DXF, [(b"0", DRAWING_LIMIT)], [], 3, "input dxf pair 1 bad code"),
    (IN_DXF, [(b"0\n", 1), (b"A", DRAWING_LIMIT - 2)], [], 3, "input dxf pair 2 unended"),
    (IN_DXF, [(b"0", DRAWING_LIMIT + 1)], [], 3, "input too long drawing"),
    (IN_DXF, [(b"999\n\n", DRAWING_LIMIT // 5)], [], 3, f"input dxf pair {DRAWING_LIMIT // 5 + 1} unended"),
    (IN_DXF, [(BEGIN, 1), (b"0\nX\n", 4_000_000), (END, 1)], [], 0, "# skipped 4000000"),
    (IN_DXF, [(BEGIN, 1), (LINE, 131_072), (END, 1)], [], 3, "input cross 0,1"),
    (STROKES, [(BEGIN, 1), (LINE, 131_072), (END, 1)], [], 0, ...),
    (STROKES, [(BEGIN, 1), (LINE, 131_073), (END, 1)], [], 3, "input dxf pair 655363 too many"),
    (STROKES, [(BEGIN, 1), (b"0\nX\n", 4_000_000), (END, 1)], [], 0, "(strokes 0 chains 0 depth 10)\nG21\nG90\nF500\nG0 Z2.00\n(cut 0 of 0)\nM2"),
    (IN_DXF + EVENODD, [(BEGIN, 1), (LINE, 131_072), (END, 1)], [], 0, "# skipped 0" + "\n0,0 100,0" * 65_536),
    (IN_DXF, [(BEGIN, 1), (LINE, 131_073), (END, 1)], [], 3, "input dxf pair 655363 too many"),
    (IN_DXF, [(BEGIN, 1), (LINE, (DRAWING_LIMIT - len(BEGIN)) // len(LINE))], [], 3, "input dxf pair 655363 too many"),
    (IN_DXF, [(BEGIN, 1), (LINE.replace(b"1\n21", b"0.001\n21"), 480_000), (END, 1)], [], 0, "# skipped 0"),
    (IN_DXF, [(BEGIN + b"0\nPOLYLINE\n70\n1\n", 1), (VERTEX, 800_000), (b"0\nSEQEND\n" + END, 1)], [], 0, "# skipped 0"),
    (IN_DXF, [(BEGIN + b"0\nPOLYLINE\n70\n64\n", 1), (VERTEX, 800_000), (b"0\nSEQEND\n" + END, 1)], [], 0, "# skipped 1"),
    (IN_DXF, [(BEGIN + b"0\nLINE\n", 1), (b"10\n0\n", 3_000_000), (b"20\n0\n11\n0\n21\n0\n" + END, 1)], [], 0, "# skipped 0"),
    (IN_CXF, [(b"x", DRAWING_LIMIT)], [], 3, "input lay no glyph 0"),
    (IN_CXF, [(b"[I]" + b" " * (DRAWING_LIMIT - 3), 1)], [], 0, None),
    (IN_CXF, [(FONT, 1), (b"[I]\n", 4_000_000)], [], 0, LETTER_I),
    (IN_CXF, [(FONT, 1), (b"[a]\nL 0,0,1,1\n", 1_000_000)], [], 0, LETTER_I),
    (IN_CXF, [(b"[I]\n", 1), (b"L 0,0,0,1\n", 1_600_000)], [], 3, "input lay too many"),
    (IN_CXF.replace("=I", "=" + "I" * 200) + " --height=9", [(b"[I]\n", 1), (b"L 0,0,0,9\n", 1_600_000)], [], 3, "input lay too many"),
    (IN_CXF + " --height=1", [(b"[I]\n", 1), (b"L 0,0,0,1\n", 1_600_000)], [], 0, None),
    (IN_CXF + " --chord=1", [(b"[I]\n", 1), (b"A 0,0,0,0,0\n", 2_000)], [], 0, None),
    (IN_PBM, [(b"P1 8191 2048\n", 1), (b"0", DRAWING_LIMIT - 13)], [], 3, "input pixels out of range"),
    (IN_PBM + " --pixel=4", [(b"P1 8191 2048\n", 1), (b"0", DRAWING_LIMIT - 13)], [], 0, None),
    (IN_PBM, [(b"P1 8191 2048\n", 1), (b" ", DRAWING_LIMIT - 13)], [], 3, "input pbm short"),
    (IN_PBM, [(b"P1 #", 1), (b"#", DRAWING_LIMIT - 4)], [], 3, "input pbm header"),
    (IN_PBM + " --pixel=4", [(b"P4 8191 8191\n", 1), (b"\0", 8_387_584)], [], 0, None),
    (IN_PBM + " --pixel=4", [(b"P4 8191 8191\n", 1), (b"\xff", 8_387_584)], [], 0, "32764,32764 0,32764 0,0 32764,0"),
    (IN_PBM + " --pixel=4", [(b"P4 8191 8191\n", 1), (b"\xaa", 8_387_584)], [], 0, STRIPES),
    (IN_PBM + " --pixel=1", [(b"P4 8191 8191\n", 1), ((b"\xaa" * 1024 + b"\x55" * 1024), 4095), (b"\xaa" * 1024, 1)], [], 3, "input pixels too many"),
    (IN_PBM + " --pixel=128", [(b"P4 255 255\n", 1), (b"\xaa" * 32 + b"\x55" * 32, 127), (b"\xaa" * 32, 1)], [], 0, ...),
]

# The largest inputs, likewise.
FAR = (b"X-327.68Y-327.68Z327.67\n", 1)
MOST_MOVES = 8_388_608
# The greatest plate with so many small holes, so far apart that each is as if alone for a bit of radius 60: round a triangle there are 106
# nodes, round a square 121, and round the plate 13.
def pierced(triangles, squares):
    corners = [[(0, 0), (4, 0), (0, 4)]] * triangles + [[(0, 0), (4, 0), (4, 4), (0, 4)]] * squares
    holes = [
        b" ".join(b"%d,%d" % (hole % 80 * 130 - 32_000 + x, hole // 80 * 130 - 32_000 + y) for x, y in hole_corners) + b"\n"
        for hole, hole_corners in enumerate(corners)
    ]
    return [(WHOLE + b"".join(holes), 1)]


PIERCED = CARVE.replace("1/1", "1/10").replace("600", "60").replace("500", "32767") + " --pitch=32767"
HUGE = [
    # 39,506 * 106 + 55 * 121 + 13 are 4,194,304 nodes, and 39,514 * 106 + 48 * 121 + 13 are one more.
    (PIERCED, pierced(39_506, 55), [], 0, "M2"),
    (PIERCED, pierced(39_514, 48), [], 3, "input too many nodes"),
    (MOVES, [], [(b" ", CODE_LIMIT)], 3, "input code line 1 long line"),
    (MOVES, [], [(b"\n", CODE_LIMIT)], 0, "moves 0"),
    (MOVES, [], [(b";" + b"x" * 1022 + b"\n", CODE_LIMIT // 1024)], 0, "moves 0"),
    (MOVES, [], [(b"\n", CODE_LIMIT - 1), (b"Q", 1)], 3, "input code line 536870912 word"),
    (MOVES, [], [(b"\n", CODE_LIMIT + 1)], 3, "input too long code"),
    (MOVES, [], [(b"\n", CODE_LIMIT // 2 + 1)], 0, "moves 0"),
    (MOVES, [], [(b"M2\n", 1), (b"\xff", CODE_LIMIT - 3)], 0, "moves 0"),
    (MOVES, [], [FAR, (b"Y0\n", 3_000_000)], 0, "moves 3000000"),
    (MOVES, [], [FAR, (b"Z9\n", MOST_MOVES)], 0, "moves 8388608"),
    (MOVES, [], [FAR, (b"Z9\n", MOST_MOVES + 1)], 3, "input code line 8388610 too many"),
    (MOVES, [], [FAR, (b"Z9" + b" " * 61 + b"\n", MOST_MOVES - 1)], 0, "moves 8388607"),
    (CHECK, [(SQUARE, 1)], [FAR, (b"Z9\n", MOST_MOVES)], 0, "clear 8388608 moves"),
    (CHECK, RING, [FAR, (b"Z9" + b" " * 61 + b"\n", MOST_MOVES - 1)], 0, "clear 8388607 moves"),
    (MOVES, [], [FAR, (b"\n", 100_000_000), (b"Z-327.67\n", MOST_MOVES)], 0, "moves 8388608"),
    (CHECK.replace("200", "8191"), NEAR, [(b"X5Y5Z1\nZ-.01\n", 1), (b"X6Z-.9\nX5Z-.01\n", 2500)], 0, "clear 5001 moves"),
    ("moves --code=/dev/zero", [], [], 3, "input too long code"),
]
