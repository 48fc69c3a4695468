"""Hostile inputs with the status and the text that are due for each, written by hand from the manual.

A file is its bytes, or a list of pieces, each with how often it is repeated.
"""

import re

# The lines that the program prints, by status, and for the first two by command too.
COUNT = rb"(0|[1-9][0-9]*)"
SPOT = rb",".join([rb"(0|-?[1-9][0-9]{0,4}|-?(0|[1-9][0-9]{0,4})\.[1-9])"] * 3)
MOVE = re.compile(rb"[1-9][0-9]* " + SPOT + b" " + SPOT + rb"\n")
CONTACT = re.compile(rb"%s %s %s/[1-9][0-9]* (left|right|none) %s -?%s,-?%s\n" % ((COUNT,) * 6))
LENGTH = rb"-?(0|[1-9][0-9]*)\.[0-9]{1,3}"
CARVED_LINES = [rb"\(bit %s/%s rmax %s limit %s step %s\)" % ((COUNT,) * 5), rb"G2[01]", rb"G90", rb"F" + COUNT]
CARVED_LINES += [rb"G[01] Z%s" % LENGTH, rb"G0 X%s Y%s" % ((LENGTH,) * 2), rb"G1 X%s Y%s Z%s" % ((LENGTH,) * 3)]
FLAT_LINES = [rb"\(flat %s\)" % COUNT, *CARVED_LINES[1:], rb"\(floor y -?%s x -?%s to -?%s\)" % ((COUNT,) * 3), rb"\(floor %s of %s\)" % ((COUNT,) * 2)]
FLAT_LINE = re.compile(rb"(%s)\n" % rb"|".join(FLAT_LINES))
RUN = rb"uncut y -?%s x -?%s to -?%s" % ((COUNT,) * 3)
LEFT = rb"uncut %s of %s" % ((COUNT,) * 2)
CARVED_LINES += [rb"\(%s\)" % RUN, rb"\(%s\)" % LEFT]
CARVED_LINE = re.compile(rb"(%s)\n" % rb"|".join(CARVED_LINES))
# The lines that are listed by a command, before its last line or alone.
POINT = rb"-?%s,-?%s" % ((COUNT,) * 2)
LOOP = re.compile(rb"# skipped %s\n|%s( %s)+\n" % (COUNT, POINT, POINT))
WRITTEN = [rb"G2[01]", rb"G90", rb"F%s" % COUNT, rb"G[01]( [XYZ]-?(0|[1-9][0-9]*)\.[0-9]{1,4}){1,3}"]
REPAIRED_LINE = re.compile(rb"(%s)\n" % rb"|".join([rb"\(repaired %s of %s\)" % ((COUNT,) * 2), *WRITTEN]))
STROKES_LINE = re.compile(rb"(%s)\n" % rb"|".join([rb"\(strokes %s chains %s depth %s\)" % ((COUNT,) * 3), rb"\(cut %s of %s\)" % ((COUNT,) * 2), *WRITTEN]))
LISTED_LINES = {b"repair": REPAIRED_LINE, b"strokes": STROKES_LINE, b"flat": FLAT_LINE, b"moves": MOVE, b"contacts": CONTACT, b"carve": CARVED_LINE, b"cover": re.compile(RUN + rb"\n"), b"flatten": LOOP}
LOOPS_KINDS = rb" (syntax|out of range|same point|too many|short)"
FORMS_KINDS = rb"|dxf pair [1-9][0-9]* (bad code|missing (10|11|20|21|40|50|51)|number|unended|out of range|too many)"
FORMS_KINDS += rb"|cxf line [1-9][0-9]* (syntax|number)|lay (no glyph " + COUNT + rb"|out of range|too many)"
FORMS_KINDS += rb"|pbm (magic|header|size|short|pixel)|pixels (out of range|too many)|open -?%s,-?%s|cross %s,%s" % ((COUNT,) * 4)
CODE_KINDS = rb" (word|number|off grid|twice|units|incremental|unplaced|out of range|long line|open comment|too many)"
FORMS = {
    (b"probe", 0): rb"depth (0|[1-9][0-9]{0,4})\n",
    (b"moves", 0): rb"moves " + COUNT + rb"\n",
    (b"check", 0): rb"clear " + COUNT + rb" moves\n",
    (b"cover", 0): LEFT + rb"\n",
    (b"trial", 0): rb"trial %s loops %s edges %s contacts %s\nnodes %s chains %s\nclear %s moves\n%s\n" % (*(COUNT,) * 7, LEFT),
    (b"check", 1): rb"line [1-9][0-9]* (too deep|gouge edge " + COUNT + rb"|outside)\n",
    2: rb"usage\n",
    3: rb"input (too long (drawing|code)|loops " + COUNT + LOOPS_KINDS + FORMS_KINDS + rb"|code line [1-9][0-9]*" + CODE_KINDS + rb"|step too fine " + COUNT + rb"|too many (contacts|nodes|chains|points|moves))\n",
    4: rb"absent (drawing|code)\n",
    5: rb"read fault\n",
    6: rb"",
    7: rb"",
    8: rb"",
}
FORMS = {case: re.compile(form) for case, form in FORMS.items()}

SQUARE = b"0,0 1000,0 1000,1000 0,1000\n"
ANGLE = b"0,0 400,0 400,200 200,200 200,400 0,400\n"
PLATE = b"# a square plate with a square hole\r\n0,0 1000,0 1000,1000 0,1000\n\n\t300,300 700,300  700,700 300,700"
DOWN = b"G21\nG0 Z2\nG0 X1 Y3\nG1 Z-1\nG1 X1 Y1\nM2\n"
LENIENT = b"(by hand)\r\n%\nG21 G90 G17\nG64 P0.1 M3 S3000 ; on\nG0 Z5.0\ng0 x 1.00y 3 . 0 0\nG1 Z-1 F300\nX+1.5\nM5\nM2\n"
PROBE = "probe --drawing=d --at=500,500 --bit=1/1 --rmax=600"
MOVES = "moves --code=c"
CHECK = "check --drawing=d --code=c --bit=1/1 --rmax=200"
CONTACTS = "contacts --drawing=d --step=250 --rmax=600"
CARVE = "carve --drawing=d --bit=1/1 --rmax=600 --step=500"
SPREAD = "carve --drawing=d --bit=2/1 --rmax=1 --step=4 --pitch=32767"
FLAT = "flat --drawing=d --bit=1/1 --rmax=600 --radius=50"
FLOOR = FLAT + " --limit=100 --over=300 --pitch=100"
COVER = "cover --drawing=d --code=c --bit=1/1 --rmax=200"
FLATTEN = "flatten --drawing=d"
STROKES = "strokes --drawing=d --form=dxf --bit=1/1 --rmax=600 --depth=10"
REPAIR = "repair --drawing=d --code=c --bit=1/1 --rmax=200"
# What a repair writes of DOWN over SQUARE, where nothing is to be mended.
REPAIRED = """(repaired 0 of 2)
G21
G90
F500
G0 Z2.000
G0 X1.000 Y3.000
G0 X1.000 Y3.000 Z2.000
G1 X1.000 Y3.000 Z-1.000
G1 X1.000 Y1.000 Z-1.000
G0 X1.000 Y1.000 Z2.000
M2"""

# Drawings for PROBE: the bytes, the status, the line.
DRAWINGS = [
    (b"", 0, "depth 0"),
    (SQUARE, 0, "depth 500"),
    (SQUARE[:-1], 0, "depth 500"),
    (SQUARE[:-1] + b"\r", 0, "depth 500"),
    (SQUARE.replace(b"\n", b"\r\n"), 0, "depth 500"),
    (b"0,0 1000,0 1000,1000\r0,1000\n", 3, "input loops 11 syntax"),
    (b"0,0 1,1\r\r\n", 3, "input loops 4 syntax"),
    (b"\r", 0, "depth 0"),
    (b" \t \n\r\n\t", 0, "depth 0"),
    (b"\t0,0\t1000,0  1000,1000 \t 0,1000 \t\n", 0, "depth 500"),
    (b"# 9,9\n \t# x\n#\n" + SQUARE, 0, "depth 500"),
    (b"#" * 70_000, 0, "depth 0"),
    (SQUARE[:-1] + b"#\n", 3, "input loops 21 syntax"),
    (b"\0", 3, "input loops 0 syntax"),
    (b"0,0 1,1\0\n", 3, "input loops 4 syntax"),
    (b"0,0 1,1\n\x1a", 3, "input loops 8 syntax"),
    (b"\xef\xbb\xbf" + SQUARE, 3, "input loops 0 syntax"),
    (SQUARE.decode().encode("utf-16"), 3, "input loops 0 syntax"),
    ("٠,٠ ١,١".encode(), 3, "input loops 0 syntax"),
    ("0,0\u00a01,1".encode(), 3, "input loops 0 syntax"),
    (b"0,0 1,1\v2,2\n", 3, "input loops 4 syntax"),
    (b"0,0 1,1\f\n", 3, "input loops 4 syntax"),
    (b"loop 0,0 1,1\n", 3, "input loops 0 syntax"),
    ([(b"loop\n", 1_000_000)], 3, "input loops 0 syntax"),
    ([(b"\n", 1_000_000)], 0, "depth 0"),
    (b"0,0\n", 3, "input loops 0 short"),
    (b"\n  5,5\n1,1 1,1\n", 3, "input loops 3 short"),
    (b"0,0 0,0\n", 3, "input loops 4 same point"),
    (b"0,0 1,1 -0,00\n", 3, "input loops 8 same point"),
    (b"0,0 1,1\n0,0 1,1 1,1 x\n", 3, "input loops 16 same point"),
    (b"32767,-32768 -32768,32767 -32768,32766\n", 0, "depth 0"),
    (b"32767,-32768 -32768,32767\n", 3, "input cross 0,1"),
    (SQUARE * 2, 3, "input cross 0,4"),
    (b"-9,0 9,0 0,9\n0,0 5,-5 -5,-5\n", 3, "input cross 0,3"),
    (b"0,0 1,1 9,9 0,9\n", 0, "depth 0"),
    (b"0,0 9,9 9,0 0,9\n", 3, "input cross 0,2"),
    (b"0,0 9,9 9,0 0,9\nx", 3, "input loops 16 syntax"),
    (b"-32768,-32768 32767,-32768 32767,32767 -32768,32767\n", 0, "depth 600"),
    (b"32768,0 0,0\n", 3, "input loops 0 out of range"),
    (b"0,0 0,-32769\n", 3, "input loops 4 out of range"),
    (b"999999999,0 1,1\n", 3, "input loops 0 out of range"),
    (b"1000000000,0 1,1\n", 3, "input loops 0 syntax"),
    (b"0000000001,0 1,1\n", 3, "input loops 0 syntax"),
    (b"000000001,0 -00000001,1 0,5\n", 0, "depth 0"),
    (b"9" * 27 + b",0 1,1\n", 3, "input loops 0 syntax"),
    ([(b"1,1 0,", 1), (b"0", 1_000_000)], 3, "input loops 4 syntax"),
    (b"-,0 1,1\n", 3, "input loops 0 syntax"),
    (b"--1,0 1,1\n", 3, "input loops 0 syntax"),
    (b"+1,0 1,1\n", 3, "input loops 0 syntax"),
    (b"1e3,0 1,1\n", 3, "input loops 0 syntax"),
    (b"0x10,0 1,1\n", 3, "input loops 0 syntax"),
    (b"1.0,0 1,1\n", 3, "input loops 0 syntax"),
    (b"0,0 1;1\n", 3, "input loops 4 syntax"),
    (b"0,0 1,1,1\n", 3, "input loops 4 syntax"),
    (b"0,0 1, 1\n", 3, "input loops 4 syntax"),
    (b"0,0 ,\n", 3, "input loops 4 syntax"),
]

# Codes for MOVES: the bytes, the status, the text.
CODES = [
    (b"", 0, "moves 0"),
    (b"X0 Y0 Z5\nX1", 0, "2 0,0,500 100,0,500\nmoves 1"),
    (b"X0 Y0 Z5\r\nX1\r", 0, "2 0,0,500 100,0,500\nmoves 1"),
    (b"x 1 . 2 5 y0z\t1\nZ.5", 0, "2 125,0,100 125,0,50\nmoves 1"),
    (b"G0X0Y0Z1\nG1Z-1F100\nX+2.", 0, "2 0,0,100 0,0,-100\n3 0,0,-100 200,0,-100\nmoves 2"),
    (b"X0\rY0\n", 3, "input code line 1 word"),
    (b"G21\r\r\n", 3, "input code line 1 word"),
    (b" \t \n\r\n\t", 0, "moves 0"),
    ([(b"\n", 1_000_000), (b"Q", 1)], 3, "input code line 1000001 word"),
    (b"\0", 3, "input code line 1 word"),
    (b"G1\0\n", 3, "input code line 1 word"),
    (b"\xef\xbb\xbfG21\n", 3, "input code line 1 word"),
    ("G21\n".encode("utf-16"), 3, "input code line 1 word"),
    ("\u0425" "1\n".encode(), 3, "input code line 1 word"),
    ("X\u0661\n".encode(), 3, "input code line 1 number"),
    (b"G21\n\x1a", 3, "input code line 2 word"),
    (b"(X1\nY1)", 3, "input code line 1 open comment"),
    (b"G21 ((((", 3, "input code line 1 open comment"),
    (b"(a (b) c)\n", 3, "input code line 1 word"),
    (b"X1)\n", 3, "input code line 1 word"),
    (b"(;)\n;(\n(a) ; (b\n()()\n", 0, "moves 0"),
    (b"(\xff\0\x80)G21(\xff);\xff\n", 0, "moves 0"),
    (b"%\nX0Y0Z0\n%(end)\nX1\n % ", 0, "4 0,0,0 100,0,0\nmoves 1"),
    (b"%%\n", 3, "input code line 1 word"),
    (b"% G21\n", 3, "input code line 1 word"),
    (b"X1" + b" " * 1022 + b"\r\n", 0, "moves 0"),
    (b"X1" + b" " * 1023 + b"\n", 3, "input code line 1 long line"),
    (b";" + b"(" * 1023, 0, "moves 0"),
    (b"(" + b"a" * 1024, 3, "input code line 1 long line"),
    (b"X" + b"0" * 1023, 0, "moves 0"),
    ([(b"G", 1), (b"1", 1_000_000)], 3, "input code line 1 long line"),
    (b"N10 G21\nN10 X1\nN-5\nN.5", 0, "moves 0"),
    (b"N1 N2\n", 3, "input code line 1 twice"),
    (b"N\n", 3, "input code line 1 number"),
    (b"X1 Y1 X1\n", 3, "input code line 1 twice"),
    (b"G0 G1\n", 3, "input code line 1 twice"),
    (b"G21 G21 G90 G90 M3 M3 M5\n", 0, "moves 0"),
    (b"F1 S1 P1 f2\n", 3, "input code line 1 twice"),
    (b"G21\nG91\n", 3, "input code line 2 incremental"),
    (b"G20\n", 3, "input code line 1 units"),
    (b"M2\n\xff\0((((\n" + b"Q" * 5000, 0, "moves 0"),
    (b"X0Y0Z0\nM30 X1\n(((", 0, "2 0,0,0 100,0,0\nmoves 1"),
    (b"M2 Q\n", 3, "input code line 1 word"),
    (b"O100 sub\n", 3, "input code line 1 word"),
    (b"#1=2\n", 3, "input code line 1 word"),
    (b"X#1\n", 3, "input code line 1 number"),
    (b"X[1+1]\n", 3, "input code line 1 number"),
    (b"/G0\n", 3, "input code line 1 word"),
    (b"G2 X1 I1\n", 3, "input code line 1 word"),
    (b"G03\n", 3, "input code line 1 word"),
    (b"M6 T1\n", 3, "input code line 1 word"),
    (b"A1\n", 3, "input code line 1 word"),
    (b"G+1 X1\nG00.000\nG-0\n", 0, "moves 0"),
    (b"G1.5\n", 3, "input code line 1 word"),
    (b"G91.1\nG91.2\n", 3, "input code line 2 word"),
    (b"G" + b"9" * 27, 3, "input code line 1 word"),
    (b"G" + b"9" * 28, 3, "input code line 1 number"),
    (b"F" + b"9" * 27 + b"S." + b"0" * 400 + b"1", 0, "moves 0"),
    (b"F1." + b"0" * 27, 3, "input code line 1 number"),
    (b"X1.005\n", 0, "moves 0"),
    (b"X1.00500\n", 0, "moves 0"),
    (b"X1.0005\n", 3, "input code line 1 off grid"),
    (b"G0 Z2\nG0 X0.105 Y5\nG1 Z-0.105\n", 0, "3 10.5,500,200 10.5,500,-10.5\nmoves 1"),
    (b"X0Y0Z0\nX-.001Z.009\n", 0, "2 0,0,0 -0.1,0,0.9\nmoves 1"),
    (b"X." + b"0" * 400 + b"1\n", 3, "input code line 1 off grid"),
    (b"X327.67 Y-327.68 Z327.67\nX-327.68 Y327.67 Z-327.67\n", 0, "2 32767,-32768,32767 -32768,32767,-32767\nmoves 1"),
    (b"X327.671\n", 3, "input code line 1 out of range"),
    (b"Y-327.681\n", 3, "input code line 1 out of range"),
    (b"Z-327.671\n", 3, "input code line 1 out of range"),
    (b"Z327.671\n", 3, "input code line 1 out of range"),
    (b"X" + b"9" * 27, 3, "input code line 1 out of range"),
    (b"X" + b"9" * 28, 3, "input code line 1 number"),
    (b"X--1\n", 3, "input code line 1 number"),
    (b"X1-\n", 3, "input code line 1 number"),
    (b"X1.2.3\n", 3, "input code line 1 number"),
    (b"X\n", 3, "input code line 1 number"),
    (b"X+.\n", 3, "input code line 1 number"),
    (b"X1e3\n", 3, "input code line 1 word"),
    (b"X1,5\n", 3, "input code line 1 word"),
    (b"1X\n", 3, "input code line 1 word"),
    (b"Z-.01\n", 3, "input code line 1 unplaced"),
    (b"X1Y1Z-1\n", 3, "input code line 1 unplaced"),
    (b"X1Z1\nY1Z-1\n", 3, "input code line 2 unplaced"),
]

# Every G and M number of two digits.
G_FINE, M_FINE = {0, 1, 17, 21, 40, 49, 54, 61, 64, 80, 90, 94}, {2, 3, 4, 5, 7, 8, 9, 30}
G_KINDS = {20: "units", 91: "incremental"}
FINE = (0, "moves 0")
for number in range(100):
    g_fault = (3, f"input code line 1 {G_KINDS.get(number, 'word')}")
    CODES.append((b"G%d" % number, *(FINE if number in G_FINE else g_fault)))
    CODES.append((b"M%02d" % number, *(FINE if number in M_FINE else (3, "input code line 1 word"))))

# Drawings and codes for CHECK: the bytes of both, the status, the line.
CHECKS = [
    (ANGLE, DOWN, 0, "clear 2 moves"),
    (ANGLE, b"", 0, "clear 0 moves"),
    (ANGLE, DOWN.replace(b"X1 Y1", b"X3 Y1"), 1, "line 5 gouge edge 2"),
    (ANGLE, DOWN.replace(b"Z-1", b"Z-2.01"), 1, "line 4 too deep"),
    (ANGLE, DOWN.replace(b"X1 Y1", b"X1 Y1 Z1"), 0, "clear 2 moves"),
    # The bit meets the surface just over the inner corner, or a tenth of a grid unit beyond it.
    (ANGLE, b"G0 Z1\nG0 X1 Y3\nG1 X3 Y1 Z-1", 0, "clear 1 moves"),
    (ANGLE, b"G0 Z0.5\nG0 X1 Y3\nG1 X3 Y1 Z-1", 1, "line 3 gouge edge 2"),
    (ANGLE, b"G0 Z0.999\nG0 X1 Y3\nG1 X3 Y1 Z-1", 1, "line 3 gouge edge 2"),
    (ANGLE, DOWN.replace(b"X1 Y3", b"X9 Y9"), 1, "line 4 outside"),
    (b"", DOWN, 1, "line 4 outside"),
    (b"", b"X0Y0Z0\nX9Y9\nX-9", 0, "clear 2 moves"),
    (b"0,0\n", b"Q", 3, "input loops 0 short"),
    (ANGLE, b"Q", 3, "input code line 1 word"),
    (ANGLE, b"\0" + DOWN, 3, "input code line 1 word"),
    ([(b"0,0 1,0\n", 60_000)], b"Q", 3, "input cross 0,1"),
]

# Drawings for carve: the words, the bytes, the status, the text.
FOUR = b"0,0 4,0 4,4 0,4\n"
FINE = CARVE.replace("600", "2").replace("500", "2") + " --pitch=1"
HEAD = "(bit 1/1 rmax 2 limit 32767 step 2)\nG21\nG90\nF500\nG0 Z2.00\n"
CORNER = "G0 X%s Y%s\nG1 Z0.00\nG0 Z2.00\n"
CARVINGS = [
    (CARVE, b"", 0, "(bit 1/1 rmax 600 limit 32767 step 500)\nG21\nG90\nF500\nG0 Z2.00\n(uncut 0 of 0)\nM2"),
    (CARVE + " --units=mm1000", b"#\n", 0, "(bit 1/1 rmax 600 limit 32767 step 500)\nG21\nG90\nF500\nG0 Z0.200\n(uncut 0 of 0)\nM2"),
    (CARVE + " --units=in1000 --safe=1 --feed=1 --limit=1", b"", 0, "(bit 1/1 rmax 600 limit 1 step 500)\nG20\nG90\nF1\nG0 Z0.001\n(uncut 0 of 0)\nM2"),
    (
        FINE,
        FOUR,
        0,
        HEAD
        + """G0 X0.00 Y0.00
G1 Z0.00
G1 X0.02 Y0.02 Z-0.02
G1 X0.04 Y0.00 Z0.00
G1 X0.02 Y0.02 Z-0.02
G1 X0.04 Y0.04 Z0.00
G1 X0.02 Y0.02 Z-0.02
G1 X0.00 Y0.04 Z0.00
G1 X0.02 Y0.02 Z-0.02
G1 X0.00 Y0.00 Z0.00
G0 Z2.00
(uncut 0 of 9)
M2""",
    ),
    (
        FINE.replace("step=2", "step=4"),
        FOUR,
        0,
        HEAD.replace("step 2", "step 4")
        + "".join(CORNER % place for place in (("0.00", "0.00"), ("0.00", "0.00"), ("0.04", "0.00"), ("0.04", "0.04"), ("0.00", "0.04")))
        + "(uncut y 1 x 1 to 3)\n(uncut y 2 x 1 to 3)\n(uncut y 3 x 1 to 3)\n(uncut 9 of 9)\nM2",
    ),
    # There and back.
    (FINE, b"0,0 1,0\n", 3, "input cross 0,1"),
    (CARVE, b"0,0\n", 3, "input loops 0 short"),
    (FINE, b"-32768,0 32767,0 0,1\n", 3, "input step too fine 0"),
    (FINE, FOUR + b"0,8 32767,8 0,9\n", 3, "input step too fine 4"),
    (FINE.replace("step=2", "step=32767"), b"-1,-1 32767,-1 0,600\n", 3, "input too many points"),
]

# Floors for flat, likewise: by rows, and none for too wide a bit; where no depth is allowed; and what has too many points.
FLAT_HEAD = "(flat 50)\nG21\nG90\nF500\nG0 Z2.00\n"
FLOOR_LEFT = "".join(f"(floor y {y} x 100 to 900)\n" for y in range(100, 1000, 100))
CARVINGS += [
    (FLAT, b"", 0, FLAT_HEAD + "(floor 0 of 0)\nM2"),
    (FLAT + " --units=in1000 --safe=1 --feed=1 --pocket=both", b"#\n", 0, "(flat 50)\nG20\nG90\nF1\nG0 Z0.001\n(floor 0 of 0)\nM2"),
    (
        FLOOR,
        SQUARE,
        0,
        FLAT_HEAD
        + """G0 X1.50 Y3.00
G1 Z-1.00
G1 X8.50 Y3.00 Z-1.00
G0 Z2.00
G0 X1.50 Y6.00
G1 Z-1.00
G1 X8.50 Y6.00 Z-1.00
G0 Z2.00
(floor y 100 x 100 to 900)
(floor y 200 x 100 to 900)
(floor y 300 x 100 to 100)
(floor y 300 x 900 to 900)
(floor y 400 x 100 to 900)
(floor y 500 x 100 to 900)
(floor y 600 x 100 to 100)
(floor y 600 x 900 to 900)
(floor y 700 x 100 to 900)
(floor y 800 x 100 to 900)
(floor y 900 x 100 to 900)
(floor 67 of 81)
M2""",
    ),
    (FLOOR.replace("=50", "=450"), SQUARE, 0, FLAT_HEAD.replace("50)", "450)") + FLOOR_LEFT + "(floor 81 of 81)\nM2"),
    # The middle alone is as far from the edges; and every point is nearer.
    (
        FLOOR.replace("=50", "=400").replace("300", "500").replace("pitch=100", "pitch=400"),
        SQUARE,
        0,
        FLAT_HEAD.replace("50)", "400)") + "G0 X5.00 Y5.00\nG1 Z-1.00\nG0 Z2.00\n(floor y 800 x 800 to 800)\n(floor 1 of 4)\nM2",
    ),
    (FLOOR.replace("=50", "=401").replace("300", "500"), SQUARE, 0, FLAT_HEAD.replace("50)", "401)") + FLOOR_LEFT + "(floor 81 of 81)\nM2"),
    (FLOOR.replace("1/1", "2000/1").replace("600", "1"), SQUARE, 0, FLAT_HEAD + "(floor 0 of 0)\nM2"),
    (FLAT, b"0,0\n", 3, "input loops 0 short"),
    (FLAT, b"-9,0 9,0 0,9\n0,0 5,-5 -5,-5\n", 3, "input cross 0,3"),
    (FLAT + " --pitch=1", b"0,0 4095,0 4095,4096\n", 3, "input too many points"),
    (FLAT.replace("1/1", "2000/1").replace("600", "1") + " --pitch=1", b"0,0 4095,0 4095,4096\n", 3, "input too many points"),
]

# Drawings that cross, by the even-odd rule, likewise.
EVENODD = " --cross=evenodd"
POINTED = [("0.00", "0.00"), ("0.00", "0.00"), ("0.01", "0.00")]
SQUARES = b"0,0 200,0 200,200 0,200\n100,100 300,100 300,300 100,300\n"
CARVINGS += [
    (PROBE.replace("500,500", "150,150"), SQUARES, 3, "input cross 1,4"),
    (PROBE.replace("500,500", "150,150") + EVENODD, SQUARES, 0, "depth 0"),
    (PROBE.replace("500,500", "50,100") + EVENODD, SQUARES, 0, "depth 50"),
    (PROBE + EVENODD, SQUARE, 0, "depth 500"),
    (PROBE + EVENODD, SQUARE + SQUARE, 0, "depth 0"),
    # Where an edge is there twice on one side of a square, it is all the same an edge.
    (PROBE + EVENODD, SQUARE + b"500,400 500,600\n", 0, "depth 0"),
    (PROBE.replace("500,500", "400,500") + EVENODD, SQUARE + b"500,400 500,600\n", 0, "depth 100"),
    (FLATTEN + EVENODD, b"0,0 1,0\n", 0, "0,0 1,0"),
    (FLATTEN + EVENODD, SQUARES * 3, 0, (SQUARES * 3).decode()[:-1]),
    (FLATTEN + EVENODD, b"0,0\n", 3, "input loops 0 short"),
    (FINE + EVENODD + " --pocket=both --over=1", b"0,0 1,0\n", 0, HEAD + "".join(CORNER % place for place in POINTED) + "(uncut 0 of 0)\nM2"),
]

# Drawings and codes for cover: the words, the bytes of both, the status, the text.
COVERS = [
    (COVER, b"", b"", 0, "uncut 0 of 0"),
    (COVER, b"", b"Q", 3, "input code line 1 word"),
    (COVER, b"0,0", b"Q", 3, "input loops 0 short"),
    (COVER + " --pitch=1", b"-32768,-32768 32767,32767\n", b"Q", 3, "input cross 0,1"),
    (COVER + " --pitch=1", b"-32768,-32768 32767,32767 0,9\n", b"Q", 3, "input code line 1 word"),
    (COVER + " --pitch=1", b"-32768,-32768 32767,32767 0,9\n", b"", 3, "input too many points"),
    (COVER + " --pitch=1", b"0,0 4095,0 4095,4096\n", b"", 3, "input too many points"),
    # 4096 rows of 4096 points: none is inside so slim a triangle.
    (COVER + " --pitch=1", b"0,0 4095,4095 4094,4094 1,0\n", b"", 3, "input cross 0,1"),
    (COVER + " --pitch=1", b"0,0 4095,4095 4094,4095\n", b"", 0, "uncut 0 of 0"),
    (COVER + " --pitch=500", SQUARE, b"", 0, "uncut y 500 x 500 to 500\nuncut 1 of 1"),
    (COVER + " --pitch=500", SQUARE, b"Z1\nX5Y5\nZ-.001\n", 0, "uncut 0 of 1"),
    # The disc is open, and a line that isn't below the surface removes nothing.
    (COVER + " --pitch=500", SQUARE, b"Z1\nX5Y4\nZ-1\n", 0, "uncut y 500 x 500 to 500\nuncut 1 of 1"),
    (COVER + " --pitch=500", SQUARE, b"Z0\nX5Y5\nX6\n", 0, "uncut y 500 x 500 to 500\nuncut 1 of 1"),
    (COVER + " --pitch=32767", b"-32768,-32768 32767,-32768 32767,32767 -32768,32767\n", b"", 0, "uncut y -32767 x -32767 to 0\nuncut y 0 x -32767 to 0\nuncut 4 of 4"),
]

# Files in the other forms: the words behind FLATTEN, the bytes, the status, the text.
DXF, CXF, PBM = "--form=dxf", "--form=cxf --text=I", "--form=pbm"
def dxf(words):
    """A file with these pairs in its section of entities, a blank between two lines."""
    return f"0 SECTION 2 ENTITIES {words} 0 ENDSEC 0 EOF ".replace(" ", "\n").encode()


SIDES = "0 LINE 10 0 20 0 11 1 21 0 0 LINE 10 1 20 0 11 1 21 1 0 LINE 10 1 20 1 11 0 21 1 0 LINE 10 0 20 1 11 0 21 0"
ROUND = "0 POLYLINE 66 1 70 1 0 VERTEX 10 0 20 0 42 1 0 VERTEX 10 1 20 0 0 SEQEND"
FONT = b"# a small font\n[I] 4\nL 0,0,2,0\nL 2,0,2,9\nL 2,9,0,9\nL 0,9,0,0\n\n[O] 2\nA 4.5,4.5,4.5,0,360\nAR 4.5,4.5,2.5,0,360\n"
LETTER_I = "0,0 200,0 200,900 0,900"
PLAIN_MAP, PACKED_MAP = b"P1\n2 2\n10\n01\n", b"P4 10 2\n\x80\x40\xff\xc0"
DIAGONAL = "100,200 0,200 0,100 100,100 200,100 200,0 100,0 100,100"
FORMED = [
    (DXF, b"", 3, "input dxf pair 1 unended"),
    (DXF, b"\n", 3, "input dxf pair 1 bad code"),
    (DXF, b"0\nEOF", 0, "# skipped 0"),
    (DXF, b"-0\r\nEOF\r\nx", 0, "# skipped 0"),
    (DXF, b"\xef\xbb\xbf0\nEOF\n", 3, "input dxf pair 1 bad code"),
    (DXF, b"AutoCAD Binary DXF\r\n\x1a\0\0SECTION\0", 3, "input dxf pair 1 bad code"),
    (DXF, "0\nEOF\n".encode("utf-16"), 3, "input dxf pair 1 bad code"),
    (DXF, b"0\rEOF\r", 3, "input dxf pair 1 bad code"),
    (DXF, b"0\n\0\n0\nEOF", 0, "# skipped 0"),
    (DXF, dxf(SIDES), 0, "# skipped 0\n0,0 100,0 100,100 0,100"),
    (DXF, dxf(SIDES + " 0 \xff\xff 1 \0"), 0, "# skipped 1\n0,0 100,0 100,100 0,100"),
    (DXF, dxf(SIDES) * 2, 0, "# skipped 0\n0,0 100,0 100,100 0,100"),
    (DXF, dxf(SIDES + " " + SIDES), 3, "input cross 0,4"),
    (DXF, dxf("0 SECTION " * 50_000 + SIDES), 0, "# skipped 0\n0,0 100,0 100,100 0,100"),
    (DXF, dxf("0 SEQEND " * 50_000 + SIDES), 0, "# skipped 50000\n0,0 100,0 100,100 0,100"),
    (DXF, dxf("0 POLYLINE " * 50_000 + SIDES), 3, "input dxf pair 3 unended"),
    (DXF, dxf("0 LINE 10 " + "9" * 100_000), 3, "input dxf pair 4 number"),
    (DXF, dxf("0 LINE 10 0." + "0" * 100_000 + " 20 0 11 1 21 0"), 3, "input open 0,0"),
    (DXF, dxf("0 LINE 10 1e999 20 0 11 1 21 0"), 3, "input dxf pair 3 out of range"),
    (DXF, dxf("0 LINE 10 1e9999 20 0 11 1 21 0"), 3, "input dxf pair 4 number"),
    (DXF, dxf("0 LINE 10 1e-999 20 -1e-999 11 0e999 21 0"), 0, "# skipped 0"),
    (DXF, dxf("0 LINE 10 nan 20 inf 11 1 21 0"), 3, "input dxf pair 4 number"),
    (DXF, dxf("0 LINE 10 1,5 20 0 11 1 21 0"), 3, "input dxf pair 4 number"),
    (DXF, dxf("0 CIRCLE 10 0 20 0 40 327.67"), 0, None),
    (DXF, dxf("0 CIRCLE 10 0 20 0 40 327.68"), 3, "input dxf pair 3 out of range"),
    (DXF, dxf("0 ARC 10 0 20 0 40 1 50 99999999999 51 0"), 3, "input dxf pair 3 out of range"),
    (DXF + " --chord=90", dxf(ROUND), 0, "# skipped 0\n0,0 50,-50 100,0"),
    (DXF, dxf(ROUND.replace("42 1", "42 1e12")), 3, "input dxf pair 3 out of range"),
    (DXF, dxf(ROUND.replace("0 SEQEND", "0 LINE")), 3, "input dxf pair 3 unended"),
    (CXF, b"", 3, "input lay no glyph 0"),
    (CXF, b"\0", 3, "input lay no glyph 0"),
    (CXF, b"[\0]\nx", 3, "input cxf line 2 syntax"),
    (CXF, b"[", 3, "input cxf line 1 syntax"),
    (CXF, b"[I]", 0, None),
    (CXF, FONT, 0, LETTER_I),
    (CXF, FONT.replace(b"\n", b"\r\n"), 0, LETTER_I),
    (CXF, FONT.replace(b"\n", b"\r"), 3, "input lay no glyph 0"),
    (CXF, b"\xef\xbb\xbf" + FONT, 0, LETTER_I),
    (CXF, FONT + b"[\xff]\n[\xc3\xa4]\n[\xc3]\n", 0, LETTER_I),
    (CXF, FONT + b"[\xc3\xa4\xa4]\n", 3, "input cxf line 11 syntax"),
    (CXF, FONT + b"[I]\nL 0,0,1,1\n" * 20_000, 0, LETTER_I),
    (CXF, FONT + b"L 0,0,1,1," + b"," * 100_000, 3, "input cxf line 11 syntax"),
    (CXF, FONT + b"L 0,0,1," + b"1" * 100_000, 3, "input cxf line 11 number"),
    (CXF, FONT + b"#" * 100_000, 0, LETTER_I),
    (CXF, FONT + b"[" + b"a" * 100_000 + b"]", 3, "input cxf line 11 syntax"),
    (CXF, FONT + b"[#" + b"0" * 100_000 + b"61]", 3, "input cxf line 11 syntax"),
    (CXF, FONT + b"L 0,0,1000.0000005,0", 3, "input cxf line 11 number"),
    (CXF, FONT + b"A 0,0,-1,0,0", 3, "input cxf line 11 number"),
    (CXF.replace("=I", "=" + "I" * 201), FONT, 2, "usage"),
    (CXF.replace("=I", "=" + "I" * 200) + " --height=9 --charspace=500", FONT, 0, None),
    (CXF.replace("=I", "=" + "I" * 200), FONT, 3, "input lay out of range"),
    (CXF + " --height=32767 --width=500", FONT, 3, "input lay out of range"),
    (CXF + " --height=1", FONT, 0, None),
    (PBM, b"", 3, "input pbm magic"),
    (PBM, b"P", 3, "input pbm magic"),
    (PBM, b"P1", 3, "input pbm header"),
    (PBM, b"P6 1 1 255\n\0\0\0", 3, "input pbm magic"),
    (PBM, b"P1 " + b"#" * 100_000, 3, "input pbm header"),
    (PBM, b"P1" + b"\n" * 100_000 + b"1 1 1", 0, "10,10 0,10 0,0 10,0"),
    (PBM, b"P1 " + b"0" * 100_000 + b"1 1 1", 3, "input pbm header"),
    (PBM, b"P1 99999 99999 1", 3, "input pbm size"),
    (PBM, b"P4 8191 8191 ", 3, "input pbm short"),
    (PBM, b"P1 8191 8191 ", 3, "input pbm short"),
    (PBM + " --pixel=1000", b"P1 32 1 " + b"1" * 32, 0, None),
    (PBM + " --pixel=1000", b"P1 33 1 " + b"1" * 33, 3, "input pixels out of range"),
    (PBM + " --pixel=100", PLAIN_MAP, 0, DIAGONAL),
    (PBM, PACKED_MAP, 0, None),
    (PBM, b"P4 1 1\n", 3, "input pbm short"),
    (PBM, b"P4 1 1\n\x7f", 0, None),
    (PBM, b"P1 1 1\n\xff", 3, "input pbm pixel"),
]

# Words beside the files d with SQUARE and c with DOWN: the words, the status, the text. The system passes no word of more
# than 131,071 bytes on.
AT = "--drawing=d --at=500,500 --bit=1/1"
SQUARE_CARVED = """(bit 1/1 rmax 600 limit 32767 step 500)
G21
G90
F500
G0 Z2.00
G0 X0.00 Y0.00
G1 Z0.00
G1 X5.00 Y5.00 Z-5.00
G1 X10.00 Y0.00 Z0.00
G1 X5.00 Y5.00 Z-5.00
G1 X10.00 Y10.00 Z0.00
G1 X5.00 Y5.00 Z-5.00
G1 X0.00 Y10.00 Z0.00
G1 X5.00 Y5.00 Z-5.00
G1 X0.00 Y0.00 Z0.00
G0 Z2.00
(uncut 0 of 1)
M2"""
TRIAL = "trial 1 loops 1 edges 8 contacts 64\nnodes 69 chains 7\nclear 82 moves\nuncut 0 of 1341"
LISTED = "4 100,300,200 100,300,-100\n5 100,300,-100 100,100,-100\nmoves 2"
OUT_OF_RANGE = {
    "chord": ("0", "91", "-1", "", "1.5", "9999999999"),
    "snap": ("-1", "17", ""),
    "pixel": ("0", "1001"),
    "height": ("0", "32768"),
    "width": ("9", "501"),
    "charspace": ("-1", "501"),
    "wordspace": ("-1", "501"),
    "linespace": ("9", "501"),
    "justify": ("middle", "", "LEFT"),
    "mirror": ("true", "1"),
    "flip": ("", "Yes"),
    "cross": ("", "Evenodd"),
    "text": ("",),
}
WORDS = [
    ([], 2, "usage"),
    ([""], 2, "usage"),
    (["probe"] * 10_000, 2, "usage"),
    (["moves", *["--code=c"] * 10_000], 2, "usage"),
    (["moves", *[f"--{n}" for n in range(10_000)]], 2, "usage"),
    (["moves", "--code=" + "n" * 131_000], 5, "read fault"),
    (["moves", "--units=" + "n" * 131_000], 2, "usage"),
    (["n" * 131_000], 2, "usage"),
    ([b"moves", b"--code=\xff"], 8, None),
    ([b"\xc0\x80"], 8, None),
    ([b"moves", b"--code=c", b"\xed\xa0\x80"], 8, None),
    (["moves", "--code", ""], 4, "absent code"),
    (["moves", "--code=c", ""], 2, "usage"),
    (["moves", " --code=c"], 2, "usage"),
    (["moves", "--code=\n"], 4, "absent code"),
    (["moves", "--code=é"], 4, "absent code"),
    (["moves", "—code=c"], 2, "usage"),
    (["moves", "--code=c", "--units=mm100\n"], 2, "usage"),
    ("help", 2, "usage"),
    ("--help", 2, "usage"),
    ("-h", 2, "usage"),
    ("--version", 2, "usage"),
    ("-V", 2, "usage"),
    ("help probe", 2, "usage"),
    ("Probe " + AT + " --rmax=600", 2, "usage"),
    ("carve " + AT + " --rmax=600", 2, "usage"),
    ("--drawing=d probe", 2, "usage"),
    ("probe", 2, "usage"),
    ("probe --help", 2, "usage"),
    ("probe -h", 2, "usage"),
    ("probe --version", 2, "usage"),
    (PROBE, 0, "depth 500"),
    (PROBE + " --", 0, "depth 500"),
    (CONTACTS + " --bit=1/1", 2, "usage"),
    ("contacts --drawing=d --rmax=600", 2, "usage"),
    ("contacts --drawing=d --step=0 --rmax=600", 2, "usage"),
    ("contacts --drawing=d --step=32768 --rmax=600", 2, "usage"),
    ("contacts --drawing=d --step=9 --rmax=8192", 2, "usage"),
    ("contacts --drawing=d --step=500 --rmax=1", 0, """0 0 0/2 none 0 0,0
0 0 1/2 left 1 500,1
0 0 2/2 none 0 1000,0
0 1 0/2 none 0 1000,0
0 1 1/2 left 1 999,500
0 1 2/2 none 0 1000,1000
0 2 0/2 none 0 1000,1000
0 2 1/2 left 1 500,999
0 2 2/2 none 0 0,1000
0 3 0/2 none 0 0,1000
0 3 1/2 left 1 1,500
0 3 2/2 none 0 0,0"""),
    (
        CARVE + " --units=in1000 --safe=32767 --feed=10000 --limit=1 --pitch=500",
        0,
        """(bit 1/1 rmax 600 limit 1 step 500)
G20
G90
F10000
G0 Z32.767
G0 X0.000 Y0.000
G1 Z0.000
G1 X0.500 Y0.500 Z-0.001
G1 X1.000 Y0.000 Z0.000
G1 X0.500 Y0.500 Z-0.001
G1 X1.000 Y1.000 Z0.000
G1 X0.500 Y0.500 Z-0.001
G1 X0.000 Y1.000 Z0.000
G1 X0.500 Y0.500 Z-0.001
G1 X0.000 Y0.000 Z0.000
G0 Z32.767
(uncut 0 of 1)
M2""",
    ),
    ("carve", 2, "usage"),
    (CARVE.replace("--drawing=d", ""), 2, "usage"),
    (CARVE.replace("--bit=1/1", ""), 2, "usage"),
    (CARVE.replace("--rmax=600", ""), 2, "usage"),
    (CARVE.replace("--step=500", ""), 2, "usage"),
    (CARVE + " --step=500", 2, "usage"),
    (CARVE + " --safe=0", 2, "usage"),
    (CARVE + " --safe=32768", 2, "usage"),
    (CARVE + " --safe=2.00", 2, "usage"),
    (CARVE + " --safe=", 2, "usage"),
    (CARVE + " --feed=0", 2, "usage"),
    (CARVE + " --feed=10001", 2, "usage"),
    (CARVE + " --feed -1", 2, "usage"),
    (CARVE + " --limit=0", 2, "usage"),
    (CARVE + " --limit=32768", 2, "usage"),
    (CARVE + " --form=svg", 2, "usage"),
    (CARVE + " --pitch=0", 2, "usage"),
    (CARVE + " --pitch=32768", 2, "usage"),
    (CARVE + " --pitch=1.0", 2, "usage"),
    (STROKES, 3, "input dxf pair 1 bad code"),
    (STROKES + " --safe=1 --feed=1 --pitch=1 --units=mm10", 3, "input dxf pair 1 bad code"),
    (STROKES.replace("--depth=10", "--depth=600"), 3, "input dxf pair 1 bad code"),
    (STROKES.replace("--depth=10", "--depth=601"), 2, "usage"),
    (STROKES.replace("--depth=10", "--depth=0"), 2, "usage"),
    (STROKES.replace("--depth=10", "--depth=32768"), 2, "usage"),
    (STROKES.replace("--depth=10", ""), 2, "usage"),
    (STROKES.replace("--rmax=600", "--rmax=9"), 2, "usage"),
    (STROKES.replace("--form=dxf", ""), 2, "usage"),
    (STROKES.replace("--form=dxf", "--form=loops"), 2, "usage"),
    (STROKES.replace("--form=dxf", "--form=pbm"), 2, "usage"),
    (STROKES.replace("--form=dxf", "--form=cxf"), 2, "usage"),
    (STROKES.replace("--form=dxf", "--form=cxf --text=I"), 3, "input lay no glyph 0"),
    (STROKES.replace("--drawing=d", "--drawing=nothing"), 4, "absent drawing"),
    (STROKES + " --step=1", 2, "usage"),
    (STROKES + " --limit=1", 2, "usage"),
    (STROKES + " --depth=10", 2, "usage"),
    ("strokes", 2, "usage"),
    (REPAIR, 0, REPAIRED),
    (REPAIR + " --safe=32767 --feed=10000", 0, REPAIRED.replace("F500", "F10000").replace("Z2.000", "Z327.670", 1).replace("Y1.000 Z2.000", "Y1.000 Z327.670")),
    (REPAIR.replace("--drawing=d", "--drawing=nothing"), 4, "absent drawing"),
    (REPAIR.replace("--code=c", "--code=nothing"), 4, "absent code"),
    (REPAIR.replace("--code=c", "--code=folder"), 5, "read fault"),
    (REPAIR.replace("--code=c", "--code=d"), 3, "input code line 1 word"),
    (REPAIR.replace("--drawing=d", "--drawing=c"), 3, "input loops 0 syntax"),
    *[(REPAIR.replace(said, ""), 2, "usage") for said in ("--drawing=d", "--code=c", "--bit=1/1", "--rmax=200")],
    *[(f"{REPAIR} --{wrong}", 2, "usage") for wrong in ("safe=0", "safe=32768", "feed=0", "feed=10001", "pitch=1", "step=1", "limit=1", "depth=1", "code=c")],
    ("repair", 2, "usage"),
    ("flat", 2, "usage"),
    *[(FLAT.replace(f" --{name}", " --nothing"), 2, "usage") for name in ("drawing=d", "bit=1/1", "rmax=600", "radius=50")],
    *[(FLAT.replace(f" --{name}", ""), 2, "usage") for name in ("drawing=d", "bit=1/1", "rmax=600", "radius=50")],
    *[(FLAT.replace("=50", f"={wrong}"), 2, "usage") for wrong in ("", "0", "8192", "-1", "1.0", "1/1", "0000000001")],
    *[(f"{FLAT} --over={wrong}", 2, "usage") for wrong in ("0", "8192")],
    *[(f"{FLAT} --pocket={wrong}", 2, "usage") for wrong in ("none", "", "X", "xy", "x --pocket=x")],
    *[(f"{FLAT} --{wrong}", 2, "usage") for wrong in ("limit=0", "limit=32768", "safe=0", "feed=10001", "pitch=0", "step=500", "depth=5", "code=c", "at=5,5")],
    (FLAT + " --radius=50", 2, "usage"),
    (FLAT + " --pocket=none --drawing=nothing", 2, "usage"),
    (FLAT.replace("=d", "=nothing"), 4, "absent drawing"),
    (FLAT.replace("=d", "=c"), 3, "input loops 0 syntax"),
    (FLAT.replace("=d", "=c") + " --pocket=none", 2, "usage"),
    (CARVE + " --radius=50", 2, "usage"),
    (COVER + " --radius=50", 2, "usage"),
    ("cover", 2, "usage"),
    (COVER.replace("--code=c", ""), 2, "usage"),
    (COVER.replace("--drawing=d", ""), 2, "usage"),
    (COVER.replace("--bit=1/1", ""), 2, "usage"),
    (COVER.replace("--rmax=200", ""), 2, "usage"),
    (COVER + " --pitch=0", 2, "usage"),
    (COVER + " --pitch=32768", 2, "usage"),
    (COVER + " --pitch=1 --pitch=1", 2, "usage"),
    (COVER + " --step=5", 2, "usage"),
    (COVER + " --limit=5", 2, "usage"),
    (CARVE + " --pocket=none --pitch=500", 0, SQUARE_CARVED),
    (CARVE + " --over=8191 --cross=evenodd --pitch=500", 0, SQUARE_CARVED),
    # Nowhere is it as deep as the bit may go.
    (CARVE + " --pocket=both --over=500 --pitch=500", 0, SQUARE_CARVED),
    (CARVE + " --pocket=y --over=501 --limit=500 --pitch=500", 0, SQUARE_CARVED.replace("32767", "500")),
    (
        CARVE + " --pocket=both --over=500 --limit=500 --pitch=500",
        0,
        SQUARE_CARVED.replace("32767", "500").replace("(uncut", "G0 X5.00 Y5.00\nG1 Z-5.00\nG0 Z2.00\n" * 2 + "(uncut"),
    ),
    *[(f"{CARVE} --{wrong}", 2, "usage") for wrong in ("pocket=", "pocket=X", "pocket=xy", "pocket x y", "pocket", "pocket=x --pocket=y")],
    *[(f"{CARVE} --over={wrong}", 2, "usage") for wrong in ("", "0", "8192", "-1", "1.0", "0000000001")],
    *[(f"{words} --cross={wrong}", 2, "usage") for words in (PROBE, FLATTEN, CHECK) for wrong in ("", "odd", "Refuse", "evenodd --cross=evenodd")],
    (PROBE + " --cross=evenodd", 0, "depth 500"),
    (PROBE + " --cross refuse", 0, "depth 500"),
    (PROBE + " --pocket=x", 2, "usage"),
    (COVER + " --over=50", 2, "usage"),
    (MOVES + " --cross=refuse", 2, "usage"),
    *[(f"trial{wrong}", 2, "usage") for wrong in ("", " --count", " --count=", " --count=0", " --count=81", " --count=-1", " --count=1.0", " --count 1 --count=1")],
    *[(f"trial --count=1 {wrong}", 2, "usage") for wrong in ("--drawing=d", "--cross=evenodd", "--bit=1/1", "1", "-- --", "--over=1")],
    ("trial --count=1", 0, TRIAL),
    ("trial --count 000000001 --", 0, TRIAL),
    (CARVE + " --code=c", 2, "usage"),
    (CARVE + " --at=5,5", 2, "usage"),
    (CARVE.replace("step=500", "step=0"), 2, "usage"),
    (CARVE.replace("step=500", "step=32768"), 2, "usage"),
    (CARVE.replace("600", "8192"), 2, "usage"),
    (CARVE.replace("1/1", "0/1"), 2, "usage"),
    (CARVE + " --safe=0 --drawing=nothing", 2, "usage"),
    (PROBE + " --safe=1", 2, "usage"),
    (CHECK + " --feed=1", 2, "usage"),
    (CONTACTS + " --safe=1", 2, "usage"),
    (PROBE + " -- --", 2, "usage"),
    (PROBE + " -- d", 2, "usage"),
    (PROBE + " -", 2, "usage"),
    (PROBE + " d", 2, "usage"),
    (PROBE + " --help", 2, "usage"),
    (PROBE + " --code=c", 2, "usage"),
    (PROBE + " --drawing=d", 2, "usage"),
    (PROBE + " --form=loops --units=in1000 --limit=7", 0, "depth 7"),
    ("probe --rmax 600 --bit 1/1 --at 500,500 --drawing d", 0, "depth 500"),
    ("probe --draw=d --at=500,500 --bit=1/1 --rmax=600", 2, "usage"),
    ("probe --DRAWING=d --at=500,500 --bit=1/1 --rmax=600", 2, "usage"),
    ("probe -drawing=d --at=500,500 --bit=1/1 --rmax=600", 2, "usage"),
    ("probe --drawing --at=500,500 --bit=1/1 --rmax=600", 2, "usage"),
    ("probe --at=500,500 --bit=1/1 --rmax=600 --drawing", 2, "usage"),
    ("probe --at=500,500 --bit=1/1 --rmax=600 --drawing --", 2, "usage"),
    ("probe --at=500,500 --bit=1/1 --rmax=600 --drawing -", 4, "absent drawing"),
    ("probe --at=500,500 --bit=1/1 --rmax=600 --drawing=--", 4, "absent drawing"),
    ("probe --at=500,500 --bit=1/1 --rmax=600 --drawing==d", 4, "absent drawing"),
    ("probe --drawing=d --at -5,500 --bit=1/1 --rmax=600", 2, "usage"),
    ("probe --drawing=d --at=-5,500 --bit=1/1 --rmax=600", 0, "depth 0"),
    ("probe --drawing=d --at=-0,007 --bit=1/1 --rmax=600", 0, "depth 0"),
    ("probe --drawing=d --at=32768,0 --bit=1/1 --rmax=600", 2, "usage"),
    ("probe --drawing=d --at= --bit=1/1 --rmax=600", 2, "usage"),
    ("probe --drawing=d --at=5 --bit=1/1 --rmax=600", 2, "usage"),
    ("probe --drawing=d --at=5,5,5 --bit=1/1 --rmax=600", 2, "usage"),
    ("probe --drawing=d --at=+5,5 --bit=1/1 --rmax=600", 2, "usage"),
    ("probe --drawing=d --at=0000000005,5 --bit=1/1 --rmax=600", 2, "usage"),
    ("probe --drawing=d --at=500,500 --bit=1 --rmax=600", 2, "usage"),
    ("probe --drawing=d --at=500,500 --bit=0/1 --rmax=600", 2, "usage"),
    ("probe --drawing=d --at=500,500 --bit=1/0 --rmax=600", 2, "usage"),
    ("probe --drawing=d --at=500,500 --bit=2001/1 --rmax=600", 2, "usage"),
    ("probe --drawing=d --at=500,500 --bit=-1/-1 --rmax=600", 2, "usage"),
    ("probe --drawing=d --at=500,500 --bit=1/2000 --rmax=8191", 0, "depth 32767"),
    ("probe --drawing=d --at=500,500 --bit=2000/1 --rmax=8191", 0, "depth 0"),
    ("probe " + AT + " --rmax=0", 2, "usage"),
    ("probe " + AT + " --rmax=8192", 2, "usage"),
    ("probe " + AT + " --rmax=1e3", 2, "usage"),
    ("probe " + AT + " --rmax=0x10", 2, "usage"),
    ("probe " + AT + " --rmax=", 2, "usage"),
    (PROBE + " --limit=0", 2, "usage"),
    (PROBE + " --limit=32768", 2, "usage"),
    (PROBE + " --limit=999999999999999999999999", 2, "usage"),
    (PROBE + " --form=DXF", 2, "usage"),
    (PROBE + " --form=dxf", 3, "input dxf pair 1 bad code"),
    (PROBE + " --form=pbm", 3, "input pbm magic"),
    (PROBE + " --form=cxf", 2, "usage"),
    (PROBE + " --form=cxf --text=", 2, "usage"),
    (PROBE + " --form=cxf --text=" + "a" * 201, 2, "usage"),
    (PROBE + " --form=cxf --text=" + "\u00e4" * 200, 3, "input lay no glyph 0"),
    (PROBE + " --form=cxf --text=-", 3, "input lay no glyph 0"),
    (["flatten", "--drawing=d", "--form=cxf", "--text", " \n "], 0, None),
    ([b"flatten", b"--drawing=d", b"--form=cxf", b"--text=\xff"], 8, None),
    ("flatten --drawing=d", 0, SQUARE.decode()[:-1]),
    ("flatten --drawing=c", 3, "input loops 0 syntax"),
    ("flatten --drawing=nothing --form=pbm", 4, "absent drawing"),
    ("flatten", 2, "usage"),
    ("flatten --drawing=d --at=5,5", 2, "usage"),
    ("flatten --drawing=d --bit=1/1", 2, "usage"),
    ("flatten --drawing=d --code=c", 2, "usage"),
    ("flatten --drawing=d --drawing=d", 2, "usage"),
    ("flatten --form=loops --units=in10 --drawing=d", 2, "usage"),
    # Options that a form doesn't use are checked, and change nothing.
    ("flatten --drawing=d --chord=90 --snap=16 --pixel=1000 --text=x --height=32767 --width=10 --charspace=500 --wordspace=0 --linespace=500", 0, SQUARE.decode()[:-1]),
    *((f"{FLATTEN} --{name}={value}", 2, "usage") for name, values in OUT_OF_RANGE.items() for value in values),
    ("flatten --drawing=d --justify=center --mirror=yes --flip=yes --units=mm10", 0, SQUARE.decode()[:-1]),
    (PROBE + " --form=", 2, "usage"),
    (MOVES, 0, LISTED),
    ("moves --units mm100 --code c", 0, LISTED),
    (MOVES + " --units=in10", 2, "usage"),
    (MOVES + " --units=MM100", 2, "usage"),
    (MOVES + " --units=in100", 3, "input code line 1 units"),
    (MOVES + " --code=c", 2, "usage"),
    ("moves", 2, "usage"),
    (CHECK, 0, "clear 2 moves"),
    (CHECK.replace("200", "100"), 0, "clear 2 moves"),
    (CHECK.replace("1/1", "101/100"), 1, "line 4 gouge edge 3"),
    (CHECK.replace("200", "99"), 1, "line 4 too deep"),
    (CHECK + " --at=5,5", 2, "usage"),
    (CHECK + " --limit=5", 2, "usage"),
    (CHECK.replace("--code=c", ""), 2, "usage"),
]

# Names that are no plain files, made by the script: the words, the status, the text.
NAMES = [
    ("moves --code=nothing", 4, "absent code"),
    ("moves --code=dangling", 4, "absent code"),
    ("moves --code=nowhere/c", 4, "absent code"),
    ("moves --code=folder", 5, "read fault"),
    ("moves --code=/", 5, "read fault"),
    ("moves --code=c/", 5, "read fault"),
    ("moves --code=c/c", 5, "read fault"),
    ("moves --code=circle", 5, "read fault"),
    ("moves --code=pipe", 5, "read fault"),
    ("moves --code=" + "n" * 256, 5, "read fault"),
    ("moves --code=" + "/" * 5000 + "c", 5, "read fault"),
    ("moves --code=/proc/self/mem", 5, "read fault"),
    ("moves --code=/dev/null", 0, "moves 0"),
    ("moves --code=/dev/stdin", 0, "moves 0"),
    ("moves --code=./folder/../c", 0, LISTED),
    ("probe --drawing=/dev/zero --at=5,5 --bit=1/1 --rmax=9", 3, "input too long drawing"),
    ("probe --drawing=/dev/full --at=5,5 --bit=1/1 --rmax=9", 3, "input too long drawing"),
    ("probe --drawing=/dev/urandom --at=5,5 --bit=1/1 --rmax=9", 3, "input too long drawing"),
    ("probe --drawing=pipe --at=5,5 --bit=1/1 --rmax=9", 5, "read fault"),
    (CARVE.replace("=d", "=nothing"), 4, "absent drawing"),
    (CARVE.replace("=d", "=folder"), 5, "read fault"),
    (CARVE.replace("=d", "=c"), 3, "input loops 0 syntax"),
    (CARVE.replace("=d", "=/dev/zero"), 3, "input too long drawing"),
    ("check --drawing=nothing --code=folder --bit=1/1 --rmax=9", 4, "absent drawing"),
    ("check --drawing=folder --code=nothing --bit=1/1 --rmax=9", 5, "read fault"),
    ("check --drawing=d --code=nothing --bit=1/1 --rmax=9", 4, "absent code"),
    ("check --drawing=d --code=d --bit=1/1 --rmax=9", 3, "input code line 1 word"),
    ("check --drawing=c --code=nothing --bit=1/1 --rmax=9", 3, "input loops 0 syntax"),
    ("check --drawing=/dev/zero --code=/dev/zero --bit=1/1 --rmax=9", 3, "input too long drawing"),
    (["moves", "--code=two\nlines"], 0, LISTED),
    (["moves", "--code=naïve ☃"], 0, LISTED),
    (["moves", "--code", "two words"], 0, LISTED),
    (["moves", "--code=--code"], 0, LISTED),
]
COPIES = ["two\nlines", "naïve ☃", "two words", "--code"]

# Outputs that take nothing, for answers of each kind: the words.
UNWRITTEN = [PROBE, MOVES, CHECK, CONTACTS, CARVE, FLOOR, FLATTEN, FLATTEN + " --form=pbm", CARVE.replace("=500", "=0"), "usage"]
UNWRITTEN += ["moves --code=nothing", "moves --code=folder", "moves --code=d", COVER, REPAIR, STROKES, "trial --count=1"]

DRAWN = [FLATTEN, PROBE, CONTACTS, CARVE + " --pitch=1000", STROKES.replace(" --form=dxf", "") + " --pitch=1000"]

# Limits of the address space, in MiB, under which an answer may be the want of memory.
SPACES = [*range(4, 40, 2), 48, 64, 96, 128]

# What is stated of memory: so many MiB, and bytes for each byte of the files, move of the code, contact, line of a carved program or of a
# report, and word; for each vertex of a DXF file, and each glyph and element of a font; never more than 1 GiB. And of time: so many seconds, and seconds for each MiB, move, contact, node that
# there may be, in a check for each pair of a move and an edge, and in a report for each point and each row that a move may reach.
MEBIBYTES, BYTES_A_BYTE, BYTES_A_MOVE, BYTES_A_CONTACT, BYTES_A_LINE, BYTES_A_WORD, MOST_MEBIBYTES = 32, 1, 80, 64, 100, 512, 1024
SECONDS, SECONDS_A_MEBIBYTE, SECONDS_A_MOVE, SECONDS_A_CONTACT, SECONDS_A_NODE, SECONDS_A_PAIR = 2, 0.05, 2e-6, 1e-5, 3e-5, 2e-7
SECONDS_A_POINT, SECONDS_A_ROW, SECONDS_A_SEGMENT = 1e-7, 3e-6, 2e-5
BYTES_A_VERTEX, BYTES_A_GLYPH, BYTES_AN_ELEMENT = 64, 300, 120
# For each element of a font and character of a text.
SECONDS_AN_ELEMENT = 4e-7
# Of a pocket, for each point of its lines; of a floor, for each point of its report; and of a trial, for each of its cells.
SECONDS_A_MILLED, SECONDS_A_FLOOR, SECONDS_A_CELL = 1e-6, 3e-6, 0.2
# How many bytes of a file there are for each segment at least, by its form.
BYTES_OF_A_SEGMENT = {b"dxf": 6, b"cxf": 10, b"pbm": 0.06, b"loops": 4}

# What changed inputs are made of: inputs to begin with, and what is put into them.
DRAWING_BASES = [SQUARE, ANGLE, PLATE, b"0,0 1,1", b"-5,-5 999,-5 500,999\r\n0,0 9,0 0,9\r\n", b""]
CODE_BASES = [
    DOWN,
    DOWN[4:],
    LENIENT,
    LENIENT.replace(b"G21", b""),
    b"%\nN1 G20 G1 X1Y1Z1\nN2 X.5 F1 S2 P3 (a) ;b\n%\nM30\nQ",
    b"X0Y0Z0\nZ-1\nX1\nY1\nX0Y0Z1",
]
SMALL = "probe --drawing=d --at=0,0 --bit=3/7 --rmax=8191 --limit=99"
APART = "probe --rmax 600 --bit 1/1 --at 500,500 --drawing d"
WORD_BASES = {
    "drawings": [PROBE, PROBE.replace("500,500", "501,200"), SMALL],
    "codes": [MOVES, MOVES + " --units=mm1000", MOVES + " --units=in100", MOVES + " --units=mm10"],
    "checks": [CHECK, CHECK + " --units=mm10", CHECK.replace("1/1", "2000/1999")],
    "repairs": [REPAIR, REPAIR + " --safe=1 --units=mm1000", REPAIR.replace("1/1", "2000/1999")],
    "covers": [COVER, COVER + " --pitch=77", COVER.replace("1/1", "2000/1999") + " --pitch=1000"],
    "contacts": [CONTACTS, CONTACTS.replace("250", "1"), CONTACTS + " --units=in100"],
    "carvings": [CARVE, CARVE + " --limit=60 --pocket=both --cross=evenodd --pitch=100", CARVE.replace("500", "5"), CARVE.replace("1/1", "1/200") + " --units=in1000", FINE, FLOOR, FLOOR.replace("=50", "=1") + " --pocket=both --cross=evenodd"],
    "words": [FLATTEN + " --snap=2 --chord=9", FLATTEN + " --form=cxf --text=a", PROBE + " --limit=7", CONTACTS, MOVES + " --units=mm100", CHECK, APART, CARVE + " --safe=7 --feed=8", CARVE + " --pocket=y --over=100 --cross=evenodd", "trial --count=2", COVER + " --pitch=9", FLOOR, FLAT + " --pocket=both --limit=60"],
}
ALPHABET = b"0123456789012345678901234567890123456789,,,,....---++     \t\t\r\n\n\n\n\n#GXYZMNgxyzFSP()%;=/\xe9"
BREAKS = [b"\n", b"\r\n", b"\r", b" ", b"\t", b"\0", b"\xef\xbb\xbf", b"\v"]
DRAWING_TOKENS = b"0,0|-0,0|32767,-32768|32768,0|-|--1,1|+1,1|1e3,1|0x10,1|,|1,1,1|999999999,1|1000000000,1|#|loop"
DRAWING_TOKENS = [*DRAWING_TOKENS.split(b"|"), b"\n#", *BREAKS, *DRAWING_BASES]
CODE_TOKENS = b"G0 G1 G2 G20 G21 G90 G91 G91.1 M2 M30 M6 X1 Y2.5 Z-1 Z2 X1.005 X327.68 Z-327.68 N10 F100 S1 P.1 O1 #1=2 [1]"
CODE_TOKENS = [*CODE_TOKENS.split(), *b"/ ( ) (a) ; % . - + -- 1e3 0 99".split(), b"9" * 27, *BREAKS, *CODE_BASES]
FORM_TOKENS = b"0|9|EOF|LINE|VERTEX|SEQEND|POLYLINE|70|-1|1e9|1e-9|[I]|[#61]|[|]|L 0,0,1,1|A 0,0,1,0,90|AR 1,1,1,9,0|P1|P4|8191|#"
FORM_TOKENS = [*FORM_TOKENS.split(b"|"), b"9" * 27, b"9" * 28, *BREAKS]
WORD_TOKENS = b"--|-|=|--help|-h|--limit=1|--limit|--units=mm10|--form=loops|--code=c|--at=1,1|--rmax=0|1/1|8191|32768|-5,5|,"
WORD_TOKENS += b"|--form=dxf|--form=pbm|--text=\xe4|--text=b|--cross=evenodd|--pocket=x|--pocket=none|--radius=9|--radius|flat|--over=9|trial|--count=1|--justify=left|--flip=yes|--mirror|--pixel=0|--width=10|flatten"
WORD_TOKENS = [*WORD_TOKENS.split(b"|"), *b"--safe=1|--feed=1|--pitch=1| | --| - | -- |\xc3\xa9|\xff|\n|  |probe| d|0".split(b"|")]

# Where the run isn't root's: the words, the status, the text.
UNREADABLE = [("moves --code=secret", 5, "read fault")]
