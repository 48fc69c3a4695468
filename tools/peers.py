#!/usr/bin/env python3
"""Carves the same drawings by this program, by FreeCAD's Vcarve and by gcodetools' Engraving, and asks the programs the same questions.

    python3 tools/peers.py [--program PATH] [--markdown]

FreeCAD is Debian's package freecad, gcodetools comes with the package inkscape, and neither needs a window; which of them isn't there is
told on standard error, and the others run. Each drawing is flattened and taken at a thousand grid units a millimetre, since the others'
numbers have more decimals than a coarser grid reads. For each program it prints the time, the moves, the lengths that are cut and
travelled, what `check` says at the true bit, what `cover` says stays uncut, and how many moves `repair` changes; the greatest part of the
bit's slope at which `check` says clear; and how much too deep the tip goes at most, at points that are sampled. A program that `moves`
refuses isn't looked at further. Standard error has the load of the processors, and how gcodetools ends as it is installed: what is measured
is a copy that tools/peers_gcodetools.py mends.
"""

import argparse
import json
import os
import re
import shutil
import subprocess
import sys
import tempfile
import time
from collections import Counter
from functools import partial
from math import dist, hypot
from pathlib import Path

# So that an import leaves no files beside the sources.
sys.dont_write_bytecode = True

import peers_gcodetools
from examples import BUILD, BUILT, TOP

FONT = TOP / "fonts/plate.cxf"
EXAMPLES = TOP / "examples"
# What is flattened for each drawing, and the radius of the bit, in hundredths of a millimetre.
DRAWINGS = {
    "an L": ([f"--drawing={EXAMPLES}/carve_angle/angle.loops"], 200),
    "a frame": ([f"--drawing={EXAMPLES}/depth_in_a_hole/frame.loops"], 300),
    "No. 7": (["--form=cxf", f"--drawing={FONT}", "--text=No. 7", "--height=500"], 150),
    "a heart": (["--form=pbm", f"--drawing={EXAMPLES}/carve_heart/heart.pbm"], 300),
    "a plate": (["--form=dxf", f"--drawing={EXAMPLES}/carve_dxf_plate/plate.dxf", "--chord=45"], 300),
    "&": (["--form=cxf", f"--drawing={FONT}", "--text=&", "--height=2000"], 400),
}
FINER = 10
STEP, PITCH = 500, 250
MOVE = re.compile(r"\d+ (\S+),(\S+),(\S+) (\S+),(\S+),(\S+)")
LENGTHS = ["cut, mm", "travel, mm"]
ANSWERS = ["`check`", "clear at a slope of", "too deep, mm", "uncut", "changed by `repair`"]
COLUMNS = ["drawing", "program", "seconds", "moves", *LENGTHS, *ANSWERS]
SAMPLES = 32


def run(*words, accept=(0,)):
    ran = subprocess.run(words, capture_output=True, text=True)
    if ran.returncode not in accept:
        sys.exit(f"{words}: {ran.returncode} {ran.stdout}{ran.stderr}")
    return ran.stdout


class Drawing:
    """A drawing in loops form, on the finer grid."""

    def __init__(self, program, folder, name):
        asked, radius = DRAWINGS[name]
        lines = [line for line in run(program, "flatten", *asked).splitlines() if not line.startswith("#")]
        self.loops = [[tuple(FINER * int(z) for z in point.split(",")) for point in line.split()] for line in lines]
        self.path, self.radius = folder / "drawing.loops", FINER * radius
        self.path.write_text("".join(" ".join(f"{x},{y}" for x, y in loop) + "\n" for loop in self.loops))
        self.words = [f"--drawing={self.path}", "--units=mm1000", "--bit=1/1", f"--rmax={self.radius}"]


def ours(program, drawing, path):
    """The seconds that carving took."""
    began = time.perf_counter()
    path.write_text(run(program, "carve", *drawing.words, f"--step={STEP}", "--safe=2000"))
    return time.perf_counter() - began


def freecads(program, drawing, path):
    task = path.with_suffix(".json")
    millimetres = [[[x / 1000, y / 1000] for x, y in loop] for loop in drawing.loops]
    task.write_text(json.dumps({"loops": millimetres, "diameter": drawing.radius / 500, "angle": 90.0, "safe": 2.0, "program": str(path)}))
    script = Path(__file__).resolve().parent / "peers_freecad.py"
    subprocess.run(["freecadcmd", str(script)], env={**os.environ, "PEERS_TASK": str(task)}, capture_output=True, check=True)
    return float(Path(f"{path}.seconds").read_text())


def gcodetools(scale, program, drawing, path):
    return peers_gcodetools.carved(drawing.loops, drawing.radius / 500, 2, scale, path)


def makers():
    """What carves, by its name, as far as it is here; what isn't is told."""
    found = {"engrave_cli": ours}
    if shutil.which("freecadcmd"):
        found["FreeCAD"] = freecads
    else:
        print("peers: there is no freecadcmd; Debian's package freecad has it", file=sys.stderr)
    missing = peers_gcodetools.missing()
    if missing:
        print(f"peers: no gcodetools: {missing}", file=sys.stderr)
    else:
        found |= {"gcodetools, mended": partial(gcodetools, 1), "the same, drawn 10:1": partial(gcodetools, 10)}
    return found


def listed(moves):
    """The moves as six coordinates each, of where they begin and where they end."""
    return [[float(z) for z in match.groups()] for match in map(MOVE.fullmatch, moves.splitlines()) if match]


def lengths(moves):
    """How long the way is below the surface and above it, in millimetres."""
    cut = sum(dist(move[:3], move[3:]) for move in moves if min(move[2], move[5]) < 0)
    return cut / 1000, sum(dist(move[:3], move[3:]) for move in moves) / 1000 - cut / 1000


def to_side(x, y, ax, ay, bx, by):
    """How far a point is from a side."""
    dx, dy = bx - ax, by - ay
    part = max(0, min(1, ((x - ax) * dx + (y - ay) * dy) / (dx * dx + dy * dy)))
    return hypot(x - ax - part * dx, y - ay - part * dy)


def too_deep(drawing, moves):
    """How much deeper than the bit may the tip is, in millimetres, at most, at points of the moves; in plain floating point."""
    sides = [(*a, *b) for loop in drawing.loops for a, b in peers_gcodetools.sides(loop)]
    worst = 0
    for move in moves:
        for k in range(SAMPLES + 1):
            x, y, z = (a + (b - a) * k / SAMPLES for a, b in zip(move[:3], move[3:]))
            if z < 0:
                room = min(to_side(x, y, *side) for side in sides)
                is_inside = sum(peers_gcodetools.is_inside((x, y), loop) for loop in drawing.loops) % 2 == 1
                worst = max(worst, -z - (room if is_inside else -room))
    return worst / 1000


def greatest_slope(program, drawing, path):
    """The greatest slope in thousandths, up to the bit's own, for which the program is clear; a narrower bit removes less."""
    words = [word for word in drawing.words if not word.startswith("--bit=")]
    clear, gouges = 0, 1001
    while gouges - clear > 1:
        slope = (clear + gouges) // 2
        is_clear = run(program, "check", *words, f"--bit={slope}/1000", f"--code={path}", accept=(0, 1)).startswith("clear")
        clear, gouges = (slope, gouges) if is_clear else (clear, slope)
    return clear


def row(program, drawing, make, path):
    try:
        seconds = make(program, drawing, path)
    except peers_gcodetools.NoProgram as told:
        return ["-"] * 4 + [f"no program: {told}"] + ["-"] * 4
    words = [*drawing.words, f"--code={path}"]
    read = run(program, "moves", f"--code={path}", "--units=mm1000", accept=(0, 3))
    if read.startswith("input"):
        return [f"{seconds:.3f}", "-", "-", "-", f"not read: {read.strip()}"] + ["-"] * 4
    moves = listed(read)
    cut, travel = lengths(moves)
    verdict = run(program, "check", *words, accept=(0, 1)).strip()
    uncut = run(program, "cover", *words, f"--pitch={PITCH}").splitlines()[-1].removeprefix("uncut ")
    repaired = re.match(r"\(repaired (\d+) of", run(program, "repair", *words))
    slope = f"{greatest_slope(program, drawing, path) / 1000:.3f}"
    deeper = f"{too_deep(drawing, moves):.4f}"
    return [f"{seconds:.3f}", len(moves), f"{cut:.1f}", f"{travel:.1f}", verdict, slope, deeper, uncut, repaired[1]]


def main():
    parser = argparse.ArgumentParser(description=__doc__, formatter_class=argparse.RawDescriptionHelpFormatter)
    parser.add_argument("--program", default=BUILT)
    parser.add_argument("--markdown", action="store_true", help="prints the table of docs/PEERS.md")
    options = parser.parse_args()
    if not Path(options.program).exists():
        sys.exit(f"there is no {options.program}; {BUILD} builds it")
    program, rows, found, ends = str(options.program), [COLUMNS], makers(), Counter()
    with tempfile.TemporaryDirectory() as folder:
        path = Path(folder) / "carved.ngc"
        for name in DRAWINGS:
            drawing = Drawing(program, Path(folder), name)
            rows += [[name, maker, *row(program, drawing, make, path)] for maker, make in found.items()]
            if "gcodetools, mended" in found:
                ends[peers_gcodetools.as_installed(drawing.loops, drawing.radius / 500, 2, path)] += 1
    for end, times in ends.items():
        print(f"peers: gcodetools {peers_gcodetools.version()} as installed: {end} (drawings: {times})", file=sys.stderr)
    print(f"peers: the load of the last minute was {os.getloadavg()[0]:.1f} on {os.cpu_count()} processors", file=sys.stderr)
    if options.markdown:
        rows.insert(1, ["---"] * len(COLUMNS))
    for cells in rows:
        print("| " + " | ".join(map(str, cells)) + " |" if options.markdown else "  ".join(map(str, cells)))


if __name__ == "__main__":
    main()
