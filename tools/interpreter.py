#!/usr/bin/env python3
"""Reads each program that a command writes in examples/ by LinuxCNC's interpreter too, and compares its moves with those that `moves` lists.

    python3 tools/interpreter.py [--program PATH] [--interpreter PATH] [FILE ..]

`rs274` is part of Debian's package linuxcnc-uspace, and needs no machine. Where it isn't there, this says so and ends well. With files,
these are read in place of the examples, in the units mm100. A program that isn't read by both is a fault.
"""

import argparse
import re
import shutil
import subprocess
import sys
import tempfile
from fractions import Fraction
from pathlib import Path

# So that an import leaves no files beside the sources.
sys.dont_write_bytecode = True

from definitions import UNIT_WORDS, ZEROS
from examples import BUILD, BUILT, TOP, Case

SECONDS = 60
CANON = re.compile(r"STRAIGHT_(TRAVERSE|FEED)\((.*)\)")
CANON_UNITS = {"G20": "CANON_UNITS_INCHES", "G21": "CANON_UNITS_MM"}
MOTION = {"G0": "TRAVERSE", "G1": "FEED"}


class Fault(Exception):
    """What is wrong with a program."""


def run(words):
    ran = subprocess.run(words, capture_output=True, text=True, timeout=SECONDS)
    if ran.returncode:
        raise Fault(f"{words[0]} ends with {ran.returncode}: {(ran.stderr or ran.stdout).strip()}")
    return ran.stdout


def canonical(interpreter, path, units):
    """The motions of LinuxCNC's interpreter: how each one moves, and where it ends, in grid units."""
    with tempfile.TemporaryDirectory() as folder:
        # An empty list of tools, and empty parameters.
        tools, parameters = Path(folder, "tools"), Path(folder, "parameters")
        tools.touch()
        parameters.touch()
        text = run([interpreter, "-t", tools, "-v", parameters, "-g", path])
    used = re.findall(r"USE_LENGTH_UNITS\((\w+)\)", text)
    if used[-1:] != [CANON_UNITS[UNIT_WORDS[units]]]:
        raise Fault(f"the interpreter's units are {used}")
    ends = [(motion, numbers.split(", ")[:3]) for motion, numbers in CANON.findall(text)]
    return [(motion, [Fraction(number) * 10 ** ZEROS[units] for number in end]) for motion, end in ends]


def listed(program, path, units):
    """The moves that are listed: the line of each one, and its ends."""
    *lines, count = run([program, "moves", f"--code={path}", f"--units={units}"]).splitlines()
    moves = [(int(line), *([Fraction(number) for number in end.split(",")] for end in ends)) for line, *ends in map(str.split, lines)]
    if count != f"moves {len(moves)}":
        raise Fault(f"{len(moves)} moves are listed, and counted as {count!r}")
    return moves


def compare(program, interpreter, path, units):
    """How many moves are the same: all, or there is a fault."""
    motions, moves = canonical(interpreter, path, units), listed(program, path, units)
    text = path.read_text().splitlines()
    # The motions before the first move lead to its start: until then `moves` doesn't know where the bit is.
    before = len(motions) - len(moves)
    if before < 1:
        raise Fault(f"the interpreter has {len(motions)} motions, and {len(moves)} moves are listed")
    places = [end for _, end in motions[before - 1 :]]
    for (line, start, end), (motion, _), last, place in zip(moves, motions[before:], places, places[1:]):
        if (start, end) != (last, place):
            raise Fault(f"line {line} goes {way(start, end)}, and the interpreter {way(last, place)}")
        if MOTION[text[line - 1].split()[0]] != motion:
            raise Fault(f"line {line} is {text[line - 1]!r}, and the interpreter's motion {motion}")
    return len(moves)


def way(start, end):
    ends = [",".join(str(float(number)) for number in place) for place in (start, end)]
    return f"from {ends[0]} to {ends[1]}"


def written():
    """The programs that commands write in the examples, with their units."""
    for words in sorted((TOP / "examples").glob("*/words")):
        case = Case(words.parent)
        if case.words[0] in ("carve", "flat", "strokes", "repair") and case.status == 0:
            units = [word.removeprefix("--units=") for word in case.words if word.startswith("--units=")]
            yield case.folder / "expected", units[0] if units else "mm100"


def main():
    parser = argparse.ArgumentParser(description=__doc__.splitlines()[0])
    parser.add_argument("--program", type=Path, default=BUILT)
    parser.add_argument("--interpreter", default=shutil.which("rs274"))
    parser.add_argument("files", nargs="*", type=Path)
    options = parser.parse_args()
    if not options.interpreter:
        print("interpreter: skipped, since there is no rs274 here; Debian's package linuxcnc-uspace has it")
        return 0
    if not options.program.exists():
        print(f"{options.program} isn't there; to build it: {BUILD}")
        return 2
    programs = [(file, "mm100") for file in options.files] or list(written())
    moves, faults = 0, []
    for path, units in programs:
        try:
            moves += compare(options.program.resolve(), options.interpreter, path, units)
        except Fault as fault:
            faults.append(f"{path}: {fault}")
    print("\n".join(faults + [f"interpreter: {len(programs)} programs, {moves} moves, {len(faults)} faults"]))
    return 1 if faults else 0


if __name__ == "__main__":
    sys.exit(main())
