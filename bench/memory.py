#!/usr/bin/env python3
"""Measures the peak memory of `check` for code of growing size; by hand.

usage: memory.py [--program PATH] [--megabytes N ..]

The code is made anew for each size, beside the other temporary files, and removed after its run. Its moves are short ones within a ring,
with a comment in each line that makes it 64 bytes long, so that 500 MB have fewer moves than may be.
"""

import argparse
import itertools
import os
import sys
import tempfile
from pathlib import Path

# So that an import leaves no files beside the sources.
sys.dont_write_bytecode = True

import make_inputs
import measure

LINE = 64


def padded(lines):
    """The lines with a comment, each as long as the others."""
    return (f"{line} ({'.' * (LINE - 4 - len(line))})\n" for line in lines)


def write_code(path, megabytes):
    """Gives how many moves there are."""
    moves = megabytes * 1_000_000 // LINE - 6
    with open(path, "w") as file:
        file.writelines(padded(make_inputs.code(itertools.islice(make_inputs.short_places(moves), moves))))
    return moves


def measured(program, folder, drawing, megabytes):
    code = folder / "code.ngc"
    moves = write_code(code, megabytes)
    words = (program, "check", f"--drawing={drawing}", f"--code={code}", "--bit=1/1", "--rmax=200")
    bench = measure.Bench(argparse.Namespace(program=program, yardstick="", repeat=1, sizes=1), folder)
    seconds, peak, size = bench.run("answer", words), bench.peak(words), os.path.getsize(code)
    if measure.last_line(folder / "answer") != f"clear {moves} moves":
        raise measure.WrongRun(f"{megabytes} MB: {measure.last_line(folder / 'answer')!r}")
    code.unlink()
    return size, moves, seconds, peak


def main():
    parser = argparse.ArgumentParser(description=__doc__, formatter_class=argparse.RawDescriptionHelpFormatter)
    program = measure.ROOT / "crates" / "engrave_cli" / "out" / "engrave_cli"
    parser.add_argument("--program", type=Path, default=program, help="the program that is measured")
    parser.add_argument("--megabytes", type=int, nargs="+", default=[1, 25, 500], help="the sizes of the code")
    options = parser.parse_args()
    measure.require(options.program, "the program", measure.BUILD_PROGRAM)
    measure.adopt_orphans()
    with tempfile.TemporaryDirectory(prefix="memory_") as name:
        drawing = measure.ring_file(Path(name), measure.SMALL_RING)
        for megabytes in options.megabytes:
            size, moves, seconds, peak = measured(str(options.program), Path(name), drawing, megabytes)
            print(f"{size / 1e6:.1f} MB, {moves:,} moves: {seconds:.2f} s, {peak:.1f} MiB", flush=True)


if __name__ == "__main__":
    main()
