#!/usr/bin/env python3
"""Lays out each letter of the font that comes with the program, at three heights, and asks that it makes a drawing: closed outlines,
none of which cross. Run from the top of the repository; --program is the built program."""

import argparse
import subprocess
import sys

HEIGHTS = (100, 300, 900)


def keys(path):
    """The characters of the glyphs of a CXF font."""
    found = []
    with open(path, encoding="utf-8") as font:
        for line in font:
            line = line.strip()
            if line.startswith("[") and line[2:3] == "]":
                found.append(line[1])
    return found


def main():
    parser = argparse.ArgumentParser(description=__doc__)
    parser.add_argument("--program", default="crates/engrave_cli/out/engrave_cli")
    parser.add_argument("--font", default="fonts/plate.cxf")
    asked = parser.parse_args()
    letters = keys(asked.font)
    faults = 0
    for letter in letters:
        for height in HEIGHTS:
            words = [asked.program, "flatten", "--form=cxf", f"--drawing={asked.font}", f"--text={letter}", f"--height={height}"]
            run = subprocess.run(words, capture_output=True, check=False)
            if run.returncode != 0 or not run.stdout:
                print(f"{letter} at {height}: status {run.returncode}, {run.stdout.decode(errors='replace').strip()}")
                faults += 1
    print(f"letters: {len(letters)} at {len(HEIGHTS)} heights, {faults} faults")
    return 1 if faults or not letters else 0


if __name__ == "__main__":
    sys.exit(main())
