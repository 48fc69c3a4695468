#!/usr/bin/env python3
"""Counts how many grid points of a pocket's lines have to be asked about, on a sample of the lines of the lettered plate; by hand.

usage: skips.py [--every N]    each Nth row and column

It is a plain simulation of how a line may be walked: at a point that isn't inside, as many points are skipped as its clearance says that
none of them is inside either; at one that is inside and too shallow, as many as can't be deep enough; and at one that is deep enough, as
many as are deep enough for sure, with clear moves between them. Nothing of the program is run.
"""

import argparse
import sys
from math import isqrt

# So that an import leaves no files beside the sources.
sys.dont_write_bytecode = True

import make_inputs
import measure


class Plate:
    """The edges of a drawing, and a bit at the deepest depth that is allowed."""

    def __init__(self, loops, sn, sd, rmax):
        self.edges = [ends for loop in loops for ends in zip(loop, loop[1:] + loop[:1])]
        self.sn, self.sd, self.deepest = sn, sd, sd * rmax // sn

    def asked(self, x, y):
        """Whether a point is inside, and the square of its distance to the outline, rounded down after it is times sd squared."""
        is_inside, least = False, None
        for (ax, ay), (bx, by) in self.edges:
            dx, dy, px, py = bx - ax, by - ay, x - ax, y - ay
            along, whole = px * dx + py * dy, dx * dx + dy * dy
            nearest = (px * px + py * py, 1) if along <= 0 else ((x - bx) ** 2 + (y - by) ** 2, 1) if along >= whole else ((px * dy - py * dx) ** 2, whole)
            square = nearest[0] * self.sd**2 // nearest[1]
            least = square if least is None else min(least, square)
            if (ay <= y) != (by <= y):
                is_inside ^= (dx * py - dy * px > 0) == (ay <= y)
        return is_inside, least

    def skipped(self, x, y):
        """How many points behind this one needn't be asked about."""
        is_inside, square = self.asked(x, y)
        clearance = isqrt(square // self.sd**2)
        if not is_inside or square == 0:
            return max(clearance - 1, 0)
        depth = min(self.deepest, isqrt(square // self.sn**2))
        if depth < self.deepest:
            return self.sn * (self.deepest - depth - 1) // self.sd
        return max((clearance * self.sd - self.sn * self.deepest) // self.sd, 0)

    def asked_on(self, axis, line, length):
        """How many points of a line, from 0 to its length, are asked about."""
        place, count = 0, 0
        while place <= length:
            count += 1
            place += 1 + self.skipped(*((place, line) if axis == 0 else (line, place)))
        return count


def main():
    parser = argparse.ArgumentParser(description=__doc__, formatter_class=argparse.RawDescriptionHelpFormatter)
    parser.add_argument("--every", type=int, default=97, help="each so manieth line is walked")
    options = parser.parse_args()
    words = dict(word.removeprefix("--").split("=") for word in measure.POCKET_WORDS)
    plate = Plate(make_inputs.lettered_plate(), *map(int, words["bit"].split("/")), int(words["rmax"]))
    for axis, name in enumerate(("rows", "columns")):
        length, across = make_inputs.PLATE_SIDES[axis], make_inputs.PLATE_SIDES[1 - axis]
        lines = range(0, across + 1, options.every)
        asked = sum(plate.asked_on(axis, line, length) for line in lines)
        points = len(lines) * (length + 1)
        print(f"{name}: {len(lines)} of {across + 1}, {asked:,} of {points:,} points asked, {100 * asked / points:.1f} percent", flush=True)


if __name__ == "__main__":
    main()
