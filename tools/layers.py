#!/usr/bin/env python3
"""Draws the layers of the crates, docs/pictures/layers.svg, from crates.txt: a band for each group, a box for each crate, and a line to each
crate that it stands on but for those that one of the others stands on anyway. With --check it writes nothing, and fails where the picture is
out of date."""

import argparse
import re
import sys
from pathlib import Path

TOP = Path(__file__).resolve().parent.parent
PICTURE = TOP / "docs/pictures/layers.svg"
WIDTH, BOX, BAND, LEFT = 1180, (116, 22), 46, 100


def groups():
    """The groups of crates.txt: each one's name, and its crates with the repository's crates that they stand on."""
    found, every = [], set(re.findall(r"^(\w+):", (TOP / "crates.txt").read_text(), re.M))
    for line in (TOP / "crates.txt").read_text().splitlines():
        if line.startswith("#"):
            found.append((re.match(r"# ([\w ]+)", line).group(1), []))
        elif ":" in line:
            name, below = line.split(":")
            found[-1][1].append((name, [it for it in below.split() if it in every]))
    return found


def reached(name, below):
    """All crates that a crate stands on, directly or not."""
    return {it for one in below[name] for it in {one} | reached(one, below)}


def rows_of(crates):
    """The crates of a group in rows: each crate's row is above those of the group that it stands on."""
    of = {}
    for name, on in crates:
        of[name] = 1 + max((of[it] for it in on if it in of), default=-1)
    return [[name for name in of if of[name] == row] for row in range(max(of.values()) + 1)]


def places(found):
    """The middle of each crate's box; the bands, their names, tops and heights; and the height of all. The lowest layer is at the bottom."""
    at, bands, y = {}, [], 10
    for name, crates in reversed(found):
        rows = rows_of(crates)
        bands.append((name, y, BAND * len(rows)))
        for number, row in reversed(list(enumerate(rows))):
            step = (WIDTH - LEFT) / (len(row) + 0.5)
            at.update({crate: (LEFT + step * (k + 0.5 + number % 2 / 2), y + BAND / 2) for k, crate in enumerate(row)})
            y += BAND
    return at, bands, y


def picture():
    found = [it for it in groups() if not it[0].startswith("Tests")]
    below = {name: on for _, crates in found for name, on in crates}
    at, bands, height = places(found)
    out = [f'<svg xmlns="http://www.w3.org/2000/svg" viewBox="0 0 {WIDTH} {height + 10}" font-family="sans-serif" font-size="13">']
    out.append(f'<rect width="{WIDTH}" height="{height + 10}" fill="white"/>')
    for k, (name, top, high) in enumerate(bands):
        out.append(f'<rect x="0" y="{top}" width="{WIDTH}" height="{high}" fill="{("#f3f3f3", "#e6edf3")[k % 2]}"/>')
        out.append(f'<text x="10" y="{top + 20}" font-weight="bold">{name.lower()}</text>')
    for name, on in below.items():
        direct = [it for it in on if not any(it in reached(other, below) for other in on)]
        for (x, y), (u, v) in ((at[name], at[it]) for it in direct):
            out.append(f'<line x1="{x:.0f}" y1="{y:.0f}" x2="{u:.0f}" y2="{v:.0f}" stroke="#9ab" stroke-width="1"/>')
    for name, (x, y) in at.items():
        out.append(f'<rect x="{x - BOX[0] / 2:.0f}" y="{y - BOX[1] / 2:.0f}" width="{BOX[0]}" height="{BOX[1]}" rx="4" fill="white" stroke="#567"/>')
        out.append(f'<text x="{x:.0f}" y="{y + 4:.0f}" text-anchor="middle">{name}</text>')
    return "\n".join([*out, "</svg>"]) + "\n"


def main():
    parser = argparse.ArgumentParser(description=__doc__)
    parser.add_argument("--check", action="store_true")
    if not parser.parse_args().check:
        PICTURE.write_text(picture())
    elif not PICTURE.exists() or PICTURE.read_text() != picture():
        sys.exit("docs/pictures/layers.svg is out of date: run python3 tools/layers.py")


if __name__ == "__main__":
    main()
