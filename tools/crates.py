#!/usr/bin/env python3
"""Writes the table of the crates into README.md, from the head of each crate's lib.rt or main.rt: its first paragraph says what the
crate is for, its second one which contract carries its promise. With --check it writes nothing, and fails where the table is out of
date."""

import argparse
import re
import sys
from pathlib import Path

TOP = Path(__file__).resolve().parent.parent
README = TOP / "README.md"
BEGIN, END = "<!-- crates -->\n", "<!-- end of crates -->"


def head_of(crate):
    """The paragraphs of the comment that a crate's root file begins with."""
    source = TOP / "crates" / crate / "src"
    root = source / "lib.rt" if (source / "lib.rt").exists() else source / "main.rt"
    lines = [line[3:].strip() for line in root.read_text().splitlines() if line.startswith("//!")]
    return [" ".join(part.split("\n")).strip() for part in "\n".join(lines).split("\n\n")]


def table():
    rows = ["| crate | what it does | what carries its promise |", "|---|---|---|"]
    for crate in re.findall(r"^(\w+):", (TOP / "crates.txt").read_text(), re.M):
        parts = head_of(crate)
        if len(parts) < 2:
            sys.exit(f"{crate}: the head of its root file isn't two paragraphs")
        rows.append(f"| `{crate}` | {parts[0]} | {' '.join(parts[1:])} |")
    return "\n".join(rows) + "\n"


def main():
    parser = argparse.ArgumentParser(description=__doc__)
    parser.add_argument("--check", action="store_true")
    check = parser.parse_args().check
    before, rest = README.read_text().split(BEGIN)
    behind = rest.split(END)[1]
    wanted = before + BEGIN + table() + END + behind
    if check and README.read_text() != wanted:
        sys.exit("README.md's table of crates is out of date: run python3 tools/crates.py")
    if not check:
        README.write_text(wanted)


if __name__ == "__main__":
    main()
