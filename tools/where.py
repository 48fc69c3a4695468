#!/usr/bin/env python3
"""Says where in a drawing something stands.

    python3 tools/where.py FILE --byte AT    which line and word of a file has this byte, counted from 0
    python3 tools/where.py FILE --edge E     which points the edge with this number joins

A file that isn't in loops form is asked about with the options of the drawing, as `--form=dxf --chord=45`: it is read, snapped and joined as
the program does it, but not searched for edges that cross. So this names the edges of a line `input cross I,J`.
"""

import argparse
import sys

# So that an import leaves no files beside the sources.
sys.dont_write_bytecode = True


def loops_of(text):
    """The points of each loop, as they are written."""
    lines = [line.split() for line in text.decode("latin-1").splitlines()]
    return [words for words in lines if words and not words[0].startswith("#")]


def joined_loops(text, given):
    """The points of each loop that a file of another form is joined into; `given` are the options of the drawing."""
    import forms
    import joining

    words = dict(word.removeprefix("--").partition("=")[::2] for word in given)
    numbers = {name for name, default in forms.Words._field_defaults.items() if isinstance(default, int)}
    shape = forms.Words(**{name: int(value) if name in numbers else value for name, value in words.items()})
    readers = {"dxf": forms.dxf, "cxf": forms.cxf, "pbm": forms.pbm}
    segments, _ = readers[shape.form](text, shape)
    return [[f"{x},{y}" for x, y in loop] for loop in joining.joined(segments)]


def edges_of(loops):
    """The edges in order: from each point to the next, the closing edge last in its loop."""
    return [(a, b) for points in loops for a, b in zip(points, points[1:] + points[:1])]


def main():
    parser = argparse.ArgumentParser(description=__doc__, formatter_class=argparse.RawDescriptionHelpFormatter)
    parser.add_argument("file")
    asked = parser.add_mutually_exclusive_group(required=True)
    asked.add_argument("--byte", type=int)
    asked.add_argument("--edge", type=int)
    options, given = parser.parse_known_args()
    with open(options.file, "rb") as file:
        text = file.read()
    if options.edge is not None:
        edges = edges_of(loops_of(text) if not given or "--form=loops" in given else joined_loops(text, given))
        if options.edge not in range(len(edges)):
            parser.error(f"the drawing has {len(edges)} edges, numbered from 0")
        print(*edges[options.edge])
        return
    before = text[: options.byte]
    line = before.count(b"\n") + 1
    words = before.rsplit(b"\n", 1)[-1].split()
    number = len(words) + (before[-1:] in (b"", b" ", b"\t", b"\n") or not words)
    print(f"line {line}, word {number}")


if __name__ == "__main__":
    main()
