"""The trial as a plain program: its field, and what is said of the program that carves it.

    python3 tools/trial.py COUNT

prints what `engrave_cli trial --count=COUNT` has to print. Every grid point is walked, so two cells take some minutes.
"""

import sys

# So that an import leaves no files beside the sources.
sys.dont_write_bytecode = True

import definitions
from definitions import Bit, Job

MOST_CELLS, COLUMNS, CELL = 80, 8, 3000
JOB = Job("mm100", Bit(1, 1, 500), limit=300, step=50, safe=200, feed=500, pocket="x", over=40)
PITCH = 20


def corners(i):
    """The loops of a cell about its middle: an octagon, or a square with a square hole."""
    a = 400 + 10 * (i % 50)
    b = a // 2
    if i % 2 == 0:
        return [[(a, b), (b, a), (-b, a), (-a, b), (-a, -b), (-b, -a), (b, -a), (a, -b)]]
    return [[(z, z), (-z, z), (-z, -z), (z, -z)] for z in (a, b)]


def field(count):
    """The loops of so many cells, cell by cell."""
    loops = []
    for i in range(count):
        x, y = CELL * (i % COLUMNS) + CELL // 2, CELL * (i // COLUMNS) + CELL // 2
        loops += [[(x + dx, y + dy) for dx, dy in corner] for corner in corners(i)]
    return loops


def trial_text(count):
    """The four lines; the program is asked about as it is written, so it has to be clear."""
    loops = field(count)
    edges = definitions.edges_of(loops)
    chains = definitions.plan(loops, JOB)
    moves = definitions.code_moves(JOB, chains)
    report = definitions.uncut(loops, JOB.bit, moves, PITCH)
    if definitions.verdict(edges, JOB.bit, moves):
        raise ValueError("the program isn't clear")
    lines = [f"trial {count} loops {len(loops)} edges {len(edges)} contacts {len(definitions.contacts(edges, JOB.step))}"]
    lines += [f"nodes {sum(map(len, chains))} chains {len(chains)}", f"clear {len(moves)} moves"]
    return "".join(line + "\n" for line in lines) + f"uncut {report.left} of {report.drawing}\n"


def main():
    if len(sys.argv) != 2 or not sys.argv[1].isdigit() or not 1 <= int(sys.argv[1]) <= MOST_CELLS:
        sys.exit(__doc__)
    print(trial_text(int(sys.argv[1])), end="")


if __name__ == "__main__":
    main()
