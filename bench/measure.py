#!/usr/bin/env python3
"""Measures the built program beside plain Rust and wc, and prints the table of docs/PERFORMANCE.md. It builds nothing.

usage: measure.py [--program PATH] [--yardstick PATH] [--repeat N] [--sizes N] [--only TEXT]

It ends with 2 where a program that it runs isn't built, and with 1 where a run doesn't end with the answer that it has to
give, so that no refusal is measured.
"""

import argparse
import ctypes
import filecmp
import math
import operator
import os
import shutil
import statistics
import sys
import tempfile
from dataclasses import dataclass
from pathlib import Path

# So that an import leaves no files beside the sources.
sys.dont_write_bytecode = True

import make_inputs

ROOT = Path(__file__).resolve().parent.parent
OUT = ROOT / "bench" / "out"
BUILD_PROGRAM = (
    "(cd crates/engrave_cli && rt run -- probe --drawing=data/plate.loops --at=500,500 --bit=1/1 --rmax=600)"
)
BUILD_YARDSTICK = "mkdir -p bench/out && rustc -O -o bench/out/yardstick bench/yardstick.rs"

ENVIRONMENT = {**os.environ, "LC_ALL": "C"}

PROBE_SIZES = (2_048, 16_384, 131_072)
MOVES_SIZES = (10_000, 100_000, 1_000_000)
RING_SIZES = (1_000, 10_000, 100_000)
SQUARE_ROWS = (32, 64, 128)
MANY_MOVES = 100_000
# Each of them has a box that holds thousands of edges, all of which the yardstick tests.
SLANTED_MOVES = 10_000
# A small drawing, for a million moves; and how many rows of 256 squares there are, for 16,384 and 131,072 loose sides.
SMALL_RING, SQUARES_ROWS = 100, (16, 128)

# A bit so slim that the greatest depth is asked for most often, over a place so far from the outline that no edge is near.
PROBE_BIT, PROBE_RMAX, PROBE_ANSWER = "1/4", "8191", "depth 32764"

CHECK_BIT = "1/1"

# The name plate's step and greatest radii, and those of the squares.
PLATE_STEP, PLATE_RMAX = "20", ("300", "8191")
SQUARES_STEP, SQUARES_RMAX = "50", "16"

# Name plates that are carved: how many pieces each line of an outline has, which gives 1,020 and 9,980 edges, and the bit.
CARVE_PIECES, CARVE_BIT, CARVE_RMAX = (12, 124), "571/989", "300"

# The bit of the lettered plate, whose floor is milled along every row and every column.
POCKET_WORDS = ("--bit=571/989", "--rmax=30", "--pocket=both", "--over=1")

# How far apart the points of the name plate's reports are, and how many moves are covered.
COVER_PITCHES, COVERED_MOVES = (20, 5, 1), 50_000

# Beyond so many pairs of a question and an edge, or of a point and a move, the obvious method isn't run.
MOST_PAIRS = 1_600_000_000


class WrongRun(Exception):
    """A run that didn't give the answer that it has to give."""


@dataclass(frozen=True)
class Kind:
    """Code of one kind: its places, and the greatest radius that it is checked with."""

    name: str
    places: object
    rmax: str


@dataclass(frozen=True)
class Case:
    """One line of the table: what is run, and what is run beside it."""

    text: str
    # What grows from line to line, and how many pairs of a question and an edge there are.
    size: int
    pairs: int
    files: tuple
    words: tuple
    # How the last line begins.
    answer: str
    # The words of the yardstick; none where it hasn't the command.
    plain: tuple
    moves: int = 0


class Bench:
    """The programs that are run, and the folder of their inputs and outputs."""

    def __init__(self, options, folder):
        self.program = str(options.program)
        self.yardstick = str(options.yardstick)
        self.wc = shutil.which("wc")
        self.repeat = options.repeat
        self.sizes = options.sizes
        self.folder = folder

    def run(self, name, words):
        """The user and system seconds of a program that runs with its output in the file of this name in the folder."""
        flags = os.O_WRONLY | os.O_CREAT | os.O_TRUNC
        to_file = [(os.POSIX_SPAWN_OPEN, 1, str(self.folder / name), flags, 0o644)]
        child = os.posix_spawn(words[0], words, ENVIRONMENT, file_actions=to_file)
        _, status, usage = os.wait4(child, 0)
        require_success(words, status)
        return usage.ru_utime + usage.ru_stime

    def run_program(self, case):
        seconds = self.run("program.out", (self.program, *case.words))
        last = last_line(self.folder / "program.out")
        if not last.startswith(case.answer):
            raise WrongRun(f"{' '.join(case.words)}: its last line is {last!r}, and doesn't begin with {case.answer!r}")
        return seconds

    def peak(self, words):
        """The peak memory of one more run, in MiB.

        A process counts the memory that it had before it became another program. So that this isn't the large one of
        Python, a shell starts the program and ends, and the program comes to this process, which adopts orphans.
        """
        behind_shell = ("/bin/sh", "-c", '"$@" >"$0" &', str(self.folder / "peak.out"), *words)
        shell = os.posix_spawn(behind_shell[0], behind_shell, ENVIRONMENT)
        ended = [os.wait4(-1, 0) for _ in range(2)]
        (status, usage), = ((status, usage) for child, status, usage in ended if child != shell)
        require_success(words, status)
        return usage.ru_maxrss / 1024

    def run_plain(self, method, words):
        """Runs the yardstick, which has to write the same bytes as the program did."""
        seconds = self.run("plain.out", (self.yardstick, method, *words))
        if not filecmp.cmp(self.folder / "program.out", self.folder / "plain.out", shallow=False):
            raise WrongRun(f"{method} {' '.join(words)}: the yardstick writes other bytes than the program")
        return seconds

    def measure(self, case):
        """The seconds of the program, wc, and the yardstick with a grid: in turns, so that all meet the same load."""
        runs = ([], [], [])
        for _ in range(self.repeat):
            runs[0].append(self.run_program(case))
            runs[1].append(self.run("wc.out", (self.wc, *case.files)))
            if case.plain:
                runs[2].append(self.run_plain("grid", case.plain))
        return runs

    def run_all(self, case):
        """The seconds of the obvious method, run once where it isn't too long."""
        return [self.run_plain("all", case.plain)] if 0 < case.pairs <= MOST_PAIRS else []

    def run_double(self, case):
        """The seconds of the yardstick in double precision, and how many of its lines are other ones than the program's."""
        if case.plain[:1] != ("contacts",):
            return [], 0
        seconds = [self.run("double.out", (self.yardstick, "double", *case.plain)) for _ in range(self.repeat)]
        ours, others = ((self.folder / name).read_bytes().splitlines() for name in ("program.out", "double.out"))
        return seconds, abs(len(ours) - len(others)) + sum(map(operator.ne, ours, others))

    def floor(self):
        """The seconds and the memory of a process that does nothing."""
        words = (shutil.which("true"),)
        return min(self.run("true.out", words) for _ in range(20)), self.peak(words)

    def near(self, case):
        """How many edges are near a move in the mean: those whose boxes meet the box of its discs."""
        self.run("near.out", (self.yardstick, "near", *case.plain))
        return int(last_line(self.folder / "near.out")) / case.moves


def last_line(path):
    with open(path, "rb") as file:
        file.seek(max(0, path.stat().st_size - 200))
        lines = file.read().decode().splitlines()
    return lines[-1] if lines else ""


def adopt_orphans():
    PR_SET_CHILD_SUBREAPER = 36
    if ctypes.CDLL(None).prctl(PR_SET_CHILD_SUBREAPER, 1, 0, 0, 0) != 0:
        sys.exit("this system doesn't let a process adopt orphans")


def require_success(words, status):
    code = os.waitstatus_to_exitcode(status)
    if code != 0:
        raise WrongRun(f"{' '.join(words)}: it ended with {code}")


def drawing_file(folder, name, make):
    """The file of this name, which is written when it is first asked for."""
    path = folder / f"{name}.loops"
    if not path.exists():
        make_inputs.write_drawing(path, make())
    return str(path)


def ring_file(folder, edges):
    return drawing_file(folder, f"ring{edges}", lambda: [make_inputs.ring(edges)])


def field_file(folder, stride):
    return drawing_file(folder, f"field{stride}", lambda: make_inputs.field(stride))


def code_file(folder, kind, moves):
    path = folder / f"{kind.name}{moves}.ngc"
    if not path.exists():
        make_inputs.write_code(path, kind.places(moves))
    return str(path)


def probe_case(folder, edges):
    drawing = ring_file(folder, edges)
    words = ("probe", f"--drawing={drawing}", "--at=0,0", f"--bit={PROBE_BIT}", f"--rmax={PROBE_RMAX}")
    plain = ("probe", drawing, "0,0", PROBE_BIT, PROBE_RMAX)
    return Case(f"{edges:,} edges", edges, edges, (drawing,), words, PROBE_ANSWER, plain)


def moves_case(folder, moves):
    path = code_file(folder, RING_LONG, moves)
    return Case(f"{moves:,} moves", moves, 0, (path,), ("moves", f"--code={path}"), f"moves {moves}", ("moves", path))


def check_case(folder, kind, moves, drawing, edges, size):
    code = code_file(folder, kind, moves)
    words = ("check", f"--drawing={drawing}", f"--code={code}", f"--bit={CHECK_BIT}", f"--rmax={kind.rmax}")
    plain = ("check", drawing, code, CHECK_BIT, kind.rmax)
    text = f"{moves:,} moves, {edges:,} edges"
    return Case(text, size, moves * edges, (drawing, code), words, f"clear {moves} moves", plain, moves)


def ring_case(folder, kind, edges):
    return check_case(folder, kind, MANY_MOVES, ring_file(folder, edges), edges, edges)


def field_case(folder, kind, stride, moves=MANY_MOVES):
    edges = make_inputs.field_edges(stride)
    return check_case(folder, kind, moves, field_file(folder, stride), edges, edges)


def many_case(folder, moves):
    stride = make_inputs.FIELD_STRIDES[1]
    return check_case(folder, FIELD_SHORT, moves, field_file(folder, stride), make_inputs.field_edges(stride), moves)


def count_contacts(loops, step):
    """How many edges there are, and how many contacts."""
    edges = [(points[i - 1], points[i]) for points in loops for i in range(len(points))]
    return len(edges), sum(math.ceil(math.dist(*edge) / int(step)) + 1 for edge in edges)


def contacts_case(drawing, loops, step, rmax):
    edges, contacts = count_contacts(loops, step)
    words = ("contacts", f"--drawing={drawing}", f"--step={step}", f"--rmax={rmax}")
    plain = ("contacts", drawing, step, rmax)
    text, answer = f"{contacts:,} contacts, {edges:,} edges", f"{len(loops) - 1} {edges - 1} "
    return Case(text, contacts, contacts * edges, (drawing,), words, answer, plain)


def plate_case(folder, rmax):
    plate = make_inputs.name_plate()
    return contacts_case(drawing_file(folder, "plate", lambda: plate), plate, PLATE_STEP, rmax)


def carve_case(folder, pieces):
    plate = make_inputs.name_plate(pieces)
    drawing = drawing_file(folder, f"plate{pieces}", lambda: plate)
    edges, contacts = count_contacts(plate, PLATE_STEP)
    words = ("carve", f"--drawing={drawing}", f"--bit={CARVE_BIT}", f"--rmax={CARVE_RMAX}", f"--step={PLATE_STEP}")
    return Case(f"{edges:,} edges, {contacts:,} contacts", contacts, 0, (drawing,), words, "M2", ())


def pocket_case(folder):
    plate = make_inputs.lettered_plate()
    drawing = drawing_file(folder, "lettered", lambda: plate)
    edges, contacts = count_contacts(plate, PLATE_STEP)
    words = ("carve", f"--drawing={drawing}", *POCKET_WORDS, f"--step={PLATE_STEP}")
    return Case(f"{edges:,} edges, {contacts:,} contacts", contacts, 0, (drawing,), words, "M2", ())


def cover_case(folder, pitch):
    drawing = drawing_file(folder, "plate", make_inputs.name_plate)
    code = code_file(folder, SCRATCHES, COVERED_MOVES)
    words = ("cover", f"--drawing={drawing}", f"--code={code}", f"--bit={CHECK_BIT}", f"--rmax={SCRATCHES.rmax}", f"--pitch={pitch}")
    plain = ("cover", drawing, code, CHECK_BIT, str(pitch))
    points = (make_inputs.LETTERS * make_inputs.CELL_WIDTH // pitch) * (2 * make_inputs.CELL_HEIGHT // pitch)
    text = f"{COVERED_MOVES:,} moves, {points:,} points"
    return Case(text, points, points * COVERED_MOVES, (drawing, code), words, "uncut ", plain, 0)


def million_case(folder):
    return check_case(folder, RING_SHORT, MOVES_SIZES[-1], ring_file(folder, SMALL_RING), SMALL_RING, MOVES_SIZES[-1])


def flat_case(form, path, text, size, options=()):
    words = ("flatten", f"--drawing={path}", f"--form={form}", *options)
    return Case(text, size, 0, (str(path),), words, "", ("flatten", form, str(path)))


def lines_case(folder, rows, padded):
    path = folder / f"lines{rows}{padded}.dxf"
    if not path.exists():
        make_inputs.write_lines(path, make_inputs.loose_sides(rows), padded)
    return flat_case("dxf", path, f"{1024 * rows:,} segments", 1024 * rows)


def bitmap_case(folder, side):
    path = folder / f"bitmap{side}.pbm"
    make_inputs.write_bitmap(path, side)
    return flat_case("pbm", path, f"{side:,} x {side:,} pixels", side * side, ("--pixel=1",))


def squares_case(folder, rows):
    squares = make_inputs.squares(rows)
    return contacts_case(drawing_file(folder, f"squares{rows}", lambda: squares), squares, SQUARES_STEP, SQUARES_RMAX)


RING_SHORT = Kind("ring_short", make_inputs.short_places, "200")
RING_LONG = Kind("ring_long", make_inputs.long_places, "8191")
FIELD_SHORT = Kind("field_short", make_inputs.field_rounds, "200")
FIELD_LONG = Kind("field_long", make_inputs.field_streets, "8191")
FIELD_SLANTED = Kind("field_slanted", make_inputs.field_slants, "8191")
SCRATCHES = Kind("scratches", make_inputs.scratch_places, "300")


def series(folder, count):
    """The cases of each series by its name, from small to large; each is made when its turn comes."""
    strides, rings = make_inputs.FIELD_STRIDES[:count], RING_SIZES[:count]
    yield "`probe`", (probe_case(folder, edges) for edges in PROBE_SIZES[:count])
    yield "`moves`", (moves_case(folder, moves) for moves in MOVES_SIZES[:count])
    yield "`check`, ring, short moves", (ring_case(folder, RING_SHORT, edges) for edges in rings)
    yield "`check`, ring, long moves", (ring_case(folder, RING_LONG, edges) for edges in rings)
    yield "`check`, field, short moves", (field_case(folder, FIELD_SHORT, stride) for stride in strides)
    yield "`check`, field, long moves", (field_case(folder, FIELD_LONG, stride) for stride in strides)
    yield "`check`, field, slanted moves", (field_case(folder, FIELD_SLANTED, stride, SLANTED_MOVES) for stride in strides)
    yield "`check`, field, many moves", (many_case(folder, moves) for moves in MOVES_SIZES[:count])
    yield "`check`, small drawing", (million_case(folder) for _ in range(count // 3))
    yield "`flatten`, DXF, lines", (lines_case(folder, rows, False) for rows in SQUARES_ROWS[:count])
    yield "`flatten`, DXF, long lines", (lines_case(folder, SQUARES_ROWS[-1], True) for _ in range(count // 3))
    yield "`flatten`, bitmap", (bitmap_case(folder, side) for side in (2_047, 8_191)[:count])
    for rmax in PLATE_RMAX:
        yield f"`contacts`, name plate, `--rmax={rmax}`", (plate_case(folder, rmax) for _ in range(1))
    yield "`contacts`, squares", (squares_case(folder, rows) for rows in SQUARE_ROWS[:count])
    yield "`carve`, name plate", (carve_case(folder, pieces) for pieces in CARVE_PIECES[:count])
    yield "`carve`, lettered plate, `--pocket=both --over=1`", (pocket_case(folder) for _ in range(1))
    yield "`cover`, name plate", (cover_case(folder, pitch) for pitch in COVER_PITCHES[:count])


def growth(before, size, seconds):
    """The exponent by which the time grows from the size before."""
    if before is None:
        return "-"
    return f"{math.log(seconds / before[1]) / math.log(size / before[0]):.2f}"


def beside(seconds, others):
    """How many times the best of the others' times it is, and that time."""
    return f"{seconds / min(others):.2f} x {min(others):.4f}" if others else "-"


def row(bench, name, case, before):
    """Measures the case and prints its line."""
    program, wc, grid = bench.measure(case)
    double, off = bench.run_double(case)
    cells = (
        name,
        case.text,
        f"{sum(os.path.getsize(file) for file in case.files) / 1e6:.2f}",
        f"{bench.near(case):.1f}" if case.moves else "-",
        f"{min(program):.4f}",
        f"{statistics.median(program):.4f}",
        growth(before, case.size, min(program)),
        f"{bench.peak((bench.program, *case.words)):.1f}",
        beside(min(program), wc),
        beside(min(program), grid),
        beside(min(program), bench.run_all(case)),
        f"{beside(min(program), double)}, {off} off" if double else "-",
    )
    print("| " + " | ".join(cells) + " |", flush=True)
    return case.size, min(program)


def first_value(path, key):
    for line in Path(path).read_text().splitlines():
        if line.startswith(key):
            return line.split(":", 1)[1].strip()
    return "unknown"


def machine():
    model = " ".join(first_value("/proc/cpuinfo", "model name").split())
    gigabytes = int(first_value("/proc/meminfo", "MemTotal").split()[0]) / 2**20
    return f"{model}, {os.cpu_count()} processors, {gigabytes:.0f} GiB of memory"


def print_head(bench):
    load = os.getloadavg()[0]
    seconds, megabytes = bench.floor()
    print(f"{machine()}; load {load:.1f} at the start; {bench.repeat} runs of each.")
    print(f"A process that does nothing takes {seconds:.4f} s and {megabytes:.1f} MiB here.")
    print()
    heads = ("command", "input", "MB", "near", "best s", "median s", "growth", "peak MiB")
    print("| " + " | ".join((*heads, "`wc`", "plain Rust, grid", "plain Rust, all edges", "in doubles")) + " |")
    print("|---" * 12 + "|", flush=True)


def measure_all(options):
    adopt_orphans()
    with tempfile.TemporaryDirectory(dir=OUT) as name:
        bench = Bench(options, Path(name))
        print_head(bench)
        for command, cases in series(bench.folder, bench.sizes):
            if options.only not in command:
                continue
            before = None
            for case in cases:
                before = row(bench, command, case, before)
    print(f"\nLoad {os.getloadavg()[0]:.1f} at the end.")


def require(path, what, build):
    if not os.access(path, os.X_OK):
        print(f"{what} isn't built at {path}; in {ROOT}: {build}", file=sys.stderr)
        sys.exit(2)


def main():
    parser = argparse.ArgumentParser(description=__doc__, formatter_class=argparse.RawDescriptionHelpFormatter)
    program = ROOT / "crates" / "engrave_cli" / "out" / "engrave_cli"
    parser.add_argument("--program", type=Path, default=program, help="the program that is measured")
    parser.add_argument("--yardstick", type=Path, default=OUT / "yardstick", help="the yardstick, built")
    parser.add_argument("--repeat", type=int, default=5, help="how often each thing is run")
    parser.add_argument("--sizes", type=int, default=3, choices=(1, 2, 3), help="how many of the three sizes are run")
    parser.add_argument("--only", default="", help="only the lines whose command has this text")
    options = parser.parse_args()
    require(options.program, "the program", BUILD_PROGRAM)
    require(options.yardstick, "the yardstick", BUILD_YARDSTICK)
    OUT.mkdir(exist_ok=True)
    try:
        measure_all(options)
    except WrongRun as wrong:
        print(wrong, file=sys.stderr)
        sys.exit(1)


if __name__ == "__main__":
    main()
