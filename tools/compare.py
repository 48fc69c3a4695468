#!/usr/bin/env python3
"""Compares the built program with plain programs of the definitions on random drawings and codes; run by hand.

Every case comes from the seed and its number alone. Each line that is printed tells what was compared, and how much
of it differs; the inputs of what differs are printed and kept. The spread at the end tells how the cases came out.
"""

import argparse
import concurrent.futures
import math
import random
import re
import shutil
import subprocess
import sys
import tempfile
import time
from collections import Counter
from pathlib import Path

import cases
import definitions
import flats
import form_cases
import forms
import joining
import sampling
import strokes
import trial
from definitions import MOST_DEPTH, Bit
from wrong_definitions import WRONG, WRONG_FLATS
from wrong_forms import WRONG_FORMS

BUILT = Path(__file__).resolve().parent.parent / "crates" / "engrave_cli" / "out" / "engrave_cli"
HOW_TO_BUILD = "(cd crates/engrave_cli && rt run -- probe --drawing=data/plate.loops --at=500,500 --bit=1/1 --rmax=600)"

# At depth 1 its radius is 1/2000. A grid point off the outline is at least 1 from the ends of edges. Where its foot on
# an edge of length L is between the ends, it is off the edge's line, and its distance to that is a whole number over L.
# So where no edge is longer than 2000, no edge has a point in the open disc, and the depth 1 fits exactly where the
# point is inside.
SLIM = Bit(1, 2000, 1)
LONGEST_FOR_SLIM = 2000

# how many depths, codes that are checked, codes whose moves are listed, steps, discs of a step, carved programs, and those of flat bits,
# for each drawing; and to how many codes that are checked there is one that is covered
DEPTHS, CODES, LISTED, STEPS, DISCS, CARVED, FLATS, PER_COVERED = 12, 14, 2, 2, 6, 1, 2, 3

# how many files in each form there are for each drawing; how often a drawing that crosses itself is made anew, and how many of a
# hundred of these are taken; and of how many cells there is a trial
FORMED, ANEW, CROSSED, TRIALS = 5, 30, 20, (1, 2)

# about how many pairs of a point and a stroke are asked, of each file
ASKED = 3000

SPARED, WITHIN = "clear: edges of which no sampled point is removed", "clear: removed points that are inside"
CARVED_MOVES, CARVED_CLEAR = "carve: the moves of the program", "carve: the program is called clear"
REPAIRED_CLEAR = "repair: the program is called clear"
FLAT, FLAT_MOVES, TARGET = "flat", "flat: the moves of the program", "flat: removed material that is in the target"
COMPARED = ["crossing", "taken", "inside", "depth", "contacts", "discs", "moves", "check", "cover", "repair", REPAIRED_CLEAR, SPARED, WITHIN, "carve", CARVED_MOVES, CARVED_CLEAR]
COMPARED += [FLAT, FLAT_MOVES, TARGET]
ENGRAVED = "strokes"
AGAIN, ALIKE = "flatten: what was written, again", "the same answer for a file and what it is flattened to"
COMPARED += [f"flatten: {form}" for form in form_cases.MAKERS] + [AGAIN, ALIKE, ENGRAVED, "trial"]


class Comparison:
    """One drawing, with points and codes, against the program."""

    def __init__(self, program, folder, seed, number, alone):
        self.rng, self.alone = random.Random(f"{seed}/{number}"), alone
        self.program, self.number, self.folder = program, number, folder / f"case{number}"
        self.folder.mkdir()
        self.compared, self.differing, self.spread, self.differences = Counter(), Counter(), Counter(), []
        self.kind, self.reach, self.loops, self.edges, self.crossing = self.made()
        self.drawing = self.write("drawing.loops", cases.loops_text(self.rng, self.loops))
        self.cross = ["--cross=evenodd"] if self.crossing else self.rng.choice([*[[]] * 8, ["--cross=refuse"], ["--cross=evenodd"]])
        self.spread[f"drawing: {self.kind}{', crossing' if self.crossing else ''}"] += 1

    def made(self):
        """A drawing, its edges, and the first two that cross: none does in most."""
        for _ in range(ANEW):
            kind, reach, loops = cases.drawing(self.rng)
            edges = definitions.edges_of(loops)
            crossing = joining.first_crossing(edges)
            if crossing is None or self.rng.randrange(100) < CROSSED:
                break
        return kind, reach, loops, edges, crossing

    def write(self, name, text):
        path = self.folder / name
        path.write_bytes(text if isinstance(text, bytes) else text.encode())
        return path

    def run(self, *words):
        return answer(self.program, *words)

    def agree(self, what, due, got, *inputs):
        self.compared[what] += 1
        if due != got:
            self.differing[what] += 1
            said = " ".join(map(str, inputs))
            lines = [f"{what} differs in case {self.number}: {said}", f"due: {due}", f"got: {got}"]
            files = [path for path in sorted(self.folder.iterdir()) if str(path) in said]
            self.differences.append("\n".join(lines + [f"--- {path}\n{path.read_bytes().decode(errors='backslashreplace')}" for path in files]))

    def geometry(self, bit):
        return [f"--drawing={self.drawing}", *self.cross, f"--bit={bit.sn}/{bit.sd}", f"--rmax={bit.rmax}"]

    def probe(self, what, bit, p, limit, due):
        words = ["probe", *self.geometry(bit), f"--at={p[0]},{p[1]}"]
        words += [] if limit == MOST_DEPTH and self.rng.random() < 0.5 else [f"--limit={limit}"]
        self.agree(what, (0, f"depth {due}\n"), self.run(*words), *words)

    def grid_points(self):
        """All grid points of a small box around the drawing; or two windows of it, and points on rows of vertices."""
        left, right, low, high = cases.box(self.edges, 1)
        if (right - left + 1) * (high - low + 1) <= 150:
            return [(x, y) for x in range(left, right + 1) for y in range(low, high + 1)]
        points = {cases.spot(self.rng, self.edges) for _ in range(15)}
        for x, y in (self.rng.choice(self.edges)[0], cases.spot(self.rng, self.edges)):
            points.update(cases.on_grid(x + v, y + w) for v in (-1, 0, 1) for w in (-1, 0, 1))
        points.update((self.rng.randint(left, right), a[1]) for a, _ in self.edges[:10])
        return sorted(points)

    def compare_inside(self):
        """Gives the points that are inside."""
        points = self.grid_points()
        inside = [p for p in points if definitions.is_inside(self.edges, p)]
        lengths = [definitions.squared_distance(a, b) for a, b in self.edges]
        if max(lengths, default=0) <= LONGEST_FOR_SLIM**2:
            for p in points:
                self.probe("inside", SLIM, p, 1, 1 if p in inside else 0)
                self.spread[f"inside: {'inside' if p in inside else 'not inside'}"] += 1
        return inside

    def compare_depths(self, inside):
        for _ in range(DEPTHS):
            bit = cases.bit(self.rng, self.reach)
            p = self.rng.choice(inside) if inside and self.rng.random() < 0.8 else cases.spot(self.rng, self.edges)
            touching = cases.touching_depth(self.edges, bit, p)
            limits = [touching, touching + 1, touching - 1, self.rng.randint(1, 2 * touching + 1), 400, 400, 400]
            limit = MOST_DEPTH if self.rng.random() < 0.05 else min(max(self.rng.choice(limits), 1), MOST_DEPTH)
            depth = definitions.greatest_depth(self.edges, bit, limit, p)
            self.probe("depth", bit, p, limit, depth)
            self.spread["depth: " + self.bound(bit, limit, p, depth)] += 1

    def bound(self, bit, limit, p, depth):
        """What keeps the depth from being greater."""
        if depth == limit:
            return "at the limit"
        if not definitions.is_inside(self.edges, p):
            return "0, not inside"
        if definitions.is_too_wide(bit, depth + 1):
            return "at rmax"
        return "0, an edge is near" if depth == 0 else "bound by an edge"

    def compare_contacts(self):
        """All contacts, or their refusal, and the discs at some of them."""
        for _ in range(STEPS):
            step, rmax = cases.step(self.rng, self.edges), cases.small_radius(self.rng, self.reach)
            words = ["contacts", f"--drawing={self.drawing}", *self.cross, f"--step={step}", f"--rmax={rmax}"]
            fine = definitions.first_too_fine(self.edges, step)
            if fine is not None:
                self.agree("contacts", (3, f"input step too fine {fine}\n"), self.run(*words), *words)
                self.spread["contacts: step too fine"] += 1
                continue
            contacts, (status, text) = definitions.contacts(self.edges, step), self.run(*words)
            lines = text.splitlines()
            parts = [line.split(" ", 3) for line in lines]
            listed = [" ".join(part[:3]) for part in parts]
            loop_of = [number for number, loop in enumerate(self.loops) for _ in loop]
            due = [f"{loop_of[c.edge]} {c.edge} {c.k}/{c.n}" for c in contacts]
            self.agree("contacts", (0, due), (status, listed), *words)
            if len(lines) != len(contacts):
                continue
            for at in self.rng.sample(range(len(contacts)), min(DISCS, len(contacts))):
                disc = definitions.tangent(self.edges, contacts[at], rmax)
                said = f"{disc.side} {disc.j} {disc.centre[0]},{disc.centre[1]}"
                self.agree("discs", said, parts[at][3], *words, contacts[at])
                at_most = ", at rmax" if disc.j == rmax else ""
                self.spread[f"discs: {disc.side}{at_most}"] += 1

    def compare_listed(self):
        for number in range(LISTED):
            units = self.rng.choice(list(cases.UNITS))
            code = cases.listed_code(self.rng, units)
            path = self.write(f"listed{number}.ngc", code.text())
            words = ["moves", f"--code={path}", f"--units={units}"]
            self.agree("moves", (0, moves_text(code.moves)), self.run(*words), *words)
            self.spread["moves: listed"] += len(code.moves)

    def compare_carved(self):
        for number in range(CARVED):
            self.compare_carving(number, self.cross, *cases.carved(self.rng, self.loops, self.reach))
        if self.number == 0:
            for number, (loops, job) in enumerate(cases.WORKED, CARVED):
                self.compare_carving(number, ["--cross=evenodd"], loops, job)

    def compare_carving(self, number, cross, loops, job):
        drawing = self.write(f"carved{number}.loops", cases.loops_text(self.rng, loops))
        common = [f"--drawing={drawing}", *cross, f"--bit={job.bit.sn}/{job.bit.sd}", f"--rmax={job.bit.rmax}"]
        words = ["carve", *common, f"--step={job.step}", *self.carving_options(job)]
        fine = definitions.first_too_fine(definitions.edges_of(loops), job.step)
        if fine is not None:
            self.agree("carve", (3, f"input step too fine {fine}\n"), self.run(*words), *words)
            self.spread["carve: step too fine"] += 1
            return
        chains, pitch = definitions.plan(loops, job), cases.pitch(self.rng, loops)
        report = definitions.uncut(loops, job.bit, definitions.code_moves(job, chains), pitch)
        words += [f"--pitch={pitch}"]
        got = self.run(*words)
        self.agree("carve", (0, definitions.code_text(job, chains, report)), got, *words)
        self.spread_of_report("carve", report)
        self.spread_of(chains)
        self.spread_of_floors(loops, job)
        if got[0] == 0:
            self.read_carved(job, chains, common, self.write(f"carved{number}.ngc", got[1]))

    def carving_options(self, job):
        """The other options, some of them left out where they are what holds then."""
        options = {"limit": (job.limit, MOST_DEPTH), "safe": (job.safe, 200), "feed": (job.feed, 500), "units": (job.units, "mm100")}
        options |= {"pocket": (job.pocket, "none"), "over": (job.over, 50)}
        return [f"--{name}={value}" for name, (value, usual) in options.items() if value != usual or self.rng.random() < 0.5]

    def read_carved(self, job, chains, common, path):
        """What is written is read as it was meant, and called clear."""
        moves = definitions.code_moves(job, chains)
        words = ["moves", f"--code={path}", f"--units={job.units}"]
        self.agree(CARVED_MOVES, (0, moves_text(moves)), self.run(*words), *words)
        words = ["check", *common, f"--code={path}", f"--units={job.units}"]
        self.agree(CARVED_CLEAR, (0, f"clear {len(moves)} moves\n"), self.run(*words), *words)

    def compare_flats(self):
        for number in range(FLATS):
            job = cases.flat_job(self.rng, self.loops, self.reach, cases.pitch(self.rng, self.loops))
            if job:
                self.compare_flat(number, self.cross, self.loops, job)
        if self.number == 0:
            for number, (loops, job) in enumerate(cases.WORKED_FLATS, FLATS):
                self.compare_flat(number, [], loops, job)

    def compare_flat(self, number, cross, loops, job):
        """What is written is due, is read as its moves, and removes nothing but the target."""
        drawing = self.write(f"milled{number}.loops", cases.loops_text(self.rng, loops))
        words = ["flat", f"--drawing={drawing}", *cross, f"--bit={job.bit.sn}/{job.bit.sd}", f"--rmax={job.bit.rmax}", f"--radius={job.radius}"]
        words += [f"--pitch={job.pitch}", *self.flat_options(job)]
        due, got = (0, flats.text_of(loops, job)), self.run(*words)
        self.agree(FLAT, due, got, *words)
        chains = flats.chains_of(loops, job)
        self.spread_of_flat(due[1], chains)
        if got[0] == 0:
            path, moves = self.write(f"milled{number}.ngc", got[1]), definitions.code_moves(job, definitions.ordered(chains))
            words = ["moves", f"--code={path}", f"--units={job.units}"]
            self.agree(FLAT_MOVES, (0, moves_text(moves)), self.run(*words), *words)
            self.sample_milled(loops, job, moves, words)

    def flat_options(self, job):
        """The other options, some of them left out where they are what holds then."""
        options = {"limit": (job.limit, MOST_DEPTH), "safe": (job.safe, 200), "feed": (job.feed, 500), "units": (job.units, "mm100")}
        options |= {"pocket": (job.way, "x"), "over": (job.over, 50)}
        return [f"--{name}={value}" for name, (value, usual) in options.items() if value != usual or self.rng.random() < 0.5]

    def sample_milled(self, loops, job, moves, words):
        """All sampled material that the flat bit removes is in the target."""
        edges = definitions.edges_of(loops)
        for mv in self.rng.sample(moves, min(len(moves), 6)):
            for s, w, t in sampling.milled_material(self.rng, job.radius, mv, edges):
                self.agree(TARGET, True, sampling.is_in_target(edges, job.bit, flats.floor_of(job), w, t), *words, job, mv, s, w, t)

    def spread_of_flat(self, text, chains):
        self.spread["flat: " + ("no chain" if not chains else "one chain" if len(chains) == 1 else "several chains")] += 1
        self.spread["flat, in all: runs of one point"] += sum(len(chain) == 1 for chain in chains)
        self.spread["flat, in all: longer runs"] += sum(len(chain) > 1 for chain in chains)
        left, floor = map(int, re.findall(r"\(floor ([0-9]+) of ([0-9]+)\)", text)[0])
        self.spread["flat: " + ("no floor" if floor == 0 else "nothing left" if left == 0 else "all left" if left == floor else "some left")] += 1

    def compare_covered(self, bit, words, moves):
        pitch = cases.pitch(self.rng, self.loops)
        report = definitions.uncut(self.loops, bit, moves, pitch)
        words = ["cover", *words, f"--pitch={pitch}"]
        due = "".join(line + "\n" for line in definitions.report_lines(report))
        self.agree("cover", (0, due), self.run(*words), *words)
        self.spread_of_report("cover", report)

    def compare_repaired(self, bit, given, units, moves):
        """What is written is due, and called clear, with a move from each place to the next."""
        safe, feed = self.rng.choice([1, 200, self.rng.randint(1, 32767)]), self.rng.randint(1, 10000)
        visits, changed = definitions.repaired(self.edges, bit, safe, moves)
        due = "".join(line + "\n" for line in definitions.repair_lines(units, safe, feed, visits, changed, len(moves)))
        words = ["repair", *given, f"--safe={safe}", f"--feed={feed}"]
        got = self.run(*words)
        self.agree("repair", (0, due), got, *words)
        changes = "no" if changed == 0 else "all" if changed == len(moves) else "some"
        self.spread["repair: " + (f"{changes} moves changed" if moves else "no moves")] += 1
        if got[0] == 0:
            path = self.write("repaired.ngc", got[1])
            words = ["check", *(f"--code={path}" if word.startswith("--code=") else word for word in given)]
            self.agree(REPAIRED_CLEAR, (0, f"clear {len(visits)} moves\n"), self.run(*words), *words)

    def spread_of_report(self, command, report):
        what = "no point" if report.drawing == 0 else "nothing" if report.left == 0 else "all" if report.left == report.drawing else "some"
        self.spread[f"{command}: {what} left"] += 1

    def spread_of(self, chains):
        depths = [max(node.depth for node in chain) for chain in chains]
        self.spread["carve: " + ("no chain" if not chains else "one chain" if len(chains) == 1 else "several chains")] += 1
        self.spread["carve, in all: nodes"] += sum(map(len, chains))
        self.spread["carve, in all: chains below the surface"] += sum(depth > 0 for depth in depths)
        self.spread["carve, in all: chains at the surface"] += sum(depth == 0 for depth in depths)

    def spread_of_floors(self, loops, job):
        if job.pocket != "none":
            chains = definitions.pocket(loops, job.bit, job.limit, job.over, job.pocket)
            self.spread[f"carve: pocket {job.pocket}, {'some' if chains else 'no'} chain"] += 1
            self.spread["carve, in all: runs of one point"] += sum(len(chain) == 1 for chain in chains)
            self.spread["carve, in all: longer runs"] += sum(len(chain) > 1 for chain in chains)

    def compare_checks(self, inside):
        for number in range(CODES):
            bit = cases.bit(self.rng, self.reach)
            units, code = cases.checked_code(self.rng, self.edges, self.reach, bit, inside)
            path = self.write(f"checked{number}.ngc", code.text())
            given = [*self.geometry(bit), f"--code={path}", f"--units={units}"]
            if number % PER_COVERED == 0:
                self.compare_covered(bit, given, code.moves)
                self.compare_repaired(bit, given, units, code.moves)
            words = ["check", *given]
            found = definitions.verdict(self.edges, bit, code.moves)
            got = self.run(*words)
            self.agree("check", due_of(found, code.moves), got, *words)
            if got == (0, f"clear {len(code.moves)} moves\n"):
                self.sample_clear(bit, code.moves, words)
            elif found and found[1] in ("gouge", "outside"):
                self.look_for_witness(bit, *found)
            else:
                self.spread[f"check: {found[1] if found else 'differs'}"] += 1

    def sample_clear(self, bit, moves, words):
        """No sampled moment of code that is called clear may remove a sampled point that isn't inside."""
        deep = [mv for mv in moves if definitions.is_deep(mv)]
        touching = any(sampling.just_touches(self.rng, bit, mv, edge) for mv in deep for edge in self.edges)
        depth = "below the surface" if deep else "at or above the surface"
        self.spread[f"check: clear, {depth}" + (", just touching an edge" if touching else "")] += 1
        for mv in deep:
            for edge in self.edges:
                self.agree(SPARED, None, sampling.edge_witness(self.rng, bit, mv, edge), *words, mv, edge)
            for s, w in sampling.removed_points(self.rng, bit, mv):
                self.agree(WITHIN, True, definitions.is_inside(self.edges, w), *words, mv, s, w)

    def look_for_witness(self, bit, mv, fault, number):
        if fault == "outside":
            found = sampling.outside_witness(self.rng, self.edges, bit, mv)
            self.spread["check: outside"] += 1
        else:
            found = sampling.edge_witness(self.rng, bit, mv, self.edges[number])
            self.spread["check: gouge, " + failing_tests(bit, mv, self.edges[number])] += 1
        self.spread[f"witness: {fault}, {'found' if found else 'not found'}"] += 1

    def compare_crossing(self):
        """Each command refuses a drawing that crosses itself, before it looks for the G-code program; by the even-odd rule it is taken."""
        bit, asked = ["--bit=1/1", "--rmax=100"], self.rng.choice([[], [], ["--cross=refuse"]])
        commands = {"flatten": [], "probe": [*bit, "--at=0,0"], "contacts": ["--step=7", "--rmax=9"], "carve": [*bit, "--step=7"], "flat": [*bit, "--radius=1"]}
        for name, options in {**commands, "check": [*bit, "--code=none"], "cover": [*bit, "--code=none"], "repair": [*bit, "--code=none"]}.items():
            words = [name, f"--drawing={self.drawing}", *asked, *options]
            self.agree("crossing", (3, "input cross %d,%d\n" % self.crossing), self.run(*words), *words)
        words = ["flatten", f"--drawing={self.drawing}", *self.cross]
        self.agree("taken", (0, forms.loops_text(self.loops)), self.run(*words), *words)

    def compare_formed(self):
        for form in form_cases.MAKERS:
            for number in range(FORMED):
                data, words = form_cases.formed(self.rng, form)
                path = self.write(f"{form}{number}", data)
                self.compare_flattened(path, words)
                if form in ("dxf", "cxf"):
                    self.compare_engraved(path, words)

    def stroke_job(self, data, words):
        """What strokes are engraved with; the points are far enough apart to be few."""
        sn, sd, depth = self.rng.choice([1, 2, 571, 2000]), self.rng.choice([1, 3, 989, 2000]), self.rng.choice([1, 7, 60, self.rng.randint(1, 400)])
        rmax = min(8191, max(1, -(-sn * depth // sd) + self.rng.choice([-1, 0, 0, 0, 1, 9])))
        job = strokes.StrokeJob(words.units, Bit(sn, sd, rmax), depth, self.rng.choice([1, 200, 32767]), self.rng.randint(1, 10000), 1)
        try:
            found = forms.strokes_of(data, words)
        except joining.Refused:
            return job
        columns, rows = strokes.points_of(found, job)
        return job._replace(pitch=min(32767, 1 + math.isqrt(len(columns) * len(rows) * len(found) // ASKED)))

    def compare_engraved(self, path, words):
        data = path.read_bytes()
        job = self.stroke_job(data, words)
        options = [f"--drawing={path}", *form_cases.options_of(self.rng, words), f"--bit={job.bit.sn}/{job.bit.sd}", f"--rmax={job.bit.rmax}"]
        options += [f"--depth={job.depth}", f"--safe={job.safe}", f"--feed={job.feed}", f"--pitch={job.pitch}"]
        self.rng.shuffle(options)
        due = strokes.engraved(data, words, job)
        self.agree(ENGRAVED, due, self.run("strokes", *options), "strokes", *options)
        self.spread[f"strokes: {'done' if due[0] == 0 else kind_of(*due)}"] += 1

    def compare_flattened(self, path, words):
        options = [f"--drawing={path}", *form_cases.options_of(self.rng, words)]
        due, what = forms.flattened(path.read_bytes(), words), f"flatten: {words.form}"
        if self.rng.random() < 0.02:
            options, due = [*[option for option in options if "=" in option and not option.startswith(RANGED)], form_cases.wrong_option(self.rng)], (2, "usage\n")
        got = self.run("flatten", *options)
        self.agree(what, due, got, "flatten", *options)
        self.spread[f"{what}, {kind_of(*due)}"] += 1
        if got[0] == 0 and due == got:
            self.compare_again(path, options, got[1])

    def compare_again(self, path, options, text):
        """What is written is the drawing, in loops form."""
        flat, cross = self.write(path.name + ".loops", text), [option for option in options if option.startswith("--cross=")]
        lines = [line for line in text.splitlines(keepends=True) if not line.startswith("#")]
        self.agree(AGAIN, (0, "".join(lines)), self.run("flatten", f"--drawing={flat}", *cross), "flatten", *options, flat)
        x, y = self.rng.choice([point for line in lines for point in line.split()] or ["0,0"]).split(",")
        near = cases.on_grid(*(int(z) + self.rng.randint(-9, 9) for z in (x, y)))
        for command in (["probe", "--at=%d,%d" % near, "--bit=1/3", "--rmax=99"], ["contacts", "--step=9", "--rmax=31"]):
            self.agree(ALIKE, self.run(*command, f"--drawing={flat}", *cross), self.run(*command, *options), *command, *options, flat)

    def whole(self):
        if not self.alone:
            if self.crossing:
                self.compare_crossing()
            self.compare_drawing()
            self.compare_listed()
        if self.alone in (None, "flats"):
            self.compare_flats()
        if self.alone in (None, "forms"):
            self.compare_formed()
        return self.done()

    def compare_drawing(self):
        inside = self.compare_inside()
        self.compare_depths(inside)
        self.compare_contacts()
        self.compare_checks(inside)
        self.compare_carved()

    def done(self):
        if not self.differences:
            shutil.rmtree(self.folder)
        return self


def answer(program, *words):
    """The status and the text of a run of the program."""
    done = subprocess.run([program, *words], stdout=subprocess.PIPE, stderr=subprocess.DEVNULL)
    return done.returncode, done.stdout.decode()


RANGED = tuple(f"--{name}=" for name in form_cases.RANGES)


def kind_of(status, text):
    """The outcome without its numbers and its points."""
    if status:
        return re.sub(r"-?[0-9]+(,-?[0-9]+)?", "N", text.strip())
    lines = [line for line in text.splitlines() if not line.startswith("#")]
    return "no loop" if not lines else "one loop" if len(lines) == 1 else "several loops"


def spot_text(spot):
    """The numbers of a spot in grid units, a decimal where they aren't whole."""
    return ",".join(("-" if n < 0 else "") + f"{abs(n) // 10}" + (f".{abs(n) % 10}" if n % 10 else "") for n in spot)


def moves_text(moves):
    """The moves as they are listed."""
    return "".join(f"{mv.line} {spot_text(mv.start)} {spot_text(mv.end)}\n" for mv in moves) + f"moves {len(moves)}\n"


def due_of(found, moves):
    """The status and the text that are due."""
    if found is None:
        return (0, f"clear {len(moves)} moves\n")
    mv, fault, number = found
    return (1, f"line {mv.line} {fault}" + (f" edge {number}\n" if fault == "gouge" else "\n"))


def failing_tests(bit, mv, edge):
    """Which of the tests fail; the disc at the start is that at the end of the move before."""
    failing = []
    if not all(definitions.is_edge_clear(bit, end.at, definitions.depth_of(end.height), edge) for end in (mv.start, mv.end)):
        failing.append("end discs")
    if not all(definitions.is_nowhere_negative(definitions.corner_margin(bit, mv, u), definitions.deep_part(mv)) for u in edge):
        failing.append("corners")
    if definitions.is_crossing(mv, edge):
        failing.append("crossing")
    return " and ".join(failing)


def take_wrong(kind):
    """Puts the wrong definition where the right one stands."""
    if kind in WRONG:
        setattr(definitions, *WRONG[kind])
    elif kind in WRONG_FLATS:
        setattr(flats, *WRONG_FLATS[kind])
    elif kind:
        name, wrong = WRONG_FORMS[kind]
        setattr(joining if hasattr(joining, name) else forms, name, wrong)


def compare_case(arguments):
    case = Comparison(*arguments).whole()
    return case.number, case.compared, case.differing, case.spread, case.differences


def compare_trial(program, cells):
    """The trial of so many cells, whose text takes the definitions some minutes."""
    words = ["trial", f"--count={cells}"]
    due, got = (0, trial.trial_text(cells)), answer(program, *words)
    differences = [] if due == got else [f"trial differs: {' '.join(words)}\ndue: {due}\ngot: {got}"]
    return " ".join(words), Counter(trial=1), Counter(trial=len(differences)), Counter(), differences


def results(options, folder, kind=None):
    """The results of the cases, in order; what is left is given up with the generator."""
    pool = concurrent.futures.ProcessPoolExecutor(options.workers, initializer=take_wrong, initargs=(kind,))
    numbers = range(options.cases) if options.case is None else [options.case]
    try:
        alone = "forms" if options.forms or kind in WRONG_FORMS else "flats" if options.flats or kind in WRONG_FLATS else None
        each = pool.map(compare_case, ((options.program, folder, options.seed, n, alone) for n in numbers), chunksize=4)
        # Last, since the definitions take so long for them.
        trials = [] if alone or kind or options.case is not None else [pool.submit(compare_trial, options.program, cells) for cells in TRIALS]
        yield from each
        yield from (trial_of.result() for trial_of in trials)
    finally:
        pool.shutdown(cancel_futures=True)


def compare(options, folder):
    """Prints what was compared, and gives whether all agrees."""
    compared, differing, spread, shown = Counter(), Counter(), Counter(), 0
    started = time.monotonic()
    for number, more, less, come, differences in results(options, folder):
        compared, differing, spread = compared + more, differing + less, spread + come
        for difference in differences[: max(0, 5 - shown)]:
            print(difference, flush=True)
            shown += 1
        if time.monotonic() - started > 60 * options.minutes:
            print(f"case {number} is the last, since the time is up")
            break
    for what in COMPARED:
        if compared[what]:
            print(f"{what}: {compared[what]} compared, {differing[what]} differ")
    print(f"\nthe spread, after {time.monotonic() - started:.0f} s:")
    for what in sorted(spread):
        print(f"  {what}: {spread[what]}")
    return not differing


def find_out_wrong(options, folder):
    """Prints in which case each wrong definition was found out, and gives whether all were."""
    kinds = {"all": [*WRONG, *WRONG_FLATS, *WRONG_FORMS], "forms": list(WRONG_FORMS), "flats": list(WRONG_FLATS)}.get(options.wrong, [options.wrong])
    all_found = True
    for kind in kinds:
        found = next(((n, less) for n, _, less, _, _ in results(options, folder, kind) if less), None)
        told = f"found out in case {found[0]} by {', '.join(found[1])}" if found else "not found out"
        print(f"{kind}: {told}", flush=True)
        all_found = all_found and found is not None
        shutil.rmtree(folder)
        folder.mkdir()
    return all_found


def read_options():
    parser = argparse.ArgumentParser(description=__doc__.splitlines()[0])
    parser.add_argument("--seed", default="1")
    parser.add_argument("--cases", type=int, default=1000, help="how many drawings")
    parser.add_argument("--case", type=int, help="this case alone")
    parser.add_argument("--minutes", type=float, default=math.inf, help="after so many, no further case is compared")
    parser.add_argument("--program", type=Path, default=BUILT)
    parser.add_argument("--workers", type=int, default=2, help="how many processes")
    parser.add_argument("--forms", action="store_true", help="files in the four forms alone")
    parser.add_argument("--flats", action="store_true", help="flat bits alone")
    parser.add_argument("--wrong", choices=["all", "forms", "flats", *WRONG, *WRONG_FLATS, *WRONG_FORMS], help="take a wrong definition, which must be found out")
    return parser.parse_args()


def main():
    options = read_options()
    if not options.program.is_file():
        print(f"no program at {options.program}; build it by {HOW_TO_BUILD}")
        return 2
    folder = Path(tempfile.mkdtemp(prefix="compare-"))
    agrees = find_out_wrong(options, folder) if options.wrong else compare(options, folder)
    if agrees or options.wrong:
        shutil.rmtree(folder)
    else:
        print(f"the files of the cases that differ are kept in {folder}")
    return 0 if agrees else 1


if __name__ == "__main__":
    sys.exit(main())
