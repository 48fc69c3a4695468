"""Stroke engraving by its definitions, as plain programs: the chains of strokes, the points that the bit cuts, and the text."""

from typing import NamedTuple

import forms
from definitions import UNIT_WORDS, Bit, Node, chain_lines, is_in_disc, length_text, multiples, nearest_point, ordered
from joining import Refused

# the coordinates of the grid, and how many points a report may have
LOW, HIGH, MOST_POINTS = -32_768, 32_767, 16_777_216


class StrokeJob(NamedTuple):
    """What a program of strokes is written for."""

    units: str
    bit: Bit
    depth: int
    safe: int
    feed: int
    pitch: int


def chains_of(strokes, depth):
    """A stroke that begins where the one before it ends goes on its chain, and another begins a chain."""
    chains, end = [], None
    for a, b in strokes:
        if a == end:
            chains[-1].append(Node(b, depth))
        else:
            chains.append([Node(a, depth), Node(b, depth)])
        end = b
    return chains


def is_cut(strokes, job, w):
    """Some point of some stroke is nearer than the bit's radius at the depth: the nearest one is."""
    return any(is_in_disc(job.bit, nearest_point(w, stroke), job.depth, w) for stroke in strokes)


def sides_of(places, reach):
    """The least and the greatest place, moved outwards, and kept on the grid."""
    return max(min(places) - reach, LOW), min(max(places) + reach, HIGH)


def points_of(strokes, job):
    """The points of the box round the strokes, its columns and its rows."""
    if not strokes:
        return range(0), range(0)
    reach = -(-job.bit.sn * job.depth // job.bit.sd)
    xs, ys = zip(*[end for stroke in strokes for end in stroke])
    return multiples(job.pitch, *sides_of(xs, reach)), multiples(job.pitch, *sides_of(ys, reach))


def text_of(strokes, job):
    """The whole text that is written."""
    columns, rows = points_of(strokes, job)
    if len(columns) * len(rows) > MOST_POINTS:
        raise Refused("input too many points")
    chains = ordered(chains_of(strokes, job.depth))
    cut = sum(is_cut(strokes, job, (x, y)) for y in rows for x in columns)
    lines = [f"(strokes {len(strokes)} chains {len(chains)} depth {job.depth})"]
    lines += [UNIT_WORDS[job.units], "G90", f"F{job.feed}", f"G0 Z{length_text(job.units, job.safe)}"]
    lines += [line for chain in chains for line in chain_lines(job, chain)]
    lines += [f"(cut {cut} of {len(columns) * len(rows)})", "M2"]
    return "".join(line + "\n" for line in lines)


def engraved(data, words, job):
    """The status and the text of `strokes`; at the depth the bit may not be wider than its greatest radius."""
    if job.bit.sn * job.depth > job.bit.sd * job.bit.rmax:
        return 2, "usage\n"
    try:
        return 0, text_of(forms.strokes_of(data, words), job)
    except Refused as refused:
        return 3, f"{refused}\n"
