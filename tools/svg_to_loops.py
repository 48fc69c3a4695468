#!/usr/bin/env python3
"""Writes the filled shapes of an SVG file as a drawing in loops form.

    python3 tools/svg_to_loops.py sign.svg --units=mm100 --out=sign.loops
    engrave_cli flatten --drawing=sign.loops

Paths, rectangles, circles, ellipses, polygons and polylines are taken where they are filled, at the size of the page in millimetres, with
all transforms, and y turned upwards: X0 Y0 is the lower left corner of the page. Open subpaths are closed, as they are for filling. The
points are rounded to the nearest of the grid, halves upwards; equal neighbours are dropped, and loops of fewer than three points.

Curves become chords. Each point of an outline is nearer to what is written than --tolerance and 0.71 grid units, and each point of what is
written is as near to the outline: a chord misses its curve by --tolerance at most, and rounding moves its ends by half a grid unit in
each direction. Of a dropped loop nothing is written.

What isn't taken is told on standard error, by its kind, how often it comes, and where. A file that can't be read, of which nothing is taken,
or whose drawing isn't on the grid, ends with one line there and status 3, and nothing is written. docs/BRIDGES.md says more.
"""

import argparse
import os
import re
import sys
import xml.etree.ElementTree as ElementTree
from fractions import Fraction
from pathlib import Path

# So that an import leaves no files beside the sources.
sys.dont_write_bytecode = True

import svg_outline
from svg_filling import Shape, unlike
from svg_values import IN_AN_INCH, UNCHANGED, SvgFault, declarations, diagonal, fitted, length, product, sheet_rules, transform, translation, view_box

# Grid units in an inch.
UNITS = {"mm10": Fraction(254), "mm100": Fraction(2540), "mm1000": Fraction(25400), "in100": Fraction(100), "in1000": Fraction(1000)}
LEAST, GREATEST = -32768, 32767
MOST_BYTES, MOST_ELEMENTS, DEEPEST = 16_777_216, 262_144, 200
SHAPES = ("path", "rect", "circle", "ellipse", "polygon", "polyline", "line")
GROUPS = ("svg", "g", "a", "switch")
# What draws nothing by itself.
SILENT = ("title", "desc", "metadata", "style", "script", "clipPath", "mask", "marker", "pattern", "linearGradient", "radialGradient", "filter",
          "view", "cursor", "font", "font-face", "color-profile", "namedview")
SVG = "{http://www.w3.org/2000/svg}"
HREFS = ("href", "{http://www.w3.org/1999/xlink}href")
INHERITED = ("fill", "fill-rule", "stroke", "visibility", "fill-opacity")
OWN = ("display", "opacity", "clip-path", "mask", "transform", "transform-origin", "marker-start", "marker-mid", "marker-end")
FIRST_STYLE = {"fill": "black", "fill-rule": "nonzero", "stroke": "none", "visibility": "visible", "fill-opacity": "1"}
NAMES_SHOWN = 5


def kind_of(element):
    """The element's name without that of SVG; none where it belongs to something else, or is a comment."""
    if not isinstance(element.tag, str):
        return ""
    name = element.tag.removeprefix(SVG)
    return "" if name.startswith("{") else name


def name_of(element):
    return re.sub("[^!-~]", "_", element.get("id") or kind_of(element))[:60]


class Walk:
    """Goes through the elements of a file, and gathers its shapes and what is to be told."""

    def __init__(self, root, asked):
        self.asked, self.shapes, self.notes, self.used, self.count, self.points = asked, [], {}, set(), 0, 0
        self.named = {element.get("id"): element for element in root.iter() if element.get("id")}
        self.rules, unread = [], 0
        for element in root.iter(SVG + "style"):
            rules, more = sheet_rules("".join(element.itertext()))
            self.rules, unread = self.rules + rules, unread + more
        self.rules.sort(key=lambda rule: rule[0])
        for _ in range(unread):
            self.tell("style rule not read")

    def tell(self, what, element=None):
        self.notes.setdefault(what, []).append("" if element is None else name_of(element))

    def style(self, element, above):
        """The properties of an element: its attributes, the style sheet, its style; and what it has from above."""
        given = {name: value.strip() for name, value in element.attrib.items() if name in INHERITED or name in OWN[:4]}
        classes = (element.get("class") or "").split()
        for _, kind, wanted, names, properties in self.rules:
            if kind in ("", "*", kind_of(element)) and set(wanted) <= set(classes) and set(names) <= {element.get("id")}:
                given.update(properties)
        given.update(declarations(element.get("style", "")))
        own = {name: given[name] for name in OWN if name in given}
        return {**above, **{name: given[name] for name in INHERITED if given.get(name, "inherit") != "inherit"}}, own

    def length(self, element, name, whole, default=Fraction(0)):
        text = element.get(name)
        return default if text is None or text.strip() == "auto" else length(text, whole, self.asked.ppi)

    def walk(self, element, matrix, above, viewport, depth):
        """Takes an element and all below it; `viewport` has the sides that percentages are of."""
        kind = kind_of(element)
        self.count += 1
        if self.count > MOST_ELEMENTS or depth > DEEPEST:
            raise SvgFault("too many" if depth <= DEEPEST else "too deep")
        try:
            if kind in SHAPES or kind in GROUPS or kind == "use":
                self.drawn(element, kind, matrix, above, viewport, depth)
            elif kind == "defs":
                for child in element:
                    if kind_of(child) not in (*SILENT, "symbol") and any(kind_of(inner) in SHAPES for inner in child.iter()):
                        self.tell("skipped in defs", child)
            elif kind in ("symbol", "text", "image", "flowRoot"):
                self.tell(f"skipped {'text' if kind == 'flowRoot' else kind}", element)
            elif kind and kind not in SILENT:
                self.tell(f"skipped {re.sub('[^!-~]', '_', kind)[:30]}", element)
        except SvgFault as fault:
            raise fault if len(fault.args) > 1 else SvgFault(fault.args[0], name_of(element)) from None
        except ArithmeticError:
            raise SvgFault("out of range", name_of(element)) from None

    def drawn(self, element, kind, matrix, above, viewport, depth):
        style, own = self.style(element, above)
        if own.get("display") == "none":
            self.tell("skipped display:none", element)
            return
        if is_nought(own.get("opacity", "1")):
            self.tell("skipped invisible", element)
            return
        for name in ("clip-path", "mask"):
            if own.get(name, "none") != "none":
                self.tell(f"not cut off by {name}", element)
        if {"transform", "transform-origin"} & own.keys():
            self.tell("transform in style not read", element)
        matrix = product(matrix, transform(element.get("transform", "")))
        if kind in SHAPES:
            self.shape(element, kind, matrix, style, own, viewport)
        elif kind == "use":
            self.use(element, matrix, style, viewport, depth)
        else:
            self.group(element, kind, matrix, style, viewport, depth)

    def group(self, element, kind, matrix, style, viewport, depth):
        children = list(element)
        if kind == "svg" and depth:
            self.tell("not cut off by svg", element)
            matrix = product(matrix, translation(self.length(element, "x", viewport[0]), self.length(element, "y", viewport[1])))
            matrix, viewport = self.framed(element, matrix, viewport)
        if kind == "switch":
            children = [child for child in children if kind_of(child) and not child.get("requiredExtensions") and not child.get("systemLanguage")][:1]
        for child in children:
            self.walk(child, matrix, style, viewport, depth + 1)

    def framed(self, element, matrix, viewport, sizes=None):
        """The matrix and the viewport within an svg or a symbol, whose sides are those of `sizes` where it has them."""
        sizes = sizes if sizes is not None else element
        width = self.length(sizes, "width", viewport[0], self.length(element, "width", viewport[0], viewport[0]))
        height = self.length(sizes, "height", viewport[1], self.length(element, "height", viewport[1], viewport[1]))
        if not element.get("viewBox"):
            return matrix, (width, height)
        box = view_box(element.get("viewBox"))
        return product(matrix, fitted(box, width, height, element.get("preserveAspectRatio", ""))), (box[2], box[3])

    def use(self, element, matrix, style, viewport, depth):
        name = next((element.get(href) for href in HREFS if element.get(href)), "")
        target = self.named.get(name[1:]) if name.startswith("#") else None
        kind = kind_of(target) if target is not None else ""
        if kind not in (*SHAPES, *GROUPS, "use", "symbol"):
            self.tell("skipped use", element)
            return
        self.used.add(name_of(target))
        matrix = product(matrix, translation(self.length(element, "x", viewport[0]), self.length(element, "y", viewport[1])))
        if kind in ("svg", "symbol"):
            self.tell(f"not cut off by {kind}", element)
            matrix, viewport = self.framed(target, matrix, viewport, element)
            style, _ = self.style(target, style)
            for child in target:
                self.walk(child, matrix, style, viewport, depth + 1)
        else:
            self.walk(target, matrix, style, viewport, depth + 1)

    def shape(self, element, kind, matrix, style, own, viewport):
        """Takes a shape where it is filled, and tells what is lost of it."""
        has_stroke = style["stroke"] not in ("none", "transparent")
        if style["visibility"] != "visible" or is_nought(style["fill-opacity"]) and not has_stroke:
            self.tell("skipped invisible", element)
            return
        if any(own.get(name, "none") != "none" for name in OWN[-3:]):
            self.tell("markers not drawn", element)
        if kind == "line" or style["fill"] in ("none", "transparent") or is_nought(style["fill-opacity"]):
            self.tell("skipped stroke without fill" if has_stroke else "skipped without fill", element)
            return
        if has_stroke:
            self.tell("stroke not added to the fill", element)
        points = [svg_outline.loop_points(subpath, matrix, self.asked.tolerance) for subpath in self.outline(element, kind, viewport)]
        loops = [loop for loop in points if len(loop) >= 3]
        self.points += sum(map(len, loops))
        if self.points > svg_outline.MOST_POINTS:
            raise SvgFault("too many")
        for _ in points[len(loops):]:
            self.tell("dropped loop of fewer than 3 points", element)
        is_nonzero = style["fill-rule"] != "evenodd"
        if is_nonzero and len(loops) > 1:
            self.tell("filled by nonzero, with several subpaths", element)
        if loops:
            self.shapes.append(Shape(name_of(element), is_nonzero, loops))

    def outline(self, element, kind, viewport):
        width, height = viewport
        if kind == "path":
            return svg_outline.path(element.get("d", ""))
        if kind in ("polygon", "polyline"):
            return svg_outline.polygon(element.get("points", ""))
        if kind == "rect":
            sides = [self.length(element, *each) for each in (("x", width), ("y", height), ("width", width), ("height", height))]
            return svg_outline.rectangle(*sides, self.length(element, "rx", width, None), self.length(element, "ry", height, None))
        x, y = self.length(element, "cx", width), self.length(element, "cy", height)
        if kind == "circle":
            radius = self.length(element, "r", None if None in viewport else diagonal(width, height))
            return svg_outline.ellipse(x, y, radius, radius)
        across, down = self.length(element, "rx", width, None), self.length(element, "ry", height, None)
        both = [down if across is None else across, across if down is None else down]
        return [] if both[0] is None else svg_outline.ellipse(x, y, *both)


def is_nought(text):
    return re.fullmatch(r"[+-]?0*\.?0*%?", text) is not None and "0" in text


def page(root, walk, asked):
    """The matrix that puts the file on the grid, y upwards, and the sides that percentages are of."""
    box = view_box(root.get("viewBox")) if root.get("viewBox") else None
    sides = []
    for axis, name in enumerate(("width", "height")):
        is_given = root.get(name, "auto").strip() != "auto" and not root.get(name).strip().endswith("%")
        sides.append(length(root.get(name), None, asked.ppi) if is_given else None)
    if box and sides == [None, None]:
        sides = [box[2], box[3]]
    elif box:
        sides = [sides[1] * box[2] / box[3] if sides[0] is None else sides[0], sides[0] * box[3] / box[2] if sides[1] is None else sides[1]]
    if sides[1] is None:
        walk.tell("no height of the page, so Y0 is its upper edge")
    if any(side is not None and side < 0 for side in sides):
        raise SvgFault("negative")
    scale = UNITS[asked.units] / asked.ppi
    upwards = (scale, Fraction(0), Fraction(0), -scale, Fraction(0), scale * (sides[1] or 0))
    if not box:
        return upwards, tuple(sides)
    return product(upwards, fitted(box, *sides, root.get("preserveAspectRatio", ""))), (box[2], box[3])


def placed(shapes, origin):
    """The loops where they belong, all on the grid."""
    points = [point for shape in shapes for loop in shape.loops for point in loop]
    left, low = (min(point[axis] for point in points) if origin == "drawing" else 0 for axis in (0, 1))
    moved = [shape._replace(loops=[[(x - left, y - low) for x, y in loop] for loop in shape.loops]) for shape in shapes]
    for shape in moved:
        if not all(LEAST <= z <= GREATEST for loop in shape.loops for point in loop for z in point):
            raise SvgFault("out of range", shape.name)
    return moved


def drawing(data, asked):
    """The shapes of a file on the grid, and what is to be told of it."""
    if len(data) > MOST_BYTES:
        raise SvgFault("too long")
    try:
        root = ElementTree.fromstring(data)
    except (ElementTree.ParseError, LookupError, ValueError):
        raise SvgFault("xml") from None
    if kind_of(root) != "svg":
        raise SvgFault("no svg")
    walk = Walk(root, asked)
    try:
        matrix, viewport = page(root, walk, asked)
    except SvgFault as fault:
        raise SvgFault(fault.args[0], name_of(root)) from None
    walk.walk(root, matrix, FIRST_STYLE, viewport, 0)
    for what in ("skipped in defs", "skipped symbol"):
        walk.notes[what] = [name for name in walk.notes.get(what, []) if name not in walk.used]
    if not walk.shapes:
        raise SvgFault("; ".join(["no shape", *told(walk.notes)]))
    shapes = placed(walk.shapes, asked.origin)
    names = unlike(shapes)
    if names is None:
        walk.tell("too many loops to compare their filling with the even-odd rule")
    elif names:
        walk.notes["filled otherwise than by the even-odd rule"] = names
    return shapes, walk.notes


def told(notes):
    """The lines on what isn't taken as it is: its kind, how often, and the first places."""
    for what, names in notes.items():
        shown = [name for name in dict.fromkeys(names) if name]
        more = ", .." if len(shown) > NAMES_SHOWN else ""
        if names:
            yield f"{what}: {len(names)}" + (f" ({', '.join(shown[:NAMES_SHOWN])}{more})" if shown else "")


def written(shapes, asked):
    """The text in loops form; above the loops of each shape stands its name."""
    lines = [f"# svg_to_loops: {asked.units}, tolerance {asked.tolerance} of a grid unit"]
    for shape in shapes:
        lines += [f"# {shape.name}", *(" ".join(f"{x},{y}" for x, y in loop) for loop in shape.loops)]
    return "\n".join(lines) + "\n"


def between(least, greatest):
    def read(text):
        value = Fraction(text) if re.fullmatch(r"[0-9]{1,9}(\.[0-9]{1,9}|/[1-9][0-9]{0,8})?", text) else least - 1
        if not least <= value <= greatest:
            raise ValueError(text)
        return value

    read.__name__ = f"number from {least} to {greatest}"
    return read


def options(words):
    parser = argparse.ArgumentParser(description=__doc__, formatter_class=argparse.RawDescriptionHelpFormatter, allow_abbrev=False)
    parser.add_argument("file")
    parser.add_argument("--units", choices=UNITS, default="mm100", help="the grid of the job; mm100 if left out")
    parser.add_argument("--tolerance", type=between(Fraction(1, 1000), Fraction(100)), default=Fraction(1, 4),
                        help="how far a chord may be from its curve, in grid units; 1/4 if left out")
    parser.add_argument("--ppi", type=between(Fraction(1), Fraction(10000)), default=Fraction(96), help="pixels an inch; 96 if left out")
    parser.add_argument("--origin", choices=("page", "drawing"), default="page", help="whose lower left corner is at X0 Y0; the page's if left out")
    parser.add_argument("--out", help="the file that is written; standard output if left out")
    return parser.parse_args(words)


def save(text, path):
    try:
        if path:
            Path(path).write_text(text, encoding="ascii")
        else:
            sys.stdout.write(text)
            sys.stdout.flush()
    except (OSError, ValueError):
        if not path:
            # So that nothing is written at the end of the run once more.
            os.dup2(os.open(os.devnull, os.O_WRONLY), sys.stdout.fileno())
        raise SvgFault("not writable", path or "standard output") from None


def main(words=None):
    asked = options(words)
    try:
        try:
            data = Path(asked.file).read_bytes()
        except (OSError, ValueError):
            raise SvgFault("not readable", asked.file) from None
        shapes, notes = drawing(data, asked)
        save(written(shapes, asked), asked.out)
    except SvgFault as fault:
        print("svg", " ".join(map(str, fault.args)), file=sys.stderr)
        return 3
    print(*told(notes), sep="\n", end="\n" if any(notes.values()) else "", file=sys.stderr)
    return 0


if __name__ == "__main__":
    sys.exit(main())
