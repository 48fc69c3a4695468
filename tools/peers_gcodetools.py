"""Carves drawings by the Engraving function of Inkscape's gcodetools, for tools/peers.py: by its Python script, which needs no window.

Inkscape's window runs the same script with the same words. Here it runs three times: its tab Orientation puts the orientation points on the
page, its tab Tools library the cone cutter, whose diameter is then written over as with the text tool, and its tab Engraving makes the
program. The page is a layer with one filled path; gcodetools engraves on the right of a path, so the loops are turned that way.

As Debian 12 has it, the script stops at two lines that only Python 2 could run. `mended` gives both the meaning that they had there, in a
copy; the installed script isn't touched. `as_installed` says how that one ends.
"""

import math
import os
import re
import subprocess
from pathlib import Path

# Debian's own Python, for which the modules of the package inkscape are.
PYTHON = "/usr/bin/python3"
EXTENSIONS = Path("/usr/share/inkscape/extensions")
SCRIPT = EXTENSIONS / "other/gcodetools/gcodetools.py"
# A quotient of whole numbers was whole in Python 2, and None less than everything.
MENDED = {
    "nlLT[j][(ii + i) / 2 - 1]": "nlLT[j][(ii + i) // 2 - 1]",
    "** 2), i), dist)": "** 2), i), dist or (-math.inf,))",
}
# Runs the script that is given first with the words behind it, and prints how long that took without Python's start and the imports.
TIMED = """
import importlib.util, sys, time
spec = importlib.util.spec_from_file_location("gcodetools", sys.argv[1])
module = importlib.util.module_from_spec(spec)
spec.loader.exec_module(module)
began = time.perf_counter()
module.Gcodetools().run(sys.argv[2:])
print(time.perf_counter() - began)
"""
MILLIMETRES = "--unit=G21 (All units in mm)"
# The finest accuracy that the window offers, one of its post-processors, and what it has for corners and the greatest distance.
FINEST = ["--engraving-newton-iterations=10", "--postprocessor=round(4);"]
ASKED = [*FINEST, "--engraving-sharp-angle-tollerance=175", "--engraving-max-dist=10"]
PAGE = """<svg xmlns="http://www.w3.org/2000/svg" xmlns:inkscape="http://www.inkscape.org/namespaces/inkscape"
 xmlns:sodipodi="http://sodipodi.sourceforge.net/DTD/sodipodi-0.dtd" width="{size}mm" height="{size}mm" viewBox="0 0 {size} {size}">
<sodipodi:namedview id="view" inkscape:current-layer="layer"/>
<g id="layer" inkscape:groupmode="layer" inkscape:label="Layer 1">
<path id="drawing" style="fill:#000000;fill-rule:evenodd" d="{path}"/>
</g></svg>
"""
SIZE = 100


class NoProgram(Exception):
    """The script made no program; the last line that it told."""


def missing():
    """Why it can't be run; empty where it can."""
    if not SCRIPT.exists():
        return f"there is no {SCRIPT}; Debian's package inkscape has it"
    ran = started("-c", "import inkex, numpy")
    return f"{PYTHON}: {last_of(ran.stderr)}; Debian has python3-lxml and python3-numpy" if ran.returncode else ""


def version():
    return re.search(r"__version__ = '(.*)'", SCRIPT.read_text())[1]


def started(*words):
    environment = {**os.environ, "PYTHONPATH": str(EXTENSIONS), "PYTHONDONTWRITEBYTECODE": "1"}
    return subprocess.run([PYTHON, *map(str, words)], env=environment, capture_output=True, text=True)


def last_of(told):
    return (told.strip().splitlines() or ["nothing was told"])[-1]


def done(*words):
    """What is printed; NoProgram where it fails."""
    ran = started(*words)
    if ran.returncode:
        raise NoProgram(last_of(ran.stderr))
    return ran.stdout


def sides(loop):
    return zip(loop, loop[1:] + loop[:1])


def is_inside(point, loop):
    x, y = point
    crossed = [ax + (y - ay) * (bx - ax) / (by - ay) for (ax, ay), (bx, by) in sides(loop) if (ay > y) != (by > y)]
    return sum(x < at for at in crossed) % 2 == 1


def turned(loops):
    """The loops with the filled side on the right: those round a piece clockwise, those round a hole the other way."""
    found = []
    for loop in loops:
        is_hole = sum(is_inside(loop[0], other) for other in loops if other is not loop) % 2 == 1
        is_clockwise = sum(ax * by - bx * ay for (ax, ay), (bx, by) in sides(loop)) < 0
        found.append(loop[::-1] if is_hole == is_clockwise else loop)
    return found


def page(loops, scale):
    """A page in millimetres with the drawing so many times as large; loops are in thousandths, X0 Y0 is the lower left corner."""
    points = [[f"{x * scale / 1000:.4f},{(SIZE - y / 1000) * scale:.4f}" for x, y in loop] for loop in turned(loops)]
    return PAGE.format(size=SIZE * scale, path=" ".join("M " + " L ".join(loop) + " Z" for loop in points))


def replaced(path, old, new):
    text = path.read_text()
    if text.count(old) != 1:
        raise NoProgram(f"{old} comes {text.count(old)} times in {path.name}")
    path.write_text(text.replace(old, new))


def prepared(loops, diameter, scale, folder):
    """A page with the drawing, the tool, and the orientation points, which say how large it is drawn."""
    drawn, pointed, tooled = (folder / f"{name}.svg" for name in ("drawn", "pointed", "tooled"))
    drawn.write_text(page(loops, scale))
    points = ["--orientation-points-count=2", "--Zsurface=0", "--Zdepth=-1", MILLIMETRES]
    done(SCRIPT, "--active-tab=orientation", *points, f"--output={pointed}", drawn)
    replaced(pointed, "(100.0; 0.0; -1.00000)", f"({100 / scale}; 0.0; -1.00000)")
    done(SCRIPT, "--active-tab=tools_library", "--tools-library-type=cone cutter", f"--output={tooled}", pointed)
    replaced(tooled, ">10</tspan>", f">{diameter}</tspan>")
    return tooled


def words_of(tooled, path, safe):
    """The words of the tab Engraving. Its own footer goes back to X0 Y0, as the others don't; a file named footer is taken for it."""
    (path.parent / "footer").write_text("M5\nM2\n")
    path.unlink(missing_ok=True)
    where = ["--id=drawing", f"--directory={path.parent}", f"--filename={path.name}", "--add-numeric-suffix-to-filename=false"]
    return ["--active-tab=engraving", *where, f"--Zsafe={safe}", MILLIMETRES, *ASKED, f"--output={path.with_suffix('.svg')}", tooled]


def mended(folder):
    """A copy of the script with its two lines mended, where it has them."""
    text = SCRIPT.read_text()
    for old, new in MENDED.items():
        text = text.replace(old, new)
    copy = folder / "gcodetools_mended.py"
    copy.write_text(text)
    return copy


def carved(loops, diameter, safe, scale, path):
    """Writes the program of the mended script, and returns the seconds that it took."""
    tooled = prepared(loops, diameter, scale, path.parent)
    seconds = float(done("-c", TIMED, mended(path.parent), *words_of(tooled, path, safe)))
    if not path.read_text():
        raise NoProgram("nothing was written")
    return seconds


def as_installed(loops, diameter, safe, path):
    """How the installed script ends."""
    try:
        done(SCRIPT, *words_of(prepared(loops, diameter, 1, path.parent), path, safe))
    except NoProgram as told:
        return str(told)
    return f"a program of {len(path.read_text().splitlines())} lines"
