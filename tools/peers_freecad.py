"""Carves drawings by FreeCAD's Vcarve operation, for tools/peers.py: run by freecadcmd, which needs no window.

The operation's own function makes the path; what it asks of the document around it is given by plain objects. A task is a file of JSON:
the loops in millimetres, the angle and the diameter of the bit in degrees and millimetres, the safe height, and where the program goes.
"""

import json
import os
import time
from types import SimpleNamespace

import FreeCAD
import Part
import PathScripts.PathVcarve as PathVcarve


def value(number):
    return SimpleNamespace(Value=number)


def face_of(loops):
    """The face that the loops bound by the even-odd rule."""
    wires = [Part.makePolygon([FreeCAD.Vector(x, y, 0) for x, y in [*loop, loop[0]]]) for loop in loops]
    return Part.makeFace(wires, "Part::FaceMakerBullseye")


def carved(task):
    """The commands of the operation."""
    face = face_of(task["loops"])
    tool = SimpleNamespace(Diameter=task["diameter"], TipDiameter=0.0, CuttingEdgeAngle=value(task["angle"]))
    controller = SimpleNamespace(Tool=tool, HorizFeed=value(8.0), VertFeed=value(8.0))
    asked = SimpleNamespace(Discretize=0.01, Tolerance=1e-7, Colinear=10.0, SafeHeight=value(task["safe"]), FinalDepth=value(-1000.0), ToolController=controller)
    operation = SimpleNamespace(model=[SimpleNamespace(Shape=face)])
    operation._getPartEdges = lambda obj, wire, geometry: PathVcarve.ObjectVcarve._getPartEdges(operation, obj, wire, geometry)
    PathVcarve.ObjectVcarve.buildPathMedial(operation, asked, face.Faces)
    return operation.commandlist


def line_of(command):
    """A line of the program, in ten-thousandths of a millimetre; None for a note."""
    if command.Name not in ("G0", "G1"):
        return None
    words = [f"{axis}{command.Parameters[axis]:.4f}" for axis in "XYZ" if axis in command.Parameters]
    return " ".join([command.Name, *words])


with open(os.environ["PEERS_TASK"]) as file:
    task = json.load(file)
began = time.perf_counter()
lines = [line for line in map(line_of, carved(task)) if line]
seconds = time.perf_counter() - began
with open(task["program"], "w") as program:
    program.write("\n".join(["G21", "G90", *lines, f"G0 Z{task['safe']:.4f}", "M2", ""]))
with open(task["program"] + ".seconds", "w") as told:
    told.write(f"{seconds}\n")
