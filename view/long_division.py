#!/usr/bin/env python3
"""Writes out the long division of a step on the layer that a job's run leaves, as graders do.

    python3 long_division.py PROGRAM JOBFILE SECONDS

PROGRAM reads a job and the seconds of a step on standard input and writes the division, as target/bin/long_division
does. The tables have its own whole numbers: both curves' readings, the flow through every inner or drained face and the
water before and after, with what each division left. Every line is checked before it is printed. Exit status 0 for
tables, 1 where the job or the step is refused, 2 where there is nothing to show or a line does not hold.
"""

from __future__ import annotations

import os
import sys
from typing import List, NamedTuple, Sequence

sys.path.insert(0, os.path.dirname(os.path.abspath(__file__)))

from working import (Division, Interpolation, check_face, check_water, checked_layer,  # noqa: E402
                      conductivity_readings, divided, element_flows, face_names, outer_faces, outflow, stress_readings)
from field_data import read_number  # noqa: E402
from key_table import columns  # noqa: E402
from keys import NoAnswer, Refusal, job_bytes, printed  # noqa: E402
from layer import CLOSED, Layer  # noqa: E402

Rows = List[List[str]]


class Quantity(NamedTuple):
    """What a curve gives: its name, the name for its points, its unit, the curve, and what part and whole are."""

    name: str
    short: str
    unit: str
    curve: str
    part: str
    whole: str


STRESS = Quantity("effective stress", "stress", "mPa", "Compressibility curve", "void ratio a - E",
                  "void ratio a - void ratio b")
CONDUCTIVITY = Quantity("conductivity", "conductivity", "fm/s", "Conductivity curve", "E - void ratio a",
                        "void ratio b - void ratio a")


# ----------------------------------------------------------------------------------------------------------------
# Lines with signs
# ----------------------------------------------------------------------------------------------------------------

def numbers(*cells: int) -> List[str]:
    """Numbers as cells."""
    return [format(cell, ",") for cell in cells]


def equations(names: str, units: Sequence[str], rows: Rows) -> List[str]:
    """Rows of cells as lines below their names and units, with the signs that stand between the names: such names are
    'a x b = c', with two blanks around each sign. Each column is as wide as its widest cell and set to the right."""
    words = names.split("  ")
    heads, signs = words[0::2], words[1::2] + [""]
    widths = [max(map(len, column)) for column in zip(heads, units, *rows)]
    lines = []
    for row, shown in [(heads, True), (units, False)] + [(row, True) for row in rows]:
        cells = ["%s %s" % (cell.rjust(width), sign if shown else " " * len(sign))
                 for cell, width, sign in zip(row, widths, signs)]
        lines.append(" ".join(cells)[:-1])
    return lines


def beside(*groups: Sequence[str]) -> List[str]:
    """Columns of lines side by side, each set to the right."""
    return [line.rstrip() for line in columns(list(zip(*groups)))]


# ----------------------------------------------------------------------------------------------------------------
# The tables
# ----------------------------------------------------------------------------------------------------------------

def segment_lines(quantity: Quantity, readings: Sequence[Interpolation]) -> List[str]:
    """The segments of a curve that are read, with their end points."""
    rows = [["", "%s a" % quantity.short, "void ratio a", "%s b" % quantity.short, "void ratio b"],
            ["segment", quantity.unit, "", quantity.unit, ""]]
    rows += [numbers(*segment) for segment in sorted({reading.segment for reading in readings})]
    return [line.rstrip() for line in columns(rows)]


def curve_lines(quantity: Quantity, division: Division, readings: Sequence[Interpolation]) -> List[str]:
    """The readings of a curve, a line for every element."""
    own, unit, short = quantity.name, quantity.unit, quantity.short
    words = ["%s. In a segment from point a to point b" % quantity.curve,
             "rise = %s b - %s a, part = %s, whole = %s." % (short, short, quantity.part, quantity.whole)]
    parts = [numbers(r.rise, r.part, r.quotient, r.whole, r.remainder) for r in readings]
    sums = [numbers(r.segment.value_a, r.quotient, r.value) for r in readings]
    rows = beside(["", "element"] + numbers(*range(1, len(readings) + 1)),
                  ["void ratio", "E"] + numbers(*(element.void_ratio for element in division.elements)),
                  ["", "segment"] + numbers(*(reading.segment.number for reading in readings)),
                  equations("rise  x  part  =  quotient  x  whole  +  remainder", [unit, "", unit, "", ""], parts),
                  equations("%s a  +  quotient  =  %s" % (short, own), [unit] * 3, sums))
    return words + segment_lines(quantity, readings) + [""] + rows


def closed_words(layer: Layer) -> str:
    """Which faces have no line."""
    closed = [name for name, face in (("bottom", layer.bottom), ("top", layer.top)) if face == CLOSED]
    if not closed:
        return "A closed face has no line; here none is closed."
    if len(closed) == 1:
        return "A closed face has no line: here the %s." % closed[0]
    return "A closed face has no line: here the bottom and the top%s." \
        % (", and there is no face between elements" if layer.counts[0] == 1 else "")


def face_lines(layer: Layer, division: Division, seconds: int) -> List[str]:
    """The flows, a line for every face that is not closed."""
    words = ["Faces: a flow goes up between two elements and out at the bottom and the top; below 0 it goes the other "
             "way.", closed_words(layer)]
    if not division.faces:
        return words
    rows = [numbers(face.difference, seconds, face.difference * seconds, face.flow, face.resistance, face.remainder)
            for face in division.faces]
    return words + beside(["", "face"] + face_names(layer),
                          equations("difference  x  t  =  product  =  flow  x  R  +  remainder",
                                    ["mPa", "s", "mPa s", "nm", "mPa s/nm", "mPa s"], rows))


def water_lines(layer: Layer, division: Division) -> List[str]:
    """The water of every element and of the layer, before and after the step."""
    rows = [numbers(element.water, flows.below, flows.above, element.water_after)
            for element, flows in zip(division.elements, element_flows(layer, division))]
    elements = beside(["", "element"] + numbers(*range(1, len(rows) + 1)),
                      equations("before  +  up from below  -  up to above  =  after", ["nm"] * 4, rows))
    bottom, top = (outflow(face) for face in outer_faces(layer, division))
    before = sum(element.water for element in division.elements)
    after = sum(element.water_after for element in division.elements)
    layers = equations("before  =  after  +  out through the top  +  out through the bottom", ["nm"] * 4,
                       [numbers(before, after, top, bottom)])
    return ["Water of the elements"] + elements + ["", "Water of the layer"] + [line.rstrip() for line in layers]


def tables(name: str, job: bytes, seconds: int, division: Division) -> List[str]:
    """The long division of a step, as lines, all of which hold."""
    layer = checked_layer(job, division)
    for face_name, face in zip(face_names(layer), division.faces):
        check_face(face_name, face, seconds)
    check_water(layer, division)
    stresses, conductivities = stress_readings(layer, division), conductivity_readings(layer, division)
    return ["Long division of a step of %s s on the layer that the run of %s leaves" % (format(seconds, ","), name), "",
            "From the bottom up; element 1 is the lowest. Void ratios are in hundred-millionths.", ""] \
        + curve_lines(STRESS, division, stresses) + [""] + curve_lines(CONDUCTIVITY, division, conductivities) + [""] \
        + face_lines(layer, division, seconds) + [""] + water_lines(layer, division)


def main(arguments: Sequence[str]) -> int:
    """Print the tables of a command line."""
    if len(arguments) != 3:
        print("usage: long_division.py PROGRAM JOBFILE SECONDS", file=sys.stderr)
        return 2
    program, path, given = arguments
    name = os.path.basename(path)
    try:
        seconds = read_number(given, "number of seconds")
        job = job_bytes(path)
        division = divided(program, job, seconds)
        if isinstance(division, Refusal):
            return printed(["%s: refused %d: %s" % (name, division.number, division.words())], "division") or 1
        return printed(tables(name, job, seconds, division), "division")
    except NoAnswer as error:
        print("division: %s" % error, file=sys.stderr)
        return 2


if __name__ == "__main__":
    sys.exit(main(sys.argv[1:]))
