"""Asks the program for the long division of a step, reads what it writes, and checks each line that a table shows.
Nothing of a key is computed here: of the points of a job and the program's numbers there are only differences, products
and sums."""

from __future__ import annotations

import struct
from typing import List, NamedTuple, Optional, Sequence, Union

from keys import NoAnswer, Refusal, counted, read_refusal, written
from layer import DRAINED, Layer, read_job
from reading import MOST_JOB

FACE_BYTES, ELEMENT_BYTES = 32, 72


class Face(NamedTuple):
    """The division at a face: mPa, mPa s/nm, nm and mPa s."""

    difference: int
    resistance: int
    flow: int
    remainder: int


class Element(NamedTuple):
    """What the program says of an element: its water before and after the step, nm; its void ratio; and of both curves
    the segment that was read, the value, mPa or fm/s, and what its division left."""

    water: int
    water_after: int
    void_ratio: int
    stress_segment: int
    stress: int
    stress_remainder: int
    conductivity_segment: int
    conductivity: int
    conductivity_remainder: int


class Division(NamedTuple):
    """The long division of a step: faces from the bottom up, and elements, lowest first."""

    faces: List[Face]
    elements: List[Element]


class Segment(NamedTuple):
    """A segment of a curve: its number, what is read at its points a and b, and their void ratios."""

    number: int
    value_a: int
    void_a: int
    value_b: int
    void_b: int


class Interpolation(NamedTuple):
    """A reading of a curve: rise x part = quotient x whole + remainder, and value a + quotient is the value."""

    segment: Segment
    rise: int
    part: int
    quotient: int
    whole: int
    remainder: int
    value: int


class Flows(NamedTuple):
    """What goes upward through both faces of an element, nm; nothing through a closed one."""

    below: int
    above: int


class Disagreement(NoAnswer):
    """A line that does not hold."""


def agree(holds: bool, where: str, words: str, *numbers: int) -> None:
    """Insist on what a table is about to show."""
    if not holds:
        told = words % tuple(format(number, ",") for number in numbers)
        raise Disagreement("the program and this view disagree: %s: %s" % (where, told))


# ----------------------------------------------------------------------------------------------------------------
# Asking the program
# ----------------------------------------------------------------------------------------------------------------

def asked(job: bytes, seconds: int) -> bytes:
    """What the program reads of a job and a step."""
    job = job[:MOST_JOB]
    return struct.pack("<Q", len(job)) + job + struct.pack("<Q", seconds)


def read_division(answer: bytes) -> Union[Division, Refusal]:
    """A long division or a refusal from the bytes that the program writes."""
    refusal = read_refusal(answer)
    if refusal:
        return refusal
    faces, elements = struct.unpack_from("<2Q", answer) if len(answer) >= 16 else (0, 0)
    middle = 16 + FACE_BYTES * faces
    if len(answer) < 16 or len(answer) != middle + ELEMENT_BYTES * elements:
        raise NoAnswer("the program wrote neither a long division nor a refusal (%d bytes)" % len(answer))
    return Division([Face(*words) for words in struct.iter_unpack("<qQqq", answer[16:middle])],
                    [Element(*words) for words in struct.iter_unpack("<9Q", answer[middle:])])


def divided(program: str, job: bytes, seconds: int) -> Union[Division, Refusal]:
    """What the program answers to a job and a step."""
    return read_division(written(program, asked(job, seconds)))


# ----------------------------------------------------------------------------------------------------------------
# Curves
# ----------------------------------------------------------------------------------------------------------------

def segment_of(values: Sequence[int], voids: Sequence[int], number: int, where: str) -> Segment:
    """A segment of a curve by its number."""
    agree(1 <= number < len(values), where, "there is no segment %s", number)
    return Segment(number, values[number - 1], voids[number - 1], values[number], voids[number])


def interpolation(segment: Segment, void: int, value: int, remainder: int, where: str) -> Interpolation:
    """The reading of a segment at a void ratio, once it holds. Of two segments that share a point the first counts, so
    that nothing but the first point of a curve is read as a point a."""
    falls = segment.void_a > segment.void_b
    part, whole = void - segment.void_a, segment.void_b - segment.void_a
    part, whole = (-part, -whole) if falls else (part, whole)
    rise, quotient = segment.value_b - segment.value_a, value - segment.value_a
    agree((part > 0 or part == 0 and segment.number == 1) and part <= whole, where,
          "the void ratio %s is not in segment %s, from %s to %s", void, segment.number, segment.void_a, segment.void_b)
    agree(rise * part == quotient * whole + remainder, where, "%s x %s is not %s x %s + %s", rise, part, quotient,
          whole, remainder)
    agree(0 <= remainder < whole, where, "the remainder %s is not below %s", remainder, whole)
    return Interpolation(segment, rise, part, quotient, whole, remainder, value)


def stress_readings(layer: Layer, division: Division) -> List[Interpolation]:
    """The readings of the compressibility curve."""
    made = []
    for number, element in enumerate(division.elements, 1):
        where = "compressibility curve, element %d" % number
        segment = segment_of(layer.stresses, layer.voids, element.stress_segment, where)
        made.append(interpolation(segment, element.void_ratio, element.stress, element.stress_remainder, where))
    return made


def conductivity_readings(layer: Layer, division: Division) -> List[Interpolation]:
    """The readings of the conductivity curve."""
    made = []
    for number, element in enumerate(division.elements, 1):
        where = "conductivity curve, element %d" % number
        segment = segment_of(layer.conductivities, layer.conductivity_voids, element.conductivity_segment, where)
        made.append(interpolation(segment, element.void_ratio, element.conductivity, element.conductivity_remainder,
                                  where))
    return made


# ----------------------------------------------------------------------------------------------------------------
# Faces and water
# ----------------------------------------------------------------------------------------------------------------

def face_names(layer: Layer) -> List[str]:
    """The faces that have a line, from the bottom up."""
    inner = ["between %d and %d" % (below, below + 1) for below in range(1, layer.counts[0])]
    return ["bottom"] * (layer.bottom == DRAINED) + inner + ["top"] * (layer.top == DRAINED)


def check_face(name: str, face: Face, seconds: int) -> None:
    """The line of a face: the remainder is smaller than R, and 0 or of the difference's sign."""
    difference, resistance, flow, remainder = face
    agree(difference * seconds == flow * resistance + remainder, name, "%s x %s is not %s x %s + %s", difference,
          seconds, flow, resistance, remainder)
    agree(abs(remainder) < resistance and remainder * difference >= 0, name,
          "the remainder %s is not below %s in size, or not of the sign of %s", remainder, resistance, difference)


def outflow(face: Optional[Face]) -> int:
    """What goes out through an outer face, which is closed where there is none."""
    return face.flow if face else 0


def outer_faces(layer: Layer, division: Division) -> List[Optional[Face]]:
    """Bottom and top, None where closed."""
    return [division.faces[0] if layer.bottom == DRAINED else None,
            division.faces[-1] if layer.top == DRAINED else None]


def element_flows(layer: Layer, division: Division) -> List[Flows]:
    """The flows of every element; what goes out through the bottom goes downward."""
    bottom, top = outer_faces(layer, division)
    first = int(bottom is not None)
    inner = [face.flow for face in division.faces[first:first + layer.counts[0] - 1]]
    return [Flows(*pair) for pair in zip([-outflow(bottom)] + inner, inner + [outflow(top)])]


def check_water(layer: Layer, division: Division) -> None:
    """The lines of the water, of the layer and of every element."""
    bottom, top = (outflow(face) for face in outer_faces(layer, division))
    before = sum(element.water for element in division.elements)
    after = sum(element.water_after for element in division.elements)
    agree(before == after + top + bottom, "water of the layer", "%s is not %s + %s + %s", before, after, top, bottom)
    for number, (element, flows) in enumerate(zip(division.elements, element_flows(layer, division)), 1):
        agree(element.water + flows.below - flows.above == element.water_after, "water of element %d" % number,
              "%s + %s - %s is not %s", element.water, flows.below, flows.above, element.water_after)


def checked_layer(job: bytes, division: Division) -> Layer:
    """The layer of a job, once it has as many elements and faces as the program says."""
    layer = read_job(job)
    if isinstance(layer, Refusal):
        raise Disagreement("the program and this view disagree: refused %d: %s" % (layer.number, layer.words()))
    names = face_names(layer)
    agree(len(division.elements) == layer.counts[0] and len(division.faces) == len(names), "job", "it has %s and %s"
          % (counted(layer.counts[0], "element"), counted(len(names), "inner or drained face")))
    return layer
