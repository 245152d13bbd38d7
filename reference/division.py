"""Note 4: the divisions of a step with what they leave. Of a layer and a step's seconds it gives the flow through each
inner or drained face with its remainder, and of both curves what their interpolation leaves. No step is taken: no call
here changes its record."""

from __future__ import annotations

import struct
from typing import List, NamedTuple, Sequence, Tuple

from rules import ACCEPTED, JOB_BYTES_READ, SHORT_BUFFER, Layer, Pair, Record
from rules import cut, open_job, read_job, run_call, step_call, void_ratio

Entry = Tuple[int, int]  # flow and remainder

MOST_ENTRIES = 129


class Face(NamedTuple):
    """An inner or drained face in a step: difference x seconds = flow x resistance + remainder. Difference and flow are
    upward at an inner face and outward at an outer one."""

    difference: int
    resistance: int
    flow: int
    remainder: int


class CurveReading(NamedTuple):
    """A curve as it is read: the number of the segment from 1, the value, and what its interpolation left."""

    segment: int
    value: int
    remainder: int


class ElementRow(NamedTuple):
    """An element in a step: water before and after it, void ratio, and both curves as they are read."""

    water: int
    moved: int
    void: int
    stress: CurveReading
    conductivity: CurveReading


# ----------------------------------------------------------------------------------------------------------------
# Divisions
# ----------------------------------------------------------------------------------------------------------------

def divided(numerator: int, denominator: int) -> Tuple[int, int]:
    """Quotient rounded toward zero, and the remainder, which is 0 or of the numerator's sign."""
    quotient = cut(numerator, denominator)
    return quotient, numerator - quotient * denominator


def face_of(difference: int, resistance: int, seconds: int) -> Face:
    """A face with its flow in so many seconds."""
    return Face(difference, resistance, *divided(difference * seconds, resistance))


def open_faces(record: Record, seconds: int) -> List[Face]:
    """Every inner or drained face of a layer in a step of so many seconds, from the bottom up."""
    pressures, halves = Layer(record).read(record.load, record.water)
    faces = []
    if record.bottom is not None:
        faces.append(face_of(pressures[0] - record.bottom, halves[0], seconds))
    for place in range(record.elements - 1):
        faces.append(face_of(pressures[place] - pressures[place + 1], halves[place] + halves[place + 1], seconds))
    if record.top is not None:
        faces.append(face_of(pressures[-1] - record.top, halves[-1], seconds))
    return faces


def curve_reading(points: Sequence[Pair], at: int) -> CurveReading:
    """A curve of places and values read at a place on it. Where two segments share the place, the first counts."""
    for number, ((place_a, value_a), (place_b, value_b)) in enumerate(zip(points, points[1:]), 1):
        if min(place_a, place_b) <= at <= max(place_a, place_b):
            quotient, remainder = divmod((value_b - value_a) * abs(at - place_a), abs(place_b - place_a))
            return CurveReading(number, value_a + quotient, remainder)
    raise ValueError("off the curve")


def element_readings(record: Record) -> List[Tuple[int, CurveReading, CurveReading]]:
    """Void ratio, effective stress and conductivity of every element of a layer, lowest first."""
    first = [(void, stress) for stress, void in record.first_points()]
    second = record.second_points()
    voids = [void_ratio(solids, water) for solids, water in zip(record.solid_heights(), record.water_heights())]
    return [(void, curve_reading(first, void), curve_reading(second, void)) for void in voids]


# ----------------------------------------------------------------------------------------------------------------
# The call on a record
# ----------------------------------------------------------------------------------------------------------------

def division_call(record: Record, seconds: int) -> Tuple[int, List[Entry]]:
    """Flow and remainder at each inner or drained face, from the bottom up; refused as the step is."""
    refusal = step_call(record.copy(), seconds)
    if refusal:
        return refusal, []
    return ACCEPTED, [(face.flow, face.remainder) for face in open_faces(record, seconds)]


def graded(record: Record, seconds: int) -> Tuple[int, List[Face], List[ElementRow]]:
    """What a grader compares: refusal, open faces and elements, none if it is refused."""
    after = record.copy()
    refusal = step_call(after, seconds)
    if refusal:
        return refusal, [], []
    rows = [ElementRow(water, moved, *readings) for water, moved, readings in zip(
        record.water_heights(), after.water_heights(), element_readings(record))]
    return ACCEPTED, open_faces(record, seconds), rows


# ----------------------------------------------------------------------------------------------------------------
# Divisions of a job
# ----------------------------------------------------------------------------------------------------------------

def left_record(job: bytes) -> Tuple[int, Record]:
    """The record that a job's run leaves, whatever its stop; a refused job gives its refusal and the blank record."""
    refusal, record = open_job(job)
    if refusal == ACCEPTED:
        parts = read_job(job)
        run_call(record, parts.end, parts.budget)
    return refusal, record


def entry_count(job: bytes) -> int:
    """Inner and drained faces that a job's header asks for."""
    top, bottom, elements = job[5:8]
    return elements - 1 + top + bottom


def flows_into(job: bytes, seconds: int, flows: List[int], remainders: List[int]) -> int:
    """Work a job and write flows and remainders of a step on the layer that its run leaves at the start of two lists;
    gives their number, or minus the number of a refusal, which leaves both lists as they were."""
    refusal, _ = open_job(job)
    if refusal:
        return -refusal
    if min(len(flows), len(remainders)) < entry_count(job):
        return -SHORT_BUFFER
    refusal, entries = division_call(left_record(job)[1], seconds)
    if refusal:
        return -refusal
    flows[:len(entries)] = [flow for flow, _ in entries]
    remainders[:len(entries)] = [remainder for _, remainder in entries]
    return len(entries)


def row_numbers(row: ElementRow) -> List[int]:
    """The numbers of an element in the order of their words."""
    return [row.water, row.moved, row.void, *row.stress, *row.conductivity]


def refused_bytes(refusal: int) -> bytes:
    """What the program long_division writes of a refusal."""
    return b"refused %d\n" % refusal


def graded_bytes(record: Record, seconds: int) -> bytes:
    """What the program long_division writes of a layer and seconds."""
    refusal, faces, rows = graded(record, seconds)
    if refusal:
        return refused_bytes(refusal)
    written = struct.pack("<2Q", len(faces), len(rows)) + b"".join(struct.pack("<4q", *face) for face in faces)
    return written + b"".join(struct.pack("<9Q", *row_numbers(row)) for row in rows)


def long_division(job: bytes, seconds: int) -> bytes:
    """What the program long_division writes of a job and seconds."""
    refusal, record = left_record(job)
    return refused_bytes(refusal) if refusal else graded_bytes(record, seconds)


def read_input(data: bytes) -> Tuple[bytes, int]:
    """Job and seconds of an input of the program: a job ends where the input ends, and of one that is said to be longer
    than 8,192 bytes no more are read; bytes of the two numbers that are not there count as 0."""
    length = min(int.from_bytes(data[:8], "little"), JOB_BYTES_READ)
    return data[8:8 + length], int.from_bytes(data[8 + length:16 + length], "little")


def program_output(data: bytes) -> bytes:
    """What the program long_division writes of an input."""
    return long_division(*read_input(data))
