#!/usr/bin/env python3
"""Compares piezometer readings with the pore pressures of the layer that a job's run leaves, as a table.

    python3 reading.py PROGRAM JOBFILE ELEMENT VALUE [--bits]
    python3 reading.py PROGRAM JOBFILE FIELDDATA [--bits]

PROGRAM reads a job and readings on standard input and answers each, as target/bin/piezometer does; it alone judges
them. VALUE is a decimal with its unit, such as 12.5kPa or "1.27 m", or missing; FIELDDATA is a file with an element
and a value a line. --bits also shows how each float is a whole number times a power of two. Exit status 0 for a table,
1 where the job or a reading is refused, 2 where there is nothing to compare.
"""

from __future__ import annotations

import os
import struct
import sys
from typing import List, NamedTuple, Sequence, Union

sys.path.insert(0, os.path.dirname(os.path.abspath(__file__)))

from field_data import COLUMN, MISSING, Reading, read_file, read_typed  # noqa: E402
from float_text import DOTS, INFINITE, SIGN, float_text, is_finite, parts  # noqa: E402
from key_table import GAP, columns  # noqa: E402
from keys import NoAnswer, Refusal, counted, job_bytes, printed, read_refusal, written  # noqa: E402
from layer_units import KILOPASCAL, METRE  # noqa: E402

MOST = 1_024         # readings in one go
MOST_JOB = 8_192     # bytes of a job that a program reads; no job has so many

HEADS = [("", "element"), ("reading", "as typed"), ("as a float", "kPa or m"), ("column", "nm"), ("pressure", "mPa"),
         ("pore pressure", "mPa"), ("difference", "mPa")]
BITS_HEADS = [("", "element"), ("reading", "as typed"), ("", "bits"), ("", "sign"), ("", "mantissa"), ("power", "of 2")]


class Answer(NamedTuple):
    """What the program says of a reading: a refusal or 0, whether it is missing, nm or mPa, and mPa."""

    number: int
    missing: int
    value: int
    pore_pressure: int
    difference: int


# ----------------------------------------------------------------------------------------------------------------
# Asking the program
# ----------------------------------------------------------------------------------------------------------------

def asked(job: bytes, readings: Sequence[Reading]) -> bytes:
    """What the program reads of a job and some readings."""
    words = [struct.pack("<3Q", reading.element, reading.kind, reading.bits) for reading in readings]
    return struct.pack("<Q", len(job)) + job + b"".join(words)


def read_answers(answer: bytes, count: int) -> Union[List[Answer], Refusal]:
    """So many answers, or a refusal, from the bytes that the program writes."""
    refusal = read_refusal(answer)
    if refusal:
        return refusal
    if len(answer) != 40 * count:
        raise NoAnswer("the program wrote neither %s nor a refusal (%d bytes)"
                       % (counted(count, "answer"), len(answer)))
    return [Answer(*numbers) for numbers in struct.iter_unpack("<QQqqq", answer)]


def compared(program: str, job: bytes, readings: Sequence[Reading]) -> Union[List[Answer], Refusal]:
    """What the program answers to any number of readings of a job, which it runs anew for every go."""
    made: List[Answer] = []
    goes = -(-len(readings) // MOST)
    for go in range(goes):
        if goes > 1:
            print("reading: running the job for part %d of %d" % (go + 1, goes), file=sys.stderr)
        part = readings[MOST * go:MOST * (go + 1)]
        answers = read_answers(written(program, asked(job[:MOST_JOB], part)), len(part))
        if isinstance(answers, Refusal):
            return answers
        made += answers
    return made


# ----------------------------------------------------------------------------------------------------------------
# The tables
# ----------------------------------------------------------------------------------------------------------------

def cells(reading: Reading, answer: Answer) -> List[str]:
    """The row of a reading; a refused one has no numbers of the program."""
    given = ["%d" % reading.element, reading.typed, "-" if reading.kind == MISSING else float_text(reading.bits)]
    if answer.number:
        return given + [""] * 4
    pore, pressure = answer.pore_pressure, answer.difference + answer.pore_pressure
    if answer.missing:
        return given + ["-", "-", format(pore, ","), "missing"]
    return given + [format(answer.value, ",") if reading.kind == COLUMN else "-", format(pressure, ","),
                    format(pore, ","), format(answer.difference, ",")]


def aligned(heads: Sequence[Sequence[str]], rows: Sequence[Sequence[str]], ends: Sequence[str]) -> List[str]:
    """Rows below two lines of heads, each with words at its end if it has some."""
    lines = columns([[name for name, _ in heads], [unit for _, unit in heads], *rows])
    return lines[:2] + [line.rstrip() + " " * GAP + end if end else line for line, end in zip(lines[2:], ends)]


def reading_lines(readings: Sequence[Reading], answers: Sequence[Answer]) -> List[str]:
    """A line for every reading, with the refusal in words where it is refused."""
    words = ["refused %d: %s" % (answer.number, Refusal(answer.number).words()) if answer.number else ""
             for answer in answers]
    return aligned(HEADS, [cells(*pair) for pair in zip(readings, answers)], words)


def notes(readings: Sequence[Reading]) -> List[str]:
    """Says which of the numbers typed are no floats, and what dots mean."""
    rounded = [reading for reading in readings if not reading.exact]
    lines = []
    if len(rounded) == 1:
        lines.append("%s is no 32-bit float: the nearest float is compared." % rounded[0].typed)
    elif rounded:
        lines.append("%s, the first %s, are no 32-bit floats: the nearest floats are compared."
                     % (counted(len(rounded), "reading"), rounded[0].typed))
    if any(reading.kind != MISSING and float_text(reading.bits).endswith(DOTS) for reading in readings):
        lines.append("Where dots follow, the float's decimals go on.")
    return [""] + lines if lines else []


def quotient(reading: Reading) -> str:
    """How the exact value of a finite float in the paper's unit is cut to a whole number."""
    unit = METRE if reading.kind == COLUMN else KILOPASCAL
    sign, mantissa, power = parts(reading.bits)
    product = "%s x %s" % (format(sign * mantissa, ","), format(unit.size, ","))
    if power >= 0:
        return "%s x 2^%d = %s %s" % (product, power, format(sign * mantissa * unit.size << power, ","), unit.own)
    whole, left = (format(sign * part, ",") for part in divmod(mantissa * unit.size, 1 << -power))
    return "%s / 2^%d = %s %s, remainder %s" % (product, -power, whole, unit.own, left)


def bits_lines(readings: Sequence[Reading]) -> List[str]:
    """A line for every reading that has bits: its parts, and the quotient that is cut."""
    rows, ends = [], []
    for reading in readings:
        if reading.kind == MISSING:
            continue
        sign = "-" if reading.bits & SIGN else "+"
        row = ["%d" % reading.element, reading.typed, "0x%08X" % reading.bits, sign]
        if is_finite(reading.bits):
            _, mantissa, power = parts(reading.bits)
            rows.append(row + [format(mantissa, ","), "%d" % power])
            ends.append(quotient(reading))
        else:
            rows.append(row + ["-", "-"])
            ends.append("infinite" if reading.bits & ~SIGN == INFINITE else "not a number")
    heads = "A float is its sign, a whole number (the mantissa) and a power of two; the quotient is cut toward zero."
    return ["", heads] + aligned(BITS_HEADS, rows, ends) if rows else []


def table(name: str, elements: int, readings: Sequence[Reading], answers: Sequence[Answer]) -> List[str]:
    """Readings in a layer of so many elements and what the program says of them, as lines."""
    return ["Readings in the layer that the run of %s leaves" % name, "",
            "Elements 1 (lowest) to %d. The difference is the reading's pressure minus the pore pressure." % elements] \
        + reading_lines(readings, answers) + notes(readings)


def main(arguments: Sequence[str]) -> int:
    """Print the table of a command line."""
    words = [word for word in arguments if word != "--bits"]
    if len(words) not in (3, 4, 5):
        print("usage: reading.py PROGRAM JOBFILE (ELEMENT VALUE | FIELDDATA) [--bits]", file=sys.stderr)
        return 2
    program, path, *given = words
    name = os.path.basename(path)
    try:
        readings = read_file(given[0]) if len(given) == 1 else [read_typed(given[0], " ".join(given[1:]))]
        job = job_bytes(path)
        answers = compared(program, job, readings)
    except NoAnswer as error:
        print("reading: %s" % error, file=sys.stderr)
        return 2
    if isinstance(answers, Refusal):
        return printed(["%s: refused %d: %s" % (name, answers.number, answers.words())], "reading") or 1
    lines = table(name, int.from_bytes(job[7:8], "little"), readings, answers)
    if "--bits" in arguments:
        lines += bits_lines(readings)
    return printed(lines, "reading") or (1 if any(answer.number for answer in answers) else 0)


if __name__ == "__main__":
    sys.exit(main(sys.argv[1:]))
