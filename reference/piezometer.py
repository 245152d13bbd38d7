"""Note 2: piezometer readings, compared with the pore pressures of a layer. A float is taken apart through its bits and
worked as an exact fraction, so that the only roundings are the paper's cuts. No reading changes its record."""

from __future__ import annotations

from fractions import Fraction
from typing import List, NamedTuple, Optional, Sequence, Tuple

from rules import ACCEPTED, NO_LAYER, SHORT_BUFFER, U64_MAX, Record
from rules import cut, element_rows, head_pressure, is_layer, open_job, read_job, run_call

# Refusal numbers
BAD_READING, BAD_ELEMENT = 18, 19

# Kinds of reading; every other number is a missing one
PRESSURE, COLUMN = 1, 2
LIMITS = {PRESSURE: 2_000, COLUMN: 200}               # kPa and m, in size
UNITS = {PRESSURE: 1_000_000, COLUMN: 1_000_000_000}  # mPa in a kPa, nm in a metre

READING_WORDS, ANSWER_WORDS = 3, 5


class Reading(NamedTuple):
    """A reading as three words: element, kind, and the bits of a float in the low half of the third."""

    element: int
    kind: int
    word: int


class Answer(NamedTuple):
    """What a reading is answered: refusal, 1 if it is missing, its exact value cut to mPa or nm, the pore pressure of
    its element, and by how much it is more than that, both in mPa."""

    number: int
    missing: int = 0
    value: int = 0
    pore: int = 0
    difference: int = 0


# ----------------------------------------------------------------------------------------------------------------
# Floats
# ----------------------------------------------------------------------------------------------------------------

def float_parts(bits: int) -> Optional[Tuple[int, int]]:
    """The whole number and the power of two whose product a 32-bit float is; None for one that is not finite."""
    negative, exponent, fraction = bits >> 31 & 1, bits >> 23 & 255, bits & 0x7FFFFF
    if exponent == 255:
        return None
    size, power = (fraction, -149) if exponent == 0 else (2**23 + fraction, exponent - 150)
    return (-size if negative else size), power


def float_value(bits: int) -> Optional[Fraction]:
    """The exact value of a 32-bit float; None for one that is not finite."""
    parts = float_parts(bits)
    if parts is None:
        return None
    whole, power = parts
    return Fraction(whole * 2**power) if power >= 0 else Fraction(whole, 2**-power)


def converted(kind: int, bits: int) -> Optional[int]:
    """A pressure in mPa or a column in nm, cut; None for one that is not finite or past its limit."""
    value = float_value(bits)
    if value is None or abs(value) > LIMITS[kind]:
        return None
    exact = value * UNITS[kind]
    return cut(exact.numerator, exact.denominator)


def as_pressure(kind: int, value: int) -> int:
    """A converted reading in mPa."""
    return head_pressure(value) if kind == COLUMN else value


# ----------------------------------------------------------------------------------------------------------------
# Answers
# ----------------------------------------------------------------------------------------------------------------

def pore_pressures(record: Record) -> Optional[List[int]]:
    """Pore pressure of every element of a layer, lowest first; None for a record that is no layer."""
    return [row[4] for row in element_rows(record)] if is_layer(record) else None


def answer_of(pores: Optional[Sequence[int]], reading: Reading) -> Answer:
    """Answer a reading by the pore pressures of a record."""
    if pores is None:
        return Answer(NO_LAYER)
    if not 1 <= reading.element <= len(pores):
        return Answer(BAD_ELEMENT)
    pore = pores[reading.element - 1]
    if reading.kind not in UNITS:
        return Answer(ACCEPTED, missing=1, pore=pore)
    value = converted(reading.kind, reading.word & 0xFFFFFFFF)
    if value is None:
        return Answer(BAD_READING)
    return Answer(ACCEPTED, 0, value, pore, as_pressure(reading.kind, value) - pore)


def reading_call(record: Record, reading: Reading) -> Tuple[int, int, int]:
    """Compare a reading with a record; gives refusal, 1 if it is missing, and the difference."""
    answer = answer_of(pore_pressures(record), reading)
    return answer.number, answer.missing, answer.difference


# ----------------------------------------------------------------------------------------------------------------
# Readings of a job
# ----------------------------------------------------------------------------------------------------------------

def readings_of(words: Sequence[int]) -> List[Reading]:
    """The readings that words give; a last one that lacks words is not there."""
    whole = len(words) // READING_WORDS * READING_WORDS
    return [Reading(*words[at:at + READING_WORDS]) for at in range(0, whole, READING_WORDS)]


def answer_words(answer: Answer) -> List[int]:
    """An answer as words, negative numbers in two's complement."""
    return [number & U64_MAX for number in answer]


def readings_into(job: bytes, words: Sequence[int], answers: List[int]) -> int:
    """Work a job and write the answers to readings at the start of a list of words; a refused job leaves the list."""
    refusal, record = open_job(job)
    if refusal:
        return refusal
    readings = readings_of(words)
    if len(answers) < ANSWER_WORDS * len(readings):
        return SHORT_BUFFER
    parts = read_job(job)
    run_call(record, parts.end, parts.budget)
    pores = pore_pressures(record)
    for number, reading in enumerate(readings):
        at = ANSWER_WORDS * number
        answers[at:at + ANSWER_WORDS] = answer_words(answer_of(pores, reading))
    return ACCEPTED
