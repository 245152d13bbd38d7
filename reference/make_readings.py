#!/usr/bin/env python3
"""Makes the records and readings that the program `scenarios` compares, and the bytes that it has to write.

    python3 make_readings.py            write both anew
    python3 make_readings.py --check    make both anew and compare; exit status 1 where a stored file differs
    python3 make_readings.py --show FILE NUMBER    one block: its record as statements, its readings with their answers

Every answer is the reference's. What is drawn is drawn by the reference's own generator from a fixed seed, so the
files are the same on every machine.

INPUT   Files of blocks, reading_*, named in the file `args` after those of `make_descriptions.py`. Words are 64 bits,
        little-endian.
        file      number of blocks, then the blocks
        block     kind (4), bytes of the body (at most 8,192), number of readings (at most 64); the body, a record as
                  in `make_scenarios.py`; the readings
        reading   element (1 is the lowest); kind (1 a pressure in kPa, 2 a water column in metres, any other number:
                  missing); a word with the bits of a 32-bit float in its low half

OUTPUT  For each file a line with its name; for each reading of each block five words, little-endian: the refusal
        number or 0; 1 for a missing reading, else 0; its exact value cut to mPa or nm; the pore pressure of its
        element; the reading minus that, both in mPa. The last three are in two's complement, and each is 0 where there
        is none.
"""

from __future__ import annotations

import argparse
import itertools
import os
import sys
from fractions import Fraction
from typing import Callable, Dict, Iterable, Iterator, List, NamedTuple, Sequence, Set, Tuple

HERE = os.path.dirname(os.path.abspath(__file__))
sys.path.insert(0, HERE)

import damage  # noqa: E402
import lists  # noqa: E402
import make_scenarios as scenarios  # noqa: E402
import makers  # noqa: E402
import piezometer  # noqa: E402
import rules  # noqa: E402
from chance import TOP_BIT, Chance  # noqa: E402
from make_scenarios import BODY_BYTES, READINGS, U64_MAX, mud, note, opened, resting, run, specimen  # noqa: E402
from make_scenarios import stepped, steps, widest, words  # noqa: E402
from make_vectors import MANY  # noqa: E402
from piezometer import BAD_ELEMENT, BAD_READING, COLUMN, LIMITS, PRESSURE, UNITS, Answer, Reading  # noqa: E402
from rules import ACCEPTED, NO_LAYER, Record  # noqa: E402

SEED = 60_000
LEAST = 2_000        # at least so many readings
MOST_READINGS = 64   # of a block
DRAWN = 90           # drawn blocks
NUMBERS = (ACCEPTED, NO_LAYER, BAD_READING, BAD_ELEMENT)

SIGN = 1 << 31
SIGNS = (0, SIGN)
INFINITY = 0x7F800000
NOT_FINITE = (INFINITY, 0x7F800001, 0x7FA00000, 0x7FBFFFFF, 0x7FC00000, 0x7FC00001, 0x7FD55555, 0x7FFFFFFF)
FINITE = (0, 1, 2, 3, 0x400000, 0x7FFFFF, 0x800000, 0x800001, 0x7F000000, 0x7F7FFFFF)  # the least, and the greatest
EXPONENTS = range(256)
TELLING = range(94, 140)  # fields of exponents with readings that are not cut to 0, and those beside them
WHOLE = range(121, 135)   # fields of exponents with readings that are whole in mPa and nm
MISSING = (0, 3, 4, 255, 256, 257, 258, 2**32, 2**32 + 1, 2**32 + 2, TOP_BIT, TOP_BIT + 1, TOP_BIT + 2, U64_MAX - 1,
           U64_MAX)

Float = Tuple[int, int]  # kind of a reading, and its bits


class Block(NamedTuple):
    """A record, and the readings that are compared with it."""

    record: Record
    readings: List[Reading]


class Worked:
    """A block, and what the reference makes of it."""

    def __init__(self, block: Block) -> None:
        self.record, self.readings = block
        before = block.record.copy()
        pores = piezometer.pore_pressures(block.record)
        self.answers = [piezometer.answer_of(pores, reading) for reading in block.readings]
        assert block.record == before

    def output(self) -> bytes:
        """What the program writes of it."""
        return words([number for answer in self.answers for number in answer])


# ----------------------------------------------------------------------------------------------------------------
# Floats
# ----------------------------------------------------------------------------------------------------------------

def least_float(value: Fraction) -> int:
    """Bits of the least float that is at least a value of 0 or more; bits of such floats rise with their values."""
    low, high = 0, INFINITY
    while low < high:
        middle = (low + high) // 2
        if piezometer.float_value(middle) >= value:
            high = middle
        else:
            low = middle + 1
    return low


def least_reading(kind: int, pressure: int) -> int:
    """Bits of the least reading of a kind that becomes at least so many mPa, of 0 or more."""
    value = pressure if kind == PRESSURE else rules.ceil_div(pressure * 100_000, 981)
    return least_float(Fraction(value, UNITS[kind]))


def near_reading(kind: int, pressure: int) -> int:
    """Bits of a reading of a kind that is just about a pressure."""
    return least_reading(kind, abs(pressure)) | (SIGN if pressure < 0 else 0)


def whole_reading(kind: int, exponent: int, rest: int) -> int:
    """Bits of a reading that is a whole number in its new unit, or so many of its least parts past one.

    A kPa or a metre is an odd number of the new units times a power of two, so that the least parts are what that power
    leaves of the float's own. The exponents in WHOLE have such a reading within the limits.
    """
    odd, power = (5**6, 6) if kind == PRESSURE else (5**9, 9)
    parts = 2**(150 - exponent - power)
    whole = rest * pow(odd, -1, parts) % parts
    return exponent << 23 | (whole + rules.ceil_div(2**23 - whole, parts) * parts) & 0x7FFFFF


def beside(bits: int, reach: int) -> List[int]:
    """The bits of a float and of those beside it, with both signs."""
    return [near | sign for near in range(max(0, bits - reach), bits + reach + 1) for sign in SIGNS]


def cut_once(bits: int) -> int:
    """The pressure that a column would be if it were not cut to whole nm first."""
    exact = piezometer.float_value(bits) * UNITS[COLUMN] * Fraction(981, 100_000)
    return rules.cut(exact.numerator, exact.denominator)


def cuts_differ(bits: int) -> bool:
    """Whether a column that is cut twice is another pressure than it would be cut once."""
    value = piezometer.converted(COLUMN, bits)
    return value is not None and rules.head_pressure(value) != cut_once(bits)


# ----------------------------------------------------------------------------------------------------------------
# Records
# ----------------------------------------------------------------------------------------------------------------

def low_layer() -> Record:
    """A layer with no water over it and no load, whose pore pressures are below 0."""
    return opened(specimen(top_level=0, table=[(0, 0)]))


def high_layer() -> Record:
    """A layer under the most water and the most load, whose pore pressures are above any reading."""
    return opened(specimen(top_level=rules.LEVEL[1], table=[(0, rules.STRESS[1])]))


def small_layers() -> List[Record]:
    """Layers of a few elements: loaded, stepped, at rest, low and high."""
    return [stepped(specimen(), 100), stepped(mud(), 1), low_layer(), opened(resting(mud())), high_layer(),
            opened(specimen(elements=[(1_000_000, 1_900_000)]))]


def sized_layers() -> List[Record]:
    """Layers of one, two, some and as many elements as there can be."""
    return [opened(specimen(elements=[(1_000_000 + 7 * j, 1_990_000) for j in range(count)], gravity=2_650))
            for count in (1, 2, 3, 10, 127, 128)]


def after(item: scenarios.CallList) -> Record:
    """The record that a list leaves."""
    _, record = makers.open_at_any_level(item.body)
    for name, a, b in item.calls:
        lists.answer_call(record, name, [a, b] if name == "run" else [a])
    return record


def run_lists() -> Iterator[scenarios.CallList]:
    """Runs to every stop, through every pair of faces, with loads after them."""
    for top, bottom in itertools.product((0, 1), repeat=2):
        for level in (0, 10_000_000, 60_000_000)[:1 + 2 * bottom]:
            faces = {"top": top, "bottom": bottom, "bottom_level": level}
            yield scenarios.from_job(specimen(**faces), [run(2_000, 1_000)])
            yield scenarios.from_job(mud(**faces), [run(9_000, 60)])
            yield scenarios.from_job(resting(mud(**faces)), [run(3_000, 40), ("load", 0, 0)] + steps(1))
            yield scenarios.from_job(mud(table=[(0, 1_900_000_000)], **faces), [run(9_000, 5)])
    swelling = specimen(elements=[(1_000_000, 1_100_000)] * 3, table=[(0, 6_000_000)], top_level=0)
    for budget in (1, 10, 90):
        yield scenarios.from_job(swelling, [run(20_000, budget)])
    yield scenarios.from_job(specimen(curve2=[(1, 10**9), (10**9, 10**9)]), [run(9, 9)])
    yield scenarios.from_job(specimen(elements=[(1_000_000, 1_990_000)] * 128), [run(4_000, 20)])
    yield scenarios.from_job(widest(), [run(3_000_000_000, 3)])


def aged_layers() -> Iterator[Record]:
    """Layers after loads, steps and runs."""
    for item in itertools.chain(scenarios.worked_lists(), run_lists()):
        record = after(item)
        if rules.is_layer(record):
            yield record


# ----------------------------------------------------------------------------------------------------------------
# Blocks of floats
# ----------------------------------------------------------------------------------------------------------------

def spread(records: Sequence[Record], floats: Iterable[Float]) -> Iterator[Block]:
    """Readings in as few blocks as there can be, of the elements of records in turn."""
    floats = list(floats)
    for number, at in enumerate(range(0, len(floats), MOST_READINGS)):
        record = records[number % len(records)]
        yield Block(record, [Reading(1 + place % record.elements, kind, bits)
                             for place, (kind, bits) in enumerate(floats[at:at + MOST_READINGS])])


def limits() -> Iterator[Float]:
    """Both limits, either one in the other's place, each of them as the other kind, and the floats beside them."""
    numbers = (2_000, 200, 1_962, Fraction(200_000, 981), 2, Fraction(1, 5), 128, 256, 1_024, 2_048, 2_000_000)
    for kind, number in itertools.product(LIMITS, numbers):
        for bits in beside(least_float(Fraction(number)), 3 if number in LIMITS.values() else 1):
            yield kind, bits


def exponents() -> Iterator[Float]:
    """Every exponent with fractions at their ends and drawn ones; more of those that tell."""
    ends = (0, 0x7FFFFF, 1, 0x400000, 0x3FFFFF)
    for exponent, kind in itertools.product(EXPONENTS, UNITS):
        chance = Chance(SEED, 2 * exponent + kind)
        signs = SIGNS if exponent % 2 else SIGNS[::-1]
        fractions = [ends[(exponent // 2 + kind) % len(ends)], chance.between(0, 0x7FFFFF)]
        floats = list(zip(fractions, signs))
        if exponent in TELLING:
            fractions += [chance.between(0, 0x7FFFFF)]
            floats = list(itertools.product(fractions, SIGNS))
        for fraction, sign in floats:
            yield kind, sign | exponent << 23 | fraction


def specials() -> Iterator[Float]:
    """Zeros, the least and the greatest floats, infinities and all that is no number."""
    chance = Chance(SEED, 1_000)
    drawn = [chance.between(1, 0x7FFFFF) for _ in range(5)]
    drawn += [INFINITY | chance.between(1, 0x7FFFFF) for _ in range(8)]
    for kind in (PRESSURE, COLUMN, 0):
        for bits in FINITE + NOT_FINITE + tuple(drawn):
            for sign in SIGNS:
                yield kind, bits | sign


def cuts() -> Iterator[Float]:
    """Readings on both sides of whole pressures, above 0 and below it; the first of them about 0 itself."""
    for kind in UNITS:
        for number in (1, 2, 3, 9, 10, 11):
            least = least_float(Fraction(number, UNITS[kind]))
            for bits in beside(least, 1) + beside(least_reading(kind, number), 1):
                yield kind, bits
        for exponent in TELLING:
            chance = Chance(SEED, 2_000 + 2 * exponent + kind)
            size = piezometer.float_value(exponent << 23) * (10**6 if kind == PRESSURE else 9_810_000)
            if 1 <= size <= 10**9:
                bits = least_reading(kind, chance.between(int(size) + 1, 2 * int(size)))
                for near in (bits - 1, bits):
                    for sign in SIGNS:
                        yield kind, near | sign


def whole_readings() -> Iterator[Float]:
    """Readings that are whole in their new unit, and those that are least above and below."""
    for kind, exponent, rest, sign in itertools.product(UNITS, WHOLE, (0, 1, -1), SIGNS):
        yield kind, whole_reading(kind, exponent, rest) | sign


def cuts_of_columns() -> Iterator[Float]:
    """Columns that are cut twice to another pressure than they would be cut once, and those beside them."""
    chance, found = Chance(SEED, 3_000), 0
    while found < 30:
        bits = least_float(Fraction(chance.scaled(1, 60_000) * 100_000, 981 * UNITS[COLUMN]))
        if cuts_differ(bits):
            found += 1
            for near in (bits - 1, bits, bits | SIGN):
                yield COLUMN, near


# ----------------------------------------------------------------------------------------------------------------
# Blocks of elements, kinds and records
# ----------------------------------------------------------------------------------------------------------------

def elements() -> Iterator[Block]:
    """Elements within and outside the layer, of readings that are right, refused and missing."""
    ten = least_float(Fraction(10))
    floats = [(PRESSURE, ten), (COLUMN, ten), (0, ten), (PRESSURE, INFINITY), (COLUMN, ten + (5 << 23))]
    for record in sized_layers():
        last = record.elements
        numbers = sorted({0, 1, 2, last - 1, last, last + 1, 64, 128, 129, 255, 256, 257, 2**32, 2**32 + 1, TOP_BIT,
                          TOP_BIT + 1, U64_MAX - 1, U64_MAX})
        pairs = [Reading(number, *floats[(place + turn) % len(floats)])
                 for turn in range(3) for place, number in enumerate(numbers)]
        yield Block(record, pairs)


def every_element() -> Iterator[Block]:
    """A reading of every element of a great layer."""
    record = sized_layers()[-1]
    for first in (1, 65):
        yield Block(record, [Reading(element, PRESSURE + element % 2, least_float(Fraction(element, 3)))
                             for element in range(first, first + MOST_READINGS)])


def kinds() -> Iterator[Block]:
    """Numbers that are no kind, with bits that are not looked at, and upper halves that are not."""
    record = stepped(mud(), 1)
    some = (least_float(Fraction(7)), INFINITY, 0x7FC00001, 0x44FA0001 | SIGN, 0)
    uppers = (1, 0x7F800000, 0x80000000, 0xFFFFFFFF)
    readings = [Reading(1 + place % 3, kind, some[place % len(some)]) for place, kind in enumerate(MISSING)]
    readings += [Reading(element, kind, some[place % len(some)] | 0xFFFFFFFF << 32)
                 for place, kind in enumerate(MISSING) for element in (3, 0, 4)[:1 + 2 * (place % 2)]]
    yield Block(record, readings)
    for record in (stepped(mud(), 1), low_layer()):
        yield Block(record, [Reading(1 + place % 2, kind, bits | upper << 32)
                             for kind in UNITS for bits in some for place, upper in enumerate(uppers)])


def no_layers() -> Iterator[Block]:
    """Records that are no layer, each clause broken: 11, whatever the reading is."""
    right = [Reading(1, PRESSURE, least_float(Fraction(10))), Reading(1, COLUMN, least_float(Fraction(1)) | SIGN)]
    wrong = [Reading(0, PRESSURE, INFINITY), Reading(U64_MAX, COLUMN, 0x7FC00000), Reading(1, PRESSURE, 0x44FA0001),
             Reading(129, 0, 0), Reading(1, 0, 0), Reading(2, U64_MAX, INFINITY)]
    for number, record in enumerate(scenarios.no_layers()):
        yield Block(record, [right[number % 2], wrong[number % len(wrong)]])


def near_readings(record: Record, numbers: Sequence[int]) -> List[Reading]:
    """Readings of elements that are just about their pore pressures, and a missing one."""
    pores = piezometer.pore_pressures(record)
    readings = [Reading(number, kind, (near_reading(kind, pores[number - 1]) - less) & 0xFFFFFFFF)
                for number, (kind, less) in zip(itertools.cycle(numbers), itertools.product(UNITS, (0, 1)))]
    return readings + [Reading(numbers[0], 0, 0), Reading(numbers[-1], COLUMN, least_float(Fraction(3)) | SIGN)]


def near_layers(records: Iterable[Record]) -> Iterator[Block]:
    """Readings near to the pore pressures of the lowest, the highest and a middle element."""
    for record in records:
        yield Block(record, near_readings(record, [record.elements, 1, (record.elements + 1) // 2]))


# ----------------------------------------------------------------------------------------------------------------
# Drawn blocks
# ----------------------------------------------------------------------------------------------------------------

def drawn_bits(chance: Chance, kind: int, pore: int) -> int:
    """Bits of a float: near to a pore pressure, of any size that tells, about a limit, of no size, or any."""
    way = chance.between(0, 12)
    if way < 3:
        return (near_reading(kind, pore) + chance.between(-2, 2)) & 0xFFFFFFFF
    if way < 7:
        bits = chance.between(TELLING[0], TELLING[-1] - 2) << 23 | chance.between(0, 0x7FFFFF)
    elif way == 7:
        bits = whole_reading(kind, chance.pick(WHOLE), chance.between(-1, 1))
    elif way == 8:
        bits = least_float(Fraction(LIMITS[kind])) + chance.between(-2, 2)
    elif way == 9:
        bits = chance.pick(FINITE + NOT_FINITE)
    else:
        return chance.draw() & 0xFFFFFFFF
    return bits | chance.pick(SIGNS)


def drawn_element(chance: Chance, count: int) -> int:
    """An element of a layer, or once in nine none."""
    element = chance.between(1, count)
    if not chance.one_in(9):
        return element
    return chance.pick([0, count + 1, 129, 2**32 + element, TOP_BIT + element, U64_MAX, U64_MAX - element,
                        chance.draw()])


def drawn_reading(chance: Chance, pores: Sequence[int]) -> Reading:
    """A reading of a layer with these pore pressures."""
    element = drawn_element(chance, len(pores))
    kind = chance.pick([PRESSURE, COLUMN])
    bits = drawn_bits(chance, kind, pores[min(element, len(pores)) - 1])
    upper = chance.draw() >> 32 if chance.one_in(4) else 0
    if chance.one_in(8):
        kind = chance.pick(MISSING + (chance.scaled(3, U64_MAX),))
    return Reading(element, kind, bits | upper << 32)


def drawn_block(index: int) -> Block:
    """A record after calls, which is mostly a layer, and readings."""
    chance = Chance(SEED, 10_000 + index)
    record = Record()
    while not rules.is_layer(record):
        record = makers.open_at_any_level(scenarios.drawn_job(chance, 30))[1]
    if chance.one_in(4):
        makers.age_record(chance, record)
    scenarios.drawn_calls(chance, record, chance.between(0, 6), True)
    pores = piezometer.pore_pressures(record)
    if chance.one_in(12):
        makers.fill_past_counts(chance, record)
    if chance.one_in(8):
        damage.spoil_record(chance, record)
    return Block(record, [drawn_reading(chance, pores) for _ in range(chance.between(1, 16))])


# ----------------------------------------------------------------------------------------------------------------
# The files
# ----------------------------------------------------------------------------------------------------------------

class Case(NamedTuple):
    """A reading with its record and its answer."""

    record: Record
    reading: Reading
    answer: Answer

    @property
    def bits(self) -> int:
        """The bits of its float."""
        return self.reading.word & 0xFFFFFFFF

    @property
    def size(self) -> int:
        """Those bits without the sign."""
        return self.bits & ~SIGN

    @property
    def refused_bits(self) -> bool:
        """Whether the float alone would be refused."""
        return self.reading.kind in UNITS and piezometer.converted(self.reading.kind, self.bits) is None


def is_compared(case: Case) -> bool:
    """Whether a reading got a difference."""
    return case.answer.number == ACCEPTED and not case.answer.missing


def of_limit(kind: int, sign: int, more: int, number: int) -> Callable[[Case], bool]:
    """The readings at or beside a limit with this answer."""
    bits = least_float(Fraction(LIMITS[kind])) + more | sign
    return lambda c: (c.reading.kind, c.bits, c.answer.number) == (kind, bits, number)


# What has to be among the readings.
KINDS: Dict[str, Callable[[Case], bool]] = {
    "a missing reading": lambda c: c.answer.missing == 1,
    "a missing reading that would be refused 18": lambda c: c.answer.missing == 1 and c.size >= INFINITY,
    "a missing reading refused 19": lambda c: c.answer.number == BAD_ELEMENT and c.reading.kind not in UNITS,
    "18 and 19 at once": lambda c: c.answer.number == BAD_ELEMENT and c.refused_bits,
    "11 with 18 and 19": lambda c: (c.answer.number == NO_LAYER and c.refused_bits
                                    and not 1 <= c.reading.element <= 128),
    "a pressure": lambda c: is_compared(c) and c.reading.kind == PRESSURE,
    "a column": lambda c: is_compared(c) and c.reading.kind == COLUMN,
    "a pressure below 0": lambda c: c.reading.kind == PRESSURE and c.answer.value < 0,
    "a column below 0": lambda c: c.reading.kind == COLUMN and c.answer.value < 0,
    "a negative value cut to 0": lambda c: is_compared(c) and c.answer.value == 0 and c.bits > SIGN | 1 << 23,
    "minus zero": lambda c: is_compared(c) and c.bits == SIGN,
    "a subnormal": lambda c: is_compared(c) and 0 < c.size < 1 << 23,
    "a whole number of mPa": lambda c: is_compared(c) and c.reading.kind == PRESSURE and c.size > 0
                                       and piezometer.float_value(c.bits) * 10**6 == c.answer.value,
    "columns whose two cuts differ": lambda c: c.reading.kind == COLUMN and is_compared(c) and cuts_differ(c.bits),
    "a difference of 0": lambda c: is_compared(c) and c.answer.difference == 0,
    "a difference above 0": lambda c: c.answer.difference > 0,
    "a difference below 0": lambda c: c.answer.difference < 0,
    "a pore pressure below 0": lambda c: is_compared(c) and c.answer.pore < 0,
    "a pore pressure above the limit": lambda c: is_compared(c) and c.answer.pore > 2_000_000_000,
    "an upper half": lambda c: is_compared(c) and c.reading.word > 0xFFFFFFFF,
    "one element": lambda c: is_compared(c) and c.record.elements == 1,
    "two elements": lambda c: is_compared(c) and c.record.elements == 2,
    "the last of 128 elements": lambda c: is_compared(c) and c.record.elements == c.reading.element == 128,
    "the first of 128 elements": lambda c: is_compared(c) and (c.record.elements, c.reading.element) == (128, 1),
    "a layer that swelled": lambda c: is_compared(c) and rules.settlement(c.record) < 0,
    "a layer that settled": lambda c: is_compared(c) and rules.settlement(c.record) > 0,
    "a signalling NaN": lambda c: c.answer.number == BAD_READING and INFINITY < c.size < 0x7FC00000,
    "a quiet NaN": lambda c: c.answer.number == BAD_READING and c.size >= 0x7FC00000,
    "infinity": lambda c: c.answer.number == BAD_READING and c.bits == INFINITY,
    "minus infinity": lambda c: c.answer.number == BAD_READING and c.bits == INFINITY | SIGN}

KINDS.update(("%s limit %+d, sign %d" % (("pressure", "column")[kind - 1], more, sign >> 31),
              of_limit(kind, sign, more, BAD_READING if more > 0 else ACCEPTED))
             for kind, sign, more in itertools.product(LIMITS, SIGNS, (-1, 0, 1)))
KINDS.update(("top %s, bottom %s" % faces, lambda c, faces=faces: is_compared(c) and faces == tuple(
    "closed" if face is None else "drained" for face in (c.record.top, c.record.bottom)))
             for faces in itertools.product(("closed", "drained"), repeat=2))


class Counts:
    """How many readings got each number, how many were of each kind, and which exponents there were."""

    def __init__(self) -> None:
        self.numbers: Dict[int, int] = {}
        self.kinds: Dict[str, int] = dict.fromkeys(KINDS, 0)
        self.exponents: Set[Tuple[int, int, int]] = set()
        self.records = 0

    def add(self, worked: Worked) -> None:
        """Count a block."""
        self.records += 1
        for reading, answer in zip(worked.readings, worked.answers):
            case = Case(worked.record, reading, answer)
            note(self.numbers, answer.number)
            for name, holds in KINDS.items():
                self.kinds[name] += holds(case)
            if answer.number in (ACCEPTED, BAD_READING) and not answer.missing:
                self.exponents.add((reading.kind, case.bits >> 31, case.size >> 23))

    def missing(self) -> List[str]:
        """What there is too little of."""
        assert set(self.numbers) <= set(NUMBERS)
        return (["readings"] * (sum(self.numbers.values()) < LEAST)
                + ["number %d" % number for number in NUMBERS if self.numbers.get(number, 0) < MANY]
                + [name for name, count in self.kinds.items() if count == 0]
                + ["kind %d, sign %d, exponent %d" % each for each in itertools.product(UNITS, (0, 1), EXPONENTS)
                   if each not in self.exponents])

    def summary(self) -> str:
        """How many of each."""
        refusals = ", ".join("%d: %d" % pair for pair in sorted(self.numbers.items()) if pair[0] != ACCEPTED)
        absent = self.kinds["a missing reading"]
        return "%d readings of %d records; compared %d, missing %d; refused %s" % (
            sum(self.numbers.values()), self.records, self.numbers.get(ACCEPTED, 0) - absent, absent, refusals)


def expected(number: int, blocks: Iterator[Block]) -> List[Block]:
    """Blocks whose readings all get the number that they were made for."""
    made = list(blocks)
    for block in made:
        assert {answer.number for answer in Worked(block).answers} == {number}
    return made


def all_blocks() -> Dict[str, List[Block]]:
    """The blocks of every file, in the order of the files."""
    small = small_layers()
    return {"reading_limits": list(spread(small, limits())), "reading_exponents": list(spread(small, exponents())),
            "reading_specials": list(spread(small, specials())),
            "reading_cuts": expected(ACCEPTED, spread(small, itertools.chain(
                cuts(), whole_readings(), cuts_of_columns()))),
            "reading_elements": list(elements()) + expected(ACCEPTED, every_element()),
            "reading_kinds": list(kinds()),
            "reading_no_layers": expected(NO_LAYER, no_layers()),
            "reading_layers": list(near_layers(scenarios.odd_layers())),
            "reading_states": list(near_layers(aged_layers())),
            "reading_drawn": [drawn_block(index) for index in range(DRAWN)]}


def block_bytes(block: Block) -> bytes:
    """The bytes of a block."""
    body = scenarios.record_body(block.record)
    assert scenarios.body_record(body) == block.record
    assert len(body) <= BODY_BYTES and len(block.readings) <= MOST_READINGS
    numbers = [number for reading in block.readings for number in reading]
    return words([READINGS, len(body), len(block.readings)]) + body + words(numbers)


def file_bytes(blocks: List[Block]) -> bytes:
    """The bytes of a file of blocks."""
    return words([len(blocks)]) + b"".join(map(block_bytes, blocks))


def made_files() -> Tuple[Dict[str, bytes], Counts]:
    """The crate's files, by their paths in it, and what is among them."""
    made, outputs, counts = {}, [], Counts()
    for name, blocks in all_blocks().items():
        made[os.path.join("data", name)] = file_bytes(blocks)
        outputs.append(name.encode("ascii") + b"\n")
        for block in blocks:
            worked = Worked(block)
            counts.add(worked)
            outputs.append(worked.output())
    made["args"] = "".join(name[5:] + "\n" for name in made).encode("ascii")
    made["stdout"] = b"".join(outputs)
    return made, counts


def show(block: Block) -> List[str]:
    """A block as statements of its record, and its readings with their answers."""
    lines = lists.record_lines(block.record) + [""]
    for reading, answer in zip(block.readings, Worked(block).answers):
        lines += ["element %d, kind %d, word %#x" % reading,
                  "    number %d, missing %d, value %d, pore pressure %d, difference %d" % answer]
    return lines


def main() -> int:
    """Make the files, and write, compare or show them."""
    parser = argparse.ArgumentParser(description=__doc__, formatter_class=argparse.RawDescriptionHelpFormatter)
    parser.add_argument("--check", action="store_true", help="compare with the stored files")
    parser.add_argument("--show", nargs=2, metavar=("FILE", "NUMBER"), help="show one block")
    chosen = parser.parse_args()
    if chosen.show:
        print("\n".join(show(all_blocks()[chosen.show[0]][int(chosen.show[1])])))
        return 0
    made, counts = made_files()
    print(counts.summary())
    missing = counts.missing()
    if missing:
        print("too few of: %s" % "; ".join(missing), file=sys.stderr)
        return 1
    if chosen.check:
        return scenarios.check(made, scenarios.READ)
    scenarios.write(made, scenarios.READ)
    for name, data in made.items():
        print("%10d %s" % (len(data), name))
    return 0


if __name__ == "__main__":
    sys.exit(main())
