"""Damage to jobs, to descriptions and to records, so that they are mostly refused."""

from __future__ import annotations

import struct
from typing import Callable, List, Tuple

from chance import I64_MAX, I64_MIN, TOP_BIT, Chance
from rules import BUDGET, CLOCK, CONDUCTIVITY, GRAVITY, LEVEL, SOLIDS, STARTING_WATER, STRESS, VOID, WATER
from rules import ARRAY_PLACES, ELEMENT_PLACES, HEADER_WORDS, JOB_BYTES_READ, JOB_HEADER, OUTFLOW_PER_SECOND
from rules import POINT_PLACES, U64_MAX, VOID_UNIT
from rules import Description, Job, Pair, Record, bottom_pressure, description_of, job_bytes, job_description
from rules import read_description


# Damage to jobs: each function gives bytes that are mostly refused, for the cause in its name.

def changed(job: bytes, offset: int, new: bytes) -> bytes:
    """A job with some bytes replaced."""
    return job[:offset] + new + job[offset + len(new):]


def outside(chance: Chance, limits: Pair) -> int:
    """A number of 64 bits outside a range."""
    high = limits[1] + 1
    numbers = [high, TOP_BIT, U64_MAX, chance.between(high, U64_MAX), chance.scaled(*limits) | TOP_BIT]
    if limits[0] > 0:
        numbers.extend([0, limits[0] - 1])
    return chance.pick(numbers)


def damage_mark(chance: Chance, job: Job) -> bytes:
    """Cause 1: too short, or another mark."""
    data = job_bytes(job)
    if chance.one_in(2):
        return data[:chance.pick([0, 1, 3, 16, 47, chance.between(0, 47)])]
    return changed(data, chance.between(0, 2), bytes([chance.between(0, 255)]))


def damage_version(chance: Chance, job: Job) -> bytes:
    """Cause 2: another version."""
    return changed(job_bytes(job), 3, struct.pack("<H", chance.pick([0, 2, 256, 257, 65_535])))


def damage_header(chance: Chance, job: Job) -> bytes:
    """Cause 3: a header byte outside its values; a start of 2 was outside before note 3, and is still drawn, so that the
    stored jobs keep their bytes."""
    offset, values = chance.pick([(5, [2, 255]), (6, [2, 128]), (7, [0, 129, 255]), (8, [0, 1, 65, 255]),
                                  (9, [0, 1, 65, 255]), (10, [0, 65, 255]), (11, [2, 255]), (13, [0, 3, 20, 255]),
                                  (14, [1, 128]), (15, [1, 128])])
    return changed(job_bytes(job), offset, bytes([chance.pick(values)]))


def damage_length(chance: Chance, job: Job) -> bytes:
    """Cause 4: cut short, made longer, or a count that does not fit."""
    data = job_bytes(job)
    kind = chance.pick(["short", "long", "count"])
    if kind == "short":
        return data[:chance.pick([JOB_HEADER, len(data) - 1, len(data) - 16, chance.between(JOB_HEADER, len(data))])]
    if kind == "long":
        return data + bytes(chance.pick([1, 8, 16, JOB_BYTES_READ, 2 * JOB_BYTES_READ]))
    return changed(data, chance.between(7, 10), bytes([chance.between(2, 64)]))


def damage_field(chance: Chance, job: Job) -> bytes:
    """Cause 5: a level, end, budget, solids or water outside limits, or not 0 where it has to be."""
    kind = chance.pick(["top_level", "bottom_level", "end", "budget", "solids", "water", "zero"])
    limits = {"top_level": LEVEL, "bottom_level": LEVEL, "end": CLOCK, "budget": BUDGET}
    j = chance.between(0, len(job.elements) - 1)
    if kind in limits:
        setattr(job, kind, outside(chance, limits[kind]))
    elif kind == "solids":
        job.elements[j] = (outside(chance, SOLIDS), job.elements[j][1])
    elif kind == "water":
        job.elements[j] = (job.elements[j][0], outside(chance, WATER))
    elif job.start == 1:
        job.elements[j] = (job.elements[j][0], chance.scaled(1, WATER[1]))
    else:
        job.bottom, job.bottom_level = 0, chance.scaled(1, LEVEL[1])
    return job_bytes(job)


def damage_points(chance: Chance, points: List[Pair], limits: Tuple[Pair, Pair]) -> None:
    """Put a point outside its limits, or out of order with its neighbour."""
    i = chance.between(1, len(points) - 1) if len(points) > 1 else 0
    kind = chance.pick(["left outside", "right outside", "left same", "right same", "swap"])
    left, right = points[i]
    before = points[i - 1]
    if kind == "left outside" or (len(points) == 1 and kind != "right outside"):
        points[i] = (outside(chance, limits[0]), right)
    elif kind == "right outside":
        points[i] = (left, outside(chance, limits[1]))
    elif kind == "left same":
        points[i] = (before[0], right)
    elif kind == "right same":
        points[i] = (left, before[1])
    else:
        points[i - 1], points[i] = points[i], before


def damage_first_curve(chance: Chance, job: Job) -> bytes:
    """Cause 6: the first curve."""
    damage_points(chance, job.curve1, (STRESS, VOID))
    return job_bytes(job)


def damage_second_curve(chance: Chance, job: Job) -> bytes:
    """Cause 7: the second curve, or its cover."""
    if chance.one_in(2):
        damage_points(chance, job.curve2, (VOID, CONDUCTIVITY))
    elif chance.one_in(2):
        job.curve2[0] = (job.curve1[-1][1] + 1, job.curve2[0][1])
    else:
        job.curve2[-1] = (job.curve1[0][1] - 1, job.curve2[-1][1])
    return job_bytes(job)


def damage_table(chance: Chance, job: Job) -> bytes:
    """Cause 8: the load table."""
    if chance.one_in(3):
        job.table[0] = (1, job.table[0][1])
    else:
        damage_points(chance, job.table, (CLOCK, STRESS))
    return job_bytes(job)


def damage_start(chance: Chance, job: Job) -> bytes:
    """Cause 9: water just off the curve, or a first load beyond the curve's ends."""
    if job.start == 1:
        job.table[0] = (0, chance.pick([min(job.curve1[-1][0] + 1, STRESS[1]), max(job.curve1[0][0] - 1, 0)]))
        return job_bytes(job)
    j = chance.between(0, len(job.elements) - 1)
    solids = job.elements[j][0]
    dry, wet = job.curve1[-1][1] * solids // VOID_UNIT - 1, job.curve1[0][1] * solids // VOID_UNIT + 1
    job.elements[j] = (solids, chance.pick([min(wet, WATER[1]), max(dry, 0), 0]))
    return job_bytes(job)


def damage_anywhere(chance: Chance, job: Job) -> bytes:
    """Any cause or none: one bit anywhere, or the top bit of a field."""
    data = job_bytes(job)
    if chance.one_in(2):
        offset = chance.between(0, len(data) - 1)
        return changed(data, offset, bytes([data[offset] ^ 1 << chance.between(0, 7)]))
    offset = 8 * chance.between(3, len(data) // 8) - 1
    return changed(data, offset, bytes([data[offset] | 128]))


DAMAGES: List[Callable[[Chance, Job], bytes]] = [
    damage_mark, damage_version, damage_header, damage_length, damage_field, damage_first_curve,
    damage_second_curve, damage_table, damage_start, damage_anywhere, damage_anywhere]


# Damage to descriptions: each function gives one that is mostly refused, or has what no job's bytes can hold.

WIDTHS = (2**8, 2**16, 2**32, TOP_BIT)  # beyond the bits that a narrower field keeps


def word_columns(description: Description) -> List[Tuple[int, int, int]]:
    """For every array the place of its first word, its count as far as it has places, and its places."""
    columns, at = [], HEADER_WORDS
    for number, places in enumerate(ARRAY_PLACES):
        columns.append((at, min(description.counts()[number // 2], places), places))
        at += places
    return columns


def wider(chance: Chance, number: int) -> int:
    """A number of which a narrower field would keep just that number."""
    return number % TOP_BIT + chance.pick(WIDTHS)


def damage_count(chance: Chance, job: Job) -> Description:
    """Cause 3, or 5 to 8: a count that is too small, past its array, far past it, or past the places filled."""
    description = job_description(job)
    name = chance.pick(["elements", "curve1_count", "curve2_count", "table_count"])
    count = getattr(description, name)
    counts = [0, 1, 64, 65, 128, 129, 255, 256, 257, count + 1, chance.between(2, 128), chance.scaled(129, U64_MAX)]
    setattr(description, name, chance.pick(counts + [wider(chance, count), U64_MAX, U64_MAX - chance.between(1, 9)]))
    return description


def damage_stated(chance: Chance, job: Job) -> Description:
    """Cause 3: a face, a start or a specific gravity that is none."""
    description = job_description(job)
    name, limits = chance.pick([("top", (0, 1)), ("bottom", (0, 1)), ("start", (0, 1)), ("gravity", GRAVITY)])
    number = chance.pick([wider(chance, getattr(description, name)), outside(chance, limits), outside(chance, limits)])
    setattr(description, name, number)
    return description


def damage_word(chance: Chance, job: Job) -> Description:
    """Any cause or none: a word that counts is made wider, near to 2^64 or 0, or another by a bit or by 1."""
    description = job_description(job)
    words = description.words()
    at, count, _ = chance.pick(word_columns(description) + [(0, HEADER_WORDS, HEADER_WORDS)] * 2)
    place = at + chance.between(0, count - 1)
    word = words[place]
    words[place] = chance.pick([wider(chance, word), U64_MAX - chance.between(0, 9), TOP_BIT, 0, word ^ 1,
                                word ^ 1 << chance.between(0, 63), (word + 1) & U64_MAX, (word - 1) & U64_MAX])
    return description_of(words)


def damage_body(chance: Chance, job: Job) -> Description:
    """Causes 5 to 9, as in the bytes of a job."""
    ways = [damage_field, damage_first_curve, damage_second_curve, damage_table, damage_start]
    return read_description(chance.pick(ways)(chance, job))


DESCRIPTION_DAMAGES: List[Callable[[Chance, Job], Description]] = [
    damage_count, damage_stated, damage_word, damage_word, damage_body, damage_body, damage_body, damage_body]


def with_places_past_counts(chance: Chance, description: Description) -> Description:
    """The same description with numbers in places past its counts: in all, in a few, or in the first of each array."""
    words = description.words()
    kind = chance.pick(["all", "few", "first"])
    for at, count, places in word_columns(description):
        for place in range(at + count, at + (min(count + 1, places) if kind == "first" else places)):
            if kind != "few" or chance.one_in(9):
                words[place] = chance.draw() if kind == "few" else U64_MAX - place
    return description_of(words)


def spoil_record(chance: Chance, record: Record) -> None:
    """Change a record such that it is mostly no layer, with numbers that fit 64 bits signed and unsigned."""
    def big(limits: Pair) -> int:
        low = [limits[0] - 1] if limits[0] > 0 else []
        return chance.pick(low + [limits[1] + 1, I64_MAX, chance.between(limits[1] + 1, I64_MAX)])

    def spoil_count() -> None:
        name = chance.pick(["elements", "curve1_count", "curve2_count", "table_count"])
        setattr(record, name, chance.pick([0, 1, getattr(record, name) + 1, 64, 65, 128, 129, 200, 255]))

    def spoil_face() -> None:
        wrong = chance.pick([1, -1, 490, I64_MIN, I64_MAX, bottom_pressure(record) + chance.pick([-1, 1])])
        setattr(record, chance.pick(["top", "bottom"]), wrong)

    def spoil_level() -> None:
        kind = chance.pick(["top_level", "bottom_level", "closed"])
        if kind == "closed":
            record.bottom, record.bottom_level = None, chance.pick([1, 1_000, record.bottom_level])
        else:
            setattr(record, kind, chance.pick([big(LEVEL), getattr(record, kind) + 1_000]))

    def spoil_outflow() -> None:
        name = chance.pick(["top_outflow", "bottom_outflow"])
        setattr(record, name, chance.pick([I64_MIN, I64_MIN + 1, I64_MAX, -1, 1, getattr(record, name) + 1]))

    def spoil_outflow_in_balance() -> None:
        shift = OUTFLOW_PER_SECOND * record.clock + chance.pick([0, 1])
        record.top_outflow = min(record.top_outflow + shift, I64_MAX)
        record.bottom_outflow = max(record.bottom_outflow - shift, I64_MIN)

    def spoil_outflows_of_one_sign() -> None:
        most = OUTFLOW_PER_SECOND * record.clock
        size = chance.pick([min(most, I64_MAX), -min(most, I64_MAX), I64_MAX, I64_MIN])
        record.top_outflow = record.bottom_outflow = size
        if size == I64_MAX:
            record.starting_water = max(0, sum(record.water_heights()) - 2)  # balances in 64 bits that wrap

    def spoil_starting_water() -> None:
        record.starting_water = chance.pick([record.starting_water + 1, max(0, record.starting_water - 1), I64_MAX,
                                             0, STARTING_WATER[1], STARTING_WATER[1] + 1])

    def spoil_height() -> None:
        j = chance.between(0, max(0, min(record.elements, ELEMENT_PLACES) - 1))
        if chance.one_in(2):
            record.solids[j] = chance.pick([big(SOLIDS), 0, SOLIDS[0], SOLIDS[1]])
        else:
            record.water[j] = chance.pick([big(WATER), 0, record.water[j] + 1])
            record.starting_water = min(I64_MAX, sum(record.water_heights()))

    def spoil_points() -> None:
        name, limits = chance.pick([("curve1", (STRESS, VOID)), ("curve2", (VOID, CONDUCTIVITY)),
                                    ("table", (CLOCK, STRESS))])
        points = getattr(record, name)[:max(1, min(getattr(record, name + "_count"), POINT_PLACES))]
        damage_points(chance, points, limits)
        points = [(min(left, I64_MAX), min(right, I64_MAX)) for left, right in points]
        getattr(record, name)[:len(points)] = points

    def spoil_number() -> None:
        name, limits = chance.pick([("load", STRESS), ("clock", CLOCK), ("gravity", GRAVITY)])
        setattr(record, name, min(big(limits), 65_535) if name == "gravity" else big(limits))

    chance.pick([spoil_count, spoil_face, spoil_level, spoil_outflow, spoil_outflow_in_balance,
                 spoil_outflows_of_one_sign, spoil_starting_water, spoil_height, spoil_points, spoil_number])()
