#!/usr/bin/env python3
"""Makes the lists of calls that the program `scenarios` answers, and the text that it has to write.

    python3 make_scenarios.py            write both anew
    python3 make_scenarios.py --check    make both anew and compare; exit status 1 where a stored file differs
    python3 make_scenarios.py --show FILE NUMBER    one list as statements of `reference.py calls`, with its answers

Every answer and every state is the reference's. What is drawn is drawn by the reference's own generator from a fixed
seed, so the files are the same on every machine.

INPUT   Files of blocks, named in the file `args`. Words are 64 bits, little-endian; signed ones in two's complement.
        file      number of blocks, then the blocks: here lists, in the files of `make_vectors.py` and
                  `make_descriptions.py` vectors, in those of `make_readings.py` records with readings, in those of
                  `make_divisions.py` lists with divisions
        list      kind (0 a job, 1 a record), bytes of the body (at most 8,192), number of calls (at most 32); body;
                  calls
        job       the job's bytes
        record    20 words: elements; points of first curve, second curve, load table; gravity; top, bottom (each 0 0,
                  or 1 and the pressure held, signed); top level, bottom level, load (signed); clock; top outflow,
                  bottom outflow (signed); starting water; places written of elements, first curve, second curve, load
                  table. Then the written places as pairs: solids, water; stress, void; void, conductivity; time, load.
                  The other places are 0.
        call      kind (0 load, 1 step, 2 run) and two words: load, 0; seconds, 0; end, budget

OUTPUT  For each file a line with its name; for each list
        list N                  N from 0
        opened R                the refusal number of a job, 0 if it is accepted; for a record the line `record`
        state LOAD CLOCK TOP_OUTFLOW BOTTOM_OUTFLOW STARTING_WATER W W ...
        load R, step R, run R or run 0 STOP STEPS, each with its state, for every call
        site ELEMENTS POINTS POINTS POINTS GRAVITY TOP BOTTOM TOP_LEVEL BOTTOM_LEVEL    faces as in the input
        solids, stress, void, conductivity_void, conductivity, time, load_at    the rest of the record, a line each
        An array is shown without the zeros at its end, so that places past a count are seen too.
"""

from __future__ import annotations

import argparse
import os
import struct
import sys
from dataclasses import replace
from typing import Callable, Dict, Iterable, Iterator, List, NamedTuple, Optional, Sequence, Tuple

HERE = os.path.dirname(os.path.abspath(__file__))
sys.path.insert(0, HERE)

import damage  # noqa: E402
import lists  # noqa: E402
import makers  # noqa: E402
import rules  # noqa: E402
import steady_lists  # noqa: E402
from chance import I64_MAX, I64_MIN, TOP_BIT, Chance  # noqa: E402
from sample_jobs import FAULTS, mud, not_steady, resting, specimen, widest, with_side  # noqa: E402

LISTS = 2_400   # at least so many lists, beside those of steady layers
RUNS = True     # whether runs are among the calls
SEED = 20_000
CRATE = os.path.join(os.path.dirname(HERE), "crates", "scenarios")

# The files `args` and `stdout` have a share of the lists, then one of the vectors of make_vectors.py, whose files are
# key_*, then one of those of make_descriptions.py, whose files are job_*, then one of the readings of make_readings.py,
# whose files are reading_*, then one of the divisions of make_divisions.py, whose files are division_*.
SHARED = ("args", "stdout")
LISTED, KEYS, JOBS, READ, DIVIDED = SHARES = range(5)
PREFIXES = {"key_": KEYS, "job_": JOBS, "reading_": READ, "division_": DIVIDED}
FIRST_FILES = (b"key_accepted", b"job_written", b"reading_limits", b"division_worked")  # of the shares after the first

JOB, RECORD, KEY, DESCRIPTION, READINGS, DIVIDED_JOB, DIVIDED_RECORD = range(7)
CALL_NUMBERS = {"load": 0, "step": 1, "run": 2}
BODY_BYTES = 8_192
CALLS = 32      # most calls of a list
RECORD_WORDS = 20
U64_MAX = rules.U64_MAX

Call = Tuple[str, int, int]
Pair = Tuple[int, int]


class CallList(NamedTuple):
    """A job or a record, and the calls made on it."""

    kind: int
    body: bytes
    calls: List[Call]


def from_job(job: rules.Job, calls: List[Call]) -> CallList:
    """A list that begins with a job."""
    return CallList(JOB, rules.job_bytes(job), calls)


def from_record(record: rules.Record, calls: List[Call]) -> CallList:
    """A list that begins with a record."""
    body = record_body(record)
    assert body_record(body) == record
    return CallList(RECORD, body, calls)


# ----------------------------------------------------------------------------------------------------------------
# The input's bytes
# ----------------------------------------------------------------------------------------------------------------

def words(numbers: Iterable[int]) -> bytes:
    """Numbers as 64-bit words, negative ones in two's complement."""
    numbers = [number & U64_MAX if number < 0 else number for number in numbers]
    return struct.pack("<%dQ" % len(numbers), *numbers)


def signed(word: int) -> int:
    """The number that a word in two's complement stands for."""
    return word - 2**64 if word >= TOP_BIT else word


def face_numbers(face: Optional[int]) -> List[int]:
    """A face as two numbers."""
    return [0, 0] if face is None else [1, face]


def written_pairs(record: rules.Record) -> List[List[Pair]]:
    """The record's arrays as pairs, without the zeros at their ends."""
    arrays = [list(zip(record.solids, record.water)), record.curve1, record.curve2, record.table]
    return [lists.without_trailing(pairs, (0, 0)) for pairs in arrays]


def record_body(record: rules.Record) -> bytes:
    """The bytes of a record."""
    arrays = written_pairs(record)
    numbers = [record.elements, record.curve1_count, record.curve2_count, record.table_count, record.gravity]
    numbers += face_numbers(record.top) + face_numbers(record.bottom)
    numbers += [record.top_level, record.bottom_level, record.load, record.clock, record.top_outflow,
                record.bottom_outflow, record.starting_water]
    numbers += [len(pairs) for pairs in arrays]
    return words(numbers + [number for pairs in arrays for pair in pairs for number in pair])


def body_record(body: bytes) -> rules.Record:
    """The record that bytes give."""
    numbers = struct.unpack("<%dQ" % (len(body) // 8), body)
    arrays, at = [], RECORD_WORDS
    for count, places in zip(numbers[16:20], (rules.ELEMENT_PLACES,) + (rules.POINT_PLACES,) * 3):
        pairs = list(zip(numbers[at:at + 2 * count:2], numbers[at + 1:at + 2 * count:2]))
        arrays.append(rules.padded(pairs, places, (0, 0)))
        at += 2 * count
    top, bottom = [signed(held) if kind else None for kind, held in (numbers[5:7], numbers[7:9])]
    return rules.Record(
        elements=numbers[0], curve1_count=numbers[1], curve2_count=numbers[2], table_count=numbers[3],
        gravity=numbers[4], top=top, bottom=bottom, top_level=signed(numbers[9]), bottom_level=signed(numbers[10]),
        load=signed(numbers[11]), clock=numbers[12], top_outflow=signed(numbers[13]),
        bottom_outflow=signed(numbers[14]), starting_water=numbers[15],
        solids=[pair[0] for pair in arrays[0]], water=[pair[1] for pair in arrays[0]],
        curve1=arrays[1], curve2=arrays[2], table=arrays[3])


def list_bytes(item: CallList) -> bytes:
    """The bytes of a list."""
    calls = [number for name, a, b in item.calls for number in (CALL_NUMBERS[name], a, b)]
    return words([item.kind, len(item.body), len(item.calls)]) + item.body + words(calls)


def file_bytes(items: Sequence[CallList]) -> bytes:
    """The bytes of a file of lists."""
    return words([len(items)]) + b"".join(list_bytes(item) for item in items)


# ----------------------------------------------------------------------------------------------------------------
# The output's text
# ----------------------------------------------------------------------------------------------------------------

def row(name: str, numbers: Iterable[int]) -> str:
    """A line of a name and numbers."""
    return " ".join([name] + [str(number) for number in numbers])


def site_lines(record: rules.Record) -> List[str]:
    """What no call changes."""
    lines = [row("site", [record.elements, record.curve1_count, record.curve2_count, record.table_count, record.gravity]
                 + face_numbers(record.top) + face_numbers(record.bottom) + [record.top_level, record.bottom_level])]
    columns = [("solids", record.solids)]
    for names, pairs in ((("stress", "void"), record.curve1), (("conductivity_void", "conductivity"), record.curve2),
                         (("time", "load_at"), record.table)):
        columns += [(name, [pair[side] for pair in pairs]) for side, name in enumerate(names)]
    return lines + [row(name, lists.without_trailing(column, 0)) for name, column in columns]


def note(counts: Dict[int, int], number: int) -> None:
    """Count an answer."""
    counts[number] = counts.get(number, 0) + 1


class Answers:
    """The reference's answers to lists, and which refusals and stops were among them."""

    def __init__(self) -> None:
        self.lists = 0
        self.calls = 0
        self.refusals: Dict[int, int] = {}
        self.stops: Dict[int, int] = {}

    def opened(self, item: CallList) -> Tuple[str, rules.Record]:
        """The line of an opening, and the record that it gives."""
        if item.kind == RECORD:
            return "record", body_record(item.body)
        refusal, record = rules.open_job(item.body)
        note(self.refusals, refusal)
        return "opened %d" % refusal, record

    def called(self, record: rules.Record, call: Call) -> str:
        """The line of a call, made on the record."""
        name, a, b = call
        line = lists.answer_call(record, name, [a, b] if name == "run" else [a])
        numbers = [int(word) for word in line.split(" ")[1:]]
        note(self.refusals, numbers[0])
        if len(numbers) == 3:
            note(self.stops, numbers[1])
        self.calls += 1
        return line

    def lines(self, number: int, item: CallList) -> List[str]:
        """The lines of a list."""
        self.lists += 1
        line, record = self.opened(item)
        lines = ["list %d" % number, line, lists.state_line(record)]
        for call in item.calls:
            lines += [self.called(record, call), lists.state_line(record)]
        return lines + site_lines(record)

    def summary(self) -> str:
        """How many of each answer."""
        def counts(numbers: Dict[int, int]) -> str:
            return ", ".join("%d: %d" % pair for pair in sorted(numbers.items()))
        return "%d lists, %d calls; refusals %s; stops %s" % (
            self.lists, self.calls, counts(self.refusals), counts(self.stops))


# ----------------------------------------------------------------------------------------------------------------
# Jobs
# ----------------------------------------------------------------------------------------------------------------

def above(limits: Pair) -> List[int]:
    """Numbers above a range."""
    return [limits[1] + 1, TOP_BIT, U64_MAX]


def outside(limits: Pair) -> List[int]:
    """Numbers outside a range."""
    return ([0, limits[0] - 1] if limits[0] > 1 else [0] if limits[0] else []) + above(limits)


# ---- each cause of a refused opening, in several ways

def unmarked(job: rules.Job) -> Iterator[bytes]:
    """Cause 1."""
    data = rules.job_bytes(job)
    for length in (0, 1, 2, 3, 4, 8, 16, 47):
        yield data[:length]
    for mark in (b"LSR", b"lSC", b"MSC", b"LTC", b"LSD", b"LS\0", b"\0SC", b"CSL"):
        yield mark + data[3:]


def other_versions(job: rules.Job) -> Iterator[bytes]:
    """Cause 2."""
    for version in (0, 2, 3, 255, 256, 257, 65_535):
        yield rules.job_bytes(replace(job, version=version))


def headers_outside(job: rules.Job) -> Iterator[bytes]:
    """Cause 3, with the length that the counts ask for, and without; among them start 2, which note 3 took from it."""
    for changes in ({"top": 2}, {"top": 255}, {"bottom": 2}, {"bottom": 255}, {"start": 2}, {"start": 255},
                    {"gravity": 0}, {"gravity": 999}, {"gravity": 5_001}, {"gravity": 65_535},
                    {"spare": b"\1\0"}, {"spare": b"\0\1"}, {"spare": b"\x80\x80"},
                    {"elements": []}, {"elements": job.elements[:1] * 129}, {"elements": job.elements[:1] * 255},
                    {"curve1": []}, {"curve1": job.curve1[:1]}, {"curve1": job.curve1[:1] * 65},
                    {"curve2": []}, {"curve2": job.curve2[:1]}, {"curve2": job.curve2[:1] * 65},
                    {"table": []}, {"table": job.table[:1] * 65}, {"table": job.table[:1] * 255}):
        yield rules.job_bytes(replace(job, **changes))
    data = rules.job_bytes(job)
    for offset, values in ((7, (0, 129, 255)), (8, (0, 1, 65)), (9, (0, 1, 65)), (10, (0, 65, 255))):
        for value in values:
            yield damage.changed(data, offset, bytes([value]))


def wrong_lengths(job: rules.Job) -> Iterator[bytes]:
    """Cause 4."""
    data = rules.job_bytes(job)
    for length in (48, len(data) - 16, len(data) - 8, len(data) - 1):
        yield data[:length]
    for more in (1, 8, 16, BODY_BYTES - len(data)):
        yield data + bytes(more)
    for offset in (7, 8, 9, 10):
        yield damage.changed(data, offset, bytes([data[offset] + 1]))


def fields_outside(job: rules.Job) -> Iterator[bytes]:
    """Cause 5."""
    jobs = [replace(job, **{name: number}) for name, limits in (
        ("top_level", rules.LEVEL), ("bottom_level", rules.LEVEL), ("end", rules.CLOCK), ("budget", rules.BUDGET))
            for number in above(limits)]
    for place in (0, len(job.elements) - 1):
        jobs += [with_side(job, "elements", place, 0, number) for number in outside(rules.SOLIDS)]
        jobs += [with_side(job, "elements", place, 1, number) for number in above(rules.WATER)]
        jobs += [with_side(resting(job), "elements", place, 1, number) for number in (1, 1_000_000_000, U64_MAX)]
    jobs += [replace(job, bottom=0, bottom_level=number) for number in (1, 200_000_000_000)]
    yield from map(rules.job_bytes, jobs)


def unsound_points(job: rules.Job, name: str, limits: Tuple[Pair, Pair], order: Tuple[int, int]) -> Iterator[rules.Job]:
    """Points outside limits, and neighbours in the wrong order (1 must rise, -1 must fall, 0 may stay)."""
    points = getattr(job, name)
    for place in (0, len(points) - 1):
        for side in (0, 1):
            for number in outside(limits[side]):
                yield with_side(job, name, place, side, number)
    for place in range(1, len(points)):
        for side in (0, 1):
            before = points[place - 1][side]
            if order[side] != 0:
                yield with_side(job, name, place, side, before)
            beyond = before - order[side] if order[side] != 0 else before - 1
            if beyond >= limits[side][0]:
                yield with_side(job, name, place, side, beyond)


def first_curves(job: rules.Job) -> Iterator[bytes]:
    """Cause 6."""
    yield from map(rules.job_bytes, unsound_points(job, "curve1", (rules.STRESS, rules.VOID), (1, -1)))


def second_curves(job: rules.Job) -> Iterator[bytes]:
    """Cause 7."""
    yield from map(rules.job_bytes, unsound_points(job, "curve2", (rules.VOID, rules.CONDUCTIVITY), (1, 0)))
    yield rules.job_bytes(with_side(job, "curve2", 0, 0, job.curve1[-1][1] + 1))
    yield rules.job_bytes(with_side(job, "curve2", -1, 0, job.curve1[0][1] - 1))


def load_tables(job: rules.Job) -> Iterator[bytes]:
    """Cause 8."""
    for number in (1, 3_000_000_000):
        yield rules.job_bytes(with_side(job, "table", 0, 0, number))
    for number in above(rules.STRESS):
        yield rules.job_bytes(with_side(job, "table", 0, 1, number))
    last = job.table[-1]
    for pair in ((last[0], 1), (0, 1), (3_000_000_001, 1), (U64_MAX, 1), (last[0] + 1, 2_000_000_001)):
        yield rules.job_bytes(replace(job, table=job.table + [pair]))
    yield rules.job_bytes(replace(job, table=job.table + [(last[0] + 2, 0), (last[0] + 1, 0)]))


def starts_off_curve(job: rules.Job) -> Iterator[bytes]:
    """Cause 9: water just off either end; in start 1 a load just past either end, or E that jumps over the curve."""
    for place, (solids, _) in enumerate(job.elements):
        wettest = ((job.curve1[0][1] + 1) * solids - 1) // rules.VOID_UNIT
        driest = rules.ceil_div(job.curve1[-1][1] * solids, rules.VOID_UNIT)
        for water in (0, driest - 1, wettest + 1, 1_000_000_000):
            yield rules.job_bytes(with_side(job, "elements", place, 1, water))
    burden = max(rules.buoyant_stresses([solids for solids, _ in job.elements], job.gravity))
    least = min(rules.buoyant_stresses([solids for solids, _ in job.elements], job.gravity))
    for load in (0, job.curve1[0][0] - least - 1, job.curve1[-1][0] - burden + 1, job.curve1[-1][0], 2_000_000_000):
        if load + burden > job.curve1[-1][0] or load + least < job.curve1[0][0]:
            yield rules.job_bytes(resting(job, table=[(0, load)]))
    thin = [(100_000, 0)]
    for curve in ([(0, 1_999), (1_000, 1_001)], [(500, 2_000), (1_000, 1_001)], [(0, 999), (1_000, 1)]):
        yield rules.job_bytes(resting(job, gravity=1_000, elements=thin, curve1=curve,
                                      curve2=[(1, 1), (1_000_000_000, 1)], table=[(0, 499)]))


def made_cause(cause: int, data: bytes) -> int:
    """The cause of a job of `CAUSES`: among the headers is start 2, whose layers are not steady."""
    return rules.NOT_STEADY if cause == rules.BAD_HEADER and data[11] == rules.STEADY else cause


CAUSES: Dict[int, Callable[[rules.Job], Iterator[bytes]]] = {
    1: unmarked, 2: other_versions, 3: headers_outside, 4: wrong_lengths, 5: fields_outside, 6: first_curves,
    7: second_curves, 8: load_tables, 9: starts_off_curve}

def two_causes(job: rules.Job) -> Iterator[Tuple[int, bytes]]:
    """Jobs with two causes at once, and the one that is tested first."""
    for first, firsts in FAULTS.items():
        for second, seconds in FAULTS.items():
            if first < second:
                for number, spoil in enumerate(firsts):
                    spoiled = seconds[number % len(seconds)](spoil(job))
                    cause = second if spoil is not_steady else first
                    yield cause, rules.job_bytes(spoiled) + bytes(8 if 4 in (first, second) else 0)


def level_cause(job: rules.Job) -> int:
    """9 for a job in start 1 whose bottom is drained at another level than the top's, else 0."""
    return 9 if (job.start, job.bottom) == (1, 1) and job.bottom_level != job.top_level else 0


def accepted_edges() -> Iterator[rules.Job]:
    """Jobs at the limits that are still accepted, and mud in start 1, which is not for its levels."""
    yield from (specimen(), mud(), widest(), resting(specimen()), resting(mud()))
    for changes in ({"top_level": 0}, {"top_level": 200_000_000_000}, {"end": 0}, {"end": 3_000_000_000},
                    {"budget": 0}, {"budget": 1_000_000}, {"gravity": 5_000}, {"top": 0},
                    {"bottom": 1}, {"bottom": 1, "bottom_level": 200_000_000_000},
                    {"bottom": 1, "bottom_level": 10_000_101}, {"bottom": 1, "bottom_level": 9_999_899},
                    {"top": 0, "bottom": 1, "top_level": 200_000_000_000}):
        yield specimen(**changes)
    for solids in (100_000, 100_000_000):
        yield specimen(elements=[(solids, solids)] * 3)
        yield specimen(elements=[(solids, 2 * solids)] * 3)
    yield specimen(elements=[(1_000_000, 2_000_000)])
    yield specimen(elements=[(100_000_000, 200_000_000)] * 128)
    yield specimen(elements=[(1_000_003, 2_000_006), (1_000_003, 1_000_003), (999_999, 999_999)])
    for load in (5_000_000, 5_000_001, 104_999_999, 105_000_000):
        yield resting(specimen(), table=[(0, load)])
    for table in ([(0, 0)], [(0, 2_000_000_000)], [(0, 5), (1, 4)], [(0, 1), (3_000_000_000, 2_000_000_000)]):
        yield specimen(table=table)
    for curve in ([(100_000_000, 1), (200_000_000, 1)], [(1, 1), (1_000_000_000, 1_000_000_000)],
                  [(99_999_999, 7), (150_000_000, 7), (200_000_001, 8)]):
        yield specimen(curve2=curve)
    whole = [(1, 1), (1_000_000_000, 1_000_000_000)]
    yield specimen(curve1=[(0, 1_000_000_000), (2_000_000_000, 1)], curve2=whole)
    yield resting(specimen(), curve1=[(0, 1_000_000_000), (2_000_000_000, 1)], curve2=whole, table=[(0, 0)])
    yield resting(specimen(), curve1=[(0, 1_000_000_000), (2_000_000_000, 1)], curve2=whole, table=[(0, 2_000_000_000)])
    for curve in ([(0, 2_000), (1_000, 1_001)], [(0, 1_000), (1_000, 1)], [(0, 2_999), (1, 2_998), (1_000, 1_001)]):
        yield resting(specimen(), elements=[(100_000, 0), (100_001, 0)], curve1=curve, curve2=whole, table=[(0, 600)])


def openings() -> Iterator[CallList]:
    """Openings accepted at the limits, refused for each cause, and refused with two causes."""
    calls = [("load", 1_000_000, 0), ("step", 1, 0)]

    def opening(data: bytes, refusal: int) -> CallList:
        assert rules.open_job(data)[0] == refusal, (refusal, data[:48].hex())
        return CallList(JOB, data, calls)

    for job in accepted_edges():
        yield opening(rules.job_bytes(job), level_cause(job))
    for cause, ways in CAUSES.items():
        for job in (specimen(), mud()):
            for data in ways(job):
                yield opening(data, made_cause(cause, data))
    for job in (specimen(), mud()):
        for cause, data in two_causes(job):
            yield opening(data, cause)


# ----------------------------------------------------------------------------------------------------------------
# Records
# ----------------------------------------------------------------------------------------------------------------

def opened(job: rules.Job) -> rules.Record:
    """The record of an accepted job, or of one that start 1 alone would refuse for its levels."""
    refusal, record = makers.open_at_any_level(rules.job_bytes(job))
    assert refusal == 0, refusal
    return record


def stepped(job: rules.Job, *steps: int) -> rules.Record:
    """The record of a job after steps."""
    record = opened(job)
    for seconds in steps:
        assert rules.step_call(record, seconds) == 0
    return record


def with_place(record: rules.Record, name: str, place: int, value) -> rules.Record:
    """A record with one place of an array replaced."""
    array = list(getattr(record, name))
    array[place] = value
    return replace(record.copy(), **{name: array})


def balanced(record: rules.Record) -> rules.Record:
    """A record with the starting water that its water and outflows add up to."""
    return replace(record, starting_water=sum(record.water_heights()) + record.top_outflow + record.bottom_outflow)


def past_counts(record: rules.Record) -> rules.Record:
    """A record with numbers in every place past a count."""
    filled = record.copy()
    for place in range(record.elements, rules.ELEMENT_PLACES):
        filled.solids[place], filled.water[place] = U64_MAX - place, TOP_BIT + place
    for name in lists.RECORD_POINTS:
        points = getattr(filled, name)
        for place in range(getattr(filled, name + "_count"), rules.POINT_PLACES):
            points[place] = (place, U64_MAX - place)
    return filled


# When a record is a layer, clause by clause.
CLAUSES: Dict[str, Callable[[rules.Record], bool]] = {
    "elements": lambda r: rules.within(r.elements, rules.ELEMENTS),
    "first count": lambda r: rules.within(r.curve1_count, rules.CURVE_POINTS),
    "second count": lambda r: rules.within(r.curve2_count, rules.CURVE_POINTS),
    "table count": lambda r: rules.within(r.table_count, rules.TABLE_POINTS),
    "gravity": lambda r: rules.within(r.gravity, rules.GRAVITY),
    "top level": lambda r: rules.within(r.top_level, rules.LEVEL),
    "bottom level": lambda r: rules.within(r.bottom_level, rules.LEVEL),
    "closed bottom": lambda r: r.bottom is not None or r.bottom_level == 0,
    "solids": lambda r: all(rules.within(solids, rules.SOLIDS) for solids in r.solid_heights()),
    "first curve": lambda r: rules.is_compressibility(r.first_points()),
    "second curve": lambda r: rules.is_permeability(r.second_points(), r.first_points()),
    "load table": lambda r: rules.is_load_table(r.table_points()),
    "top pressure": lambda r: r.top in (None, 0),
    "bottom pressure": lambda r: r.bottom in (None, rules.bottom_pressure(r)),
    "on the curve": lambda r: all(
        rules.Compressibility(r.first_points()).holds(rules.void_ratio(solids, water))
        for solids, water in zip(r.solid_heights(), r.water_heights())),
    "load": lambda r: rules.within(r.load, rules.STRESS),
    "clock": lambda r: rules.within(r.clock, rules.CLOCK),
    "starting water": lambda r: rules.within(r.starting_water, rules.STARTING_WATER),
    "balance": rules.water_balances,
    "top outflow": lambda r: abs(r.top_outflow) <= rules.OUTFLOW_PER_SECOND * r.clock,
    "bottom outflow": lambda r: abs(r.bottom_outflow) <= rules.OUTFLOW_PER_SECOND * r.clock}


def counts_outside() -> Iterator[rules.Record]:
    """Counts past their arrays, too great and too small."""
    small, great = opened(specimen()), opened(widest())
    for count in (0, 3, 128, 129, 200, TOP_BIT, U64_MAX):
        yield replace(small, elements=count)
    for count in (129, 200, TOP_BIT, U64_MAX):
        yield replace(great, elements=count)
    for name in ("curve1_count", "curve2_count", "table_count"):
        for count in (0, 1, 3, 64, 65, TOP_BIT, U64_MAX):
            if not (name == "table_count" and count == 1):
                yield replace(small, **{name: count})
        for count in (65, U64_MAX):
            yield replace(great, **{name: count})
    for gravity in (0, 999, 5_001, U64_MAX):
        yield replace(small, gravity=gravity)
    yield replace(small, elements=0, solids=[0] * 128, water=[0] * 128, starting_water=0)


def levels_outside() -> Iterator[rules.Record]:
    """Levels outside limits, with and without the pressure that they give; a closed bottom with a level."""
    closed, drained = stepped(specimen(), 100), stepped(mud(), 1)
    for level in (-1, 200_000_000_001, I64_MIN, I64_MAX):
        yield replace(closed, top_level=level)
        yield replace(drained, bottom_level=level)
        yield replace(drained, bottom_level=level, bottom=rules.head_pressure(level - 10_000_000)
                      if abs(level) < I64_MAX // 981 else I64_MAX)
    for level in (1, 12_000_000, -1):
        yield replace(closed, bottom_level=level)


def solids_outside() -> Iterator[rules.Record]:
    """Solids outside limits, with water that keeps the void ratio on the curve, and solids that put it off."""
    record = stepped(mud(), 1)
    for place in (0, 2):
        for solids in (0, 1, 99_999, 100_000_001, TOP_BIT, U64_MAX):
            changed = with_place(record, "solids", place, solids)
            yield changed
            if solids <= 100_000_001:
                yield balanced(with_place(changed, "water", place, 2 * solids))


def points_unsound() -> Iterator[rules.Record]:
    """Curves and load tables that are refused at opening, in a record."""
    for job in (specimen(), mud()):
        base = stepped(job, 1)
        spoiled = list(unsound_points(job, "curve1", (rules.STRESS, rules.VOID), (1, -1)))
        spoiled += list(unsound_points(job, "curve2", (rules.VOID, rules.CONDUCTIVITY), (1, 0)))
        spoiled += list(unsound_points(job, "table", (rules.CLOCK, rules.STRESS), (1, 0)))
        spoiled += [with_side(job, "curve2", 0, 0, job.curve1[-1][1] + 1),
                    with_side(job, "curve2", -1, 0, job.curve1[0][1] - 1), with_side(job, "table", 0, 0, 1)]
        for changed in spoiled:
            record = base.copy()
            for name in lists.RECORD_POINTS:
                getattr(record, name)[:len(getattr(changed, name))] = getattr(changed, name)
            if not rules.is_layer(record):
                yield record


def pressures_wrong() -> Iterator[rules.Record]:
    """Faces that hold another pressure than theirs."""
    closed, drained = stepped(specimen(), 100), stepped(mud(), 1)
    for pressure in (1, -1, I64_MIN, I64_MAX, 19_620):
        yield replace(closed, top=pressure)
        yield replace(drained, top=pressure)
    for pressure in (0, 19_619, 19_621, -19_620, I64_MIN, I64_MAX):
        yield replace(drained, bottom=pressure)
    yield replace(closed, bottom=1)
    yield replace(drained, bottom_level=12_000_102)


def waters_outside() -> Iterator[rules.Record]:
    """Water off the curve or out of its limits, balanced and not."""
    record = stepped(mud(), 1)
    for place, solids in ((0, 1_000_000), (1, 2_000_000), (2, 500_000)):
        for water in (0, solids * 9 // 10 - 1, solids * 3 + 1, 1_000_000_001, TOP_BIT, U64_MAX):
            changed = with_place(record, "water", place, water)
            yield changed
            if water <= 1_000_000_001:
                yield balanced(changed)
    yield with_place(record, "water", 1, record.water[1] + 1)


def numbers_outside() -> Iterator[rules.Record]:
    """Load, clock and starting water."""
    record, late = stepped(mud(), 1), replace(stepped(mud(), 1), clock=3_000_000_000)
    for load in (-1, 2_000_000_001, I64_MIN, I64_MAX):
        yield replace(record, load=load)
    for clock in (3_000_000_001, TOP_BIT, U64_MAX, 0):
        yield replace(record, clock=clock)
    for water in (0, record.starting_water - 1, record.starting_water + 1, 128_000_000_001, TOP_BIT, U64_MAX):
        yield replace(record, starting_water=water)
    water = sum(late.water_heights())
    yield replace(late, starting_water=128_000_000_001, top_outflow=128_000_000_001 - water, bottom_outflow=0)
    yield replace(late, starting_water=128_000_000_001, top_outflow=0, bottom_outflow=128_000_000_001 - water)


def outflows_outside() -> Iterator[rules.Record]:
    """Outflows past their bound in balance, and at the ends of 64 bits, where a sum that wraps would balance."""
    for clock in (0, 1, 1_000, 3_000_000_000):
        record = balanced(replace(opened(mud()), clock=clock))
        most = rules.OUTFLOW_PER_SECOND * clock
        for top, bottom in ((most + 1, -most), (-most, most + 1), (-most - 1, most), (most, -most - 1),
                            (most + 1, -most - 1), (-most - 1, most + 1), (I64_MAX, -most), (most, I64_MIN)):
            changed = replace(record, top_outflow=top, bottom_outflow=bottom)
            yield changed
            total = record.starting_water + top + bottom
            if 0 <= total <= U64_MAX:
                yield replace(changed, starting_water=total)
        for top, bottom in ((I64_MIN, I64_MIN), (I64_MAX, I64_MAX), (I64_MAX, I64_MIN), (I64_MIN, I64_MAX),
                            (most, most), (-most, -most)):
            wrapped = (record.starting_water + top + bottom) & U64_MAX
            changed = replace(record, top_outflow=top, bottom_outflow=bottom, starting_water=wrapped)
            if not rules.is_layer(changed):
                yield changed


def no_layers() -> Iterator[rules.Record]:
    """Records that are no layer; for each clause one at least that breaks it alone."""
    broken = set()
    for record in [rules.Record()] + [record for make in (
            counts_outside, levels_outside, solids_outside, points_unsound, pressures_wrong, waters_outside,
            numbers_outside, outflows_outside) for record in make()]:
        assert not rules.is_layer(record)
        clauses = [name for name, holds in CLAUSES.items() if not clause_holds(holds, record)]
        assert clauses
        if len(clauses) == 1:
            broken.add(clauses[0])
        yield record
    assert broken == set(CLAUSES), sorted(set(CLAUSES) - broken)


def clause_holds(holds: Callable[[rules.Record], bool], record: rules.Record) -> bool:
    """Whether a clause holds; one that cannot be worked does not."""
    try:
        return holds(record)
    except (IndexError, ZeroDivisionError):
        return False


def odd_layers() -> Iterator[rules.Record]:
    """Records that are layers at the limits, or that no opening gives."""
    base, rich, great = stepped(specimen(), 100), stepped(mud(), 1), opened(widest())
    yield from (base, rich, great)
    yield from (past_counts(base), past_counts(rich), past_counts(opened(specimen(elements=[(1_000_000, 2_000_000)]))))
    yield from (replace(base, load=0), replace(base, load=2_000_000_000), replace(rich, clock=3_000_000_000))
    yield from (replace(rich, top=None), replace(rich, bottom=None, bottom_level=0), replace(base, gravity=5_000))
    yield replace(base, top_level=0, bottom=0)
    for clock in (1, 1_000, 3_000_000_000):
        most = rules.OUTFLOW_PER_SECOND * clock
        for top, bottom in ((most, -most), (-most, most)):
            yield replace(opened(mud()), clock=clock, top_outflow=top, bottom_outflow=bottom)
    late = replace(opened(mud()), clock=3_000_000_000 - 1)
    water = sum(late.water_heights())
    yield replace(late, starting_water=128_000_000_000, top_outflow=128_000_000_000 - water)
    yield replace(late, starting_water=0, bottom_outflow=-water)
    full = opened(widest(elements=[(100_000_000, 1_000_000_000)] * 128))
    assert full.starting_water == 128_000_000_000
    yield full
    for record in (base, rich):
        for clock in (2_999_999_999, 2_999_999_900, 2_999_000_000):
            yield replace(record, clock=clock)


def records(runs: bool) -> Iterator[CallList]:
    """Lists from records: no layers, on which every call answers 11, and layers that no opening gives."""
    for record in no_layers():
        calls: List[Call] = [("load", 1_000_000, 0), ("step", 1, 0), ("load", U64_MAX, 0), ("step", 0, 0)]
        if record.elements > 8:
            calls = calls[:2]
        if runs:
            calls += [("run", 3_000_000_000, 5), ("run", 0, U64_MAX)]
        yield from_record(record, calls)
    for record in odd_layers():
        assert rules.is_layer(record)
        calls = [("step", 0, 0), ("load", 2_000_000_001, 0)] + bounded_steps(record)
        calls += [("load", 0, 0), ("step", 1, 0), ("load", 2_000_000_000, 0), ("step", 1, 0)]
        if runs:
            calls += [("run", 3_000_000_000, 3), ("run", 3_000_000_000, 1)]
        yield from_record(record, calls)


# ----------------------------------------------------------------------------------------------------------------
# Calls on opened jobs
# ----------------------------------------------------------------------------------------------------------------

def bounded_steps(record: rules.Record) -> List[Call]:
    """Steps one past the longest, at the longest, and at and past the limits of step and clock."""
    longest = makers.possible_step(record)
    left = 3_000_000_000 - record.clock
    seconds = [longest + 1, 1_000_001, left + 1, longest, left, left - longest, 1_000_000, U64_MAX]
    return [("step", number, 0) for number in seconds if number >= 0]


def steps(*seconds: int) -> List[Call]:
    """Calls of steps."""
    return [("step", number, 0) for number in seconds]


def run(end: int, budget: int) -> Call:
    """A call of a run."""
    return ("run", end, budget)


def worked_lists() -> Iterator[CallList]:
    """The paper's cases, and lists made by hand."""
    yield from_job(specimen(), [])
    yield from_job(specimen(), steps(100, 100))
    yield from_job(specimen(), steps(368, 367))
    yield from_job(specimen(), [("load", 300_000_000, 0)] + steps(0, 1_000_001, 368, 367, 1))
    for load in (15_000_000, 105_000_000, 105_000_001, 4_999_999):
        yield from_job(resting(specimen(), table=[(0, load)]), steps(1))
    # no water moves in equilibrium; then it swells back under less load
    yield from_job(resting(specimen()), steps(367, 367) + [("load", 5_000_000, 0)] + steps(*[300] * 12))
    # steps that cut every flow to 0, and flows of a nanometre either way
    for load in (5_000_001, 5_000_500, 4_999_999, 4_999_500):
        yield from_job(specimen(), [("load", load, 0)] + steps(*[1, 10, 100, 300]))
    # one element: no inner face; closed on both sides it has none at all
    for top, bottom in ((0, 0), (0, 1), (1, 0), (1, 1)):
        for count in (1, 2):
            job = specimen(top=top, bottom=bottom, bottom_level=bottom * 9_000_000,
                           elements=[(1_000_000, 1_900_000)] * count)
            yield from_job(job, bounded_steps(opened(job)) + steps(1, 2, 3))
    # artesian, falling and rising heads that push water in and draw it out
    for level in (0, 9_999_898, 10_000_102, 110_000_000, 200_000_000_000):
        yield from_job(specimen(bottom=1, bottom_level=level), steps(*[200] * 6))
        yield from_job(mud(bottom_level=level), steps(*[makers.possible_step(opened(mud()))] * 6))
    # loads up and down with steps between
    loads = (40_000_000, 3_000_000, 80_000_000, 1_000_000, 15_000_000)
    for job in (specimen(), mud(), resting(mud())):
        longest = makers.possible_step(opened(job))
        cycle = steps(longest, longest + 1, longest)
        yield from_job(job, [call for load in loads for call in [("load", load, 0)] + cycle])
    for count in (127, 128):
        job = specimen(elements=[(1_000_000 + 7 * j, 1_990_000) for j in range(count)], gravity=2_650, bottom=1)
        yield from_job(job, bounded_steps(opened(job)) + steps(50, 60, 70))


def run_lists() -> Iterator[CallList]:
    """Runs made by hand: every stop, budgets and ends at their limits, and refusals 16."""
    fast, last = [(1, 1_000_000_000), (1_000_000_000, 1_000_000_000)], rules.CLOCK[1]
    for job, calls in (
            (specimen(), [run(0, 0), run(1, 0), run(367, 1), run(369, 1), run(369, 0), run(369, 1_000_000)]),
            (specimen(curve2=fast), [run(9, 9), run(9, 0), run(0, 9)]),
            (specimen(table=[(0, 300_000_000)]), [("load", 15_000_000, 0), run(999, 9), run(999, 0)]),
            (specimen(curve2=fast, table=[(0, 1_900_000_000)]), [("load", 15_000_000, 0), run(999, 9)]),
            (specimen(table=[(0, 15_000_000), (3, 15_000_005), (10, 15_000_000)]), [run(2_000, 1)] * 5),
            (specimen(top=0, elements=[(1_000_000, 2_000_000)]),
             steps(1_000_000) + [run(last, 1_000_000), run(last, 0), run(last, 1)] + steps(1)),
            (specimen(), [run(3_000_000_001, 1), run(U64_MAX, 1), run(100, 1_000_001), run(100, U64_MAX), run(100, 5),
                          run(99, 5), run(0, 0), run(100, 5)]),
            (mud(), [run(9_000, 40)] * 4), (resting(mud()), [run(9_000, 40)] * 4),
            (mud(), [run(1_000, 1_000), run(5_000, 1_000), run(9_000, 1_000)]),
            (mud(), [run(1_000, 1_000), ("load", 0, 0), run(1_000, 5), run(1_001, 5)]),
            (specimen(elements=[(1_000_000, 1_990_000)] * 128), [run(4_000, 20)]),
            (widest(), [run(last, 20)]),
            (million(), [run(last, 1_000_000)])):
        yield from_job(job, calls)


def million() -> rules.Job:
    """One element whose run takes a million steps and does not come to the end."""
    return specimen(elements=[(1_000_000, 2_000_000)], table=[(0, 15_000_000), (3_000_000_000, 100_000_000)],
                    curve2=[(100_000_000, 10_000), (200_000_000, 40_000)])


# ---- drawn lists

def drawn_calls(chance: Chance, record: rules.Record, count: int, runs: bool) -> List[Call]:
    """Calls, each drawn for the record as the one before leaves it; the record moves with them."""
    calls: List[Call] = []
    while len(calls) < count:
        name, numbers = makers.make_call(chance, record)
        if name == "run" and not runs:
            continue
        numbers = [min(number, U64_MAX) for number in numbers]
        lists.answer_call(record, name, numbers)
        calls.append((name, numbers[0], numbers[1] if name == "run" else 0))
    return calls


def drawn_job(chance: Chance, damaged_one_in: int) -> bytes:
    """A job, mostly a small one."""
    room = BODY_BYTES if chance.one_in(25) else 480
    while True:
        job = makers.made_job(chance, damaged_one_in)
        if len(job) <= room:
            return job


def drawn_list(chance: Chance, runs: bool) -> CallList:
    """A list from a job."""
    job = drawn_job(chance, 10)
    return CallList(JOB, job, drawn_calls(chance, makers.open_at_any_level(job)[1], chance.between(1, 10), runs))


def drawn_record(chance: Chance, runs: bool) -> CallList:
    """A list from a record, which is a layer or no layer."""
    refusal, record = makers.open_at_any_level(drawn_job(chance, 30))
    if refusal == 0:
        if chance.one_in(2):
            makers.age_record(chance, record)
        if chance.one_in(6):
            makers.fill_past_counts(chance, record)
        if chance.one_in(3):
            damage.spoil_record(chance, record)
    return from_record(record, drawn_calls(chance, record.copy(), chance.between(1, 8), runs))


# ----------------------------------------------------------------------------------------------------------------
# The files
# ----------------------------------------------------------------------------------------------------------------

def all_lists(least: int, runs: bool) -> Dict[str, List[CallList]]:
    """The lists of every file, in the order of the files; drawn ones make up the number."""
    files = {"openings": list(openings()), "records": list(records(runs)), "worked": list(worked_lists())}
    if runs:
        files["runs"] = list(run_lists())
    left = max(0, least - sum(len(items) for items in files.values()))
    chances = [Chance(SEED, index) for index in range(left)]
    files["drawn_jobs"] = [drawn_list(chance, runs) for chance in chances[:left * 2 // 3]]
    files["drawn_records"] = [drawn_record(chance, runs) for chance in chances[left * 2 // 3:]]
    files["steady_lists"] = [from_job(job, [call for call in calls if runs or call[0] != "run"])
                             for job, calls in steady_lists.made_lists()]
    return files


def made_files(least: int, runs: bool) -> Tuple[Dict[str, bytes], Answers]:
    """The crate's files, by their paths in it, and what is among their answers."""
    made, lines, answers = {}, [], Answers()
    for name, items in all_lists(least, runs).items():
        made[os.path.join("data", name)] = file_bytes(items)
        lines.append(name)
        for number, item in enumerate(items):
            assert len(item.body) <= BODY_BYTES and len(item.calls) <= CALLS
            lines += answers.lines(number, item)
    made["args"] = "".join(name[5:] + "\n" for name in made).encode("ascii")
    made["stdout"] = ("\n".join(lines) + "\n").encode("ascii")
    wanted = set(range(10)) | {rules.NOT_STEADY} | set(range(11, 17 if runs else 16))
    assert set(answers.refusals) == wanted and set(answers.stops) == (set(range(4)) if runs else set())
    assert answers.lists >= least
    return made, answers


def shares(stored: bytes) -> List[bytes]:
    """The shares of `args` or `stdout`; those after the first begin with the name of their first file."""
    ends = [len(stored)]
    for first in reversed(FIRST_FILES):
        at = stored.find(first + b"\n")
        ends.insert(0, ends[0] if at < 0 else at)
    return [stored[start:end] for start, end in zip([0] + ends, ends)]


def share_of(name: str) -> int:
    """The share that a file's name belongs to."""
    return next((share for prefix, share in PREFIXES.items() if name.startswith(prefix)), LISTED)


def stored_files(share: int) -> Dict[str, bytes]:
    """The stored files of a share, with their part of `args` and `stdout`."""
    folder = os.path.join(CRATE, "data")
    found = {}
    for name in sorted(os.listdir(folder)) if os.path.isdir(folder) else []:
        if share_of(name) == share:
            with open(os.path.join(folder, name), "rb") as source:
                found[os.path.join("data", name)] = source.read()
    for name in SHARED:
        if os.path.exists(os.path.join(CRATE, name)):
            with open(os.path.join(CRATE, name), "rb") as source:
                found[name] = shares(source.read())[share]
    return found


def difference(stored: bytes, made: bytes) -> str:
    """Where two files differ first."""
    at = next((i for i, (a, b) in enumerate(zip(stored, made)) if a != b), min(len(stored), len(made)))
    return "byte %d, line %d; %d bytes stored, %d made" % (at, stored[:at].count(b"\n") + 1, len(stored), len(made))


def check(made: Dict[str, bytes], share: int = LISTED) -> int:
    """Compare the made files with the stored ones of a share; 1 where they differ."""
    stored = stored_files(share)
    faults = ["%s: should not be there" % name for name in stored if name not in made]
    faults += ["%s: missing" % name for name in made if name not in stored]
    faults += ["%s: differs from %s" % (name, difference(stored[name], data)) for name, data in made.items()
               if name in stored and stored[name] != data]
    for fault in faults:
        print("crates/scenarios/%s" % fault, file=sys.stderr)
    return 1 if faults else 0


def write(made: Dict[str, bytes], share: int = LISTED) -> None:
    """Store the made files of a share in place of the old ones."""
    stored = [stored_files(each) for each in SHARES]
    os.makedirs(os.path.join(CRATE, "data"), exist_ok=True)
    for name in stored[share]:
        os.remove(os.path.join(CRATE, name))
    stored[share] = made
    for name, data in made.items():
        if name in SHARED:
            data = b"".join(files.get(name, b"") for files in stored)
        with open(os.path.join(CRATE, name), "wb") as target:
            target.write(data)


def show(item: CallList) -> List[str]:
    """A list as statements of `reference.py calls`, each with its answers indented below it."""
    statements = ["job %s" % item.body.hex() if item.body else "job"] if item.kind == JOB \
        else lists.record_lines(body_record(item.body))
    statements += [row(name, [a, b] if name == "run" else [a]) for name, a, b in item.calls]
    script = lists.Script()
    return [line for statement in statements
            for line in [statement] + ["    " + answer for answer in script.answer(statement)]]


def main() -> int:
    """Make the files, and write, compare or show them."""
    parser = argparse.ArgumentParser(description=__doc__, formatter_class=argparse.RawDescriptionHelpFormatter)
    parser.add_argument("--check", action="store_true", help="compare with the stored files")
    parser.add_argument("--show", nargs=2, metavar=("FILE", "NUMBER"), help="show one list")
    parser.add_argument("--lists", type=int, default=LISTS, metavar="N", help="at least so many lists (%d)" % LISTS)
    parser.add_argument("--runs", action="store_true", default=RUNS, help="have runs among the calls")
    chosen = parser.parse_args()
    if chosen.show:
        print("\n".join(show(all_lists(chosen.lists, chosen.runs)[chosen.show[0]][int(chosen.show[1])])))
        return 0
    made, answers = made_files(chosen.lists, chosen.runs)
    if chosen.check:
        return check(made)
    write(made)
    print(answers.summary())
    for name, data in made.items():
        print("%10d %s" % (len(data), name))
    return 0


if __name__ == "__main__":
    sys.exit(main())
