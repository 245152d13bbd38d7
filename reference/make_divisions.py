#!/usr/bin/env python3
"""Makes the lists of calls with divisions that the program `scenarios` answers, and the bytes that it has to write.

    python3 make_divisions.py            write both anew
    python3 make_divisions.py --check    make both anew and compare; exit status 1 where a stored file differs
    python3 make_divisions.py --show FILE NUMBER    one list as statements of `reference.py calls`, with its answers

Every answer and every state is the reference's. What is drawn is drawn by the reference's own generator from a fixed
seed, so the files are the same on every machine.

INPUT   Files of blocks, division_*, named in the file `args` after those of `make_readings.py`. Words are 64 bits,
        little-endian.
        file      number of blocks, then the blocks
        block     kind (5 a job, 6 a record), bytes of the body (at most 8,192), number of calls (at most 32); the body,
                  a job's bytes or a record as in `make_scenarios.py`; the calls
        call      kind (0 load, 1 step, 2 division, any other number a run) and two words: load; seconds; seconds; end
                  and budget. The last word of a division is not looked at.

OUTPUT  For each file a line with its name; for each block the lines `list N`, N from 0, then `opened R` or `record`, a
        line with the state, and for every call its answer and a line with the state, all as in `make_scenarios.py`. The
        answer to a division is `division `, words, little-endian, and a newline: the refusal number or 0; the number of
        entries, 0 if it is refused; the number of places of both buffers of 129 that are as they were; of each entry
        the flow and the remainder in two's complement.
"""

from __future__ import annotations

import argparse
import itertools
import os
import sys
from dataclasses import replace
from typing import Callable, Dict, Iterable, Iterator, List, NamedTuple, Optional, Sequence, Set, Tuple

HERE = os.path.dirname(os.path.abspath(__file__))
sys.path.insert(0, HERE)

import damage  # noqa: E402
import division  # noqa: E402
import lists  # noqa: E402
import make_readings  # noqa: E402
import make_scenarios as scenarios  # noqa: E402
import makers  # noqa: E402
import rules  # noqa: E402
import steady_jobs  # noqa: E402
from chance import TOP_BIT, Chance  # noqa: E402
from division import MOST_ENTRIES, Face  # noqa: E402
from make_scenarios import BODY_BYTES, CALLS, DIVIDED_JOB, DIVIDED_RECORD, U64_MAX, Call, mud, note  # noqa: E402
from make_scenarios import opened, resting, run, specimen, stepped, widest, words  # noqa: E402
from make_vectors import MANY  # noqa: E402
from rules import ACCEPTED, BAD_STEP, NO_LAYER, STEP_OFF_CURVE, STEP_TOO_LONG, Job, Record  # noqa: E402

SEED = 100_000
LEAST_LISTS, LEAST = 1_000, 3_000  # at least so many lists, and so many divisions
DRAWN_JOBS, DRAWN_RECORDS = 420, 240
NUMBERS = (ACCEPTED, NO_LAYER, BAD_STEP, STEP_TOO_LONG, STEP_OFF_CURVE)
CALL_NUMBERS = {"load": 0, "step": 1, "division": 2}
RUN_NUMBERS = (3, 4, 255, 256, 258, 2**32, 2**32 + 2, TOP_BIT, TOP_BIT + 2, U64_MAX)
UNSEEN = (0, 1, 2, 1_000_000, TOP_BIT, U64_MAX)  # last words of divisions
LOW_HALF = 0xFFFFFFFF


class Block(NamedTuple):
    """A job or a record, and the calls made on it."""

    kind: int
    body: bytes
    calls: List[Call]


def from_bytes(job: bytes, calls: Sequence[Call]) -> Block:
    """A list that begins with a job's bytes."""
    return Block(DIVIDED_JOB, job, list(calls))


def from_job(job: Job, calls: Sequence[Call]) -> Block:
    """A list that begins with a job."""
    return from_bytes(rules.job_bytes(job), calls)


def from_record(record: Record, calls: Sequence[Call]) -> Block:
    """A list that begins with a record."""
    body = scenarios.record_body(record)
    assert scenarios.body_record(body) == record
    return Block(DIVIDED_RECORD, body, list(calls))


def divisions(*seconds: int) -> List[Call]:
    """Calls of divisions."""
    return [("division", number, 0) for number in seconds]


def both(*seconds: int) -> List[Call]:
    """Divisions, each with its step after it."""
    return [(name, number, 0) for number in seconds for name in ("division", "step")]


def load(number: int) -> Call:
    """A call of a load."""
    return ("load", number, 0)


# ----------------------------------------------------------------------------------------------------------------
# Answers
# ----------------------------------------------------------------------------------------------------------------

class Case(NamedTuple):
    """A division with its record and its answer; the accepted load, step or run that stands last before it; whether an
    accepted step of the same seconds comes next."""

    record: Record
    seconds: int
    refusal: int
    faces: List[Face]
    before: str
    stepped: bool


def upward(record: Record, faces: Sequence[Face]) -> List[int]:
    """The flows as upward ones through all faces, a closed one's being 0."""
    flows = [face.flow for face in faces]
    bottom = -flows.pop(0) if record.bottom is not None else 0
    return [bottom] + flows + ([] if record.top is not None else [0])


def keeps_its_promise(record: Record, seconds: int, faces: Sequence[Face]) -> bool:
    """Whether every remainder is right in identity, size and sign, and the step moves just these flows."""
    for face in faces:
        if face.difference * seconds != face.flow * face.resistance + face.remainder:
            return False
        if abs(face.remainder) >= face.resistance or face.remainder * face.difference < 0:
            return False
    flows, after = upward(record, faces), record.copy()
    count = record.elements
    return (rules.step_call(after, seconds) == ACCEPTED and len(flows) == count + 1
            and all(after.water[j] - record.water[j] == flows[j] - flows[j + 1] for j in range(count))
            and after.bottom_outflow - record.bottom_outflow == -flows[0]
            and after.top_outflow - record.top_outflow == flows[count])


class Worked:
    """A block, and what the reference makes of it."""

    def __init__(self, block: Block, number: int = 0) -> None:
        self.block = block
        self.cases: List[Case] = []
        self.before = ""
        if block.kind == DIVIDED_RECORD:
            opening, self.record = "record", scenarios.body_record(block.body)
        else:
            refusal, self.record = rules.open_job(block.body)
            opening = "opened %d" % refusal
        self.parts = [("list %d\n%s\n%s\n" % (number, opening, lists.state_line(self.record))).encode("ascii")]
        for place, call in enumerate(block.calls):
            self.parts += [self.answer(call, block.calls[place + 1:place + 2]), b"\n",
                           lists.state_line(self.record).encode("ascii"), b"\n"]

    def answer(self, call: Call, following: Sequence[Call]) -> bytes:
        """The answer to a call, made on the record."""
        name, a, b = call
        if name == "division":
            return self.divided(a, following)
        line = lists.answer_call(self.record, name, [a, b] if name == "run" else [a])
        if line.split(" ")[1] == "0":
            self.before = name
        return line.encode("ascii")

    def divided(self, seconds: int, following: Sequence[Call]) -> bytes:
        """The answer to a division."""
        before = self.record.copy()
        refusal, entries = division.division_call(self.record, seconds)
        assert self.record == before
        faces = [] if refusal else division.open_faces(before, seconds)
        assert refusal or keeps_its_promise(before, seconds, faces)
        assert entries == [(face.flow, face.remainder) for face in faces]
        same_step = [call[:2] for call in following] == [("step", seconds)] and refusal == ACCEPTED
        self.cases.append(Case(before, seconds, refusal, faces, self.before, same_step))
        return division_bytes(refusal, entries)

    def output(self) -> bytes:
        """What the program writes of it."""
        return b"".join(self.parts)


def division_bytes(refusal: int, entries: Sequence[Tuple[int, int]]) -> bytes:
    """What the program writes of a division."""
    numbers = [refusal, len(entries), 2 * (MOST_ENTRIES - len(entries))]
    return b"division " + words(numbers + [number for entry in entries for number in entry])


# ----------------------------------------------------------------------------------------------------------------
# Lists made by hand
# ----------------------------------------------------------------------------------------------------------------

def left(record: Record) -> int:
    """Seconds until the clock's limit."""
    return rules.CLOCK[1] - record.clock


def edge_seconds(record: Record) -> List[int]:
    """Seconds at and past the limits of a layer's step and clock, and wide ones whose low bits would do."""
    longest = makers.possible_step(record)
    numbers = [0, 1, longest, longest + 1, rules.STEP[1], rules.STEP[1] + 1, left(record), left(record) + 1,
               2**32, 2**32 + max(1, longest), TOP_BIT, TOP_BIT + 1, U64_MAX, U64_MAX - 1, 2**16 + 1, 256]
    return list(dict.fromkeys(numbers))


def worked() -> Iterator[Block]:
    """The paper's cases: as they are, with steps, with the loads that leave the curve, and at rest."""
    yield from_job(specimen(), divisions(100))
    yield from_job(specimen(), both(100, 100) + divisions(100))
    yield from_job(specimen(), both(100, 100, 367, 368, 1) + divisions(367, 368))
    yield from_job(specimen(), [load(300_000_000)] + both(367, 368, 0, 1, 30, 40, 1_000_001))
    yield from_job(specimen(), divisions(*edge_seconds(opened(specimen()))))
    for job in (resting(specimen()), resting(specimen(), table=[(0, 105_000_000)])):
        yield from_job(job, both(1, 367) + [load(5_000_000)] + both(*[300] * 4) + [load(60_000_000)] + both(1, 300))
    for number in (5_000_001, 5_000_500, 4_999_999, 4_999_500, 0, 2_000_000_000):
        yield from_job(specimen(), [load(number)] + both(1, 10, 100, 300))
    for job in (specimen(), mud(), mud(bottom_level=9_000_000), mud(table=[(0, 0)])):
        longest = makers.possible_step(opened(job))
        yield from_job(job, [run(3 * longest, 5)] + both(longest, 1) + [run(9_000, 9)] + both(longest, 1)
                       + [load(1_000_000)] + both(longest, 1) + [load(90_000_000)] + both(longest, longest + 1))


def faced(count: int, top: int, bottom: int, level: int) -> Job:
    """A layer of so many unlike elements between these faces."""
    return specimen(top=top, bottom=bottom, bottom_level=bottom * level, gravity=2_650,
                    elements=[(1_000_000 + 7 * j, 1_990_000 - 13 * (j % 5)) for j in range(count)])


def faces() -> Iterator[Block]:
    """Layers of one element to as many as there can be, between faces of every kind."""
    for top, bottom in itertools.product((0, 1), repeat=2):
        for count in (1, 2, 3, 5, 127, 128):
            for level in (9_000_000, 40_000_000)[:1 + bottom]:
                job = faced(count, top, bottom, level)
                longest = makers.possible_step(opened(job))
                if count > 5:
                    yield from_job(job, divisions(longest, longest + 1) + [run(9_000, 2)] + both(max(1, longest // 3)))
                else:
                    yield from_job(job, both(longest, max(1, longest // 7)) + [run(9_000, 20)] + both(3)
                                   + [load(1_000)] + both(longest) + divisions(*edge_seconds(opened(job))))
    yield from_record(opened(widest()), divisions(1, 0, U64_MAX))
    yield from_job(specimen(top=0, elements=[(1_000_000, 2_000_000)]), both(1_000_000, 1, 7) + [load(0)]
                   + both(1_000_000) + [run(3_000_000_000, 1_000_000)] + both(1, 1_000_000))


# ---- remainders that are looked for

Rest = Callable[[int], int]  # the remainder that is looked for, above 0 or 0, of a resistance

RESTS: Dict[str, Rest] = {"largest": lambda r: r - 1, "next": lambda r: r - 2, "least": lambda r: 1,
                          "none": lambda r: 0, "half": lambda r: r // 2}


def with_rest(record: Record, place: int, rest: Rest, sign: int, seconds: int, turn: int) -> Optional[Record]:
    """A layer under another load, such that the lowest or highest face has a remainder; None if its resistance and the
    seconds have a common factor. The turn is the size of the flow, as far as that can be chosen."""
    face = division.open_faces(record, seconds)[place]
    try:
        inverse = pow(seconds, -1, face.resistance)
    except ValueError:
        return None
    size = rest(face.resistance) * inverse % face.resistance + turn * face.resistance
    return replace(record, load=record.load + sign * size - face.difference)


def outer_rests() -> Iterator[Block]:
    """Remainders of every size at the top and at the bottom, with either sign."""
    base = opened(specimen(bottom=1, bottom_level=11_000_000,
                           elements=[(1_000_000, 1_600_000), (1_000_000, 1_500_000)]))
    single = opened(specimen(elements=[(1_000_000, 1_500_000)], gravity=2_650))
    for record, place in ((base, 0), (base, -1), (single, 0)):
        for (rest, sign), seconds in itertools.product(itertools.product(RESTS.values(), (1, -1)), (1, 7, 101, 257)):
            for turn in (0, 1, 3):
                found = with_rest(record, place, rest, sign, seconds, turn)
                if found is not None:
                    face = division.open_faces(found, seconds)[place]
                    assert face.remainder == sign * rest(face.resistance)
                    yield from_record(found, both(seconds))
                    break


def inner_rests() -> Iterator[Block]:
    """Remainders of every size at an inner face, with either sign: the lower element has more water, or the upper."""
    for name, sign in itertools.product(("largest", "next", "least", "half"), (1, -1)):
        found = 0
        for more in itertools.count(1):
            waters = [1_500_000, 1_500_000 - sign * (5_000 + 37 * more)]
            record = opened(specimen(elements=[(1_000_000, water) for water in waters]))
            face = division.open_faces(record, 1)[0]
            try:
                inverse = pow(abs(face.difference), -1, face.resistance)
            except ValueError:
                continue
            seconds = RESTS[name](face.resistance) * inverse % face.resistance
            if 1 <= seconds <= makers.possible_step(record):
                found += 1
                assert division.open_faces(record, seconds)[0].remainder == sign * RESTS[name](face.resistance)
                yield from_record(record, both(seconds) + divisions(1))
            if found == 3:
                break


def exact_ones() -> Iterator[Block]:
    """Divisions that leave nothing: R is 200,000 inside and 100,000 outside, and differences are multiples of it."""
    unlike = [(1_000_000, 2_000_000), (1_200_000, 1_800_000)]
    for elements in (unlike, unlike[::-1]):
        job = specimen(bottom=1, bottom_level=10_000_000, elements=elements,
                       curve2=[(100_000_000, 147_150), (200_000_000, 147_150)])
        for number in (15_000_000, 60_000_000, 5_100_000, 55_000_000, 0, 54_900_000):
            yield from_job(job, [load(number)] + divisions(1, 2, 100) + both(100))


def rests() -> Iterator[Block]:
    """Remainders that are looked for."""
    yield from outer_rests()
    yield from inner_rests()
    yield from exact_ones()


# ---- refusals

def late(record: Record, seconds: int) -> Record:
    """A layer so many seconds before the clock's limit."""
    return replace(record, clock=rules.CLOCK[1] - seconds)


def refused() -> Iterator[Block]:
    """Every cause at its limits, by itself and with the causes after it."""
    wet, rich = stepped(specimen(), 100), stepped(mud(), 1)
    single = opened(specimen(top=0, elements=[(1_000_000, 2_000_000)]))
    slow = opened(specimen(curve2=[(100_000_000, 1), (200_000_000, 1)]))
    fast = opened(specimen(curve2=[(1, 10**9), (10**9, 10**9)]))
    for record in (wet, rich, single, slow, fast, late(wet, 0), late(rich, 1)):
        yield from_record(record, divisions(*edge_seconds(record)))
    for record, number in itertools.product((wet, slow), (300_000_000, 2_000_000_000, 0)):
        heavy = replace(record, load=number)
        longest = makers.possible_step(heavy)
        for before in (0, 1, longest - 1, longest, longest + 1, 5_000_000):
            aged = late(heavy, before)
            seconds = [longest, longest + 1, before, before + 1, longest // 2, 0, U64_MAX, rules.STEP[1],
                       rules.STEP[1] + 1]
            yield from_record(aged, divisions(*dict.fromkeys(seconds)))
    for seconds in (0, 1, 367, 368, 1_000_000, 1_000_001, 2**32 + 1, TOP_BIT + 100, U64_MAX):
        yield from_job(specimen(), divisions(seconds) + [load(300_000_000)] + divisions(seconds) + [load(15_000_000)]
                       + both(seconds) + [run(400, 3)] + both(seconds))
        yield from_record(rules.Record(), both(seconds))


def no_layers() -> Iterator[Block]:
    """Records that are no layer, each clause broken: 11, whatever the seconds are."""
    wide = (0, 1_000_001, 2**32 + 1, TOP_BIT, U64_MAX, 367)
    others = ([load(1_000_000)], [("step", 1, 0)], [run(3_000_000_000, 1)], [])
    for number, record in enumerate(scenarios.no_layers()):
        yield from_record(record, divisions(1, wide[number % len(wide)]) + others[number % len(others)])


def openings() -> Iterator[Block]:
    """Jobs refused for each cause, whose blank record answers 11, and jobs at the limits that are accepted."""
    calls = divisions(1) + [load(1_000_000)] + both(1) + [run(0, 0)] + divisions(U64_MAX)
    for cause, ways in scenarios.CAUSES.items():
        for number, data in enumerate(ways(specimen())):
            assert rules.open_job(data)[0] == scenarios.made_cause(cause, data)
            yield from_bytes(data, calls[number % 3:][:2 + number % 2])
    for job in scenarios.accepted_edges():
        if len(job.elements) <= 3:
            yield from_job(job, both(1, 100) + divisions(1_000_000))


# ----------------------------------------------------------------------------------------------------------------
# Lists that stand elsewhere, with divisions among their calls
# ----------------------------------------------------------------------------------------------------------------

def odd_layers() -> Iterator[Block]:
    """Layers at the limits, or that no opening gives."""
    for record in scenarios.odd_layers():
        seconds = edge_seconds(record)
        if record.elements > 3:
            seconds = seconds[:4]
        yield from_record(record, divisions(*seconds) + both(max(1, makers.possible_step(record))))


def with_divisions(calls: Iterable[Call], most: int) -> List[Call]:
    """Calls with a division before each step, of the same seconds, and after all others."""
    made: List[Call] = []
    for place, call in enumerate(calls):
        made += both(call[1]) if call[0] == "step" else [call] + divisions((1, 100, 367, 50)[place % 4])
    return made[:most]


def called_lists() -> Iterator[Block]:
    """The lists made by hand of `make_scenarios.py` and the runs of `make_readings.py`, with divisions."""
    for item in itertools.chain(scenarios.worked_lists(), make_readings.run_lists(), scenarios.run_lists()):
        if rules.job_bytes(scenarios.million()) != item.body:
            yield from_bytes(item.body, with_divisions(item.calls, 6 if item.body[7] > 20 else CALLS))


def steady_ones() -> Iterator[Block]:
    """Layers in start 2 that are steady, and by 1,000 s just or nearly so."""
    for name in ("equal_flows", "flows_by_1", "flows_by_2", "closed_faces", "turned_flows", "cut_flows"):
        for _, job in steady_jobs.made_kinds()[name][:9]:
            if len(job.elements) <= 8:
                yield from_job(job, both(1_000) + divisions(1, 999, 1_001) + [run(job.end, job.budget)] + both(1_000))


# ----------------------------------------------------------------------------------------------------------------
# Drawn lists
# ----------------------------------------------------------------------------------------------------------------

def drawn_calls(chance: Chance, record: Record, count: int) -> List[Call]:
    """Calls, two thirds of them divisions, each drawn for the record as the one before leaves it; the record moves with
    them. After a division its step is taken now and then."""
    calls: List[Call] = []
    while len(calls) < count:
        if chance.one_in(3):
            name, numbers = makers.make_call(chance, record)
            made: List[Call] = [(name, min(numbers[0], U64_MAX), min(numbers[-1], U64_MAX) if name == "run" else 0)]
        else:
            seconds = min(makers.make_step(chance, record, rules.is_layer(record)), U64_MAX)
            made = both(seconds) if chance.one_in(3) else divisions(seconds)
        for call in made:
            lists.answer_call(record, call[0], list(call[1:] if call[0] == "run" else call[1:2]))
        calls += made
    return calls


def drawn_from_job(index: int) -> Block:
    """A list from a job."""
    chance = Chance(SEED, index)
    job = scenarios.drawn_job(chance, 12)
    return from_bytes(job, drawn_calls(chance, rules.open_job(job)[1], chance.between(3, 10)))


def drawn_from_record(index: int) -> Block:
    """A list from a record, which is a layer or no layer."""
    chance = Chance(SEED, 100_000 + index)
    refusal, record = makers.open_at_any_level(scenarios.drawn_job(chance, 30))
    if refusal == ACCEPTED:
        if chance.one_in(2):
            makers.age_record(chance, record)
        if chance.one_in(6):
            makers.fill_past_counts(chance, record)
        if chance.one_in(6):
            damage.spoil_record(chance, record)
    return from_record(record, drawn_calls(chance, record.copy(), chance.between(3, 8)))


# ----------------------------------------------------------------------------------------------------------------
# What has to be among the divisions
# ----------------------------------------------------------------------------------------------------------------

def causes(case: Case) -> Set[str]:
    """The causes that hold, each asked for by itself, with the three ways of 13; of a record that is no layer, only
    those that its seconds tell."""
    record, seconds = case.record, case.seconds
    found = {name for name, holds in (("0 s", seconds == 0), ("above", seconds > rules.STEP[1]),
                                      ("clock", record.clock + seconds > rules.CLOCK[1])) if holds}
    if not rules.is_layer(record):
        return found | {"11"}
    layer = rules.Layer(record)
    halves = layer.read(record.load, record.water)[1]
    longest = rules.longest_step(layer, rules.face_resistances(layer, halves))
    if longest is not None and seconds > longest:
        found.add("14")
    if not layer.all_on_curve(rules.moved_water(record.water, rules.present_flows(record, seconds))):
        found.add("15")
    return found


def face_sides(case: Case) -> Dict[str, List[Face]]:
    """The faces by where they are."""
    bottom, top = case.record.bottom is not None, case.record.top is not None
    count = len(case.faces)
    return {"bottom": case.faces[:bottom], "inner": case.faces[bottom:count - top], "top": case.faces[count - top:]}


# What a face can be, which has to be found at top, bottom and inner faces.
FACE_KINDS: Dict[str, Callable[[Face], bool]] = {
    "flow above 0": lambda f: f.flow > 0,
    "flow below 0": lambda f: f.flow < 0,
    "remainder above 0": lambda f: f.remainder > 0,
    "remainder below 0": lambda f: f.remainder < 0,
    "flow 0 and remainder above 0": lambda f: f.flow == 0 and f.remainder > 0,
    "flow 0 and remainder below 0": lambda f: f.flow == 0 and f.remainder < 0,
    "exact, flow above 0": lambda f: f.flow > 0 and f.remainder == 0,
    "exact, flow below 0": lambda f: f.flow < 0 and f.remainder == 0,
    "difference 0": lambda f: f.difference == 0,
    "remainder R - 1": lambda f: f.remainder == f.resistance - 1 > 0,
    "remainder 1 - R": lambda f: f.remainder == 1 - f.resistance < 0,
    "remainder 1 - R and flow below 0": lambda f: f.remainder == 1 - f.resistance < 0 and f.flow < 0}


def accepted(holds: Callable[[Case], bool]) -> Callable[[Case], bool]:
    """A kind of the accepted ones."""
    return lambda c: c.refusal == ACCEPTED and holds(c)


def shut(top: bool, bottom: bool) -> Callable[[Case], bool]:
    """Accepted ones between closed or drained faces."""
    return accepted(lambda c: ((c.record.top is None), (c.record.bottom is None)) == (top, bottom))


def would_do(seconds: int, record: Record) -> bool:
    """Whether seconds would be accepted."""
    return rules.step_call(record.copy(), seconds) == ACCEPTED


# What has to be among the divisions: at least one, and of the second table as many as of every number.
KINDS: Dict[str, Callable[[Case], bool]] = {
    "one element": accepted(lambda c: c.record.elements == 1),
    "two elements": accepted(lambda c: c.record.elements == 2),
    "128 elements": accepted(lambda c: c.record.elements == 128),
    "129 entries": accepted(lambda c: len(c.faces) == MOST_ENTRIES),
    "no entry": accepted(lambda c: not c.faces),
    "top closed": shut(True, False), "bottom closed": shut(False, True), "both closed": shut(True, True),
    "both drained": shut(False, False),
    "both closed, some elements": accepted(lambda c: c.record.elements > 1 and c.record.top == c.record.bottom is None),
    "before any call": accepted(lambda c: c.before == ""), "after a load": accepted(lambda c: c.before == "load"),
    "after a step": accepted(lambda c: c.before == "step"), "after a run": accepted(lambda c: c.before == "run"),
    "no layer and 0 s": lambda c: c.refusal == NO_LAYER and c.seconds == 0,
    "no layer and above": lambda c: c.refusal == NO_LAYER and c.seconds > rules.STEP[1],
    "no layer and 2^64 - 1": lambda c: c.refusal == NO_LAYER and c.seconds == U64_MAX,
    "a blank record": lambda c: c.record == Record(),
    "2^64 - 1": lambda c: c.refusal == BAD_STEP and c.seconds == U64_MAX,
    "2^63 and some that would do": lambda c: c.refusal == BAD_STEP and c.seconds > TOP_BIT
                                             and would_do(c.seconds - TOP_BIT, c.record),
    "a low half that would do": lambda c: c.refusal == BAD_STEP and c.seconds > LOW_HALF
                                          and would_do(c.seconds & LOW_HALF, c.record),
    "numbers past the counts": accepted(lambda c: any(c.record.water[c.record.elements:])),
    "a bottom that pushes": accepted(lambda c: (c.record.bottom or 0) > 0),
    "a bottom that draws": accepted(lambda c: (c.record.bottom or 0) < 0),
    "the step that ends at the clock's limit": accepted(lambda c: c.seconds == left(c.record)),
    "the longest step": accepted(lambda c: c.seconds == makers.possible_step(c.record)),
    "a second more than the longest": lambda c: c.refusal == STEP_TOO_LONG
                                                and c.seconds == makers.possible_step(c.record) + 1}

MANY_KINDS: Dict[str, Callable[[Case, Set[str]], bool]] = {
    "a step of the same seconds after it": lambda c, _: c.stepped,
    "13 for 0 s": lambda c, found: found == {"0 s"},
    "13 above the limit": lambda c, found: c.refusal == BAD_STEP and "above" in found and "clock" not in found,
    "13 past the clock": lambda c, found: c.refusal == BAD_STEP and "clock" in found and "above" not in found,
    "13 above the limit and past the clock": lambda c, found: found >= {"above", "clock"} and c.refusal == BAD_STEP,
    "13 with 14": lambda c, found: c.refusal == BAD_STEP and "14" in found and "15" not in found,
    "13 with 15": lambda c, found: c.refusal == BAD_STEP and "15" in found and "14" not in found,
    "13 with 14 and 15": lambda c, found: c.refusal == BAD_STEP and found >= {"14", "15"},
    "14 with 15": lambda c, found: c.refusal == STEP_TOO_LONG and found == {"14", "15"},
    "14 alone": lambda c, found: found == {"14"}, "15 alone": lambda c, found: found == {"15"}}


class Counts:
    """How many divisions got each number, and how many were of each kind."""

    def __init__(self) -> None:
        self.lists = self.calls = 0
        self.numbers: Dict[int, int] = {}
        self.kinds: Dict[str, int] = dict.fromkeys(KINDS, 0)
        self.faces: Dict[str, int] = {"%s, %s" % pair: 0 for pair in itertools.product(
            FACE_KINDS, ("bottom", "inner", "top"))}
        self.many: Dict[str, int] = dict.fromkeys(MANY_KINDS, 0)
        self.entries = 0

    def add(self, case: Case) -> None:
        """Count a division."""
        note(self.numbers, case.refusal)
        self.entries += len(case.faces)
        for name, holds in KINDS.items():
            self.kinds[name] += holds(case)
        found = causes(case)
        for name, both_hold in MANY_KINDS.items():
            self.many[name] += both_hold(case, found)
        for side, made in face_sides(case).items():
            for name, is_kind in FACE_KINDS.items():
                self.faces["%s, %s" % (name, side)] += any(map(is_kind, made))

    def missing(self) -> List[str]:
        """What there is too little of."""
        assert set(self.numbers) <= set(NUMBERS)
        return (["lists"] * (self.lists < LEAST_LISTS) + ["divisions"] * (sum(self.numbers.values()) < LEAST)
                + ["number %d" % number for number in NUMBERS if self.numbers.get(number, 0) < MANY]
                + [name for name, count in self.many.items() if count < MANY]
                + [name for name, count in list(self.kinds.items()) + list(self.faces.items()) if count == 0])

    def summary(self) -> str:
        """How many of each."""
        refusals = ", ".join("%d: %d" % pair for pair in sorted(self.numbers.items()) if pair[0] != ACCEPTED)
        return "%d divisions among %d calls of %d lists; accepted %d with %d entries; refused %s" % (
            sum(self.numbers.values()), self.calls, self.lists, self.numbers.get(ACCEPTED, 0), self.entries, refusals)


# ----------------------------------------------------------------------------------------------------------------
# The files
# ----------------------------------------------------------------------------------------------------------------

def all_blocks() -> Dict[str, List[Block]]:
    """The blocks of every file, in the order of the files."""
    return {"division_worked": list(worked()), "division_faces": list(faces()), "division_rests": list(rests()),
            "division_refused": list(refused()), "division_no_layers": list(no_layers()),
            "division_openings": list(openings()), "division_layers": list(odd_layers()),
            "division_lists": list(called_lists()), "division_steady": list(steady_ones()),
            "division_drawn_jobs": [drawn_from_job(index) for index in range(DRAWN_JOBS)],
            "division_drawn_records": [drawn_from_record(index) for index in range(DRAWN_RECORDS)]}


def call_words(place: int, call: Call) -> List[int]:
    """The words of a call: a run's kind and the last word of a division go through many numbers."""
    name, a, b = call
    if name == "run":
        return [RUN_NUMBERS[place % len(RUN_NUMBERS)], a, b]
    return [CALL_NUMBERS[name], a, UNSEEN[place % len(UNSEEN)] if name == "division" else 0]


def block_bytes(block: Block, number: int = 0) -> bytes:
    """The bytes of a block; its number in the file chooses among words that mean the same."""
    assert len(block.body) <= BODY_BYTES and len(block.calls) <= CALLS
    calls = [word for place, call in enumerate(block.calls) for word in call_words(number + place, call)]
    return words([block.kind, len(block.body), len(block.calls)]) + block.body + words(calls)


def file_bytes(blocks: Sequence[Block]) -> bytes:
    """The bytes of a file of blocks."""
    return words([len(blocks)]) + b"".join(block_bytes(block, number) for number, block in enumerate(blocks))


def made_files() -> Tuple[Dict[str, bytes], Counts]:
    """The crate's files, by their paths in it, and what is among them."""
    made, outputs, counts = {}, [], Counts()
    for name, blocks in all_blocks().items():
        made[os.path.join("data", name)] = file_bytes(blocks)
        outputs.append(name.encode("ascii") + b"\n")
        for number, block in enumerate(blocks):
            done = Worked(block, number)
            counts.lists += 1
            counts.calls += len(block.calls)
            for case in done.cases:
                counts.add(case)
            outputs.append(done.output())
    made["args"] = "".join(name[5:] + "\n" for name in made).encode("ascii")
    made["stdout"] = b"".join(outputs)
    return made, counts


def show(block: Block) -> List[str]:
    """A block as statements of `reference.py calls`, each with its answers indented below it."""
    kind = scenarios.RECORD if block.kind == DIVIDED_RECORD else scenarios.JOB
    return scenarios.show(scenarios.CallList(kind, block.body, block.calls))


def main() -> int:
    """Make the files, and write, compare or show them."""
    parser = argparse.ArgumentParser(description=__doc__, formatter_class=argparse.RawDescriptionHelpFormatter)
    parser.add_argument("--check", action="store_true", help="compare with the stored files")
    parser.add_argument("--show", nargs=2, metavar=("FILE", "NUMBER"), help="show one list")
    chosen = parser.parse_args()
    if chosen.show:
        print("\n".join(show(all_blocks()[chosen.show[0]][int(chosen.show[1])])))
        return 0
    made, counts = made_files()
    print(counts.summary())
    missing = counts.missing()
    if missing:
        print("too few of: %s" % "; ".join(missing), file=sys.stderr)
        return 1
    if chosen.check:
        return scenarios.check(made, scenarios.DIVIDED)
    scenarios.write(made, scenarios.DIVIDED)
    for name, data in made.items():
        print("%10d %s" % (len(data), name))
    return 0


if __name__ == "__main__":
    sys.exit(main())
