"""Families of divisions for make_cases.py, drawn in groups, each of a job with seconds and the numbers of places for
the flows and for the remainders."""

from __future__ import annotations

import itertools
from dataclasses import replace
from typing import Callable, Iterator, List, NamedTuple, Tuple

import damage
import division
import makers
import rules
import steady_jobs
from chance import TOP_BIT, Chance
from division import MOST_ENTRIES
from reading_cases import small_job
from rules import U64_MAX
from sample_jobs import FAULTS, mud, not_steady, specimen

MOST_PLACES = 1_000


class Vector(NamedTuple):
    """A job's bytes, the seconds of a step, and the places of the buffers for flows and remainders."""

    job: bytes
    seconds: int
    flows: int
    remainders: int


def needed(job: bytes) -> int:
    """Places that a job's header asks for, as far as there is one."""
    return min(max(0, division.entry_count(job)), MOST_ENTRIES) if len(job) > 7 else 1


def just(job: bytes, seconds: int) -> Vector:
    """A job with just enough places."""
    return Vector(job, seconds, needed(job), needed(job))


def near_enough(chance: Chance, job: bytes, seconds: int) -> Vector:
    """A job with places that are mostly enough."""
    rooms = [max(0, needed(job) + chance.pick([0] * 9 + [1, 3, 129, -1])) for _ in range(2)]
    return Vector(job, seconds, *rooms)


def longest_step(job: bytes) -> int:
    """The longest step of the layer that a job's run leaves; of a refused job 1."""
    refusal, record = division.left_record(job)
    return 1 if refusal else makers.possible_step(record)


def drawn_seconds(chance: Chance, longest: int) -> int:
    """Seconds of a step, mostly no longer than the longest."""
    return chance.pick([longest, longest, max(1, longest // 2), chance.between(1, longest), chance.between(1, longest),
                        chance.scaled(1, max(1, longest)), 1, 1, longest + 1, 0,
                        chance.pick([rules.STEP[1], rules.STEP[1] + 1, 2**32 + 1, TOP_BIT + 1, U64_MAX])])


def roomy_job(chance: Chance) -> bytes:
    """A small accepted job after whose run a step is possible."""
    while True:
        job = small_job(chance)
        if longest_step(job) > 0 and division.division_call(division.left_record(job)[1], 1)[0] == rules.ACCEPTED:
            return job


def sound(chance: Chance) -> Iterator[Vector]:
    """Steps on the layer that the run of a job leaves, which is mostly accepted."""
    job = rules.job_bytes(makers.make_job(chance))
    longest = longest_step(job)
    for _ in range(5):
        yield near_enough(chance, job, drawn_seconds(chance, longest))


def edges(chance: Chance) -> Iterator[Vector]:
    """Seconds at and past the limits, and wide ones whose low bits would do."""
    job = small_job(chance)
    longest = longest_step(job)
    for seconds in (0, 1, 2, longest, longest + 1, rules.STEP[1], rules.STEP[1] + 1, 2**32, 2**32 + max(1, longest),
                    TOP_BIT, TOP_BIT + 1, U64_MAX):
        yield just(job, seconds)


def rooms(chance: Chance) -> Iterator[Vector]:
    """Places below, at and above the needed ones in either buffer, with seconds that would do and that would not."""
    job = roomy_job(chance)
    enough = needed(job)
    longest = longest_step(job)
    places = sorted({0, max(0, enough - 1), enough, enough + 1, MOST_ENTRIES, MOST_PLACES})
    for flows, remainders in itertools.product(places, repeat=2):
        seconds = chance.between(1, longest)
        if min(flows, remainders) < enough:
            seconds = chance.pick([1, longest, 0, U64_MAX])
        yield Vector(job, seconds, flows, remainders)


def closed(chance: Chance) -> Iterator[Vector]:
    """One element between closed faces, which has no entry and needs no places, up to the clock's limit; and one or two
    between faces of every kind."""
    single = specimen(top=0, elements=[(1_000_000, 2_000_000)], budget=3_000)
    for end in (0, chance.between(1, 3_000_000), rules.CLOCK[1] - chance.between(1, 9), rules.CLOCK[1]):
        for seconds in (1, chance.between(1, 9), rules.STEP[1], rules.STEP[1] + 1, 0):
            job = rules.job_bytes(replace(single, end=end))
            yield Vector(job, seconds, chance.pick([0, 0, 1, 9]), chance.pick([0, 0, 1, 9]))
    for top, bottom, count in itertools.product((0, 1), (0, 1), (1, 2)):
        job = rules.job_bytes(mud(top=top, bottom=bottom, bottom_level=bottom * chance.between(0, 30_000_000),
                                  elements=mud().elements[:count], budget=chance.between(0, 9)))
        yield near_enough(chance, job, chance.between(1, max(1, longest_step(job))))


def off_curve(chance: Chance) -> Iterator[Vector]:
    """Layers that a run leaves under a load that the curve does not bear, and seconds about the longest."""
    for number in (chance.between(200_000_000, rules.STRESS[1]), rules.STRESS[1], chance.between(0, 4_000_000)):
        base = chance.pick([specimen(), mud()])
        table = [(0, base.table[0][1]), (1, number)]
        elements = [(solids, water - chance.between(0, 200)) for solids, water in base.elements]
        job = rules.job_bytes(replace(base, elements=elements, table=table, end=5_000, budget=chance.between(1, 30)))
        longest = longest_step(job)
        for seconds in (1, longest // 3, longest - 1, longest, longest + 1, rules.STEP[1] + 1):
            yield near_enough(chance, job, max(0, seconds))


def damaged(chance: Chance) -> Iterator[Vector]:
    """A job damaged in each way."""
    for way in damage.DAMAGES:
        job = makers.affordable_job(way(chance, makers.make_job(chance)))
        yield near_enough(chance, job, drawn_seconds(chance, longest_step(job)))


def several_causes(chance: Chance) -> Iterator[Vector]:
    """Every cause of a job with too few places and with seconds that are refused: the first is told."""
    for spoils in FAULTS.values():
        base = chance.pick([specimen(), mud()])
        job = rules.job_bytes(chance.pick(spoils)(base)) + bytes(8 * (spoils is FAULTS[4]))
        for flows, remainders in ((0, 0), (needed(job), 0), (0, needed(job)), (MOST_ENTRIES, MOST_ENTRIES)):
            yield Vector(job, chance.pick([0, 1, 368, rules.STEP[1] + 1, U64_MAX]), flows, remainders)
    for base in (specimen(), mud()):
        for job in map(rules.job_bytes, (base, not_steady(base))):
            for seconds in (0, 368, rules.STEP[1] + 1, U64_MAX):
                yield Vector(job, seconds, *chance.pick([(1, 1), (0, MOST_ENTRIES), (MOST_ENTRIES, 1)]))


def truncations(chance: Chance) -> Iterator[Vector]:
    """Lengths that a job can be cut to, and a few that are too long."""
    job = small_job(chance)
    for length in sorted({0, 1, 3, 7, 8, 16, 47, 48, 49, len(job) - 1}.union(range(8, len(job), 16))):
        yield near_enough(chance, job[:length], 1)
    for more in (1, 8, 16, 5_000):
        yield just(job + bytes(more), 1)


def steady(chance: Chance) -> Iterator[Vector]:
    """Steps on jobs in start 2 that are steady or nearly so."""
    for _ in range(4):
        job = makers.affordable_job(rules.job_bytes(steady_jobs.drawn_steady(chance)))
        for seconds in (rules.STEADY_SECONDS, drawn_seconds(chance, longest_step(job))):
            yield near_enough(chance, job, seconds)


# Families in the order of the stream, with their shares of the count in hundredths; sound ones make up the rest.
FAMILIES: List[Tuple[int, Callable[[Chance], Iterator[Vector]]]] = [
    (6, truncations), (16, rooms), (6, edges), (5, closed), (4, off_curve), (10, damaged), (6, several_causes),
    (8, steady)]
