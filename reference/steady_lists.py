"""Lists of calls on layers that start 2 opens, and some on layers that start 1 opens at one level: the step of 1,000 s,
runs under the same load, loads raised and lowered, refused calls, drawn calls. Each is a job and its calls."""

from __future__ import annotations

from typing import Callable, Iterator, List, Tuple

import lists
import makers
import rules
from chance import Chance
from rules import Job, Record
from sample_jobs import mud, resting, specimen
from steady_jobs import SEED, drawn_steady, made_kinds

DRAWN = 90              # drawn layers
FIRST_DRAWN = 10_000    # number of the first drawn one
CALM = 40               # at least so many lists begin with an accepted step of 1,000 s
THOUSAND = ("step", rules.STEADY_SECONDS, 0)

Call = Tuple[str, int, int]


def kept_water(record: Record) -> bool:
    """Whether a step of 1,000 s is accepted first, and then it has to change no element's water by more than 1 nm."""
    after = record.copy()
    if rules.step_call(after, rules.STEADY_SECONDS):
        return False
    assert all(abs(new - old) <= 1 for new, old in zip(after.water, record.water))
    return True


def stepping(record: Record) -> List[Call]:
    """Steps of 1,000 s, then as long as they may be and longer."""
    longest = makers.possible_step(record)
    return [THOUSAND, THOUSAND, ("step", longest, 0), ("step", longest + 1, 0), THOUSAND]


def running(record: Record) -> List[Call]:
    """Runs of one step and of some, to an end and past the table."""
    longest = max(1, makers.possible_step(record))
    end = min(rules.CLOCK[1], 7 * longest)
    return [("run", min(rules.CLOCK[1], 1_000), 3), ("run", end, 1), ("run", end, 4), ("run", rules.CLOCK[1], 2)]


def loading(record: Record, load: int) -> List[Call]:
    """A step of 1,000 s, another load, steps and a run under it, and the first load again."""
    longest = max(1, makers.possible_step(record))
    load = min(max(0, load), rules.STRESS[1])
    return [THOUSAND, ("load", load, 0), ("step", longest, 0), ("step", max(1, longest // 2), 0),
            ("load", record.load, 0), ("step", longest, 0), ("run", min(rules.CLOCK[1], 9 * longest), 2)]


def raised(record: Record) -> List[Call]:
    """A load that rises."""
    return loading(record, record.load + record.first_points()[-1][0] // 9)


def lowered(record: Record) -> List[Call]:
    """A load that falls."""
    return loading(record, record.load - record.load // 3 - 1)


def refused(record: Record) -> List[Call]:
    """Calls that are refused, with accepted ones between."""
    longest = makers.possible_step(record)
    return [("load", rules.STRESS[1] + 1, 0), ("step", 0, 0), ("step", longest + 1, 0), ("step", rules.STEP[1] + 1, 0),
            THOUSAND, ("run", rules.CLOCK[1] + 1, 1), ("run", 5_000, rules.BUDGET[1] + 1), ("run", 0, 0),
            ("load", rules.U64_MAX, 0), ("load", rules.STRESS[1], 0), ("step", max(1, longest), 0), ("step", 1, 0),
            ("step", rules.U64_MAX, 0)]


WAYS: List[Callable[[Record], List[Call]]] = [stepping, running, raised, lowered, refused]


def drawn_calls(chance: Chance, record: Record) -> List[Call]:
    """Calls, each drawn for the record as the one before leaves it."""
    record = record.copy()
    calls = [THOUSAND] if chance.one_in(2) else []
    for name, *numbers in calls:
        lists.answer_call(record, name, numbers[:1])
    for _ in range(chance.between(1, 7)):
        name, numbers = makers.make_call(chance, record)
        numbers = [min(number, rules.U64_MAX) for number in numbers]
        lists.answer_call(record, name, numbers)
        calls.append((name, numbers[0], numbers[1] if name == "run" else 0))
    return calls


def rest_lists() -> Iterator[Tuple[Job, List[Call]]]:
    """Lists from layers at rest whose bottom is closed, or at the top's level."""
    for job in (specimen(bottom=1, bottom_level=10_000_000), mud(bottom_level=10_000_000),
                mud(bottom_level=10_000_000, top=0), mud(bottom=0, bottom_level=0)):
        record = rules.open_job(rules.job_bytes(resting(job)))[1]
        for way in WAYS:
            yield resting(job), way(record)


def made_lists() -> Iterator[Tuple[Job, List[Call]]]:
    """Lists from the jobs of every kind in start 2, of the refused ones in any start a few, and from drawn jobs."""
    taken = calm = 0
    for jobs in made_kinds().values():
        for number, (cause, job) in enumerate(jobs):
            if number % 9 if cause else job.start != rules.STEADY:
                continue
            record = rules.open_job(rules.job_bytes(job))[1]
            if cause:
                yield job, [THOUSAND, ("load", 1, 0)]
                continue
            calls = WAYS[taken % len(WAYS)](record)
            calm += calls[0] == THOUSAND and kept_water(record)
            taken += 1
            yield job, calls[:3] if record.elements > 20 else calls
    for index in range(DRAWN):
        chance = Chance(SEED, FIRST_DRAWN + index)
        job = drawn_steady(chance)
        while len(job.elements) > 8:
            job = drawn_steady(chance)
        refusal, record = rules.open_job(rules.job_bytes(job))
        calls = drawn_calls(chance, record)
        calm += refusal == rules.ACCEPTED and calls[0] == THOUSAND and kept_water(record)
        yield job, calls
    assert calm >= CALM, calm
    yield from rest_lists()
