"""Families of readings for make_cases.py, drawn in groups, each of a job with the number of words for the answers."""

from __future__ import annotations

import itertools
from typing import Callable, Iterator, List, NamedTuple, Sequence, Tuple

import damage
import makers
import piezometer
import rules
import steady_jobs
from chance import Chance
from make_readings import MISSING, drawn_reading
from piezometer import ANSWER_WORDS, COLUMN, PRESSURE, READING_WORDS
from rules import U64_MAX

SMALL = 400         # bytes of a small job
MOST_READINGS = 20  # of a list


class Vector(NamedTuple):
    """A job's bytes, the words of its readings, and the number of words that the answers are written into."""

    job: bytes
    words: List[int]
    room: int


def needed(words: Sequence[int]) -> int:
    """Words of the answers to readings."""
    return ANSWER_WORDS * (len(words) // READING_WORDS)


def near_enough(chance: Chance, words: Sequence[int]) -> int:
    """Words for the answers: mostly enough."""
    return max(0, needed(words) + chance.pick([0, 0, 0, 0, 0, 0, 1, 3, 40, -1, -5]))


def final_pores(job: bytes) -> List[int]:
    """Pore pressures that a job's run leaves; of a refused job a single 0."""
    refusal, record = rules.open_job(job)
    if refusal:
        return [0]
    parts = rules.read_job(job)
    rules.run_call(record, parts.end, parts.budget)
    return piezometer.pore_pressures(record)


def drawn_words(chance: Chance, pores: Sequence[int], count: int) -> List[int]:
    """The words of so many readings, once in six with some more that make none."""
    numbers = [number for _ in range(count) for number in drawn_reading(chance, pores)]
    return numbers + [chance.draw() for _ in range(chance.between(1, 2) if chance.one_in(6) else 0)]


def small_job(chance: Chance) -> bytes:
    """A small job that is accepted."""
    while True:
        job = rules.job_bytes(makers.make_job(chance))
        if len(job) <= SMALL and rules.open_job(job)[0] == rules.ACCEPTED:
            return job


def sound(chance: Chance) -> Iterator[Vector]:
    """Lists of readings of a job that is mostly accepted."""
    job = rules.job_bytes(makers.make_job(chance))
    pores = final_pores(job)
    for _ in range(3):
        words = drawn_words(chance, pores, chance.between(1, MOST_READINGS))
        yield Vector(job, words, near_enough(chance, words))


def damaged(chance: Chance) -> Iterator[Vector]:
    """A job damaged in each way."""
    for way in damage.DAMAGES:
        job = makers.affordable_job(way(chance, makers.make_job(chance)))
        words = drawn_words(chance, final_pores(job), chance.between(0, 4))
        yield Vector(job, words, near_enough(chance, words))


def truncations(chance: Chance) -> Iterator[Vector]:
    """Lengths that a job can be cut to, and a few that are too long."""
    job = small_job(chance)
    words = drawn_words(chance, final_pores(job), 1)
    for length in sorted({0, 1, 3, 16, 47, 48, 49, len(job) - 1}.union(range(8, len(job), 8))):
        yield Vector(job[:length], words, near_enough(chance, words))
    for more in (1, 8, 16, 5_000):
        yield Vector(job + bytes(more), words, needed(words))


def rooms(chance: Chance) -> Iterator[Vector]:
    """Every number of words about the needed one, none at all, a word, and many; no reading with none and some."""
    job = small_job(chance)
    words = drawn_words(chance, final_pores(job), chance.between(1, 4))
    for room in sorted({needed(words) + more for more in range(-6, 7)} | {0, 1, 4, 5, 6, 1_000}):
        if room >= 0:
            yield Vector(job, words, room)
    for room in (0, 1, 5):
        yield Vector(job, [], room)


def lengths(chance: Chance) -> Iterator[Vector]:
    """Every number of words up to a few readings, with just enough room, and a word less or more."""
    job = small_job(chance)
    words = drawn_words(chance, final_pores(job), 5)
    for length in range(len(words) + 1):
        enough = needed(words[:length])
        yield Vector(job, words[:length], enough)
        yield Vector(job, words[:length], enough + (1 if length % 2 or enough == 0 else -1))


def elements(chance: Chance) -> Iterator[Vector]:
    """A reading of every element of a layer, and of numbers that are none of it."""
    job = rules.job_bytes(makers.make_job(chance))
    pores = final_pores(job)
    numbers = list(range(len(pores) + 2)) + [2**32 + len(pores), U64_MAX]
    for at in range(0, len(numbers), MOST_READINGS):
        words = [number for element in numbers[at:at + MOST_READINGS]
                 for number in drawn_reading(chance, pores)._replace(element=element)]
        yield Vector(job, words, needed(words))


def any_words(chance: Chance) -> Iterator[Vector]:
    """Readings of any words, and of every kind with any bits."""
    job = small_job(chance)
    for most in (2, 200, 2**32, U64_MAX):
        words = [chance.scaled(0, most) for _ in range(READING_WORDS * chance.between(1, MOST_READINGS))]
        yield Vector(job, words, needed(words))
    for kind in (PRESSURE, COLUMN, chance.pick(MISSING)):
        words = list(itertools.chain.from_iterable((1, kind, chance.draw()) for _ in range(MOST_READINGS)))
        yield Vector(job, words, needed(words))


def steady(chance: Chance) -> Iterator[Vector]:
    """Readings of jobs in start 2 that are steady or nearly so."""
    for _ in range(4):
        job = makers.affordable_job(rules.job_bytes(steady_jobs.drawn_steady(chance)))
        words = drawn_words(chance, final_pores(job), chance.between(0, 6))
        yield Vector(job, words, near_enough(chance, words))


# Families in the order of the stream, with their shares of the count in hundredths; sound ones make up the rest.
FAMILIES: List[Tuple[int, Callable[[Chance], Iterator[Vector]]]] = [
    (8, truncations), (10, rooms), (10, lengths), (10, elements), (6, any_words), (16, damaged),
    (10, steady)]
