"""Families of descriptions for make_cases.py, drawn in groups, each with the length of a job buffer."""

from __future__ import annotations

from dataclasses import replace
from typing import Callable, Iterator, List, Tuple

import damage
import makers
import rules
import steady_jobs
from chance import TOP_BIT, Chance
from make_descriptions import Vector, cut_body, needed
from make_scenarios import words
from rules import DESCRIPTION_WORDS, HEADER_WORDS, U64_MAX, Description, Job

SMALL = 400         # bytes of a small job
MOST_WORDS = 1_024  # of a list
MOST_ROOM = 8_192


def near_enough(chance: Chance, description: Description) -> int:
    """A buffer's length: mostly enough for the job."""
    return max(0, needed(description) + chance.pick([0, 0, 0, 0, 0, 1, 3, 40, -1, -40]))


def listed(chance: Chance, description: Description) -> bytes:
    """The words of a description: mostly as many as matter, else all, or others behind them."""
    numbers = description.words()
    if not chance.one_in(8):
        return cut_body(numbers)
    return words(numbers + [chance.draw()] * chance.pick([0, 0, 1, chance.between(1, MOST_WORDS - DESCRIPTION_WORDS)]))


def small_job(chance: Chance) -> Job:
    """A small job that is accepted."""
    while True:
        job = makers.make_job(chance)
        data = rules.job_bytes(job)
        if len(data) <= SMALL and rules.open_job(data)[0] == rules.ACCEPTED:
            return job


def sound(chance: Chance) -> Iterator[Vector]:
    """A description that is mostly written, also with numbers in places past its counts."""
    description = rules.job_description(makers.make_job(chance))
    yield Vector(listed(chance, description), near_enough(chance, description))
    filled = damage.with_places_past_counts(chance, description)
    yield Vector(listed(chance, filled), near_enough(chance, description))


def damaged(chance: Chance) -> Iterator[Vector]:
    """A description damaged in each way, and in a word more."""
    for way in damage.DESCRIPTION_DAMAGES:
        description = way(chance, makers.make_job(chance))
        yield Vector(listed(chance, description), near_enough(chance, description))
        numbers = description.words()
        numbers[chance.between(0, HEADER_WORDS + 3)] = chance.draw() >> chance.between(0, 63)
        yield Vector(cut_body(numbers), near_enough(chance, description))


def other_numbers(chance: Chance, number: int) -> List[int]:
    """Numbers near to one, far from it, and wider than a field that would keep it."""
    near = {(number + more) & U64_MAX for more in (1, -1)}
    wide = {number % TOP_BIT + width for width in damage.WIDTHS}
    far = {0, 1, 2, 64, 65, 128, 129, 255, 257, TOP_BIT, U64_MAX, chance.draw(), chance.scaled(1, U64_MAX)}
    return sorted((near | wide | far) - {number})


def headers(chance: Chance) -> Iterator[Vector]:
    """Every number of a small description's header changed to others."""
    description = rules.job_description(small_job(chance))
    numbers = description.words()
    for place in range(HEADER_WORDS):
        for number in other_numbers(chance, numbers[place]):
            changed = numbers[:place] + [number] + numbers[place + 1:]
            yield Vector(cut_body(changed), needed(description))


def places(chance: Chance) -> Iterator[Vector]:
    """Every number that counts of a small description's arrays, and the next one, changed to others."""
    description = rules.job_description(small_job(chance))
    numbers = description.words()
    for at, count, most in damage.word_columns(description):
        for place in range(at, at + min(count + 1, most)):
            for number in [chance.pick(other_numbers(chance, numbers[place])) for _ in range(3)] + [U64_MAX]:
                changed = numbers[:place] + [number] + numbers[place + 1:]
                yield Vector(cut_body(changed), near_enough(chance, description))


def lengths(chance: Chance) -> Iterator[Vector]:
    """Lists of words that end before, at and behind every array's last number, and longer ones."""
    description = rules.job_description(small_job(chance))
    numbers = description.words()
    ends = {0, 1, 2, 7, 8, 11, 12, 651, 652}
    for at, count, most in damage.word_columns(description):
        ends.update([at, at + 1, at + count - 1, at + count, at + most - 1])
    for end in sorted(ends):
        yield Vector(words(numbers[:end]), needed(description))
    for more in (1, 2, 64, MOST_WORDS - DESCRIPTION_WORDS):
        yield Vector(words(numbers + [chance.draw() for _ in range(more)]), needed(description))


def rooms(chance: Chance) -> Iterator[Vector]:
    """Buffers of every length about the needed one, none at all, a byte, and a large one."""
    description = rules.job_description(makers.make_job(chance))
    body = cut_body(description.words())
    for more in range(-3, 4):
        yield Vector(body, needed(description) + more)
    for room in (0, 1, 48, 144, MOST_ROOM):
        yield Vector(body, room)


def random_words(chance: Chance) -> Iterator[Vector]:
    """Any words, with and without a right header and right solids."""
    right = [1, 1, 1, 2, 2, 1, chance.between(0, 2), 2_650, 0, 0, 0, 0, 1_000_000]
    for head in ([], right[:8], right[:12], right):
        for most in (1, 10**3, 10**9, U64_MAX):
            numbers = head + [chance.scaled(0, most) for _ in range(chance.between(0, 40))]
            yield Vector(words(numbers), chance.between(0, 200))


def steady(chance: Chance) -> Iterator[Vector]:
    """Descriptions in start 2 that are steady or nearly so, with other starts and heights, damaged, and short rooms."""
    for _ in range(3):
        job = steady_jobs.drawn_steady(chance)
        description = rules.job_description(job)
        yield Vector(listed(chance, description), near_enough(chance, description))
    for start in (0, 1, 3, 2**8 + 2, 2**32 + 2, U64_MAX, chance.draw()):
        yield Vector(cut_body(replace(description, start=start).words()), near_enough(chance, description))
    for more in (1, -1, 2, -9):
        other = rules.job_description(steady_jobs.changed_water(job, chance.between(0, len(job.elements) - 1), more))
        yield Vector(cut_body(other.words()), needed(other))
    yield Vector(cut_body(rules.job_description(makers.emptied(job)).words()), needed(description))
    damaged_one = chance.pick(damage.DESCRIPTION_DAMAGES)(chance, rules.read_job(rules.job_bytes(job)))
    yield Vector(listed(chance, damaged_one), near_enough(chance, damaged_one))
    filled = damage.with_places_past_counts(chance, description)
    yield Vector(listed(chance, filled), near_enough(chance, description))
    yield Vector(cut_body(description.words()), chance.between(0, needed(description) - 1))


# Families in the order of the stream, with their shares of the count in hundredths; sound ones make up the rest.
FAMILIES: List[Tuple[int, Callable[[Chance], Iterator[Vector]]]] = [
    (8, lengths), (18, headers), (18, places), (10, rooms), (5, random_words), (22, damaged),
    (10, steady)]
