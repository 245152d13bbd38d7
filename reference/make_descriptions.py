#!/usr/bin/env python3
"""Makes the descriptions that the program `scenarios` passes to the writer of jobs, and the bytes that it has to write.

    python3 make_descriptions.py            write both anew
    python3 make_descriptions.py --check    make both anew and compare; exit status 1 where a stored file differs
    python3 make_descriptions.py --show FILE NUMBER    one description as tables, with its room and its answer

Every answer is the reference's. What is drawn is drawn by the reference's own generator from a fixed seed, so the
files are the same on every machine.

INPUT   Files of vectors, job_*, named in the file `args` after those of `make_vectors.py`. Words are 64 bits,
        little-endian.
        file      number of vectors, then the vectors
        vector    kind (3), bytes of the description (at most 8,192), room (bytes of the job buffer, at most 8,192);
                  the description's words, of which bytes missing of the last one count as 0
        The words are those of `Description` in rules.py, in its order; those past the end of a list are 0, and those
        past the last are not looked at. Most lists end with their last word that is not 0.

OUTPUT  For each file a line with its name; for each vector the answer of the writer as 8 bytes, little-endian, then
        the whole job buffer as the writer leaves it. Each byte of the buffer is 165 before the call.
"""

from __future__ import annotations

import argparse
import itertools
import os
import struct
import sys
from dataclasses import replace
from typing import Callable, Dict, Iterator, List, NamedTuple, Optional, Sequence, Tuple

HERE = os.path.dirname(os.path.abspath(__file__))
sys.path.insert(0, HERE)

import lists  # noqa: E402
import make_scenarios as scenarios  # noqa: E402
import make_vectors as vectors  # noqa: E402
import makers  # noqa: E402
import printing  # noqa: E402
import rules  # noqa: E402
import steady_jobs  # noqa: E402
from chance import TOP_BIT, Chance  # noqa: E402
from make_scenarios import DESCRIPTION, U64_MAX, level_cause, mud, note, resting, specimen  # noqa: E402
from make_scenarios import widest, with_side, words  # noqa: E402
from make_vectors import FILLER, MANY, MOST_BYTES  # noqa: E402
from rules import DESCRIPTION_WORDS, HEADER_WORDS, Description, Job  # noqa: E402

SEED = 50_000
DRAWN = 65   # drawn vectors, sound and damaged
AGAIN = 35   # drawn jobs that are read and written again
WRITTEN = 0  # stands for an answer that is a length
ANSWERS = (WRITTEN, 3, 5, 6, 7, 8, 9, 17, 20)
ENDS = {5: 268, 6: 396, 7: 524, 8: 652, 9: 652}  # the words that causes up to this one look at


class Vector(NamedTuple):
    """A description's bytes, and the length of the job buffer that it is written into."""

    body: bytes
    room: int


def body_words(body: bytes) -> List[int]:
    """The words of a description's bytes; bytes missing of the last one are 0."""
    body += bytes(-len(body) % 8)
    return list(struct.unpack("<%dQ" % (len(body) // 8), body))


def cut_body(numbers: Sequence[int]) -> bytes:
    """Words as bytes, without the words of 0 at their end."""
    return words(lists.without_trailing(numbers, 0))


def needed(description: Description) -> int:
    """Length of the job that a description asks for, as far as its counts fit."""
    return rules.job_length([min(count, limits[1]) for count, limits in zip(description.counts(), rules.COUNTS)])


def fitting(description: Description, more: int = 0) -> Vector:
    """A description with a buffer of just the job's length, or with some bytes more."""
    return Vector(cut_body(description.words()), needed(description) + more)


def fitting_job(job: Job, more: int = 0) -> Vector:
    """The description of a job with a buffer of just the job's length, or with some bytes more."""
    return fitting(rules.job_description(job), more)


class Worked:
    """A vector, and what the reference makes of it. What is written is read back and written again."""

    def __init__(self, vector: Vector) -> None:
        assert len(vector.body) <= MOST_BYTES and vector.room <= MOST_BYTES
        self.body, self.room = vector
        self.description = rules.description_of(body_words(vector.body))
        self.buffer = bytearray([FILLER]) * vector.room
        self.number = rules.write_job(self.description, self.buffer)
        self.job: Optional[bytes] = bytes(self.buffer[:self.number]) if self.number >= rules.SHORTEST_JOB else None
        self.answer = self.number if self.job is None else WRITTEN
        if self.job is not None:
            self.read_back(self.job)

    def read_back(self, job: bytes) -> None:
        """Reading the job gives the description up to its counts, and writing that gives the job again."""
        read, again = rules.read_description(job), bytearray(len(job))
        assert rules.open_job(job)[0] == rules.ACCEPTED
        assert read.words()[:HEADER_WORDS] == self.description.words()[:HEADER_WORDS]
        assert read.groups() == self.description.groups()
        assert rules.write_job(read, again) == len(job) and again == job

    def output(self) -> bytes:
        """What the program writes of it."""
        return words([self.number]) + bytes(self.buffer)


# ----------------------------------------------------------------------------------------------------------------
# Written ones, and the limits
# ----------------------------------------------------------------------------------------------------------------

def light(**changes) -> Job:
    """The specimen without load, whose words end with the second curve."""
    return specimen(**{"table": [(0, 0)], **changes})


def least(**changes) -> Job:
    """One element, two points in each curve and one in the load table: the shortest job."""
    return light(**{"elements": [(1_000_000, 2_000_000)], **changes})


def limit_job(**changes) -> Job:
    """Two elements and two points everywhere, all at the limits."""
    return specimen(**{
        "bottom": 1, "gravity": 5_000, "top_level": 200_000_000_000, "bottom_level": 200_000_000_000,
        "end": 3_000_000_000, "budget": 1_000_000, "elements": [(100_000, 1), (100_000_000, 1_000_000_000)],
        "curve1": [(0, 1_000_000_000), (2_000_000_000, 1)], "curve2": [(1, 1), (1_000_000_000, 1_000_000_000)],
        "table": [(0, 2_000_000_000), (3_000_000_000, 2_000_000_000)], **changes})


def great_limit_job() -> Job:
    """As many elements and points as there can be, at the same limits."""
    job = with_side(widest(), "table", 0, 1, rules.STRESS[1])
    return with_side(job, "elements", 0, 0, rules.SOLIDS[0])


def written() -> Iterator[Tuple[int, Vector]]:
    """Jobs at the limits with none or a few bytes to spare; all are written that start 1 does not refuse for levels."""
    jobs = list(scenarios.accepted_edges()) + list(vectors.limit_jobs())
    jobs = [replace(job, table=[(0, 0)]) if job.table == specimen().table and job.start == 0 else job for job in jobs]
    jobs += [specimen(), least(), limit_job(), great_limit_job(), resting(limit_job(table=[(0, 1_000_000_000)]))]
    for top, bottom, start in itertools.product((0, 1), repeat=3):
        job = light(top=top, bottom=bottom, table=[(0, 9_000_000 * start)])
        jobs.append(resting(job) if start else job)
    for number, job in enumerate(jobs):
        vector, cause = fitting_job(job, (0, 0, 3, 16)[number % 4]), level_cause(job)
        assert Worked(vector).job == (None if cause else rules.job_bytes(job))
        yield cause or WRITTEN, vector


# Numbers at a limit in `limit_job`: cause when past it, list, place, side, and what is added to go past it.
PAIRS_AT_LIMITS = [
    (5, "elements", 0, 0, -1), (5, "elements", -1, 0, 1), (5, "elements", -1, 1, 1), (6, "curve1", 0, 1, 1),
    (6, "curve1", -1, 0, 1), (6, "curve1", -1, 1, -1), (7, "curve2", 0, 0, -1), (7, "curve2", 0, 1, -1),
    (7, "curve2", -1, 0, 1), (7, "curve2", -1, 1, 1), (8, "table", 0, 0, 1), (8, "table", 0, 1, 1),
    (8, "table", -1, 0, 1), (8, "table", -1, 1, 1)]


def past_limits() -> Iterator[Tuple[int, Vector]]:
    """Every number of a job at its limits put just past it."""
    for job in (limit_job(), great_limit_job()):
        for cause, name in ((3, "gravity"), (5, "top_level"), (5, "bottom_level"), (5, "end"), (5, "budget")):
            yield cause, fitting_job(replace(job, **{name: getattr(job, name) + 1}))
        for cause, name, place, side, more in PAIRS_AT_LIMITS:
            number = getattr(job, name)[place][side]
            yield cause, fitting_job(with_side(job, name, place, side, number + more))


def inside_limits() -> Iterator[Vector]:
    """Every number of a job at its limits put back by 1, which some other rule may not allow."""
    job = limit_job()
    for name in ("gravity", "top_level", "bottom_level", "end", "budget"):
        yield fitting_job(replace(job, **{name: getattr(job, name) - 1}))
    for _, name, place, side, more in PAIRS_AT_LIMITS:
        number = getattr(job, name)[place][side]
        yield fitting_job(with_side(job, name, place, side, max(0, number - more)))


def short_limits() -> Iterator[Tuple[int, Vector]]:
    """Both sides of the limits of cause 5, in lists so short that an empty first curve is refused next."""
    for name, limits in (("top_level", rules.LEVEL), ("bottom_level", rules.LEVEL), ("end", rules.CLOCK),
                         ("budget", rules.BUDGET)):
        for number in (0, 1, limits[1] - 1, limits[1], limits[1] + 1, 2 * limits[1], TOP_BIT - 1, TOP_BIT, U64_MAX):
            numbers = rules.job_description(least(bottom=1, **{name: number})).words()[:13]
            yield 6 if number <= limits[1] else 5, Vector(cut_body(numbers), 20)
    for number in (0, 1, 256, U64_MAX):
        numbers = rules.job_description(least(bottom_level=number)).words()[:13]
        yield 6 if number == 0 else 5, Vector(cut_body(numbers), 20)
    for count, place in ((1, 0), (3, 0), (3, 2), (128, 0), (128, 127)):
        job = light(elements=[(1_000_000, 0)] * count)
        for number in (0, 99_999, 100_000, 100_000_000, 100_000_001, U64_MAX):
            numbers = rules.job_description(with_side(job, "elements", place, 0, number)).words()
            yield 6 if rules.within(number, rules.SOLIDS) else 5, Vector(cut_body(numbers[:140]), 20)
        for number in (1, 1_000_000_000, 1_000_000_001, U64_MAX):
            wet = with_side(job, "elements", place, 1, number)
            for start in (0, 1):
                numbers = rules.job_description(replace(wet, start=start)).words()
                cause = 6 if start == 0 and number <= rules.WATER[1] else 5
                yield cause, Vector(cut_body(numbers[:268]), 20)


# ----------------------------------------------------------------------------------------------------------------
# Headers
# ----------------------------------------------------------------------------------------------------------------

FLAG = (0, 1)
START = (0, 2)
STATED = {"top": FLAG, "bottom": FLAG, "elements": rules.ELEMENTS, "curve1_count": rules.CURVE_POINTS,
          "curve2_count": rules.CURVE_POINTS, "table_count": rules.TABLE_POINTS, "start": FLAG,
          "gravity": rules.GRAVITY}


def header_numbers(number: int, limits: rules.Pair) -> List[int]:
    """Numbers on both sides of a range's limits, and those that a narrower field would keep as a right number."""
    numbers = {0, 1, 2, limits[0], limits[1], limits[1] - 1, limits[1] + 1, 64, 65, 128, 129, 255, 256, 257, 65_535,
               U64_MAX, TOP_BIT, max(0, limits[0] - 1)}
    numbers |= {number + more for more in (2**8, 2**16, 2**32, 2**48, TOP_BIT)} | {U64_MAX - 2**8 + 1 + number % 2**8}
    return sorted(numbers)


def headers() -> Iterator[Tuple[int, Vector]]:
    """Every number of the header in turn: alone, where no solids are refused next, and before a whole layer."""
    whole = rules.job_description(light())
    for name, limits in STATED.items():
        stated = START if name == "start" else limits
        for number in header_numbers(getattr(whole, name), limits):
            alone = replace(whole, **{name: number}).words()[:HEADER_WORDS]
            yield 5 if rules.within(number, stated) else 3, Vector(cut_body(alone), number % 20)
        for number in (limits[1] + 1, getattr(whole, name) + 2**16):
            yield 20 if (name, number) == ("start", 2) else 3, fitting(replace(whole, **{name: number}))
    for name, number, cause in (("elements", 3, 5), ("elements", 128, 5), ("curve1_count", 3, 6),
                                ("curve1_count", 64, 6), ("curve2_count", 3, 7), ("curve2_count", 64, 7),
                                ("table_count", 2, 8), ("table_count", 64, 8), ("elements", 1, WRITTEN)):
        yield cause, fitting(replace(whole, **{name: number}))._replace(room=160)


# ----------------------------------------------------------------------------------------------------------------
# Causes
# ----------------------------------------------------------------------------------------------------------------

def refused() -> Iterator[Tuple[int, Vector]]:
    """Causes 5 to 9 in every way in a layer that is sound but for it, and in some in a list that ends behind it."""
    number = 0
    for cause in range(5, 10):
        for job, end, every in ((light(), DESCRIPTION_WORDS, 1), (mud(), ENDS[cause], 4)):
            for data in list(scenarios.CAUSES[cause](job))[::every]:
                description = rules.read_description(data)
                enough = min(needed(description), 208)
                yield cause, Vector(cut_body(description.words()[:end]), (enough, 0, enough + 5, 1)[number % 4])
                number += 1


def places_in_64() -> Iterator[Tuple[int, Vector]]:
    """Points that are out of order or limits within 64, in lists that end behind them."""
    for number, (cause, vector) in enumerate(vectors.long_points()):
        if number % 2 == 0 or cause == 8:
            numbers = rules.read_description(vector.job).words()
            yield cause, Vector(cut_body(numbers[:ENDS[cause]]), 30)


def several_causes() -> Iterator[Tuple[int, Vector]]:
    """Descriptions with two causes and more at once; a short buffer is the last of them."""
    job = light(bottom=1, bottom_level=10_000_000)
    enough = needed(rules.job_description(job))
    faults = {cause: ways for cause, ways in scenarios.FAULTS.items() if cause >= 5}
    faults[3] = [lambda job: replace(job, gravity=999), scenarios.not_steady]
    for first, second in itertools.combinations(sorted(faults), 2):
        for spoil, spoil_next in zip(faults[first], faults[second]):
            numbers = rules.job_description(spoil_next(spoil(job))).words()
            cause = second if spoil is scenarios.not_steady else first
            yield cause, Vector(cut_body(numbers), (enough, enough - 1, 0)[(first + second) % 3])
    for cause, ways in sorted(faults.items()):
        for room in (0, enough - 1):
            spoil = ways[room % 2]
            yield 20 if spoil is scenarios.not_steady else cause, fitting_job(spoil(job))._replace(room=room)
    # all faults at once, then without the first, the first two, and so on
    for first in sorted(faults):
        spoiled = job
        for cause, ways in faults.items():
            if cause >= first:
                spoiled = ways[0](spoiled)
        yield first, fitting_job(spoiled)._replace(room=enough - 1)


# ----------------------------------------------------------------------------------------------------------------
# Buffers, lists of words, places past a count
# ----------------------------------------------------------------------------------------------------------------

def rooms() -> Iterator[Tuple[int, Vector]]:
    """Buffers of every length about the job's, the shortest and the longest."""
    for job, rest in ((light(), (0, 1, 47, 48, 143, 144, 152, 168, 400, 5_168, MOST_BYTES)),
                      (least(), (0, 48, 8_191)), (widest(), (0, 160, 5_152, MOST_BYTES))):
        description = rules.job_description(job)
        enough = needed(description)
        for room in sorted({enough - 2, enough - 1, enough, enough + 1}.union(rest)):
            vector = fitting(description)._replace(room=room)
            yield WRITTEN if room >= enough else 17, vector
    for job in (mud(), resting(mud()), light(start=1, elements=[(1_000_000, 0)], table=[(0, 9_000_000)])):
        for more, answer in ((-1, 17), (0, WRITTEN)):
            yield level_cause(job) or answer, fitting_job(job, more)


def word_lists() -> Iterator[Vector]:
    """Short and long lists of words, and bytes that are no whole words."""
    great, small = rules.job_description(widest()).words(), rules.job_description(light()).words()
    for count in (0, 1, 2, 7, 8, 9, 10, 11, 12, 13, 14, 139, 140, 141, 142, 267, 268, 269, 333, 334, 397, 398, 461, 462,
                  524, 588, 651, 652):
        yield Vector(words(small[:count]), 160)
    for count in (12, 140, 268, 396, 460, 524, 588, 650, 651, 652):
        yield Vector(words(great[:count]), 5_168 if count > 588 else 9)
    for numbers in (small, great):
        for more in (1, 372):
            yield Vector(words(numbers + [U64_MAX - place for place in range(more)]), 5_168 if numbers[2] > 2 else 160)
    yield Vector(words(small + [0] * 372), 160)
    yield Vector(words([0] * 1_024), 160)
    yield Vector(words([U64_MAX] * 1_024), 160)
    yield Vector(words([1] * 652), 160)
    body = words(small[:462])
    for less in range(1, 10):
        yield Vector(body[:-less], 160)
    for length in (1, 7, 9, 17, 63, 95, 97, 103, 105):
        yield Vector(body[:length], 17)
    for length, room in ((5_215, 5_168), (5_217, 5_168), (5_223, 5_168), (8_191, 5_170)):
        yield Vector((words(great) + bytes([255]) * MOST_BYTES)[:length], room)


def filled(description: Description, even: int) -> Description:
    """The same with a number in every place past a count."""
    numbers, at = description.words(), HEADER_WORDS
    for array, places in enumerate(rules.ARRAY_PLACES):
        for place in range(description.counts()[array // 2], places):
            numbers[at + place] = U64_MAX - place if place % 2 == even else place + 1
        at += places
    return rules.description_of(numbers)


def places_past_counts() -> Iterator[Tuple[int, Vector]]:
    """Numbers in the places past the counts, which are neither looked at nor written."""
    for job in (light(), least(), mud(), resting(mud()), vectors.long_mud()):
        yield level_cause(job) or WRITTEN, fitting(filled(rules.job_description(job), 0), 20)
    yield 17, fitting(filled(rules.job_description(mud()), 1), -1)
    for cause in (5, 6, 7, 8, 9):
        yield cause, fitting(filled(rules.job_description(scenarios.FAULTS[cause][0](mud())), cause % 2))
    # the places of a longer list, which a lesser count leaves out
    longer = rules.job_description(limit_job(
        elements=[(100_000, 1)] * 3, curve1=[(0, 1_000_000_000), (1_999_999_999, 2), (2_000_000_000, 1)],
        curve2=[(1, 1), (1_000_000_000, 1_000_000_000), (0, 0)]))
    for changes in ({"curve2_count": 2}, {"curve2_count": 2, "elements": 1}, {"curve2_count": 2, "curve1_count": 2},
                    {"curve2_count": 2, "table_count": 1}):
        yield WRITTEN, fitting(replace(longer, **changes))
    yield 7, fitting(longer)


# ----------------------------------------------------------------------------------------------------------------
# Steady layers
# ----------------------------------------------------------------------------------------------------------------

NO_STARTS = (3, 4, 255, 256, 257, 258, 2**16 + 2, 2**32, 2**32 + 1, 2**32 + 2, TOP_BIT + 2, U64_MAX - 1, U64_MAX)


def steady() -> Iterator[Tuple[int, Vector]]:
    """A quarter of the jobs of each kind of note 3, some with buffers that would not do as well, which is the last
    cause; numbers that are no start, in a steady layer and alone; places past the counts."""
    for jobs in steady_jobs.made_kinds().values():
        described = [(cause, job) for cause, job in jobs if cause not in (1, 2) and job.spare == bytes(2)]
        quarter = [pair for number, pair in enumerate(described) if (number + number // 4) % 4 == 0]
        for number, (cause, job) in enumerate(quarter):
            vector = fitting_job(job)
            yield cause or WRITTEN, vector._replace(room=vector.room + (0, 0, 9)[number % 3])
            if number % 3 == 0:
                yield cause or 17, vector._replace(room=(vector.room - 1, 0)[number % 2])
    steady_job, uneven_job = [steady_jobs.made_kinds()[kind][0][1] for kind in ("equal_flows", "flows_by_2")]
    for number, start in enumerate(NO_STARTS):
        numbers = replace(rules.job_description(steady_job), start=start).words()
        yield 3, Vector(cut_body(numbers if number % 3 == 0 else numbers[:HEADER_WORDS]), 200)
    yield WRITTEN, fitting(filled(rules.job_description(steady_job), 1))
    yield 20, fitting(filled(rules.job_description(uneven_job), 0))


# ----------------------------------------------------------------------------------------------------------------
# Drawn descriptions
# ----------------------------------------------------------------------------------------------------------------

def drawn_room(chance: Chance, description: Description) -> int:
    """A buffer's length: mostly enough, with none or a few bytes to spare."""
    enough = needed(description)
    return chance.pick([enough] * 6 + [enough + chance.between(0, 50)] * 2 + [enough - 1, chance.between(0, enough)])


def drawn_vector(index: int) -> Vector:
    """A description, sound or damaged, mostly a small one, and a buffer."""
    chance = Chance(SEED, index)
    most = 5_168 if chance.one_in(25) else 480
    while True:
        description = makers.made_description(chance, 3)
        if needed(description) <= most:
            return Vector(cut_body(description.words()), drawn_room(chance, description))


def drawn_again(index: int) -> Vector:
    """The description that a drawn job is read as, which has to be written as that job unless start 1 is refused for
    its levels."""
    chance = Chance(SEED, DRAWN + index)
    while True:
        job = scenarios.drawn_job(chance, 10)
        if makers.open_at_any_level(job)[0] == rules.ACCEPTED:
            vector = fitting(rules.read_description(job), chance.pick([0, 0, 1, 24]))
            assert Worked(vector).job == (None if level_cause(rules.read_job(job)) else job)
            return vector


# ----------------------------------------------------------------------------------------------------------------
# The files
# ----------------------------------------------------------------------------------------------------------------

# What has to be among the written vectors.
KINDS: Dict[str, Callable[[Worked], bool]] = {
    "one element": lambda w: w.description.elements == 1,
    "128 elements": lambda w: w.description.elements == 128,
    "two points": lambda w: w.description.counts()[1:3] == [2, 2],
    "64 points": lambda w: w.description.counts()[1:] == [64, 64, 64],
    "the shortest job": lambda w: w.number == 144,
    "the longest job": lambda w: w.number == 5_168,
    "a buffer of the job's length": lambda w: w.room == w.number,
    "room to spare": lambda w: w.room > w.number,
    "fewer words than all": lambda w: len(w.body) < 8 * DESCRIPTION_WORDS,
    "just all words": lambda w: len(w.body) == 8 * DESCRIPTION_WORDS,
    "more words than all": lambda w: len(w.body) > 8 * DESCRIPTION_WORDS,
    "a word that is not whole": lambda w: len(w.body) % 8 > 0,
    "one steady element": lambda w: (w.description.start, w.description.elements) == (2, 1),
    "128 steady elements": lambda w: (w.description.start, w.description.elements) == (2, 128)}


def of_faces(top: int, bottom: int, start: int) -> Callable[[Worked], bool]:
    """The kind of descriptions with these faces and this start."""
    return lambda w: (top, bottom, start) == (w.description.top, w.description.bottom, w.description.start)


KINDS.update(("top %d, bottom %d, start %d" % faces, of_faces(*faces))
             for faces in itertools.product(FLAG, FLAG, rules.STARTS))


class Counts:
    """How many vectors gave each answer, and how many written ones were of each kind."""

    def __init__(self) -> None:
        self.answers: Dict[int, int] = {}
        self.kinds: Dict[str, int] = dict.fromkeys(KINDS, 0)

    def add(self, worked: Worked) -> None:
        """Count a vector."""
        note(self.answers, worked.answer)
        if worked.job is not None:
            for name, holds in KINDS.items():
                self.kinds[name] += holds(worked)

    def missing(self) -> List[str]:
        """What there is too little of."""
        assert set(self.answers) <= set(ANSWERS)
        return (["answer %d" % answer for answer in ANSWERS if self.answers.get(answer, 0) < MANY]
                + [name for name, count in self.kinds.items() if count == 0])

    def summary(self) -> str:
        """How many of each."""
        refusals = ", ".join("%d: %d" % pair for pair in sorted(self.answers.items()) if pair[0] != WRITTEN)
        return "%d descriptions; written %d; refused %s" % (
            sum(self.answers.values()), self.answers.get(WRITTEN, 0), refusals)


def expected(pairs: Iterator[Tuple[int, Vector]]) -> List[Vector]:
    """Vectors to which the reference gives the answer that they were made for."""
    made = []
    for answer, vector in pairs:
        assert Worked(vector).answer == answer, (answer, Worked(vector).number, body_words(vector.body)[:HEADER_WORDS])
        made.append(vector)
    return made


def all_vectors() -> Dict[str, List[Vector]]:
    """The vectors of every file, in the order of the files."""
    return {"job_written": expected(written()), "job_limits": expected(past_limits()) + list(inside_limits()),
            "job_fields": expected(short_limits()), "job_headers": expected(headers()),
            "job_refused": expected(refused()), "job_points": expected(places_in_64()),
            "job_causes": expected(several_causes()), "job_rooms": expected(rooms()),
            "job_words": list(word_lists()), "job_places": expected(places_past_counts()),
            "job_drawn": [drawn_vector(index) for index in range(DRAWN)],
            "job_again": [drawn_again(index) for index in range(AGAIN)], "job_steady": expected(steady())}


def vector_bytes(vector: Vector) -> bytes:
    """The bytes of a vector."""
    return words([DESCRIPTION, len(vector.body), vector.room]) + vector.body


def file_bytes(items: List[Vector]) -> bytes:
    """The bytes of a file of vectors."""
    return words([len(items)]) + b"".join(map(vector_bytes, items))


def made_files() -> Tuple[Dict[str, bytes], Counts]:
    """The crate's files, by their paths in it, and what is among them."""
    made, outputs, counts = {}, [], Counts()
    for name, items in all_vectors().items():
        made[os.path.join("data", name)] = file_bytes(items)
        outputs.append(name.encode("ascii") + b"\n")
        for vector in items:
            worked = Worked(vector)
            counts.add(worked)
            outputs.append(worked.output())
    made["args"] = "".join(name[5:] + "\n" for name in made).encode("ascii")
    made["stdout"] = b"".join(outputs)
    return made, counts


def show(vector: Vector) -> List[str]:
    """A vector as tables."""
    worked = Worked(vector)
    numbers = list(vars(worked.description).items())[:HEADER_WORDS]
    lines = ["%s %d" % pair for pair in numbers]
    for (title, heads), pairs in zip(printing.TABLES, worked.description.groups()):
        lines += printing.table_rows(title, heads, pairs)
    return lines + ["", "%d bytes, room %d, answer %d" % (len(vector.body), vector.room, worked.number)]


def main() -> int:
    """Make the files, and write, compare or show them."""
    parser = argparse.ArgumentParser(description=__doc__, formatter_class=argparse.RawDescriptionHelpFormatter)
    parser.add_argument("--check", action="store_true", help="compare with the stored files")
    parser.add_argument("--show", nargs=2, metavar=("FILE", "NUMBER"), help="show one vector")
    chosen = parser.parse_args()
    if chosen.show:
        print("\n".join(show(all_vectors()[chosen.show[0]][int(chosen.show[1])])))
        return 0
    made, counts = made_files()
    print(counts.summary())
    missing = counts.missing()
    if missing:
        print("too few of: %s" % "; ".join(missing), file=sys.stderr)
        return 1
    if chosen.check:
        return scenarios.check(made, scenarios.JOBS)
    scenarios.write(made, scenarios.JOBS)
    for name, data in made.items():
        print("%10d %s" % (len(data), name))
    return 0


if __name__ == "__main__":
    sys.exit(main())
