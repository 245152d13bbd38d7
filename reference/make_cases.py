#!/usr/bin/env python3
"""Writes cases for tests/harness.c to standard output: jobs, descriptions, readings and steps to divide, lengths of the
buffers that they are worked into, and the reference's answers.

    python3 make_cases.py SEED COUNT

The same seed and count always give the same cases, at least COUNT jobs, then at least COUNT descriptions, then at least
a third as many jobs with readings, then at least a third as many jobs with seconds.

OUTPUT  Words are 64 bits, little-endian. For each case: kind (1 a job for the key, 2 a description for the writer of
        jobs, 3 a job with readings, 4 a job with the seconds of a step to divide); bytes of the job or of the
        description's words; bytes of the readings' words, or of the word with the seconds, else 0; room (bytes of the
        buffer); bytes of the second buffer, which is that of the remainders, else 0; number that has to be returned, in
        two's complement; bytes that have to be written at the start of the buffer, or of each of two, none if it is
        refused; the job or the words; the readings or the seconds; the bytes to be written, which for readings are
        words too, and for seconds the words of the flows, then those of the remainders. After the last case a 0 and the
        number of cases.
"""

from __future__ import annotations

import argparse
import os
import struct
import sys
from typing import Callable, Iterator, List, Sequence, Tuple

HERE = os.path.dirname(os.path.abspath(__file__))
sys.path.insert(0, HERE)

import damage  # noqa: E402
import description_cases as descriptions  # noqa: E402
import division  # noqa: E402
import division_cases as divisions  # noqa: E402
import make_descriptions  # noqa: E402
import makers  # noqa: E402
import piezometer  # noqa: E402
import reading_cases as readings  # noqa: E402
import rules  # noqa: E402
import steady_jobs  # noqa: E402
from chance import Chance  # noqa: E402
from make_scenarios import words  # noqa: E402
from make_vectors import Vector, needed  # noqa: E402

SHORT_RUN, LONG_RUN = 150, 20_000  # element-steps of a run
SMALL = 400                        # bytes of a small job
MOST_ROOM = 8_192

KEY_CASE, WRITER_CASE, READINGS_CASE, FLOWS_CASE = 1, 2, 3, 4


def case_bytes(vector: Vector) -> bytes:
    """A case of a job, with the reference's answer."""
    buffer = bytearray(vector.room)
    number = rules.key_into(vector.job, buffer)
    result = b"" if number else bytes(buffer[:needed(vector.job)])
    return words([KEY_CASE, len(vector.job), 0, vector.room, 0, number, len(result)]) + vector.job + result


def description_case_bytes(vector: make_descriptions.Vector) -> bytes:
    """A case of a description, with the reference's answer; a job that is written is read back as well."""
    worked = make_descriptions.Worked(vector)
    job = worked.job or b""
    return words([WRITER_CASE, len(vector.body), 0, vector.room, 0, worked.number, len(job)]) + vector.body + job


def readings_case_bytes(vector: readings.Vector) -> bytes:
    """A case of a job with readings, with the reference's answers."""
    answers = [0] * vector.room
    number = piezometer.readings_into(vector.job, vector.words, answers)
    given, written = words(vector.words), b"" if number else words(answers[:readings.needed(vector.words)])
    head = words([READINGS_CASE, len(vector.job), len(given), 8 * vector.room, 0, number, len(written)])
    return head + vector.job + given + written


def flows_case_bytes(vector: divisions.Vector) -> bytes:
    """A case of a job with seconds, with the reference's flows and remainders."""
    flows, remainders = [0] * vector.flows, [0] * vector.remainders
    number = division.flows_into(vector.job, vector.seconds, flows, remainders)
    count = max(0, number)
    head = words([FLOWS_CASE, len(vector.job), 8, 8 * vector.flows, 8 * vector.remainders, number, 8 * count])
    return head + vector.job + words([vector.seconds] + flows[:count] + remainders[:count])


# ----------------------------------------------------------------------------------------------------------------
# Families of cases, drawn in groups
# ----------------------------------------------------------------------------------------------------------------

def near_enough(chance: Chance, job: bytes) -> int:
    """A buffer's length: mostly enough for the job."""
    return max(0, needed(job) + chance.pick([0, 0, 0, 0, 0, 1, 3, 40, -1, -40]))


def small_job(chance: Chance) -> bytes:
    """A small job that is accepted."""
    while True:
        job = rules.job_bytes(makers.make_job(chance))
        if len(job) <= SMALL and rules.open_job(job)[0] == 0:
            return job


def sound(chance: Chance) -> Iterator[Vector]:
    """A job that is mostly accepted."""
    job = rules.job_bytes(makers.make_job(chance))
    yield Vector(job, near_enough(chance, job))


def long_run(chance: Chance) -> Iterator[Vector]:
    """A small job with a longer run."""
    makers.AFFORDABLE = LONG_RUN
    job = small_job(chance)
    makers.AFFORDABLE = SHORT_RUN
    yield Vector(job, needed(job))


def damaged(chance: Chance) -> Iterator[Vector]:
    """A job damaged in each way, and twice."""
    for way in damage.DAMAGES:
        job = makers.affordable_job(way(chance, makers.make_job(chance)))
        yield Vector(job, near_enough(chance, job))
    job = chance.pick(damage.DAMAGES)(chance, makers.make_job(chance))
    offset = chance.between(0, len(job))
    new = bytes([chance.between(0, 255)]) if offset < len(job) else b""
    job = makers.affordable_job(damage.changed(job, offset, new))
    yield Vector(job, near_enough(chance, job))


def headers(chance: Chance) -> Iterator[Vector]:
    """Every byte of a job's header changed to other values."""
    job = small_job(chance)
    for offset in range(rules.JOB_HEADER):
        old = job[offset]
        values = {0, 1, 2, 3, 64, 65, 128, 129, 255, old ^ 1, old ^ 128, (old + 1) % 256, (old - 1) % 256}
        for value in sorted(values - {old}):
            changed = makers.affordable_job(damage.changed(job, offset, bytes([value])))
            yield Vector(changed, needed(job))


def truncations(chance: Chance) -> Iterator[Vector]:
    """Every length that a job can be cut to, and a few that are too long."""
    job = small_job(chance)
    for length in range(len(job)):
        yield Vector(job[:length], needed(job))
    for more in (1, 7, 8, 15, 16, 17, 5_000):
        yield Vector(job + bytes(more), needed(job))


def rooms(chance: Chance) -> Iterator[Vector]:
    """Buffers of every length about the needed one, none at all, a byte, and a large one."""
    job = rules.job_bytes(makers.make_job(chance))
    for more in range(-3, 4):
        yield Vector(job, needed(job) + more)
    for room in (0, 1, 56, MOST_ROOM):
        yield Vector(job, room)


def random_bytes(chance: Chance) -> Iterator[Vector]:
    """Any bytes, with and without a right mark, header and length."""
    def some(count: int) -> bytes:
        return b"".join(bytes([chance.draw() & 255]) for _ in range(count))

    right = b"LSC" + struct.pack("<H7BH", 1, 1, 1, 1, 2, 2, 1, chance.between(0, 2), 2_650) + b"\0\0"
    for head in (b"", b"LSC", b"LSC\1\0", right[:12]):
        yield Vector(head + some(chance.between(0, 200)), chance.between(0, 200))
    body = b"".join(words([chance.scaled(0, chance.pick([10**3, 10**9, rules.U64_MAX]))]) for _ in range(16))
    job = makers.affordable_job(right + body)
    yield Vector(job, needed(job))


def steady(chance: Chance) -> Iterator[Vector]:
    """Jobs in start 2 that are steady or nearly so, and one of them damaged and with another start, height and room."""
    for _ in range(3):
        job = steady_jobs.drawn_steady(chance)
        data = makers.affordable_job(rules.job_bytes(job))
        yield Vector(data, near_enough(chance, data))
    others = [steady_jobs.changed_water(job, chance.between(0, len(job.elements) - 1), more) for more in (1, -1, 2, -9)]
    for other in map(rules.job_bytes, others):
        yield Vector(makers.affordable_job(other), needed(other))
    for start in (0, 1, 3):
        other = makers.affordable_job(damage.changed(data, 11, bytes([start])))
        yield Vector(other, near_enough(chance, other))
    resting = rules.job_bytes(makers.emptied(job))
    yield Vector(makers.affordable_job(resting), needed(resting))
    other = makers.affordable_job(chance.pick(damage.DAMAGES)(chance, rules.read_job(rules.job_bytes(job))))
    yield Vector(other, near_enough(chance, other))
    yield Vector(data, chance.between(0, needed(data) - 1))


# Families in the order of the stream, with their shares of the count in hundredths; sound jobs make up the rest.
FAMILIES: List[Tuple[int, Callable[[Chance], Iterator[Vector]]]] = [
    (6, truncations), (16, headers), (10, rooms), (4, random_bytes), (26, damaged), (12, steady)]
LONG_RUNS = 1_000  # one longer run in so many cases
FIRST_DESCRIPTION = 2**31  # number of the group before the first of descriptions
FIRST_READINGS = 3 * 2**30  # number of the group before the first of readings
JOBS_TO_READINGS = 3        # so many jobs for the key to one with readings
FIRST_FLOWS = 7 * 2**29     # number of the group before the first of seconds
JOBS_TO_FLOWS = 3           # so many jobs for the key to one with seconds


class Groups:
    """Groups of cases; each depends on the seed and its own number alone."""

    def __init__(self, seed: int, index: int) -> None:
        self.seed, self.index, self.made = seed, index, 0

    def group(self, family: Callable[[Chance], Iterator]) -> Iterator:
        """The next group of a family."""
        self.index += 1
        for vector in family(Chance(self.seed, self.index)):
            self.made += 1
            yield vector

    def until(self, count: int, family: Callable[[Chance], Iterator]) -> Iterator:
        """Groups of a family until there are so many cases."""
        while self.made < count:
            yield from self.group(family)

    def shares(self, count: int, families: Sequence[Tuple[int, Callable[[Chance], Iterator]]]) -> Iterator:
        """Groups of every family, up to its share of a count."""
        bound = 0
        for share, family in families:
            bound += count * share // 100
            yield from self.until(bound, family)


def cases(seed: int, count: int) -> Iterator[Vector]:
    """At least so many jobs."""
    makers.AFFORDABLE = SHORT_RUN
    groups = Groups(seed, 0)
    yield from groups.shares(count, FAMILIES)
    for _ in range(count // LONG_RUNS):
        yield from groups.group(long_run)
    yield from groups.until(count, sound)


def description_cases(seed: int, count: int) -> Iterator[make_descriptions.Vector]:
    """At least so many descriptions."""
    makers.AFFORDABLE = SHORT_RUN
    groups = Groups(seed, FIRST_DESCRIPTION)
    yield from groups.shares(count, descriptions.FAMILIES)
    yield from groups.until(count, descriptions.sound)


def reading_cases(seed: int, count: int) -> Iterator[readings.Vector]:
    """At least so many jobs with readings."""
    makers.AFFORDABLE = SHORT_RUN
    groups = Groups(seed, FIRST_READINGS)
    yield from groups.shares(count, readings.FAMILIES)
    yield from groups.until(count, readings.sound)


def flows_cases(seed: int, count: int) -> Iterator[divisions.Vector]:
    """At least so many jobs with seconds."""
    makers.AFFORDABLE = SHORT_RUN
    groups = Groups(seed, FIRST_FLOWS)
    yield from groups.shares(count, divisions.FAMILIES)
    yield from groups.until(count, divisions.sound)


def all_cases(seed: int, count: int) -> Iterator[bytes]:
    """The bytes of all cases: jobs, descriptions, readings, seconds."""
    yield from map(case_bytes, cases(seed, count))
    yield from map(description_case_bytes, description_cases(seed, count))
    yield from map(readings_case_bytes, reading_cases(seed, -(-count // JOBS_TO_READINGS)))
    yield from map(flows_case_bytes, flows_cases(seed, -(-count // JOBS_TO_FLOWS)))


def main() -> int:
    """Write the cases of a command line."""
    parser = argparse.ArgumentParser(description=__doc__, formatter_class=argparse.RawDescriptionHelpFormatter)
    parser.add_argument("seed", type=int, metavar="SEED", help="a whole number of 0 or more")
    parser.add_argument("count", type=int, metavar="COUNT",
                        help="how many jobs and how many descriptions at least; a third as many jobs with readings, "
                             "and as many with seconds")
    chosen = parser.parse_args()
    written = 0
    try:
        for data in all_cases(chosen.seed, chosen.count):
            sys.stdout.buffer.write(data)
            written += 1
        sys.stdout.buffer.write(words([0, written]))
        sys.stdout.flush()
    except BrokenPipeError:  # the reader has seen enough
        os.dup2(os.open(os.devnull, os.O_WRONLY), sys.stdout.fileno())
        return 1
    return 0


if __name__ == "__main__":
    sys.exit(main())
