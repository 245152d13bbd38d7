#!/usr/bin/env python3
"""Makes the jobs that the program `scenarios` passes to the key, and the bytes that it has to write.

    python3 make_vectors.py            write both anew
    python3 make_vectors.py --check    make both anew and compare; exit status 1 where a stored file differs
    python3 make_vectors.py --show FILE NUMBER    one job as tables, with its room and its answer

Every answer is the reference's. What is drawn is drawn by the reference's own generator from a fixed seed, so the
files are the same on every machine.

INPUT   Files of vectors, key_*, named in the file `args` after those of the lists. Words are 64 bits, little-endian.
        file      number of vectors, then the vectors
        vector    kind (2), bytes of the job (at most 8,192), room (bytes of the result buffer, at most 8,192); the job

OUTPUT  For each file a line with its name; for each vector one byte with the number that the key returns, then the
        whole result buffer as the key leaves it. Each byte of the buffer is 165 before the call.
"""

from __future__ import annotations

import argparse
import itertools
import os
import struct
import sys
from dataclasses import replace
from typing import Callable, Dict, Iterator, List, NamedTuple, Optional, Tuple

HERE = os.path.dirname(os.path.abspath(__file__))
sys.path.insert(0, HERE)

import damage  # noqa: E402
import make_scenarios as scenarios  # noqa: E402
import makers  # noqa: E402
import printing  # noqa: E402
import rules  # noqa: E402
import steady_jobs  # noqa: E402
from chance import Chance  # noqa: E402
from make_scenarios import KEY, mud, note, resting, specimen, widest, with_side, words  # noqa: E402

SEED = 30_000
DRAWN = 420         # drawn vectors
DRAWN_STEADY = 120  # drawn vectors in start 2
FILLER = 165        # every byte of a result buffer before the call
MOST_BYTES = 8_192  # of a job, and of a result buffer
MANY = 20           # at least so many vectors of every refusal number and every stop
REFUSALS = tuple(range(11)) + (rules.NOT_STEADY,)


class Vector(NamedTuple):
    """A job's bytes, and the length of the result buffer that it is worked into."""

    job: bytes
    room: int


def needed(job: bytes) -> int:
    """Length of the result that a job's element count asks for, as far as there is one."""
    return rules.result_length(job[7]) if len(job) > 7 else rules.result_length(1)


def fitting(job: rules.Job) -> Vector:
    """A job with a buffer of just the result's length."""
    return Vector(rules.job_bytes(job), rules.result_length(len(job.elements)))


class Worked:
    """A vector, and what the reference makes of it."""

    def __init__(self, vector: Vector) -> None:
        assert len(vector.job) <= MOST_BYTES and vector.room <= MOST_BYTES
        self.job, self.room = vector
        self.buffer = bytearray([FILLER]) * vector.room
        self.refusal = rules.key_into(vector.job, self.buffer)
        self.parts: Optional[rules.Job] = None if self.refusal else rules.read_job(vector.job)
        if self.parts is not None:
            self.stop = self.buffer[5]
            self.clock, self.steps, self.load, self.top, self.bottom, self.settlement = struct.unpack(
                "<QQQqqq", self.buffer[8:56])
            self.rows = [struct.unpack("<QQQqq", self.buffer[at:at + 40])
                         for at in range(56, needed(vector.job), 40)]

    def output(self) -> bytes:
        """What the program writes of it."""
        return bytes([self.refusal]) + bytes(self.buffer)


# ----------------------------------------------------------------------------------------------------------------
# Accepted jobs
# ----------------------------------------------------------------------------------------------------------------

WHOLE = [(1, 1), (1_000_000_000, 1_000_000_000)]
FAST = [(1, 1_000_000_000), (1_000_000_000, 1_000_000_000)]


def long_mud(**changes) -> rules.Job:
    """Mud with 64 points in both curves and in the load table."""
    return mud(curve1=[(1_000_000 + 3_000_000 * i, 300_000_000 - 3_300_000 * i) for i in range(64)],
               curve2=[(80_000_000 + 4_000_000 * i, 2_000 + 900 * i) for i in range(64)],
               table=[(150 * i, 5_000_000 + 1_000_000 * (i % 7) * (i % 5)) for i in range(64)], **changes)


def limit_jobs() -> Iterator[rules.Job]:
    """Jobs at a limit, or at the nearest order of points, that are still accepted."""
    for changes in ({"gravity": 1_000}, {"gravity": 1_001}, {"gravity": 4_999}, {"top_level": 199_999_999_999},
                    {"end": 2_999_999_999}, {"budget": 999_999}, {"end": 0, "budget": 0}, {"end": 1}):
        yield specimen(**changes)
    for level in (0, 1, 199_999_999_999, 200_000_000_000):
        yield specimen(bottom=1, bottom_level=level)
    for solids in (100_000, 100_001, 99_999_999, 100_000_000):
        yield specimen(elements=[(solids, 2 * solids)])
        yield resting(specimen(elements=[(solids, 0)]))
    yield from (widest(elements=[(100_000_000, 1_000_000_000)] * 2), widest(elements=[(100_000_000, 1)] * 2, budget=9))
    for curve in ([(5_000_000, 200_000_000), (5_000_001, 100_000_000)],
                  [(5_000_000, 200_000_000), (5_000_001, 199_999_999), (2_000_000_000, 199_999_998)],
                  [(0, 1_000_000_000), (1, 200_000_000), (2, 1)]):
        yield specimen(curve1=curve, curve2=WHOLE)
    yield specimen(curve2=[(100_000_000, 5), (100_000_001, 5), (100_000_002, 6), (200_000_000, 6)])
    yield specimen(table=[(i, 15_000_000 - i) for i in range(64)])
    yield specimen(table=[(0, 0), (2_999_999_999, 2_000_000_000), (3_000_000_000, 0)])
    yield from (long_mud(), resting(long_mud()), long_mud(elements=[(1_000_000, 2_000_000)] * 40, budget=12))


def run_jobs() -> Iterator[rules.Job]:
    """Runs to every stop, in the starts 0 and 1, through every pair of faces."""
    for top, bottom in ((0, 0), (0, 1), (1, 0), (1, 1)):
        for level in (0, 10_000_000, 60_000_000)[:1 + 2 * bottom]:
            faces = {"top": top, "bottom": bottom, "bottom_level": level}
            for job in (specimen(**faces), mud(**faces), specimen(elements=[(1_000_000, 1_900_000)], **faces)):
                for end, budget in ((0, 5), (2_000, 0), (2_000, 7), (2_000, 1_000), (0, 0)):
                    yield replace(job, end=end, budget=budget)
                yield resting(job, end=2_000, budget=300)
                yield replace(job, end=99, budget=9, curve2=FAST)
                yield replace(job, end=3_000, budget=200, table=[(0, 1_900_000_000)])
                yield replace(job, end=3_000, budget=200, table=[(0, 90_000_000), (900, 0), (1_500, 30_000_000)])
    # the steps end at table times, at the end and at the limit of a step
    yield specimen(table=[(0, 15_000_000), (3, 15_000_005), (10, 15_000_000)], end=2_000, budget=5)
    yield specimen(top=0, elements=[(1_000_000, 2_000_000)], end=3_000_000_000, budget=1_000_000)
    yield specimen(top=0, elements=[(1_000_000, 2_000_000)], end=3_000_000_000, budget=2_999)
    yield specimen(curve2=[(100_000_000, 1), (200_000_000, 1)], end=3_000_000, budget=1_000_000)
    # water drawn in through either face: outflows and settlement below 0; a low top level: pore pressure below 0
    yield specimen(elements=[(1_000_000, 1_100_000)] * 3, table=[(0, 6_000_000)], end=20_000, budget=90)
    yield specimen(elements=[(1_000_000, 1_100_000)] * 3, table=[(0, 6_000_000)], end=20_000, budget=90,
                   top=0, bottom=1, bottom_level=10_000_000)
    yield mud(bottom_level=10_000_000_000, end=400, budget=200)
    yield mud(top_level=0, bottom_level=0, table=[(0, 2_000_000), (500, 0)], end=4_000, budget=200)
    # long runs
    yield specimen(end=3_000_000_000, budget=6_000)
    yield replace(scenarios.million(), end=3_000_000_000, budget=20_000)
    yield mud(end=3_000_000_000, budget=2_000)
    yield specimen(elements=[(1_000_000 + 7 * j, 1_990_000) for j in range(127)], gravity=2_650, bottom=1, end=4_000,
                   budget=8)
    yield specimen(elements=[(1_000_000, 1_990_000)] * 128, end=4_000, budget=20)
    yield resting(specimen(elements=[(500_000 + 900 * j, 0) for j in range(128)], gravity=2_000), end=9_000, budget=15)
    yield widest(budget=6)


def accepted() -> Iterator[Vector]:
    """Accepted jobs at the limits with short runs, each with a buffer of just the result's length."""
    for job in list(scenarios.accepted_edges()) + list(limit_jobs()):
        data = makers.affordable_job(rules.job_bytes(job))
        yield Vector(data, needed(data))


def runs() -> Iterator[Vector]:
    """Runs, with a few bytes to spare for some."""
    for number, job in enumerate(run_jobs()):
        vector = fitting(job)
        yield vector._replace(room=vector.room + (0, 0, 3, 16)[number % 4])


# ----------------------------------------------------------------------------------------------------------------
# Refused jobs
# ----------------------------------------------------------------------------------------------------------------

def refused() -> Iterator[Tuple[int, Vector]]:
    """Each cause of a refused opening in every way, with buffers that would do, and that would not."""
    number = 0
    for cause, ways in scenarios.CAUSES.items():
        for job in (specimen(), mud()):
            for data in ways(job):
                enough = min(needed(data), 176)
                room = (enough, enough + 5, enough - 1, 0, enough, 1)[number % 6]
                yield scenarios.made_cause(cause, data), Vector(data, room)
                number += 1


def long_points() -> Iterator[Tuple[int, Vector]]:
    """Points that are out of order within, at the ends and in the middle of 64."""
    job = long_mud()
    for cause, name, orders in ((6, "curve1", (1, -1)), (7, "curve2", (1, 1)), (8, "table", (1, 0))):
        for place in (1, 31, 62, 63):
            for side, order in enumerate(orders):
                if order != 0:
                    before = getattr(job, name)[place - 1][side]
                    strict = (name, side) != ("curve2", 1)
                    yield cause, fitting(with_side(job, name, place, side, before if strict else before - 1))
    for cause, name, side, number in ((6, "curve1", 0, 2_000_000_001), (6, "curve1", 1, 0),
                                      (7, "curve2", 0, 1_000_000_001), (7, "curve2", 1, 0),
                                      (8, "table", 0, 3_000_000_001), (8, "table", 1, 2_000_000_001)):
        for place in (32, 63):
            yield cause, fitting(with_side(job, name, place, side, number))


def several_causes() -> Iterator[Tuple[int, Vector]]:
    """Jobs with two causes and more at once; a short buffer is the last of them."""
    for job in (specimen(), mud()):
        for number, (cause, data) in enumerate(scenarios.two_causes(job)):
            yield cause, Vector(data, (needed(data), needed(data) - 1, 0)[number % 3])
        enough = rules.result_length(len(job.elements))
        for cause, faults in scenarios.FAULTS.items():
            for fault in faults:
                data = rules.job_bytes(fault(job)) + bytes(8 if cause == 4 else 0)
                for room in (0, 56, enough - 1, enough):
                    yield scenarios.made_cause(cause, data), Vector(data, room)
        # all faults at once, then without the first, the first two, and so on
        for first in range(1, 11):
            spoiled = job
            for cause in range(first, 10):
                spoiled = scenarios.FAULTS[cause][0](spoiled)
            data = rules.job_bytes(spoiled) + bytes(8 if first <= 4 else 0)
            yield first, Vector(data, enough - 1)
            yield first if first < 10 else 0, Vector(data, enough)


def header_bytes() -> Iterator[Vector]:
    """Every byte of the header changed in turn."""
    for job, flips in ((specimen(), (1, 2, 128, 255)), (mud(), (1, 64)), (resting(specimen()), (1,))):
        data = rules.job_bytes(job)
        for offset in range(rules.JOB_HEADER):
            for flip in flips:
                yield Vector(damage.changed(data, offset, bytes([data[offset] ^ flip])), 136)


def rooms() -> Iterator[Vector]:
    """Buffers of every length about the result's, the shortest and the longest."""
    for job in (specimen(), mud(), resting(specimen()), specimen(elements=[(1_000_000, 2_000_000)])):
        data = rules.job_bytes(job)
        enough = needed(data)
        for room in list(range(enough - 9, enough + 10)) + [0, 1, 7, 8, 55, 56, 57, enough - 40, enough + 40]:
            yield Vector(data, room)
    yield Vector(rules.job_bytes(specimen()), MOST_BYTES)
    great = rules.job_bytes(specimen(elements=[(1_000_000, 1_990_000)] * 128, budget=3))
    for room in (5_175, 5_176, 5_177, 0):
        yield Vector(great, room)
    for data in (great[:-16], b"", bytes(MOST_BYTES), b"LSC" + bytes(MOST_BYTES - 3)):
        yield Vector(data, 200)


# ----------------------------------------------------------------------------------------------------------------
# Drawn jobs
# ----------------------------------------------------------------------------------------------------------------

def drawn_room(chance: Chance, job: bytes) -> int:
    """A buffer's length: mostly enough, with none or a few bytes to spare."""
    enough = needed(job)
    room = chance.pick([enough] * 6 + [enough + chance.between(0, 50)] * 2 + [enough - 1, chance.between(0, enough)])
    return min(room, MOST_BYTES)


def drawn_vector(index: int) -> Vector:
    """A job, sound or damaged, mostly small, and a buffer."""
    chance = Chance(SEED, index)
    job = scenarios.drawn_job(chance, 5)
    return Vector(job, drawn_room(chance, job))


# ----------------------------------------------------------------------------------------------------------------
# Steady layers
# ----------------------------------------------------------------------------------------------------------------

def steady() -> Iterator[Tuple[int, Vector]]:
    """The jobs of note 3, some of each kind with buffers that would not do as well, which is the last cause."""
    for jobs in steady_jobs.made_kinds().values():
        for number, (cause, job) in enumerate(jobs):
            data = makers.affordable_job(rules.job_bytes(job))
            enough = needed(data)
            yield cause, Vector(data, enough + (0, 0, 7)[number % 3])
            if number % 5 in (0, 3):
                yield cause or rules.SHORT_BUFFER, Vector(data, (enough - 1, 0)[number % 2])


def drawn_steady(index: int) -> Vector:
    """A job in start 2, steady or nearly so, once in five damaged, and a buffer."""
    chance = Chance(SEED, 10_000 + index)
    while True:
        job = steady_jobs.drawn_steady(chance)
        if len(job.elements) <= 12 or chance.one_in(6):
            break
    damaged = chance.one_in(5)
    data = makers.affordable_job(chance.pick(damage.DAMAGES)(chance, job) if damaged else rules.job_bytes(job))
    return Vector(data[:MOST_BYTES], drawn_room(chance, data))


# ----------------------------------------------------------------------------------------------------------------
# The files
# ----------------------------------------------------------------------------------------------------------------

# What has to be among the accepted vectors.
KINDS: Dict[str, Callable[[Worked], bool]] = {
    "one element": lambda w: len(w.parts.elements) == 1,
    "two elements": lambda w: len(w.parts.elements) == 2,
    "128 elements": lambda w: len(w.parts.elements) == 128,
    "two points": lambda w: len(w.parts.curve1) == 2 and len(w.parts.curve2) == 2,
    "64 points": lambda w: len(w.parts.curve1) == 64 and len(w.parts.curve2) == 64 and len(w.parts.table) == 64,
    "top outflow below 0": lambda w: w.top < 0,
    "bottom outflow below 0": lambda w: w.bottom < 0,
    "both outflows below 0": lambda w: w.top < 0 and w.bottom < 0,
    "settlement below 0": lambda w: w.settlement < 0,
    "pore pressure below 0": lambda w: any(row[4] < 0 for row in w.rows),
    "total stress below 0": lambda w: any(row[3] < 0 for row in w.rows),
    "end 0": lambda w: w.parts.end == 0 and w.parts.budget > 0,
    "budget 0": lambda w: w.parts.budget == 0 and w.parts.end > 0,
    "end and budget 0": lambda w: w.parts.end == 0 and w.parts.budget == 0,
    "a step of 1,000,000": lambda w: w.steps > 0 and w.clock == 1_000_000 * w.steps,
    "a load that falls": lambda w: w.load < w.parts.table[0][1],
    "a load that rises": lambda w: w.load > w.parts.table[0][1],
    "a thousand steps": lambda w: w.steps >= 1_000,
    "one steady element": lambda w: w.parts.start == rules.STEADY and len(w.parts.elements) == 1,
    "128 steady elements": lambda w: w.parts.start == rules.STEADY and len(w.parts.elements) == 128,
    "room to spare": lambda w: w.room > needed(w.job)}


def of_faces(top: int, bottom: int, start: int) -> Callable[[Worked], bool]:
    """The kind of jobs with these faces and this start."""
    return lambda w: (top, bottom, start) == (w.parts.top, w.parts.bottom, w.parts.start)


KINDS.update(("top %d, bottom %d, start %d" % faces, of_faces(*faces))
             for faces in itertools.product((0, 1), (0, 1), rules.STARTS))


class Counts:
    """How many vectors gave each refusal number and each stop, and were of each kind."""

    def __init__(self) -> None:
        self.refusals: Dict[int, int] = {}
        self.stops: Dict[int, int] = {}
        self.kinds: Dict[str, int] = dict.fromkeys(KINDS, 0)

    def add(self, worked: Worked) -> None:
        """Count a vector."""
        note(self.refusals, worked.refusal)
        if worked.parts is not None:
            note(self.stops, worked.stop)
            for name, holds in KINDS.items():
                self.kinds[name] += holds(worked)

    def missing(self) -> List[str]:
        """What there is too little of."""
        return (["refusal %d" % number for number in REFUSALS if self.refusals.get(number, 0) < MANY]
                + ["stop %d" % number for number in range(4) if self.stops.get(number, 0) < MANY]
                + [name for name, count in self.kinds.items() if count == 0])

    def summary(self) -> str:
        """How many of each."""
        def counts(numbers: Dict[int, int]) -> str:
            return ", ".join("%d: %d" % pair for pair in sorted(numbers.items()))
        return "%d vectors; numbers %s; stops %s" % (
            sum(self.refusals.values()), counts(self.refusals), counts(self.stops))


def expected(pairs: Iterator[Tuple[int, Vector]]) -> List[Vector]:
    """Vectors that the reference refuses for the cause that they were made for."""
    vectors = []
    for cause, vector in pairs:
        opened = rules.open_job(vector.job)[0]
        assert opened == (0 if cause == rules.SHORT_BUFFER else cause), (cause, opened, vector.job[:48].hex())
        vectors.append(vector)
    return vectors


def all_vectors() -> Dict[str, List[Vector]]:
    """The vectors of every file, in the order of the files."""
    return {"key_accepted": list(accepted()), "key_refused": expected(refused()), "key_points": expected(long_points()),
            "key_causes": expected(several_causes()), "key_headers": list(header_bytes()), "key_rooms": list(rooms()),
            "key_runs": list(runs()), "key_drawn": [drawn_vector(index) for index in range(DRAWN)],
            "key_steady": expected(steady()),
            "key_steady_drawn": [drawn_steady(index) for index in range(DRAWN_STEADY)]}


def vector_bytes(vector: Vector) -> bytes:
    """The bytes of a vector."""
    return words([KEY, len(vector.job), vector.room]) + vector.job


def file_bytes(vectors: List[Vector]) -> bytes:
    """The bytes of a file of vectors."""
    return words([len(vectors)]) + b"".join(map(vector_bytes, vectors))


def made_files() -> Tuple[Dict[str, bytes], Counts]:
    """The crate's files, by their paths in it, and what is among them."""
    made, outputs, counts = {}, [], Counts()
    for name, vectors in all_vectors().items():
        made[os.path.join("data", name)] = file_bytes(vectors)
        outputs.append(name.encode("ascii") + b"\n")
        for vector in vectors:
            worked = Worked(vector)
            counts.add(worked)
            outputs.append(worked.output())
    made["args"] = "".join(name[5:] + "\n" for name in made).encode("ascii")
    made["stdout"] = b"".join(outputs)
    return made, counts


def show(vector: Vector) -> List[str]:
    """A vector as tables."""
    worked = Worked(vector)
    lines = printing.describe(vector.job) + ["", "room %d, answer %d" % (vector.room, worked.refusal)]
    return lines + (printing.describe(bytes(worked.buffer[:needed(vector.job)])) if worked.parts else [])


def main() -> int:
    """Make the files, and write, compare or show them."""
    parser = argparse.ArgumentParser(description=__doc__, formatter_class=argparse.RawDescriptionHelpFormatter)
    parser.add_argument("--check", action="store_true", help="compare with the stored files")
    parser.add_argument("--show", nargs=2, metavar=("FILE", "NUMBER"), help="show one vector")
    chosen = parser.parse_args()
    if chosen.show:
        print("\n".join(show(all_vectors()[chosen.show[0]][int(chosen.show[1])])))
        return 0
    made, counts = made_files()
    print(counts.summary())
    missing = counts.missing()
    if missing:
        print("too few of: %s" % "; ".join(missing), file=sys.stderr)
        return 1
    if chosen.check:
        return scenarios.check(made, scenarios.KEYS)
    scenarios.write(made, scenarios.KEYS)
    for name, data in made.items():
        print("%10d %s" % (len(data), name))
    return 0


if __name__ == "__main__":
    sys.exit(main())
