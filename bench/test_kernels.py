#!/usr/bin/env python3
"""Compares the C keys of both kernels and the job writer with the reference program, job by job.

Sound jobs and refused ones, with room for the result and one byte short of it: refusal number and every byte of the
buffer have to be the reference's. The job written of an opened job has to open as the same record.
"""

import collections
import ctypes
import os
import random
import struct
import subprocess
import sys
import tempfile

HERE = os.path.dirname(os.path.abspath(__file__))
sys.path.insert(0, os.path.join(os.path.dirname(HERE), "reference"))

import make_scenarios  # noqa: E402
import makers  # noqa: E402
import rules  # noqa: E402
import steady_jobs  # noqa: E402

KERNELS = ("plain", "tuned")
SOURCES = KERNELS + ("job", "key")
MOST_JOB_BYTES = 48 + 16 * (128 + 3 * 64)
JOB_STRUCT_BYTES = 16_384       # more than `struct job` of job.h takes
ROOM_AFTER = 24                 # bytes past a result, which a key has to leave
ELEMENT_STEPS = 1_500
MADE_JOBS = 2_000
OWN_JOBS = 1_200
STEADY_JOBS = 500
WHOLE_JOBS = 20


def load_library(directory):
    """The keys by kernel and the job writer, compiled to a shared library."""
    path = os.path.join(directory, "keys.so")
    sources = [os.path.join(HERE, name + ".c") for name in SOURCES]
    subprocess.run(["gcc", "-O3", "-std=c11", "-shared", "-fPIC", "-o", path] + sources, check=True)
    library = ctypes.CDLL(path)
    text, size = ctypes.c_char_p, ctypes.c_size_t
    for name in KERNELS:
        key = getattr(library, name + "_key")
        key.argtypes, key.restype = [text, size, text, size], ctypes.c_uint32
    library.open_job.argtypes, library.open_job.restype = [text, size, text], ctypes.c_int
    library.write_job.argtypes, library.write_job.restype = [text, text], size
    return library


def filler(room):
    """What a buffer holds before a key."""
    return bytes(1 + place % 255 for place in range(room))


def reference_answer(job, room):
    """The reference's refusal number, and its buffer of so many bytes after the key."""
    buffer = bytearray(filler(room))
    return rules.key_into(job, buffer), bytes(buffer)


def kernel_answer(library, name, job, room):
    """The same of a kernel's key."""
    buffer = ctypes.create_string_buffer(filler(room), room)
    return getattr(library, name + "_key")(job, len(job), buffer, room), buffer.raw


def reopens(library, job, record):
    """Whether an accepted job, opened and written in C, opens as the same record."""
    opened, written = ctypes.create_string_buffer(JOB_STRUCT_BYTES), ctypes.create_string_buffer(MOST_JOB_BYTES)
    if library.open_job(job, len(job), opened) != rules.ACCEPTED:
        return False
    length = library.write_job(opened, written)
    return rules.open_job(written.raw[:length]) == (rules.ACCEPTED, record)


def distinct(chance, low, high, count):
    """Rising whole numbers of a closed range, some of them side by side."""
    count = min(count, high - low + 1)
    if chance.random() < 0.3:
        start = chance.randint(low, high - count + 1)
        return list(range(start, start + count))
    return sorted(chance.sample(range(low, high + 1), count))


def own_table(chance, load, greatest):
    """A load table that begins with a load; often that is all."""
    latest = chance.choice([5, 1_000, 1_000_000, 3_000_000_000])
    times = distinct(chance, 1, latest, chance.choice([0, 0, 1, 2, 5, 63]))
    return [(0, load)] + [(time, chance.randint(0, greatest)) for time in times]


def own_job(chance):
    """A job of extreme or plain numbers that opens, mostly."""
    elements = chance.choice([1, 1, 2, 7, 8, 16, 127, 128])
    points = chance.choice([2, 2, 3, 10, 63, 64])
    kind = chance.choice(["narrow", "mud", "extreme"])
    if kind == "narrow":
        solids = [chance.choice([100_000, 100_001, 131_072, chance.randint(100_000, 300_000)]) for _ in range(elements)]
        low = chance.randint(1, 999_900_000)
        high = low + chance.randint(points, 100_000)
        greatest = chance.choice([points, 1_000, 1_000_000])
    elif kind == "mud":
        size = chance.randint(100_000, 100_000_000)
        solids = [min(size + chance.randint(0, size // 10), 100_000_000) for _ in range(elements)]
        low, high = chance.randint(30_000_000, 150_000_000), chance.randint(300_000_000, 1_000_000_000)
        greatest = chance.randint(50_000_000, 2_000_000_000)
    else:
        solids = [chance.choice([100_000, 100_000_000, 99_999_999, chance.randint(100_000, 100_000_000)])
                  for _ in range(elements)]
        low, high = chance.choice([1, 99_999_999]), chance.choice([999_999_999, 1_000_000_000])
        greatest = 2_000_000_000
    high, greatest = min(high, 1_000_000_000), max(greatest, points)
    voids = [low] + distinct(chance, low + 1, high - 1, points - 2) + [high]
    stresses = [0] + distinct(chance, 1, greatest - 1, points - 2) + [greatest]
    size = min(len(voids), len(stresses))
    first = list(zip(stresses[:size - 1] + [greatest], sorted(voids[:size - 1] + [high], reverse=True)))
    count = chance.choice([2, 2, 5, 64])
    least, most = max(1, low - chance.randint(0, 50)), min(1_000_000_000, high + chance.randint(0, 50))
    voids = sorted({least, most} | {chance.randint(least, most) for _ in range(count - 2)})
    slowest = chance.choice([1, 1, 1_000, 100_000])
    fastest = slowest + chance.choice([0, 10, 100_000, 1_000_000_000 - slowest])
    second = list(zip(voids, sorted(chance.randint(slowest, fastest) for _ in voids)))
    pairs = []
    for height in solids:
        driest, wettest = rules.ceil_div(first[-1][1] * height, 10**8), ((first[0][1] + 1) * height - 1) // 10**8
        water = chance.choice([driest, wettest, (driest + wettest) // 2, chance.randint(driest, max(driest, wettest))])
        pairs.append((height, water))
    start = chance.choice([0, 0, 0, 1])
    if start == 1:
        pairs = [(height, 0) for height in solids]
    bottom = chance.choice([0, 1, 1])
    top_level = chance.choice([0, 10_000_000, 200_000_000_000])
    bottom_level = bottom * chance.choice([0, top_level, top_level + 500_000_000, 200_000_000_000])
    load = chance.choice([0, greatest, greatest // 3, chance.randint(0, greatest), chance.randint(0, 2_000_000_000)])
    return rules.job_bytes(rules.Job(
        top=chance.choice([0, 1, 1]), bottom=bottom, start=start, gravity=chance.choice([1_000, 2_650, 5_000]),
        top_level=top_level, bottom_level=min(bottom_level, 200_000_000_000),
        end=chance.choice([1, 1_000, 3_000_000_000, 3_000_000_000, 3_000_000_000]),
        budget=chance.choice([0, 1] + 6 * [max(3, ELEMENT_STEPS // elements)]),
        elements=pairs, curve1=first, curve2=second, table=own_table(chance, load, greatest)))


def whole_job(chance):
    """A job whose first resistances are whole without rounding, and small against the flows."""
    elements = chance.choice([1, 2, 7, 8, 16, 128])
    return rules.job_bytes(rules.Job(
        top=1, gravity=2_650, end=3_000_000_000, budget=max(3, ELEMENT_STEPS // elements),
        elements=[(100_000_000, 100_000 * chance.randint(4_500, 5_500)) for _ in range(elements)],
        curve1=[(0, 900_000_000), (800_000_000, 100_000_000)],
        curve2=[(100_000_000, 490_500_000), (900_000_000, 490_500_000)], table=[(0, 420_000_000)]))


def jobs():
    """All jobs to try, the refused ones among them; none takes the reference long."""
    for number in range(WHOLE_JOBS):
        yield whole_job(random.Random(number))
    for opening in make_scenarios.openings():
        yield makers.affordable_job(opening.body)
    yield from makers.make_inputs("jobs", 20, MADE_JOBS)
    for kind in steady_jobs.made_kinds().values():
        for _, job in kind:
            yield makers.affordable_job(rules.job_bytes(job))
    yield from steady_jobs.make_steady(20, STEADY_JOBS)
    for number in range(OWN_JOBS):
        yield own_job(random.Random(number))


def main():
    """Compare all jobs; 1 if a key or the job writer differs."""
    seen, refusals, stops = collections.Counter(), collections.Counter(), collections.Counter()
    with tempfile.TemporaryDirectory() as directory:
        library = load_library(directory)
    for number, job in enumerate(jobs()):
        refusal, record = rules.open_job(job)
        length = rules.result_length(record.elements)
        for room in (length - 1, length + ROOM_AFTER):
            expected = reference_answer(job, room)
            refusals[expected[0]] += 1
            for name in KERNELS:
                if kernel_answer(library, name, job, room) != expected:
                    print("%s_key differs on job %d with room for %d bytes" % (name, number, room))
                    return 1
        seen["jobs"] += 1
        if refusal:
            continue
        if not reopens(library, job, record):
            print("the job written of job %d does not open as its record" % number)
            return 1
        stop, (steps, load, *outflows) = expected[1][5], struct.unpack_from("<5q", expected[1], 16)
        stops[stop] += 1
        seen.update({"steps": steps, "with two points of load or more": record.table_count > 1,
                     "whose load changed": load != record.load, "whose water flowed out or in": any(outflows),
                     "at rest at the start": job[11] == 1, "steady at the start": job[11] == 2,
                     "of 1 element": record.elements == 1, "of 128 elements": record.elements == 128,
                     "with a 64-point curve": 64 in (record.curve1_count, record.curve2_count),
                     "with an artesian bottom": (record.bottom or 0) > 0})
    print("%d jobs compared, %d steps; both keys and the job writer agree with the reference"
          % (seen.pop("jobs"), seen.pop("steps")))
    print("  answers " + ", ".join("%d: %d" % pair for pair in sorted(refusals.items())))
    print("  stops " + ", ".join("%d: %d" % pair for pair in sorted(stops.items())))
    for name in seen:
        print("  %4d %s" % (seen[name], name))
    return 0


if __name__ == "__main__":
    sys.exit(main())
