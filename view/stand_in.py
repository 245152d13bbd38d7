"""What the programs write, for tests: a double that asks the reference, and judges a start at rest over another level
and a steady start, and divides with a remainder, by itself, from the paper."""

from __future__ import annotations

import os
import struct
import sys
from typing import List, Sequence

sys.path.append(os.path.join(os.path.dirname(os.path.dirname(os.path.abspath(__file__))), "reference"))

import rules  # noqa: E402

WATER_GIVEN, AT_REST, STEADY = 0, 1, 2
NOT_STEADY = 20


def toward_zero(numerator: int, denominator: int) -> int:
    """A quotient without its remainder."""
    size = abs(numerator) // denominator
    return size if numerator > 0 else -size


def upward_flows(job: rules.Job) -> List[int]:
    """The flows of 1,000 s through all faces under the first load, as the paper's one step has them."""
    first, second = rules.Compressibility(job.curve1), rules.Permeability(job.curve2)
    buoyant = rules.buoyant_stresses([solids for solids, _ in job.elements], job.gravity)
    p, r = [], []
    for (solids, water), weight in zip(job.elements, buoyant):
        void = water * 100_000_000 // solids
        p.append(job.table[0][1] + weight - first.effective_stress(void))
        r.append(-(-4_905 * (solids + water) // second.conductivity(void)))
    head = toward_zero((job.bottom_level - job.top_level) * 981, 100_000)
    flows = [-toward_zero((p[0] - head) * 1_000, r[0]) if job.bottom else 0]
    flows += [toward_zero((p[j] - p[j + 1]) * 1_000, r[j] + r[j + 1]) for j in range(len(p) - 1)]
    return flows + [toward_zero(p[-1] * 1_000, r[-1]) if job.top else 0]


def is_steady(job: rules.Job) -> bool:
    """Whether the flows of any two faces differ by at most 1 nm."""
    flows = upward_flows(job)
    return all(abs(one - other) <= 1 for one in flows for other in flows)


def as_given(job: bytes) -> bytes:
    """A job with a steady start as one with the water given, which runs alike."""
    return job[:11] + b"\0" + job[12:] if job[11:12] == b"\2" else job


def refusal(job: bytes) -> int:
    """The cause for which a job is not opened, else 0."""
    cause = rules.open_job(as_given(job))[0]
    if cause:
        return cause
    parts = rules.read_job(job)
    if parts.start == AT_REST and parts.bottom == 1 and parts.bottom_level != parts.top_level:
        return rules.BAD_START
    return NOT_STEADY if parts.start == STEADY and not is_steady(parts) else 0


def composed(_program: str, words: bytes) -> bytes:
    """What the program that writes jobs writes of the words of a layer."""
    top, bottom, *counts, start, gravity, top_level, bottom_level, end, budget = struct.unpack_from("<12Q", words)
    if max(counts[1:]) > 64 or counts[0] > 128 or gravity > 65_535:
        return b"refused 3\n"
    groups, at = [], 12
    for count, places in zip(counts, (128, 64, 64, 64)):
        columns = struct.unpack_from("<%dQ" % (2 * places), words, 8 * at)
        groups.append(list(zip(columns[:count], columns[places:places + count])))
        at += 2 * places
    assert len(words) == 8 * at
    made = rules.job_bytes(rules.Job(top, bottom, start, gravity, top_level, bottom_level, end, budget, *groups))
    cause = refusal(made)
    return b"refused %d\n" % cause if cause else made


def key(job: bytes) -> bytes:
    """What the program that works jobs writes of a job."""
    cause = refusal(job)
    return b"refused %d\n" % cause if cause else rules.key(as_given(job))[1]


# ----------------------------------------------------------------------------------------------------------------
# Long division
# ----------------------------------------------------------------------------------------------------------------

def curve_words(voids: Sequence[int], values: Sequence[int], void: int) -> List[int]:
    """Segment, value and remainder of a curve at a void ratio; the first segment that has it counts."""
    a = next(at for at in range(len(voids) - 1) if min(voids[at:at + 2]) <= void <= max(voids[at:at + 2]))
    whole = abs(voids[a + 1] - voids[a])
    quotient, remainder = divmod((values[a + 1] - values[a]) * abs(void - voids[a]), whole)
    return [a + 1, values[a] + quotient, remainder]


def face_words(layer: rules.Layer, p: Sequence[int], r: Sequence[int], seconds: int) -> List[List[int]]:
    """Difference, R, flow and remainder of every inner or drained face, from the bottom up."""
    faces = [] if layer.bottom is None else [(p[0] - layer.bottom, r[0])]
    faces += [(p[j] - p[j + 1], r[j] + r[j + 1]) for j in range(len(p) - 1)]
    faces += [] if layer.top is None else [(p[-1], r[-1])]
    made = []
    for difference, resistance in faces:
        flow = toward_zero(difference * seconds, resistance)
        made.append([difference, resistance, flow, difference * seconds - flow * resistance])
    return made


def element_words(record: rules.Record, after: rules.Record) -> List[List[int]]:
    """Water before and after a step, void ratio, and both curves' readings of every element, lowest first."""
    stresses, voids = zip(*record.first_points())
    conductivity_voids, conductivities = zip(*record.second_points())
    made = []
    for solids, water, left in zip(record.solid_heights(), record.water, after.water):
        void = water * 100_000_000 // solids
        made.append([water, left, void, *curve_words(voids, stresses, void),
                     *curve_words(conductivity_voids, conductivities, void)])
    return made


def division(_program: str, data: bytes) -> bytes:
    """What the program that divides writes of a job and the seconds of a step."""
    length = int.from_bytes(data[:8], "little")
    job, step = data[8:8 + length], data[8 + length:]
    assert len(job) == length <= 8_192 and len(step) == 8
    seconds = int.from_bytes(step, "little")
    cause, record = rules.open_job(job)
    if cause == 0:
        parts = rules.read_job(job)
        rules.run_call(record, parts.end, parts.budget)
        after = record.copy()
        cause = rules.step_call(after, seconds)
    if cause:
        return b"refused %d\n" % cause
    layer = rules.Layer(record)
    faces, elements = face_words(layer, *layer.read(record.load, record.water), seconds), element_words(record, after)
    words = [len(faces), len(elements)] + [word for row in faces + elements for word in row]
    return struct.pack("<%dq" % len(words), *words)


if __name__ == "__main__":
    given = sys.stdin.buffer.read()
    if sys.argv[1:] == ["division"]:
        sys.stdout.buffer.write(division("", given))
    else:
        sys.stdout.buffer.write(key(given) if sys.argv[1:] == ["key"] else composed("", given))
