"""A layer with its end and budget in the paper's units: the words by which a program writes its job, and the job's
bytes read back. Whether a layer is accepted the program decides."""

from __future__ import annotations

import struct
from typing import List, NamedTuple, Sequence, Tuple, Union

from keys import NoAnswer, Refusal, read_refusal, written
from layer_units import KINDS

CLOSED, DRAINED = 0, 1
GIVEN, AT_REST, STEADY = 0, 1, 2
ELEMENT_PLACES, POINT_PLACES = 128, 64
JOB_HEAD, JOB_PAIR = 48, 16
COUNTED = ("elements", "compressibility", "conductivity", "load")


class Layer(NamedTuple):
    """A layer. The counts are of elements, of the points of both curves and of the load table; columns may be shorter
    where a count is past the places that there are. The two keys tell the units of its text's times."""

    top: int
    bottom: int
    start: int
    gravity: int
    top_level: int
    bottom_level: int
    end: int
    budget: int
    counts: Tuple[int, int, int, int]
    solids: List[int]
    water: List[int]
    stresses: List[int]
    voids: List[int]
    conductivity_voids: List[int]
    conductivities: List[int]
    times: List[int]
    loads: List[int]
    end_key: str
    time_key: str


def filled(numbers: Sequence[int], places: int) -> List[int]:
    """So many places with the numbers that they can hold, and 0 after these."""
    return list(numbers[:places]) + [0] * (places - len(numbers))


def words(layer: Layer) -> bytes:
    """What the program reads of a layer."""
    numbers = [layer.top, layer.bottom, *layer.counts, layer.start, layer.gravity, layer.top_level, layer.bottom_level,
               layer.end, layer.budget]
    for column in (layer.solids, layer.water):
        numbers += filled(column, ELEMENT_PLACES)
    for column in (layer.stresses, layer.voids, layer.conductivity_voids, layer.conductivities, layer.times,
                   layer.loads):
        numbers += filled(column, POINT_PLACES)
    return struct.pack("<%dQ" % len(numbers), *numbers)


def compose(program: str, layer: Layer) -> Union[bytes, Refusal]:
    """The job that the program writes of a layer, or its refusal."""
    answer = written(program, words(layer))
    refusal = read_refusal(answer)
    if refusal:
        return refusal
    if len(answer) < JOB_HEAD or answer[:5] != b"LSC\1\0" or len(answer) != JOB_HEAD + JOB_PAIR * sum(answer[7:11]):
        raise NoAnswer("the program wrote neither a job nor a refusal (%d bytes)" % len(answer))
    return answer


def header_outside(counts: Sequence[int], gravity: int) -> List[Tuple[str, int]]:
    """Those of the counts and the specific gravity that are outside their limits, by their keys."""
    numbers = list(zip(COUNTED, counts)) + [("specific_gravity", gravity)]
    return [(key, number) for key, number in numbers if not KINDS[key].least <= number <= KINDS[key].most]


def read_job(job: bytes) -> Union[Layer, Refusal]:
    """The layer of a job, its times in seconds; for bytes that no layer has, the cause."""
    if len(job) < JOB_HEAD or job[:3] != b"LSC":
        return Refusal(1)
    version, top, bottom, *counts, start, gravity, spare = struct.unpack_from("<H7BHH", job, 3)
    if version != 1:
        return Refusal(2)
    if top > DRAINED or bottom > DRAINED or start > STEADY or spare:
        return Refusal(3)
    if len(job) != JOB_HEAD + JOB_PAIR * sum(counts):
        return Refusal(3 if header_outside(counts, gravity) else 4)
    top_level, bottom_level, end, budget, *fields = struct.unpack_from("<%dQ" % ((len(job) - 16) // 8), job, 16)
    columns: List[List[int]] = []
    for count in counts:
        columns += [fields[0:2 * count:2], fields[1:2 * count:2]]
        fields = fields[2 * count:]
    return Layer(top, bottom, start, gravity, top_level, bottom_level, end, budget, tuple(counts), *columns,
                 end_key="end_s", time_key="time_s")
