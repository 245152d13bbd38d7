"""Jobs for note 3, kind by kind, each with the cause that it is refused for or 0: layers in start 2 that are steady,
nearly steady and far from it, and start 1 over levels that are equal and not. What is drawn is drawn from a fixed
seed, and what a kind promises is asked of the rules' flows before a job is given out."""

from __future__ import annotations

import functools
from dataclasses import replace
from typing import Callable, Dict, Iterator, List, Optional, Sequence, Tuple

import makers
import rules
from chance import Chance
from rules import Job, Pair
from sample_jobs import FAULTS, mud, not_steady, resting, specimen, widest, with_side
from steady import flows_of, in_start_2, on_curve, record_of, repaired, settled, spread, with_flows

SEED = 70_000
TRIES = 2_000     # at most so many layers are drawn for one that is wanted
NM = 1_000        # flows are aimed at in thousandths of a nanometre
DRAINED, SEALED, ROOFED, SHUT = (1, 1), (1, 0), (0, 1), (0, 0)   # top and bottom: both drained, one of them, neither

Caused = Tuple[int, Job]
Flows = List[int]
Wanted = Callable[[Flows], bool]
Aims = Callable[[int, int], Sequence[int]]


# ----------------------------------------------------------------------------------------------------------------
# Layers with flows that are aimed at
# ----------------------------------------------------------------------------------------------------------------

def soil(chance: Chance, count: int, faces: Pair, seconds: int) -> Job:
    """A layer of so many elements whose longest step is about so many seconds, its load well within its curve."""
    height = chance.scaled(200_000, 20_000_000)
    solids = [height] * count if chance.one_in(2) else [chance.between(height // 2, height) for _ in range(count)]
    points = chance.between(2, 4)
    first, last = chance.pick([0, chance.between(1, 5_000_000)]), chance.between(60_000_000, 900_000_000)
    dry, wet = chance.between(50_000_000, 110_000_000), chance.between(180_000_000, 400_000_000)
    voids = makers.spread(chance, points, dry, wet)
    curve1 = list(zip(makers.spread(chance, points, first, last), reversed(voids)))
    curve = rules.Compressibility(curve1)
    most = max(1, min(rules.CONDUCTIVITY[1], makers.usual_step(solids, curve, 1) // seconds))
    least = max(1, most - chance.pick([0, most // 3, most // 2]))
    gravity = chance.pick([1_000, 2_650, 2_650, 4_200])
    low, high = first + (last - first) // 4, last - max(rules.buoyant_stresses(solids, gravity)) - (last - first) // 4
    top_level = chance.pick([10_000_000, 50 * 10**9, chance.between(10**9, 150 * 10**9)])
    return Job(top=faces[0], bottom=faces[1], gravity=gravity, top_level=top_level,
               bottom_level=top_level if faces[1] else 0, elements=[(each, 0) for each in solids], curve1=curve1,
               curve2=[(voids[0], least), (voids[-1], most)], table=[(0, chance.between(low, max(low, high)))])


def aimed(index: int, count: int, faces: Pair, aims: Aims, wanted: Wanted, flow: Optional[int] = None,
          rounds_down: bool = False) -> Job:
    """A layer whose flows are as wanted, and if they tell rounding down from cutting, that too. The aims are made of a
    flow, upward or downward, which is drawn unless it is given, and of the number of elements."""
    chance = Chance(SEED, index)
    for _ in range(TRIES):
        base = chance.pick([0, 1, 3, 5, 40, 300, -1, -2, -5, -70, -400]) * NM + chance.between(0, NM - 1)
        job = soil(chance, count, faces, chance.between(3_000, 40_000))
        job = with_flows(job, aims(base if flow is None else flow, count))
        if on_curve(job) and wanted(flows_of(job)) and not (rounds_down and spread(floored(job)) <= 1):
            return with_run(chance, job)
    raise AssertionError("no layer found for number %d" % index)


def with_run(chance: Chance, job: Job) -> Job:
    """A job with an end and a budget of a few steps, mostly under a load that stays."""
    longest = makers.possible_step(record_of(job))
    end = min(rules.CLOCK[1], chance.pick([1_000, 1_000, longest, 5 * longest + 3, 0]))
    table = job.table
    if chance.one_in(4):
        table = table + [(chance.between(1, 3_000), chance.between(0, job.curve1[-1][0]))]
    return replace(job, end=end, budget=chance.pick([0, 1, 1, 2, 3, 9]), table=table)


def even(flow: int, count: int) -> List[int]:
    """The same flow through all faces."""
    return [flow] * (count + 1)


def ramp(rise: int) -> Aims:
    """Flows that rise or fall evenly from the bottom to the top."""
    return lambda flow, count: [flow + rise * face // count for face in range(count + 1)]


def outlier(face: int, more: int) -> Aims:
    """A flow through one face, counted from the bottom or from the top, that differs from all others."""
    def aims(flow: int, count: int) -> List[int]:
        flows = even(flow, count)
        flows[face] += more
        return flows
    return aims


def by_turns(low: int, high: int) -> Aims:
    """Two flows by turns."""
    return lambda _, count: [(low, high)[face % 2] for face in range(count + 1)]


def parted(flow: int) -> Aims:
    """A flow above the third face and the same the other way below it."""
    return lambda _, count: [flow if face > 2 else -flow if face < 2 else 0 for face in range(count + 1)]


def turned(face: int) -> Aims:
    """The same flow through all faces, but the other way through one."""
    def aims(flow: int, count: int) -> List[int]:
        flows = even(flow, count)
        flows[face] = -flow
        return flows
    return aims


def without(flows: Flows, face: int) -> Flows:
    """All flows but one."""
    return flows[:face] + flows[face + 1:] if face >= 0 else without(flows, len(flows) + face)


def all_are(flow: int, faces: Pair) -> Wanted:
    """Whether all flows but those of closed faces are so much."""
    return lambda flows: set(flows[1 - faces[1]:len(flows) - 1 + faces[0]]) == {flow}


def is_turned(face: int, flow: int) -> Wanted:
    """Whether all flows but one are so much, and that one is the opposite."""
    return lambda flows: flows[face] == -flow and set(without(flows, face)) == {flow}


def is_spread(most: int, least: int = 0) -> Wanted:
    """Whether the flows differ by so much."""
    return lambda flows: least <= spread(flows) <= most


def neighbours(flows: Flows) -> int:
    """How much the flows of two neighbouring faces differ at most."""
    return max(abs(a - b) for a, b in zip(flows, flows[1:]))


def floored(job: Job) -> Flows:
    """The flows as they would be if they were rounded down."""
    record = record_of(job)
    layer = rules.Layer(record)
    pressures, halves = layer.read(record.load, record.water)
    below, above = [layer.bottom or 0] + pressures, pressures + [layer.top or 0]
    return [0 if r is None else (b - a) * rules.STEADY_SECONDS // r
            for b, a, r in zip(below, above, rules.face_resistances(layer, halves))]


def changed_water(job: Job, place: int, more: int) -> Job:
    """A job with some more or less water in one element."""
    return with_side(job, "elements", place, 1, job.elements[place][1] + more)


# ----------------------------------------------------------------------------------------------------------------
# Kinds
# ----------------------------------------------------------------------------------------------------------------

def equal_flows() -> Iterator[Caused]:
    """The same flow through all faces: upward, downward, none, in layers of all sizes."""
    for number, (count, flow) in enumerate([(1, 5), (1, -9), (2, 40), (2, -3), (3, 800), (4, -600), (6, 0), (9, 70)]):
        yield 0, aimed(number, count, DRAINED, even, is_spread(0), flow * NM + NM // 2)


def flows_by_1() -> Iterator[Caused]:
    """Flows that differ by just 1: between bottom and top, at one face alone, and up or down the layer."""
    for number, (count, aims) in enumerate([
            (1, ramp(NM)), (1, ramp(-NM)), (2, ramp(NM)), (2, ramp(-NM)), (3, outlier(0, NM)), (3, outlier(-1, NM)),
            (3, outlier(0, -NM)), (3, outlier(-1, -NM)), (4, outlier(2, NM)), (4, outlier(2, -NM)), (5, ramp(NM)),
            (5, ramp(-NM)), (8, ramp(NM)), (12, ramp(-NM))]):
        yield 0, aimed(100 + number, count, DRAINED, aims, is_spread(1, 1))


def flows_by_2() -> Iterator[Caused]:
    """Flows that differ by just 2, at every kind of pair of faces."""
    def alone(face: int) -> Wanted:
        return lambda flows: spread(flows) == 2 and spread(without(flows, face)) <= 1

    def far_apart(flows: Flows) -> bool:
        return spread(flows) == 2 and neighbours(flows) <= 1

    cases: List[Tuple[int, Aims, Wanted]] = []
    for more in (2 * NM, -2 * NM):
        cases += [(1, ramp(more), lambda flows: abs(flows[0] - flows[1]) == 2),
                  (2, ramp(more), lambda flows: far_apart(flows) and abs(flows[0] - flows[2]) == 2),
                  (5, ramp(more), lambda flows: far_apart(flows) and abs(flows[0] - flows[-1]) == 2),
                  (6, ramp(more * 5 // 4), lambda flows: far_apart(flows) and spread(flows[1:-1]) == 2),
                  (10, ramp(more * 5 // 4), lambda flows: far_apart(flows) and spread(flows[1:-1]) == 2)]
        for count, face in ((2, 0), (2, -1), (2, 1), (4, 0), (4, -1), (4, 2), (7, 0), (7, -1), (7, 1), (7, 6)):
            cases.append((count, outlier(face, more), alone(face)))
    for number, (count, aims, wanted) in enumerate(cases):
        yield 20, aimed(200 + number, count, DRAINED, aims, wanted)


def closed_faces() -> Iterator[Caused]:
    """Layers with closed faces: at rest and with flows of 1 accepted; with flows that are alike, but not as 0 is,
    refused, as they are not if the closed face is left out."""
    number = 300
    for faces in (SEALED, ROOFED, SHUT):
        for count in (1, 2, 5):
            if faces == SHUT and count == 1:
                continue
            for flow, cause in ((0, 0), (NM, 0), (-NM, 0), (2 * NM, 20), (-2 * NM, 20), (30 * NM, 20), (-9 * NM, 20)):
                aim = flow + (NM // 2 if flow >= 0 else -NM // 2)
                job = aimed(number, count, faces, even, all_are(flow // NM, faces), aim)
                assert (spread(flows_of(job)) <= 1) == (cause == 0)
                yield cause, job
                number += 1
        # flows of 1 up and 1 down differ by 2, with the 0 of the closed face between them
        for flow in (NM * 3 // 2, -NM * 3 // 2):
            yield 20, aimed(number, 4, faces, parted(flow), lambda flows: set(flows) == {-1, 0, 1})
            number += 1
    # one element between closed faces: no flow, whatever its pressure
    for water in (1_000_000, 1_500_000, 2_000_000):
        yield 0, specimen(top=0, start=2, elements=[(1_000_000, water)])


def turned_flows() -> Iterator[Caused]:
    """Water that leaves through both outer faces or enters through both: alike if the sign of one were wrong."""
    number = 400
    for flow in (5, -5, 60, 1, -1):
        for count in (1, 2, 4):
            for face in (0, -1):
                aim = flow * NM + (NM // 2 if flow > 0 else -NM // 2)
                yield 20, aimed(number, count, DRAINED, turned(face), is_turned(face, flow), aim)
                number += 1


def cut_flows() -> Iterator[Caused]:
    """Flows about 0 that are alike only as they are cut, and not if they were rounded down."""
    number = 450
    for faces in (DRAINED, SEALED, ROOFED):
        for low, high in ((-NM // 2, NM * 3 // 2), (-NM * 3 // 2, NM // 2)):
            for count in (2, 5):
                yield 0, aimed(number, count, faces, by_turns(low, high), is_spread(1, 1), rounds_down=True)
                number += 1


def other_seconds() -> Iterator[Caused]:
    """Layers that are steady in 1,000 s and not in 999 or 1,001, and the other way round."""
    number = 500
    for seconds in (999, 1_001):
        for cause in (0, 20):
            for count in (1, 1, 2, 3):
                chance = Chance(SEED, number)
                while True:
                    flow = chance.pick([1, -1]) * chance.between(900, 4_000) * NM
                    job = with_flows(soil(chance, count, DRAINED, 3_000),
                                     ramp(chance.between(600, 2_200))(flow, count))
                    if on_curve(job) and (spread(flows_of(job)) <= 1) == (cause == 0) and (
                            spread(flows_of(job, seconds)) <= 1) == (cause == 20):
                        break
                yield cause, with_run(chance, job)
                number += 1


def own_levels() -> Iterator[Caused]:
    """Layers whose flow is found at given levels, and the same with a height that is not the one found."""
    artesian = [specimen(bottom=1, bottom_level=level) for level in (
        10_000_000, 10_000_101, 9_999_899, 10_000_102, 12_000_000, 8_000_000, 0, 300_000_000)]
    artesian += [mud(bottom_level=level, table=[(0, 20_000_000)]) for level in (10_000_000, 12_000_000, 900_000_000)]
    artesian += [specimen(bottom=1, bottom_level=60_000_000, table=[(0, 40_000_000)], gravity=2_650,
                          elements=[(800_000 + 90_000 * j, 0) for j in range(count)]) for count in (1, 2, 6)]
    for job in artesian:
        steady = settled(job)
        yield 0, steady
        for more in (1, -1, 3, -3, 400):
            moved = changed_water(steady, len(job.elements) // 2, more)
            if on_curve(moved):
                yield 0 if spread(flows_of(moved)) <= 1 else 20, moved


def too_long() -> Iterator[Caused]:
    """Steady layers for which 1,000 s are too long a step, and such that are not steady."""
    number = 600
    for faces in (DRAINED, SEALED, ROOFED, SHUT):
        for cause in (0, 0, 20):
            chance = Chance(SEED, number)
            while True:
                count = chance.between(2, 5)
                flow = chance.pick([0, 8, -30]) * NM if faces == DRAINED else 0
                job = repaired(with_flows(soil(chance, count, faces, chance.between(400, 700)), even(flow, count)))
                if cause:
                    job = changed_water(job, chance.between(0, count - 1), chance.pick([2, -2, 9]))
                if on_curve(job) and makers.possible_step(record_of(job)) < 1_000 and (
                        spread(flows_of(job)) > 1) == (cause == 20):
                    break
            yield cause, with_run(chance, job)
            number += 1


def at_rest() -> Iterator[Caused]:
    """The water that start 1 gives, given in start 2: no flow at all; and the same over another level."""
    for job in (specimen(), mud(bottom_level=10_000_000), specimen(bottom=1, bottom_level=10_000_000),
                specimen(top=0), specimen(top=0, bottom=1, bottom_level=10_000_000, table=[(0, 31_234_567)]),
                specimen(gravity=2_650, elements=[(1_000_000 + 1_000 * j, 0) for j in range(7)], table=[(0, 9_999_999)],
                         curve2=[(100_000_000, 10_000), (200_000_000, 20_000)])):
        parts = resting(job)
        given = in_start_2(job, rules.starting_waters(parts))
        assert set(flows_of(given)) == {0}
        yield 0, parts
        yield 0, given
        if job.bottom:
            yield 20, replace(given, bottom_level=30_000_000)
            yield 20, replace(given, bottom_level=0)
            yield 9, replace(parts, bottom_level=30_000_000)


def other_loads() -> Iterator[Caused]:
    """Layers that are steady under the opening load and under no later one, and the other way round."""
    for number, faces in enumerate((DRAINED, SEALED, ROOFED)):
        job = aimed(700 + number, 3, faces, even, is_spread(1), None if faces == DRAINED else 0)
        load = job.table[0][1]
        for more in (5_000_000, -5_000_000):
            assert spread(rules.present_flows(record_of(job, load + more), 1_000)) > 1
            yield 0, replace(job, table=[(0, load), (500, load + more)], end=900, budget=5)
            yield 0, replace(job, table=[(0, load), (1, load + more), (2, load)], end=900, budget=5)
            yield 20, replace(job, table=[(0, load + more), (500, load)], end=900, budget=5)
            yield 20, replace(job, table=[(0, load + more), (1, load)], end=900, budget=5)
    # between closed faces all pressures rise by the load alike, so that every load will do
    job = aimed(710, 3, SHUT, even, is_spread(1), 0)
    yield 0, replace(job, table=[(0, job.table[0][1] + 5_000_000), (500, 0)])


def great_layers() -> Iterator[Caused]:
    """128 elements: steady, and with flows of neighbours alike that are not alike from end to end."""
    base = specimen(bottom=1, bottom_level=200_000_000, table=[(0, 60_000_000)], gravity=2_650,
                    elements=[(1_000_000 + 7 * j, 0) for j in range(128)])
    steady = settled(base)
    yield 0, steady
    yield 0, settled(replace(base, bottom_level=0, elements=base.elements[::-1]))
    yield 20, changed_water(steady, 0, 5)
    yield 20, changed_water(steady, 64, -5)
    yield 20, changed_water(steady, 127, 5)
    yield 20, aimed(800, 128, DRAINED, ramp(5 * NM // 2), lambda flows: spread(flows) == 2 and neighbours(flows) <= 1)
    yield 0, aimed(801, 128, SEALED, even, is_spread(1, 1), NM)
    yield 20, aimed(802, 128, ROOFED, even, is_spread(2, 2), 2 * NM + NM // 2)
    yield 0, aimed(803, 128, SHUT, even, is_spread(1), 0)


def off_curve() -> Iterator[Caused]:
    """Water off the curve comes before flows that are not alike."""
    for job in (settled(specimen(bottom=1, bottom_level=12_000_000)), mud(start=2), specimen(start=2)):
        for place in range(len(job.elements)):
            solids = job.elements[place][0]
            wettest = ((job.curve1[0][1] + 1) * solids - 1) // rules.VOID_UNIT
            driest = rules.ceil_div(job.curve1[-1][1] * solids, rules.VOID_UNIT)
            for water, cause in ((driest - 1, 9), (wettest + 1, 9), (0, 9), (driest, 20), (wettest, 20)):
                yield cause, with_side(job, "elements", place, 1, water)


def several_causes() -> Iterator[Caused]:
    """Every earlier cause comes before flows that are not alike, and holds for a steady layer too."""
    for job in (settled(mud(table=[(0, 20_000_000)])), mud(start=2)):
        for cause, faults in FAULTS.items():
            for fault in faults:
                if cause != 4 and fault is not not_steady:
                    yield cause, fault(job)


def rest_levels() -> Iterator[Caused]:
    """Start 1 over a bottom that is closed, at the top's level, and at another, of which P may be 0 all the same."""
    for top_level in (0, 1, 10_000_000, rules.LEVEL[1]):
        yield 0, resting(specimen(top_level=top_level))
        for more in (0, 1, -1, 101, -101, 102, -102, 10**9):
            level = top_level + more
            if 0 <= level <= rules.LEVEL[1]:
                yield 9 if more else 0, resting(specimen(top_level=top_level, bottom=1, bottom_level=level))
    for changes in ({"top": 0}, {"gravity": 2_650}, {"elements": [(500_000, 0)] * 3}):
        yield 0, resting(mud(bottom_level=10_000_000, **changes))
        yield 9, resting(mud(bottom_level=10_000_001, **changes))
        yield 0, resting(mud(bottom=0, bottom_level=0, **changes))
    yield 9, resting(specimen(bottom=1, bottom_level=10_000_000, table=[(0, 4_999_999)]))
    yield 9, resting(specimen(bottom=1, bottom_level=10_000_001, table=[(0, 105_000_001)]))
    for level in (10_000_000, 12_000_000):
        yield 5, with_side(resting(mud(bottom_level=level)), "elements", 1, 1, 7)
    yield 0, resting(widest(table=[(0, 1_000_000_000)], budget=2))
    yield 9, resting(widest(table=[(0, 1_000_000_000)], bottom_level=199_999_999_999))


def no_starts() -> Iterator[Caused]:
    """Numbers that are no start, in layers that are steady, at rest and neither."""
    for start in (3, 4, 128, 130, 254, 255):
        for job in (settled(specimen(bottom=1, bottom_level=12_000_000)), resting(specimen()), specimen(), mud()):
            yield 3, replace(job, start=start)


def limits() -> Iterator[Caused]:
    """The greatest flows there can be, which are alike or are not by a millipascal; the slowest soil, through which
    nothing passes under any pressure; layers at their limits."""
    greatest = [(0, 1_000_000_000), (2_000_000_000, 1)]
    for top_level, bottom_level, half in ((0, rules.LEVEL[1], 981_000_000), (rules.LEVEL[1], 0, -981_000_000)):
        for solids, water in ((100_000, 500_000), (100_000, 505_000), (100_000_000, 500_000_000)):
            stress = rules.Compressibility(greatest).effective_stress(rules.void_ratio(solids, water))
            for more, cause in ((0, 0), (1, 20), (-1, 20))[:3 if solids == 100_000 else 1]:
                yield cause, specimen(start=2, bottom=1, top_level=top_level, bottom_level=bottom_level,
                                      elements=[(solids, water)], curve1=greatest, table=[(0, stress + half + more)],
                                      curve2=[(1, 1_000_000_000), (1_000_000_000, 1_000_000_000)])
    for load, level in ((0, 0), (0, rules.LEVEL[1]), (rules.STRESS[1], 0), (rules.STRESS[1], rules.LEVEL[1])):
        slow = specimen(start=2, bottom=1, bottom_level=level, gravity=5_000, curve1=greatest, table=[(0, load)],
                        curve2=[(1, 1), (1_000_000_000, 1)])
        for count in (1, 2, 3):
            job = replace(slow, elements=[(100_000_000, 1_000_000_000)] * count)
            assert set(flows_of(job)) == {0}
            yield 0, job
        uneven = replace(slow, elements=[(100_000, 100_000), (100_000_000, 1_000_000_000)])
        yield 0 if spread(flows_of(uneven)) <= 1 else 20, uneven
    for job in (widest(start=2), widest(start=2, top=0, bottom=0, bottom_level=0)):
        assert spread(flows_of(job)) > 1
        yield 20, job
    yield 0, widest(start=2, top=0, bottom=0, bottom_level=0, elements=[(100_000_000, 1_000_000_000)])


KINDS: List[Callable[[], Iterator[Caused]]] = [
    equal_flows, flows_by_1, flows_by_2, closed_faces, turned_flows, cut_flows, other_seconds, own_levels, too_long,
    at_rest, other_loads, great_layers, off_curve, several_causes, rest_levels, no_starts,
    limits]


@functools.lru_cache(maxsize=None)
def made_kinds() -> Dict[str, List[Caused]]:
    """The jobs of every kind by its name."""
    return {kind.__name__: list(kind()) for kind in KINDS}


# ----------------------------------------------------------------------------------------------------------------
# Drawn jobs
# ----------------------------------------------------------------------------------------------------------------

def make_steady(seed: int, count: int) -> Iterator[bytes]:
    """Jobs in start 2, mostly steady; each depends on the seed and its own number alone."""
    for index in range(count):
        yield makers.affordable_job(rules.job_bytes(drawn_steady(Chance(seed, index))))


def drawn_steady(chance: Chance) -> Job:
    """A job in start 2: steady, nearly so, or with a height, a level or a load that is not the one found."""
    while True:
        faces = chance.pick([DRAINED, DRAINED, DRAINED, SEALED, ROOFED, SHUT])
        count = chance.pick([1, 1, 2, 2, 2, 3, 3, 4, 5, 6, 8, 12, 20, chance.pick([40, 127, 128])])
        job = soil(chance, count, faces, chance.pick([chance.between(300, 1_500), chance.scaled(1_000, 200_000)]))
        flow = chance.pick([0, 1, -1, chance.between(-9, 9), chance.between(-400, 400)]) if faces == DRAINED else \
            chance.pick([0, 0, 0, 1, -1, 2, -2])
        rise = chance.pick([0, 0, 0, NM, -NM, chance.between(-2_500, 2_500)])
        job = with_flows(job, ramp(rise)(flow * NM + chance.between(-NM // 2, NM // 2), count))
        if faces == DRAINED and chance.one_in(3):
            job = settled(replace(job, bottom_level=min(rules.LEVEL[1], job.bottom_level + chance.between(0, 10**6))))
        elif rise == 0 and count <= 12 and chance.one_in(2):
            job = repaired(job)
        if not on_curve(job):
            continue
        way = chance.between(0, 11)
        if way == 0:
            job = changed_water(job, chance.between(0, count - 1), chance.pick([1, -1, 2, -2, chance.between(-99, 99)]))
        elif way == 1:
            job = replace(job, table=[(0, max(0, job.table[0][1] + chance.between(-2_000, 2_000)))])
        elif way == 2 and faces[1]:
            job = replace(job, bottom_level=max(0, job.bottom_level - chance.scaled(1, 10**6)))
        return with_run(chance, job)
