"""Making test inputs from a seed: jobs, descriptions, lists that begin with a job, and lists that begin with a
record."""

from __future__ import annotations

import struct
from dataclasses import replace
from typing import Iterator, List, Sequence, Tuple

from chance import I64_MAX, TOP_BIT, Chance
from damage import DAMAGES, DESCRIPTION_DAMAGES, changed, spoil_record, with_places_past_counts
from lists import RECORD_POINTS, answer_call, record_lines
from rules import ACCEPTED, AT_REST, BAD_START, BUDGET, BUDGET_USED, CLOCK, CONDUCTIVITY, ELEMENT_PLACES, GRAVITY, LEVEL
from rules import OUTFLOW_PER_SECOND, POINT_PLACES, SOLIDS, STARTING_WATER, STEP, STRESS, U64_MAX, VOID, VOID_UNIT
from rules import WATER
from rules import Compressibility, Description, Job, Layer, Pair, Record, buoyant_stresses, ceil_div, face_resistances
from rules import is_layer, job_bytes, job_description, longest_step, open_job, opened_record, read_job, resistance
from rules import run_call, starting_waters, void_ratio


AFFORDABLE = 3_000  # element-steps of one run


def spread(chance: Chance, count: int, low: int, high: int) -> List[int]:
    """Rising numbers from low to high at roughly even distances; high - low is at least count - 1."""
    if count == 1:
        return [low]
    even = [low + (high - low) * i // (count - 1) for i in range(count)]
    sway = (high - low) // (count - 1) // 3
    if sway == 0 or chance.one_in(4):
        return even
    return [low] + [number + chance.between(-sway, sway) for number in even[1:-1]] + [high]


def make_solids(chance: Chance) -> List[int]:
    """Solids heights of a layer."""
    count = chance.pick([1, 1, 2, 2, 2, 3, 3, 4, 5, 6, 8, 10, 12, 20, 40, 127, 128])
    kind = chance.pick(["equal", "equal", "mixed", "least", "greatest", "round"])
    if kind == "mixed":
        return [chance.scaled(*SOLIDS) for _ in range(count)]
    height = {"equal": chance.scaled(*SOLIDS), "least": SOLIDS[0], "greatest": SOLIDS[1], "round": 1_000_000}[kind]
    return [height] * count


def make_compressibility(chance: Chance) -> List[Pair]:
    """A first curve: ordinary, narrow, steep, flat, as wide as the limits, or of 64 points."""
    kind = chance.pick(["ordinary", "ordinary", "ordinary", "ordinary", "narrow", "steep", "flat", "widest", "long"])
    low, high = chance.between(20_000_000, 90_000_000), chance.between(100_000_000, 400_000_000)
    first, last = chance.pick([0, 1_000, chance.scaled(1, 5_000_000)]), chance.scaled(20_000_000, 500_000_000)
    count = chance.between(2, 8)
    if kind == "narrow":
        low = chance.pick([VOID[0], chance.scaled(1, 900_000_000), 1_000 * chance.between(1, 900_000)])
        high = low + chance.scaled(1, 5_000)
    elif kind == "steep":
        high = low + chance.scaled(1, 20_000)
        last = STRESS[1]
    elif kind == "flat":
        last = first + chance.scaled(64, 1_000_000)
    elif kind == "widest":
        low, high = VOID
        first, last = STRESS
    elif kind == "long":
        count = POINT_PLACES
    count = min(count, high - low + 1, last - first + 1)
    return list(zip(spread(chance, count, first, last), reversed(spread(chance, count, low, high))))


def usual_step(solids: Sequence[int], curve: Compressibility, conductivity: int) -> int:
    """About the longest step that a layer of full elements allows through a drained face."""
    void = curve.greatest_void
    return min(resistance(height + height * void // VOID_UNIT, conductivity)
               // (2 * ceil_div(VOID_UNIT, height) * curve.stiffness()) for height in solids)


def make_permeability(chance: Chance, points: Sequence[Pair], solids: Sequence[int]) -> List[Pair]:
    """A second curve that covers the first, mostly such that steps of many seconds are possible."""
    low, high = points[-1][1], points[0][1]
    if chance.one_in(2):
        low, high = chance.between(max(VOID[0], low - 1_000), low), chance.between(high, min(VOID[1], high + 1_000))
    elif chance.one_in(3):
        low, high = VOID
    count = min(chance.pick([2, 2, 3, 5, 64]), high - low + 1)
    slowest = max(1, usual_step(solids, Compressibility(points), CONDUCTIVITY[0]))
    most = slowest // chance.scaled(1, min(slowest, 2_000_000))
    kind = chance.pick(["constant", "rising", "rising", "rising", "steps", "least", "greatest", "widest"])
    if kind == "greatest" and not chance.one_in(4):
        kind = "rising"
    most = {"least": CONDUCTIVITY[0], "greatest": CONDUCTIVITY[1], "widest": CONDUCTIVITY[1]}.get(kind, most)
    most = min(most, CONDUCTIVITY[1])
    least = {"constant": most, "greatest": most, "widest": CONDUCTIVITY[0]}.get(kind, max(1, most // 10))
    if kind == "steps":
        middle = chance.between(1, count - 1)
        conductivities = [least] * middle + [most] * (count - middle)
    elif most - least < count:
        conductivities = [least] * count
    else:
        conductivities = spread(chance, count, least, most)
    return list(zip(spread(chance, count, low, high), conductivities))


def make_table(chance: Chance, low: int, high: int, horizon: int) -> List[Pair]:
    """A load table with loads mostly from low to high and times of about the horizon."""
    kind = chance.pick(["one", "one", "ramp", "falling", "saw", "any", "long", "limits"])
    count = {"one": 1, "ramp": 2, "limits": 3, "long": POINT_PLACES}.get(kind, chance.between(2, 6))
    last = CLOCK[1] if kind == "limits" else min(CLOCK[1], max(count, horizon))
    times = spread(chance, count, 0, last)
    loads = [chance.between(low, high) for _ in times]
    if kind == "ramp":
        loads.sort()
    elif kind == "falling":
        loads.sort(reverse=True)
    elif kind == "saw":
        loads = [chance.pick([low, high]) for _ in times]
    elif kind == "any":
        loads = [chance.scaled(*STRESS) for _ in times]
    elif kind == "limits":
        loads = [loads[0], STRESS[1], STRESS[0]]
    return list(zip(times, loads))


def make_water(chance: Chance, solids: Sequence[int], points: Sequence[Pair]) -> List[int]:
    """Water heights, on the curve where it can be."""
    low, high = points[-1][1], points[0][1]
    kind = chance.pick(["same", "same", "any", "any", "wettest", "driest"])
    void = {"wettest": high, "driest": low}.get(kind, chance.between((low + 2 * high) // 3, high))
    waters = []
    for height in solids:
        aim = chance.between(low, high) if kind == "any" else void
        water = ceil_div(aim * height, VOID_UNIT)
        if void_ratio(height, water) > high:
            water -= 1
        waters.append(max(0, min(water, WATER[1])))
    return waters


def make_levels(chance: Chance, bottom: int, stress: int) -> Pair:
    """Top and bottom level; the bottom at, above (artesian) or below the top, by pressures of about a stress."""
    top = chance.pick([0, LEVEL[1], 10_000_000, chance.scaled(1, LEVEL[1])])
    if bottom == 0:
        return top, 0
    head = chance.scaled(1, max(1, stress * 100))
    level = chance.pick([top, top, top + head, top - head, top + chance.between(-102, 102), chance.between(*LEVEL)])
    return top, min(max(level, LEVEL[0]), LEVEL[1])


def open_at_any_level(job: bytes) -> Tuple[int, Record]:
    """Open a job, in start 1 also one whose bottom is at another level than its top, as if that were no cause. A record
    does not know its start, so that such layers serve too."""
    refusal, record = open_job(job)
    if refusal == BAD_START and job[11] == AT_REST:
        parts = read_job(job)
        water = starting_waters(parts)
        if None not in water:
            return ACCEPTED, opened_record(parts, water)
    return refusal, record


def emptied(job: Job) -> Job:
    """A job in start 1, its water left out."""
    return replace(job, start=AT_REST, elements=[(solids, 0) for solids, _ in job.elements])


def make_job(chance: Chance) -> Job:
    """A job that is mostly accepted; its end and budget are affordable."""
    solids = make_solids(chance)
    curve1 = make_compressibility(chance)
    curve2 = make_permeability(chance, curve1, solids)
    curve = Compressibility(curve1)
    gravity = chance.pick([1_000, 2_650, 2_650, GRAVITY[1], chance.between(*GRAVITY)])
    top, bottom = chance.pick([(1, 0), (1, 0), (1, 1), (1, 1), (0, 1), (0, 0)])
    low = curve.stresses[0]
    high = max(low, curve.stresses[-1] - max(buoyant_stresses(solids, gravity)))
    top_level, bottom_level = make_levels(chance, bottom, high)
    longest = max(1, min(STEP[1], usual_step(solids, curve, curve2[-1][1])))
    table = make_table(chance, low, high, longest * chance.scaled(1, 100))
    if chance.one_in(12):
        table[0] = (0, min(STRESS[1], chance.pick([high, high + 1, curve.stresses[-1] + 1, max(0, low - 1)])))
    start = chance.pick([0, 0, 0, 1])
    water = [0] * len(solids) if start == 1 else make_water(chance, solids, curve1)
    far = longest * chance.scaled(1, 300)
    end = chance.pick([CLOCK[1], CLOCK[1], far, far, far, far, far, longest, longest + 1, 0])
    job = Job(top=top, bottom=bottom, start=start, gravity=gravity, top_level=top_level, bottom_level=bottom_level,
              end=min(end, CLOCK[1]), elements=list(zip(solids, water)), curve1=curve1, curve2=curve2, table=table)
    refusal, record = open_at_any_level(job_bytes(job))
    job.budget = chance.between(*BUDGET) if refusal else affordable_budget(chance, record, job.end)
    return job


def affordable_budget(chance: Chance, record: Record, end: int) -> int:
    """A budget for a run to the end: none, a few steps, or the limit where the run stops early by itself."""
    most = max(1, AFFORDABLE // record.elements)
    budget = chance.pick([0, 1, chance.between(1, most), chance.between(1, most), most, most, most, most, most, most])
    if budget < most:
        return budget
    _, stop, _ = run_call(record.copy(), end, most)
    return most if stop == BUDGET_USED else chance.pick([BUDGET[1], most])


def affordable_job(job: bytes) -> bytes:
    """A job with its budget lowered where its run would be too long; refused ones are kept."""
    refusal, record = open_at_any_level(job)
    if refusal:
        return job
    most = max(1, AFFORDABLE // record.elements)
    end, budget = struct.unpack("<QQ", job[32:48])
    if budget <= most or run_call(record, end, most)[1] != BUDGET_USED:
        return job
    return changed(job, 40, struct.pack("<Q", most))


def made_job(chance: Chance, damaged_one_in: int) -> bytes:
    """The bytes of a job, damaged once in so many."""
    job = make_job(chance)
    if chance.one_in(damaged_one_in):
        return affordable_job(chance.pick(DAMAGES)(chance, job))
    return job_bytes(job)


def made_description(chance: Chance, damaged_one_in: int) -> Description:
    """A description, damaged once in so many, often with numbers in places past its counts."""
    job = make_job(chance)
    damaged = chance.one_in(damaged_one_in)
    description = chance.pick(DESCRIPTION_DAMAGES)(chance, job) if damaged else job_description(job)
    return with_places_past_counts(chance, description) if chance.one_in(4) else description


def make_call(chance: Chance, record: Record) -> Tuple[str, List[int]]:
    """A call for a record as it stands, with an affordable budget."""
    layer = is_layer(record)
    kind = chance.pick(["load", "step", "step", "step", "run", "run"])
    if kind == "load":
        high = record.first_points()[-1][0] if layer else 1
        return kind, [chance.pick([chance.between(0, high), chance.between(0, high), record.load + chance.between(0, 9),
                                   chance.scaled(*STRESS), STRESS[1], 0, STRESS[1] + 1, TOP_BIT | 5, U64_MAX])]
    if kind == "step":
        return kind, [make_step(chance, record, layer)]
    return kind, make_run(chance, record, layer)


def possible_step(record: Record) -> int:
    """Longest step that a layer allows, up to the limit of a step."""
    layer = Layer(record)
    longest = longest_step(layer, face_resistances(layer, layer.read(record.load, record.water)[1]))
    return STEP[1] if longest is None else min(longest, STEP[1])


def make_step(chance: Chance, record: Record, layer: bool) -> int:
    """Seconds for a step call."""
    longest = possible_step(record) if layer else 1
    return chance.pick([longest, longest, longest, max(1, longest), longest + 1, chance.between(1, longest), 1, 0,
                        STEP[1], STEP[1] + 1, U64_MAX, chance.scaled(1, U64_MAX)])


def make_run(chance: Chance, record: Record, layer: bool) -> List[int]:
    """End and budget for a run call."""
    clock = record.clock
    longest = max(1, possible_step(record)) if layer else 1
    near = min(CLOCK[1], clock + longest * chance.scaled(1, 100))
    end = chance.pick([near, near, near, clock, CLOCK[1], max(0, clock - 1), clock + 1, CLOCK[1] + 1, U64_MAX])
    if not layer or not clock <= end <= CLOCK[1]:
        return [end, chance.pick([0, 5, BUDGET[1], BUDGET[1] + 1, U64_MAX])]
    return [end, BUDGET[1] + 1 if chance.one_in(20) else affordable_budget(chance, record, end)]


def make_calls(chance: Chance, record: Record, count: int) -> List[str]:
    """Statements of calls, each made for the record as the one before leaves it; the record moves with them."""
    lines = []
    for _ in range(count):
        name, numbers = make_call(chance, record)
        numbers = [min(number, U64_MAX) for number in numbers]
        lines.append(" ".join([name] + [str(number) for number in numbers]))
        answer_call(record, name, numbers)
    return lines


def make_list(chance: Chance) -> str:
    """A script of one list from a job. Its first call often is refused, so as to show the record as opened."""
    job = made_job(chance, 8)
    _, record = open_at_any_level(job)
    first = ["load %d" % U64_MAX] if chance.one_in(2) else []
    lines = ["job %s" % job.hex() if job else "job"] + first + make_calls(chance, record, chance.between(0, 8))
    return "\n".join(lines) + "\n"


def age_record(chance: Chance, record: Record) -> None:
    """Give a layer a past: a clock, and outflows that balance."""
    record.clock = chance.pick([1, CLOCK[1], CLOCK[1] - 1, chance.scaled(*CLOCK), chance.between(*CLOCK)])
    most = OUTFLOW_PER_SECOND * record.clock
    water = sum(record.water_heights())
    total = chance.between(-min(water, most), min(STARTING_WATER[1] - water, most))
    total = chance.pick([0, total, total // 1_000])
    shift = chance.pick([0, 0, chance.between(0, most - abs(total)), most - abs(total)])
    record.top_outflow, record.bottom_outflow = total + shift, -shift
    if chance.one_in(2):
        record.top_outflow, record.bottom_outflow = record.bottom_outflow, record.top_outflow
    record.starting_water = water + total


def fill_past_counts(chance: Chance, record: Record) -> None:
    """Put numbers in places past the counts, which every call has to keep."""
    for j in range(record.elements, ELEMENT_PLACES):
        if chance.one_in(3):
            record.solids[j] = chance.scaled(0, I64_MAX)
            record.water[j] = chance.scaled(0, I64_MAX)
    for name in RECORD_POINTS:
        points = getattr(record, name)
        for i in range(getattr(record, name + "_count"), POINT_PLACES):
            if chance.one_in(3):
                points[i] = (chance.scaled(0, I64_MAX), chance.scaled(0, I64_MAX))


def make_record(chance: Chance) -> str:
    """A script of one list from a record, which is a layer or no layer."""
    refusal, record = open_at_any_level(made_job(chance, 30))
    if refusal == ACCEPTED:
        if chance.one_in(2):
            age_record(chance, record)
        if chance.one_in(2):
            fill_past_counts(chance, record)
        if chance.one_in(2):
            spoil_record(chance, record)
    lines = record_lines(record)
    return "\n".join(lines + make_calls(chance, record, chance.between(1, 6))) + "\n"


def make_inputs(kind: str, seed: int, count: int) -> Iterator[bytes]:
    """Test inputs of a kind; each depends on the seed and its own number alone."""
    for index in range(count):
        chance = Chance(seed, index)
        if kind == "jobs":
            yield made_job(chance, 3)
        else:
            yield (make_list(chance) if kind == "lists" else make_record(chance)).encode("ascii")
