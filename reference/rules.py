"""The rules of the paper: limits, rounding, soil, the record and its layer, the calls on a record, opening a job,
writing a job, the key. A refusal of 0 means that a call was accepted; a refused one leaves its record or buffer as it
was."""

from __future__ import annotations

import struct
from bisect import bisect_right
from dataclasses import dataclass, field, replace
from typing import List, Optional, Sequence, Tuple

Pair = Tuple[int, int]

# ----------------------------------------------------------------------------------------------------------------
# Limits, each a closed range
# ----------------------------------------------------------------------------------------------------------------

STRESS = (0, 2_000_000_000)
VOID = (1, 1_000_000_000)
CONDUCTIVITY = (1, 1_000_000_000)
LEVEL = (0, 200_000_000_000)
CLOCK = (0, 3_000_000_000)
SOLIDS = (100_000, 100_000_000)
WATER = (0, 1_000_000_000)
STEP = (1, 1_000_000)
BUDGET = (0, 1_000_000)
GRAVITY = (1_000, 5_000)
ELEMENTS = (1, 128)
CURVE_POINTS = (2, 64)
TABLE_POINTS = (1, 64)
COUNTS = (ELEMENTS, CURVE_POINTS, CURVE_POINTS, TABLE_POINTS)
STARTING_WATER = (0, 128_000_000_000)
OUTFLOW_PER_SECOND = 2_300_000_000

# Starts of a job, and when a layer is steady
WATER_GIVEN, AT_REST, STEADY = STARTS = range(3)
STEADY_SECONDS = 1_000
STEADY_SPREAD = 1

ELEMENT_PLACES = 128
POINT_PLACES = 64
VOID_UNIT = 100_000_000
JOB_HEADER = 48
SHORTEST_JOB = 144
JOB_BYTES_READ = 8_192
U64_MAX = 2**64 - 1

# Refusal numbers
ACCEPTED = 0
NO_MARK, NO_VERSION, BAD_HEADER, BAD_LENGTH, BAD_FIELD = range(1, 6)
BAD_FIRST_CURVE, BAD_SECOND_CURVE, BAD_TABLE, BAD_START, SHORT_BUFFER = range(6, 11)
NO_LAYER, BAD_LOAD, BAD_STEP, STEP_TOO_LONG, STEP_OFF_CURVE, BAD_RUN, SHORT_JOB_BUFFER = range(11, 18)
NOT_STEADY = 20

# Stops of a run
AT_END, BUDGET_USED, NO_STEP, OFF_CURVE = range(4)


def within(number: int, limits: Pair) -> bool:
    """Whether a number lies in a closed range."""
    return limits[0] <= number <= limits[1]


# ----------------------------------------------------------------------------------------------------------------
# Rounding and interpolation
# ----------------------------------------------------------------------------------------------------------------

def cut(numerator: int, denominator: int) -> int:
    """Quotient rounded toward zero; the denominator is positive."""
    return numerator // denominator if numerator >= 0 else -(-numerator // denominator)


def ceil_div(numerator: int, denominator: int) -> int:
    """Quotient rounded up; the denominator is positive."""
    return -(-numerator // denominator)


def interpolate(keys: Sequence[int], values: Sequence[int], at: int) -> int:
    """Value at a key along straight segments: the rise from the segment's first point is floored. Keys rise."""
    b = min(bisect_right(keys, at), len(keys) - 1)
    a = b - 1
    return values[a] + (values[b] - values[a]) * (at - keys[a]) // (keys[b] - keys[a])


def rises(numbers: Sequence[int]) -> bool:
    """Whether every number is greater than the one before it."""
    return all(a < b for a, b in zip(numbers, numbers[1:]))


# ----------------------------------------------------------------------------------------------------------------
# Soil
# ----------------------------------------------------------------------------------------------------------------

def void_ratio(solids: int, water: int) -> int:
    """Void ratio of an element, floored."""
    return water * VOID_UNIT // solids


def head_pressure(head: int) -> int:
    """Pressure of a water head, in mPa for a head in nm."""
    return cut(head * 981, 100_000)


def resistance(height: int, conductivity: int) -> int:
    """Resistance of half an element to flow, in mPa s/nm, for its whole height."""
    return ceil_div(4_905 * height, conductivity)


class Compressibility:
    """First curve: effective stress against void ratio, which falls as the stress rises."""

    def __init__(self, points: Sequence[Pair]) -> None:
        self.stresses = [stress for stress, _ in points]
        self.voids = [void for _, void in points]
        self.least_void, self.greatest_void = self.voids[-1], self.voids[0]
        self._keys = [-void for void in self.voids]

    def holds(self, void: int) -> bool:
        """Whether a void ratio is on the curve, its ends included."""
        return self.least_void <= void <= self.greatest_void

    def effective_stress(self, void: int) -> int:
        """Effective stress at a void ratio on the curve."""
        return interpolate(self._keys, self.stresses, -void)

    def stiffness(self) -> int:
        """Greatest stress rise for one unit of void ratio, rounded up segment by segment."""
        s, v = self.stresses, self.voids
        return max(ceil_div(s[i + 1] - s[i], v[i] - v[i + 1]) for i in range(len(s) - 1))


class Permeability:
    """Second curve: hydraulic conductivity against void ratio."""

    def __init__(self, points: Sequence[Pair]) -> None:
        self.voids = [void for void, _ in points]
        self.conductivities = [conductivity for _, conductivity in points]

    def conductivity(self, void: int) -> int:
        """Hydraulic conductivity at a void ratio that the curve covers."""
        return interpolate(self.voids, self.conductivities, void)


def is_compressibility(points: Sequence[Pair]) -> bool:
    """Whether points make a first curve: in limits, stress rising, void ratio falling."""
    return (all(within(stress, STRESS) and within(void, VOID) for stress, void in points)
            and rises([stress for stress, _ in points])
            and rises([-void for _, void in points]))


def is_permeability(points: Sequence[Pair], first_curve: Sequence[Pair]) -> bool:
    """Whether points make a second curve that covers every void ratio of the first."""
    return (all(within(void, VOID) and within(conductivity, CONDUCTIVITY) for void, conductivity in points)
            and rises([void for void, _ in points])
            and all(low[1] <= high[1] for low, high in zip(points, points[1:]))
            and points[0][0] <= first_curve[-1][1]
            and first_curve[0][1] <= points[-1][0])


def is_load_table(points: Sequence[Pair]) -> bool:
    """Whether points make a load table: in limits, times rising from 0."""
    return (all(within(time, CLOCK) and within(load, STRESS) for time, load in points)
            and points[0][0] == 0
            and rises([time for time, _ in points]))


def table_load(table: Sequence[Pair], now: int) -> int:
    """Load that the table gives at a time."""
    b = bisect_right([time for time, _ in table], now)
    (time_a, load_a) = table[b - 1]
    if b == len(table):
        return load_a
    (time_b, load_b) = table[b]
    return load_a + cut((load_b - load_a) * (now - time_a), time_b - time_a)


def next_table_time(table: Sequence[Pair], now: int) -> Optional[int]:
    """First time of the table that is strictly later than now, if there is one."""
    return next((time for time, _ in table if time > now), None)


def buoyant_stresses(solids: Sequence[int], gravity: int) -> List[int]:
    """Stress at each element's node from the buoyant weight of the solids above it and half its own."""
    weights = [height * (gravity - 1_000) * 9_810 // 1_000_000_000 for height in solids]
    return [sum(weights[j + 1:]) + weights[j] // 2 for j in range(len(weights))]


# ----------------------------------------------------------------------------------------------------------------
# The record and the layer that it describes
# ----------------------------------------------------------------------------------------------------------------

@dataclass
class Record:
    """State that the calls work on. A face is None when closed, else the pressure that it holds."""

    elements: int = 0
    top: Optional[int] = None
    bottom: Optional[int] = None
    gravity: int = 0
    top_level: int = 0
    bottom_level: int = 0
    curve1_count: int = 0
    curve2_count: int = 0
    table_count: int = 0
    curve1: List[Pair] = field(default_factory=lambda: [(0, 0)] * POINT_PLACES)
    curve2: List[Pair] = field(default_factory=lambda: [(0, 0)] * POINT_PLACES)
    table: List[Pair] = field(default_factory=lambda: [(0, 0)] * POINT_PLACES)
    solids: List[int] = field(default_factory=lambda: [0] * ELEMENT_PLACES)
    water: List[int] = field(default_factory=lambda: [0] * ELEMENT_PLACES)
    load: int = 0
    clock: int = 0
    top_outflow: int = 0
    bottom_outflow: int = 0
    starting_water: int = 0

    def copy(self) -> Record:
        """Another record with the same numbers."""
        return replace(self, curve1=list(self.curve1), curve2=list(self.curve2), table=list(self.table),
                       solids=list(self.solids), water=list(self.water))

    def first_points(self) -> List[Pair]:
        """Points of the compressibility curve."""
        return self.curve1[:self.curve1_count]

    def second_points(self) -> List[Pair]:
        """Points of the conductivity curve."""
        return self.curve2[:self.curve2_count]

    def table_points(self) -> List[Pair]:
        """Points of the load table."""
        return self.table[:self.table_count]

    def solid_heights(self) -> List[int]:
        """Solids of the elements, lowest first."""
        return self.solids[:self.elements]

    def water_heights(self) -> List[int]:
        """Water of the elements, lowest first."""
        return self.water[:self.elements]


class Layer:
    """What the rules need of a record and no call changes."""

    def __init__(self, record: Record) -> None:
        self.solids = record.solid_heights()
        self.top, self.bottom = record.top, record.bottom
        self.compressibility = Compressibility(record.first_points())
        self.permeability = Permeability(record.second_points())
        self.table = record.table_points()
        self.buoyant = buoyant_stresses(self.solids, record.gravity)
        self.face_stiffness = face_stiffnesses(self.solids, self.compressibility.stiffness())

    def read(self, load: int, water: Sequence[int]) -> Tuple[List[int], List[int]]:
        """Excess pressure and half resistance of every element, lowest first."""
        effective_stress, conductivity = self.compressibility.effective_stress, self.permeability.conductivity
        pressures, halves = [], []
        for solids, wet, buoyant in zip(self.solids, water, self.buoyant):
            void = void_ratio(solids, wet)
            pressures.append(load + buoyant - effective_stress(void))
            halves.append(resistance(solids + wet, conductivity(void)))
        return pressures, halves

    def all_on_curve(self, water: Sequence[int]) -> bool:
        """Whether every element's void ratio is on the compressibility curve."""
        holds = self.compressibility.holds
        return all(holds(void_ratio(solids, wet)) for solids, wet in zip(self.solids, water))


def face_stiffnesses(solids: Sequence[int], stiffness: int) -> List[int]:
    """For every face from the bottom up, twice the stress that 1 nm of water can move in its stiffer element."""
    voids = [ceil_div(VOID_UNIT, height) for height in solids]
    return [2 * stiffness * max(below, above) for below, above in zip([0] + voids, voids + [0])]


def face_resistances(layer: Layer, halves: Sequence[int]) -> List[Optional[int]]:
    """Resistance of every face from the bottom up, None for a closed one."""
    bottom = None if layer.bottom is None else halves[0]
    top = None if layer.top is None else halves[-1]
    return [bottom] + [below + above for below, above in zip(halves, halves[1:])] + [top]


def excess_pressures(record: Record) -> List[int]:
    """Excess pore pressure of every element of a layer, lowest first."""
    return Layer(record).read(record.load, record.water)[0]


def longest_step(layer: Layer, resistances: Sequence[Optional[int]]) -> Optional[int]:
    """Longest step that is not too long, None when the layer has no face through which water can pass."""
    return min((r // s for r, s in zip(resistances, layer.face_stiffness) if r is not None), default=None)


def upward_flows(layer: Layer, pressures: List[int], resistances: Sequence[Optional[int]], seconds: int) -> List[int]:
    """Water that passes upward through every face from the bottom up in a step."""
    below = [layer.bottom or 0] + pressures
    above = pressures + [layer.top or 0]
    return [0 if r is None else cut((b - a) * seconds, r) for b, a, r in zip(below, above, resistances)]


def moved_water(water: Sequence[int], flows: Sequence[int]) -> List[int]:
    """Water of every element after the flows through its lower and upper face."""
    return [wet + entering - leaving for wet, entering, leaving in zip(water, flows, flows[1:])]


# ----------------------------------------------------------------------------------------------------------------
# When a record is a layer
# ----------------------------------------------------------------------------------------------------------------

def are_stated_values(counts: Sequence[int], gravity: int) -> bool:
    """Whether the counts of elements, both curves and load table, and a specific gravity, are in their ranges."""
    return all(map(within, counts, COUNTS)) and within(gravity, GRAVITY)


def has_stated_values(record: Record) -> bool:
    """Whether the record's counts and specific gravity are in their ranges."""
    counts = (record.elements, record.curve1_count, record.curve2_count, record.table_count)
    return are_stated_values(counts, record.gravity)


def has_fields_in_limits(record: Record) -> bool:
    """Whether levels, solids and water are in limits, with bottom level 0 under a closed bottom."""
    return (within(record.top_level, LEVEL)
            and within(record.bottom_level, LEVEL)
            and (record.bottom is not None or record.bottom_level == 0)
            and all(within(solids, SOLIDS) for solids in record.solid_heights())
            and all(within(water, WATER) for water in record.water_heights()))


def bottom_pressure(record: Record) -> int:
    """Pressure that a drained bottom has to hold."""
    return head_pressure(record.bottom_level - record.top_level)


def holds_right_pressures(record: Record) -> bool:
    """Whether the drained faces hold the pressures that their levels give."""
    return record.top in (None, 0) and record.bottom in (None, bottom_pressure(record))


def water_balances(record: Record) -> bool:
    """Whether the starting water is the present water and both outflows added."""
    return record.starting_water == sum(record.water_heights()) + record.top_outflow + record.bottom_outflow


def has_possible_outflows(record: Record) -> bool:
    """Whether neither outflow is larger than the elapsed time allows."""
    most = OUTFLOW_PER_SECOND * record.clock
    return abs(record.top_outflow) <= most and abs(record.bottom_outflow) <= most


def is_layer(record: Record) -> bool:
    """Whether the record is one that the calls accept."""
    return (has_stated_values(record)
            and has_fields_in_limits(record)
            and is_compressibility(record.first_points())
            and is_permeability(record.second_points(), record.first_points())
            and is_load_table(record.table_points())
            and holds_right_pressures(record)
            and Layer(record).all_on_curve(record.water)
            and within(record.load, STRESS)
            and within(record.clock, CLOCK)
            and within(record.starting_water, STARTING_WATER)
            and water_balances(record)
            and has_possible_outflows(record))


# ----------------------------------------------------------------------------------------------------------------
# Calls on a record
# ----------------------------------------------------------------------------------------------------------------

def load_call(record: Record, load: int) -> int:
    """Set the load, in mPa."""
    if not is_layer(record):
        return NO_LAYER
    if not within(load, STRESS):
        return BAD_LOAD
    record.load = load
    return ACCEPTED


def step_call(record: Record, seconds: int) -> int:
    """Let water flow for one step."""
    if not is_layer(record):
        return NO_LAYER
    if not within(seconds, STEP) or record.clock + seconds > CLOCK[1]:
        return BAD_STEP
    layer = Layer(record)
    pressures, halves = layer.read(record.load, record.water)
    resistances = face_resistances(layer, halves)
    longest = longest_step(layer, resistances)
    if longest is not None and seconds > longest:
        return STEP_TOO_LONG
    if not take_step(record, layer, pressures, resistances, seconds):
        return STEP_OFF_CURVE
    return ACCEPTED


def take_step(record: Record, layer: Layer, pressures: List[int], resistances: Sequence[Optional[int]],
              seconds: int) -> bool:
    """Move water, outflows and clock by one step; False, and nothing moved, if it would leave the curve."""
    flows = upward_flows(layer, pressures, resistances, seconds)
    water = moved_water(record.water, flows)
    if not layer.all_on_curve(water):
        return False
    record.water[:record.elements] = water
    record.bottom_outflow -= flows[0]
    record.top_outflow += flows[-1]
    record.clock += seconds
    return True


def run_call(record: Record, end: int, budget: int) -> Tuple[int, int, int]:
    """Step to an end time with at most `budget` steps; gives refusal, stop and steps taken."""
    if not is_layer(record):
        return NO_LAYER, 0, 0
    if not record.clock <= end <= CLOCK[1] or not within(budget, BUDGET):
        return BAD_RUN, 0, 0
    layer = Layer(record)
    steps = 0
    while True:
        if record.clock == end:
            return ACCEPTED, AT_END, steps
        if steps == budget:
            return ACCEPTED, BUDGET_USED, steps
        record.load = table_load(layer.table, record.clock)
        pressures, halves = layer.read(record.load, record.water)
        resistances = face_resistances(layer, halves)
        seconds = run_step(layer, resistances, record.clock, end)
        if seconds == 0:
            return ACCEPTED, NO_STEP, steps
        if not take_step(record, layer, pressures, resistances, seconds):
            return ACCEPTED, OFF_CURVE, steps
        steps += 1


def run_step(layer: Layer, resistances: Sequence[Optional[int]], clock: int, end: int) -> int:
    """Length of a run's next step, 0 when even one second is too long."""
    bounds = [STEP[1], end - clock]
    table_time = next_table_time(layer.table, clock)
    if table_time is not None:
        bounds.append(table_time - clock)
    longest = longest_step(layer, resistances)
    if longest is not None:
        bounds.append(longest)
    return min(bounds)


# ----------------------------------------------------------------------------------------------------------------
# Opening a job
# ----------------------------------------------------------------------------------------------------------------

@dataclass
class Job:
    """The parts of a job, as numbers."""

    top: int = 0
    bottom: int = 0
    start: int = 0
    gravity: int = 1_000
    top_level: int = 0
    bottom_level: int = 0
    end: int = 0
    budget: int = 0
    elements: List[Pair] = field(default_factory=list)
    curve1: List[Pair] = field(default_factory=list)
    curve2: List[Pair] = field(default_factory=list)
    table: List[Pair] = field(default_factory=list)
    version: int = 1
    mark: bytes = b"LSC"
    spare: bytes = b"\0\0"


def job_length(counts: Sequence[int]) -> int:
    """Bytes of a job with these counts."""
    return JOB_HEADER + 16 * sum(counts)


def job_bytes(job: Job) -> bytes:
    """The bytes of a job; its counts are the lengths of its lists."""
    counts = [len(job.elements), len(job.curve1), len(job.curve2), len(job.table)]
    numbers = struct.pack("<H7BH", job.version, job.top, job.bottom, *counts, job.start, job.gravity)
    fields = [job.top_level, job.bottom_level, job.end, job.budget]
    for pair in job.elements + job.curve1 + job.curve2 + job.table:
        fields.extend(pair)
    return job.mark + numbers + job.spare + struct.pack("<%dQ" % len(fields), *fields)


def job_counts(job: bytes) -> List[int]:
    """Elements and points of first curve, second curve and load table, as a job's header gives them."""
    return [job[7], job[8], job[9], job[10]]


def read_job(job: bytes) -> Job:
    """The parts of a job whose header and length are right."""
    fields = struct.unpack("<%dQ" % ((len(job) - 16) // 8), job[16:])
    pairs = list(zip(fields[4::2], fields[5::2]))
    groups = []
    for count in job_counts(job):
        groups.append(pairs[:count])
        pairs = pairs[count:]
    elements, curve1, curve2, table = groups
    return Job(top=job[5], bottom=job[6], start=job[11], gravity=struct.unpack("<H", job[12:14])[0],
               top_level=fields[0], bottom_level=fields[1], end=fields[2], budget=fields[3],
               elements=elements, curve1=curve1, curve2=curve2, table=table)


def is_stated_header(top: int, bottom: int, start: int, counts: Sequence[int], gravity: int) -> bool:
    """Whether faces, start, counts and specific gravity are among the values stated for them."""
    return top in (0, 1) and bottom in (0, 1) and start in STARTS and are_stated_values(counts, gravity)


def header_refusal(job: bytes) -> int:
    """Refusal for the mark, version, header bytes or length of a job, else 0."""
    if len(job) < JOB_HEADER or job[:3] != b"LSC":
        return NO_MARK
    if struct.unpack("<H", job[3:5])[0] != 1:
        return NO_VERSION
    gravity = struct.unpack("<H", job[12:14])[0]
    if not (is_stated_header(job[5], job[6], job[11], job_counts(job), gravity) and job[14:16] == b"\0\0"):
        return BAD_HEADER
    if len(job) != job_length(job_counts(job)):
        return BAD_LENGTH
    return ACCEPTED


def body_refusal(job: Job) -> int:
    """Refusal for the fields, curves or load table of a job, else 0."""
    if not (within(job.top_level, LEVEL)
            and within(job.bottom_level, LEVEL)
            and (job.bottom == 1 or job.bottom_level == 0)
            and within(job.end, CLOCK)
            and within(job.budget, BUDGET)
            and all(within(solids, SOLIDS) and within(water, WATER) for solids, water in job.elements)
            and (job.start != AT_REST or all(water == 0 for _, water in job.elements))):
        return BAD_FIELD
    if not is_compressibility(job.curve1):
        return BAD_FIRST_CURVE
    if not is_permeability(job.curve2, job.curve1):
        return BAD_SECOND_CURVE
    if not is_load_table(job.table):
        return BAD_TABLE
    return ACCEPTED


def equilibrium_water(curve: Compressibility, solids: int, stress: int) -> Optional[int]:
    """Least water on the curve whose effective stress is at most a stress; None if no water or if it is too great.

    More water never means more effective stress, so the least height that is past the dry end of the curve and
    carries no more than the stress is found by halving; it serves unless it is past the wet end as well.
    """
    if stress > curve.stresses[-1]:
        return None

    def wet_enough(water: int) -> bool:
        void = void_ratio(solids, water)
        return void > curve.greatest_void or (void >= curve.least_void and curve.effective_stress(void) <= stress)

    low, high = WATER[0], WATER[1] + 1
    while low < high:
        middle = (low + high) // 2
        if wet_enough(middle):
            high = middle
        else:
            low = middle + 1
    return low if low <= WATER[1] and curve.holds(void_ratio(solids, low)) else None


def starting_waters(job: Job) -> List[Optional[int]]:
    """Water of every element at the start, None for an element whose start is off the curve."""
    curve = Compressibility(job.curve1)
    if job.start != AT_REST:
        return [water if curve.holds(void_ratio(solids, water)) else None for solids, water in job.elements]
    heights = [solids for solids, _ in job.elements]
    load = job.table[0][1]
    return [equilibrium_water(curve, solids, load + buoyant)
            for solids, buoyant in zip(heights, buoyant_stresses(heights, job.gravity))]


def padded(items: Sequence, places: int, filler) -> List:
    """A list filled up to a number of places."""
    return list(items) + [filler] * (places - len(items))


def opened_record(job: Job, water: Sequence[int]) -> Record:
    """The record of an accepted job."""
    bottom = head_pressure(job.bottom_level - job.top_level) if job.bottom == 1 else None
    return Record(
        elements=len(job.elements), top=0 if job.top == 1 else None, bottom=bottom, gravity=job.gravity,
        top_level=job.top_level, bottom_level=job.bottom_level,
        curve1_count=len(job.curve1), curve2_count=len(job.curve2), table_count=len(job.table),
        curve1=padded(job.curve1, POINT_PLACES, (0, 0)),
        curve2=padded(job.curve2, POINT_PLACES, (0, 0)),
        table=padded(job.table, POINT_PLACES, (0, 0)),
        solids=padded([solids for solids, _ in job.elements], ELEMENT_PLACES, 0),
        water=padded(water, ELEMENT_PLACES, 0),
        load=job.table[0][1], starting_water=sum(water))


def may_rest(job: Job) -> bool:
    """Whether start 1 is for a job: its bottom is closed, or drained at the top's level."""
    return job.bottom == 0 or job.bottom_level == job.top_level


def present_flows(record: Record, seconds: int) -> List[int]:
    """Water that would pass upward through every face of a layer as it stands, from the bottom up, in so many seconds,
    whether or not they are too long a step."""
    layer = Layer(record)
    pressures, halves = layer.read(record.load, record.water)
    return upward_flows(layer, pressures, face_resistances(layer, halves), seconds)


def is_steady(record: Record) -> bool:
    """Whether the flows through any two faces of a layer differ by no more than a nanometre; a closed one's is 0."""
    flows = present_flows(record, STEADY_SECONDS)
    return max(flows) - min(flows) <= STEADY_SPREAD


def start_of(job: Job) -> Tuple[int, List[int]]:
    """Refusal for all that follows the header of a job, else 0 and the water of every element at the start."""
    refusal = body_refusal(job)
    if refusal:
        return refusal, []
    if job.start == AT_REST and not may_rest(job):
        return BAD_START, []
    water = starting_waters(job)
    if None in water:
        return BAD_START, []
    if job.start == STEADY and not is_steady(opened_record(job, water)):
        return NOT_STEADY, []
    return ACCEPTED, water


def open_job(job: bytes) -> Tuple[int, Record]:
    """Open a job; a refused one gives its refusal number and the blank record."""
    refusal = header_refusal(job)
    if refusal:
        return refusal, Record()
    parts = read_job(job)
    refusal, water = start_of(parts)
    return refusal, Record() if refusal else opened_record(parts, water)


# ----------------------------------------------------------------------------------------------------------------
# Writing a job
# ----------------------------------------------------------------------------------------------------------------

HEADER_WORDS = 12
ARRAY_PLACES = (ELEMENT_PLACES,) * 2 + (POINT_PLACES,) * 6
DESCRIPTION_WORDS = HEADER_WORDS + sum(ARRAY_PLACES)


@dataclass
class Description:
    """A layer with its end and budget, as any numbers of 64 bits. Places past a count say nothing."""

    top: int
    bottom: int
    elements: int
    curve1_count: int
    curve2_count: int
    table_count: int
    start: int
    gravity: int
    top_level: int
    bottom_level: int
    end: int
    budget: int
    solids: List[int]
    water: List[int]
    stress: List[int]
    void: List[int]
    conductivity_void: List[int]
    conductivity: List[int]
    time: List[int]
    load: List[int]

    def words(self) -> List[int]:
        """All its numbers, in the order of their words."""
        values = list(vars(self).values())
        return values[:HEADER_WORDS] + [number for array in values[HEADER_WORDS:] for number in array]

    def counts(self) -> List[int]:
        """Elements and points of first curve, second curve and load table."""
        return [self.elements, self.curve1_count, self.curve2_count, self.table_count]

    def groups(self) -> List[List[Pair]]:
        """Elements and points of first curve, second curve and load table, up to the counts."""
        pairs = [zip(self.solids, self.water), zip(self.stress, self.void),
                 zip(self.conductivity_void, self.conductivity), zip(self.time, self.load)]
        return [list(group)[:count] for group, count in zip(pairs, self.counts())]


def description_of(words: Sequence[int]) -> Description:
    """The description that words give: words past a short list's end are 0, and those past the last do not matter."""
    words = padded(words[:DESCRIPTION_WORDS], DESCRIPTION_WORDS, 0)
    arrays, at = [], HEADER_WORDS
    for places in ARRAY_PLACES:
        arrays.append(words[at:at + places])
        at += places
    return Description(*words[:HEADER_WORDS], *arrays)


def job_description(job: Job) -> Description:
    """The description of a job with right counts; places past a count are 0."""
    arrays = []
    for pairs, places in ((job.elements, ELEMENT_PLACES), (job.curve1, POINT_PLACES), (job.curve2, POINT_PLACES),
                          (job.table, POINT_PLACES)):
        arrays += [padded([pair[side] for pair in pairs], places, 0) for side in (0, 1)]
    return Description(job.top, job.bottom, len(job.elements), len(job.curve1), len(job.curve2), len(job.table),
                       job.start, job.gravity, job.top_level, job.bottom_level, job.end, job.budget, *arrays)


def read_description(job: bytes) -> Description:
    """The description that the bytes of a job give, whose header and length are right."""
    return job_description(read_job(job))


def described_job(description: Description) -> Job:
    """The parts of the job that a description asks for; places past a count are left out."""
    elements, curve1, curve2, table = description.groups()
    return Job(top=description.top, bottom=description.bottom, start=description.start, gravity=description.gravity,
               top_level=description.top_level, bottom_level=description.bottom_level, end=description.end,
               budget=description.budget, elements=elements, curve1=curve1, curve2=curve2, table=table)


def description_refusal(description: Description) -> int:
    """Refusal of a description by those tests of an opening that its numbers can fail, else 0."""
    d = description
    if not is_stated_header(d.top, d.bottom, d.start, d.counts(), d.gravity):
        return BAD_HEADER
    return start_of(described_job(d))[0]


def write_job(description: Description, buffer: bytearray) -> int:
    """Write a description's job at the start of a buffer; gives its length, or the number of a refusal."""
    refusal = description_refusal(description)
    if refusal:
        return refusal
    length = job_length(description.counts())
    if len(buffer) < length:
        return SHORT_JOB_BUFFER
    buffer[:length] = job_bytes(described_job(description))
    return length


# ----------------------------------------------------------------------------------------------------------------
# The key
# ----------------------------------------------------------------------------------------------------------------

def result_length(elements: int) -> int:
    """Bytes of a result."""
    return 56 + 40 * elements


def settlement(record: Record) -> int:
    """Starting height less present height: the solids cancel, so the water tells."""
    return record.starting_water - sum(record.water_heights())


def element_rows(record: Record) -> List[Tuple[int, int, int, int, int]]:
    """Water, void ratio, effective stress, total stress and pore pressure of every element, lowest first."""
    layer = Layer(record)
    rows = []
    base = 0
    for solids, water, buoyant in zip(layer.solids, record.water, layer.buoyant):
        void = void_ratio(solids, water)
        effective = layer.compressibility.effective_stress(void)
        height = solids + water
        node = base + height // 2
        pore = record.load + buoyant - effective + head_pressure(record.top_level - node)
        rows.append((water, void, effective, pore + effective, pore))
        base += height
    return rows


def result_bytes(record: Record, stop: int, steps: int) -> bytes:
    """The key of a layer after a run."""
    head = b"LSR" + struct.pack("<HBBB", 1, stop, record.elements, 0)
    totals = struct.pack("<QQQqqq", record.clock, steps, record.load,
                         record.top_outflow, record.bottom_outflow, settlement(record))
    return head + totals + b"".join(struct.pack("<QQQqq", *row) for row in element_rows(record))


def key_into(job: bytes, buffer: bytearray) -> int:
    """Work a job and write its key at the start of a buffer; a refused job leaves the buffer as it was."""
    refusal, record = open_job(job)
    if refusal:
        return refusal
    length = result_length(record.elements)
    if len(buffer) < length:
        return SHORT_BUFFER
    parts = read_job(job)
    _, stop, steps = run_call(record, parts.end, parts.budget)
    buffer[:length] = result_bytes(record, stop, steps)
    return ACCEPTED


def key(job: bytes) -> Tuple[int, bytes]:
    """Refusal and key of a job, with a buffer that is never too short."""
    buffer = bytearray(result_length(job[7]) if len(job) > 7 else 0)
    refusal = key_into(job, buffer)
    return refusal, b"" if refusal else bytes(buffer)
