"""Finding the water of steady layers, in exact whole numbers. A march goes from element to element and gives each the
water with which a flow passes through the face behind it; flows are aimed at in thousandths of a nanometre in 1,000 s.
What is found is tested by the rules alone."""

from __future__ import annotations

from dataclasses import replace
from typing import List, Optional, Sequence, Tuple

from rules import LEVEL, STEADY, STEADY_SECONDS, STEADY_SPREAD, VOID_UNIT, WATER
from rules import Compressibility, Job, Permeability, Record, buoyant_stresses, ceil_div, cut, head_pressure
from rules import opened_record, present_flows, resistance, void_ratio

FINE = 1_000  # parts of a nanometre that a flow is aimed at
MOST_AIM = 10**13
REPAIRABLE = 12  # nearly steady are layers whose flows differ by at most so much


class March:
    """The elements of a job, and the water that they have been given last."""

    def __init__(self, job: Job) -> None:
        self.job = job
        self.solids = [solids for solids, _ in job.elements]
        self.curve, self.permeability = Compressibility(job.curve1), Permeability(job.curve2)
        self.stresses = [job.table[0][1] + buoyant for buoyant in buoyant_stresses(self.solids, job.gravity)]
        self.bounds = [self.bounds_of(solids) for solids in self.solids]
        self.water = [(low + high) // 2 for low, high in self.bounds]

    def bounds_of(self, solids: int) -> Tuple[int, int]:
        """Least and most water of an element on the curve."""
        low = ceil_div(self.curve.least_void * solids, VOID_UNIT)
        return low, max(low, min(WATER[1], ((self.curve.greatest_void + 1) * solids - 1) // VOID_UNIT))

    def read(self, j: int, water: int) -> Tuple[int, int]:
        """Excess pressure and half resistance of an element with some water."""
        void = min(void_ratio(self.solids[j], water), self.curve.greatest_void)
        pressure = self.stresses[j] - self.curve.effective_stress(void)
        return pressure, resistance(self.solids[j] + water, self.permeability.conductivity(void))

    def fill(self, j: int, beyond: Tuple[int, int], aim: int) -> Tuple[int, int]:
        """Give an element the water that lets the flow aimed at out to what is beyond a face, as nearly as it can;
        gives its excess pressure and half resistance. More water means more pressure."""
        def lacks(water: int) -> int:
            pressure, half = self.read(j, water)
            return aim * (half + beyond[1]) - (pressure - beyond[0]) * FINE * STEADY_SECONDS

        (low, high), guess, reach = self.bounds[j], self.water[j], 4
        while guess - reach > low and lacks(guess - reach) <= 0:
            high, reach = guess - reach, 8 * reach
        low, reach = max(low, guess - reach), 4
        while guess + reach < high and lacks(guess + reach) > 0:
            low, reach = guess + reach + 1, 8 * reach
        high = max(low, min(high, guess + reach))
        while low < high:
            middle = (low + high) // 2
            if lacks(middle) <= 0:
                high = middle
            else:
                low = middle + 1
        if low > self.bounds[j][0] and abs(lacks(low - 1)) < abs(lacks(low)):
            low -= 1
        self.water[j] = low
        return self.read(j, low)

    def down(self, aims: Sequence[int], first: Optional[int] = None) -> Tuple[int, int]:
        """March from the top, whose element gets its water by the flow through a drained top or is given some first;
        gives the lowest element's excess pressure and half resistance. The flows are upward, the bottom's first."""
        beyond = (0, 0)
        for j in reversed(range(len(self.solids))):
            if first is not None and j == len(self.solids) - 1:
                self.water[j] = first
                beyond = self.read(j, first)
            else:
                beyond = self.fill(j, beyond, aims[j + 1])
        return beyond

    def up(self, aims: Sequence[int]) -> None:
        """March from a drained bottom."""
        beyond = (head_pressure(self.job.bottom_level - self.job.top_level), 0)
        for j in range(len(self.solids)):
            beyond = self.fill(j, beyond, -aims[j])


def in_start_2(job: Job, water: Sequence[int]) -> Job:
    """A job in start 2 with these water heights."""
    return replace(job, start=STEADY, elements=[(solids, wet) for (solids, _), wet in zip(job.elements, water)])


def record_of(job: Job, load: Optional[int] = None) -> Record:
    """The record of a job with its water given, steady or not, with the opening load or another."""
    record = opened_record(job, [water for _, water in job.elements])
    return record if load is None else replace(record, load=load)


def flows_of(job: Job, seconds: int = STEADY_SECONDS) -> List[int]:
    """The upward flows of a job with its water given, from the bottom up."""
    return present_flows(record_of(job), seconds)


def spread(flows: Sequence[int]) -> int:
    """How much two flows differ at most."""
    return max(flows) - min(flows)


def with_level(job: Job, lowest: Tuple[int, int], aim: int) -> Job:
    """A job whose bottom level lets about a flow in, its lowest element having this pressure and half resistance."""
    pressure = lowest[0] + cut(aim * lowest[1], FINE * STEADY_SECONDS)
    level = job.top_level + (ceil_div(pressure * 100_000, 981) if pressure >= 0 else pressure * 100_000 // 981)
    return replace(job, bottom_level=min(max(level, LEVEL[0]), LEVEL[1]))


def with_flows(job: Job, aims: Sequence[int], first: Optional[int] = None) -> Job:
    """A job in start 2 with flows about those aimed at, from the bottom up; that of a closed face is not looked at. If
    both faces are drained the bottom level is chosen, if both are closed the highest element's water is given."""
    march = March(job)
    if job.top == 1 and job.bottom == 1:
        lowest = march.down(aims)
        return in_start_2(with_level(job, lowest, aims[0]), march.water)
    if job.bottom == 1:
        march.up(aims)
    else:
        march.down(aims, None if job.top == 1 else march.water[-1] if first is None else first)
    return in_start_2(job, march.water)


def settled(job: Job) -> Job:
    """A job in start 2 between drained faces at its own levels, with about the same flow through all of them: the flow
    is found by halving, for the greater it is the less enters through the bottom."""
    march, count = March(job), len(job.elements)
    held = head_pressure(job.bottom_level - job.top_level)

    def too_great(aim: int) -> bool:
        pressure, half = march.down([aim] * (count + 1))
        return (held - pressure) * FINE * STEADY_SECONDS <= aim * half

    low, high = -FINE, FINE
    while low > -MOST_AIM and too_great(low):
        low, high = 8 * low, low
    while high < MOST_AIM and not too_great(high):
        low, high = high, 8 * high
    while low < high:
        middle = (low + high) // 2
        if too_great(middle):
            high = middle
        else:
            low = middle + 1
    found = []
    for more in (0, FINE // 4, -FINE // 4, FINE // 2, -FINE // 2):
        march.down([low + more] * (count + 1))
        found.append(repaired(in_start_2(job, march.water)))
        if spread(flows_of(found[-1])) <= STEADY_SPREAD:
            break
    return min(found, key=rank)


def repaired(job: Job) -> Job:
    """A job that is nearly steady, made to be so by single heights that are changed by a nanometre or two, as long as
    that helps; any other as it is."""
    water = [wet for _, wet in job.elements]
    if not on_curve(job):
        return job
    best = rank(job)
    while STEADY_SPREAD < best[0] <= REPAIRABLE:
        found = None
        for j in range(len(water)):
            for more in (-1, 1, -2, 2):
                tried = in_start_2(job, water[:j] + [water[j] + more] + water[j + 1:])
                if on_curve(tried) and rank(tried) < best:
                    found, best = tried, rank(tried)
        if found is None:
            break
        job, water = found, [wet for _, wet in found.elements]
    return job


def rank(job: Job) -> Tuple[int, int]:
    """How far a job is from steady: the spread of its flows, and how much all of them differ from the middle."""
    flows = flows_of(job)
    middle = sorted(flows)[len(flows) // 2]
    return spread(flows), sum(abs(flow - middle) for flow in flows)


def on_curve(job: Job) -> bool:
    """Whether all given water is on the curve."""
    curve = Compressibility(job.curve1)
    return all(0 <= water <= WATER[1] and curve.holds(void_ratio(solids, water)) for solids, water in job.elements)
