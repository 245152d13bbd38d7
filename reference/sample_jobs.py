"""The jobs that the makers of lists and vectors begin from, changes of them, and faults in them."""

from __future__ import annotations

from dataclasses import replace
from typing import Callable, Dict, List

import rules
from chance import TOP_BIT
from rules import U64_MAX, Pair


def specimen(**changes) -> rules.Job:
    """The paper's specimen, with changes."""
    return replace(rules.Job(
        top=1, gravity=1_000, top_level=10_000_000, end=100, budget=1, elements=[(1_000_000, 2_000_000)] * 2,
        curve1=[(5_000_000, 200_000_000), (105_000_000, 100_000_000)],
        curve2=[(100_000_000, 100_000), (200_000_000, 200_000)], table=[(0, 15_000_000)]), **changes)


def mud(**changes) -> rules.Job:
    """Three unlike elements with weight between drained faces, artesian, under a load that rises and falls."""
    return replace(rules.Job(
        top=1, bottom=1, gravity=2_650, top_level=10_000_000, bottom_level=12_000_000, end=9_000, budget=50,
        elements=[(1_000_000, 2_000_000), (2_000_000, 4_400_000), (500_000, 1_200_000)],
        curve1=[(1_000_000, 300_000_000), (20_000_000, 180_000_000), (200_000_000, 90_000_000)],
        curve2=[(80_000_000, 2_000), (150_000_000, 9_000), (320_000_000, 60_000)],
        table=[(0, 5_000_000), (1_000, 40_000_000), (5_000, 10_000_000)]), **changes)


def resting(job: rules.Job, **changes) -> rules.Job:
    """A job in start 1, with changes."""
    job = replace(job, **changes)
    return replace(job, start=1, elements=[(solids, 0) for solids, _ in job.elements])


def widest(**changes) -> rules.Job:
    """All counts and all limits at their greatest; the lowest 64 elements stand at the curve's dry end."""
    voids = [1_000_000_000 - 15_873_015 * i for i in range(63)] + [1]
    stresses = [31_746_031 * i for i in range(63)] + [2_000_000_000]
    conductivities = [1] + [15_873_015 * i for i in range(1, 63)] + [1_000_000_000]
    times = [47_619_047 * i for i in range(63)] + [3_000_000_000]
    loads = [1_000_000_000 if i % 2 else 31_746_031 * i for i in range(63)] + [2_000_000_000]
    return replace(rules.Job(
        top=1, bottom=1, gravity=5_000, top_level=200_000_000_000, bottom_level=200_000_000_000, end=3_000_000_000,
        budget=1_000_000, elements=[(100_000_000, 1)] * 64 + [(100_000_000, 1_000_000_000)] * 64,
        curve1=list(zip(stresses, voids)), curve2=list(zip(reversed(voids), conductivities)),
        table=list(zip(times, loads))), **changes)


def with_pair(job: rules.Job, name: str, place: int, pair: Pair) -> rules.Job:
    """A job with one of its pairs replaced."""
    pairs = list(getattr(job, name))
    pairs[place] = pair
    return replace(job, **{name: pairs})


def with_side(job: rules.Job, name: str, place: int, side: int, number: int) -> rules.Job:
    """A job with one number of one of its pairs replaced."""
    pair = list(getattr(job, name)[place])
    pair[side] = number
    return with_pair(job, name, place, (pair[0], pair[1]))


def not_steady(job: rules.Job) -> rules.Job:
    """A job in start 2, whose layer is not steady."""
    return replace(job, start=2)


# Faults that leave room for a second one. Start 2 stands among the headers, but is refused last.
FAULTS: Dict[int, List[Callable[[rules.Job], rules.Job]]] = {
    1: [lambda job: replace(job, mark=b"LSD")],
    2: [lambda job: replace(job, version=2), lambda job: replace(job, version=0)],
    3: [lambda job: replace(job, spare=b"\0\1"), lambda job: replace(job, gravity=999),
        not_steady],
    4: [lambda job: job],
    5: [lambda job: replace(job, top_level=rules.LEVEL[1] + 1), lambda job: replace(job, budget=rules.BUDGET[1] + 1)],
    6: [lambda job: with_side(job, "curve1", 0, 0, U64_MAX), lambda job: with_side(job, "curve1", -1, 1, 0)],
    7: [lambda job: with_side(job, "curve2", 0, 1, 0), lambda job: with_side(job, "curve2", -1, 0, U64_MAX)],
    8: [lambda job: with_side(job, "table", 0, 0, 1), lambda job: with_side(job, "table", -1, 1, TOP_BIT)],
    9: [lambda job: with_side(job, "elements", 0, 1, 0), lambda job: with_side(job, "elements", -1, 1, 1_000_000_000)]}
