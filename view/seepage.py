"""Flows through a layer under its first load, in whole numbers as the paper has them. A program judges whether a layer
is steady; here flows are only measured, for a search and for messages."""

from __future__ import annotations

from bisect import bisect_right
from typing import List, Optional, Sequence, Tuple

from layer import DRAINED, Layer

SECONDS = 1_000     # over which flows of a steady layer are compared
APART = 1           # nm by which they may differ
VOID_UNIT = 10**8
MOST_WATER = 10**9


def cut(numerator: int, denominator: int) -> int:
    """A quotient rounded toward zero; the denominator is positive."""
    return numerator // denominator if numerator >= 0 else -(-numerator // denominator)


def carried(layer: Layer) -> List[int]:
    """The stress that each element carries: the first load, and the weight of what is above its middle."""
    weights = [solids * (layer.gravity - 1_000) * 9_810 // 10**9 for solids in layer.solids]
    return [layer.loads[0] + sum(weights[at + 1:]) + weight // 2 for at, weight in enumerate(weights)]


def bottom_pressure(layer: Layer) -> int:
    """The pressure that a drained bottom holds."""
    return cut((layer.bottom_level - layer.top_level) * 981, 100_000)


def apart(flows: Sequence[int]) -> int:
    """By how much the greatest flow exceeds the least."""
    return max(flows) - min(flows)


class Ground:
    """What flows depend on, of a layer with sound curves and solids. A face is None if closed, else its pressure.
    Elements are counted from 0, the lowest."""

    def __init__(self, layer: Layer) -> None:
        self.solids = layer.solids
        self.carried = carried(layer)
        self.top: Optional[int] = 0 if layer.top == DRAINED else None
        self.bottom: Optional[int] = bottom_pressure(layer) if layer.bottom == DRAINED else None
        self.stresses, self.voids = layer.stresses, [-void for void in layer.voids]
        self.conductivity_voids, self.conductivities = layer.conductivity_voids, layer.conductivities
        first, last = layer.voids[0], layer.voids[-1]
        self.least = [-(-last * solids // VOID_UNIT) for solids in layer.solids]
        self.most = [min(MOST_WATER, ((first + 1) * solids - 1) // VOID_UNIT) for solids in layer.solids]

    def __len__(self) -> int:
        return len(self.solids)

    def on_curve(self, water: Sequence[int]) -> bool:
        """Whether every element is on the compressibility curve."""
        return all(least <= height <= most for least, height, most in zip(self.least, water, self.most))

    def without_height(self) -> Optional[int]:
        """The first element, counted from 1, for which no whole height is on the curve; None if each has one."""
        return next((place for place, (least, most) in enumerate(zip(self.least, self.most), 1) if least > most), None)

    def pressure(self, place: int, water: int) -> int:
        """The excess pressure of an element with some water on the curve."""
        void = -(water * VOID_UNIT // self.solids[place])
        return self.carried[place] - between(self.voids, self.stresses, void)

    def resistance(self, place: int, water: int) -> int:
        """The resistance of half an element."""
        solids = self.solids[place]
        conductivity = between(self.conductivity_voids, self.conductivities, water * VOID_UNIT // solids)
        return -(-4_905 * (solids + water) // conductivity)

    def state(self, place: int, water: int) -> Tuple[int, int]:
        """Excess pressure and resistance of an element."""
        return self.pressure(place, water), self.resistance(place, water)

    def bottom_flow(self, pressure: int, resistance: int) -> int:
        """The flow upward through the bottom, by the state of the lowest element."""
        return 0 if self.bottom is None else -cut((pressure - self.bottom) * SECONDS, resistance)

    def top_flow(self, pressure: int, resistance: int) -> int:
        """The flow upward through the top, by the state of the highest element."""
        return 0 if self.top is None else cut(pressure * SECONDS, resistance)

    def flows(self, water: Sequence[int]) -> List[int]:
        """The flows of 1,000 s upward through all faces, from the bottom up, of a layer on the curve."""
        states = [self.state(place, height) for place, height in enumerate(water)]
        inner = [cut((below - above) * SECONDS, lower + upper)
                 for (below, lower), (above, upper) in zip(states, states[1:])]
        return [self.bottom_flow(*states[0])] + inner + [self.top_flow(*states[-1])]


def between(keys: Sequence[int], values: Sequence[int], key: int) -> int:
    """The value at a key that rising keys cover, on straight lines from point to point, rounded down."""
    after = min(bisect_right(keys, key), len(keys) - 1)
    start = keys[after - 1]
    low = values[after - 1]
    return low + (values[after] - low) * (key - start) // (keys[after] - start)


def face_name(place: int, count: int) -> str:
    """A face by its number from the bottom up, 0 to the number of elements."""
    if place in (0, count):
        return "the top" if place else "the bottom"
    return "the face between elements %d and %d" % (place, place + 1)
