"""Searches for water heights at which a layer is steady under its first load. Nobody needs to trust what it finds: a
program judges that.

In steady seepage one flow passes through all faces. Given that flow, the pressures follow from face to face, upstream
from where the water leaves, since each element has to carry what is left of the stress. The flow that ends at the
other face's pressure is found by halving. Then the pressures are known, and for each element some whole heights nearest
to its own are tried: the chain of heights with the most even flows is found element by element."""

from __future__ import annotations

from typing import Callable, List, NamedTuple, Optional, Sequence, Tuple

from seepage import APART, SECONDS, Ground, apart, cut

FINE = 2**20                # parts of a nm in which flows are sought
SCALE = SECONDS * FINE      # parts of a mPa in which pressures then come out whole
CHOICES = (3, 9, 27, 81)    # heights tried for each element, round by round
FEW = 2                     # rounds where an element would need a stress off the curve, perhaps by very little
Report = Callable[[str, bool], None]    # takes a line on how far the search is, and whether many of its kind follow


class Aim(NamedTuple):
    """What is sought: the flow in parts of a nm, the pressure of each element in parts of a mPa, and, where no water
    can leave or enter, all the water that there has to be."""

    flow: int
    pressures: List[int]
    total: Optional[int] = None


class OffCurve(NamedTuple):
    """An element, counted from 1, and the stress in mPa that it would need, which the curve does not have."""

    element: int
    stress: int


class Found(NamedTuple):
    """The heights with the most even flows, the flows, and the elements that would need a stress off the curve."""

    water: List[int]
    flows: List[int]
    off: List[OffCurve]

    def steady(self) -> bool:
        """Whether the flows agree."""
        return apart(self.flows) <= APART


class Choice(NamedTuple):
    """A height that an element may have, with its excess pressure and resistance."""

    water: int
    pressure: int
    resistance: int


# ----------------------------------------------------------------------------------------------------------------
# The flow and the pressures
# ----------------------------------------------------------------------------------------------------------------

def least_water(ground: Ground, place: int, enough: Callable[[int], bool]) -> int:
    """The least height on the curve that is enough, or the greatest if none is; more water has to be enough as well."""
    low, high = ground.least[place], ground.most[place]
    while low < high:
        middle = (low + high) // 2
        if enough(middle):
            high = middle
        else:
            low = middle + 1
    return low


def water_at(ground: Ground, place: int, pressure: int) -> int:
    """The least height on the curve at which an element has an excess pressure or more; the greatest if none has."""
    return least_water(ground, place, lambda water: ground.pressure(place, water) >= pressure)


def upstream(ground: Ground, flow: int, start: int, places: Sequence[int]) -> Tuple[int, List[int]]:
    """Go from the face where water leaves, which has the pressure `start`, to the other one: the pressure that this one
    needs for a flow, in parts, and the resistances on the way."""
    face = start * SCALE
    resistances = []
    for place in places:
        def enough(water: int) -> bool:
            pressure, resistance = ground.state(place, water)
            return pressure * SCALE - flow * resistance >= face
        resistances.append(ground.resistance(place, least_water(ground, place, enough)))
        face += 2 * flow * resistances[-1]
    return face, resistances


def seepage_resistances(ground: Ground, start: int, end: int, places: Sequence[int], report: Report) -> List[int]:
    """The resistances of the elements, in the order of places, when water seeps from a face that holds the pressure
    `end` to one that holds less, `start`."""
    low, high, trials = 0, FINE, 0
    resistances = upstream(ground, 0, start, places)[1]
    doubling = True
    while high - low > 1:
        flow = high if doubling else (low + high) // 2
        face, resistances = upstream(ground, flow, start, places)
        trials += 1
        report("flow %d, %s nm in 1,000 s: off by %s kPa"
               % (trials, format(flow / FINE, ",.3f"), format((face / SCALE - end) / 10**6, ",.6f")), True)
        if abs(face - end * SCALE) * 16 <= FINE * min(resistances[0], resistances[-1]):
            break
        if face < end * SCALE:
            low = flow
            high = 4 * flow if doubling else high
        else:
            high, doubling = flow, False
    return resistances


def through(ground: Ground, bottom: int, report: Report) -> Aim:
    """The aim for a layer drained at both faces: with the resistances known, each takes its share of the pressure."""
    rising = bottom > 0
    places = range(len(ground) - 1, -1, -1) if rising else range(len(ground))
    start, end = (0, bottom) if rising else (bottom, 0)
    resistances = seepage_resistances(ground, start, end, places, report) if bottom else [1] * len(ground)
    flow = (end - start) * SCALE // (2 * sum(resistances))
    pressures, face = [0] * len(ground), start * SCALE
    for place, resistance in zip(places, resistances):
        pressures[place] = face + flow * resistance
        face += 2 * flow * resistance
    return Aim(flow if rising else -flow, pressures)


def enclosed(ground: Ground, given: Sequence[int]) -> Aim:
    """The aim for a layer with both faces closed: one pressure throughout, by which it holds the water that was given.
    If none was, or if that cannot be, the pressure is 0, or the one nearest to 0 that all elements can have."""
    def heights(pressure: int) -> List[int]:
        return [water_at(ground, place, pressure) for place in range(len(ground))]
    low = max(stress - ground.stresses[-1] for stress in ground.carried)
    high = min(stress - ground.stresses[0] for stress in ground.carried)
    none = min(max(0, low), high) if low <= high else 0
    total = sum(given)
    if low > high or not any(given) or not sum(heights(low)) <= total <= sum(heights(high)):
        return Aim(0, [none * SCALE] * len(ground))
    while low < high:
        middle = (low + high + 1) // 2
        if sum(heights(middle)) <= total:
            low = middle
        else:
            high = middle - 1
    return Aim(0, [low * SCALE] * len(ground), total)


def aim(ground: Ground, given: Sequence[int], report: Report) -> Aim:
    """What to seek. With a closed face nothing flows, and the pressure is that of the other one throughout."""
    if ground.top is None and ground.bottom is None:
        return enclosed(ground, given)
    if ground.top is None or ground.bottom is None:
        return Aim(0, [(ground.top or ground.bottom or 0) * SCALE] * len(ground))
    return through(ground, ground.bottom, report)


def off_curve(ground: Ground, pressures: Sequence[int]) -> List[OffCurve]:
    """The elements that would need a stress off the curve, the one furthest off it first."""
    first, last = ground.stresses[0], ground.stresses[-1]
    needs = [OffCurve(place + 1, ground.carried[place] - cut(pressure, SCALE))
             for place, pressure in enumerate(pressures)]
    return sorted((need for need in needs if not first <= need.stress <= last),
                  key=lambda need: max(first - need.stress, need.stress - last), reverse=True)


# ----------------------------------------------------------------------------------------------------------------
# Whole heights
# ----------------------------------------------------------------------------------------------------------------

def choices(ground: Ground, place: int, pressure: int, count: int) -> List[Choice]:
    """Heights on the curve with different pressures, some `count` of them, those nearest to a pressure first. Of
    heights with the same pressure the least stands for all."""
    middle = water_at(ground, place, -(-pressure // SCALE))
    heights = [middle]
    low = high = middle
    while len(heights) < count and (low > ground.least[place] or high < ground.most[place]):
        if low > ground.least[place]:
            low = water_at(ground, place, ground.pressure(place, low - 1))
            heights.append(low)
        if high < ground.most[place]:
            above = water_at(ground, place, ground.pressure(place, high) + 1)
            if ground.pressure(place, above) > ground.pressure(place, high):
                heights.append(above)
                high = above
            else:
                high = ground.most[place]
    made = [Choice(height, *ground.state(place, height)) for height in heights]
    return sorted(made, key=lambda choice: abs(choice.pressure * SCALE - pressure))


def chain(ground: Ground, rows: Sequence[Sequence[Choice]], least: int) -> List[int]:
    """Heights, one of each row, whose flows are all as near as can be to `least` and the whole number after it."""
    middle = 2 * least + 1

    def far(flow: int) -> int:
        return abs(2 * flow - middle)    # 1 for the two numbers themselves
    costs = [far(ground.bottom_flow(choice.pressure, choice.resistance)) for choice in rows[0]]
    ways: List[List[int]] = []
    for below, above in zip(rows, rows[1:]):
        order = sorted(range(len(below)), key=lambda at: costs[at])
        links = [cheapest(below, costs, order, choice, far) for choice in above]
        ways.append([way for way, _ in links])
        costs = [cost for _, cost in links]
    ends = [max(cost, far(ground.top_flow(choice.pressure, choice.resistance)))
            for cost, choice in zip(costs, rows[-1])]
    at = ends.index(min(ends))
    water = [rows[-1][at].water]
    for row, way in zip(rows[-2::-1], reversed(ways)):
        at = way[at]
        water.append(row[at].water)
    return water[::-1]


def cheapest(below: Sequence[Choice], costs: Sequence[int], order: Sequence[int], above: Choice,
             far: Callable[[int], int]) -> Tuple[int, int]:
    """The choice below from which a choice is reached with the least cost, and that cost: the greatest on the way."""
    best, least = order[0], -1
    for at in order:
        if least >= 0 and costs[at] >= least:
            break
        choice = below[at]
        flow = cut((choice.pressure - above.pressure) * SECONDS, choice.resistance + above.resistance)
        cost = max(costs[at], far(flow))
        if least < 0 or cost < least:
            best, least = at, cost
    return best, least


def with_total(ground: Ground, water: Sequence[int], total: int) -> List[int]:
    """Steady heights changed, by ever smaller lengths, to have all the water that there has to be. They stay steady;
    where that does not go further, they have as much as they can."""
    water, length = list(water), 2**30
    while length and sum(water) != total:
        for place in range(len(water)):
            lack = total - sum(water)
            changed = list(water)
            changed[place] += length if lack > 0 else -length
            if length <= abs(lack) and ground.on_curve(changed) and apart(ground.flows(changed)) <= APART:
                water = changed
        length //= 2
    return water


def most_even(ground: Ground, rows: Sequence[Sequence[Choice]], flow: int) -> List[int]:
    """The heights, one of each row, with the most even flows that are found: near a flow or, if these do not agree,
    some way above or below it."""
    def uneven(water: Sequence[int]) -> int:
        return apart(ground.flows(water))
    best = chain(ground, rows, flow)
    if uneven(best) <= APART:
        return best
    half = uneven(best) // 2
    return min((best, chain(ground, rows, flow + half), chain(ground, rows, flow - half)), key=uneven)


def whole_heights(ground: Ground, sought: Aim, rounds: Sequence[int], report: Report) -> List[int]:
    """The whole heights with the most even flows that are found, in rounds with so many heights for each element."""
    best: List[int] = []
    for count in rounds:
        rows = [choices(ground, place, pressure, count) for place, pressure in enumerate(sought.pressures)]
        best = most_even(ground, rows, sought.flow // FINE)
        report("%d heights an element: flows differ by %s nm in 1,000 s"
               % (count, format(apart(ground.flows(best)), ",")), False)
        if apart(ground.flows(best)) <= APART:
            break
    return best


def search(ground: Ground, given: Sequence[int], report: Report) -> Found:
    """Steady heights, or those with the most even flows; every element has to have a height on the curve. Given heights
    that are steady stay as they are."""
    if ground.on_curve(given) and apart(ground.flows(given)) <= APART:
        return Found(list(given), ground.flows(given), [])
    sought = aim(ground, given, report)
    off = off_curve(ground, sought.pressures)
    water = whole_heights(ground, sought, CHOICES[:FEW] if off else CHOICES, report)
    if sought.total is not None and apart(ground.flows(water)) <= APART:
        water = with_total(ground, water, sought.total)
    return Found(water, ground.flows(water), off)
