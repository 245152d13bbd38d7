"""Names the field of a layer for which a program refused it. The program has judged; here the field is only found."""

from __future__ import annotations

import operator
from typing import Callable, Iterator, List, NamedTuple, Optional, Sequence

from keys import Refusal
from layer import AT_REST, CLOSED, STEADY, Layer, header_outside
from layer_units import KILOPASCAL, KINDS, METRE, RATIO, SECOND, amount, decimal, limits
from seepage import APART, Ground, apart, carried, face_name


class Order(NamedTuple):
    """How a column has to go on from point to point, and the words for one that does not."""

    holds: Callable[[int, int], bool]
    broken: str


class Column(NamedTuple):
    """A column of points: its key, its numbers, and their order if they have one."""

    key: str
    numbers: Sequence[int]
    order: Optional[Order] = None


RISING = Order(operator.lt, "does not rise above")
FALLING = Order(operator.gt, "does not fall below")
NEVER_FALLING = Order(operator.le, "falls below")
FINDS = "./kufandra steady looks for steady water heights"


def outside(key: str, number: int, where: str = "") -> Iterator[str]:
    """Says that a number is outside the limits of its key, where it is."""
    kind = KINDS[key]
    if not kind.least <= number <= kind.most:
        seconds = " = %s" % amount(number, SECOND) if kind.unit.own == "s" and kind.unit != SECOND else ""
        yield "%s: %s%s is not within %s" % (where or key, amount(number, kind.unit), seconds, limits(kind))


def header_faults(layer: Layer) -> Iterator[str]:
    """Cause 3: a count or the specific gravity."""
    for key, number in header_outside(layer.counts, layer.gravity):
        yield from outside(key, number)


def field_faults(layer: Layer) -> Iterator[str]:
    """Cause 5: a level, the end, the budget, or a height."""
    yield from outside("top_level_m", layer.top_level)
    yield from outside("bottom_level_m", layer.bottom_level)
    if layer.bottom == CLOSED and layer.bottom_level:
        yield "bottom_level_m: %s, but a closed bottom has none: leave it out" % amount(layer.bottom_level, METRE)
    yield from outside(layer.end_key, layer.end)
    yield from outside("budget", layer.budget)
    for place, (solids, water) in enumerate(zip(layer.solids, layer.water), 1):
        yield from outside("solids_m", solids, "elements.solids_m, element %d" % place)
        yield from outside("water_m", water, "elements.water_m, element %d" % place)
        if layer.start == AT_REST and water:
            yield "elements.water_m, element %d: %s, but a start at rest finds the water: leave it out" \
                % (place, amount(water, METRE))


def point_faults(table: str, columns: Sequence[Column]) -> Iterator[str]:
    """The points of a curve or table, from the first on: limits, and the order with the point before."""
    for at in range(len(columns[0].numbers)):
        for key, numbers, _ in columns:
            yield from outside(key, numbers[at], "%s.%s, point %d" % (table, key, at + 1))
        for key, numbers, order in columns:
            if at and order and not order.holds(numbers[at - 1], numbers[at]):
                before, here = (amount(number, KINDS[key].unit) for number in numbers[at - 1:at + 1])
                yield "%s.%s, point %d: %s %s %s of point %d" % (table, key, at + 1, here, order.broken, before, at)


def compressibility_faults(layer: Layer) -> Iterator[str]:
    """Cause 6: the first curve."""
    return point_faults("compressibility", [Column("stress_kPa", layer.stresses, RISING),
                                            Column("void_ratio", layer.voids, FALLING)])


def conductivity_faults(layer: Layer) -> Iterator[str]:
    """Cause 7: the second curve, or a void ratio of the first that it does not cover."""
    voids = layer.conductivity_voids
    yield from point_faults("conductivity", [Column("void_ratio", voids, RISING),
                                             Column("conductivity_m_per_s", layer.conductivities, NEVER_FALLING)])
    for place, void in enumerate(layer.voids, 1):
        if not voids[0] <= void <= voids[-1]:
            yield "conductivity.void_ratio: %s to %s does not cover %s of compressibility, point %d" \
                % (decimal(voids[0], RATIO), decimal(voids[-1], RATIO), decimal(void, RATIO), place)


def table_faults(layer: Layer) -> Iterator[str]:
    """Cause 8: the load table."""
    if layer.times[0] != 0:
        yield "load.%s, point 1: %s is not 0" % (layer.time_key, amount(layer.times[0], KINDS[layer.time_key].unit))
    yield from point_faults("load", [Column(layer.time_key, layer.times, RISING), Column("load_kPa", layer.loads)])


def rest_faults(layer: Layer) -> Iterator[str]:
    """Cause 9 at rest: a bottom at another level than the top; an element that carries less than the first curve's
    first stress, or more than its last."""
    if layer.bottom != CLOSED and layer.bottom_level != layer.top_level:
        yield "start: a layer at rest has a closed bottom or one at the top's level, but bottom_level_m is %s and " \
            "top_level_m is %s; %s" % (amount(layer.bottom_level, METRE), amount(layer.top_level, METRE), FINDS)
    first, last = layer.stresses[0], layer.stresses[-1]
    for place, stress in enumerate(carried(layer), 1):
        if not first <= stress <= last:
            yield "load.load_kPa, point 1: under %s element %d carries %s, which is not within %s to %s, the ends of the curve" \
                % (amount(layer.loads[0], KILOPASCAL), place, amount(stress, KILOPASCAL), decimal(first, KILOPASCAL),
                   amount(last, KILOPASCAL))


def start_faults(layer: Layer) -> Iterator[str]:
    """Cause 9: with given water an element off the first curve; at rest one that the curve cannot carry."""
    if layer.start == AT_REST:
        yield from rest_faults(layer)
        return
    for place, (solids, water) in enumerate(zip(layer.solids, layer.water), 1):
        void = water * RATIO.size // solids
        if not layer.voids[-1] <= void <= layer.voids[0]:
            yield "elements.water_m, element %d: the void ratio %s is not within %s to %s, the ends of the curve" \
                % (place, decimal(void, RATIO), decimal(layer.voids[-1], RATIO), decimal(layer.voids[0], RATIO))


def steady_faults(layer: Layer) -> Iterator[str]:
    """Cause 20: the faces between which the flows of 1,000 s differ most, as they are reckoned here."""
    ground = Ground(layer)
    if layer.start != STEADY or not ground.on_curve(layer.water):
        return
    flows = ground.flows(layer.water)
    if apart(flows) > APART:
        least, most = flows.index(min(flows)), flows.index(max(flows))
        yield "start: by this script's reckoning the upward flows differ most between %s, %s nm, and %s, %s nm; %s" \
            % (face_name(least, len(ground)), format(flows[least], ","), face_name(most, len(ground)),
               format(flows[most], ","), FINDS)


FAULTS = {3: header_faults, 5: field_faults, 6: compressibility_faults, 7: conductivity_faults, 8: table_faults,
          9: start_faults, 20: steady_faults}


def refusal_words(layer: Layer, refusal: Refusal) -> str:
    """A refusal in words, with the first field that is to blame, if one is."""
    faults = FAULTS.get(refusal.number)
    found: List[str] = [next(faults(layer), "")] if faults else []
    return "; ".join(filter(None, ["refused %d: %s" % (refusal.number, refusal.words())] + found))
