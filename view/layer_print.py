"""The text of a layer, which gives the same layer when it is read."""

from __future__ import annotations

from typing import Dict, List, Sequence

from layer import AT_REST, DRAINED, Layer
from layer_text import FACES, STARTS
from layer_units import KINDS, TIMES, decimal


def greatest_unit(times: Sequence[int]) -> str:
    """The name of the greatest unit in which all times are whole numbers."""
    return next(name for name, unit in TIMES.items() if all(time % unit.size == 0 for time in times))


def in_text_units(layer: Layer) -> Layer:
    """A layer with the units in which its times are to be printed."""
    return layer._replace(end_key="end_%s" % greatest_unit([layer.end]),
                          time_key="time_%s" % greatest_unit(layer.times))


def word(meanings: Dict[str, int], number: int) -> str:
    """The word of a meaning, in quotes."""
    return '"%s"' % next(name for name, meaning in meanings.items() if meaning == number)


def numbers(key: str, column: Sequence[int]) -> List[str]:
    """The numbers of a column in the unit of its key."""
    return [decimal(number, KINDS[key].unit) for number in column]


def array(key: str, items: Sequence[str]) -> List[str]:
    """An array with an item a line."""
    return ["%s = [" % key] + ["    %s," % item for item in items] + ["]"]


def rows(first: str, second: str, columns: Sequence[Sequence[int]]) -> List[str]:
    """Two columns, a pair a line."""
    pairs = zip(numbers(first, columns[0]), numbers(second, columns[1]))
    return ['columns = ["%s", "%s"]' % (first, second)] + array("rows", ["[%s, %s]" % pair for pair in pairs])


def site_lines(layer: Layer) -> List[str]:
    """Faces, levels, start, end and budget. A closed bottom has no level unless the layer gives it one."""
    leveled = layer.bottom == DRAINED or layer.bottom_level != 0
    facts = [("top", word(FACES, layer.top)), ("bottom", word(FACES, layer.bottom)),
             ("top_level_m", *numbers("top_level_m", [layer.top_level])),
             *[("bottom_level_m", *numbers("bottom_level_m", [layer.bottom_level]))] * leveled,
             ("specific_gravity", *numbers("specific_gravity", [layer.gravity])), ("start", word(STARTS, layer.start)),
             (layer.end_key, *numbers(layer.end_key, [layer.end])), ("budget", *numbers("budget", [layer.budget]))]
    return ["%s = %s" % fact for fact in facts]


def element_lines(layer: Layer) -> List[str]:
    """The elements: a column of equal numbers as one with a count. A start at rest has no water unless the layer gives
    it some."""
    columns = {"solids_m": layer.solids}
    if layer.start != AT_REST or any(layer.water):
        columns["water_m"] = layer.water
    equal = [key for key, column in columns.items() if len(set(column)) == 1]
    if not equal and len(columns) == 2:
        return rows("solids_m", "water_m", (layer.solids, layer.water))
    lines = ["count = %d" % layer.counts[0]] if equal else []
    for key, column in columns.items():
        items = numbers(key, column)
        lines += ["%s = %s" % (key, items[0])] if key in equal else array(key, items)
    return lines


def layer_lines(layer: Layer) -> List[str]:
    """The text of a layer."""
    return site_lines(layer) \
        + ["", "[elements]  # from the lowest up"] + element_lines(layer) \
        + ["", "[compressibility]"] + rows("stress_kPa", "void_ratio", (layer.stresses, layer.voids)) \
        + ["", "[conductivity]"] \
        + rows("void_ratio", "conductivity_m_per_s", (layer.conductivity_voids, layer.conductivities)) \
        + ["", "[load]"] + rows(layer.time_key, "load_kPa", (layer.times, layer.loads))
