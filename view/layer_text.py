"""A layer from its text, which is TOML with exact decimals: nothing is rounded, and nothing of the layer is judged."""

from __future__ import annotations

import difflib
import re
import tomllib
from decimal import Decimal, InvalidOperation
from typing import Dict, List, NamedTuple, Sequence, Tuple, Union

from keys import counted, job_bytes
from layer import AT_REST, CLOSED, DRAINED, ELEMENT_PLACES, GIVEN, STEADY, Layer
from layer_units import END_KEYS, KINDS, TIME_KEYS, BadText, OutOfReach, shown, whole

Values = Dict[str, object]

FACES = {"closed": CLOSED, "drained": DRAINED}
STARTS = {"given": GIVEN, "rest": AT_REST, "steady": STEADY}


class Table(NamedTuple):
    """A table of the text: its name, what a place of it is called, and the keys of its two columns. Of several keys
    of a column one is given."""

    name: str
    place: str
    first: Tuple[str, ...]
    second: Tuple[str, ...]


ELEMENTS = Table("elements", "element", ("solids_m",), ("water_m",))
COMPRESSIBILITY = Table("compressibility", "point", ("stress_kPa",), ("void_ratio",))
CONDUCTIVITY = Table("conductivity", "point", ("void_ratio",), ("conductivity_m_per_s",))
LOAD = Table("load", "point", TIME_KEYS, ("load_kPa",))
TABLES = (ELEMENTS, COMPRESSIBILITY, CONDUCTIVITY, LOAD)

TABLE_KEYS = {table.name: (*table.first, *table.second, *(("count",) if table is ELEMENTS else ()), "columns", "rows")
              for table in TABLES}
TOP_KEYS = ("top", "bottom", "top_level_m", "bottom_level_m", "specific_gravity", "start", *END_KEYS, "budget",
            *TABLE_KEYS)

CELL = re.compile(r"[+-]?([0-9]+\.?[0-9]*|\.[0-9]+)([eE][+-]?[0-9]+)?")
MARKED = re.compile(r"[0-9][,.' _\u00a0\u2009\u2019\u202f][0-9]")    # digits with a mark between them


# ----------------------------------------------------------------------------------------------------------------
# Keys and single values
# ----------------------------------------------------------------------------------------------------------------

def exact_decimal(text: str) -> Union[Decimal, OutOfReach]:
    """A number as it is written."""
    try:
        return Decimal(text)
    except InvalidOperation:
        return OutOfReach(text)


def parsed(data: bytes) -> Values:
    """What the bytes of a text say as TOML."""
    try:
        return tomllib.loads(data.decode("utf-8-sig"), parse_float=exact_decimal)
    except UnicodeDecodeError as fault:
        raise BadText("line %d is no text in UTF-8" % (data.count(b"\n", 0, fault.start) + 1)) from fault
    except tomllib.TOMLDecodeError as fault:
        raise BadText("this is no TOML: %s" % fault) from fault
    except RecursionError as fault:
        raise BadText("this is no layer: brackets within brackets, too deep to be read") from fault
    except ValueError as fault:
        raise BadText("line %d has a whole number that is too long to be read" % longest_line(data)) from fault


def longest_line(data: bytes) -> int:
    """The number of the line with the longest row of digits."""
    def digits(line: bytes) -> int:
        return max(map(len, re.findall(rb"[0-9_]+", line)), default=0)
    lines = data.split(b"\n")
    return max(range(len(lines)), key=lambda at: digits(lines[at])) + 1


def path(table: str, key: str) -> str:
    """A key with the table that it is in; odd keys in quotes."""
    word = key if re.fullmatch(r"[A-Za-z0-9_-]{1,60}", key) else shown(key)
    return "%s.%s" % (table, word) if table else word


def meant(table: str, key: str) -> str:
    """What may be meant by a key that is not known in a table, or above the tables: one at another place or like it."""
    if table and key in TOP_KEYS:
        return "it belongs above the first table"
    places = [name for name, keys in TABLE_KEYS.items() if key in keys]
    if places:
        return "it belongs in [%s]" % "] or [".join(places)
    known = TABLE_KEYS[table] if table else TOP_KEYS
    near = difflib.get_close_matches(key, known, 1, 0.5)
    return "did you mean %s?" % near[0] if near else "the keys here are %s" % ", ".join(known)


def check_keys(text: Values) -> None:
    """Refuse a key that is not known, at any level, and a table that is none."""
    for key in text:
        if key not in TOP_KEYS:
            raise BadText("%s: there is no such key; %s" % (path("", key), meant("", key)))
    for table in TABLES:
        values = text.get(table.name, {})
        if not isinstance(values, dict):
            raise BadText("%s: %s is no table" % (table.name, shown(values)))
        for key in values:
            if key not in TABLE_KEYS[table.name]:
                raise BadText("%s: there is no such key; %s" % (path(table.name, key), meant(table.name, key)))


def chosen(table: str, values: Values, keys: Sequence[str]) -> str:
    """The one of some keys that is given."""
    given = [key for key in keys if key in values]
    if not given:
        raise BadText("%s: missing" % " or ".join(path(table, key) for key in keys))
    if len(given) > 1:
        raise BadText("%s: only one of them can be given" % " and ".join(path(table, key) for key in given))
    return given[0]


def number(values: Values, key: str, table: str = "") -> int:
    """The number of a key, in the paper's unit."""
    return whole(values[chosen(table, values, [key])], KINDS[key].unit, path(table, key))


def choice(values: Values, key: str, meanings: Dict[str, int]) -> int:
    """The meaning of a key that takes one of some words."""
    word = values[chosen("", values, [key])]
    if not isinstance(word, str) or word not in meanings:
        raise BadText("%s: %s is neither %s" % (key, shown(word), " nor ".join('"%s"' % name for name in meanings)))
    return meanings[word]


# ----------------------------------------------------------------------------------------------------------------
# Tables
# ----------------------------------------------------------------------------------------------------------------

def pasted(text: str) -> List[List[str]]:
    """The cells of a text, row by row. Blank lines before the first row and after the last are none; one between is a
    row of one empty cell. In a row with tabs each tab separates two cells, and one of them may be empty."""
    lines = [line.rstrip().lstrip(" ") for line in text.split("\n")]
    filled = [at for at, line in enumerate(lines) if line]
    rows = lines[filled[0]:filled[-1] + 1] if filled else []
    return [[cell.strip(" ") for cell in (row.split("\t") if "\t" in row else re.split(" +", row))] for row in rows]


def cell_number(cell: str, where: str) -> Union[Decimal, OutOfReach]:
    """The number that a cell of a pasted text is."""
    if not CELL.fullmatch(cell):
        hint = "; a number has a point before its decimals and no other mark" if MARKED.search(cell) else ""
        raise BadText("%s: %s is not a number%s" % (where, shown(cell), hint))
    return exact_decimal(cell)


def read_row(row: object, names: Sequence[str], text: bool, where: str) -> List[int]:
    """A row with a number for each name, in the paper's units."""
    if text and "" in row:
        raise BadText("%s: %s" % (where, "a blank line between two rows" if row == [""] else "an empty cell"))
    if not isinstance(row, list) or len(row) != len(names):
        found = counted(len(row), "number") if isinstance(row, list) else shown(row)
        raise BadText("%s: %s instead of %s" % (where, found, counted(len(names), "number")))
    places = [where] if len(names) == 1 else ["%s, %s" % (where, name) for name in names]
    return [whole(cell_number(cell, place) if text else cell, KINDS[name].unit, place)
            for name, cell, place in zip(names, row, places)]


def read_columns(value: object, names: Sequence[str], where: str, place: str) -> List[List[int]]:
    """Columns from an array of rows or a pasted text; of a single name, from an array of numbers or a text."""
    text = isinstance(value, str)
    if not text and not isinstance(value, list):
        raise BadText("%s: %s is neither an array nor a text with a row a line" % (where, shown(value)))
    rows = pasted(value) if text else value if len(names) > 1 else [[item] for item in value]
    read = [read_row(row, names, text, "%s, %s %d" % (where, place, at)) for at, row in enumerate(rows, 1)]
    return [[row[side] for row in read] for side in range(len(names))]


def by_rows(table: Table, values: Values) -> Dict[str, List[int]]:
    """The columns of a table that has its rows in one array or text."""
    names, rows = (values[chosen(table.name, values, [key])] for key in ("columns", "rows"))
    pairs = [[first, second] for first in table.first for second in table.second]
    if not isinstance(names, list) or names not in pairs and names[::-1] not in pairs:
        raise BadText("%s: has to be an array of two names, %s and %s"
                      % (path(table.name, "columns"), " or ".join(table.first), " or ".join(table.second)))
    return dict(zip(names, read_columns(rows, names, path(table.name, "rows"), "row")))


def by_columns(table: Table, values: Values, spared: Sequence[str]) -> Dict[str, List[int]]:
    """The columns of a table that has each by its name; a spared one may be missing."""
    count = number(values, "count", table.name) if "count" in values else None
    made: Dict[str, List[int]] = {}
    for names in (table.first, table.second):
        if names[0] in spared and names[0] not in values:
            continue
        key = chosen(table.name, values, names)
        where = path(table.name, key)
        if count is not None and not isinstance(values[key], (str, list)):
            made[key] = [whole(values[key], KINDS[key].unit, where)] * min(count, ELEMENT_PLACES)
            continue
        made[key] = read_columns(values[key], [key], where, table.place)[0]
        if count is not None and len(made[key]) != count:
            raise BadText("%s: %s, but count is %d" % (where, counted(len(made[key]), "number"), count))
    if count is None and len(set(map(len, made.values()))) > 1:
        raise BadText("%s: %s" % (table.name, " and ".join(
            "%s in %s" % (counted(len(numbers), "number"), key) for key, numbers in made.items())))
    return made


def read_table(table: Table, text: Values, spared: Sequence[str] = ()) -> Dict[str, List[int]]:
    """The columns of a table by their keys, in the paper's units."""
    values = text[chosen("", text, [table.name])]
    forms = [key for key in ("columns", "rows") if key in values]
    others = [key for key in values if key not in forms]
    if forms and others:
        raise BadText("%s and %s: two forms of one table; use one of them"
                      % (path(table.name, forms[0]), path(table.name, others[0])))
    return by_rows(table, values) if forms else by_columns(table, values, spared)


# ----------------------------------------------------------------------------------------------------------------
# The layer
# ----------------------------------------------------------------------------------------------------------------

def layer_of(text: Values, dry: bool = False) -> Layer:
    """The layer of a text. At rest, or if it may be dry, its elements can be given without water."""
    check_keys(text)
    top, bottom, start = choice(text, "top", FACES), choice(text, "bottom", FACES), choice(text, "start", STARTS)
    level = number(text, "bottom_level_m") if bottom == DRAINED or "bottom_level_m" in text else 0
    gravity, top_level = number(text, "specific_gravity"), number(text, "top_level_m")
    end_key = chosen("", text, END_KEYS)
    end, budget = number(text, end_key), number(text, "budget")
    elements = read_table(ELEMENTS, text, ELEMENTS.second if dry or start == AT_REST else ())
    solids = elements["solids_m"]
    water = elements.get("water_m", [0] * len(solids))
    first, second, load = (read_table(table, text) for table in (COMPRESSIBILITY, CONDUCTIVITY, LOAD))
    time_key = next(key for key in load if key in TIME_KEYS)
    count = number(text["elements"], "count", "elements") if "count" in text["elements"] else len(solids)
    return Layer(top, bottom, start, gravity, top_level, level, end, budget,
                 (count, len(first["void_ratio"]), len(second["void_ratio"]), len(load["load_kPa"])),
                 solids, water, first["stress_kPa"], first["void_ratio"], second["void_ratio"],
                 second["conductivity_m_per_s"], load[time_key], load["load_kPa"], end_key, time_key)


def read_text(data: bytes, dry: bool = False) -> Layer:
    """The layer of the bytes of a text."""
    return layer_of(parsed(data), dry)


def layer_in(file: str, data: bytes, dry: bool = False) -> Layer:
    """The layer of the bytes that a text file has."""
    try:
        return read_text(data, dry)
    except BadText as fault:
        raise BadText("%s: %s" % (file, fault)) from fault


def read_layer(file: str) -> Layer:
    """The layer of a text file."""
    return layer_in(file, job_bytes(file))
