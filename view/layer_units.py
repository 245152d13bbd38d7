"""The keys of a layer's text that take numbers: their units, the paper's limits, and exact numbers in both units."""

from __future__ import annotations

from decimal import Decimal
from fractions import Fraction
from typing import Dict, NamedTuple

from keys import YEAR_DAYS, NoAnswer

DAY = 86_400
U64_MAX = 2**64 - 1
FAR = 20    # digits before or behind the point that no 64-bit number of a paper's unit has in a unit of the text


class Unit(NamedTuple):
    """A unit of the text: its sign, what it is in the paper's own unit, that unit's name, and the sign for one."""

    sign: str
    size: int
    own: str
    one: str = ""
    scientific: bool = False


class Kind(NamedTuple):
    """What a key gives: its unit, and its limits in the paper's own."""

    unit: Unit
    least: int
    most: int


class BadText(NoAnswer):
    """A text that gives no layer: where, and what is wrong."""


class OutOfReach(NamedTuple):
    """A number that is written with an exponent greater than any Decimal has."""

    text: str

    def __str__(self) -> str:
        return self.text


METRE = Unit("m", 10**9, "nm")
KILOPASCAL = Unit("kPa", 10**6, "mPa")
SPEED = Unit("m/s", 10**15, "fm/s", scientific=True)
RATIO = Unit("", 10**8, "hundred-millionths")
GRAVITY = Unit("", 1_000, "thousandths")
STEPS = Unit("steps", 1, "steps", "step")
ELEMENTS = Unit("elements", 1, "elements", "element")
POINTS = Unit("points", 1, "points", "point")
SECOND = Unit("s", 1, "s")

# From the greatest; a key of a time ends in one of these names.
TIMES = {"years": Unit("years", YEAR_DAYS * DAY, "s", "year"), "days": Unit("days", DAY, "s", "day"), "s": SECOND}
END_KEYS = tuple("end_%s" % name for name in TIMES)
TIME_KEYS = tuple("time_%s" % name for name in TIMES)

LIMITS = {
    "level": (0, 200_000_000_000),
    "clock": (0, 3_000_000_000),
    "budget": (0, 1_000_000),
    "gravity": (1_000, 5_000),
    "solids": (100_000, 100_000_000),
    "water": (0, 1_000_000_000),
    "stress": (0, 2_000_000_000),
    "void ratio": (1, 1_000_000_000),
    "conductivity": (1, 1_000_000_000),
    "elements": (1, 128),
    "points of a curve": (2, 64),
    "points of the table": (1, 64),
}

KINDS: Dict[str, Kind] = {
    "top_level_m": Kind(METRE, *LIMITS["level"]),
    "bottom_level_m": Kind(METRE, *LIMITS["level"]),
    "specific_gravity": Kind(GRAVITY, *LIMITS["gravity"]),
    "budget": Kind(STEPS, *LIMITS["budget"]),
    "count": Kind(ELEMENTS, *LIMITS["elements"]),
    "solids_m": Kind(METRE, *LIMITS["solids"]),
    "water_m": Kind(METRE, *LIMITS["water"]),
    "stress_kPa": Kind(KILOPASCAL, *LIMITS["stress"]),
    "void_ratio": Kind(RATIO, *LIMITS["void ratio"]),
    "conductivity_m_per_s": Kind(SPEED, *LIMITS["conductivity"]),
    "load_kPa": Kind(KILOPASCAL, *LIMITS["stress"]),
    "elements": Kind(ELEMENTS, *LIMITS["elements"]),
    "compressibility": Kind(POINTS, *LIMITS["points of a curve"]),
    "conductivity": Kind(POINTS, *LIMITS["points of a curve"]),
    "load": Kind(POINTS, *LIMITS["points of the table"]),
}
for _name, _unit in TIMES.items():
    KINDS["end_%s" % _name] = KINDS["time_%s" % _name] = Kind(_unit, *LIMITS["clock"])


def shown(value: object) -> str:
    """A value of the text, for a message: short, on one line."""
    if isinstance(value, bool):
        return "true" if value else "false"
    if isinstance(value, (dict, list)):
        return "a table" if isinstance(value, dict) else "an array"
    if isinstance(value, int):
        if value.bit_length() > 100_000:  # its digits take long to find
            return "a whole number of %d bits" % value.bit_length()
        value = Decimal(value)  # whose digits can be written however many there are
    words = repr(value) if isinstance(value, str) else str(value).lower()
    return words if len(words) <= 60 else words[:40] + "..."


def whole(value: object, unit: Unit, where: str) -> int:
    """A number of the text in the paper's unit, of which it has to be a whole number that fits 64 bits."""
    if isinstance(value, OutOfReach):
        raise BadText("%s: %s has an exponent that is out of reach" % (where, shown(value)))
    if isinstance(value, int) and value.bit_length() > 20 * FAR:
        wrong = "is negative" if value < 0 else "does not fit 64 bits"
        raise BadText("%s: %s" % (where, " ".join(filter(None, (shown(value), unit.sign, wrong)))))
    if isinstance(value, bool) or not isinstance(value, (int, Decimal)) or not Decimal(value).is_finite():
        kind = "a text, not a number" if isinstance(value, str) else "not a number"
        raise BadText("%s: %s is %s" % (where, shown(value), kind))
    number = ("%s %s" % (shown(value), unit.sign)).strip()
    sign, figures, exponent = Decimal(value).as_tuple()
    digits = "".join(map(str, figures)).rstrip("0")
    exponent += len(figures) - len(digits)
    if not digits:
        return 0
    if sign:
        raise BadText("%s: %s is negative" % (where, number))
    if len(digits) + exponent > FAR:
        raise BadText("%s: %s does not fit 64 bits" % (where, number))
    exact = int(digits) * Fraction(10) ** exponent * unit.size if exponent >= -FAR else None
    if exact is None or exact.denominator != 1:
        raise BadText("%s: %s is no whole number of %s" % (where, number, unit.own))
    if exact > U64_MAX:
        raise BadText("%s: %s does not fit 64 bits" % (where, number))
    return int(exact)


def decimal(number: int, unit: Unit) -> str:
    """A number of the paper's unit in a unit in which it is a finite decimal, exactly and with no zeros to spare."""
    value, places = Fraction(number, unit.size), 0
    while (value * 10**places).denominator != 1:
        places += 1
    digits = str(int(value * 10**places))
    if unit.scientific and 0 < value < Fraction(1, 1_000):
        return "%se%d" % (".".join(filter(None, (digits[0], digits[1:]))), len(digits) - 1 - places)
    if places == 0:
        return digits
    digits = digits.zfill(places + 1)
    return "%s.%s" % (digits[:-places], digits[-places:])


def amount(number: int, unit: Unit) -> str:
    """A number of the paper's unit in a unit of the text, with its sign."""
    digits = decimal(number, unit)
    return ("%s %s" % (digits, unit.one if unit.one and digits == "1" else unit.sign)).strip()


def limits(kind: Kind) -> str:
    """The limits of a kind in words; those of a time in seconds, as they are no whole days."""
    unit = SECOND if kind.unit.own == "s" else kind.unit
    return "%s to %s" % (decimal(kind.least, unit), amount(kind.most, unit))
