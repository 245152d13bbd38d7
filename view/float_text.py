"""32-bit floats from decimals and as text: exact whole numbers throughout, and nothing passes through another float."""

from __future__ import annotations

import re
from fractions import Fraction
from typing import NamedTuple, Tuple

from keys import shifted

SIGN = 1 << 31
FRACTION = 1 << 23          # a fraction is below this, and a number that is not tiny has it as its hidden bit
INFINITE = 0x7F800000       # the bits from which on nothing is finite
NO_NUMBER = 0x7FC00000
LEAST_POWER = -149

DIGITS = 128                # more than any float, or the middle between two, has
FAR_ABOVE, FAR_BELOW = 40, -60    # powers of ten past which a number is infinite, or nothing
PLACES = 12                 # decimals that are shown
DOTS = "..."                # where there are more

DECIMAL = r"[+-]?(?:[0-9]+(?:\.[0-9]*)?|\.[0-9]+)(?:[eE][+-]?[0-9]+)?"
SPLIT = re.compile(r"([+-]?)([0-9]*)\.?([0-9]*)(?:[eE]([+-]?)0*([0-9]*))?")


class Parts(NamedTuple):
    """What a finite float means: a whole number times a power of two, with its sign."""

    sign: int
    mantissa: int
    power: int

    def value(self) -> Fraction:
        """The number that is meant."""
        return self.sign * self.mantissa * Fraction(2) ** self.power


def is_finite(bits: int) -> bool:
    """Whether bits are of a float that means a number."""
    return bits & ~SIGN < INFINITE


def parts(bits: int) -> Parts:
    """A finite float taken apart."""
    exponent, fraction = divmod(bits & ~SIGN, FRACTION)
    sign = -1 if bits & SIGN else 1
    if exponent == 0:
        return Parts(sign, fraction, LEAST_POWER)
    return Parts(sign, FRACTION + fraction, exponent - 1 + LEAST_POWER)


def nearest_size(size: Fraction) -> int:
    """The bits of the float nearest to a positive number; of two equally near the even one."""
    power = max(size.numerator.bit_length() - size.denominator.bit_length() - 24, LEAST_POWER)
    if size >= Fraction(2) ** (power + 24):
        power += 1
    mantissa = round(size / Fraction(2) ** power)    # halves go to the even number
    return min((power - LEAST_POWER) * FRACTION + mantissa, INFINITE)


def reach(sign: str, digits: str) -> int:
    """An exponent as it is written; in place of a very long one, another that is out of reach."""
    return int((sign or "+") + (digits or "0")) if len(digits) <= 18 else int(sign + "1" + "0" * 18)


def nearest(text: str) -> Tuple[int, bool]:
    """The bits of the float nearest to a decimal, and whether it means just that decimal."""
    sign, whole, places, exponent_sign, exponent = (part or "" for part in SPLIT.fullmatch(text).groups())
    bits = SIGN if sign == "-" else 0
    digits = (whole + places).lstrip("0")
    if not digits.strip("0"):
        return bits, True
    point = len(digits) - len(places) + reach(exponent_sign, exponent)    # the number is 0.digits times 10 ** point
    if point > FAR_ABOVE:
        return bits + INFINITE, False
    if point < FAR_BELOW:
        return bits, False
    kept = digits[:DIGITS] + ("1" if digits[DIGITS:].strip("0") else "")    # a one for all that is left out
    size = int(kept) * Fraction(10) ** (point - len(kept))
    found = nearest_size(size)
    return bits + found, is_finite(found) and parts(found).value() == size


def float_text(bits: int) -> str:
    """What a float means, in decimals, cut where dots follow; from 2 ** 24 on as a whole number and a power of two."""
    sign = "-" if bits & SIGN else ""
    if not is_finite(bits):
        return sign + ("inf" if bits & ~SIGN == INFINITE else "nan")
    _, mantissa, power = parts(bits)
    if power > 0:
        return "%s%s x 2^%d" % (sign, format(mantissa, ","), power)
    size = mantissa * Fraction(2) ** power
    places = size.denominator.bit_length() - 1
    if places == 0:
        return sign + format(size.numerator, ",")
    if places <= PLACES:
        return sign + shifted(size.numerator * 5**places, places)
    return sign + shifted(int(size * 10**PLACES), PLACES) + DOTS
