"""Field data: readings as they are typed, on a command line or a line each in a file. No reading is judged here."""

from __future__ import annotations

import re
from typing import List, NamedTuple, Tuple

from float_text import DECIMAL, INFINITE, NO_NUMBER, SIGN, nearest
from keys import NoAnswer, job_bytes
from layer_units import U64_MAX, shown

MISSING, PRESSURE, COLUMN = 0, 1, 2
UNITS = {"kPa": PRESSURE, "m": COLUMN}
WIDEST = 40    # letters of what was typed that are shown

GAP = "[ \t]*(?:,[ \t]*)?"
NUMBER = "0[xX][0-9A-Fa-f]{8}|%s|[+-]?(?ai:inf(?:inity)?|nan)" % DECIMAL
VALUE = re.compile("(%s)%s(kPa|m)" % (NUMBER, GAP))
BEGUN = re.compile(NUMBER)
BITS = re.compile("[+-]?0[xX]")
MARKED = re.compile("[,.' _\u00a0\u2009\u2019\u202f][0-9]")    # a mark and a digit, behind a number
DASHES = tuple("\u2010\u2011\u2012\u2013\u2014\u2212")
ENDS = re.compile("[\r\v\f\x1c-\x1e\x85\u2028\u2029]")    # what ends a line elsewhere
LINE = re.compile("([^ \t,]*)(?=[ \t,])%s(.*)" % GAP)


class BadReading(NoAnswer):
    """A text that gives no reading: where, and what is wrong."""


class Reading(NamedTuple):
    """A reading: its element, what was typed, what kind it is, its float's bits, and whether these are as typed."""

    element: int
    typed: str
    kind: int
    bits: int
    exact: bool


def fault(text: str) -> str:
    """What is wrong with a text that is no value."""
    begun = BEGUN.match(text)
    rest = text[begun.end():] if begun else ""
    unit = rest.strip(" \t,")
    if BITS.match(text):
        return "the bits of a float are 0x and eight hexadecimal digits, and kPa or m follows"
    if MARKED.match(rest):
        return "a number has a point before its decimals and no other mark"
    if unit:
        return "%s is no unit here; a reading is in kPa or in m, and nothing is converted" % shown(unit)
    if begun:
        return "its unit is missing, kPa or m"
    if text.startswith(DASHES):
        return "this dash is no minus, which is -"
    return "a reading is a number in kPa or m, or the word missing"


def float_bits(number: str) -> Tuple[int, bool]:
    """The bits of a number as it is typed, and whether they are just that number."""
    if BITS.match(number):
        return int(number, 16), True
    sign = SIGN if number[0] == "-" else 0
    word = number.lstrip("+-").lower()
    if word[0] in "in":
        return sign + (INFINITE if word[0] == "i" else NO_NUMBER), True
    return nearest(number)


def shortened(text: str) -> str:
    """What was typed, with single blanks, and cut where it is long."""
    words = " ".join(text.split())
    return words if len(words) <= WIDEST else words[:WIDEST - 3] + "..."


def read_number(text: str, noun: str) -> int:
    """A whole number that fits 64 bits, under the name of what it is."""
    digits = text.lstrip("0") or "0"
    if not re.fullmatch("[0-9]+", text) or len(digits) > 20 or int(digits) > U64_MAX:
        raise BadReading("%s is no %s: it is a whole number below 2^64, in digits alone" % (shown(text), noun))
    return int(digits)


def read_element(text: str) -> int:
    """The number of an element; whether there is one the program decides."""
    return read_number(text, "element")


def read_value(element: int, text: str) -> Reading:
    """The reading of an element from its value."""
    text = text.strip(" \t")
    if text.lower() == "missing":
        return Reading(element, text, MISSING, 0, True)
    found = VALUE.fullmatch(text)
    if not found:
        raise BadReading("%s is no reading: %s" % (shown(text), fault(text)))
    bits, exact = float_bits(found.group(1))
    return Reading(element, shortened(text), UNITS[found.group(2)], bits, exact)


def read_typed(element: str, value: str) -> Reading:
    """The reading of a command line."""
    return read_value(read_element(element), value)


def read_line(line: str) -> Reading:
    """The reading of a line of a file: an element, blanks or a comma, and a value."""
    found = LINE.fullmatch(line)
    if not found:
        raise BadReading("%s: a line has an element and a value" % shown(line))
    return read_typed(found.group(1), found.group(2))


def read_lines(data: bytes) -> List[Reading]:
    """The readings of the bytes of a file. What follows # is a comment; blank lines are none."""
    made: List[Reading] = []
    for number, line in enumerate(data.split(b"\n"), 1):
        try:
            whole = line.decode("utf-8-sig" if number == 1 else "utf-8").removesuffix("\r")
            if ENDS.search(whole):
                raise BadReading("it has another line's end within it than LF or CR LF")
            text = whole.partition("#")[0].strip(" \t")
            if text:
                made.append(read_line(text))
        except UnicodeDecodeError as wrong:
            raise BadReading("line %d is no text in UTF-8" % number) from wrong
        except BadReading as wrong:
            raise BadReading("line %d: %s" % (number, wrong)) from wrong
    if not made:
        raise BadReading("no line has a reading")
    return made


def read_file(path: str) -> List[Reading]:
    """The readings of a file."""
    data = job_bytes(path)
    try:
        return read_lines(data)
    except BadReading as wrong:
        raise BadReading("%s: %s" % (path, wrong)) from wrong
