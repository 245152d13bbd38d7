#!/usr/bin/env python3
"""Tests of reading.py with the reference in the program's place: `python3 test_readings.py`. Quiet when all is well;
exit status 1 when a test fails."""

from __future__ import annotations

import contextlib
import io
import os
import struct
import subprocess
import sys
import tempfile
import unittest
from fractions import Fraction
from typing import List, Sequence, Tuple
from unittest import mock

HERE = os.path.dirname(os.path.abspath(__file__))
ROOT = os.path.dirname(HERE)
EXAMPLES = os.path.join(ROOT, "examples")
SPECIMEN = os.path.join(EXAMPLES, "specimen.job")
sys.path[:0] = [HERE, os.path.join(ROOT, "reference")]

import field_data  # noqa: E402
import float_text  # noqa: E402
import keys  # noqa: E402
import piezometer  # noqa: E402
import reading  # noqa: E402
from chance import Chance  # noqa: E402
from field_data import COLUMN, MISSING, PRESSURE, Reading  # noqa: E402

DRAWN = 3_000
INFINITE = 0x7F800000

DATA = """\
# element, value
1   98.1 kPa
2,1.27m
2\tmissing

1 , -0.3kPa    # below the air's
2 0x80000000 m
9 missing
1,2000.0001,kPa
2 nan m
"""

TABLE = """\
Readings in the layer that the run of specimen.job leaves

Elements 1 (lowest) to 2. The difference is the reading's pressure minus the pore pressure.
                reading              as a float          column     pressure   pore pressure    difference
element        as typed                kPa or m              nm          mPa             mPa           mPa
      1        98.1 kPa      98.099998474121...               -   98,099,998      10,083,385    88,016,613
      2           1.27m       1.269999980926...   1,269,999,980   12,458,699       8,694,921     3,763,778
      2         missing                       -               -            -       8,694,921       missing
      1         -0.3kPa      -0.300000011920...               -     -300,000      10,083,385   -10,383,385
      2    0x80000000 m                      -0               0            0       8,694,921    -8,694,921
      9         missing                       -   refused 19: the layer has no such element: they are 1 to N
      1   2000.0001,kPa   2,000.000122070312...   refused 18: the reading is not finite, or above 2,000 kPa or 200 m in size
      2           nan m                     nan   refused 18: the reading is not finite, or above 2,000 kPa or 200 m in size

4 readings, the first 98.1 kPa, are no 32-bit floats: the nearest floats are compared.
Where dots follow, the float's decimals go on.
"""

BITS = """\

A float is its sign, a whole number (the mantissa) and a power of two; the quotient is cut toward zero.
"""


def stand_in(_program: str, data: bytes) -> bytes:
    """What the program writes of an input, from the reference."""
    length = int.from_bytes(data[:8], "little")
    job, readings = data[8:8 + length], data[8 + length:]
    assert len(job) == length and len(readings) % 24 == 0 and len(readings) // 24 in range(1, 1_025)
    words = struct.unpack("<%dQ" % (len(readings) // 8), readings)
    answers = [0] * (len(words) // 3 * 5)
    refusal = piezometer.readings_into(job, words, answers)
    return b"refused %d\n" % refusal if refusal else struct.pack("<%dQ" % len(answers), *answers)


def run(*arguments: str) -> Tuple[int, str, str]:
    """Exit status, output and messages of the script with the stand-in."""
    out, messages = io.StringIO(), io.StringIO()
    with contextlib.redirect_stdout(out), contextlib.redirect_stderr(messages), \
            mock.patch.object(reading, "written", stand_in):
        status = reading.main(["", *arguments])
    return status, out.getvalue(), messages.getvalue()


def read(path: str) -> str:
    """The text of a file."""
    with open(path, encoding="utf-8") as source:
        return source.read()


# ----------------------------------------------------------------------------------------------------------------
# Floats by search
# ----------------------------------------------------------------------------------------------------------------

def meaning(bits: int) -> Fraction:
    """What the bits of a float of no sign mean; infinite is where the next float would be."""
    return Fraction(2) ** 128 if bits == INFINITE else Fraction(struct.unpack("<f", struct.pack("<I", bits))[0])


def searched(size: Fraction) -> int:
    """The bits nearest to a size, by search among all floats; of two equally near the even ones."""
    low, high = 0, INFINITE
    while low < high:
        middle = (low + high + 1) // 2
        low, high = (middle, high) if meaning(middle) <= size else (low, middle - 1)
    if low == INFINITE:
        return low
    left, right = size - meaning(low), meaning(low + 1) - size
    return low if left < right or left == right and low % 2 == 0 else low + 1


def decimal(size: Fraction) -> str:
    """A fraction of a power of two as a decimal, with all its digits."""
    places = size.denominator.bit_length() - 1
    digits = str(size.numerator * 5**places).zfill(places + 1)
    return digits[:len(digits) - places] + "." + digits[len(digits) - places:]


class Floats(unittest.TestCase):
    """Decimals and 32-bit floats."""

    def assert_nearest(self, text: str, bits: int, exact: bool = False) -> None:
        """A decimal has its float, and with a minus the same with a sign."""
        self.assertEqual(float_text.nearest(text), (bits, exact), text)
        self.assertEqual(float_text.nearest("-" + text), (bits | 1 << 31, exact), text)

    def assert_middle(self, bits: int) -> None:
        """The middle between a float and the next goes to the even one, and the least bit more or less decides."""
        low, high = meaning(bits), meaning(bits + 1)
        middle, least = (low + high) / 2, Fraction(1, 2**200)
        self.assert_nearest(decimal(low), bits, True)
        self.assert_nearest(decimal(middle), bits + bits % 2)
        self.assert_nearest(decimal(middle + least), bits + 1)
        self.assert_nearest(decimal(middle - least), bits)
        self.assert_nearest(decimal(middle) + "0" * 500 + "1", bits + 1)

    def test_middles(self) -> None:
        edges = [0, 1, 2, 0x7FFFFE, 0x7FFFFF, 0x800000, 0x800001, 0xFFFFFF, 0x1000000, 0x3F7FFFFF, 0x3F800000,
                 0x3F800001, 0x4B7FFFFF, 0x4B800000, 0x7F7FFFFE, INFINITE - 1]
        for bits in edges:
            self.assert_middle(bits)
        chance = Chance(90_000, 0)
        for _ in range(DRAWN // 10):
            self.assert_middle(chance.between(0, INFINITE - 1))

    def test_rounded_once(self) -> None:
        trap = "1.00000005960464477539062500000001"
        self.assertEqual(struct.pack("<f", float(trap)), struct.pack("<I", 0x3F800000))
        self.assert_nearest(trap, 0x3F800001)
        self.assert_nearest("1.000000059604644775390625", 0x3F800000)
        self.assert_nearest("1.000000178813934326171875", 0x3F800002)
        self.assert_nearest("1.00000017881393432617187499999999", 0x3F800001)

    def test_limits(self) -> None:
        for text, bits, exact in (("2000", 0x44FA0000, True), ("2000.00006", 0x44FA0000, False),
                                  ("2000.0001", 0x44FA0001, False), ("200", 0x43480000, True),
                                  ("200.00001", 0x43480001, False), ("200.000007", 0x43480000, False)):
            self.assert_nearest(text, bits, exact)

    def test_past_the_greatest_and_the_least(self) -> None:
        greatest = 2**128 - 2**104
        for text, bits, exact in (
                (str(greatest), INFINITE - 1, True), (str(greatest + 2**103 - 1), INFINITE - 1, False),
                (str(greatest + 2**103), INFINITE, False), ("1e39", INFINITE, False), ("1e999999999", INFINITE, False),
                ("1e" + "9" * 5_000, INFINITE, False), ("9" * 100_000, INFINITE, False),
                ("0." + "0" * 100_000 + "1e100001", 0x3F800000, True),
                ("1" + "0" * 100_000 + "e-100000", 0x3F800000, True), ("0.7e-45", 0, False), ("0.8e-45", 1, False),
                ("1e-999999999", 0, False), ("1e-" + "9" * 5_000, 0, False),
                ("0." + "0" * 100_000 + "1", 0, False), ("0", 0, True), ("0e999999999", 0, True), ("0.0e-9", 0, True),
                ("1e000000000000000000000000000001", 0x41200000, True), ("0" * 5_000 + "1.", 0x3F800000, True)):
            self.assert_nearest(text, bits, exact)

    def test_spellings_of_a_number(self) -> None:
        for text in ("12.5", "+12.5", "012.50", "1.25e1", "1.25E+1", "125e-1", ".125e2", "12.5" + "0" * 5_000):
            self.assertEqual(float_text.nearest(text), (0x41480000, True), text)

    def test_drawn_decimals(self) -> None:
        chance = Chance(90_001, 0)
        for _ in range(DRAWN):
            text = "%s.%se%d" % (chance.scaled(0, 10**9), chance.scaled(0, 10**30), chance.between(-60, 35))
            bits = searched(Fraction(text))
            self.assert_nearest(text, bits, bits < INFINITE and meaning(bits) == Fraction(text))

    def test_parts(self) -> None:
        for bits, parts in ((0x42C43333, (1, 12_858_163, -17)), (0xBE99999A, (-1, 10_066_330, -25)),
                            (0, (1, 0, -149)), (1 << 31, (-1, 0, -149)), (1, (1, 1, -149)),
                            (0x7FFFFF, (1, 2**23 - 1, -149)), (0x800000, (1, 2**23, -149)),
                            (0x1000000, (1, 2**23, -148)), (0x7F7FFFFF, (1, 2**24 - 1, 104))):
            self.assertEqual(float_text.parts(bits), parts)
        chance = Chance(90_002, 0)
        for _ in range(DRAWN):
            bits = chance.between(0, INFINITE - 1)
            self.assertEqual(float_text.parts(bits).value(), meaning(bits))
        for bits in (0, 0x7F7FFFFF, 0xFF7FFFFF, 1 << 31):
            self.assertTrue(float_text.is_finite(bits))
        for bits in (INFINITE, 0xFF800000, 0x7FC00000, 0xFFFFFFFF, INFINITE + 1):
            self.assertFalse(float_text.is_finite(bits))

    def test_floats_as_text(self) -> None:
        for bits, text in ((0x41480000, "12.5"), (0xC1480000, "-12.5"), (0, "0"), (1 << 31, "-0"),
                           (1, "0.000000000000..."), (0x80000001, "-0.000000000000..."),
                           (0x42C43333, "98.099998474121..."),
                           (0x39800000, "0.000244140625"), (0x39000000, "0.000122070312..."), (0x461C3C00, "9,999"),
                           (0x44FA0001, "2,000.000122070312..."), (0x4B7FFFFF, "16,777,215"),
                           (0x4B800000, "8,388,608 x 2^1"), (0xFF7FFFFF, "-16,777,215 x 2^104"), (INFINITE, "inf"),
                           (0xFF800000, "-inf"), (0x7FC00000, "nan"), (0xFFC00001, "-nan")):
            self.assertEqual(float_text.float_text(bits), text)


# ----------------------------------------------------------------------------------------------------------------
# Field data
# ----------------------------------------------------------------------------------------------------------------

NO_MARK = "a number has a point before its decimals and no other mark"
OTHER_END = "it has another line's end within it than LF or CR LF"
NO_READING = "a reading is a number in kPa or m, or the word missing"
NO_BITS = "the bits of a float are 0x and eight hexadecimal digits, and kPa or m follows"
NO_UNIT = "its unit is missing, kPa or m"
UNIT = "is no unit here; a reading is in kPa or in m, and nothing is converted"

BAD_VALUES = [
    ("12,5kPa", NO_MARK), ("12,5", NO_MARK), ("1,000 kPa", NO_MARK), ("1 000kPa", NO_MARK), ("1'000 m", NO_MARK),
    ("1_000m", NO_MARK), ("1.000.000m", NO_MARK), ("1\u00a0000m", NO_MARK), ("1\u2019000m", NO_MARK),
    ("1 2 m", NO_MARK), ("1,9 m", NO_MARK), ("1.0,0 m", NO_MARK),
    ("\u0131nf kPa", NO_READING), ("\u0130nf m", NO_READING),
    ("12.5", NO_UNIT), ("-1e5", NO_UNIT), ("12.5 , ", NO_UNIT), ("nan", NO_UNIT), ("0", NO_UNIT),
    ("", NO_READING), ("kPa", NO_READING), ("m", NO_READING), ("missing kPa", NO_READING), ("miss", NO_READING),
    ("-", NO_READING), ("e5kPa", NO_READING), (". kPa", NO_READING), ("--5kPa", NO_READING), ("\u0665 m", NO_READING),
    ("5\u00a0m".replace("5", "\uff15"), NO_READING), ("\0", NO_READING), ("in m", NO_READING),
    ("0x42C4333kPa", NO_BITS), ("0x42C433333kPa", NO_BITS), ("0x", NO_BITS), ("-0x42C43333kPa", NO_BITS),
    ("0x42C43333", NO_BITS), ("0x42C43333Pa", NO_BITS), ("0x42C4333GkPa", NO_BITS),
    ("\u22120.3kPa", "this dash is no minus, which is -"), ("\u20135m", "this dash is no minus, which is -"),
]
BAD_UNITS = ["mm", "Pa", "kN/m2", "kpa", "KPA", "M", "kPa.", "m m", "em", "kPa 5", "\u00b5m", "m,", ";", "MPa", "x"]
BAD_ELEMENTS = ["", "-1", "+1", "1.0", "1.5", "1e1", "one", "0x1", "18446744073709551616", "9" * 50, "\u0661", "\uff11"]


def cut_short(text: str) -> str:
    """A text as a message shows it."""
    words = repr(text)
    return words if len(words) <= 60 else words[:40] + "..."


class Typed(unittest.TestCase):
    """Elements and values as they are typed."""

    def test_values(self) -> None:
        for text, kind, bits, exact in (
                ("12.5kPa", PRESSURE, 0x41480000, True), ("12.5 kPa", PRESSURE, 0x41480000, True),
                ("12.5\tkPa", PRESSURE, 0x41480000, True), (" 12.5, kPa ", PRESSURE, 0x41480000, True),
                ("98.1m", COLUMN, 0x42C43333, False), ("-98.1 m", COLUMN, 0xC2C43333, False),
                ("0x42C43333kPa", PRESSURE, 0x42C43333, True), ("0Xffc00001 m", COLUMN, 0xFFC00001, True),
                ("0x00000001m", COLUMN, 1, True), ("nan kPa", PRESSURE, 0x7FC00000, True),
                ("-NaN m", COLUMN, 0xFFC00000, True), ("inf kPa", PRESSURE, INFINITE, True),
                ("-infinity m", COLUMN, 0xFF800000, True), ("+InfkPa", PRESSURE, INFINITE, True),
                ("infm", COLUMN, INFINITE, True), ("-0m", COLUMN, 1 << 31, True), ("1e5m", COLUMN, 0x47C35000, True),
                ("1e999999999kPa", PRESSURE, INFINITE, False), ("-1e-999999999 kPa", PRESSURE, 1 << 31, False),
                ("missing", MISSING, 0, True), (" Missing ", MISSING, 0, True)):
            self.assertEqual(field_data.read_typed("7", text)[2:], (kind, bits, exact), text)

    def test_every_digit_in_every_place(self) -> None:
        for form in ("%s1m", "1%s.m", "1.%sm", ".%skPa", "1e%sm", "1.5E-%skPa", "1e+0%sm"):
            for digit in "0123456789":
                text, element = form % digit, digit + "1" + digit
                read_back = field_data.read_typed(element, text)
                self.assertEqual((read_back.element, read_back.bits),
                                 (int(element), searched(Fraction(text.rstrip("kPam")))), text)

    def test_what_was_typed(self) -> None:
        for text, typed in (("12.5kPa", "12.5kPa"), (" 12.5 \t kPa ", "12.5 kPa"), ("missing", "missing"),
                            ("1." + "0" * 34 + " kPa", "1." + "0" * 34 + " kPa"),
                            ("1." + "0" * 35 + " kPa", "1." + "0" * 35 + "...")):
            self.assertEqual(field_data.read_typed("7", text).typed, typed)

    def test_elements(self) -> None:
        for text, element in (("1", 1), ("007", 7), ("0", 0), ("00", 0), ("18446744073709551615", 2**64 - 1),
                              ("0" * 5_000 + "128", 128)):
            self.assertEqual(field_data.read_typed(text, "5m").element, element)

    def assert_bad(self, element: str, value: str, wrong: str) -> None:
        """Bad text is told on one line, and the program is not asked."""
        with mock.patch.dict(globals(), stand_in=lambda *_: self.fail("asked")):
            self.assertEqual(run(SPECIMEN, element, value), (2, "", "reading: %s\n" % wrong))

    def test_bad_values(self) -> None:
        for text, wrong in BAD_VALUES:
            self.assert_bad("1", text, "%s is no reading: %s" % (cut_short(text.strip(" ")), wrong))

    def test_bad_units(self) -> None:
        for unit in BAD_UNITS:
            wrong = "%r %s" % (unit.strip(","), UNIT)
            if unit != "m,":
                self.assert_bad("1", "5" + unit, "%r is no reading: %s" % ("5" + unit, wrong))
            self.assert_bad("1", "nan " + unit, "%r is no reading: %s" % ("nan " + unit, wrong))

    def test_bad_elements(self) -> None:
        for text in BAD_ELEMENTS:
            self.assert_bad(text, "5m", "%s is no element: it is a whole number below 2^64, in digits alone"
                            % cut_short(text))

    def test_long_texts_end_soon(self) -> None:
        long = 300_000
        for text in ("9" * long, "9" * long + "x", "1." + "9" * long + "x", "1e" + "9" * long + "x",
                     "5" + " " * long + "x", "5" + "," * long + "m", "." * long, "m" * long):
            with self.assertRaises(field_data.BadReading):
                field_data.read_line("1" + " " * long + text)
        self.assertEqual(field_data.read_line("1 " + "9" * long + "m").bits, INFINITE)


class Folders(unittest.TestCase):
    """A folder of its own for each test."""

    def setUp(self) -> None:
        folder = tempfile.TemporaryDirectory()
        self.addCleanup(folder.cleanup)
        self.folder = folder.name

    def file(self, data: bytes, name: str = "field.txt") -> str:
        """A file with some bytes."""
        with open(os.path.join(self.folder, name), "wb") as target:
            target.write(data)
        return os.path.join(self.folder, name)


class Files(Folders):
    """Files of field data."""

    def readings(self, data: bytes) -> List[Reading]:
        """The readings of some bytes."""
        return field_data.read_file(self.file(data))

    def test_lines(self) -> None:
        wanted = [field_data.read_typed("7", "12.5kPa")] * 2
        for line in (b"7 12.5kPa", b"7,12.5kPa", b"7\t12.5kPa", b" 7 , 12.5kPa ", b"7 \t 12.5kPa\t", b"7 12.5kPa#7 m",
                     b"7 12.5kPa # caf\xc3\xa9", b"7\t,\t12.5kPa"):
            for data in (line + b"\n" + line, line + b"\r\n" + line + b"\r\n",
                         b"\xef\xbb\xbf" + line + b"\n\n \t\n#\n" + line, b"# a\n" + line + b"\n\n" + line + b"\n\n"):
                self.assertEqual(self.readings(data), wanted, data)
        self.assertEqual(self.readings(b"7,12.5,kPa")[0].bits, 0x41480000)
        self.assertEqual(self.readings(b"7,5m"), [field_data.read_typed("7", "5m")])

    def assert_bad(self, data: bytes, wrong: str) -> None:
        """A bad file is told on one line, and the program is not asked."""
        path = self.file(data)
        with mock.patch.dict(globals(), stand_in=lambda *_: self.fail("asked")):
            self.assertEqual(run(SPECIMEN, path), (2, "", "reading: %s: %s\n" % (path, wrong)))

    def test_bad_lines(self) -> None:
        for line, wrong in (
                (b"1 12,5kPa", "'12,5kPa' is no reading: " + NO_MARK),
                (b"1,12,5kPa", "'12,5kPa' is no reading: " + NO_MARK),
                (b"1,000 5kPa", "'000 5kPa' is no reading: " + NO_MARK),
                (b"1", "'1': a line has an element and a value"),
                (b"5kPa", "'5kPa': a line has an element and a value"), (b"1,", "'' is no reading: " + NO_READING),
                (b"1;5kPa", "'1;5kPa': a line has an element and a value"),
                (b"1,,5kPa", "',5kPa' is no reading: " + NO_READING),
                (b",5kPa", "'' is no element: it is a whole number below 2^64, in digits alone"),
                (b"element,value", "'element' is no element: it is a whole number below 2^64, in digits alone"),
                (b"1 5kPa 6kPa", "'5kPa 6kPa' is no reading: 'kPa 6kPa' " + UNIT),
                (b"1 5kPa\r6", OTHER_END), (b"1 5kPa # a\r2 6kPa", OTHER_END), (b"# a\xe2\x80\xa82 6kPa", OTHER_END),
                (b"1 5kPa\r\r", OTHER_END),
                (b"1 5\0m", "'5\\x00m' is no reading: '\\x00m' " + UNIT),
                (b"1\xc2\xa05m", "'1\\xa05m': a line has an element and a value"),
                (b"\xef\xbb\xbf1 5m", "'\\ufeff1' is no element: it is a whole number below 2^64, in digits alone")):
            self.assert_bad(b"1 5m\n\n# a\r\n" + line + b"\n1 6m\n1 bad\n", "line 4: " + wrong)

    def test_no_text(self) -> None:
        self.assert_bad(b"1 5m\n1 5m # \xff\n", "line 2 is no text in UTF-8")
        self.assert_bad("1 5m\n".encode("utf-16"), "line 1 is no text in UTF-8")
        for data in (b"", b"\n\n", b"# none\n", b"\xef\xbb\xbf", b" \t\r\n"):
            self.assert_bad(data, "no line has a reading")

    def test_files_that_are_not_there(self) -> None:
        none = os.path.join(self.folder, "none")
        for path, wrong in ((none, "No such file or directory"), (self.folder, "Is a directory")):
            self.assertEqual(run(SPECIMEN, path), (2, "", "reading: %s: %s\n" % (path, wrong)))
            self.assertEqual(run(path, "1", "5m"), (2, "", "reading: %s: %s\n" % (path, wrong)))


# ----------------------------------------------------------------------------------------------------------------
# The tables
# ----------------------------------------------------------------------------------------------------------------

class Tables(Folders):
    """What is printed."""

    def test_table_of_a_file(self) -> None:
        self.assertEqual(run(SPECIMEN, self.file(DATA.encode())), (1, TABLE, ""))

    def test_one_reading(self) -> None:
        wanted = TABLE.split("\n")
        for words in (("1", "98.1 kPa"), ("1", "98.1", "kPa")):
            status, out, messages = run(SPECIMEN, *words)
            self.assertEqual((status, messages), (0, ""))
            lines = out.split("\n")
            self.assertEqual(lines[:3], wanted[:3])
            self.assertEqual(lines[5].split(), wanted[5].split())
            self.assertEqual(lines[6:], ["", "98.1 kPa is no 32-bit float: the nearest float is compared.",
                                         "Where dots follow, the float's decimals go on.", ""])
            self.assertEqual(len(set(map(len, lines[3:6]))), 1)

    def test_no_note_where_floats_are_typed(self) -> None:
        self.assertEqual(run(SPECIMEN, "1", "12.5kPa")[1].count("\n"), 6)
        self.assertEqual(run(SPECIMEN, "1", "missing")[1].count("\n"), 6)
        self.assertTrue(run(SPECIMEN, "1", "16777217kPa")[1].endswith("is compared.\n"))
        self.assertTrue(run(SPECIMEN, "1", "0x42C43333kPa")[1].endswith("88,016,613\n\nWhere dots follow, the float's "
                                                                        "decimals go on.\n"))

    def test_bits(self) -> None:
        more = b"1 1e39m\n2 3e38kPa\n1 16777215m\n"
        status, out, _ = run(SPECIMEN, self.file(DATA.encode() + more), "--bits")
        self.assertEqual(status, 1)
        rows = [line.split(None, 1)[1] for line in out.partition(BITS)[2].split("\n")[2:-1]]
        self.assertEqual([" ".join(row.split()) for row in rows], [
            "98.1 kPa 0x42C43333 + 12,858,163 -17 12,858,163 x 1,000,000 / 2^17 = 98,099,998 mPa, remainder 62,144",
            "1.27m 0x3FA28F5C + 10,653,532 -23 10,653,532 x 1,000,000,000 / 2^23 = 1,269,999,980 nm, remainder 7,772,160",
            "-0.3kPa 0xBE99999A - 10,066,330 -25 -10,066,330 x 1,000,000 / 2^25 = -300,000 mPa, remainder -400,000",
            "0x80000000 m 0x80000000 - 0 -149 0 x 1,000,000,000 / 2^149 = 0 nm, remainder 0",
            "2000.0001,kPa 0x44FA0001 + 16,384,001 -13 16,384,001 x 1,000,000 / 2^13 = 2,000,000,122 mPa, remainder 576",
            "nan m 0x7FC00000 + - - not a number", "1e39m 0x7F800000 + - - infinite",
            "3e38kPa 0x7F61B1E6 + 14,791,142 104 14,791,142 x 1,000,000 x 2^104 = "
            "300,000,000,549,775,575,777,803,994,281,145,270,272,000,000 mPa",
            "16777215m 0x4B7FFFFF + 16,777,215 0 16,777,215 x 1,000,000,000 x 2^0 = 16,777,215,000,000,000 nm"])
        self.assertEqual(run(SPECIMEN, "--bits", "1", "missing")[1], run(SPECIMEN, "1", "missing")[1])

    def test_the_quotient_is_the_programs(self) -> None:
        chance = Chance(90_003, 0)
        for _ in range(DRAWN):
            kind = chance.between(PRESSURE, COLUMN)
            bits = chance.between(0, 0x43480000) | chance.between(0, 1) << 31
            said = reading.quotient(Reading(1, "", kind, bits, True))
            product, _, result = said.partition(" = ")
            whole, _, left = result.replace(",", "").partition(" remainder ")
            value, unit = whole.split(" ")
            mantissa, size, power = (int(word.partition("^")[2] or word) for word in
                                     product.replace(",", "").replace(" / ", " x ").split(" x "))
            self.assertEqual(mantissa * size, int(value) * 2**power + int(left))
            self.assertEqual(int(value), piezometer.converted(kind, bits))
            self.assertEqual((unit, size), ("mPa", 10**6) if kind == PRESSURE else ("nm", 10**9))

    def test_examples(self) -> None:
        job, data = (os.path.join(EXAMPLES, name) for name in ("dredged_mud.job", "dredged_mud_readings.txt"))
        status, out, messages = run(job, data, "--bits")
        self.assertEqual((status, messages), (1, ""))
        blocks = read(os.path.join(EXAMPLES, "README.md")).split("```\n")
        table, bits = (next(block for block in blocks if block.startswith(start))
                       for start in ("Readings in", "A float is"))
        self.assertTrue(out.startswith(table + "\n" + bits), out)

    def test_many_readings(self) -> None:
        for count, parts in ((1_024, 0), (1_025, 2), (2_048, 2), (2_049, 3)):
            data = b"".join(b"%d %dkPa\n" % (at % 3, at) for at in range(count))
            status, out, messages = run(SPECIMEN, self.file(data))
            self.assertEqual(messages, "".join("reading: running the job for part %d of %d\n" % (part, parts)
                                               for part in range(1, parts + 1)))
            rows = [line.split() for line in out.split("\n")[5:-1]]
            self.assertEqual((status, len(rows)), (1, count))
            for at, row in enumerate(rows):
                pore = (10_083_385, 8_694_921)[at % 3 - 1]
                wanted = "refused 19:" if at % 3 == 0 else "refused 18:" if at > 2_000 else \
                    "- %s" % format(at * 10**6, ",")
                self.assertEqual((row[0], row[1], " ".join(row[3:5])), (str(at % 3), "%dkPa" % at, wanted))
                if wanted[0] == "-":
                    self.assertEqual(row[5:], [format(pore, ","), format(at * 10**6 - pore, ",")])


class Programs(Folders):
    """What the program is handed, and programs that do not answer."""

    def asked(self, answer: bytes, *arguments: str) -> Tuple[int, str, str, Sequence[bytes]]:
        """Exit status, output, messages and what was asked of a program with one answer."""
        seen: List[bytes] = []
        with mock.patch.dict(globals(), stand_in=lambda _, data: seen.append(data) or answer):
            return (*run(*arguments), seen)

    def test_what_the_program_reads(self) -> None:
        path = self.file(b"7 12.5kPa\n18446744073709551615 -98.1m\n0 missing\n")
        job = self.file(b"any bytes", "any.job")
        *_, seen = self.asked(bytes(120), job, path)
        words = (7, 1, 0x41480000, 2**64 - 1, 2, 0xC2C43333, 0, 0, 0)
        self.assertEqual(seen, [struct.pack("<Q9s9Q", 9, b"any bytes", *words)])

    def test_of_a_long_file_a_jobs_bytes_are_handed_over(self) -> None:
        for length, handed in ((8_192, 8_192), (8_193, 8_192), (10**6, 8_192), (0, 0)):
            status, out, _, seen = self.asked(b"refused 4\n", self.file(b"L" * length, "long.job"), "1", "5m")
            self.assertEqual(seen, [struct.pack("<Q", handed) + b"L" * handed + struct.pack("<3Q", 1, 2, 0x40A00000)])
            self.assertEqual((status, out), (1, "long.job: refused 4: %s\n" % keys.REFUSALS[4]))

    def test_numbers_are_the_programs(self) -> None:
        answer = struct.pack("<QQqqq", 0, 0, -2**63, 2**63 - 1, -5)
        _, out, _, _ = self.asked(answer, SPECIMEN, "1", "5m")
        self.assertEqual(out.split("\n")[5].split()[3:], [
            "-9,223,372,036,854,775,808", "9,223,372,036,854,775,802", "9,223,372,036,854,775,807", "-5"])
        _, out, _, _ = self.asked(struct.pack("<QQqqq", 0, 1, 0, 7, 0), SPECIMEN, "1", "5m")
        self.assertEqual(out.split("\n")[5].split()[3:], ["-", "-", "7", "missing"])

    def test_refusals(self) -> None:
        for number in range(1, 10):
            self.assertEqual(self.asked(b"refused %d\n" % number, SPECIMEN, "1", "5m")[:3],
                             (1, "specimen.job: refused %d: %s\n" % (number, keys.REFUSALS[number]), ""))
        for number in (18, 19, 99):
            words = keys.REFUSALS.get(number, "a cause of another number")
            status, out, messages, _ = self.asked(struct.pack("<5Q", number, 0, 0, 0, 0), SPECIMEN, "1", "5m")
            self.assertEqual((status, messages), (1, ""))
            self.assertEqual(out.split("\n")[5].split("   ")[-1], "refused %d: %s" % (number, words))
        self.assertEqual(len(set(keys.REFUSALS.values())), len(keys.REFUSALS))

    def test_refused_jobs(self) -> None:
        told = "none.job: refused 1: %s\n" % keys.REFUSALS[1]
        self.assertEqual(run(self.file(b"", "none.job"), "1", "5m"), (1, told, ""))

    def test_no_answer(self) -> None:
        for answer in (b"", b"refused\n", b"refused 4", bytes(39), bytes(41), bytes(80), b"Segmentation fault\n"):
            self.assertEqual(self.asked(answer, SPECIMEN, "1", "5m")[:3], (
                2, "", "reading: the program wrote neither 1 answer nor a refusal (%d bytes)\n" % len(answer)))
        path = self.file(b"1 5m\n2 5m\n")
        self.assertEqual(self.asked(bytes(40), SPECIMEN, path)[2],
                         "reading: the program wrote neither 2 answers nor a refusal (40 bytes)\n")

    def script(self, *words: str, **channels: object) -> subprocess.CompletedProcess:
        """The script started with words."""
        return subprocess.run([sys.executable, os.path.join(HERE, "reading.py"), *words], check=False, text=True,
                              stderr=subprocess.PIPE, **channels)

    def program(self) -> str:
        """A program that answers one reading with zeros."""
        path = self.file(b"#!/bin/sh\ncat >/dev/null\nhead -c 40 /dev/zero\n", "program")
        os.chmod(path, 0o755)
        return path

    def test_the_script_itself(self) -> None:
        done = self.script(self.program(), SPECIMEN, "1", "12.5kPa", stdout=subprocess.PIPE)
        self.assertEqual((done.returncode, done.stderr), (0, ""))
        self.assertEqual(done.stdout.split("\n")[5].split(), ["1", "12.5kPa", "12.5", "-", "0", "0", "0"])
        none = os.path.join(self.folder, "none")
        done = self.script(none, SPECIMEN, "1", "5m", stdout=subprocess.PIPE)
        self.assertEqual((done.returncode, done.stdout, done.stderr),
                         (2, "", "reading: %s: No such file or directory\n" % none))

    def test_output_that_cannot_be_written(self) -> None:
        program = self.program()
        with open("/dev/full", "wb") as full:
            done = self.script(program, SPECIMEN, "1", "5m", stdout=full)
        self.assertEqual((done.returncode, done.stderr), (2, "reading: standard output: No space left on device\n"))
        end, start = os.pipe()
        os.close(end)
        done = self.script(program, SPECIMEN, "1", "5m", stdout=start)
        os.close(start)
        self.assertEqual((done.returncode, done.stderr), (0, ""))

    def test_usage(self) -> None:
        for words in ((), (SPECIMEN,), (SPECIMEN, "--bits"), (SPECIMEN, "1", "5", "k", "Pa")):
            self.assertEqual(run(*words), (
                2, "", "usage: reading.py PROGRAM JOBFILE (ELEMENT VALUE | FIELDDATA) [--bits]\n"))


if __name__ == "__main__":
    unittest.main(verbosity=0)
