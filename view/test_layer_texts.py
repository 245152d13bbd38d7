#!/usr/bin/env python3
"""Tests of job.py and describe.py with a double of the program, which packs a layer's words and asks the reference
whether the job opens: `python3 test_layer_texts.py`. Quiet when all is well; exit status 1 when a test fails."""

from __future__ import annotations

import contextlib
import io
import os
import struct
import sys
import tempfile
import tomllib
import unittest
from dataclasses import replace
from decimal import Decimal
from typing import Iterator, List, Sequence, Tuple
from unittest import mock

HERE = os.path.dirname(os.path.abspath(__file__))
ROOT = os.path.dirname(HERE)
EXAMPLES = os.path.join(ROOT, "examples")
sys.path[:0] = [HERE, os.path.join(ROOT, "reference")]

import describe  # noqa: E402
import job  # noqa: E402
import keys  # noqa: E402
import layer  # noqa: E402
import layer_print  # noqa: E402
import layer_text  # noqa: E402
import layer_units  # noqa: E402
import make_scenarios as scenarios  # noqa: E402
import makers  # noqa: E402
import rules  # noqa: E402
from chance import Chance  # noqa: E402
from seepage import Ground  # noqa: E402
from stand_in import composed as stand_in, refusal as refusal_of  # noqa: E402
from steady_search import search  # noqa: E402

TEXT = """\
# A comment says what the layer is.
top = "drained"
bottom = "closed"
top_level_m = 0.01
specific_gravity = 2.65
start = "given"
end_days = 30
budget = 1000

[elements]
solids_m = [0.001, 0.001]
water_m = [0.002, 0.0015]

[compressibility]
columns = ["stress_kPa", "void_ratio"]
rows = [
    [5, 2],
    [105, 1],
]

[conductivity]
columns = ["void_ratio", "conductivity_m_per_s"]
rows = \"\"\"
1    1e-10
2    2e-10
\"\"\"

[load]
time_days = [0]
load_kPa = [15]
"""

# Under 15 kPa the void ratio 1.9 has no excess pressure.
STILL = TEXT.replace('"given"', '"steady"').replace("2.65", "1").replace("[0.002, 0.0015]", "[0.0019, 0.0019]")

JOB = rules.Job(top=1, gravity=2_650, top_level=10_000_000, end=30 * 86_400, budget=1_000,
                elements=[(1_000_000, 2_000_000), (1_000_000, 1_500_000)],
                curve1=[(5_000_000, 200_000_000), (105_000_000, 100_000_000)],
                curve2=[(100_000_000, 100_000), (200_000_000, 200_000)], table=[(0, 15_000_000)])

DRAWN = 400


def run(script: object, arguments: Sequence[str]) -> Tuple[int, str, str]:
    """Exit status, output and messages of a script that asks the stand-in."""
    out, messages = io.StringIO(), io.StringIO()
    with contextlib.redirect_stdout(out), contextlib.redirect_stderr(messages), \
            mock.patch.object(layer, "written", stand_in):
        status = script.main(arguments)
    return status, out.getvalue(), messages.getvalue()


def changed(*changes: str, text: str = TEXT) -> str:
    """The text with some of its words, which it has once, replaced by others."""
    for old, new in zip(changes[::2], changes[1::2]):
        assert text.count(old) == 1, old
        text = text.replace(old, new)
    return text


def words_of(text: str) -> bytes:
    """The words that a text gives."""
    return layer.words(layer_text.read_text(text.encode("utf-8")))


class Texts(unittest.TestCase):
    """A folder of its own for each test."""

    def setUp(self) -> None:
        folder = tempfile.TemporaryDirectory()
        self.addCleanup(folder.cleanup)
        self.folder = folder.name
        self.out = self.place("out.job")

    def place(self, name: str) -> str:
        """A path in the folder."""
        return os.path.join(self.folder, name)

    def file(self, name: str, data: bytes) -> str:
        """A file with some bytes."""
        with open(self.place(name), "wb") as target:
            target.write(data)
        return self.place(name)

    def layer(self, text: str) -> str:
        """A file with a text."""
        return self.file("layer.toml", text.encode("utf-8"))

    def made(self, text: str) -> bytes:
        """The job of a text that is accepted."""
        status, _, messages = run(job, ["", self.layer(text), self.out])
        self.assertEqual((status, messages), (0, ""))
        with open(self.out, "rb") as source:
            return source.read()

    def assert_bad(self, data: bytes, wrong: str) -> None:
        """Bad text is told on one line that ends with what is wrong, and leaves the job that was there."""
        path = self.file("layer.toml", data)
        self.file("out.job", b"as it was")
        status, out, messages = run(job, ["", path, self.out])
        self.assertEqual((status, out), (2, ""), messages)
        self.assertEqual(messages, "job: %s: %s\n" % (path, wrong))
        with open(self.out, "rb") as source:
            self.assertEqual(source.read(), b"as it was")
        self.assertEqual(sorted(os.listdir(self.folder)), ["layer.toml", "out.job"])


class Forms(Texts):
    """What a text can say, and in which forms."""

    def test_the_job_of_a_text(self) -> None:
        self.assertEqual(self.made(TEXT), rules.job_bytes(JOB))
        self.assertEqual(len(words_of(TEXT)), 652 * 8)

    def test_examples(self) -> None:
        names = sorted(name[:-5] for name in os.listdir(EXAMPLES) if name.endswith(".toml"))
        self.assertEqual(names, sorted(name[:-4] for name in os.listdir(EXAMPLES) if name.endswith(".job")))
        for name in names:
            with open(os.path.join(EXAMPLES, name + ".toml"), encoding="utf-8") as text, \
                    open(os.path.join(EXAMPLES, name + ".job"), "rb") as stored:
                self.assertEqual(self.made(text.read()), stored.read(), name)

    def test_every_form_of_a_table(self) -> None:
        elements = "solids_m = [0.001, 0.001]\nwater_m = [0.002, 0.0015]\n"
        for form in ('columns = ["solids_m", "water_m"]\nrows = [[0.001, 0.002], [0.001, 0.0015]]',
                     'columns = ["water_m", "solids_m"]\nrows = [[0.002, 0.001], [0.0015, 0.001]]',
                     'columns = ["solids_m", "water_m"]\nrows = """\n\n0.001\t0.002\n 0.001 \t .0015 \n\n"""',
                     'columns = ["solids_m", "water_m"]\nrows = "1e-3   2.E-3\\r\\n+0.001 0.00150"',
                     "count = 2\nsolids_m = 0.001\nwater_m = [0.002, 1.5e-3]",
                     "count = 2.0\nsolids_m = 0.001\nwater_m = '''\n   \n0.002\n0.0015\t'''",
                     "solids_m = '''\n0.001\n0.001'''\nwater_m = '''0.002\n0.0015\n'''"):
            self.assertEqual(words_of(changed(elements, form + "\n")), words_of(TEXT), form)
        load = "time_days = [0]\nload_kPa = [15]\n"
        for form in ('columns = ["time_days", "load_kPa"]\nrows = [[0, 15]]', "time_years = '0'\nload_kPa = [15.0]",
                     'columns = ["load_kPa", "time_s"]\nrows = "15 -0.0"', "time_s = [0e9]\nload_kPa = [1.5e1]"):
            self.assertEqual(words_of(changed(load, form + "\n")), words_of(TEXT), form)

    def test_units_of_time(self) -> None:
        for end in ("end_s = 2592000", "end_s = 2_592_000.0", "end_s = 0x278d00", "end_days = 3e1"):
            self.assertEqual(words_of(changed("end_days = 30", end)), words_of(TEXT))
        for end, seconds in (("end_years = 1", 31_536_000), ("end_days = 0.5", 43_200),
                             ("end_years = 0.0625", 1_971_000)):
            self.assertEqual(layer_text.read_text(changed("end_days = 30", end).encode()).end, seconds)

    def test_what_may_be_left_out(self) -> None:
        rest = changed('"given"', '"rest"', "water_m = [0.002, 0.0015]\n", "")
        self.assertEqual(self.made(rest), rules.job_bytes(replace(
            JOB, start=1, elements=[(1_000_000, 0)] * 2)))
        self.assertEqual(self.made(changed("solids_m =", "water_m = [0, 0.0]\nsolids_m =", text=rest)), self.made(rest))
        self.assertEqual(self.made(changed("specific", "bottom_level_m = 0\nspecific")), self.made(TEXT))

    def test_a_steady_start(self) -> None:
        self.assertEqual(self.made(STILL), rules.job_bytes(replace(
            JOB, start=2, gravity=1_000, elements=[(1_000_000, 1_900_000)] * 2)))

    def test_other_ways_to_write_a_text(self) -> None:
        self.assertEqual(words_of("\ufeff" + TEXT), words_of(TEXT))
        self.assertEqual(words_of(TEXT.replace("\n", "\r\n")), words_of(TEXT))

    def test_counts_past_the_places_are_passed_on(self) -> None:
        many = {"elements": changed("solids_m = [0.001, 0.001]\nwater_m = [0.002, 0.0015]",
                                    "count = 9e18\nsolids_m = 0.001\nwater_m = 0.002"),
                "element": changed("[0.001, 0.001]", str([0.001] * 129), "[0.002, 0.0015]", str([0.002] * 129)),
                "point": changed("time_days = [0]", "time_days = %s" % list(range(65)),
                                 "[15]", str([15] * 65))}
        counts = [struct.unpack_from("<4Q", words_of(text), 16) for text in many.values()]
        self.assertEqual(counts, [(9 * 10**18, 2, 2, 1), (129, 2, 2, 1), (2, 2, 2, 65)])
        self.assertTrue(all(len(words_of(text)) == 652 * 8 for text in many.values()))


class Numbers(unittest.TestCase):
    """Numbers are exact."""

    def test_whole_numbers_of_the_papers_units(self) -> None:
        for key, text, number in (("solids_m", "0.123456789", 123_456_789), ("void_ratio", "1.00000001", 100_000_001),
                                  ("conductivity_m_per_s", "1e-15", 1), ("stress_kPa", "0.000001", 1),
                                  ("top_level_m", "18446744073.709551615", 2**64 - 1), ("budget", "-0.0", 0),
                                  ("solids_m", "0." + "0" * 5_000, 0),
                                  ("specific_gravity", "2.650" + "0" * 5_000, 2_650),
                                  ("end_years", "0.0078125", 246_375), ("budget", "0e999999999", 0),
                                  ("conductivity_m_per_s", "1.8446744073709551615e4", 2**64 - 1)):
            value = tomllib.loads("x = " + text, parse_float=layer_text.exact_decimal)["x"]
            self.assertEqual(layer_units.whole(value, layer_units.KINDS[key].unit, key), number)

    def test_every_number_comes_back(self) -> None:
        chance = Chance(50_000, 0)
        for key, kind in layer_units.KINDS.items():
            for _ in range(60):
                number = chance.scaled(0, 2**64 - 1) // kind.unit.size * kind.unit.size if kind.unit.own == "s" \
                    else chance.scaled(0, 2**64 - 1)
                text = layer_units.decimal(number, kind.unit)
                value = tomllib.loads("x = " + text, parse_float=layer_text.exact_decimal)["x"]
                self.assertEqual(layer_units.whole(value, kind.unit, key), number)

    def test_the_form_of_a_number(self) -> None:
        for number, unit, text in ((50_000, layer_units.METRE, "0.00005"), (0, layer_units.METRE, "0"),
                                   (8 * 10**9, layer_units.METRE, "8"), (1_500_000, layer_units.SPEED, "1.5e-9"),
                                   (100_000, layer_units.SPEED, "1e-10"), (1, layer_units.SPEED, "1e-15"),
                                   (0, layer_units.SPEED, "0"), (2 * 10**15, layer_units.SPEED, "2"),
                                   (123_456_789, layer_units.SPEED, "1.23456789e-7"),
                                   (43_200, layer_units.TIMES["days"], "0.5"), (2_650, layer_units.GRAVITY, "2.65")):
            self.assertEqual(layer_units.decimal(number, unit), text)

    def test_limits_are_the_references(self) -> None:
        limits = {"level": rules.LEVEL, "clock": rules.CLOCK, "budget": rules.BUDGET, "gravity": rules.GRAVITY,
                  "solids": rules.SOLIDS, "water": rules.WATER, "stress": rules.STRESS, "void ratio": rules.VOID,
                  "conductivity": rules.CONDUCTIVITY, "elements": rules.ELEMENTS,
                  "points of a curve": rules.CURVE_POINTS, "points of the table": rules.TABLE_POINTS}
        self.assertEqual(layer_units.LIMITS, limits)


class BadTexts(Texts):
    """Texts that give no layer."""

    def test_no_text(self) -> None:
        status, out, messages = run(job, ["", self.place("none.toml"), self.out])
        self.assertEqual((status, out), (2, ""))
        self.assertEqual(messages, "job: %s: No such file or directory\n" % self.place("none.toml"))
        self.assertEqual(run(job, ["", self.folder, self.out])[0], 2)
        self.assertEqual(run(job, [""])[0], 2)
        self.assertEqual(run(job, ["", "", "", ""])[0], 2)
        self.assertEqual(os.listdir(self.folder), [])

    def test_no_toml(self) -> None:
        self.assert_bad(b'top = "drained"\n# \xff\n', "line 2 is no text in UTF-8")
        self.assert_bad(b"top = drained\n", "this is no TOML: Invalid value (at line 1, column 7)")
        self.assert_bad(b"top = 1\ntop = 2\n", "this is no TOML: Cannot overwrite a value (at line 2, column 8)")
        self.assert_bad(b"top = " + b"[" * 20_000, "this is no layer: brackets within brackets, too deep to be read")
        self.assert_bad(changed("budget = 1000", "budget = " + "9" * 5_000).encode(),
                        "line 8 has a whole number that is too long to be read")
        self.assert_bad(changed("budget = 1000", "budget = 1e" + "9" * 30).encode(),
                        "budget: 1e%s has an exponent that is out of reach" % ("9" * 30))

    def test_keys(self) -> None:
        for changes, wrong in (
                (("budget = 1000\n", ""), "budget: missing"),
                (("end_days = 30\n", ""), "end_years or end_days or end_s: missing"),
                (("end_days = 30", "end_days = 30\nend_s = 5"), "end_days and end_s: only one of them can be given"),
                (("time_days = [0]", ""), "load.time_years or load.time_days or load.time_s: missing"),
                (("time_days = [0]", "time_days = [0]\ntime_s = [0]"),
                 "load.time_days and load.time_s: only one of them can be given"),
                (("load_kPa = [15]", ""), "load.load_kPa: missing"),
                (("[load]\ntime_days = [0]\nload_kPa = [15]\n", ""), "load: missing"),
                (("[load]", "[loads]"), "loads: there is no such key; did you mean load?"),
                (("[load]", "[[load]]"), "load: an array is no table"),
                (("water_m = [0.002, 0.0015]\n", ""), "elements.water_m: missing"),
                (("water_m = [0.002, 0.0015]\n", "", '"given"', '"steady"'), "elements.water_m: missing"),
                (("budget = 1000", "budgets = 1000"), "budgets: there is no such key; did you mean budget?"),
                (("solids_m", "solid_m"), "elements.solid_m: there is no such key; did you mean solids_m?"),
                (("load_kPa", "load_kpa"), "load.load_kpa: there is no such key; did you mean load_kPa?"),
                (("rows = [\n", "row = [\n"), "compressibility.row: there is no such key; did you mean rows?"),
                (("[load]", "[load]\n'a\\nb' = 1"), "load.'a\\\\nb': there is no such key; the keys here are "
                 "time_years, time_days, time_s, load_kPa, columns, rows"),
                (("load_kPa = [15]", "load_kPa = [15]\nbudget = 5"),
                 "load.budget: there is no such key; it belongs above the first table"),
                (("[load]", "count = 1\n[load]"), "conductivity.count: there is no such key; it belongs in [elements]"),
                (("top_level_m", "count = 40\ntop_level_m"), "count: there is no such key; it belongs in [elements]"),
                (('bottom = "closed"', 'bottom = "drained"'), "bottom_level_m: missing")):
            self.assert_bad(changed(*changes).encode(), wrong)

    def test_words(self) -> None:
        for changes, wrong in (
                (('"drained"', '"open"'), 'top: \'open\' is neither "closed" nor "drained"'),
                (('"drained"', "1e" + "9" * 20), 'top: 1e%s is neither "closed" nor "drained"' % ("9" * 20)),
                (('"closed"', "false"), 'bottom: false is neither "closed" nor "drained"'),
                (('"given"', '["rest"]'), 'start: an array is neither "given" nor "rest" nor "steady"'),
                (('"given"', '"still"'), 'start: \'still\' is neither "given" nor "rest" nor "steady"'),
                (("[elements]\nsolids_m", "[elements.x]\nsolids_m"), "elements.x: there is no such key; the keys here "
                 "are solids_m, water_m, count, columns, rows")):
            self.assert_bad(changed(*changes).encode(), wrong)

    def test_numbers(self) -> None:
        for value, wrong in (
                ('"1000"', "'1000' is a text, not a number"), ("true", "true is not a number"),
                ("nan", "nan is not a number"), ("-inf", "-infinity is not a number"),
                ("2024-01-01", "2024-01-01 is not a number"), ("[1]", "an array is not a number"),
                ("{a = 1}", "a table is not a number"), ("-1", "-1 steps is negative"),
                ("-1e-300", "-1e-300 steps is negative"), ("0.5", "0.5 steps is no whole number of steps"),
                ("1e-999999999", "1e-999999999 steps is no whole number of steps"),
                ("1e999999999", "1e+999999999 steps does not fit 64 bits"),
                ("18446744073709551616", "18446744073709551616 steps does not fit 64 bits"),
                ("18446744073709551615.5", "18446744073709551615.5 steps is no whole number of steps"),
                ("1" + "0" * 40, "1%s steps does not fit 64 bits" % ("0" * 40)),
                ("9" * 4_000, "%s... steps does not fit 64 bits" % ("9" * 40)),
                ("0b1" + "0" * 20_000, "%s... steps does not fit 64 bits" % format(Decimal(2**20_000), "f")[:40]),
                ("0x" + "f" * 3_000_000, "a whole number of 12000000 bits steps does not fit 64 bits"),
                ("1." + "3" * 5_000, "1.%s... steps is no whole number of steps" % ("3" * 38))):
            self.assert_bad(changed("= 1000", "= " + value).encode(), "budget: " + wrong)

    def test_places(self) -> None:
        for changes, wrong in (
                (("[0.001, 0.001]", "[0.001, 0.1234567895]"),
                 "elements.solids_m, element 2: 0.1234567895 m is no whole number of nm"),
                (("[0.001, 0.001]", "[0.001, [0.001]]"), "elements.solids_m, element 2: an array is not a number"),
                (("[0.001, 0.001]", "[0.001, '0.001']"),
                 "elements.solids_m, element 2: '0.001' is a text, not a number"),
                (("[0.001, 0.001]", "0.001"), "elements.solids_m: 0.001 is neither an array nor a text with a row a "
                 "line"),
                (("[0.001, 0.001]", "[0.001]"), "elements: 1 number in solids_m and 2 numbers in water_m"),
                (("solids_m", "count = 3\nsolids_m"), "elements.solids_m: 2 numbers, but count is 3"),
                (("solids_m = [0.001, 0.001]", "count = 2\nsolids_m = true"),
                 "elements.solids_m: true is not a number"),
                (("solids_m = [0.001, 0.001]", "count = 1.5\nsolids_m = 1"),
                 "elements.count: 1.5 elements is no whole number of elements"),
                (("[105, 1]", "[105, 1, 0]"), "compressibility.rows, row 2: 3 numbers instead of 2 numbers"),
                (("[105, 1]", "105"), "compressibility.rows, row 2: 105 instead of 2 numbers"),
                (("[105, 1]", "[105, 1.123456789]"), "compressibility.rows, row 2, void_ratio: 1.123456789 is no whole "
                 "number of hundred-millionths"),
                (("2    2e-10", "2\t2e-10\t7"), "conductivity.rows, row 2: 3 numbers instead of 2 numbers"),
                (("2    2e-10", "2"), "conductivity.rows, row 2: 1 number instead of 2 numbers"),
                (("2    2e-10", "2 -2e-10"),
                 "conductivity.rows, row 2, conductivity_m_per_s: -2e-10 m/s is negative"),
                (("2    2e-10", "2 1e-16"), "conductivity.rows, row 2, conductivity_m_per_s: 1e-16 m/s is no whole "
                 "number of fm/s"),
                (("2    2e-10", "2 1e" + "9" * 30), "conductivity.rows, row 2, conductivity_m_per_s: 1e%s has an "
                 "exponent that is out of reach" % ("9" * 30)),
                (('"stress_kPa", "void_ratio"]', '"stress_kPa"]'), "compressibility.columns: has to be an array of two "
                 "names, stress_kPa and void_ratio"),
                (('columns = ["stress_kPa", "void_ratio"]\n', ""), "compressibility.columns: missing"),
                (('columns = ["stress_kPa", "void_ratio"]', "stress_kPa = [5, 105]"),
                 "compressibility.rows and compressibility.stress_kPa: two forms of one table; use one of them"),
                (("solids_m", 'columns = ["solids_m", "water_m"]\ncount = 2\nsolids_m'),
                 "elements.columns and elements.count: two forms of one table; use one of them"),
                (("time_days = [0]", 'columns = ["time_h", "load_kPa"]\nrows = []'),
                 "load.columns and load.load_kPa: two forms of one table; use one of them"),
                (("time_days = [0]\nload_kPa = [15]", 'columns = ["time_h", "load_kPa"]\nrows = []'),
                 "load.columns: has to be an array of two names, time_years or time_days or time_s and load_kPa"),
                (("time_days = [0]\nload_kPa = [15]", 'columns = ["time_s", "load_kPa"]\nrows = 5'),
                 "load.rows: 5 is neither an array nor a text with a row a line"),
                (("end_days = 30", "end_days = 0.00001"), "end_days: 0.00001 days is no whole number of s"),
                (("2.65", "2.6505"), "specific_gravity: 2.6505 is no whole number of thousandths")):
            self.assert_bad(changed(*changes).encode(), wrong)

    def test_gaps_in_pasted_text(self) -> None:
        for gap, wrong in (("1\t1e-10\n\n2\t2e-10", "row 2: a blank line between two rows"),
                           ("1\t1e-10\n \t\n2\t2e-10", "row 2: a blank line between two rows"),
                           ("1\t\t1e-10\n2\t2e-10", "row 1: an empty cell"), ("\t1\t1e-10", "row 1: an empty cell"),
                           ("1\t\n2\t2e-10", "row 1: 1 number instead of 2 numbers")):
            self.assert_bad(changed("1    1e-10\n2    2e-10", gap).encode(), "conductivity.rows, " + wrong)
        self.assert_bad(changed("[0.001, 0.001]", "'''0.001\n\n0.001'''").encode(),
                        "elements.solids_m, element 2: a blank line between two rows")

    def test_marks_in_pasted_cells(self) -> None:
        hint = "; a number has a point before its decimals and no other mark"
        for cell in ("0,5", "1,000", "1.000,5", "1'000", "1\u00a0000", "1_000", "1.000.000"):
            self.assert_bad(changed("1    1e-10", cell + "    1e-10").encode(),
                            "conductivity.rows, row 1, void_ratio: %r is not a number%s" % (cell, hint))
        self.assert_bad(changed("1    1e-10", "1 000\t1e-10").encode(),
                        "conductivity.rows, row 1, void_ratio: '1 000' is not a number" + hint)
        for cell in ("void", "nan", "inf", "\u0661", "0x10", "-", "1e", "."):
            self.assert_bad(changed("1    1e-10", cell + "    1e-10").encode(),
                            "conductivity.rows, row 1, void_ratio: %r is not a number" % cell)
        self.assert_bad(changed("[0.001, 0.001]", "'''0.001\n0,001'''").encode(),
                        "elements.solids_m, element 2: '0,001' is not a number" + hint)
        self.assert_bad(changed("[0.001, 0.001]", "'''0.001\n1 000'''").encode(),
                        "elements.solids_m, element 2: 2 numbers instead of 1 number")


class Refusals(Texts):
    """Layers that the program refuses, and the field that is named."""

    def assert_refused(self, text: str, number: int, blame: str) -> None:
        """A refusal is told on one line, and nothing is written."""
        status, out, messages = run(job, ["", self.layer(text), self.out])
        self.assertEqual((status, out), (1, ""), messages)
        self.assertEqual(messages, "layer.toml: refused %d: %s%s\n"
                         % (number, keys.REFUSALS[number], "; " + blame if blame else ""))
        self.assertEqual(os.listdir(self.folder), ["layer.toml"])

    def test_header(self) -> None:
        elements = "solids_m = [0.001, 0.001]\nwater_m = [0.002, 0.0015]"
        for changes, blame in (
                ((elements, "count = 129\nsolids_m = 0.001\nwater_m = 0.002"),
                 "elements: 129 elements is not within 1 to 128 elements"),
                ((elements, "solids_m = []\nwater_m = ''"), "elements: 0 elements is not within 1 to 128 elements"),
                ((elements, "count = 0\nsolids_m = 1\nwater_m = 1"),
                 "elements: 0 elements is not within 1 to 128 elements"),
                (("    [105, 1],\n", ""), "compressibility: 1 point is not within 2 to 64 points"),
                (("1    1e-10\n2    2e-10\n", "\n"), "conductivity: 0 points is not within 2 to 64 points"),
                (("[0]", str(list(range(65))), "[15]", str([1] * 65)), "load: 65 points is not within 1 to 64 points"),
                (("2.65", "0.999"), "specific_gravity: 0.999 is not within 1 to 5"),
                (("2.65", "2650"), "specific_gravity: 2650 is not within 1 to 5")):
            self.assert_refused(changed(*changes), 3, blame)

    def test_fields(self) -> None:
        for changes, blame in (
                (("0.01\n", "200.000000001\n"), "top_level_m: 200.000000001 m is not within 0 to 200 m"),
                (("0.01\n", "0.01\nbottom_level_m = 0.5\n"),
                 "bottom_level_m: 0.5 m, but a closed bottom has none: leave it out"),
                (('"closed"', '"drained"', "0.01\n", "0.01\nbottom_level_m = 201\n"),
                 "bottom_level_m: 201 m is not within 0 to 200 m"),
                (("end_days = 30", "end_days = 40000"),
                 "end_days: 40000 days = 3456000000 s is not within 0 to 3000000000 s"),
                (("end_days = 30", "end_s = 3000000001"), "end_s: 3000000001 s is not within 0 to 3000000000 s"),
                (("= 1000", "= 1_000_001"), "budget: 1000001 steps is not within 0 to 1000000 steps"),
                (("[0.001, 0.001]", "[0.001, 0.00005]"),
                 "elements.solids_m, element 2: 0.00005 m is not within 0.0001 to 0.1 m"),
                (("0.0015", "1.1"), "elements.water_m, element 2: 1.1 m is not within 0 to 1 m"),
                (('"given"', '"rest"', "[0.002, 0.0015]", "[0, 0.0015]"),
                 "elements.water_m, element 2: 0.0015 m, but a start at rest finds the water: leave it out")):
            self.assert_refused(changed(*changes), 5, blame)

    def test_curves(self) -> None:
        for changes, number, blame in (
                (("[105, 1]", "[2100, 1]"), 6,
                 "compressibility.stress_kPa, point 2: 2100 kPa is not within 0 to 2000 kPa"),
                (("[105, 1]", "[105, 0]"), 6, "compressibility.void_ratio, point 2: 0 is not within 0.00000001 to 10"),
                (("[105, 1]", "[5, 1]"), 6, "compressibility.stress_kPa, point 2: 5 kPa does not rise above 5 kPa of "
                 "point 1"),
                (("[105, 1]", "[105, 1.5],\n[106, 1.6],\n[3000, 1]"), 6,
                 "compressibility.void_ratio, point 3: 1.6 does not fall below 1.5 of point 2"),
                (("2    2e-10", "11 2e-10"), 7, "conductivity.void_ratio, point 2: 11 is not within 0.00000001 to 10"),
                (("2    2e-10", "2 0"), 7, "conductivity.conductivity_m_per_s, point 2: 0 m/s is not within 1e-15 to "
                 "1e-6 m/s"),
                (("2    2e-10", "1 2e-10"), 7, "conductivity.void_ratio, point 2: 1 does not rise above 1 of point 1"),
                (("2    2e-10", "2 0.99e-10"), 7,
                 "conductivity.conductivity_m_per_s, point 2: 9.9e-11 m/s falls below 1e-10 m/s of point 1"),
                (("2    2e-10", "1.9 2e-10"), 7,
                 "conductivity.void_ratio: 1 to 1.9 does not cover 2 of compressibility, point 1"),
                (("1    1e-10", "1.00000001 1e-10"), 7,
                 "conductivity.void_ratio: 1.00000001 to 2 does not cover 1 of compressibility, point 2")):
            self.assert_refused(changed(*changes), number, blame)

    def test_load_table(self) -> None:
        both = "time_days = [0]\nload_kPa = [15]"
        for new, blame in (
                ("time_days = [1]\nload_kPa = [15]", "load.time_days, point 1: 1 day is not 0"),
                ("time_s = [1]\nload_kPa = [15]", "load.time_s, point 1: 1 s is not 0"),
                ("time_days = [0, 0.5, 0.5]\nload_kPa = [1, 2, 3]",
                 "load.time_days, point 3: 0.5 days does not rise above 0.5 days of point 2"),
                ("time_years = [0, 96]\nload_kPa = [1, 2]",
                 "load.time_years, point 2: 96 years = 3027456000 s is not within 0 to 3000000000 s"),
                ("time_s = [0]\nload_kPa = [2000.000001]",
                 "load.load_kPa, point 1: 2000.000001 kPa is not within 0 to 2000 kPa")):
            self.assert_refused(changed(both, new), 8, blame)

    def test_start(self) -> None:
        self.assert_refused(changed("0.0015", "0.0025"), 9, "elements.water_m, element 2: the void ratio 2.5 is not "
                            "within 1 to 2, the ends of the curve")
        self.assert_refused(changed("[0.002, 0.0015]", "[0.0001, 0]"), 9, "elements.water_m, element 1: the void ratio "
                            "0.1 is not within 1 to 2, the ends of the curve")
        for load, element, carried in ((106, 1, "106.024279"), (4, 1, "4.024279")):
            self.assert_refused(changed('"given"', '"rest"', "water_m = [0.002, 0.0015]\n", "", "[15]", "[%d]" % load), 9,
                                "load.load_kPa, point 1: under %d kPa element %d carries %s kPa, which is not within 5 to "
                                "105 kPa, the ends of the curve" % (load, element, carried))

    def test_a_start_at_rest_over_another_level(self) -> None:
        rest = changed('"given"', '"rest"', "water_m = [0.002, 0.0015]\n", "", '"closed"', '"drained"',
                       "top_level_m = 0.01\n", "top_level_m = 0.01\nbottom_level_m = 0.010000001\n")
        self.assert_refused(rest, 9, "start: a layer at rest has a closed bottom or one at the top's level, but "
                            "bottom_level_m is 0.010000001 m and top_level_m is 0.01 m; ./kufandra steady looks for steady "
                            "water heights")
        self.assertEqual(self.made(changed("0.010000001", "0.01", text=rest))[11], 1)

    def test_a_steady_start(self) -> None:
        end = "; ./kufandra steady looks for steady water heights"
        told = "start: by this script's reckoning the upward flows differ most between %s" + end
        for water, faces in (
                ("[0.0019, 0.0018]", "the top, -131,061 nm, and the face between elements 1 and 2, 66,152 nm"),
                ("[0.0018, 0.0019]", "the face between elements 1 and 2, -66,152 nm, and the bottom, 0 nm"),
                ("[0.0019, 0.001901]", "the face between elements 1 and 2, -667 nm, and the top, 1,335 nm")):
            self.assert_refused(changed("[0.0019, 0.0019]", water, text=STILL), 20, told % faces)
        self.assert_refused(changed("[0.0019, 0.0019]", "[0.0025, 0.0019]", text=STILL), 9,
                            "elements.water_m, element 1: the void ratio 2.5 is not within 1 to 2, the ends of the "
                            "curve")
        self.assert_refused(changed("[0.0019, 0.0019]", "[0.0019, 1.1]", text=STILL), 5,
                            "elements.water_m, element 2: 1.1 m is not within 0 to 1 m")

    def test_the_first_cause_is_told(self) -> None:
        self.assert_refused(changed("= 1000", "= 1000001", "[105, 1]", "[5, 1]", "[0]", "[7]"), 5,
                            "budget: 1000001 steps is not within 0 to 1000000 steps")

    def test_numbers_that_no_field_explains(self) -> None:
        for number, text in [(number, TEXT) for number in (3, 5, 6, 7, 8, 9, 17, 20, 99)] + [(9, STILL), (20, STILL)]:
            with mock.patch.dict(globals(), stand_in=lambda *_: b"refused %d\n" % number):
                status, _, messages = run(job, ["", self.layer(text), self.out])
            words = keys.REFUSALS.get(number, "a cause of another number")
            self.assertEqual((status, messages), (1, "layer.toml: refused %d: %s\n" % (number, words)))


class Writing(Texts):
    """Where a job goes."""

    def program(self, line: str) -> str:
        """A program that runs a line of the shell."""
        path = self.file("program", b"#!/bin/sh\n%s\n" % line.encode())
        os.chmod(path, 0o755)
        return path

    def test_names(self) -> None:
        path = self.layer(TEXT)
        self.assertEqual(run(job, ["", path, self.out]), (0, "wrote %s, 160 bytes\n" % self.out, ""))
        before = os.getcwd()
        os.chdir(self.folder)
        try:
            self.assertEqual(run(job, ["", path]), (0, "wrote layer.job, 160 bytes\n", ""))
        finally:
            os.chdir(before)
        self.assertEqual(sorted(os.listdir(self.folder)), ["layer.job", "layer.toml", "out.job"])

    def test_a_program(self) -> None:
        path, stored = self.layer(TEXT), self.file("stored", rules.job_bytes(JOB))
        out, messages = io.StringIO(), io.StringIO()
        with contextlib.redirect_stdout(out), contextlib.redirect_stderr(messages):
            self.assertEqual(job.main([self.program("cat >'%s'; cat '%s'" % (self.place("words"), stored)), path,
                                       self.out]), 0)
            self.assertEqual(describe.main([self.place("program"), self.out]), 0)
            self.assertEqual(job.main([self.program("cat >/dev/null; echo refused 5"), path, self.place("new")]), 1)
            for line in ("exit 0", "cat >/dev/null; head -c 159 '%s'" % stored, "cat", "echo refused",
                         "printf 'refused 5\\nmore'"):
                self.assertEqual(job.main([self.program(line), path, self.place("new")]), 2)
            self.assertEqual(job.main([self.place("none"), path, self.place("new")]), 2)
            self.assertEqual(describe.main([self.place("none"), self.out]), 2)
        self.assertFalse(os.path.exists(self.place("new")))
        with open(self.place("words"), "rb") as words, open(self.out, "rb") as made:
            self.assertEqual((words.read(), made.read()), (words_of(TEXT), rules.job_bytes(JOB)))

    def test_places_that_cannot_be_written(self) -> None:
        path = self.layer(TEXT)
        for out, wrong in ((self.folder, "Is a directory"), ("", "No such file or directory"),
                           (self.place("none/x.job"), "No such file or directory"),
                           (path, "the job would take the place of its text")):
            self.assertEqual(run(job, ["", path, out]), (2, "", "job: %s: %s\n" % (out, wrong)))
        self.assertEqual(os.listdir(self.folder), ["layer.toml"])
        with open(path, encoding="utf-8") as source:
            self.assertEqual(source.read(), TEXT)

    def test_a_write_that_fails_leaves_the_old_job(self) -> None:
        path = self.layer(TEXT)
        self.file("out.job", b"as it was")
        with mock.patch.object(os, "replace", side_effect=OSError(28, "No space left on device")):
            self.assertEqual(run(job, ["", path, self.out]),
                             (2, "", "job: %s: No space left on device\n" % self.out))
        with open(self.out, "rb") as source:
            self.assertEqual(source.read(), b"as it was")
        self.assertEqual(sorted(os.listdir(self.folder)), ["layer.toml", "out.job"])

    def test_a_device_and_a_link_stay_what_they_are(self) -> None:
        path, real = self.layer(TEXT), self.file("real.job", b"")
        os.symlink(real, self.out)
        os.mkfifo(self.place("pipe"))
        reader = os.open(self.place("pipe"), os.O_RDONLY | os.O_NONBLOCK)
        self.addCleanup(os.close, reader)
        for out in (self.out, self.place("pipe")):
            self.assertEqual(run(job, ["", path, out])[0], 0)
        self.assertTrue(os.path.islink(self.out))
        self.assertEqual(os.read(reader, 999), rules.job_bytes(JOB))
        with open(real, "rb") as source:
            self.assertEqual(source.read(), rules.job_bytes(JOB))


class Descriptions(Texts):
    """describe.py."""

    def described(self, data: bytes, name: str = "some.job") -> Tuple[int, str, str]:
        """Exit status, text and messages for the bytes of a job."""
        return run(describe, ["", self.file(name, data)])

    def test_the_text_of_a_job(self) -> None:
        status, text, messages = self.described(rules.job_bytes(replace(JOB, top=0, bottom=1, bottom_level=1)))
        self.assertEqual((status, messages), (0, ""))
        self.assertEqual(text, """\
# The layer of some.job.
top = "closed"
bottom = "drained"
top_level_m = 0.01
bottom_level_m = 0.000000001
specific_gravity = 2.65
start = "given"
end_days = 30
budget = 1000

[elements]  # from the lowest up
count = 2
solids_m = 0.001
water_m = [
    0.002,
    0.0015,
]

[compressibility]
columns = ["stress_kPa", "void_ratio"]
rows = [
    [5, 2],
    [105, 1],
]

[conductivity]
columns = ["void_ratio", "conductivity_m_per_s"]
rows = [
    [1, 1e-10],
    [2, 2e-10],
]

[load]
columns = ["time_years", "load_kPa"]
rows = [
    [0, 15],
]
""")

    def test_elements(self) -> None:
        for elements, start, lines in (
                ([(1_000_000, 2_000_000)] * 3, 0, "count = 3\nsolids_m = 0.001\nwater_m = 0.002"),
                ([(1_000_000, 2_000_000), (2_000_000, 4_000_000)], 0,
                 'columns = ["solids_m", "water_m"]\nrows = [\n    [0.001, 0.002],\n    [0.002, 0.004],\n]'),
                ([(2_000_000, 2_000_000), (1_000_000, 2_000_000)], 0,
                 "count = 2\nsolids_m = [\n    0.002,\n    0.001,\n]\nwater_m = 0.002"),
                ([(1_000_000, 1_899_758), (1_000_000, 1_899_920)], 2,
                 "count = 2\nsolids_m = 0.001\nwater_m = [\n    0.001899758,\n    0.00189992,\n]"),
                ([(1_000_000, 0)], 1, "count = 1\nsolids_m = 0.001"),
                ([(1_000_000, 0), (2_000_000, 0)], 1, "solids_m = [\n    0.001,\n    0.002,\n]")):
            status, text, _ = self.described(rules.job_bytes(replace(JOB, elements=elements, start=start)))
            self.assertEqual(status, 0)
            self.assertEqual(text.partition("up\n")[2].partition("\n\n[comp")[0], lines)

    def test_times(self) -> None:
        for end, line in ((0, "end_years = 0"), (31_536_000 * 12, "end_years = 12"),
                          (31_536_000 + 86_400, "end_days = 366"), (86_401, "end_s = 86401"),
                          (3_000_000_000, "end_s = 3000000000")):
            self.assertIn("\n%s\n" % line, self.described(rules.job_bytes(replace(JOB, end=end)))[1])
        table = [(0, 15_000_000), (86_400 * 365, 1), (86_400 * 366, 2_000_000)]
        text = self.described(rules.job_bytes(replace(JOB, table=table)))[1]
        self.assertIn("    [0, 15],\n    [365, 0.000001],\n    [366, 2],\n", text)

    def jobs(self) -> Iterator[bytes]:
        """Jobs of all kinds: drawn, some of them damaged; at the limits; refused for each cause and for two."""
        for index in range(DRAWN):
            yield makers.made_job(Chance(50_000, index), 4)
        for made in scenarios.accepted_edges():
            yield rules.job_bytes(made)
        for ways in scenarios.CAUSES.values():
            yield from ways(scenarios.specimen())
        for _, data in scenarios.two_causes(scenarios.specimen()):
            yield data
        for index in range(DRAWN // 4):
            yield from self.steady_jobs(makers.make_job(Chance(51_000, index)))

    def steady_jobs(self, made: rules.Job) -> Iterator[bytes]:
        """A job with a steady start, as the job is and with heights that a search finds."""
        yield rules.job_bytes(replace(made, start=2))
        if rules.body_refusal(made):
            return
        ground = Ground(layer.read_job(rules.job_bytes(made)))
        if not ground.without_height():
            water = search(ground, [water for _, water in made.elements], lambda *_: None).water
            elements = [(solids, height) for (solids, _), height in zip(made.elements, water)]
            yield rules.job_bytes(replace(made, start=2, elements=elements))

    def test_every_job_comes_back(self) -> None:
        accepted, refused = {start: 0 for start in range(3)}, {number: 0 for number in (*range(1, 10), 20)}
        for data in self.jobs():
            refusal = refusal_of(data)
            status, text, messages = self.described(data)
            self.assertEqual(status, 1 if refusal else 0, messages)
            if not refusal:
                accepted[data[11]] += 1
                self.assertEqual((self.made(text), messages), (data, ""))
                continue
            refused[refusal] += 1
            told = "refused %d: %s" % (refusal, keys.REFUSALS[refusal])
            self.assertTrue(messages.startswith("some.job: " + told) and messages.count("\n") == 1, messages)
            if text:
                self.assertEqual(text.partition("\n")[0], "# " + messages[10:-1])
                self.assertEqual(run(job, ["", self.layer(text), self.place("no.job")]),
                                 (1, "", "layer.toml: " + messages[10:]))
                self.assertEqual(words_of(text), layer.words(layer.read_job(data)))
        self.assertGreaterEqual(sum(accepted.values()), 300)
        self.assertTrue(all(count > 30 for count in accepted.values()), accepted)
        self.assertTrue(all(count > 3 for count in refused.values()), refused)

    def test_a_text_is_read_as_the_same_layer(self) -> None:
        for index in range(DRAWN):
            made = layer.read_job(rules.job_bytes(makers.make_job(Chance(60_000, index))))
            made = layer_print.in_text_units(made)
            text = "\n".join(layer_print.layer_lines(made))
            self.assertEqual(layer_text.read_text(text.encode("ascii")), made)

    def test_bytes_that_no_layer_has(self) -> None:
        sound = rules.job_bytes(JOB)
        for data, number in ((b"", 1), (sound[:47], 1), (b"LSD" + sound[3:], 1), (sound[:3] + b"\2" + sound[4:], 2),
                             (sound[:5] + b"\2" + sound[6:], 3), (sound[:11] + b"\3" + sound[12:], 3),
                             (sound[:15] + b"\1" + sound[16:], 3), (sound + b"\0", 4), (sound[:-1], 4),
                             (sound[:7] + b"\0" + sound[8:], 3)):
            self.assertEqual(self.described(data),
                             (1, "", "some.job: refused %d: %s\n" % (number, keys.REFUSALS[number])))

    def test_a_refused_layer_can_be_mended(self) -> None:
        status, text, messages = self.described(rules.job_bytes(replace(JOB, budget=2**64 - 1, bottom_level=5)))
        self.assertEqual(status, 1)
        self.assertIn("; bottom_level_m: 0.000000005 m, but", messages)
        self.assertTrue(text.startswith("# refused 5: "))
        mended = changed("budget = 18446744073709551615", "budget = 1000", "bottom_level_m = 0.000000005\n", "",
                         text=text)
        self.assertEqual(self.made(mended), rules.job_bytes(JOB))

    def test_counts_past_the_places(self) -> None:
        status, text, _ = self.described(rules.job_bytes(replace(JOB, elements=[(n, n) for n in range(200)])))
        self.assertEqual((status, text.count("\n    [")), (1, 205))
        self.assertIn("elements: 200 elements is not within 1 to 128 elements", text)

    def test_odd_names(self) -> None:
        for name in ("a\nb.job", "\u00e4\u0085\u202e.job", 'x" = 1.job'):
            _, text, _ = self.described(rules.job_bytes(JOB), name)
            self.assertEqual(self.made(text), rules.job_bytes(JOB))

    def test_no_text(self) -> None:
        good: List[str] = ["", self.file("some.job", rules.job_bytes(JOB))]
        self.assertEqual(run(describe, [])[0], 2)
        self.assertEqual(run(describe, good + ["x"])[0], 2)
        self.assertEqual(run(describe, ["", self.place("none")]),
                         (2, "", "describe: %s: No such file or directory\n" % self.place("none")))
        with mock.patch.dict(globals(), stand_in=lambda *_: rules.job_bytes(replace(JOB, budget=7))):
            self.assertEqual(run(describe, good), (
                2, "", "describe: %s: the program writes other bytes of this layer\n" % good[1]))


if __name__ == "__main__":
    unittest.main(verbosity=0)
