#!/usr/bin/env python3
"""Tests of long_division.py with a double that asks the reference: `python3 test_division.py`. Quiet when all is well;
exit status 1 when a test fails."""

from __future__ import annotations

import contextlib
import io
import os
import re
import struct
import subprocess
import sys
import tempfile
import unittest
from typing import Dict, List, Optional, Sequence, Tuple
from unittest import mock

HERE = os.path.dirname(os.path.abspath(__file__))
ROOT = os.path.dirname(HERE)
EXAMPLES = os.path.join(ROOT, "examples")
SPECIMEN = os.path.join(EXAMPLES, "specimen.job")
sys.path[:0] = [HERE, os.path.join(ROOT, "reference")]

import field_data  # noqa: E402
import keys  # noqa: E402
import long_division  # noqa: E402
import rules  # noqa: E402
import stand_in  # noqa: E402
import working  # noqa: E402
from chance import Chance  # noqa: E402
from makers import make_job  # noqa: E402
from sample_jobs import mud, resting, specimen, widest  # noqa: E402

DRAWN = 150
DISAGREE = "division: the program and this view disagree: "
NUMBER = "-?[0-9][0-9,]*"
STRESS, CONDUCTIVITY, SEGMENT = "effective stress$", "quotient = +conductivity$", " b +void ratio b$"

SPECIMEN_TABLES = """\
Long division of a step of 100 s on the layer that the run of specimen.job leaves

From the bottom up; element 1 is the lowest. Void ratios are in hundred-millionths.

Compressibility curve. In a segment from point a to point b
rise = stress b - stress a, part = void ratio a - E, whole = void ratio a - void ratio b.
           stress a   void ratio a      stress b   void ratio b
segment         mPa                          mPa
      1   5,000,000    200,000,000   105,000,000    100,000,000

           void ratio                    rise x      part =  quotient x       whole + remainder    stress a +  quotient = effective stress
element             E   segment           mPa                     mPa                                   mPa         mPa                mPa
      1   200,000,000         1   100,000,000 x         0 =         0 x 100,000,000 +         0   5,000,000 +         0 =        5,000,000
      2   198,640,900         1   100,000,000 x 1,359,100 = 1,359,100 x 100,000,000 +         0   5,000,000 + 1,359,100 =        6,359,100

Conductivity curve. In a segment from point a to point b
rise = conductivity b - conductivity a, part = E - void ratio a, whole = void ratio b - void ratio a.
          conductivity a   void ratio a   conductivity b   void ratio b
segment             fm/s                            fm/s
      1          100,000    100,000,000          200,000    200,000,000

           void ratio                rise x        part = quotient x       whole +  remainder   conductivity a + quotient = conductivity
element             E   segment      fm/s                     fm/s                                        fm/s       fm/s           fm/s
      1   200,000,000         1   100,000 x 100,000,000 =  100,000 x 100,000,000 +          0          100,000 +  100,000 =      200,000
      2   198,640,900         1   100,000 x  98,640,900 =   98,640 x 100,000,000 + 90,000,000          100,000 +   98,640 =      198,640

Faces: a flow goes up between two elements and out at the bottom and the top; below 0 it goes the other way.
A closed face has no line: here the bottom.
                  difference x   t =     product =   flow x        R + remainder
           face          mPa     s         mPa s       nm   mPa s/nm       mPa s
between 1 and 2    1,359,100 x 100 = 135,910,000 =    922 x  147,319 +    81,882
            top    8,640,900 x 100 = 864,090,000 = 11,717 x   73,744 +    31,552

Water of the elements
             before + up from below - up to above =     after
element          nm              nm            nm          nm
      1   2,000,000 +             0 -         922 = 1,999,078
      2   1,986,409 +           922 -      11,717 = 1,975,614

Water of the layer
   before =     after + out through the top + out through the bottom
       nm          nm                    nm                       nm
3,986,409 = 3,974,692 +              11,717 +                      0
"""


def run(*arguments: str) -> Tuple[int, str, str]:
    """Exit status, output and messages of the script with the double."""
    out, messages = io.StringIO(), io.StringIO()
    with contextlib.redirect_stdout(out), contextlib.redirect_stderr(messages), \
            mock.patch.object(working, "written", stand_in.division):
        status = long_division.main(["", *arguments])
    return status, out.getvalue(), messages.getvalue()


def read(path: str) -> bytes:
    """The bytes of a file."""
    with open(path, "rb") as source:
        return source.read()


# ----------------------------------------------------------------------------------------------------------------
# Tables read back
# ----------------------------------------------------------------------------------------------------------------

def figures(line: str) -> List[int]:
    """The numbers of a line, in its order."""
    return [int(word.replace(",", "")) for word in re.findall(NUMBER, line)]


def rows_below(out: str, head: str) -> List[str]:
    """The lines below the first line of names of a form, and below its units, up to an empty one."""
    lines = out.split("\n")
    at = next(at for at, line in enumerate(lines) if re.search(head, line))
    return lines[at + 2:lines.index("", at)]


def face_rows(out: str) -> Dict[str, List[int]]:
    """The lines of the faces: difference, t, product, flow, R, remainder."""
    if "difference x" not in out:
        return {}
    rows = [re.fullmatch(" *(bottom|top|between [0-9]+ and [0-9]+)   (.*)", line) for line in
            rows_below(out, "difference x")]
    return {row.group(1): figures(row.group(2)) for row in rows}


def step_of(job: bytes, seconds: int) -> Tuple[rules.Record, rules.Record]:
    """The record that a job's run leaves, and the one after a step, by the reference."""
    refusal, record = rules.open_job(job)
    parts = rules.read_job(job)
    rules.run_call(record, parts.end, parts.budget)
    after = record.copy()
    assert refusal == rules.step_call(after, seconds) == 0
    return record, after


class Folders(unittest.TestCase):
    """A folder of its own for each test."""

    def setUp(self) -> None:
        folder = tempfile.TemporaryDirectory()
        self.addCleanup(folder.cleanup)
        self.folder = folder.name

    def file(self, data: bytes, name: str = "layer.job") -> str:
        """A file with some bytes."""
        with open(os.path.join(self.folder, name), "wb") as target:
            target.write(data)
        return os.path.join(self.folder, name)

    def tables(self, job: rules.Job, seconds: int) -> str:
        """The tables of a job and a step, which have to be printed."""
        status, out, messages = run(self.file(rules.job_bytes(job)), str(seconds))
        self.assertEqual((status, messages), (0, ""), out)
        return out


class Tables(Folders):
    """What is printed."""

    def assert_true_tables(self, job: rules.Job, seconds: int) -> str:
        """Every line holds, and has the numbers of the reference's own step."""
        out = self.tables(job, seconds)
        record, after = step_of(rules.job_bytes(job), seconds)
        layer = rules.Layer(record)
        pressures, halves = layer.read(record.load, record.water)
        resistances = rules.face_resistances(layer, halves)
        upward = rules.upward_flows(layer, pressures, resistances, seconds)
        self.assert_true_curves(out, record, layer)
        self.assert_true_faces(out, seconds, resistances, upward)
        waters = [figures(line)[1:] for line in rows_below(out, "up from below")]
        self.assertEqual(waters, [list(row) for row in zip(record.water_heights(), upward, upward[1:],
                                                           after.water_heights())])
        sums = figures(rows_below(out, "out through the top")[0])
        self.assertEqual(sums, [sum(record.water_heights()), sum(after.water_heights()),
                                after.top_outflow - record.top_outflow,
                                after.bottom_outflow - record.bottom_outflow])
        self.assertEqual(sums[0], sum(sums[1:]))
        return out

    def assert_true_faces(self, out: str, seconds: int, resistances: Sequence[Optional[int]],
                          upward: Sequence[int]) -> None:
        """A line for every inner or drained face, in their order."""
        names = ["bottom"] + ["between %d and %d" % (j, j + 1) for j in range(1, len(upward) - 1)] + ["top"]
        wanted = {name: (-flow if name == "bottom" else flow, r) for name, flow, r in zip(names, upward, resistances)
                  if r is not None}
        rows = face_rows(out)
        self.assertEqual({name: (row[3], row[4]) for name, row in rows.items()}, wanted)
        self.assertEqual(list(rows), list(wanted))
        for difference, t, product, flow, resistance, remainder in rows.values():
            self.assertEqual(t, seconds)
            self.assertEqual(difference * t, product)
            self.assertEqual(product, flow * resistance + remainder)
            self.assertLess(abs(remainder), resistance)
            self.assertGreaterEqual(remainder * difference, 0)

    def assert_true_curves(self, out: str, record: rules.Record, layer: rules.Layer) -> None:
        """A line for every element and curve, from a segment whose points are shown."""
        flipped = [(value, void) for void, value in record.second_points()]
        for curve, head, value_at, sign, points in (
                ("Compressibility", STRESS, layer.compressibility.effective_stress, -1, record.first_points()),
                ("Conductivity", CONDUCTIVITY, layer.permeability.conductivity, 1, flipped)):
            tables = out.partition(curve + " curve.")[2]
            shown = {row[0]: row[1:] for row in map(figures, rows_below(tables, SEGMENT))}
            used = set()
            for number, line in enumerate(rows_below(tables, head), 1):
                element, void, segment, rise, part, quotient, whole, left, start, again, value = figures(line)
                value_a, void_a, value_b, void_b = shown[segment]
                self.assertEqual([(value_a, void_a), (value_b, void_b)], points[segment - 1:segment + 1])
                self.assertEqual((element, void), (number, rules.void_ratio(record.solids[number - 1],
                                                                            record.water[number - 1])))
                self.assertEqual((rise, part, whole), (value_b - value_a, sign * (void - void_a),
                                                       sign * (void_b - void_a)))
                self.assertEqual(rise * part, quotient * whole + left)
                self.assertIn(left, range(whole))
                self.assertEqual((start + again, start, again), (value, value_a, quotient))
                self.assertEqual(value, value_at(void))
                used.add(segment)
            self.assertEqual((sorted(used), number), (list(shown), record.elements))

    def test_specimen(self) -> None:
        self.assertEqual(run(SPECIMEN, "100"), (0, SPECIMEN_TABLES, ""))
        self.assert_true_tables(specimen(), 100)

    def test_the_papers_second_case(self) -> None:
        out = self.assert_true_tables(specimen(end=0), 100)
        self.assertEqual(face_rows(out), {"between 1 and 2": [0, 100, 0, 0, 147_150, 0],
                                          "top": [10**7, 100, 10**9, 13_591, 73_575, 10**9 - 13_591 * 73_575]})

    def test_both_faces_drained(self) -> None:
        out = self.assert_true_tables(mud(), 10)
        self.assertEqual(list(face_rows(out)), ["bottom", "between 1 and 2", "between 2 and 3", "top"])
        self.assertIn("\nA closed face has no line; here none is closed.\n", out)

    def test_bottom_drained_alone(self) -> None:
        out = self.assert_true_tables(mud(top=0), 10)
        self.assertEqual(list(face_rows(out)), ["bottom", "between 1 and 2", "between 2 and 3"])
        self.assertIn("\nA closed face has no line: here the top.\n", out)

    def test_both_faces_closed(self) -> None:
        out = self.assert_true_tables(mud(top=0, bottom=0, bottom_level=0), 10)
        self.assertEqual(list(face_rows(out)), ["between 1 and 2", "between 2 and 3"])
        self.assertIn("\nA closed face has no line: here the bottom and the top.\n", out)
        self.assertEqual(figures(rows_below(out, "out through the top")[0])[2:], [0, 0])

    def test_one_element(self) -> None:
        one = [(1_000_000, 1_950_001)]
        for top, bottom, faces in ((1, 0, ["top"]), (0, 1, ["bottom"]), (1, 1, ["bottom", "top"])):
            job = specimen(elements=one, top=top, bottom=bottom, bottom_level=11_000_000 * bottom, end=0)
            self.assertEqual(list(face_rows(self.assert_true_tables(job, 50))), faces)

    def test_one_element_between_closed_faces(self) -> None:
        out = self.assert_true_tables(specimen(elements=[(1_000_000, 2_000_000)], top=0), 1_000_000)
        self.assertEqual(face_rows(out), {})
        self.assertIn("A closed face has no line: here the bottom and the top, and there is no face between elements."
                      "\n\nWater of the elements\n", out)
        self.assertEqual(figures(rows_below(out, "out through the top")[0]), [2_000_000, 2_000_000, 0, 0])

    def test_negative_remainder(self) -> None:
        rows = face_rows(self.assert_true_tables(mud(end=0), 3))
        self.assertEqual(rows["bottom"], [-11_804_394, 3, -35_413_182, -57, 613_125, -465_057])
        self.assertTrue(all(row[5] < 0 for row in rows.values()))
        self.assertIn(" -71 x   231,625 +    -42,487\n", self.tables(mud(end=0), 3))

    def test_flow_0_with_a_remainder(self) -> None:
        elements = [(1_000_000, 1_999_999), (1_000_000, 2_000_000)]
        rows = face_rows(self.assert_true_tables(specimen(elements=elements, end=0), 100))
        self.assertEqual(rows["between 1 and 2"], [-100, 100, -10_000, 0, 147_151, -10_000])
        rows = face_rows(self.assert_true_tables(specimen(elements=elements[::-1], end=0), 100))
        self.assertEqual(rows["between 1 and 2"], [100, 100, 10_000, 0, 147_151, 10_000])

    def test_exact_division(self) -> None:
        elements = [(1_000_000, 2_000_000 - 14_715), (1_000_000, 2_000_000)]
        flat = [(100_000_000, 200_000), (200_000_000, 200_000)]
        soft = [(5_000_000, 200_000_000), (6_000_000, 100_000_000)]
        job = specimen(elements=elements, curve1=soft, curve2=flat, end=0, table=[(0, 5_000_000 + 73_575)])
        rows = face_rows(self.assert_true_tables(job, 100))
        self.assertEqual(rows["top"], [73_575, 100, 7_357_500, 100, 73_575, 0])

    def test_a_point_that_two_segments_share(self) -> None:
        job = mud(elements=[(1_000_000, 1_800_000), (1_000_000, 1_500_000), (1_000_000, 3_000_000)], end=0)
        out = self.assert_true_tables(job, 1)
        for head, segments in ((STRESS, [1, 2, 1]), (CONDUCTIVITY, [2, 1, 2])):
            self.assertEqual([figures(line)[2] for line in rows_below(out, head)], segments)
        parts = [figures(line)[3:8] for line in rows_below(out, STRESS)]
        self.assertEqual(parts[0], [19_000_000, 120_000_000, 19_000_000, 120_000_000, 0])
        self.assertEqual(parts[2], [19_000_000, 0, 0, 120_000_000, 0])

    def test_128_elements(self) -> None:
        out = self.assert_true_tables(widest(budget=3), 1)
        self.assertEqual((len(face_rows(out)), len(rows_below(out, STRESS))), (129, 128))
        self.assertEqual(list(face_rows(out))[::128], ["bottom", "top"])
        self.assertLess(max(map(len, out.split("\n"))), 160)

    def test_lines_are_aligned(self) -> None:
        out = self.tables(widest(budget=3), 1)
        for head in (STRESS, CONDUCTIVITY, "difference x", "up from below"):
            lines = rows_below(out, head)
            for sign in " x ", " = ", " + ":
                self.assertEqual(len({tuple(found.start() for found in re.finditer(re.escape(sign), line))
                                      for line in lines}), 1, (head, sign))
            self.assertEqual(len(set(map(len, lines))), 1)
        self.assertFalse([line for line in out.split("\n") if line != line.rstrip()])

    def test_other_starts_and_stops(self) -> None:
        self.assert_true_tables(resting(mud(bottom_level=10_000_000)), 7)
        steady = [(1_000_000, 1_900_073), (1_000_000, 1_900_024)]
        self.assert_true_tables(specimen(start=2, bottom=1, bottom_level=11_000_000, elements=steady), 100)
        self.assert_true_tables(specimen(end=3_000_000_000, budget=0), 100)
        off_curve = specimen(table=[(0, 15_000_000), (300, 15_000_000), (301, 300_000_000)], end=9_999, budget=99)
        self.assert_true_tables(off_curve, 1)

    def test_drawn_jobs(self) -> None:
        seen = 0
        for index in range(DRAWN):
            chance = Chance(91_000, index)
            job = make_job(chance)
            seconds = chance.scaled(1, 1_000_000)
            status, out, messages = run(self.file(rules.job_bytes(job)), str(seconds))
            self.assertIn(status, (0, 1), messages)
            if status == 0:
                self.assert_true_tables(job, seconds)
                seen += 1
        self.assertGreater(seen, DRAWN // 4)

    def test_heading(self) -> None:
        out = self.tables(specimen(), 1)
        self.assertTrue(out.startswith("Long division of a step of 1 s on the layer that the run of layer.job leaves\n"
                                       "\nFrom the bottom up; element 1 is the lowest."))
        self.assertEqual(out.count("goes up between two elements and out at the bottom and the top"), 1)

    def test_examples(self) -> None:
        text = read(os.path.join(EXAMPLES, "README.md")).decode()
        block = next(block for block in text.split("```\n") if block.startswith("Long division"))
        self.assertIn("    ./kufandra division examples/specimen.job 100", text)
        self.assertEqual(block, run(SPECIMEN, "100")[1])


# ----------------------------------------------------------------------------------------------------------------
# Lines that do not hold
# ----------------------------------------------------------------------------------------------------------------

class Programs(Folders):
    """What the program is handed, and programs that answer wrongly or not at all."""

    def asked(self, answer: bytes, *arguments: str) -> Tuple[int, str, str, Sequence[bytes]]:
        """Exit status, output, messages and what was asked of a program with one answer."""
        seen: List[bytes] = []
        with mock.patch.object(stand_in, "division", lambda _, data: seen.append(data) or answer):
            return (*run(*arguments), seen)

    def changed(self, job: rules.Job, seconds: int, *changes: Tuple[str, int, int, int]) -> Tuple[int, str, str]:
        """What is said where words of the answer have more added: of a face or an element, its number from 0, its
        word's number, and what is added."""
        data = rules.job_bytes(job)
        answer = stand_in.division("", working.asked(data, seconds))
        words = list(struct.unpack("<%dq" % (len(answer) // 8), answer))
        for kind, number, word, more in changes:
            words[2 + (4 * number if kind == "face" else 4 * words[0] + 9 * number) + word] += more
        made = struct.pack("<%dq" % len(words), *words)
        return self.asked(made, self.file(data), str(seconds))[:3]

    def assert_disagreement(self, wrong: str, *changes: Tuple[str, int, int, int]) -> None:
        """A changed answer on the specimen is told on one line, and nothing is printed."""
        self.assertEqual(self.changed(specimen(), 100, *changes), (2, "", DISAGREE + wrong + "\n"))

    def test_every_word_matters(self) -> None:
        job, seconds = mud(), 10
        self.assertEqual(self.changed(job, seconds)[0], 0)
        for kind, count, words in (("face", 4, 4), ("element", 3, 9)):
            for number in range(count):
                for word in range(words):
                    for more in (1, -1):
                        status, out, messages = self.changed(job, seconds, (kind, number, word, more))
                        self.assertEqual((status, out, messages[:len(DISAGREE)]), (2, "", DISAGREE))
                        self.assertEqual(messages.count("\n"), 1)

    def test_flow_that_does_not_divide(self) -> None:
        self.assert_disagreement("between 1 and 2: 1,359,100 x 100 is not 923 x 147,319 + 81,882", ("face", 0, 2, 1))
        self.assert_disagreement("top: 8,640,900 x 100 is not 11,717 x 73,744 + 31,551", ("face", 1, 3, -1))

    def test_remainder_out_of_its_range(self) -> None:
        wrong = "top: the remainder %s is not below 73,744 in size, or not of the sign of 8,640,900"
        self.assert_disagreement(wrong % "105,296", ("face", 1, 2, -1), ("face", 1, 3, 73_744))
        self.assert_disagreement(wrong % "-42,192", ("face", 1, 2, 1), ("face", 1, 3, -73_744))

    def test_floor_in_place_of_a_cut(self) -> None:
        for face, resistance in ((0, 613_125), (3, 231_625)):
            status, out, messages = self.changed(mud(end=0), 3, ("face", face, 2, -1), ("face", face, 3, resistance))
            self.assertEqual((status, out), (2, ""))
            self.assertIn("not of the sign of", messages)

    def test_curve_that_does_not_divide(self) -> None:
        self.assert_disagreement("compressibility curve, element 2: 100,000,000 x 1,359,100 is not "
                                 "1,359,101 x 100,000,000 + 0", ("element", 1, 4, 1))
        self.assert_disagreement("conductivity curve, element 2: 100,000 x 98,640,900 is not "
                                 "98,640 x 100,000,000 + 90,000,001", ("element", 1, 8, 1))

    def test_curve_with_a_remainder_out_of_its_range(self) -> None:
        self.assert_disagreement("conductivity curve, element 2: the remainder 190,000,000 is not below 100,000,000",
                                 ("element", 1, 7, -1), ("element", 1, 8, 100_000_000))

    def test_segments_that_are_not_the_first(self) -> None:
        shared = mud(elements=[(1_000_000, 1_800_000), (1_000_000, 1_500_000), (1_000_000, 3_000_000)], end=0)
        self.assertEqual(self.changed(shared, 1, ("element", 0, 3, 1)), (2, "", DISAGREE + (
            "compressibility curve, element 1: the void ratio 180,000,000 is not in segment 2, from 180,000,000 to "
            "90,000,000\n")))
        self.assertEqual(self.changed(shared, 1, ("element", 1, 6, 1)), (2, "", DISAGREE + (
            "conductivity curve, element 2: the void ratio 150,000,000 is not in segment 2, from 150,000,000 to "
            "320,000,000\n")))
        for more in (-1, 1, 2**62):
            self.assert_disagreement("compressibility curve, element 1: there is no segment %s" % format(1 + more, ","),
                                     ("element", 0, 3, more))

    def test_water_that_does_not_balance(self) -> None:
        self.assert_disagreement("water of the layer: 3,986,409 is not 3,974,693 + 11,717 + 0", ("element", 0, 1, 1))
        self.assert_disagreement("water of element 1: 2,000,000 + 0 - 922 is not 1,999,079", ("element", 0, 1, 1),
                                 ("element", 1, 1, -1))

    def test_counts_that_are_not_the_jobs(self) -> None:
        wrong = "job: it has 2 elements and 2 inner or drained faces"
        for faces, elements in ((0, 0), (1, 2), (2, 1), (3, 2), (2, 3)):
            answer = struct.pack("<2Q", faces, elements) + bytes(32 * faces + 72 * elements)
            self.assertEqual(self.asked(answer, SPECIMEN, "100")[:3], (2, "", DISAGREE + wrong + "\n"))

    def test_accepted_bytes_that_are_no_job(self) -> None:
        answer = stand_in.division("", working.asked(read(SPECIMEN), 100))
        for data, number in ((b"", 1), (read(SPECIMEN)[:-1], 4)):
            self.assertEqual(self.asked(answer, self.file(data), "100")[:3],
                             (2, "", "%srefused %d: %s\n" % (DISAGREE, number, keys.REFUSALS[number])))

    def test_no_answer(self) -> None:
        sound = stand_in.division("", working.asked(read(SPECIMEN), 100))
        for answer in (b"", b"refused\n", b"refused 4", bytes(15), bytes(17), sound[:-1], sound + b"\0", sound[:-8],
                       struct.pack("<2Q", 2**64 - 1, 2**64 - 1), b"Segmentation fault\n"):
            self.assertEqual(self.asked(answer, SPECIMEN, "100")[:3], (
                2, "", "division: the program wrote neither a long division nor a refusal (%d bytes)\n" % len(answer)))

    def test_what_the_program_reads(self) -> None:
        for data, seconds in ((b"any bytes", 7), (b"", 2**64 - 1), (b"L" * 8_192, 0), (b"L" * 10**5, 1)):
            *_, seen = self.asked(b"refused 4\n", self.file(data), str(seconds))
            handed = data[:8_192]
            self.assertEqual(seen, [struct.pack("<Q", len(handed)) + handed + struct.pack("<Q", seconds)])

    # ------------------------------------------------------------------------------------------------------------
    # Refusals and misuse
    # ------------------------------------------------------------------------------------------------------------

    def assert_refused(self, job: bytes, seconds: int, number: int) -> None:
        """A refusal is told in words with its number."""
        self.assertEqual(run(self.file(job), str(seconds)),
                         (1, "layer.job: refused %d: %s\n" % (number, keys.REFUSALS[number]), ""))

    def test_refused_jobs(self) -> None:
        dry = specimen(elements=[(1_000_000, 999_999)] * 2)
        for job, number in ((b"", 1), (rules.job_bytes(dry), 9), (rules.job_bytes(specimen(start=2)), 20)):
            for seconds in (0, 100, 2**64 - 1):
                self.assert_refused(job, seconds, number)

    def test_refused_steps(self) -> None:
        job = rules.job_bytes(specimen(end=0))
        for seconds in (0, 1_000_001, 2**32 + 1, 2**63, 2**64 - 1):
            self.assert_refused(job, seconds, 13)
        for seconds in (368, 1_000_000):
            self.assert_refused(job, seconds, 14)
        self.assertEqual(run(self.file(job), "367")[0], 0)
        self.assert_refused(rules.job_bytes(specimen(end=0, table=[(0, 300_000_000)])), 367, 15)

    def test_a_step_past_the_clocks_limit(self) -> None:
        closed = specimen(elements=[(1_000_000, 2_000_000)], top=0, end=2_999_999_999, budget=3_000)
        self.assert_refused(rules.job_bytes(closed), 2, 13)
        self.assertEqual(run(self.file(rules.job_bytes(closed)), "1")[0], 0)

    def test_every_refusal_has_words(self) -> None:
        for number in (*range(1, 10), 13, 14, 15, 20):
            self.assertEqual(self.asked(b"refused %d\n" % number, SPECIMEN, "5")[:3],
                             (1, "specimen.job: refused %d: %s\n" % (number, keys.REFUSALS[number]), ""))
        self.assertEqual(self.asked(b"refused 99\n", SPECIMEN, "5")[1],
                         "specimen.job: refused 99: a cause of another number\n")
        self.assertEqual(len(set(keys.REFUSALS.values())), len(keys.REFUSALS))

    def test_bad_seconds(self) -> None:
        for text in ("", "-1", "+1", "1.0", "1.5", "1e3", "1,000", "1_000", " 5", "5s", "5 s", "0x10", "ten",
                     "18446744073709551616", "9" * 50, "\u0661", "\uff11"):
            with mock.patch.object(stand_in, "division", lambda *_: self.fail("asked")):
                status, out, messages = run(SPECIMEN, text)
            self.assertEqual((status, out), (2, ""))
            self.assertEqual(messages, "division: %r is no number of seconds: it is a whole number below 2^64, in "
                                       "digits alone\n" % text)

    def test_seconds_as_they_are_typed(self) -> None:
        for text, number in (("1", 1), ("007", 7), ("00", 0), ("18446744073709551615", 2**64 - 1),
                             ("0" * 5_000 + "5", 5)):
            self.assertEqual(field_data.read_number(text, "step"), number)
        self.assertEqual(run(SPECIMEN, "000100"), (0, SPECIMEN_TABLES, ""))
        with self.assertRaisesRegex(field_data.BadReading, "^'-1' is no element: it is a whole number below 2\\^64, in "
                                                           "digits alone$"):
            field_data.read_element("-1")

    def test_files_that_are_not_there(self) -> None:
        none = os.path.join(self.folder, "none")
        for path, wrong in ((none, "No such file or directory"), (self.folder, "Is a directory")):
            self.assertEqual(run(path, "5"), (2, "", "division: %s: %s\n" % (path, wrong)))

    def script(self, *words: str, **channels: object) -> subprocess.CompletedProcess:
        """The script started with words."""
        return subprocess.run([sys.executable, os.path.join(HERE, "long_division.py"), *words], check=False, text=True,
                              stderr=subprocess.PIPE, **channels)

    def program(self) -> str:
        """The double as a program."""
        double = os.path.join(HERE, "stand_in.py")
        path = self.file(("#!/bin/sh\nexec '%s' '%s' division\n" % (sys.executable, double)).encode(), "program")
        os.chmod(path, 0o755)
        return path

    def test_the_script_itself(self) -> None:
        done = self.script(self.program(), SPECIMEN, "100", stdout=subprocess.PIPE)
        self.assertEqual((done.returncode, done.stdout, done.stderr), (0, SPECIMEN_TABLES, ""))
        none = os.path.join(self.folder, "none")
        done = self.script(none, SPECIMEN, "100", stdout=subprocess.PIPE)
        self.assertEqual((done.returncode, done.stdout, done.stderr),
                         (2, "", "division: %s: No such file or directory\n" % none))

    def test_output_that_cannot_be_written(self) -> None:
        program = self.program()
        with open("/dev/full", "wb") as full:
            done = self.script(program, SPECIMEN, "100", stdout=full)
        self.assertEqual((done.returncode, done.stderr), (2, "division: standard output: No space left on device\n"))
        end, start = os.pipe()
        os.close(end)
        done = self.script(program, SPECIMEN, "100", stdout=start)
        os.close(start)
        self.assertEqual((done.returncode, done.stderr), (0, ""))

    def test_usage(self) -> None:
        for words in ((), (SPECIMEN,), (SPECIMEN, "1", "2")):
            self.assertEqual(run(*words), (2, "", "usage: long_division.py PROGRAM JOBFILE SECONDS\n"))

    def test_usage_of_the_verb(self) -> None:
        usage = "usage: ./kufandra division JOB T\n"
        for words, told in (((), usage), ((SPECIMEN,), usage), ((SPECIMEN, "1", "2"), usage),
                            (("none", "1"), "kufandra: there is no file none\n")):
            done = subprocess.run([os.path.join(ROOT, "kufandra"), "division", *words], capture_output=True, text=True,
                                  cwd=self.folder, check=False)
            self.assertEqual((done.returncode, done.stdout, done.stderr), (2, "", told))


if __name__ == "__main__":
    unittest.main(verbosity=0)
