#!/usr/bin/env python3
"""Tests of key_table.py and plot.py with answers of a double that asks the reference: `python3 test_views.py`. Quiet
when all is well; exit status 1 when a test fails."""

from __future__ import annotations

import contextlib
import io
import os
import struct
import sys
import tempfile
import unittest
import xml.etree.ElementTree
from typing import Iterator, List, Sequence, Tuple
from unittest import mock

HERE = os.path.dirname(os.path.abspath(__file__))
REFERENCE = os.path.join(os.path.dirname(HERE), "reference")
SPECIMEN = os.path.join(os.path.dirname(HERE), "examples", "specimen.job")
sys.path[:0] = [HERE, REFERENCE]

import key_table  # noqa: E402
import keys  # noqa: E402
import plot  # noqa: E402
import rules  # noqa: E402
import stand_in  # noqa: E402

SPECIMEN_TABLE = """\
Key of specimen.job

stop            0: the clock is at the end
elements        2
clock           100 s = 0 years, 0 days, 00:01:40 (years of 365 days)
steps           1
load            15.000000 kPa
top outflow     0.013591 mm
bottom outflow  0.000000 mm
settlement      0.013591 mm

From the top down; element 1 is the lowest.
             water   void ratio   effective stress   total stress   pore pressure
element         mm            -                kPa            kPa             kPa
      2   1.986409   1.98640900           6.359100      15.054021        8.694921
      1   2.000000   2.00000000           5.000000      15.083385       10.083385
"""


def reference_answer(_program: str, job: bytes) -> object:
    """What the program writes for a job, from the double."""
    return keys.read_answer(stand_in.key(job))


def written_by(view: object, arguments: Sequence[str]) -> Tuple[int, str, str]:
    """Exit status, output and messages of a view that asks the reference."""
    out, messages = io.StringIO(), io.StringIO()
    with contextlib.redirect_stdout(out), contextlib.redirect_stderr(messages), \
            mock.patch.object(view, "ask", reference_answer):
        status = view.main(arguments)
    return status, out.getvalue(), messages.getvalue()


class Views(unittest.TestCase):
    """A folder of its own for each test."""

    def setUp(self) -> None:
        folder = tempfile.TemporaryDirectory()
        self.addCleanup(folder.cleanup)
        self.folder = folder.name

    def program(self, line: str) -> str:
        """A program that runs a line of the shell."""
        path = os.path.join(self.folder, "program")
        with open(path, "w", encoding="ascii") as target:
            target.write("#!/bin/sh\n%s\n" % line)
        os.chmod(path, 0o755)
        return path

    def job(self, data: bytes) -> str:
        """A job file."""
        path = os.path.join(self.folder, "layer.job")
        with open(path, "wb") as target:
            target.write(data)
        return path


def specimen_with(**changes: object) -> bytes:
    """The specimen with changes."""
    with open(SPECIMEN, "rb") as source:
        job = rules.read_job(source.read())
    for name, value in changes.items():
        setattr(job, name, value)
    return rules.job_bytes(job)


class KeyTable(Views):
    """key_table.py."""

    def test_specimen_from_a_program(self) -> None:
        program = self.program("exec '%s' '%s' key" % (sys.executable, os.path.join(REFERENCE, "reference.py")))
        out = io.StringIO()
        with contextlib.redirect_stdout(out):
            self.assertEqual(key_table.main([program, SPECIMEN]), 0)
        self.assertEqual(out.getvalue(), SPECIMEN_TABLE)

    def test_refusals(self) -> None:
        seen: List[str] = []
        for number in (*range(1, 11), 20):
            program = self.program("cat >/dev/null; echo refused %d" % number)
            out = io.StringIO()
            with contextlib.redirect_stdout(out):
                self.assertEqual(key_table.main([program, SPECIMEN]), 1)
            self.assertEqual(out.getvalue(), "specimen.job: refused %d: %s\n" % (number, keys.REFUSALS[number]))
            seen.append(out.getvalue().partition(": refused ")[2].partition(": ")[2])
        self.assertEqual(len(set(seen)), 11)

    def test_refusals_of_real_jobs(self) -> None:
        wrong = [b"", specimen_with(version=2), specimen_with(top=2), specimen_with() + b"\0",
                 specimen_with(budget=2**64 - 1), specimen_with(curve1=[(1, 1), (2, 2)]),
                 specimen_with(curve2=[(1, 1), (2, 2)]), specimen_with(table=[(1, 0)]),
                 specimen_with(elements=[(1_000_000, 0)])]
        numbered = [*enumerate(wrong, 1), (9, specimen_with(start=1, bottom=1, elements=[(1_000_000, 0)])),
                    (20, specimen_with(start=2))]
        for number, job in numbered:
            status, out, _ = written_by(key_table, ["", self.job(job)])
            self.assertEqual((status, out), (1, "layer.job: refused %d: %s\n" % (number, keys.REFUSALS[number])))

    def test_stops(self) -> None:
        jobs = {1: specimen_with(end=1_000), 2: specimen_with(elements=[(100_000, 200_000)] * 2, curve2=[
            (100_000_000, 1_000_000_000), (200_000_000, 1_000_000_000)]),
                3: specimen_with(table=[(0, 300_000_000)], end=367)}
        for stop, job in jobs.items():
            status, out, _ = written_by(key_table, ["", self.job(job)])
            self.assertEqual(status, 0)
            self.assertIn("stop            %d: %s\n" % (stop, keys.STOPS[stop]), out)

    def test_no_key(self) -> None:
        with contextlib.redirect_stderr(io.StringIO()):
            self.assertEqual(key_table.main([]), 2)
            self.assertEqual(key_table.main(["a", "b", "c"]), 2)
            self.assertEqual(key_table.main([self.program("exit 0"), SPECIMEN]), 2)
            self.assertEqual(key_table.main([os.path.join(self.folder, "none"), SPECIMEN]), 2)
            self.assertEqual(key_table.main([self.program("exit 0"), os.path.join(self.folder, "none")]), 2)

    def test_the_decimal_point_alone_moves(self) -> None:
        self.assertEqual([keys.shifted(number, 6) for number in (0, 1, -1, -490, 1_234_567_890, -(2**63))],
                         ["0.000000", "0.000001", "-0.000001", "-0.000490", "1,234.567890",
                          "-9,223,372,036,854.775808"])
        self.assertEqual(keys.span(3_000_000_000), "95 years, 47 days, 05:20:00")
        self.assertEqual(keys.span(366 * 86_400), "1 year, 1 day, 00:00:00")


class Plot(Views):
    """plot.py."""

    def drawn(self, job: bytes) -> xml.etree.ElementTree.Element:
        """The drawing of a job, at few ends."""
        out = os.path.join(self.folder, "out.svg")
        with mock.patch.object(plot, "ENDS", 8):
            status, _, messages = written_by(plot, ["", self.job(job), out])
        self.assertEqual(status, 0, messages)
        return xml.etree.ElementTree.parse(out).getroot()

    def curves(self, root: xml.etree.ElementTree.Element, name: str) -> Iterator[int]:
        """The numbers of points of the lines of a name."""
        for mark in root.iter("{http://www.w3.org/2000/svg}polyline"):
            if mark.get("class") == name:
                yield len(mark.get("points", "").split())

    def test_a_point_for_every_end(self) -> None:
        root = self.drawn(specimen_with(end=6_400, budget=1_000))
        for name in ("settlement", "top-outflow", "bottom-outflow", "load"):
            self.assertEqual(list(self.curves(root, name)), [9])
        self.assertEqual(list(self.curves(root, "profile")), [2] * plot.PROFILES)

    def test_ends(self) -> None:
        job = plot.read_job(specimen_with(end=6_400, table=[(0, 0), (150, 5), (6_400, 7), (9_000, 9)]))
        self.assertEqual(job, plot.Job(1, 0, 0, 6_400, [1_000_000] * 2, [0, 150, 6_400, 9_000]))
        with mock.patch.object(plot, "ENDS", 8):
            self.assertEqual(plot.chosen_ends(job), [0, 100, 150, 400, 900, 1_600, 2_500, 3_600, 4_900, 6_400])
        self.assertEqual(struct.unpack_from("<Q", plot.with_end(specimen_with(), 7), 32)[0], 7)

    def test_heights(self) -> None:
        key = reference_answer("", specimen_with())
        self.assertEqual(plot.node_heights([1_000_000] * 2, key), [1_500_000, 4_493_204.5])
        self.assertEqual(plot.layer_height([1_000_000] * 2, key), 5_986_409)

    def test_layers_at_the_edge(self) -> None:
        still = specimen_with(end=0, budget=0)
        one = specimen_with(elements=[(1_000_000, 2_000_000)], bottom=1, bottom_level=200_000_000_000, end=3)
        long = specimen_with(elements=[(100_000_000, 200_000_000)] * 128, end=3_000_000_000, budget=3)
        for job, ends in ((still, 1), (one, 4), (long, 9)):
            self.assertEqual(list(self.curves(self.drawn(job), "settlement")), [ends])

    def test_a_steady_layer_stands_still_until_it_is_loaded(self) -> None:
        job = specimen_with(start=2, bottom=1, bottom_level=11_000_000, end=6_400, budget=1_000,
                            elements=[(1_000_000, 1_900_073), (1_000_000, 1_900_024)],
                            table=[(0, 15_000_000), (1_000, 15_000_000), (1_001, 40_000_000)])
        root = self.drawn(job)
        words = [mark.text for mark in root.iter("{http://www.w3.org/2000/svg}text")]
        self.assertTrue(any("bottom drained, start steady;" in line for line in words), words)
        points = next(mark.get("points", "") for mark in root.iter("{http://www.w3.org/2000/svg}polyline")
                      if mark.get("class") == "settlement")
        heights = [float(point.partition(",")[2]) for point in points.split()]
        with mock.patch.object(plot, "ENDS", 8):
            still = sum(end <= 1_000 for end in plot.chosen_ends(plot.read_job(job)))
        self.assertEqual((still, set(heights[:still])), (5, {heights[0]}))
        self.assertGreater(heights[still + 1], heights[0] + 10)

    def test_refused(self) -> None:
        for job in (b"", specimen_with()[:47], specimen_with(end=2**40), specimen_with(budget=2**40)):
            status, _, messages = written_by(plot, ["", self.job(job), os.path.join(self.folder, "out.svg")])
            self.assertEqual(status, 1)
            self.assertIn("refused", messages)
            self.assertFalse(os.path.exists(os.path.join(self.folder, "out.svg")))


if __name__ == "__main__":
    unittest.main(verbosity=0)
