#!/usr/bin/env python3
"""Tests of the reference: `python3 test_reference.py`. Quiet when all is well; exit status 1 when a test fails."""

from __future__ import annotations

import io
import math
import os
import struct
import subprocess
import sys
import unittest
from dataclasses import replace
from fractions import Fraction
from typing import Callable, Dict, Iterator, List, Optional, Tuple

HERE = os.path.dirname(os.path.abspath(__file__))
sys.path.insert(0, HERE)

import damage  # noqa: E402
import division  # noqa: E402
import lists  # noqa: E402
import makers  # noqa: E402
import piezometer  # noqa: E402
import rules  # noqa: E402
import steady  # noqa: E402
import steady_jobs  # noqa: E402
import steady_lists  # noqa: E402
from chance import Chance  # noqa: E402
from piezometer import COLUMN, PRESSURE, Reading  # noqa: E402

SEED = 1
PROGRAM = os.path.join(HERE, "reference.py")


def specimen(**changes) -> rules.Job:
    """The specification's specimen, with changes."""
    job = rules.Job(top=1, bottom=0, start=0, gravity=1_000, top_level=10_000_000, bottom_level=0, end=100, budget=1,
                    elements=[(1_000_000, 2_000_000)] * 2,
                    curve1=[(5_000_000, 200_000_000), (105_000_000, 100_000_000)],
                    curve2=[(100_000_000, 100_000), (200_000_000, 200_000)],
                    table=[(0, 15_000_000)])
    for name, value in changes.items():
        setattr(job, name, value)
    return job


def opened(job: rules.Job) -> rules.Record:
    """The record of a job that has to be accepted."""
    refusal, record = rules.open_job(rules.job_bytes(job))
    assert refusal == 0, refusal
    return record


def equilibrium(load: int) -> rules.Job:
    """The specimen in start 1 under a load."""
    return specimen(start=1, elements=[(1_000_000, 0)] * 2, table=[(0, load)])


class Specimen(unittest.TestCase):
    """The nine cases and the result of the second program."""

    def test_case_1_resistance_and_excess_pressure(self) -> None:
        record = opened(specimen())
        pressures, halves = rules.Layer(record).read(record.load, record.water)
        self.assertEqual((pressures, halves), ([10_000_000] * 2, [73_575] * 2))

    def test_cases_2_and_3_two_steps(self) -> None:
        record = opened(specimen())
        self.assertEqual(rules.step_call(record, 100), 0)
        self.assertEqual(record.water_heights(), [2_000_000, 1_986_409])
        self.assertEqual((record.top_outflow, record.bottom_outflow), (13_591, 0))
        self.assertEqual(rules.element_rows(record)[1][2], 6_359_100)
        self.assertEqual(rules.step_call(record, 100), 0)
        self.assertEqual(record.water_heights(), [1_999_078, 1_975_614])
        self.assertEqual((record.top_outflow, record.clock), (25_308, 200))

    def test_case_4_longest_step(self) -> None:
        self.assertEqual(rules.step_call(opened(specimen()), 367), 0)
        self.assertEqual(rules.step_call(opened(specimen()), 368), 14)

    def test_case_5_off_the_curve(self) -> None:
        record = opened(specimen())
        self.assertEqual(rules.load_call(record, 300_000_000), 0)
        self.assertEqual(rules.step_call(record, 367), 15)

    def test_case_6_start_1(self) -> None:
        self.assertEqual(opened(equilibrium(15_000_000)).water_heights(), [1_900_000] * 2)

    def test_case_7_start_1_at_the_ends(self) -> None:
        self.assertEqual(opened(equilibrium(105_000_000)).water_heights(), [1_000_000] * 2)
        for load in (105_000_001, 4_999_999):
            self.assertEqual(rules.open_job(rules.job_bytes(equilibrium(load)))[0], 9)

    def test_case_8_buoyant_stress(self) -> None:
        self.assertEqual(rules.buoyant_stresses([1_000_000] * 2, 2_610), [23_691, 7_897])

    def test_case_9_head(self) -> None:
        self.assertEqual((rules.head_pressure(1_000_000), rules.head_pressure(-50_000)), (9_810, -490))

    def test_second_program(self) -> None:
        job = rules.job_bytes(specimen())
        self.assertEqual(len(job), 160)
        numbers = [100, 1, 15_000_000, 13_591, 0, 13_591,
                   2_000_000, 200_000_000, 5_000_000, 15_083_385, 10_083_385,
                   1_986_409, 198_640_900, 6_359_100, 15_054_021, 8_694_921]
        expected = b"LSR" + bytes([1, 0, 0, 2, 0]) + struct.pack("<16Q", *numbers)
        self.assertEqual(len(expected), 136)
        self.assertEqual(rules.key(job), (0, expected))
        self.assertEqual(run_program(["key"], job), (0, expected))


def run_program(arguments: List[str], data: bytes = b"") -> Tuple[int, bytes]:
    """Exit status and standard output of the program."""
    done = subprocess.run([sys.executable, PROGRAM] + arguments, input=data, stdout=subprocess.PIPE,
                          stderr=subprocess.DEVNULL, check=False)
    return done.returncode, done.stdout


class Program(unittest.TestCase):
    """The command line."""

    def test_key_refuses(self) -> None:
        self.assertEqual(run_program(["key"]), (0, b"refused 1\n"))
        self.assertEqual(run_program(["key"], rules.job_bytes(specimen()) + bytes(20_000)), (0, b"refused 4\n"))

    def test_help(self) -> None:
        for arguments in (["--help"], ["calls", "--help"]):
            status, text = run_program(arguments)
            self.assertEqual(status, 0)
            self.assertIn(b"starting_water", text)

    def test_calls(self) -> None:
        record = opened(specimen())
        record.water[3] = 7
        script = "\n".join(
            ["job", "load 1", "", "job " + rules.job_bytes(specimen()).hex(), "step 100", "step 369", "load 2000000001",
             "run 200 5"] + lists.record_lines(record) + ["run 100 1", "run 99 1"]) + "\n"
        lines = ["opened 1", "load 11", "state 0 0 0 0 0",
                 "opened 0",
                 "step 0", "state 15000000 100 13591 0 4000000 2000000 1986409",
                 "step 14", "state 15000000 100 13591 0 4000000 2000000 1986409",
                 "load 12", "state 15000000 100 13591 0 4000000 2000000 1986409",
                 "run 0 0 1", "state 15000000 200 25308 0 4000000 1999078 1975614",
                 "record",
                 "run 0 0 1", "state 15000000 100 13591 0 4000000 2000000 1986409 0 7",
                 "run 16", "state 15000000 100 13591 0 4000000 2000000 1986409 0 7"]
        self.assertEqual(run_program(["calls"], script.encode()), (0, ("\n".join(lines) + "\n").encode()))

    def test_division_statements(self) -> None:
        script = "\n".join(["job", "division 1", "", "job " + rules.job_bytes(specimen()).hex(), "division 100",
                            "step 100", "division 100", "division 368", "division 369",
                            "division 18446744073709551615", "load 0", "division 367"]) + "\n"
        states = ["state 15000000 0 0 0 4000000 2000000 2000000",
                  "state 15000000 100 13591 0 4000000 2000000 1986409",
                  "state 0 100 13591 0 4000000 2000000 1986409"]
        lines = ["opened 1", "division 11", "state 0 0 0 0 0",
                 "opened 0",
                 "division 0 2 0 0 13591 42175", states[0],
                 "step 0", states[1],
                 "division 0 2 922 81882 11717 31552", states[1],
                 "division 0 2 3395 795 43120 9920", states[1],
                 "division 14", states[1],
                 "division 13", states[1],
                 "load 0", states[2],
                 "division 15", states[2]]
        self.assertEqual(run_program(["calls"], script.encode()), (0, ("\n".join(lines) + "\n").encode()))

    def test_calls_break_the_format(self) -> None:
        for script in ("record\ndivision\n", "record\ndivision -1\n", "record\ndivision 1 2\n", "division 1\n",
                       "load 1\n", "job 0\n", "job 00 00\n", "record\nload -1\n", "record\nload  1\n", "record\nstep\n",
                       "record\nload 18446744073709551616\n", "record\nstep 1\nclock 5\n", "record\ncurve1 1 2\n"):
            with self.assertRaises(lists.ScriptError):
                list(lists.answer_script(io.StringIO(script), "script"))

    def test_record_lines_read_back(self) -> None:
        for text in makers.make_inputs("records", SEED, 30):
            script = lists.Script()
            lines = text.decode().splitlines()
            fields = [line for line in lines if line.split(" ")[0] not in lists.CALLS]
            for line in fields:
                script.answer(line)
            self.assertEqual(lists.record_lines(script.record), fields)

    def test_made_records_fit_64_bits(self) -> None:
        signed = ("top", "bottom", "top_outflow", "bottom_outflow")
        for text in makers.make_inputs("records", SEED, 100):
            for line in text.decode().splitlines():
                name, *words = line.split(" ")
                least, most = (0, 2**64 - 1) if name in lists.CALLS else (-2**63 if name in signed else 0, 2**63 - 1)
                for word in words:
                    if word not in ("closed", "drained"):
                        self.assertTrue(least <= int(word) <= most, line)

    def test_make_is_the_same_each_time(self) -> None:
        for kind in ("jobs", "lists", "records"):
            self.assertEqual(list(makers.make_inputs(kind, SEED, 10)), list(makers.make_inputs(kind, SEED, 20))[:10])


def first_job_pair(job: rules.Job, pair: rules.Pair, name: str) -> None:
    """Replace the first pair of one of a job's lists."""
    setattr(job, name, [pair] + getattr(job, name)[1:])


class Refusals(unittest.TestCase):
    """Causes, and the order in which they are tested."""

    CHANGES: Dict[int, List[Callable[[rules.Job], None]]] = {
        1: [lambda job: setattr(job, "mark", b"LSR"), lambda job: setattr(job, "mark", b"lSC")],
        2: [lambda job: setattr(job, "version", 0), lambda job: setattr(job, "version", 257)],
        3: [lambda job: setattr(job, "top", 2), lambda job: setattr(job, "bottom", 255),
            lambda job: setattr(job, "start", 3), lambda job: setattr(job, "gravity", 999),
            lambda job: setattr(job, "gravity", 5_001), lambda job: setattr(job, "spare", b"\0\1"),
            lambda job: setattr(job, "elements", []), lambda job: setattr(job, "elements", job.elements * 65),
            lambda job: setattr(job, "curve1", job.curve1[:1]), lambda job: setattr(job, "curve2", job.curve2[:1]),
            lambda job: setattr(job, "curve2", job.curve2 * 33), lambda job: setattr(job, "table", []),
            lambda job: setattr(job, "table", job.table * 65)],
        5: [lambda job: setattr(job, "top_level", 200_000_000_001), lambda job: setattr(job, "top_level", 2**63),
            lambda job: setattr(job, "bottom_level", 1), lambda job: setattr(job, "end", 3_000_000_001),
            lambda job: setattr(job, "budget", 1_000_001), lambda job: setattr(job, "budget", 2**64 - 1),
            lambda job: first_job_pair(job, (99_999, 2_000_000), "elements"),
            lambda job: first_job_pair(job, (100_000_001, 2_000_000), "elements"),
            lambda job: first_job_pair(job, (1_000_000, 1_000_000_001), "elements"),
            lambda job: setattr(job, "start", 1)],
        6: [lambda job: first_job_pair(job, (105_000_000, 200_000_000), "curve1"),
            lambda job: first_job_pair(job, (2**63, 200_000_000), "curve1"),
            lambda job: first_job_pair(job, (5_000_000, 100_000_000), "curve1"),
            lambda job: first_job_pair(job, (5_000_000, 1_000_000_001), "curve1")],
        7: [lambda job: first_job_pair(job, (100_000_001, 100_000), "curve2"),
            lambda job: first_job_pair(job, (100_000_000, 0), "curve2"),
            lambda job: first_job_pair(job, (100_000_000, 200_001), "curve2"),
            lambda job: first_job_pair(job, (200_000_000, 100_000), "curve2"),
            lambda job: setattr(job, "curve2", [(1, 1), (199_999_999, 1)])],
        8: [lambda job: setattr(job, "table", [(1, 15_000_000)]),
            lambda job: setattr(job, "table", [(0, 2_000_000_001)]),
            lambda job: setattr(job, "table", [(0, 15_000_000), (3_000_000_001, 15_000_000)]),
            lambda job: setattr(job, "table", [(0, 15_000_000), (9, 15_000_000), (9, 15_000_000)])],
        9: [lambda job: setattr(job, "elements", job.elements[:-1] + [(1_000_000, 2_000_001)]),
            lambda job: setattr(job, "elements", job.elements[:-1] + [(1_000_000, 999_999)])],
        20: [lambda job: setattr(job, "start", 2)],
    }
    # One change of each cause that spoils nothing which the other one needs.
    LATER: Dict[int, Callable[[rules.Job], None]] = {
        2: CHANGES[2][0], 3: CHANGES[3][5], 5: CHANGES[5][0], 6: CHANGES[6][1], 7: CHANGES[7][1], 8: CHANGES[8][0],
        9: CHANGES[9][0], 20: CHANGES[20][0]}

    def answer(self, changes: List[Callable[[rules.Job], None]], extra: bytes = b"", room: int = 6_000) -> int:
        """Refusal of the changed specimen, with bytes added to it; the buffer has to stay as it was."""
        job = specimen()
        for change in changes:
            change(job)
        buffer = bytearray(b"\xa5" * room)
        refusal = rules.key_into(rules.job_bytes(job) + extra, buffer)
        self.assertEqual(buffer, b"\xa5" * room)
        return refusal

    def test_every_cause_of_a_job(self) -> None:
        for cause, changes in self.CHANGES.items():
            for number, change in enumerate(changes):
                self.assertEqual(self.answer([change]), cause, (cause, number))
        self.assertEqual(self.answer([], b"\0"), 4)
        self.assertEqual(self.answer([], b"", 135), 10)
        for length in (0, 1, 3, 47):
            self.assertEqual(rules.open_job(rules.job_bytes(specimen())[:length])[0], 1)
        for length in (48, 159):
            self.assertEqual(rules.open_job(rules.job_bytes(specimen())[:length])[0], 4)

    def test_earlier_cause_is_answered(self) -> None:
        for cause, changes in self.CHANGES.items():
            for number, change in enumerate(changes):
                for later, later_change in self.LATER.items():
                    if later > cause:
                        self.assertEqual(self.answer([later_change, change]), cause, (cause, number, later))
                self.assertEqual(self.answer([change], b"", 0), cause, (cause, number, 10))
                self.assertEqual(self.answer([change], b"\0"), min(cause, 4), (cause, number, 4))
        self.assertEqual(self.answer([], b"\0", 0), 4)

    def test_order_of_causes_of_a_call(self) -> None:
        blank = rules.Record()
        answers = rules.load_call(blank, 2**64 - 1), rules.step_call(blank, 0), rules.run_call(blank, 0, 2**64 - 1)[0]
        self.assertEqual(answers, (11, 11, 11))
        record = opened(specimen())
        self.assertEqual(rules.load_call(record, 300_000_000), 0)
        for seconds, cause in ((0, 13), (1_000_001, 13), (2**64 - 1, 13), (368, 14), (1_000_000, 14), (367, 15)):
            self.assertEqual(rules.step_call(record, seconds), cause)
        record.clock = 3_000_000_000 - 366
        for seconds, cause in ((1_000_000, 13), (368, 13), (367, 13), (366, 15)):
            self.assertEqual(rules.step_call(record, seconds), cause)
        for end, budget in ((record.clock - 1, 0), (3_000_000_001, 0), (2**64 - 1, 0), (record.clock, 1_000_001)):
            self.assertEqual(rules.run_call(record, end, budget)[0], 16)
        self.assertEqual(rules.run_call(record, record.clock, 0), (0, 0, 0))

    def test_buffer_past_the_result_is_kept(self) -> None:
        buffer = bytearray(b"\xa5" * 200)
        self.assertEqual(rules.key_into(rules.job_bytes(specimen()), buffer), 0)
        self.assertEqual((buffer[:3], buffer[136:]), (b"LSR", b"\xa5" * 64))


class Writer(unittest.TestCase):
    """A description becomes a job, or is refused."""

    # Header numbers that are refused 3, by the names of their words.
    OUTSIDE: Dict[str, Tuple[int, ...]] = {
        "top": (2, 255, 256, 257), "bottom": (2, 255, 256, 257), "start": (3, 255, 256, 257, 258),
        "elements": (0, 129, 255, 256, 257, 258), "curve1_count": (0, 1, 65, 255, 256, 257, 258),
        "curve2_count": (0, 1, 65, 255, 256, 257, 258), "table_count": (0, 65, 255, 256, 257),
        "gravity": (0, 1, 257, 999, 5_001, 65_535, 65_536, 65_537, 66_536)}
    HUGE = (2**16 + 1, 2**32, 2**32 + 1, 2**63, 2**63 + 1, 2**64 - 2, 2**64 - 1)

    def written(self, description: rules.Description, room: int = 6_000) -> Tuple[int, bytes]:
        """Answer of the writer, and the job; the rest of the buffer and the description have to stay as they were."""
        buffer = bytearray(b"\xa5" * room)
        words = description.words()
        answer = rules.write_job(description, buffer)
        length = answer if answer >= 144 else 0
        self.assertEqual((len(buffer), buffer[length:]), (room, b"\xa5" * (room - length)))
        self.assertEqual(description.words(), words)
        self.assertTrue(length == 0 or rules.open_job(bytes(buffer[:length]))[0] == 0)
        return answer, bytes(buffer[:length])

    def changed(self, changes: List[Callable[[rules.Job], None]], **numbers: int) -> rules.Description:
        """The specimen's description after changes of its job, with some numbers replaced."""
        job = specimen()
        for change in changes:
            change(job)
        return replace(rules.job_description(job), **numbers)

    def test_specimen(self) -> None:
        words = [0] * 652
        words[:12] = [1, 0, 2, 2, 2, 1, 0, 1_000, 10_000_000, 0, 100, 1]
        words[12:14], words[140:142] = [1_000_000] * 2, [2_000_000] * 2
        words[268:270], words[332:334] = [5_000_000, 105_000_000], [200_000_000, 100_000_000]
        words[396:398], words[460:462] = [100_000_000, 200_000_000], [100_000, 200_000]
        words[524], words[588] = 0, 15_000_000
        job = b"LSC" + bytes([1, 0, 1, 0, 2, 2, 2, 1, 0, 232, 3, 0, 0]) + struct.pack(
            "<18Q", 10_000_000, 0, 100, 1, 1_000_000, 2_000_000, 1_000_000, 2_000_000, 5_000_000, 200_000_000,
            105_000_000, 100_000_000, 100_000_000, 100_000, 200_000_000, 200_000, 0, 15_000_000)
        self.assertEqual(len(job), 160)
        self.assertEqual(self.written(rules.description_of(words)), (160, job))
        self.assertEqual(self.written(rules.description_of(words[:589] + [0])), (160, job))
        self.assertEqual(self.written(rules.description_of(words + [2**64 - 1] * 372)), (160, job))
        self.assertEqual(rules.read_description(job).words(), words)
        self.assertEqual(rules.job_description(specimen()), rules.description_of(words))

    def test_numbers_of_the_header(self) -> None:
        for name, outside in self.OUTSIDE.items():
            for number in outside + self.HUGE:
                self.assertEqual(self.written(self.changed([], **{name: number}))[0], 3, (name, number))
        for name, outside in (("top_level", 200_000_000_001), ("end", 3_000_000_001), ("budget", 1_000_001)):
            for number in (outside, 2**63, 2**64 - 1):
                self.assertEqual(self.written(self.changed([], **{name: number}))[0], 5, (name, number))
            for number in (0, 257, outside - 1):
                answer, job = self.written(self.changed([], **{name: number}))
                self.assertEqual((answer, getattr(rules.read_job(job), name)), (160, number))
        for bottom, level, answer in ((0, 1, 5), (0, 257, 5), (0, 2**64 - 1, 5), (1, 0, 160), (1, 257, 160),
                                      (1, 200_000_000_000, 160), (1, 200_000_000_001, 5), (1, 2**64 - 1, 5)):
            self.assertEqual(self.written(self.changed([], bottom=bottom, bottom_level=level))[0], answer)

    def test_counts_that_ask_for_empty_places(self) -> None:
        for name, number, answer in (("elements", 3, 5), ("elements", 128, 5), ("curve1_count", 3, 6),
                                     ("curve1_count", 64, 6), ("curve2_count", 3, 7), ("curve2_count", 64, 7),
                                     ("table_count", 2, 8), ("table_count", 64, 8), ("elements", 1, 144)):
            self.assertEqual(self.written(self.changed([], **{name: number}))[0], answer, (name, number))

    def test_every_cause_and_the_order(self) -> None:
        later = {cause: change for cause, change in Refusals.LATER.items() if cause > 3}
        for cause, changes in Refusals.CHANGES.items():
            for number, change in enumerate(changes if cause >= 5 else []):
                self.assertEqual(self.written(self.changed([change]))[0], cause, (cause, number))
                self.assertEqual(self.written(self.changed([change]), 0)[0], cause, (cause, number, 17))
                self.assertEqual(self.written(self.changed([change]), 159)[0], cause, (cause, number, 17))
                self.assertEqual(self.written(self.changed([change], gravity=0), 0)[0], 3, (cause, number, 3))
                for second, later_change in later.items():
                    if second > cause:
                        answer = self.written(self.changed([later_change, change]))[0]
                        self.assertEqual(answer, cause, (cause, number, second))
        every = list(later.values())
        for first, cause in enumerate(later):
            self.assertEqual(self.written(self.changed(every[first:]), 0)[0], cause)

    def test_start_at_rest(self) -> None:
        for load, answer in ((4_999_999, 9), (5_000_000, 160), (105_000_000, 160), (105_000_001, 9)):
            description = rules.job_description(equilibrium(load))
            self.assertEqual(self.written(description)[0], answer, load)
            self.assertEqual(self.written(description, 159)[0], min(answer, 17), load)
        description = rules.job_description(equilibrium(15_000_000))
        self.assertEqual(rules.read_description(self.written(description)[1]).water, [0] * 128)

    def test_short_buffer(self) -> None:
        for room, answer in ((0, 17), (1, 17), (48, 17), (159, 17), (160, 160), (161, 160), (8_192, 160)):
            self.assertEqual(self.written(self.changed([]), room)[0], answer)

    def test_short_lists_of_words(self) -> None:
        words = rules.job_description(specimen()).words()
        for count, answer in ((0, 3), (7, 3), (8, 5), (12, 5), (13, 5), (14, 6), (142, 6), (333, 6), (334, 7),
                              (461, 7), (462, 160), (588, 160), (589, 160), (652, 160)):
            self.assertEqual(self.written(rules.description_of(words[:count]))[0], answer, count)

    def test_round_trips(self) -> None:
        accepted = 0
        for job in makers.make_inputs("jobs", SEED, 300):
            refusal = rules.open_job(job)[0]
            if refusal in (1, 2, 3, 4):
                continue
            description = rules.read_description(job)
            self.assertEqual(self.written(description), (refusal, b"") if refusal else (len(job), job))
            filled = damage.with_places_past_counts(Chance(SEED, accepted), description)
            self.assertEqual(self.written(filled), self.written(description))
            self.assertEqual(filled.groups(), description.groups())
            if refusal == 0:
                self.assertEqual(self.written(description, len(job) - 1)[0], 17)
                self.assertEqual(rules.read_description(self.written(filled)[1]), description)
                accepted += 1
        self.assertGreater(accepted, 150)

    def test_made_descriptions(self) -> None:
        answers: Dict[int, int] = {}
        for index in range(600):
            description = makers.made_description(Chance(SEED, index), 2)
            self.assertEqual(rules.description_of(description.words()), description)
            answer, job = self.written(description)
            answers[min(answer, 144)] = answers.get(min(answer, 144), 0) + 1
            if answer != 3:
                parts = rules.described_job(description)
                self.assertEqual(rules.open_job(rules.job_bytes(parts))[0], answer if answer < 144 else 0)
            if job:
                self.assertEqual(rules.read_description(job).words()[:12], description.words()[:12])
                self.assertEqual(rules.read_description(job).groups(), description.groups())
        self.assertGreater(answers.pop(20), 0)
        self.assertEqual(sorted(answers), [3, 5, 6, 7, 8, 9, 144])
        self.assertGreater(min(answers.values()), 9)


class Levels(unittest.TestCase):
    """Start 1 is only for a closed bottom, or one at the top's level."""

    def test_levels_and_not_pressures(self) -> None:
        for top_level in (0, 10_000_000, 200_000_000_000):
            for more in (0, 1, -1, 101, -101, 102, 5_000_000):
                level = top_level + more
                if not 0 <= level <= 200_000_000_000:
                    continue
                job = replace(equilibrium(15_000_000), top_level=top_level, bottom=1, bottom_level=level)
                self.assertEqual(rules.open_job(rules.job_bytes(job))[0], 9 if more else 0, (top_level, more))
                self.assertEqual(rules.write_job(rules.job_description(job), bytearray(160)), 9 if more else 160)
                if abs(more) < 102:
                    self.assertEqual(rules.head_pressure(more), 0)
        at_level = replace(equilibrium(15_000_000), bottom=1, bottom_level=10_000_000)
        self.assertEqual(opened(at_level).water_heights(), [1_900_000] * 2)

    def test_closed_bottom(self) -> None:
        for top in (0, 1):
            for top_level in (0, 1, 10_000_000):
                job = replace(equilibrium(15_000_000), top=top, top_level=top_level)
                self.assertEqual(opened(job).water_heights(), [1_900_000] * 2)

    def test_order(self) -> None:
        job = replace(equilibrium(15_000_000), bottom=1, bottom_level=12_000_000)
        buffer = bytearray(135)
        self.assertEqual((rules.key_into(rules.job_bytes(job), buffer), buffer), (9, bytes(135)))
        wet = replace(job, elements=[(1_000_000, 0), (1_000_000, 1)])
        self.assertEqual(rules.open_job(rules.job_bytes(wet))[0], 5)
        self.assertEqual(rules.open_job(rules.job_bytes(replace(job, table=[(1, 1)])))[0], 8)

    def test_start_0_at_any_level(self) -> None:
        for level in (0, 10_000_000, 12_000_000, 200_000_000_000):
            self.assertEqual(opened(specimen(bottom=1, bottom_level=level)).bottom_level, level)


class Steady(unittest.TestCase):
    """Start 2, worked by hand on the specimen's soil.

    Water of 1,500,000 nm on solids of 1,000,000 nm is a void ratio of 1.5, an effective stress of 55,000,000 mPa, a
    conductivity of 150,000 fm/s and a resistance of 4,905 x 2,500,000 / 150,000 = 81,750. A nanometre of water is
    100 mPa. Under a load of 55,000,409 its excess pressure is 409, and 409,000 / 81,750 = 5.003 leave through the top.
    """

    WET = 1_500_000

    def one(self, head: Optional[int], load: int = 55_000_409, **changes) -> rules.Job:
        """One element whose bottom is drained at a head over the top, or closed."""
        return specimen(**{"start": 2, "elements": [(1_000_000, self.WET)], "table": [(0, load)],
                           "bottom": 0 if head is None else 1,
                           "bottom_level": 0 if head is None else 10_000_000 + head, **changes})

    def answer(self, job: rules.Job, room: int = 6_000) -> int:
        """Refusal of a job, which opening, the key and the writer have to agree about; a refusal leaves the buffers."""
        data = rules.job_bytes(job)
        refusal, record = rules.open_job(data)
        buffer, written = bytearray(b"\xa5" * room), bytearray(b"\xa5" * room)
        self.assertEqual(rules.key_into(data, buffer), refusal or (10 if room < 56 + 40 * len(job.elements) else 0))
        length = rules.write_job(rules.job_description(job), written)
        self.assertEqual(length, refusal or (17 if room < len(data) else len(data)))
        if refusal:
            self.assertEqual((record, buffer, written), (rules.Record(), b"\xa5" * room, b"\xa5" * room))
        elif room >= len(data):
            self.assertEqual(bytes(written[:length]), data)
        return refusal

    def check(self, job: rules.Job, flows: List[int], refusal: int) -> None:
        """A layer has these upward flows in 1,000 s and is accepted or refused 20."""
        self.assertEqual(steady.flows_of(job), flows)
        self.assertEqual(self.answer(job), refusal)

    def test_upward(self) -> None:
        # 83,385 nm are 818 mPa, and 818 - 409 is 409 again: 5 enter and 5 leave. 572,000 / 81,750 is 6.997.
        for head, pressure, entering, refusal in (
                (83_385, 818, 5, 0), (100_000, 981, 6, 0), (100_101, 981, 6, 0), (100_102, 982, 7, 20),
                (75_026, 736, 4, 0), (75_025, 735, 3, 20)):
            self.assertEqual(rules.head_pressure(head), pressure)
            self.check(self.one(head), [entering, 5], refusal)

    def test_downward(self) -> None:
        for head, entering, refusal in ((-83_385, -5, 0), (-100_000, -6, 0), (-100_102, -7, 20), (-75_026, -4, 0),
                                        (-75_025, -3, 20)):
            self.check(self.one(head, 54_999_591), [entering, -5], refusal)

    def test_sign_of_the_bottom(self) -> None:
        self.check(self.one(0), [-5, 5], 20)
        self.check(self.one(0, 54_999_591), [5, -5], 20)
        self.check(self.one(0, 55_000_082), [-1, 1], 20)
        self.check(self.one(0, 55_000_081), [0, 0], 0)

    def test_closed_faces_count_as_0(self) -> None:
        for load, flow, refusal in ((55_000_000, 0, 0), (55_000_081, 0, 0), (55_000_163, 1, 0), (55_000_164, 2, 20),
                                    (54_999_837, -1, 0), (54_999_836, -2, 20), (55_000_409, 5, 20)):
            self.check(self.one(None, load), [0, flow], refusal)
            self.check(self.one(0, load, top=0), [-flow, 0], refusal)
            self.check(self.one(None, load, top=0), [0, 0], 0)

    def test_seconds(self) -> None:
        # 409 x 999 / 81,750 is 4.998 and 572 x 1,001 / 81,750 is 7.004; 326 x 999 / 81,750 is 3.98.
        for head, flows in ((100_000, {999: [6, 4], 1_000: [6, 5], 1_001: [7, 5]}),
                            (75_025, {999: [3, 4], 1_000: [3, 5], 1_004: [4, 5]})):
            for seconds, expected in flows.items():
                self.assertEqual(steady.flows_of(self.one(head), seconds), expected)
        self.assertEqual((self.answer(self.one(100_000)), self.answer(self.one(75_025))), (0, 20))

    def test_any_two_faces(self) -> None:
        # 10 nm more water below are 1,000 mPa more, and 1,000,000 / (81,750 + 81,750) is 6.116; so p is 1,409 there.
        def two(head: int) -> rules.Job:
            return self.one(head, elements=[(1_000_000, self.WET + 10), (1_000_000, self.WET)])

        self.assertEqual(rules.Layer(steady.record_of(two(0))).read(55_000_409, [self.WET + 10, self.WET]),
                         ([1_409, 409], [81_750, 81_750]))
        for head, pressure, entering, refusal in ((202_039, 1_982, 7, 20), (201_937, 1_981, 6, 0),
                                                  (185_322, 1_818, 5, 0), (176_963, 1_736, 4, 20)):
            self.assertEqual(rules.head_pressure(head), pressure)
            self.check(two(head), [entering, 6, 5], refusal)

    def test_too_long_is_not_asked(self) -> None:
        record = opened(self.one(83_385))
        self.assertEqual((rules.step_call(record, 1_000), rules.step_call(record, 408)), (14, 0))
        self.assertEqual(record.water_heights(), [self.WET])

    def test_step_of_1_000_s(self) -> None:
        # A tenth of the conductivity is ten times the resistance: 817,500. 4,088,000 / 817,500 is 5.0006.
        slow = [(100_000_000, 10_000), (200_000_000, 20_000)]
        for head, entering in ((833_436, 5), (916_820, 6), (750_052, 4)):
            job = self.one(head, 55_004_088, curve2=slow)
            self.check(job, [entering, 5], 0)
            record = opened(job)
            self.assertEqual(rules.step_call(record, 1_000), 0)
            self.assertEqual(record.water_heights(), [self.WET + entering - 5])
            self.assertEqual((record.top_outflow, record.bottom_outflow), (5, -entering))

    def test_opening_load(self) -> None:
        job = self.one(83_385)
        for later in (0, 55_000_410, 99_000_000):
            self.assertEqual(self.answer(replace(job, table=[(0, 55_000_409), (1, later)])), 0)
        for first in (54_999_000, 55_001_000, 99_000_000):
            self.assertEqual(self.answer(replace(job, table=[(0, first), (1, 55_000_409)])), 20)

    def test_order(self) -> None:
        steady_job, uneven = self.one(83_385), self.one(100_102)
        for room in (0, 56, 95, 96, 143, 144):
            self.assertEqual((self.answer(steady_job, room), self.answer(uneven, room)), (0, 20))
        for water in (0, 999_999, 2_000_001):
            self.assertEqual(self.answer(replace(uneven, elements=[(1_000_000, water)])), 9)
        for changes, cause in (({"budget": 1_000_001}, 5), ({"elements": [(1_000_000, 1_000_000_001)]}, 5),
                               ({"curve1": uneven.curve1[::-1]}, 6), ({"curve2": uneven.curve2[::-1]}, 7),
                               ({"table": [(1, 55_000_409)]}, 8)):
            self.assertEqual(self.answer(replace(uneven, **changes)), cause)
            self.assertEqual(self.answer(replace(steady_job, **changes)), cause)
        for start in (3, 4, 130, 255):
            self.assertEqual(rules.open_job(rules.job_bytes(replace(steady_job, start=start)))[0], 3)
        for start in (3, 255, 256, 257, 258, 2**32 + 2, 2**64 - 1):
            description = replace(rules.job_description(steady_job), start=start)
            self.assertEqual(rules.write_job(description, bytearray(200)), 3)

    def test_water_of_start_1(self) -> None:
        for bottom in (0, 1):
            rest = replace(equilibrium(15_000_000), bottom=bottom, bottom_level=bottom * 10_000_000)
            self.check(replace(rest, start=2, elements=[(1_000_000, 1_900_000)] * 2), [0, 0, 0], 0)
            self.assertEqual(self.answer(replace(rest, start=2)), 9)

    def test_nothing_else_knows_of_the_start(self) -> None:
        compared = 0
        for index in range(60):
            job = steady_jobs.drawn_steady(Chance(SEED, index))
            given = replace(job, start=0)
            if self.answer(job) == 0:
                self.assertEqual(opened(job), opened(given))
                self.assertEqual(rules.key(rules.job_bytes(job)), rules.key(rules.job_bytes(given)))
                compared += 1
        self.assertGreater(compared, 20)

    def test_literal(self) -> None:
        """Drawn layers against the paper's words: outflows first, then every pair of faces."""
        answers = {0: 0, 20: 0}
        for index in range(250):
            job = steady_jobs.drawn_steady(Chance(SEED + 1, index))
            if not steady.on_curve(job):
                continue
            solids, record = [pair[0] for pair in job.elements], steady.record_of(job)
            pressures, halves = rules.Layer(record).read(job.table[0][1], record.water)
            out_of_top = math.trunc(Fraction(pressures[-1] * 1_000, halves[-1])) if job.top else 0
            held = rules.head_pressure(job.bottom_level - job.top_level)
            out_of_bottom = math.trunc(Fraction((pressures[0] - held) * 1_000, halves[0])) if job.bottom else 0
            inner = [math.trunc(Fraction((pressures[j] - pressures[j + 1]) * 1_000, halves[j] + halves[j + 1]))
                     for j in range(len(solids) - 1)]
            flows = [-out_of_bottom] + inner + [out_of_top]
            expected = 0 if all(abs(a - b) <= 1 for a in flows for b in flows) else 20
            self.assertEqual(rules.open_job(rules.job_bytes(job))[0], expected, index)
            answers[expected] += 1
        self.assertGreater(min(answers.values()), 25)

    def test_kinds(self) -> None:
        for name, jobs in steady_jobs.made_kinds().items():
            for number, (cause, job) in enumerate(jobs):
                self.assertEqual(rules.open_job(rules.job_bytes(job))[0], cause, (name, number))

    def test_water_is_found(self) -> None:
        for level in (0, 9_000_000, 10_000_000, 10_000_500, 11_000_000, 50_000_000, 400_000_000):
            for count in (1, 2, 5, 12):
                job = specimen(bottom=1, bottom_level=level, gravity=2_650, table=[(0, 50_000_000)],
                               curve2=[(100_000_000, 20_000), (200_000_000, 40_000)],
                               elements=[(700_000 + 50_000 * j, 0) for j in range(count)])
                found = steady.settled(job)
                self.assertEqual(self.answer(found), 0, (level, count))
                self.assertEqual((found.bottom_level, found.start), (level, 2))

    def test_claims(self) -> None:
        """Balance, bounds of excess pressure and the first step of 1,000 s, from start 2."""
        checked = calm = 0
        for job, calls in steady_lists.made_lists():
            refusal, record = rules.open_job(rules.job_bytes(job))
            if refusal:
                continue
            tally = Tally(record)
            self.assertEqual(tally.faults(record), [])
            for number, (name, *numbers) in enumerate(calls):
                water = record.water_heights()
                answer = lists.answer_call(record, name, numbers[:lists.CALLS[name]])
                if name == "run":  # its loads in between are not seen here
                    break
                tally.set_load(record.load)
                self.assertEqual(tally.faults(record), [], answer)
                checked += 1
                if number == 0 and (name, numbers[0], answer) == ("step", 1_000, "step 0"):
                    self.assertLessEqual(max(abs(a - b) for a, b in zip(water, record.water_heights())), 1)
                    calm += 1
        self.assertGreater(min(checked, 10 * calm), 300)


class Floats(unittest.TestCase):
    """Bits of floats, and what they are in mPa and nm; worked by hand from the float's whole number and power."""

    NOT_FINITE = (0x7F800000, 0x7F800001, 0x7FA00000, 0x7FBFFFFF, 0x7FC00000, 0x7FC12345, 0x7FFFFFFF)
    # Bits, the whole number and the power of two, then mPa of as many kPa and nm of as many metres; None if refused.
    WORKED = [
        (0x3F800000, 2**23, -23, 1_000_000, 1_000_000_000),             # 1
        (0x3F000000, 2**23, -24, 500_000, 500_000_000),                 # 0.5
        (0x3FC00000, 3 * 2**22, -23, 1_500_000, 1_500_000_000),         # 1.5
        (0x42C43333, 12_858_163, -17, 98_099_998, 98_099_998_474),      # 98.09999847412109375
        (0x3DCCCCCD, 13_421_773, -27, 100_000, 100_000_001),            # 0.100000001490116...
        (0x3E99999A, 10_066_330, -25, 300_000, 300_000_011),            # 0.3000000119209...
        (0x3E999999, 10_066_329, -25, 299_999, 299_999_982),            # 0.2999999821186...
        (0x44FA0000, 16_384_000, -13, 2_000_000_000, None),             # 2,000
        (0x44FA0001, 16_384_001, -13, None, None),
        (0x44F9FFFF, 16_383_999, -13, 1_999_999_877, None),             # 1,999.9998779296875
        (0x43480000, 13_107_200, -16, 200_000_000, 200_000_000_000),    # 200
        (0x43480001, 13_107_201, -16, 200_000_015, None),               # 200.0000152587890625
        (0x4347FFFF, 13_107_199, -16, 199_999_984, 199_999_984_741),    # 199.9999847412109375
        (0x358637BD, 8_796_093, -43, 0, 999),                           # 0.99999999747 millionths
        (0x358637BE, 8_796_094, -43, 1, 1_000),                         # 1.00000011116 millionths
        (0x3089705F, 9_007_199, -53, 0, 0),                             # 0.99999997 thousand-millionths
        (0x30897060, 9_007_200, -53, 0, 1),                             # 1.00000008 thousand-millionths
        (0x00800000, 2**23, -149, 0, 0), (0x007FFFFF, 2**23 - 1, -149, 0, 0), (0x00000001, 1, -149, 0, 0),
        (0x00000000, 0, -149, 0, 0), (0x7F7FFFFF, 2**24 - 1, 104, None, None), (0x4B800000, 2**23, 1, None, None)]

    def test_worked(self) -> None:
        for bits, whole, power, pressure, column in self.WORKED:
            self.assertEqual(piezometer.float_parts(bits), (whole, power), hex(bits))
            self.assertEqual(piezometer.float_value(bits), whole * Fraction(2)**power, hex(bits))
            self.assertEqual(piezometer.converted(PRESSURE, bits), pressure, hex(bits))
            self.assertEqual(piezometer.converted(COLUMN, bits), column, hex(bits))

    def test_below_zero_is_cut_toward_zero(self) -> None:
        self.assertEqual(piezometer.converted(PRESSURE, 0xBE99999A), -300_000)  # -300,000.0119
        self.assertEqual(piezometer.converted(PRESSURE, 0xBE999999), -299_999)  # -299,999.982
        for bits, whole, power, pressure, column in self.WORKED:
            self.assertEqual(piezometer.float_parts(bits | 2**31), (-whole, power), hex(bits))
            for kind, value in ((PRESSURE, pressure), (COLUMN, column)):
                self.assertEqual(piezometer.converted(kind, bits | 2**31), None if value is None else -value, hex(bits))

    def test_not_finite(self) -> None:
        for bits in self.NOT_FINITE:
            for signed in (bits, bits | 2**31):
                self.assertEqual((piezometer.float_parts(signed), piezometer.float_value(signed)), (None, None))
                for kind in (PRESSURE, COLUMN):
                    self.assertIsNone(piezometer.converted(kind, signed), hex(signed))

    def test_machine_floats(self) -> None:
        chance, refused = Chance(SEED, 0), 0
        for exponent in range(256):
            for fraction in (0, 1, 0x400000, 0x7FFFFF, chance.between(0, 0x7FFFFF)):
                bits = chance.between(0, 1) << 31 | exponent << 23 | fraction
                number = struct.unpack("<f", struct.pack("<I", bits))[0]
                value = Fraction(number) if math.isfinite(number) else None
                self.assertEqual(piezometer.float_value(bits), value, hex(bits))
                refused += value is None
        self.assertEqual(refused, 5)

    def test_column_is_cut_twice(self) -> None:
        # 14,346,330 / 2^47 m are 101.93680566 nm, which are 1.00000006 mPa; cut to 101 nm they are 0.99081 mPa.
        for bits, nanometres, pressure, once in ((0x33DAE85A, 101, 0, 1), (0x345AE85A, 203, 1, 2),
                                                 (0x372B0586, 10_193, 99, 100), (0x33DB0B18, 102, 1, 1)):
            for sign in (1, -1):
                signed = bits | (2**31 if sign < 0 else 0)
                value = piezometer.converted(COLUMN, signed)
                self.assertEqual(value, sign * nanometres)
                self.assertEqual(piezometer.as_pressure(COLUMN, value), sign * pressure)
                self.assertEqual(math.trunc(piezometer.float_value(signed) * 9_810_000), sign * once)
        self.assertEqual(piezometer.as_pressure(COLUMN, 98_099_998_474), 962_360_985)
        self.assertEqual(piezometer.as_pressure(COLUMN, -200_000_000_000), -1_962_000_000)
        self.assertEqual(piezometer.as_pressure(PRESSURE, -7), -7)


class Readings(unittest.TestCase):
    """Readings against records and jobs. After its step the specimen's pore pressures are 10,083,385 and 8,694,921."""

    ONE, LOUD, HIGH = 0x3F800000, 0x42C43333, 0x44FA0001  # 1, 98.1, and more than 2,000

    def stepped(self) -> rules.Record:
        """The specimen after its step of 100 seconds."""
        record = opened(specimen())
        self.assertEqual(rules.step_call(record, 100), 0)
        return record

    def answer(self, record: rules.Record, element: int, kind: int, word: int) -> Tuple[int, int, int]:
        """Answer to a reading; the record has to stay as it was."""
        before = record.copy()
        answer = piezometer.reading_call(record, Reading(element, kind, word))
        self.assertEqual(record, before)
        return answer

    def test_specimen(self) -> None:
        for element, kind, word, answer in (
                (1, 1, self.LOUD, (0, 0, 98_099_998 - 10_083_385)), (2, 1, self.LOUD, (0, 0, 98_099_998 - 8_694_921)),
                (1, 2, self.ONE, (0, 0, 9_810_000 - 10_083_385)), (2, 2, self.ONE, (0, 0, 9_810_000 - 8_694_921)),
                (2, 2, self.LOUD, (0, 0, 962_360_985 - 8_694_921)), (1, 1, 0, (0, 0, -10_083_385)),
                (1, 1, 2**31, (0, 0, -10_083_385)), (2, 2, 2**31, (0, 0, -8_694_921)),
                (1, 1, self.ONE | 2**31, (0, 0, -11_083_385)), (1, 2, self.ONE | 2**31, (0, 0, -19_893_385)),
                (2, 1, 0x44FA0000, (0, 0, 1_991_305_079)), (2, 2, 0x43480000, (0, 0, 1_953_305_079)),
                (2, 1, 0xC4FA0000, (0, 0, -2_008_694_921)), (2, 2, 0xC3480000, (0, 0, -1_970_694_921)),
                (1, 0, self.ONE, (0, 1, 0)), (2, 3, 0x7F800000, (0, 1, 0))):
            self.assertEqual(self.answer(self.stepped(), element, kind, word), answer, (element, kind, hex(word)))

    def test_pore_pressure_is_that_of_the_result(self) -> None:
        compared = 0
        for job in makers.make_inputs("jobs", SEED, 60):
            refusal, result = rules.key(job)
            if refusal == 0:
                answers = [0] * 5 * result[6]
                readings = [number for j in range(result[6]) for number in (j + 1, 1, 0)]
                self.assertEqual(piezometer.readings_into(job, readings, answers), 0)
                pores = [struct.unpack("<Q", result[at + 32:at + 40])[0] for at in range(56, len(result), 40)]
                self.assertEqual(answers[3::5], pores)
                compared += len(pores)
        self.assertGreater(compared, 200)

    def test_words_are_judged_whole(self) -> None:
        record = self.stepped()
        for kind in (0, 3, 256, 257, 258, 2**32, 2**32 + 1, 2**32 + 2, 2**63 + 1, 2**64 - 1):
            for word in (0, self.ONE, self.HIGH, 0x7FC00000, 2**64 - 1):
                self.assertEqual(self.answer(record, 1, kind, word), (0, 1, 0), (kind, hex(word)))
                self.assertEqual(self.answer(record, 3, kind, word), (19, 0, 0), (kind, hex(word)))
        for element in (0, 3, 128, 129, 256, 257, 2**32, 2**32 + 1, 2**63 + 1, 2**64 - 1):
            for kind in (0, 1, 2):
                self.assertEqual(self.answer(record, element, kind, self.ONE), (19, 0, 0), (element, kind))
        for upper in (1, 0x7F800000, 0x80000000, 0xFFFFFFFF):
            self.assertEqual(self.answer(record, 1, 1, self.LOUD | upper << 32), (0, 0, 88_016_613), hex(upper))

    def test_order_of_causes(self) -> None:
        record = self.stepped()
        for kind in (1, 2):
            for word in (self.HIGH, self.HIGH | 2**31) + Floats.NOT_FINITE:
                self.assertEqual(self.answer(record, 2, kind, word), (18, 0, 0), (kind, hex(word)))
                for element in (0, 3, 2**64 - 1):
                    self.assertEqual(self.answer(record, element, kind, word), (19, 0, 0), (kind, hex(word)))
        for broken in (rules.Record(), replace(record, clock=0), replace(record, load=2_000_000_001)):
            for element, kind, word in ((1, 1, self.ONE), (1, 0, 0), (0, 1, self.HIGH), (9, 2, 0x7FC00000), (0, 0, 0)):
                self.assertEqual(self.answer(broken, element, kind, word), (11, 0, 0))

    def test_limits(self) -> None:
        record = self.stepped()
        for kind, bits in ((1, 0x44FA0000), (2, 0x43480000)):
            for sign in (0, 2**31):
                for more, number in ((-1, 0), (0, 0), (1, 18), (2, 18)):
                    self.assertEqual(self.answer(record, 1, kind, bits + more | sign)[0], number, (kind, sign, more))

    def worked(self, job: bytes, words: List[int], room: int) -> Tuple[int, List[int]]:
        """Number and answers of readings of a job; all other words of the list have to stay."""
        answers = [7] * room
        before = list(words)
        number = piezometer.readings_into(job, words, answers)
        written = 0 if number else 5 * (len(words) // 3)
        self.assertEqual((len(answers), answers[written:], words), (room, [7] * (room - written), before))
        return number, answers[:written]

    def test_readings_of_a_job(self) -> None:
        job = rules.job_bytes(specimen())
        words = [1, 1, self.LOUD, 2, 2, self.ONE, 2, 9, 0, 3, 1, self.ONE, 1, 1, self.HIGH, 1, 1, 0xBE99999A,
                 2, 2, self.ONE | 2**31]
        answers = [0, 0, 98_099_998, 10_083_385, 88_016_613] + [0, 0, 1_000_000_000, 8_694_921, 1_115_079] \
            + [0, 1, 0, 8_694_921, 0] + [19, 0, 0, 0, 0] + [18, 0, 0, 0, 0] \
            + [0, 0, 2**64 - 300_000, 10_083_385, 2**64 - 10_383_385] \
            + [0, 0, 2**64 - 1_000_000_000, 8_694_921, 2**64 - 18_504_921]
        for room in (35, 36, 100):
            self.assertEqual(self.worked(job, words, room), (0, answers))
        for room in (0, 1, 5, 34):
            self.assertEqual(self.worked(job, words, room), (10, []))
        for count in range(len(words)):
            self.assertEqual(self.worked(job, words[:count], 35), (0, answers[:5 * (count // 3)]))
        self.assertEqual(self.worked(job, [], 0), (0, []))
        self.assertEqual(self.worked(job, [1, 1], 0), (0, []))

    def test_run_comes_before_the_readings(self) -> None:
        words = [1, 0, 0, 2, 0, 0]
        for changes, pores in (({"budget": 0}, [10_083_385, 10_053_955]), ({}, [10_083_385, 8_694_921])):
            answers = self.worked(rules.job_bytes(specimen(**changes)), words, 10)[1]
            self.assertEqual(answers[3::5], pores)
        dry = specimen(top_level=0, table=[(0, 0)], end=0)
        self.assertEqual(self.worked(rules.job_bytes(dry), words, 10)[1][3::5], [2**64 - 5_014_715, 2**64 - 5_044_145])

    def test_refused_jobs(self) -> None:
        for cause, changes in Refusals.CHANGES.items():
            for number, change in enumerate(changes):
                job = specimen()
                change(job)
                for room in (0, 4, 5, 9):
                    answer = self.worked(rules.job_bytes(job), [1, 1, self.ONE], room)
                    self.assertEqual(answer, (cause, []), (cause, number, room))
        job = rules.job_bytes(specimen())
        for length, cause in ((0, 1), (47, 1), (48, 4), (159, 4)):
            self.assertEqual(self.worked(job[:length], [1, 1, self.ONE], 0), (cause, []))


class Divisions(unittest.TestCase):
    """Flows with what the division left, and what both curves' interpolation leaves."""

    DRY = [(1_000_000, 1_500_000)] * 2  # void ratio 1.5: effective stress 55,000,000, k 150,000, r 81,750

    def entries(self, record: rules.Record, seconds: int) -> List[Tuple[int, int]]:
        """Flows and remainders of an accepted division; the record has to stay as it was."""
        before = record.copy()
        refusal, entries = division.division_call(record, seconds)
        self.assertEqual((refusal, record), (0, before), seconds)
        return entries

    def refusal(self, record: rules.Record, seconds: int) -> int:
        """The number of a refused division; the record has to stay as it was."""
        before = record.copy()
        refusal, entries = division.division_call(record, seconds)
        self.assertEqual((entries, record), ([], before), seconds)
        return refusal

    def test_specimen(self) -> None:
        record = opened(specimen())
        self.assertEqual(self.entries(record, 100), [(0, 0), (13_591, 42_175)])
        self.assertEqual(13_591 * 73_575 + 42_175, 10_000_000 * 100)
        self.assertEqual(rules.step_call(record, 100), 0)
        self.assertEqual(self.entries(record, 100), [(922, 81_882), (11_717, 31_552)])
        self.assertEqual((922 * 147_319 + 81_882, 11_717 * 73_744 + 31_552), (1_359_100 * 100, 8_640_900 * 100))
        self.assertEqual(division.open_faces(record, 100), [(1_359_100, 147_319, 922, 81_882),
                                                            (8_640_900, 73_744, 11_717, 31_552)])
        self.assertEqual(division.element_readings(record), [
            (200_000_000, (1, 5_000_000, 0), (1, 200_000, 0)),
            (198_640_900, (1, 6_359_100, 0), (1, 198_640, 90_000_000))])

    def test_signs_and_directions(self) -> None:
        swelling = opened(specimen(elements=self.DRY))  # p -40,000,000 in both
        self.assertEqual(self.entries(swelling, 100), [(0, 0), (-48_929, -54_250)])
        sand = opened(specimen(elements=self.DRY, bottom=1, bottom_level=12_000_000))  # P 19,620
        self.assertEqual(self.entries(sand, 100), [(-48_953, -54_250), (0, 0), (-48_929, -54_250)])
        drawn = opened(specimen(elements=self.DRY, bottom=1, bottom_level=8_000_000))  # P -19,620
        self.assertEqual(self.entries(drawn, 1), [(-489, -4_630), (0, 0), (-489, -24_250)])
        pushed = opened(specimen(top=0, bottom=1, bottom_level=8_000_000, elements=self.DRY[:1],
                                 table=[(0, 55_000_000)]))
        self.assertEqual(self.entries(pushed, 7), [(1, 137_340 - 81_750)])
        pairs = [(1_000_000, 1_500_000), (1_000_000, 1_600_000)]
        for elements, inner in ((pairs, (-6_193, -96_799)), (pairs[::-1], (6_193, 96_799))):
            record = opened(specimen(top=0, elements=elements))  # R 161,457
            self.assertEqual(self.entries(record, 100), [inner])

    def test_sizes(self) -> None:
        for elements, at, r in ((specimen().elements, 5_000_000, 73_575), (self.DRY, 55_000_000, 81_750)):
            for more, entry in ((0, (0, 0)), (1, (0, 1)), (r - 1, (0, r - 1)), (r, (1, 0)), (r + 1, (1, 1)),
                                (2 * r - 1, (1, r - 1)), (2 * r, (2, 0))):
                record = opened(specimen(elements=elements, table=[(0, at + more)]))
                self.assertEqual(self.entries(record, 1), [(0, 0), entry], more)
                if elements is self.DRY:
                    record = opened(specimen(elements=elements, table=[(0, at - more)]))
                    self.assertEqual(self.entries(record, 1), [(0, 0), (-entry[0], -entry[1])], -more)

    def test_exact(self) -> None:
        even = [(100_000_000, 147_150), (200_000_000, 147_150)]  # r 100,000 of 3,000,000 nm
        unlike = [(1_000_000, 2_000_000), (1_200_000, 1_800_000)]  # effective stress 5,000,000 and 55,000,000
        record = opened(specimen(elements=unlike, curve2=even, bottom=1, bottom_level=10_000_000))
        self.assertEqual(self.entries(record, 1), [(100, 0), (250, 0), (-400, 0)])
        self.assertEqual(self.entries(record, 7), [(700, 0), (1_750, 0), (-2_800, 0)])

    def test_closed_faces_have_no_entry(self) -> None:
        for count in (1, 2, 3, 128):
            for top in (0, 1):
                for bottom in (0, 1):
                    record = opened(specimen(top=top, bottom=bottom, elements=[(1_000_000, 1_900_000)] * count))
                    self.assertEqual(len(self.entries(record, 1)), count - 1 + top + bottom)
        self.assertEqual(self.entries(opened(specimen(top=0, elements=self.DRY[:1])), 1_000_000), [])

    def test_refusals(self) -> None:
        record = opened(specimen())
        self.assertEqual(len(self.entries(record, 367)), 2)
        for seconds, number in ((0, 13), (368, 14), (1_000_000, 14), (1_000_001, 13), (2**32 + 100, 13),
                                (2**63 + 100, 13), (2**64 - 1, 13)):
            self.assertEqual(self.refusal(record, seconds), number, seconds)
        heavy = replace(record.copy(), load=300_000_000)
        late = replace(heavy, clock=2_999_999_700)
        for changed, seconds, number in ((heavy, 367, 15), (heavy, 368, 14), (heavy, 1_000_001, 13), (late, 300, 15),
                                         (late, 301, 13), (late, 368, 13), (replace(late, load=15_000_000), 301, 13)):
            self.assertEqual(self.refusal(changed, seconds), number, seconds)
        self.assertEqual(len(self.entries(replace(late, load=15_000_000), 300)), 2)
        for broken in (rules.Record(), replace(record, load=2_000_000_001), replace(record, starting_water=1)):
            for seconds in (0, 1, 368, 1_000_001, 2**64 - 1):
                self.assertEqual(self.refusal(broken, seconds), 11, seconds)

    def test_refused_as_the_step(self) -> None:
        numbers: Dict[int, int] = {}
        for text in makers.make_inputs("records", SEED + 3, 150):
            script = lists.Script()
            for line in text.decode().splitlines():
                name, *words = line.split(" ")
                if name == "step":
                    after = script.record.copy()
                    number = rules.step_call(after, int(words[0]))
                    self.assertEqual(division.division_call(script.record, int(words[0]))[0], number, line)
                    numbers[number] = numbers.get(number, 0) + 1
                script.answer(line)
        self.assertEqual(set(numbers), {0, 11, 13, 14, 15})

    def test_curves(self) -> None:
        falling = [(300, 10), (200, 30), (100, 31)]
        for at, reading in ((300, (1, 10, 0)), (299, (1, 10, 20)), (296, (1, 10, 80)), (295, (1, 11, 0)),
                            (201, (1, 29, 80)), (200, (1, 30, 0)), (199, (2, 30, 1)), (101, (2, 30, 99)),
                            (100, (2, 31, 0))):
            self.assertEqual(division.curve_reading(falling, at), reading, at)
        rising = [(100, 5), (200, 5), (300, 9)]
        for at, reading in ((100, (1, 5, 0)), (150, (1, 5, 0)), (200, (1, 5, 0)), (201, (2, 5, 4)), (251, (2, 7, 4)),
                            (299, (2, 8, 96)), (300, (2, 9, 0))):
            self.assertEqual(division.curve_reading(rising, at), reading, at)
        for at in (99, 301):
            with self.assertRaises(ValueError):
                division.curve_reading(rising, at)

    def layers(self, count: int) -> Iterator[rules.Record]:
        """So many drawn layers, most of them as opened."""
        index, found, affordable = 0, 0, makers.AFFORDABLE
        makers.AFFORDABLE = 30
        while found < count:
            chance = Chance(SEED + 4, index)
            record = makers.open_at_any_level(makers.made_job(chance, 60))[1]
            if rules.is_layer(record):
                if chance.one_in(3):
                    makers.age_record(chance, record)
                if chance.one_in(3):
                    record.load = chance.between(0, record.first_points()[-1][0])
                found += 1
                yield record
            index += 1
        makers.AFFORDABLE = affordable

    def test_drawn_layers(self) -> None:
        accepted = exact = 0
        for index, record in enumerate(self.layers(2_500)):
            chance = Chance(SEED + 5, index)
            for seconds in (makers.possible_step(record), chance.scaled(1, rules.STEP[1])):
                faces = division.open_faces(record, seconds)
                for face in faces:
                    self.check_face(face, seconds)
                    exact += face.remainder == 0 and face.flow != 0
                accepted += self.check_call(record, seconds, faces)
            self.check_curves(record)
        self.assertGreater(accepted, 1_500)
        self.assertGreater(exact, 30)

    def check_face(self, face: division.Face, seconds: int) -> None:
        """Identity, size and sign, and the cut."""
        difference, resistance, flow, remainder = face
        self.assertEqual(difference * seconds, flow * resistance + remainder)
        self.assertLess(abs(remainder), resistance)
        self.assertIn((remainder > 0) - (remainder < 0), (0, (difference > 0) - (difference < 0)))
        self.assertEqual(flow, math.trunc(Fraction(difference * seconds, resistance)))

    def check_call(self, record: rules.Record, seconds: int, faces: List[division.Face]) -> bool:
        """The call gives just these faces, and its step moves just these flows; whether it is accepted."""
        after = record.copy()
        refusal, entries = division.division_call(record, seconds)
        self.assertEqual(refusal, rules.step_call(after, seconds))
        if refusal:
            self.assertEqual(entries, [])
            return False
        self.assertEqual(entries, [(face.flow, face.remainder) for face in faces])
        flows = [flow for flow, _ in entries]
        bottom = flows.pop(0) if record.bottom is not None else 0
        top = flows.pop() if record.top is not None else 0
        self.assertEqual((after.bottom_outflow - record.bottom_outflow, after.top_outflow - record.top_outflow),
                         (bottom, top))
        below, above = [-bottom] + flows, flows + [top]
        moved = [new - old for new, old in zip(after.water_heights(), record.water_heights())]
        self.assertEqual(moved, [entering - leaving for entering, leaving in zip(below, above)])
        return True

    def check_curves(self, record: rules.Record) -> None:
        """Both curves as every other call reads them, with remainders that are right and not below 0."""
        layer = rules.Layer(record)
        for void, stress, conductivity in division.element_readings(record):
            self.assertEqual(stress.value, layer.compressibility.effective_stress(void))
            self.assertEqual(conductivity.value, layer.permeability.conductivity(void))
            first = [(point[1], point[0]) for point in record.first_points()]
            for points, (segment, value, remainder) in ((first, stress), (record.second_points(), conductivity)):
                (place_a, value_a), (place_b, value_b) = points[segment - 1:segment + 1]
                whole = abs(place_b - place_a)
                self.assertEqual((value_b - value_a) * abs(void - place_a), (value - value_a) * whole + remainder)
                self.assertTrue(0 <= remainder < whole)
                self.assertTrue(segment == 1 or void != place_a)

    def worked(self, job: bytes, seconds: int, flows: int, remainders: int) -> Tuple[int, List[int], List[int]]:
        """What a job and seconds give in two lists; all other places of both have to stay."""
        lists_of = [7] * flows, [9] * remainders
        number = division.flows_into(job, seconds, *lists_of)
        count = max(0, number)
        self.assertEqual([made[count:] for made in lists_of], [[7] * (flows - count), [9] * (remainders - count)])
        return number, lists_of[0][:count], lists_of[1][:count]

    def test_flows_of_a_job(self) -> None:
        job = rules.job_bytes(specimen())
        for rooms in ((2, 2), (2, 3), (129, 2), (200, 129)):
            self.assertEqual(self.worked(job, 100, *rooms), (2, [922, 11_717], [81_882, 31_552]))
        for rooms in ((0, 0), (1, 2), (2, 1), (1, 129), (129, 0)):
            for seconds in (100, 0, 369, 2**64 - 1):
                self.assertEqual(self.worked(job, seconds, *rooms), (-10, [], []))
        for seconds, number in ((0, -13), (1_000_001, -13), (2**64 - 1, -13), (400, -14)):
            self.assertEqual(self.worked(job, seconds, 2, 2), (number, [], []))
        stopped = rules.job_bytes(specimen(table=[(0, 300_000_000)], end=999, budget=9))
        self.assertEqual(self.worked(stopped, 367, 2, 2), (-15, [], []))
        self.assertEqual(self.worked(rules.job_bytes(specimen(budget=0)), 100, 2, 2), (2, [0, 13_591], [0, 42_175]))
        single = specimen(top=0, elements=self.DRY[:1], end=3_000_000_000, budget=1_000_000)
        self.assertEqual(self.worked(rules.job_bytes(single), 1, 0, 0), (-13, [], []))
        self.assertEqual(self.worked(rules.job_bytes(replace(single, end=2_999_999_999)), 1, 0, 0), (0, [], []))

    def test_refused_jobs(self) -> None:
        for cause, changes in Refusals.CHANGES.items():
            for number, change in enumerate(changes):
                job = specimen()
                change(job)
                for seconds in (0, 100, 2**64 - 1):
                    for rooms in ((0, 0), (129, 129)):
                        answer = self.worked(rules.job_bytes(job), seconds, *rooms)
                        self.assertEqual(answer, (-cause, [], []), (cause, number))
                    self.assertEqual(division.long_division(rules.job_bytes(job), seconds), b"refused %d\n" % cause)

    def test_program(self) -> None:
        job = rules.job_bytes(specimen())
        numbers = [2, 2, 1_359_100, 147_319, 922, 81_882, 8_640_900, 73_744, 11_717, 31_552,
                   2_000_000, 1_999_078, 200_000_000, 1, 5_000_000, 0, 1, 200_000, 0,
                   1_986_409, 1_975_614, 198_640_900, 1, 6_359_100, 0, 1, 198_640, 90_000_000]
        self.assertEqual(division.long_division(job, 100), struct.pack("<28q", *numbers))
        swelling = division.long_division(rules.job_bytes(specimen(elements=self.DRY[:1], budget=0)), 100)
        self.assertEqual(struct.unpack("<15q", swelling), (
            1, 1, -40_000_000, 81_750, -48_929, -54_250,
            1_500_000, 1_548_929, 150_000_000, 1, 55_000_000, 0, 1, 150_000, 0))
        single = rules.job_bytes(specimen(top=0, elements=self.DRY[:1]))
        self.assertEqual(division.long_division(single, 1)[:32], struct.pack("<4Q", 0, 1, 1_500_000, 1_500_000))
        for seconds, number in ((0, 13), (1_000_001, 13), (400, 14)):
            self.assertEqual(division.long_division(job, seconds), b"refused %d\n" % number)

    def test_input_of_the_program(self) -> None:
        job = rules.job_bytes(specimen())
        whole = struct.pack("<Q", 160) + job + struct.pack("<Q", 0x1234)
        for data, read in ((whole, (job, 0x1234)), (whole + b"more", (job, 0x1234)), (whole[:169], (job, 0x34)),
                           (whole[:168], (job, 0)), (whole[:163], (job[:155], 0)), (b"", (b"", 0)),
                           (b"\5", (b"", 0)), (bytes(8) + b"\7", (b"", 7)),
                           (b"\xff" * 8 + b"x" * 8_192 + b"\2", (b"x" * 8_192, 2))):
            self.assertEqual(division.read_input(data), read, len(data))
        self.assertEqual(division.program_output(b""), b"refused 1\n")
        self.assertEqual(division.program_output(struct.pack("<Q", 8_193) + job), b"refused 13\n")
        self.assertEqual(division.program_output(struct.pack("<Q", 160) + job[:-1]), b"refused 4\n")


class Runs(unittest.TestCase):
    """The loop of a run."""

    def test_stops(self) -> None:
        for changes, expected in (
                ({"end": 0, "budget": 0}, (0, 0, 0)),
                ({"end": 1, "budget": 0}, (0, 1, 0)),
                ({"end": 367, "budget": 1}, (0, 0, 1)),
                ({"end": 369, "budget": 1}, (0, 1, 1)),
                ({"end": 9, "budget": 9, "curve2": [(1, 10**9), (10**9, 10**9)]}, (0, 2, 0)),
                ({"end": 999, "budget": 9, "table": [(0, 300_000_000)]}, (0, 3, 0))):
            job = specimen(**changes)
            self.assertEqual(rules.run_call(opened(job), job.end, job.budget), expected, changes)

    def test_stop_keeps_the_new_load_and_nothing_else(self) -> None:
        for soil in ({"curve2": [(1, 10**9), (10**9, 10**9)]}, {}):
            record = opened(specimen(table=[(0, 1_900_000_000)], **soil))
            self.assertEqual(rules.load_call(record, 15_000_000), 0)
            before = record.copy()
            refusal, stop, steps = rules.run_call(record, 1_000, 5)
            self.assertEqual((refusal, steps, record.load), (0, 0, 1_900_000_000))
            self.assertIn(stop, (2, 3))
            record.load = before.load
            self.assertEqual(record, before)

    def test_table_bounds_steps(self) -> None:
        record = opened(specimen(table=[(0, 15_000_000), (3, 15_000_005), (10, 15_000_000)]))
        clocks, loads = [], []
        for _ in range(4):
            self.assertEqual(rules.run_call(record, 2_000, 1), (0, 1, 1))
            clocks.append(record.clock)
            loads.append(record.load)
        self.assertEqual((clocks[:2], loads[:3]), ([3, 10], [15_000_000, 15_000_005, 15_000_000]))
        self.assertEqual(rules.table_load([(0, 10), (3, 5)], 1), 9)
        self.assertEqual(rules.table_load([(0, 5), (3, 10)], 1), 6)

    def test_closed_single_element_has_no_longest_step(self) -> None:
        record = opened(specimen(top=0, elements=[(1_000_000, 2_000_000)]))
        self.assertEqual(rules.step_call(record, 1_000_000), 0)
        self.assertEqual(rules.run_call(record, 3_000_000_000, 1_000_000), (0, 0, 2_999))
        self.assertEqual(record.water_heights(), [2_000_000])


class Literal(unittest.TestCase):
    """Quick forms of the rules against slow, literal ones."""

    def records(self, count: int) -> Iterator[rules.Record]:
        """Opened records from made jobs."""
        for job in makers.make_inputs("jobs", SEED + 1, count):
            refusal, record = rules.open_job(job)
            if refusal == 0:
                yield record

    def test_interpolation(self) -> None:
        for record in self.records(200):
            first, second = record.first_points(), record.second_points()
            layer = rules.Layer(record)
            for solids, water in zip(layer.solids, record.water):
                void = rules.void_ratio(solids, water)
                for (stress_a, void_a), (stress_b, void_b) in zip(first, first[1:]):
                    if void_b <= void <= void_a:
                        share = Fraction(void_a - void, void_a - void_b)
                        self.assertEqual(layer.compressibility.effective_stress(void),
                                         stress_a + math.floor((stress_b - stress_a) * share))
                for (void_a, k_a), (void_b, k_b) in zip(second, second[1:]):
                    if void_a <= void <= void_b:
                        share = Fraction(void - void_a, void_b - void_a)
                        self.assertEqual(layer.permeability.conductivity(void), k_a + math.floor((k_b - k_a) * share))

    def test_longest_step(self) -> None:
        for record in self.records(200):
            layer = rules.Layer(record)
            resistances = rules.face_resistances(layer, layer.read(record.load, record.water)[1])
            stiffness = max(math.ceil(Fraction(b[0] - a[0], a[1] - b[1]))
                            for a, b in zip(record.first_points(), record.first_points()[1:]))

            def too_long(seconds: int) -> bool:
                voids = [math.ceil(Fraction(100_000_000, solids)) for solids in layer.solids]
                return any(face is not None and 2 * void * stiffness * seconds > face
                           for j, void in enumerate(voids) for face in resistances[j:j + 2])

            longest = rules.longest_step(layer, resistances)
            if longest is None:
                self.assertEqual((record.elements, record.top, record.bottom), (1, None, None))
            else:
                self.assertTrue(longest == 0 or not too_long(longest))
                self.assertTrue(too_long(longest + 1))

    def test_equilibrium_water(self) -> None:
        chance = Chance(SEED, 0)
        missing = 0
        for _ in range(150):
            low = chance.between(1, 60_000)
            high = low + chance.scaled(1, 5_000)
            curve = rules.Compressibility([(chance.between(0, 50), high), (chance.between(51, 200), low)])
            solids, stress = chance.pick([100_000, 120_007, 777_777]), chance.between(0, 200)
            found: Optional[int] = None
            for water in range(1_000):
                void = rules.void_ratio(solids, water)
                if curve.holds(void) and curve.effective_stress(void) <= stress <= curve.stresses[-1]:
                    found = water
                    break
            missing += found is None
            self.assertEqual(rules.equilibrium_water(curve, solids, stress), found)
        self.assertTrue(20 < missing < 130)


class Made(unittest.TestCase):
    """Made inputs reach every cause and stop, and no refusal changes a record."""

    def test_every_cause_and_stop(self) -> None:
        causes, stops = set(), set()
        for job in makers.make_inputs("jobs", SEED, 300):
            refusal, result = rules.key(job)
            causes.add(refusal)
            if refusal == 0:
                stops.add(result[5])
                causes.add(rules.key_into(job, bytearray(len(result) - 1)))
        self.assertEqual((causes, stops), (set(range(11)), {0, 1, 2, 3}))
        causes, stops = set(), set()
        for kind in ("lists", "records"):
            for text in makers.make_inputs(kind, SEED, 150):
                self.check_list(text.decode(), causes, stops)
        self.assertEqual((causes, stops), ({0, 11, 12, 13, 14, 15, 16}, {0, 1, 2, 3}))

    def check_list(self, text: str, causes: set, stops: set) -> None:
        """Answer a list; note its causes and stops, and compare the record before and after each call."""
        script = lists.Script()
        opening = 0
        for line in text.splitlines():
            before = script.record.copy() if script.record else rules.Record()
            answers = script.answer(line)
            name = line.split(" ")[0]
            if name == "job":
                opening = int(answers[0].split(" ")[1])
            if name not in lists.CALLS:
                continue
            words = answers[0].split(" ")
            refusal = int(words[1])
            causes.add(refusal)
            if name == "run" and refusal == 0:
                stops.add(int(words[2]))
            if refusal:
                self.assertEqual(script.record, before, line)
            if text.startswith("job") and opening == 0:
                self.assertNotEqual(refusal, 11)
            self.check_kept(before, script.record)

    def check_kept(self, before: rules.Record, after: rules.Record) -> None:
        """All that no call may change is as it was, places past a count included."""
        count = before.elements
        self.assertEqual(after.water[count:], before.water[count:])
        moving = ("water", "load", "clock", "top_outflow", "bottom_outflow")
        for name, value in vars(before).items():
            if name not in moving:
                self.assertEqual(getattr(after, name), value, name)


class Tally:
    """The rises and falls of load, and what the excess pressures may be."""

    def __init__(self, record: rules.Record) -> None:
        excess = rules.excess_pressures(record)
        held = [pressure for pressure in (record.top, record.bottom) if pressure is not None]
        self.low, self.high = min(excess + held), max(excess + held)
        self.rises = self.falls = 0
        self.load, self.water = record.load, sum(record.water_heights())
        self.height = sum(record.solid_heights()) + self.water
        self.gentle = min(excess) >= 0 and (record.bottom is None or record.bottom_level == record.top_level)
        self.outflows = (0, 0)

    def set_load(self, load: int) -> None:
        """Note a load that was set."""
        self.rises += max(0, load - self.load)
        self.falls += max(0, self.load - load)
        self.load = load

    def faults(self, record: rules.Record) -> List[str]:
        """The claims that a record breaks."""
        found = []
        water = sum(record.water_heights())
        outflows = (record.top_outflow, record.bottom_outflow)
        excess = rules.excess_pressures(record)
        if not rules.is_layer(record):
            found.append("layer")
        if record.starting_water != self.water or water + sum(outflows) != self.water:
            found.append("water")
        present = sum(record.solid_heights()) + water
        if not rules.settlement(record) == self.height - present == sum(outflows):
            found.append("settlement")
        if min(excess) < self.low - self.falls or max(excess) > self.high + self.rises:
            found.append("excess pressure")
        if self.gentle and self.falls == 0 and (outflows[0] < self.outflows[0] or outflows[1] < self.outflows[1]):
            found.append("outflow")
        self.outflows = outflows
        return found


class Claims(unittest.TestCase):
    """Balance, settlement and bounds of excess pressure after every single step of made lists."""

    def test_lists(self) -> None:
        checked = 0
        for text in makers.make_inputs("lists", SEED + 2, 300):
            lines = text.decode().splitlines()
            refusal, record = rules.open_job(lists.job_of_words(lines[0].split(" ")[1:]))
            if refusal:
                continue
            tally = Tally(record)
            self.assertEqual(tally.faults(record), [])
            for line in lines[1:]:
                checked += self.follow(record, tally, line)
        self.assertGreater(checked, 1_000)

    def follow(self, record: rules.Record, tally: Tally, line: str) -> int:
        """Make a call, a run as runs of one step each, and check the claims; gives the number of checks."""
        name, *words = line.split(" ")
        numbers = [int(word) for word in words]
        if name != "run":
            lists.answer_call(record, name, numbers)
            tally.set_load(record.load)
            self.assertEqual(tally.faults(record), [], line)
            return 1
        whole = record.copy()
        refusal, stop, steps = rules.run_call(whole, *numbers)
        stride = 1 if steps < 60 else steps // 30
        taken = 0
        while refusal == 0:
            _, one_stop, one = rules.run_call(record, numbers[0], min(1, numbers[1] - taken))
            tally.set_load(record.load)
            taken += one
            if taken % stride == 0 or one == 0:
                self.assertEqual(tally.faults(record), [], line)
            if one == 0 or one_stop != rules.BUDGET_USED:
                self.assertEqual((stop, steps), (one_stop, taken))
                break
        self.assertEqual(record, whole)
        return min(taken, 60)


def terzaghi(time_factor: float) -> float:
    """Average degree of consolidation of a thin layer drained on one side, by the series."""
    modes = [math.pi * (2 * m + 1) / 2 for m in range(100)]
    return 1 - sum(2 / mode**2 * math.exp(-mode**2 * time_factor) for mode in modes)


class ThinLayer(unittest.TestCase):
    """A layer 2 m high that settles 1 mm, against the series for small strain.

    The method cuts the layer in elements, so it is a little slow at first: worked in real numbers with ten elements
    and the same steps it is 0.62 % below the series at 0.05 and 0.31 % at 0.1, with twenty 0.16 % and 0.08 %.
    """

    TIME_FACTORS = (0.05, 0.1, 0.197, 0.286, 0.403, 0.567, 0.848)

    def degrees(self, count: int) -> List[float]:
        """Degree of consolidation at the time factors, for a number of elements."""
        conductivity, height = 100_000, 1_000_000_000 // count
        job = rules.Job(top=1, bottom=0, elements=[(height, height)] * count,
                        curve1=[(0, 100_000_000), (200_000_000, 99_800_000)],
                        curve2=[(99_000_000, conductivity), (101_000_000, conductivity)], table=[(0, 100_000_000)])
        record = opened(job)
        compressibility = 1e-3 / 100                                  # void ratio per kPa
        rate = conductivity * 1e-15 * 2 / (compressibility * 9.81)    # m2/s
        degrees = []
        for time_factor in self.TIME_FACTORS:
            refusal, stop, _ = rules.run_call(record, round(time_factor * 4 / rate), 1_000_000)
            self.assertEqual((refusal, stop), (0, 0))
            degrees.append(rules.settlement(record) / 1_000_000)
        return degrees

    def test_ten_elements(self) -> None:
        for time_factor, degree in zip(self.TIME_FACTORS, self.degrees(10)):
            series = terzaghi(time_factor)
            self.assertLess(abs(degree - series), 0.003, time_factor)
            if time_factor > 0.15:
                self.assertLess(abs(degree / series - 1), 0.003, time_factor)

    def test_twenty_elements(self) -> None:
        for time_factor, degree in zip(self.TIME_FACTORS, self.degrees(20)):
            self.assertLess(abs(degree / terzaghi(time_factor) - 1), 0.003, time_factor)


if __name__ == "__main__":
    unittest.main(verbosity=0)
