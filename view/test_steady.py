#!/usr/bin/env python3
"""Tests of steady_layer.py and its search with a double of the program, which judges by the paper:
`python3 test_steady.py`. Quiet when all is well; exit status 1 when a test fails."""

from __future__ import annotations

import contextlib
import io
import itertools
import os
import sys
import tempfile
import unittest
from dataclasses import replace
from typing import List, Sequence, Tuple
from unittest import mock

HERE = os.path.dirname(os.path.abspath(__file__))
ROOT = os.path.dirname(HERE)
EXAMPLES = os.path.join(ROOT, "examples")
sys.path[:0] = [HERE, os.path.join(ROOT, "reference")]

import job as job_script  # noqa: E402
import keys  # noqa: E402
import layer  # noqa: E402
import layer_text  # noqa: E402
import makers  # noqa: E402
import rules  # noqa: E402
import stand_in  # noqa: E402
import steady_layer  # noqa: E402
from chance import Chance  # noqa: E402
from seepage import Ground, apart  # noqa: E402
from steady_search import Choice, Found, chain, search  # noqa: E402

DRAWN = 200
NONE = "no steady heights found: the upward flows of 1,000 s still differ by "

# Mud between two sands, the lower one artesian; no water is given.
TEXT = """\
# Mud over an artesian sand.
# It is invented.
top = "drained"
bottom = "drained"
top_level_m = 3
bottom_level_m = 3.4           # in a pipe
specific_gravity = 2.7
start = "rest"
end_days = 730
budget = 1_000_000

[elements]
count = 12
solids_m = 0.05

[compressibility]
stress_kPa = [0, 0.5, 1, 2, 5, 10, 20, 40]
void_ratio = [4.2, 3.4, 3.1, 2.8, 2.45, 2.2, 1.95, 1.7]

[conductivity]
void_ratio = [1.5, 1.8, 2.1, 2.5, 3, 3.6, 4.2]
conductivity_m_per_s = [9e-10, 1.8e-9, 3.2e-9, 6e-9, 1.2e-8, 2.3e-8, 4e-8]

[load]
time_days = [0, 10.5]
load_kPa = [5, 8]
"""


def mud(**changes: object) -> rules.Job:
    """The job of the text, with changes; its water is not steady."""
    made = layer_text.read_text(TEXT.encode("ascii"))
    pairs = [list(zip(*columns)) for columns in (
        (made.solids, [120_000_000] * 12), (made.stresses, made.voids), (made.conductivity_voids, made.conductivities),
        (made.times, made.loads))]
    return replace(rules.Job(made.top, made.bottom, 0, made.gravity, made.top_level, made.bottom_level, made.end,
                             made.budget, *pairs), **changes)


def specimen(**changes: object) -> rules.Job:
    """The paper's specimen, with changes."""
    with open(os.path.join(EXAMPLES, "specimen.job"), "rb") as source:
        return replace(rules.read_job(source.read()), **changes)


def with_water(job: rules.Job, water: Sequence[int]) -> rules.Job:
    """A job with a steady start and some water."""
    return replace(job, start=2, elements=[(solids, height) for (solids, _), height in zip(job.elements, water)])


def ground_of(job: rules.Job) -> Ground:
    """What flows depend on."""
    return Ground(layer.read_job(rules.job_bytes(job)))


def found_for(job: rules.Job, given: bool = True) -> Found:
    """What the search finds for a job."""
    return search(ground_of(job), [water if given else 0 for _, water in job.elements], lambda *_: None)


def quanta(*numbers: int) -> List[Tuple[int, int]]:
    """Elements by their solids."""
    return [(solids, 0) for solids in numbers]


class TheDouble(unittest.TestCase):
    """The double judges by the paper."""

    def test_one_nanometre_apart_and_two(self) -> None:
        sand = specimen(bottom=1, bottom_level=11_000_000, start=2)
        for water, flows, refusal in (([1_900_073, 1_900_024], [33, 32, 32], 0),
                                      ([1_900_073, 1_900_025], [33, 32, 33], 0),
                                      ([1_900_072, 1_900_024], [34, 32, 32], 20)):
            made = with_water(sand, water)
            self.assertEqual(stand_in.upward_flows(made), flows)
            self.assertEqual(stand_in.refusal(rules.job_bytes(made)), refusal)

    def test_order_of_causes(self) -> None:
        still = with_water(specimen(), [1_900_000] * 2)
        self.assertEqual(stand_in.refusal(rules.job_bytes(still)), 0)
        for changes, cause in (({"start": 3}, 3), ({"budget": 2**40}, 5), ({"table": [(1, 0)]}, 8),
                               ({"elements": [(1_000_000, 2_000_001)]}, 9), ({"table": [(0, 15_001_000)]}, 20)):
            self.assertEqual(stand_in.refusal(rules.job_bytes(replace(still, **changes))), cause)
        rest = specimen(start=1, elements=quanta(1_000_000), bottom=1)
        for level, cause in ((10_000_000, 0), (10_000_001, 9), (9_999_999, 9), (0, 9)):
            self.assertEqual(stand_in.refusal(rules.job_bytes(replace(rest, bottom_level=level))), cause)


class Flows(unittest.TestCase):
    """Flows as the search measures them."""

    def test_the_specimen(self) -> None:
        for water, changes, flows in (([2_000_000] * 2, {}, [0, 0, 135_915]),
                                      ([2_000_000] * 2, {"top": 0}, [0, 0, 0]),
                                      ([1_800_000, 1_900_000], {}, [0, -66_152, 0]),
                                      ([1_900_000, 1_800_000], {}, [0, 66_152, -131_061]),
                                      ([1_900_000] * 2, {"bottom": 1, "bottom_level": 9_000_000}, [-131, 0, 0])):
            self.assertEqual(ground_of(specimen(**changes)).flows(water), flows)

    def test_drawn_layers(self) -> None:
        for index in range(DRAWN):
            made = replace(makers.make_job(Chance(93_000, index)), start=0)
            if rules.open_job(rules.job_bytes(made))[0] == 0:
                water = [height for _, height in made.elements]
                self.assertTrue(ground_of(made).on_curve(water))
                self.assertEqual(ground_of(made).flows(water), stand_in.upward_flows(made))

    def test_the_ends_of_the_curve(self) -> None:
        for solids in (100_000, 333_333, 1_000_003, 100_000_000):
            made = specimen(elements=quanta(solids))
            ground = ground_of(made)
            for water, on in ((ground.least[0], True), (ground.most[0], True), (ground.least[0] - 1, False),
                              (ground.most[0] + 1, False)):
                self.assertEqual(ground.on_curve([water]), on)
                opened = rules.open_job(rules.job_bytes(replace(made, elements=[(solids, water)])))
                self.assertEqual(opened[0], 0 if on else 9)


class Searches(unittest.TestCase):
    """What is found."""

    def assert_steady(self, job: rules.Job) -> List[int]:
        """Steady heights are found, whatever water is given; gives their flows by the double."""
        for given in (True, False):
            found = found_for(job, given)
            made = with_water(job, found.water)
            self.assertTrue(found.steady(), (found.flows, found.off))
            self.assertEqual(stand_in.refusal(rules.job_bytes(made)), 0)
            self.assertEqual(stand_in.upward_flows(made), found.flows)
        return stand_in.upward_flows(made)

    def test_upward(self) -> None:
        self.assertEqual(set(self.assert_steady(mud())), {911})

    def test_downward(self) -> None:
        self.assertLess(max(self.assert_steady(mud(bottom_level=2_000_000_000))), -1_000)

    def test_faster_with_more_head_and_looser(self) -> None:
        flows, water = [], []
        for more in range(-900, 600, 100):
            sand = mud(bottom_level=3_000_000_000 + more * 1_000_000)
            flows.append(self.assert_steady(sand)[0])
            water.append(sum(found_for(sand).water))
        self.assertEqual((flows, water), (sorted(set(flows)), sorted(set(water))))
        self.assertEqual(flows[9], 0)

    def test_a_closed_face(self) -> None:
        closed = mud(bottom=0, bottom_level=0)
        self.assert_steady(closed)
        rest = rules.open_job(rules.job_bytes(replace(closed, start=1, elements=quanta(*[50_000_000] * 12))))[1]
        self.assertLess(max(abs(new - old) for new, old in zip(found_for(closed).water, rest.water)), 9)
        flows = self.assert_steady(mud(top=0))
        self.assertLessEqual({abs(flow) for flow in flows}, {0, 1})

    def test_both_faces_closed_keep_their_water(self) -> None:
        for water in (100_000_000, 110_123_457):
            shut = mud(top=0, bottom=0, bottom_level=0, elements=[(50_000_000, water)] * 12)
            self.assert_steady(shut)
            self.assertEqual(sum(found_for(shut).water), 12 * water)
        rest = found_for(mud(bottom=0, bottom_level=0), given=False).water
        self.assertEqual(found_for(shut, given=False).water, rest)
        for far in (70_000_000, 200_000_000):
            shut = mud(top=0, bottom=0, bottom_level=0, elements=[(50_000_000, far)] * 12)
            self.assertEqual(found_for(shut).water, rest)

    def test_any_number_of_elements(self) -> None:
        for count in (1, 2, 3, 30):
            for head in (-100, -1, 0, 1, 100):
                self.assert_steady(mud(elements=[(50_000_000, 100_000_000)] * count,
                                       bottom_level=3_000_000_000 + head * 1_000_000))

    def test_most_elements_and_points(self) -> None:
        voids = [420_000_000 - 4_000_000 * i for i in range(64)]
        stresses = [i * i * 25_000 for i in range(64)]
        conductivities = [20_000 + 9 * i * i * i for i in range(64)]
        for head in (2, -2):
            self.assert_steady(mud(elements=[(20_000_000 + 10_000 * i, 0) for i in range(128)],
                                   curve1=list(zip(stresses, voids)), curve2=list(zip(reversed(voids), conductivities)),
                                   bottom_level=3_000_000_000 + head * 1_000_000_000))

    def test_unlike_elements(self) -> None:
        self.assert_steady(mud(elements=quanta(*[30_000_001, 1_000_000, 90_000_000, 7_654_321, 40_000_000] * 4)))

    def test_the_least_head(self) -> None:
        for more in (-102, -101, 101, 102, 204, -204):
            self.assert_steady(mud(bottom_level=3_000_000_000 + more))

    def test_steady_water_stays(self) -> None:
        found = found_for(mud())
        moved = [found.water[0] + 1] + found.water[1:]
        self.assertEqual(found_for(with_water(mud(), moved)).water, moved)

    def test_drawn_layers(self) -> None:
        steady_ones, none = 0, 0
        for index in range(DRAWN // 2):
            made = replace(makers.make_job(Chance(94_000, index)), start=0)
            if rules.body_refusal(made) or ground_of(made).without_height():
                continue
            found = found_for(made)
            wet = with_water(made, found.water)
            self.assertEqual(found.flows, stand_in.upward_flows(wet))
            self.assertEqual(stand_in.refusal(rules.job_bytes(wet)), 0 if found.steady() else 20)
            steady_ones, none = steady_ones + found.steady(), none + (not found.steady())
        self.assertGreater(steady_ones, DRAWN // 4)
        self.assertGreater(none, DRAWN // 20)

    def assert_all_found(self, job: rules.Job, reach: int) -> bool:
        """Steady heights are found if there are any within a reach of those that are found; whether they are."""
        found, ground = found_for(job), ground_of(job)
        near = [range(max(least, water - reach), min(most, water + reach) + 1)
                for least, water, most in zip(ground.least, found.water, ground.most)]
        best = min(apart(stand_in.upward_flows(with_water(job, water))) for water in itertools.product(*near))
        self.assertEqual(found.steady(), best <= 1, (found.flows, best))
        return found.steady()

    def test_stiff_layers(self) -> None:
        """Where 1 nm moves a flow by 1 nm to 4 nm, and by more."""
        found = [self.assert_all_found(specimen(
            elements=quanta(*[600_000 + 7_919 * index] * (1 + index % 3)), bottom=1,
            bottom_level=10_000_000 + 377_777 * index, table=[(0, 30_000_000)]), 3) for index in range(90)]
        self.assertTrue(10 < sum(found) < 80, sum(found))
        found = [self.assert_all_found(specimen(
            elements=quanta(*[100_000 + 977 * index] * (1 + index % 2)), bottom=1,
            bottom_level=10_000_000 + 3_777_777 * index, table=[(0, 30_000_000)],
            curve2=[(100_000_000, 5_000), (200_000_000, 9_000)]), 12) for index in range(60)]
        self.assertTrue(5 < sum(found) < 55, sum(found))

    def test_chains(self) -> None:
        """Of all chains of some choices one is taken whose flows go least far from two numbers."""
        ground, chance = ground_of(specimen(bottom=1, bottom_level=10_001_000)), Chance(95_000, 0)
        for most in [9, 60, 9_000] * 100:
            rows = [[Choice(at, chance.between(-most, most), chance.between(1_000, 9_000))
                     for at in range(chance.between(1, 4))] for _ in range(chance.between(1, 5))]

            def farthest(water: Sequence[int]) -> int:
                taken = [row[at] for row, at in zip(rows, water)]
                p, r = [choice.pressure for choice in taken], [choice.resistance for choice in taken]
                flows = [stand_in.toward_zero((9 - p[0]) * 1_000, r[0]), stand_in.toward_zero(p[-1] * 1_000, r[-1])]
                flows += [stand_in.toward_zero((p[j] - p[j + 1]) * 1_000, r[j] + r[j + 1]) for j in range(len(p) - 1)]
                return max(max(1 - flow, flow - 2) for flow in flows)
            best = min(map(farthest, itertools.product(*(range(len(row)) for row in rows))))
            self.assertEqual(farthest(chain(ground, rows, 1)), best)

    def test_boiling(self) -> None:
        lifted = mud(bottom_level=6_000_000_000)
        found = found_for(lifted)
        self.assertFalse(found.steady())
        self.assertEqual(found.off[0].element, 1)
        self.assertLess(found.off[0].stress, 0)
        shut = found_for(mud(top=0, bottom_level=6_000_000_000))
        self.assertEqual((shut.off[0], len(shut.off)), ((12, 5_000_000 + 416_925 - 29_430_000), 12))

    def test_loads_off_the_curve(self) -> None:
        heavy = found_for(mud(bottom=0, bottom_level=0, table=[(0, 35_000_000)]))
        self.assertFalse(heavy.steady())
        self.assertEqual(heavy.off[0], (1, 35_000_000 + 11 * 833_850 + 416_925))
        self.assertEqual([place for place, _ in heavy.off], [1, 2, 3, 4, 5, 6])
        light = found_for(specimen(table=[(0, 1_000_000)]))
        self.assertEqual((light.steady(), light.off[0].stress), (False, 1_000_000))


def run(arguments: Sequence[str], script: object = steady_layer,
        double: object = stand_in.composed) -> Tuple[int, str, str]:
    """Exit status, output and messages of a script that asks a double."""
    out, messages = io.StringIO(), io.StringIO()
    with contextlib.redirect_stdout(out), contextlib.redirect_stderr(messages), \
            mock.patch.object(layer, "written", double):
        status = script.main(arguments)
    return status, out.getvalue(), messages.getvalue()


class Command(unittest.TestCase):
    """steady_layer.py, in a folder of its own for each test."""

    def setUp(self) -> None:
        folder = tempfile.TemporaryDirectory()
        self.addCleanup(folder.cleanup)
        self.addCleanup(os.chdir, os.getcwd())
        os.chdir(folder.name)

    def file(self, name: str, data: bytes) -> str:
        """A file with some bytes."""
        with open(name, "wb") as target:
            target.write(data)
        return name

    def text(self, *changes: str) -> str:
        """A file with the text, some words of which are replaced by others."""
        text = TEXT
        for old, new in zip(changes[::2], changes[1::2]):
            assert text.count(old) == 1, old
            text = text.replace(old, new)
        return self.file("mud.toml", text.encode("utf-8"))

    def bytes_of(self, name: str) -> bytes:
        """The bytes of a file."""
        with open(name, "rb") as source:
            return source.read()

    def written(self, *arguments: str) -> Tuple[bytes, str]:
        """The file that is written, and the output."""
        status, out, messages = run(["", *arguments])
        self.assertEqual(status, 0, messages)
        return self.bytes_of(out.split()[1].rstrip(",")), out

    def job_of(self, text: bytes) -> rules.Job:
        """The job of a text, which has to be accepted."""
        status, _, messages = run(["", self.file("again.toml", text), "again.job"], job_script)
        self.assertEqual((status, messages), (0, ""))
        return rules.read_job(self.bytes_of("again.job"))

    def assert_none(self, arguments: Sequence[str], status: int, last: str, double: object = stand_in.composed) -> None:
        """Nothing is written, and the last message is one line."""
        before = {name: self.bytes_of(name) for name in os.listdir(".")}
        found, out, messages = run(["", *arguments], double=double)
        self.assertEqual((found, out), (status, ""), messages)
        self.assertEqual(messages.splitlines()[-1], last)
        self.assertTrue(all(line.startswith("steady: ") for line in messages.splitlines()[:-1]), messages)
        self.assertEqual({name: self.bytes_of(name) for name in os.listdir(".")}, before)

    def test_a_text(self) -> None:
        data, out = self.written(self.text())
        lines = data.decode("ascii").splitlines()
        self.assertEqual(lines[:15], [
            "# Mud over an artesian sand.", "# It is invented.",
            "# The water heights are from ./kufandra steady: 911 nm go upward through every face in 1,000 s, about "
            "28.73 mm a year.", 'top = "drained"', 'bottom = "drained"', "top_level_m = 3", "bottom_level_m = 3.4",
            "specific_gravity = 2.7", 'start = "steady"', "end_days = 730", "budget = 1000000", "",
            "[elements]  # from the lowest up", "count = 12", "solids_m = 0.05"])
        self.assertIn("    [10.5, 8],", lines)
        made = self.job_of(data)
        self.assertEqual(made, with_water(mud(), [water for _, water in made.elements]))
        self.assertEqual(out, "wrote mud_steady.toml, which the program takes for steady\n"
                         "seepage   911 nm go upward through every face in 1,000 s, about 28.73 mm a year\n"
                         "water     %s mm in all\n" % keys.millimetres(sum(water for _, water in made.elements)))

    def test_every_start_gives_the_same_layer(self) -> None:
        wanted = self.job_of(self.written(self.text())[0])
        for changes in (('"rest"', '"given"'), ('"rest"', '"steady"'),
                        ('"rest"', '"given"', "0.05\n", "0.05\nwater_m = 0.12\n"),
                        ('"rest"', '"steady"', "0.05\n", "0.05\nwater_m = 0.9\n"),
                        ('"rest"', '"steady"', "0.05\n", "0.05\nwater_m = 1.1\n"),
                        ("0.05\n", "0.05\nwater_m = 0\n"), ("0.05\n", "0.05\nwater_m = 0.11\n")):
            self.assertEqual(self.job_of(self.written(self.text(*changes))[0]), wanted, changes)

    def test_jobs(self) -> None:
        wanted = rules.job_bytes(self.job_of(self.written(self.text())[0]))
        self.assertEqual(self.written(self.text(), "out.job")[0], wanted)
        for start in (0, 1, 2):
            elements = quanta(*[50_000_000] * 12) if start == 1 else mud().elements
            given = self.file("given.job", rules.job_bytes(mud(start=start, elements=elements)))
            self.assertEqual(self.written(given, "out.job")[0], wanted)
            data, _ = self.written(given)
            self.assertEqual(rules.job_bytes(self.job_of(data)), wanted)
            self.assertTrue(data.startswith(b"# The layer of given.job.\n# The water heights are"))
            self.assertIn(b"\nend_years = 2\n", data)
        self.assertTrue(os.path.exists("given_steady.toml"))

    def test_what_changed_is_told(self) -> None:
        given = self.file("given.job", rules.job_bytes(mud()))
        out = self.written(given)[1]
        self.assertRegex(out, r"water     1,\d{3}\.\d{6} mm in all, \d+\.\d{6} mm less than was given; element 1 "
                         r"changed most, by -\d\d\.\d{6} mm\n$")
        again = self.written("given_steady.toml", "again.toml")
        self.assertTrue(again[1].endswith(" mm in all, as it was given\n"))
        self.assertEqual(again[0], self.bytes_of("given_steady.toml"))

    def test_words_of_flows(self) -> None:
        for flows, words in (([0, 0], "nothing flows through any face in 1,000 s"),
                             ([5, 5, 6], "5 to 6 nm go upward through every face in 1,000 s, about 0.1682 mm a year"),
                             ([-1_000, -1_001], "1,000 to 1,001 nm go downward through every face in 1,000 s, about "
                              "31.55 mm a year"),
                             ([0, -1], "0 to 1 nm go downward through every face in 1,000 s, about 0.01577 mm a year"),
                             ([0, 1], "0 to 1 nm go upward through every face in 1,000 s, about 0.01577 mm a year")):
            self.assertEqual(steady_layer.seepage_words(flows), words)

    def test_none_found(self) -> None:
        self.file("mud_steady.toml", b"as it was")
        for changes, words in (
                (("3.4 ", "6 "), "452,398 nm, 13,076 nm through the face between elements 1 and 2 and 465,474 nm "
                 "through the bottom; element 1 would need an effective stress of -13.797691 kPa, and the curve has 0 "
                 "to 40 kPa: the water would lift the soil, and 10 other elements off it as well"),
                (('"drained"\ntop', '"closed"\ntop', "bottom_level_m = 3.4 ", "", "[5, 8]", "[35, 8]"),
                 "944 nm, 0 nm through the bottom and 944 nm through the face between elements 1 and 2; element 1 "
                 "would need an effective stress of 44.589275 kPa, and the curve has 0 to 40 kPa: the load is too "
                 "great for the curve, and 5 other elements off it as well")):
            self.assert_none([self.text(*changes)], 1, "mud.toml: " + NONE + words)

    def test_why_an_element_is_off_the_curve(self) -> None:
        for job, why in ((mud(bottom_level=6_000_000_000), "the water would lift the soil"),
                         (specimen(table=[(0, 1_000_000)]), "the load is too small for the curve"),
                         (mud(table=[(0, 35_000_000)]), "the load is too great for the curve"),
                         (mud(bottom_level=0), "the water would press the soil past the curve")):
            words = steady_layer.off_words(ground_of(job), found_for(job))
            self.assertIn(": %s" % why, words)

    def test_too_coarse(self) -> None:
        stiff = specimen(elements=quanta(100_000), bottom=1, bottom_level=11_000_000)
        self.assertEqual(stand_in.upward_flows(with_water(stiff, [190_005])), [642, 667])
        self.assert_none([self.file("stiff.job", rules.job_bytes(stiff))], 1,
                         "stiff.job: " + NONE + "25 nm, 642 nm through the bottom and 667 nm through the top; the "
                         "least change of water that changes the stress of element 1 moves a flow by 134 nm, so whole "
                         "numbers may be too coarse")

    def test_no_whole_height(self) -> None:
        narrow = specimen(elements=quanta(1_000_000, 100_001), curve1=[(0, 150_000_001), (1, 150_000_000)])
        self.assert_none([self.file("narrow.job", rules.job_bytes(narrow))], 1, "narrow.job: no steady heights found: "
                         "no whole height of element 2, 0.000100001 m of solids, is on the curve")

    def test_refused_layers(self) -> None:
        for changes, number, blame in (
                (("= 2.7", "= 9"), 3, "specific_gravity: 9 is not within 1 to 5"),
                (("= 1_000_000", "= 1_000_001"), 5, "budget: 1000001 steps is not within 0 to 1000000 steps"),
                (("0.5, 1, 2, 5,", "0.5, 1, 1, 5,"), 6,
                 "compressibility.stress_kPa, point 4: 1 kPa does not rise above 1 kPa of point 3"),
                (("3.6, 4.2]\ncond", "3.6, 4.1]\ncond"), 7,
                 "conductivity.void_ratio: 1.5 to 4.1 does not cover 4.2 of compressibility, point 1"),
                (("[0, 10.5]", "[1, 10.5]"), 8, "load.time_days, point 1: 1 day is not 0")):
            self.assert_none([self.text(*changes)], 1,
                             "mud.toml: refused %d: %s; %s" % (number, keys.REFUSALS[number], blame))
        job = rules.job_bytes(mud())
        for data, number in ((job[:47], 1), (job[:3] + b"\2" + job[4:], 2), (job[:11] + b"\3" + job[12:], 3),
                             (job[:-1], 4)):
            self.assert_none([self.file("x.job", data)], 1, "x.job: refused %d: %s" % (number, keys.REFUSALS[number]))

    def test_the_program_has_the_last_word(self) -> None:
        for number, words in ((9, keys.REFUSALS[9]), (20, keys.REFUSALS[20]), (99, "a cause of another number")):
            def double(program: str, data: bytes) -> bytes:
                return b"refused %d\n" % number if data[48] == 2 else stand_in.composed(program, data)
            self.assert_none([self.text()], 1, "mud.toml: the program does not take the heights found: refused %d: %s"
                             % (number, words), double)
        self.assert_none([self.text()], 2, "steady: the program wrote neither a job nor a refusal (0 bytes)",
                         lambda *_: b"")

    def test_the_program_judges_the_heights_that_are_written(self) -> None:
        asked: List[bytes] = []

        def double(program: str, data: bytes) -> bytes:
            asked.append(data)
            return stand_in.composed(program, data)
        run(["", self.text(), "out.toml"], double=double)
        self.assertEqual(asked[-1], layer.words(layer_text.read_text(self.bytes_of("out.toml"))))
        self.assertEqual([data[48] for data in asked], [1, 2])

    def test_no_layer(self) -> None:
        for arguments, last in (([self.file("bad.toml", b"top = 1\n")],
                                 'steady: bad.toml: top: 1 is neither "closed" nor "drained"'),
                                (["none.toml"], "steady: none.toml: No such file or directory"),
                                ([self.file("odd.toml", b"\xff")], "steady: odd.toml: line 1 is no text in UTF-8"),
                                ([], "usage: steady_layer.py PROGRAM LAYER [OUT.toml or OUT.job]"),
                                (["a", "b.job", "c"], "usage: steady_layer.py PROGRAM LAYER [OUT.toml or OUT.job]")):
            found, out, messages = run(["", *arguments])
            self.assertEqual((found, out, messages), (2, "", last + "\n"))

    def test_places_that_cannot_be_written(self) -> None:
        path = self.text()
        os.symlink(path, "link.toml")
        for out, wrong in ((path, "the steady layer would take the place of the layer that was given"),
                           ("link.toml", "the steady layer would take the place of the layer that was given"),
                           ("out.txt", "the name has to end in .toml for a text or in .job for a job"),
                           ("none/out.toml", "No such file or directory")):
            self.assert_none([path, out], 2, "steady: %s: %s" % (out, wrong))
        self.file("out.job", b"as it was")
        with mock.patch.object(os, "replace", side_effect=OSError(28, "No space left on device")):
            self.assert_none([path, "out.job"], 2, "steady: out.job: No space left on device")

    def test_progress(self) -> None:
        _, _, messages = run(["", self.text()])
        lines = messages.splitlines()
        self.assertTrue(lines[0].startswith("steady: flow 1, 1.000 nm in 1,000 s: off by -"), lines[0])
        self.assertEqual(lines[-1], "steady: 3 heights an element: flows differ by 0 nm in 1,000 s")
        self.assertTrue(3 <= len(lines) <= 9, lines)

    def test_progress_on_a_terminal(self) -> None:
        screen = io.StringIO()
        screen.isatty = lambda: True
        with contextlib.redirect_stderr(screen):
            progress = steady_layer.Progress()
            progress.end()
            progress("flow 1", True)
            progress("3", False)
            progress.end()
        self.assertEqual(screen.getvalue(), "\r%-78s\r%-78s\n" % ("steady: flow 1", "steady: 3"))

    def test_comments(self) -> None:
        for text, lines in (("", []), ("top = 1\n# no", []), ("# a\n#b\r\n\n# c\n", ["# a", "#b"]),
                            ("# a\n%s: old\n# b\nx" % steady_layer.FOUND_BY, ["# a", "# b"]), ("# a", ["# a"])):
            self.assertEqual(steady_layer.top_comment(text), lines)
        data = self.written(self.text("# It is invented.", "# M\u00fcd \u2028 = 1"))[0]
        self.assertEqual(self.job_of(data), self.job_of(self.written(self.text())[0]))


if __name__ == "__main__":
    unittest.main(verbosity=0)
