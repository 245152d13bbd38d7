#!/usr/bin/env python3
"""Draws how a job's layer consolidates.

    python3 plot.py PROGRAM JOBFILE [OUT.svg]

PROGRAM reads a job on standard input and writes its key, as target/bin/consolidate does. It is run to a row of ends
from 0 to the job's own: settlement, outflows and load are drawn against time, and pore pressures against height at
some of the ends. Without OUT.svg the drawing goes to the current folder under the job's name. Exit status 0 for a
drawing, 1 for a refused job, 2 where no key can be had.

What is drawn is read from the keys and the job. Only the heights of the nodes are added up here, for the axis.
"""

from __future__ import annotations

import math
import os
import struct
import sys
from typing import List, NamedTuple, Sequence, Tuple
from xml.sax.saxutils import escape

sys.path.insert(0, os.path.dirname(os.path.abspath(__file__)))

from keys import YEAR_DAYS, Key, NoAnswer, Refusal, ask, counted, job_bytes, stop_words  # noqa: E402

FACES = ("closed", "drained")
STARTS = ("with given water", "at rest", "steady")

ENDS = 40       # ends at equal distances in the square root of time, besides 0 and the load table's times
PROFILES = 6

MINUTE, HOUR, DAY = 60, 3_600, 86_400
YEAR = YEAR_DAYS * DAY
TIME_UNITS = [(3 * YEAR, YEAR, "years"), (3 * DAY, DAY, "days"), (3 * HOUR, HOUR, "hours"), (3 * MINUTE, MINUTE, "min")]
LENGTH_UNITS = [(1_000_000_000, 1_000_000_000, "m"), (1_000_000, 1_000_000, "mm"), (1_000, 1_000, "µm")]
STRESS_UNITS = [(1_000_000, 1_000_000, "kPa"), (1_000, 1_000, "Pa")]

# Colours that can be told apart with any colour vision; the dashes tell the lines apart without colour.
BLACK, BLUE, SKY, GREEN, ORANGE, RED = "#000000", "#0072b2", "#56b4e9", "#009e73", "#e69f00", "#d55e00"
PROFILE_LINES = [(BLACK, ""), (BLUE, "9 4"), (SKY, ""), (GREEN, "9 4"), (ORANGE, ""), (RED, "2 3")]

Point = Tuple[float, float]


class Unit(NamedTuple):
    """A unit for an axis: what it is in the key's own unit, and its sign."""

    size: int
    sign: str


def unit(most: int, units: Sequence[Tuple[int, int, str]], own: str) -> Unit:
    """The first unit in which the greatest number is not small; for nothing but zeros, the first."""
    return next((Unit(size, sign) for least, size, sign in units if most >= least or most == 0), Unit(1, own))


# ----------------------------------------------------------------------------------------------------------------
# The job and its keys
# ----------------------------------------------------------------------------------------------------------------

class Job(NamedTuple):
    """What a drawing needs of a job: faces, start, end, solids of the elements, times of the load table."""

    top: int
    bottom: int
    start: int
    end: int
    solids: List[int]
    load_times: List[int]


def read_job(job: bytes) -> Job:
    """The parts of a job that the program accepts."""
    elements, curve1, curve2, table = job[7:11]
    fields = struct.unpack_from("<%dQ" % (2 * (elements + curve1 + curve2 + table)), job, 48)
    firsts = fields[0::2]
    return Job(job[5], job[6], job[11], struct.unpack_from("<Q", job, 32)[0], list(firsts[:elements]),
               list(firsts[elements + curve1 + curve2:]))


def with_end(job: bytes, end: int) -> bytes:
    """The job with another end."""
    return job[:32] + struct.pack("<Q", end) + job[40:]


def without_budget(job: bytes) -> bytes:
    """The job with no steps to take, by which a refusal is known at once."""
    return job[:40] + bytes(8) + job[48:] if len(job) >= 48 else job


def chosen_ends(job: Job) -> List[int]:
    """The ends of a drawing, rising from 0."""
    spaced = {job.end * i * i // (ENDS * ENDS) for i in range(ENDS + 1)}
    return sorted(spaced | {time for time in job.load_times if time < job.end})


def report(done: int, count: int) -> None:
    """Say how far the runs are: on one line of a terminal, else on a line now and then."""
    text = "plot: run %d of %d" % (done, count)
    if sys.stderr.isatty():
        print("\r" + text, end="\n" if done == count else "", file=sys.stderr, flush=True)
    elif done == count or done % 10 == 0:
        print(text, file=sys.stderr, flush=True)


class Refused(Exception):
    """The program withholds the key."""


def key_at(program: str, job: bytes) -> Key:
    """The program's key of a job."""
    answer = ask(program, job)
    if isinstance(answer, Refusal):
        raise Refused("refused %d: %s" % (answer.number, answer.words()))
    return answer


def keys_at(program: str, job: bytes, ends: Sequence[int]) -> List[Key]:
    """The program's keys at a row of ends."""
    keys = []
    for end in ends:
        keys.append(key_at(program, with_end(job, end)))
        report(len(keys), len(ends))
    return keys


def node_heights(solids: Sequence[int], key: Key) -> List[float]:
    """Height of the middle of every element above the layer's base, lowest first."""
    heights, base = [], 0.0
    for dry, element in zip(solids, key.elements):
        height = dry + element.water
        heights.append(base + height / 2)
        base += height
    return heights


def layer_height(solids: Sequence[int], key: Key) -> int:
    """Height of the layer's top above its base."""
    return sum(solids) + sum(element.water for element in key.elements)


# ----------------------------------------------------------------------------------------------------------------
# Drawing
# ----------------------------------------------------------------------------------------------------------------

def ticks(low: float, high: float, about: int) -> List[float]:
    """Round numbers that span a range, some `about` of them."""
    span = high - low
    power = 10.0 ** math.floor(math.log10(span / about))
    step = next(power * factor for factor in (1, 2, 5, 10) if span / (power * factor) <= about)
    first, last = math.floor(low / step + 1e-9), math.ceil(high / step - 1e-9)
    return [step * i for i in range(first, last + 1)]


def tick_text(number: float, step: float) -> str:
    """A tick's number with as many decimals as the ticks need."""
    decimals = max(0, -math.floor(math.log10(step) + 1e-9))
    return format(round(number, decimals) + 0.0, ",.%df" % decimals)


class Panel:
    """A frame with two axes. `downward` lets the numbers of the upright axis rise downward."""

    def __init__(self, left: float, top: float, width: float, height: float, downward: bool = False) -> None:
        self.left, self.top, self.width, self.height = left, top, width, height
        self.downward = downward
        self.across: List[float] = []
        self.upright: List[float] = []
        self.marks: List[str] = []

    def scale(self, across: Sequence[float], upright: Sequence[float], about: Tuple[int, int]) -> None:
        """Choose both axes so that they hold the given numbers and 0."""
        def axis(numbers: Sequence[float], wanted: int) -> List[float]:
            low, high = min(0.0, *numbers), max(0.0, *numbers)
            return ticks(low, high if high > low else low + 1.0, wanted)
        self.across, self.upright = axis(across, about[0]), axis(upright, about[1])

    def place(self, point: Point) -> Point:
        """Where a point of the axes is on the sheet."""
        across = (point[0] - self.across[0]) / (self.across[-1] - self.across[0])
        upright = (point[1] - self.upright[0]) / (self.upright[-1] - self.upright[0])
        return (self.left + self.width * across,
                self.top + self.height * (upright if self.downward else 1 - upright))

    def frame(self, across_label: str, upright_label: str) -> None:
        """Draw grid, numbers and labels."""
        bottom, right = self.top + self.height, self.left + self.width
        for number in self.across:
            x, _ = self.place((number, self.upright[0]))
            self.marks.append(line(x, self.top, x, bottom, "#dddddd"))
            self.marks.append(text(x, bottom + 20, tick_text(number, self.across[1] - self.across[0]), "middle"))
        for number in self.upright:
            _, y = self.place((self.across[0], number))
            self.marks.append(line(self.left, y, right, y, "#999999" if number == 0 else "#dddddd"))
            self.marks.append(text(self.left - 8, y + 5, tick_text(number, self.upright[1] - self.upright[0]), "end"))
        self.marks.append('<rect x="%.1f" y="%.1f" width="%.1f" height="%.1f" fill="none" stroke="#333333"/>'
                          % (self.left, self.top, self.width, self.height))
        self.marks.append(text(self.left + self.width / 2, bottom + 44, across_label, "middle"))
        self.marks.append(text(self.left - 64, self.top + self.height / 2, upright_label, "middle", turned=True))

    def curve(self, name: str, points: Sequence[Point], colour: str, dashes: str, width: float,
              dots: float = 0) -> None:
        """Draw a line through points, with dots on them if they have a size."""
        placed = [self.place(point) for point in points]
        self.marks.append('<polyline class="%s" points="%s" fill="none" stroke="%s" stroke-width="%.1f"%s '
                          'stroke-linejoin="round"/>'
                          % (name, " ".join("%.1f,%.1f" % point for point in placed), colour, width, dash(dashes)))
        if dots:
            self.marks += ['<circle cx="%.1f" cy="%.1f" r="%.1f" fill="%s"/>' % (x, y, dots, colour)
                           for x, y in placed]


def dash(dashes: str) -> str:
    """The attribute of a dashed line."""
    return ' stroke-dasharray="%s"' % dashes if dashes else ""


def line(x1: float, y1: float, x2: float, y2: float, colour: str, dashes: str = "", width: float = 1) -> str:
    """A straight line."""
    return '<line x1="%.1f" y1="%.1f" x2="%.1f" y2="%.1f" stroke="%s" stroke-width="%.1f"%s/>' \
        % (x1, y1, x2, y2, colour, width, dash(dashes))


def text(x: float, y: float, words: str, anchor: str = "start", size: int = 15, turned: bool = False) -> str:
    """Words; turned ones read upward."""
    turn = ' transform="rotate(-90 %.1f %.1f)"' % (x, y) if turned else ""
    return '<text x="%.1f" y="%.1f" text-anchor="%s" font-size="%d"%s>%s</text>' \
        % (x, y, anchor, size, turn, escape(words))


def legend(x: float, y: float, words: str, colour: str, dashes: str, width: float) -> List[str]:
    """A sample of a line and what it is."""
    return [line(x, y - 5, x + 32, y - 5, colour, dashes, width), text(x + 40, y, words)]


def totals_panel(keys: Sequence[Key], time: Unit) -> List[str]:
    """Settlement and outflows against time."""
    lines = [("settlement", "settlement", [key.settlement for key in keys], BLUE, "", 4.0),
             ("top-outflow", "out at the top", [key.top_outflow for key in keys], ORANGE, "9 5", 2.5),
             ("bottom-outflow", "out at the bottom", [key.bottom_outflow for key in keys], BLACK, "2 4", 2.5)]
    length = unit(max(abs(number) for _, _, numbers, _, _, _ in lines for number in numbers), LENGTH_UNITS, "nm")
    times = [key.clock / time.size for key in keys]
    panel = Panel(100, 130, 470, 330, downward=True)
    panel.scale(times, [number / length.size for _, _, numbers, _, _, _ in lines for number in numbers], (8, 8))
    panel.frame("", "settlement and outflow, %s" % length.sign)
    for at, (name, words, numbers, colour, dashes, width) in enumerate(lines):
        panel.curve(name, [(x, number / length.size) for x, number in zip(times, numbers)], colour, dashes, width)
        panel.marks += legend((100, 240, 400)[at], 116, words, colour, dashes, width)
    return panel.marks


def load_panel(keys: Sequence[Key], time: Unit) -> List[str]:
    """Load against time."""
    stress = unit(max(key.load for key in keys), STRESS_UNITS, "mPa")
    points = [(key.clock / time.size, key.load / stress.size) for key in keys]
    panel = Panel(100, 510, 470, 110)
    panel.scale([x for x, _ in points], [y for _, y in points], (8, 3))
    panel.frame("time, %s" % time.sign, "load, %s" % stress.sign)
    panel.curve("load", points, RED, "", 2.5)
    return panel.marks


def profile_panel(job: Job, keys: Sequence[Key], time: Unit) -> List[str]:
    """Pore pressure against height at some of the ends."""
    last = len(keys) - 1
    count = min(PROFILES, len(keys))
    shown = [keys[last * i // max(1, count - 1)] for i in range(count)]
    heights = [node_heights(job.solids, key) for key in shown]
    pressures = [[element.pore_pressure for element in key.elements] for key in shown]
    length = unit(int(max(max(row) for row in heights)), LENGTH_UNITS, "nm")
    stress = unit(max(abs(number) for row in pressures for number in row), STRESS_UNITS, "mPa")
    panel = Panel(680, 130, 340, 490)
    panel.scale([number / stress.size for row in pressures for number in row],
                [layer_height(job.solids, key) / length.size for key in shown], (6, 10))
    panel.frame("pore pressure, %s" % stress.sign, "height above the base, %s" % length.sign)
    panel.marks.append(text(1040, 144, "time, %s" % time.sign))
    for at, (key, row, column, (colour, dashes)) in enumerate(zip(shown, pressures, heights, PROFILE_LINES)):
        points = [(x / stress.size, y / length.size) for x, y in zip(row, column)]
        panel.curve("profile", points, colour, dashes, 2.5, dots=4 if len(points) <= 12 else 0)
        panel.marks += legend(1040, 170 + 26 * at, format(round(key.clock / time.size, 2), ",g"), colour, dashes, 2.5)
    return panel.marks


def drawing(name: str, job: Job, keys: Sequence[Key]) -> str:
    """The whole sheet."""
    time = unit(max(1, keys[-1].clock), TIME_UNITS, "s")
    about = "%s, top %s, bottom %s, start %s; %s from there, the last of %s" \
        % (counted(len(job.solids), "element"), FACES[job.top], FACES[job.bottom], STARTS[job.start],
           counted(len(keys), "run"), counted(keys[-1].steps, "step"))
    stop = "stop %d of the last: %s" % (keys[-1].stop, stop_words(keys[-1].stop))
    marks = [text(100, 40, name, size=22), text(100, 64, about), text(100, 84, stop)]
    marks += totals_panel(keys, time) + load_panel(keys, time) + profile_panel(job, keys, time)
    return "\n".join(
        ['<svg xmlns="http://www.w3.org/2000/svg" width="1160" height="690" viewBox="0 0 1160 690" '
         'font-family="DejaVu Sans, Verdana, Arial, sans-serif" fill="#222222">',
         "<title>%s</title>" % escape(name),
         '<rect width="1160" height="690" fill="#ffffff"/>'] + marks + ["</svg>", ""])


def main(arguments: Sequence[str]) -> int:
    """Make the drawing of a command line."""
    if len(arguments) not in (2, 3):
        print("usage: plot.py PROGRAM JOBFILE [OUT.svg]", file=sys.stderr)
        return 2
    program, path = arguments[:2]
    name = os.path.splitext(os.path.basename(path))[0]
    out = arguments[2] if len(arguments) == 3 else name + ".svg"
    try:
        data = job_bytes(path)
        key_at(program, without_budget(data))
        job = read_job(data)
        keys = keys_at(program, data, chosen_ends(job))
        with open(out, "w", encoding="utf-8") as target:
            target.write(drawing(name, job, keys))
    except Refused as refusal:
        print("plot: %s: %s" % (path, refusal), file=sys.stderr)
        return 1
    except NoAnswer as error:
        print("plot: %s" % error, file=sys.stderr)
        return 2
    except OSError as error:
        print("plot: %s: %s" % (out, error.strerror), file=sys.stderr)
        return 2
    print("%s: drawn from %s" % (out, counted(len(keys), "run")))
    return 0


if __name__ == "__main__":
    sys.exit(main(sys.argv[1:]))
