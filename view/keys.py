"""Asks the program for the key of a job, and reads what it writes. Nothing of a key is computed here."""

from __future__ import annotations

import os
import re
import struct
import subprocess
import sys
from typing import List, NamedTuple, Optional, Union

YEAR_DAYS = 365

STOPS = {
    0: "the clock is at the end",
    1: "the budget of steps is used",
    2: "even a step of one second is too long",
    3: "the next step would leave the compressibility curve",
}

REFUSALS = {
    1: "this is no job: fewer than 48 bytes, or they do not begin with LSC",
    2: "the version is not 1",
    3: "a face, a count, the start, the specific gravity or a spare byte has a value that it cannot have",
    4: "the length is not what the counts ask for",
    5: "a level, the end, the budget or a height is outside its limits, or a field that has to be 0 is not",
    6: "the compressibility curve is outside its limits, or its stresses do not rise or its void ratios do not fall",
    7: "the conductivity curve is outside its limits or out of order, or does not cover the compressibility curve",
    8: "the load table is outside its limits, does not begin at time 0, or its times do not rise",
    9: "an element has no start on the compressibility curve, or a start at rest is over a bottom whose level is not "
       "the top's",
    10: "the buffer is shorter than the result",
    13: "the step is not 1 to 1,000,000 s long, or it would take the clock past 3,000,000,000 s",
    14: "the step is too long: at an inner or drained face of an element 2 x c x G x t is above R, where c is "
        "100,000,000 / solids and G the compressibility curve's greatest stress rise / void fall, each rounded up",
    15: "the step would take an element's void ratio past an end of the compressibility curve",
    17: "the buffer is shorter than the job",
    18: "the reading is not finite, or above 2,000 kPa or 200 m in size",
    19: "the layer has no such element: they are 1 to N",
    20: "the start is not steady: flows of 1,000 s differ by more than 1 nm between two faces",
}


class Element(NamedTuple):
    """What a key says of one element: nm, hundred-millionths, and mPa."""

    water: int
    void_ratio: int
    effective_stress: int
    total_stress: int
    pore_pressure: int


class Key(NamedTuple):
    """A key: s, mPa and nm; the elements lowest first."""

    stop: int
    clock: int
    steps: int
    load: int
    top_outflow: int
    bottom_outflow: int
    settlement: int
    elements: List[Element]


class Refusal(NamedTuple):
    """A key withheld."""

    number: int

    def words(self) -> str:
        """The cause in words."""
        return REFUSALS.get(self.number, "a cause of another number")


class NoAnswer(Exception):
    """The job cannot be read, the program cannot be run, or it writes neither a key nor a refusal."""


def job_bytes(path: str) -> bytes:
    """The bytes of a job file."""
    try:
        with open(path, "rb") as source:
            return source.read()
    except OSError as error:
        raise NoAnswer("%s: %s" % (path, error.strerror)) from error


def written(program: str, data: bytes) -> bytes:
    """What a program writes when it reads some bytes."""
    command = os.path.abspath(program) if os.path.exists(program) else program
    try:
        return subprocess.run([command], input=data, stdout=subprocess.PIPE, check=False).stdout
    except OSError as error:
        raise NoAnswer("%s: %s" % (program, error.strerror)) from error


def read_refusal(answer: bytes) -> Optional[Refusal]:
    """The refusal that the bytes of an answer are, if they are one."""
    refused = re.fullmatch(rb"refused ([0-9]+)\n", answer)
    return Refusal(int(refused.group(1))) if refused else None


def ask(program: str, job: bytes) -> Union[Key, Refusal]:
    """What the program answers to a job."""
    return read_answer(written(program, job))


def read_answer(answer: bytes) -> Union[Key, Refusal]:
    """A key or a refusal from the bytes that the program writes."""
    refusal = read_refusal(answer)
    if refusal:
        return refusal
    if len(answer) < 56 or answer[:5] != b"LSR\1\0" or len(answer) != 56 + 40 * answer[6]:
        raise NoAnswer("the program wrote neither a key nor a refusal (%d bytes)" % len(answer))
    rows = [Element(*struct.unpack_from("<QQQqq", answer, at)) for at in range(56, len(answer), 40)]
    return Key(answer[5], *struct.unpack_from("<QQQqqq", answer, 8), rows)


def printed(lines: List[str], verb: str) -> int:
    """Write lines on standard output: 0, or 2 where that cannot be written. A reader that has gone away is no fault, and
    letters that the output does not know are written as codes."""
    if sys.stdout is None:
        print("%s: there is no standard output" % verb, file=sys.stderr)
        return 2
    encoding = sys.stdout.encoding or "utf-8"
    try:
        print("\n".join(lines).encode(encoding, "backslashreplace").decode(encoding), flush=True)
    except BrokenPipeError:
        os.dup2(os.open(os.devnull, os.O_WRONLY), sys.stdout.fileno())
    except OSError as error:
        os.dup2(os.open(os.devnull, os.O_WRONLY), sys.stdout.fileno())
        print("%s: standard output: %s" % (verb, error.strerror), file=sys.stderr)
        return 2
    return 0


def stop_words(stop: int) -> str:
    """Why a run ended, in words."""
    return STOPS.get(stop, "a stop of another number")


def shifted(number: int, places: int) -> str:
    """A whole number with its decimal point moved to the left."""
    whole, part = divmod(abs(number), 10 ** places)
    return "%s%s.%0*d" % ("-" if number < 0 else "", format(whole, ","), places, part)


def millimetres(nanometres: int) -> str:
    """A length in mm."""
    return shifted(nanometres, 6)


def kilopascals(millipascals: int) -> str:
    """A stress or pressure in kPa."""
    return shifted(millipascals, 6)


def void_ratio(hundred_millionths: int) -> str:
    """A void ratio."""
    return shifted(hundred_millionths, 8)


def counted(number: int, noun: str) -> str:
    """A number with its noun, which takes an s unless there is one."""
    return "%s %s%s" % (format(number, ","), noun, "" if number == 1 else "s")


def span(seconds: int) -> str:
    """A time in years of 365 days, days, hours, minutes and seconds."""
    minutes, second = divmod(seconds, 60)
    hours, minute = divmod(minutes, 60)
    days, hour = divmod(hours, 24)
    years, day = divmod(days, YEAR_DAYS)
    return "%s, %s, %02d:%02d:%02d" % (counted(years, "year"), counted(day, "day"), hour, minute, second)
