"""Scripts of calls: their format, the answers to them, and a record as statements of a script."""

from __future__ import annotations

import re
from typing import Iterable, Iterator, List, Optional, Sequence, TextIO

from division import division_call
from rules import ELEMENT_PLACES, POINT_PLACES, U64_MAX, Pair, Record
from rules import load_call, open_job, padded, run_call, step_call

CALLS_HELP = """\
reads   Scripts, from the files in turn or from standard input. One statement a line: a keyword, then decimal
        numbers, all separated by single spaces. A list begins with a `job` or a `record` statement; a blank line,
        a new `job` or `record`, or a new file ends it. Every call works on the record as the call before left it.

        job HEX                  open a job from its bytes in hexadecimal; `job` alone is a job of no bytes.
        record                   a record with every number 0 and both faces closed; then any of these fields:
          elements N             number of elements; may be more than there are places
          top closed             the top face; or `top drained P` with P the pressure that it holds, mPa, signed
          bottom closed          the bottom face; or `bottom drained P`, as the top
          gravity G              specific gravity, thousandths
          top_level X            level, nm
          bottom_level X         level, nm
          curve1 C S V S V ...   count C (64 places), then points: stress mPa, void ratio hundred-millionths
          curve2 C V K V K ...   count C (64 places), then points: void ratio, conductivity fm/s
          table C T L T L ...    count C (64 places), then points: time s, load mPa
          solids S S ...         solids height of element 1 (lowest), 2, ..., nm, at most 128 places
          water W W ...          water height of element 1, 2, ..., nm, at most 128 places
          present_load X         load, mPa
          clock X                s
          top_outflow X          nm, signed
          bottom_outflow X       nm, signed
          starting_water X       nm
                                 A field not written, and every place not written, is 0 (a face: closed). The
                                 number of points written need not be the count.
        load X                   call: set the load, mPa
        step T                   call: one step, s
        run END BUDGET           call: run to the time END, s, in at most BUDGET steps
        division T               call: the divisions of a step of T seconds, which is not taken
                                 The numbers of calls are unsigned, 64 bits.

writes  One line for each opening: `opened N` (0 or the refusal number) for a job, `record` for a record. Then two
        lines for each call: `load N`, `step N`, `run N STOP STEPS` or `division N COUNT F R F R ...` (N is 0 or the
        refusal number; what follows it only when it is 0), and
        state LOAD CLOCK TOP_OUTFLOW BOTTOM_OUTFLOW STARTING_WATER W W ...
        in mPa, s and nm, the water without the zeros at the end of its 128 places.
        COUNT is the number of inner and drained faces; F and R are the flow through each of them from the bottom up,
        nm, and the remainder of its division, mPa s, both signed: upward, and outward at top and bottom.
        A refused job leaves the blank record, on which every call answers 11.

exit    0; or 2 and a message for a script that breaks the format.
"""

INTEGER = re.compile(r"-?[0-9]+\Z")
RECORD_NUMBERS = ("elements", "gravity", "top_level", "bottom_level", "clock", "top_outflow", "bottom_outflow",
                  "starting_water", "present_load")
RECORD_POINTS = ("curve1", "curve2", "table")
RECORD_HEIGHTS = ("solids", "water")
CALLS = {"load": 1, "step": 1, "run": 2, "division": 1}


class ScriptError(Exception):
    """A script that breaks the format."""


def parse_numbers(words: Sequence[str]) -> List[int]:
    """Decimal words as numbers."""
    for word in words:
        if not INTEGER.match(word):
            raise ScriptError("not a decimal number: %r" % word)
    return [int(word) for word in words]


def set_face(record: Record, name: str, words: Sequence[str]) -> None:
    """Set a face of a record from the words after its keyword."""
    if list(words) == ["closed"]:
        setattr(record, name, None)
    elif len(words) == 2 and words[0] == "drained":
        setattr(record, name, parse_numbers(words[1:])[0])
    else:
        raise ScriptError("a face is `closed` or `drained P`")


def set_field(record: Record, name: str, words: Sequence[str]) -> None:
    """Set a field of a record from the words after its keyword."""
    if name in ("top", "bottom"):
        set_face(record, name, words)
        return
    numbers = parse_numbers(words)
    if name in RECORD_NUMBERS and len(numbers) == 1:
        setattr(record, "load" if name == "present_load" else name, numbers[0])
    elif name in RECORD_POINTS and len(numbers) % 2 == 1 and len(numbers) <= 1 + 2 * POINT_PLACES:
        setattr(record, name + "_count", numbers[0])
        setattr(record, name, padded(list(zip(numbers[1::2], numbers[2::2])), POINT_PLACES, (0, 0)))
    elif name in RECORD_HEIGHTS and len(numbers) <= ELEMENT_PLACES:
        setattr(record, name, padded(numbers, ELEMENT_PLACES, 0))
    else:
        raise ScriptError("wrong number of numbers after %s" % name)


def without_trailing(items: Sequence, filler) -> List:
    """A list without the fillers at its end."""
    count = len(items)
    while count and items[count - 1] == filler:
        count -= 1
    return list(items[:count])


def state_line(record: Record) -> str:
    """The line that shows a record after a call."""
    numbers = [record.load, record.clock, record.top_outflow, record.bottom_outflow, record.starting_water]
    return " ".join(["state"] + [str(number) for number in numbers + without_trailing(record.water, 0)])


def division_line(refusal: int, entries: Sequence[Pair]) -> str:
    """The answer line of a division."""
    if refusal:
        return "division %d" % refusal
    numbers = [0, len(entries)] + [number for entry in entries for number in entry]
    return " ".join(["division"] + [str(number) for number in numbers])


def answer_call(record: Record, name: str, numbers: Sequence[int]) -> str:
    """Make a call on a record and give its answer line."""
    if len(numbers) != CALLS[name] or not all(0 <= number <= U64_MAX for number in numbers):
        raise ScriptError("%s takes %d unsigned 64-bit number(s)" % (name, CALLS[name]))
    if name == "run":
        refusal, stop, steps = run_call(record, *numbers)
        return "run %d" % refusal if refusal else "run 0 %d %d" % (stop, steps)
    if name == "division":
        return division_line(*division_call(record, *numbers))
    return "%s %d" % (name, load_call(record, *numbers) if name == "load" else step_call(record, *numbers))


def job_of_words(words: Sequence[str]) -> bytes:
    """The bytes that a job statement gives."""
    digits = words[0] if len(words) == 1 else ""
    if len(words) > 1 or not re.match(r"([0-9a-fA-F]{2})*\Z", digits):
        raise ScriptError("job takes one word of pairs of hexadecimal digits, or nothing")
    return bytes.fromhex(digits)


class Script:
    """Answers the statements of scripts one by one."""

    def __init__(self) -> None:
        self.record: Optional[Record] = None
        self.fields_allowed = False

    def end_list(self) -> None:
        """Forget the record of the list before."""
        self.record = None
        self.fields_allowed = False

    def answer(self, line: str) -> List[str]:
        """The lines that answer one statement."""
        if not line.strip():
            self.end_list()
            return []
        name, *words = line.rstrip().split(" ")
        if name == "job":
            refusal, self.record = open_job(job_of_words(words))
            self.fields_allowed = False
            return ["opened %d" % refusal]
        if name == "record" and not words:
            self.record = Record()
            self.fields_allowed = True
            return ["record"]
        if self.record is None:
            raise ScriptError("a list begins with job or record")
        if name in CALLS:
            self.fields_allowed = False
            return [answer_call(self.record, name, parse_numbers(words)), state_line(self.record)]
        if self.fields_allowed:
            set_field(self.record, name, words)
            return []
        raise ScriptError("unknown statement, or a record's field out of place: %s" % name)


def answer_script(source: TextIO, title: str) -> Iterator[str]:
    """The lines that answer a whole script."""
    script = Script()
    for number, line in enumerate(source, 1):
        try:
            yield from script.answer(line)
        except ScriptError as error:
            raise ScriptError("%s:%d: %s" % (title, number, error)) from None


def record_lines(record: Record) -> List[str]:
    """The statements that give a record."""
    def face(name: str, pressure: Optional[int]) -> str:
        return "%s closed" % name if pressure is None else "%s drained %d" % (name, pressure)

    def row(name: str, numbers: Iterable[int]) -> str:
        return " ".join([name] + [str(number) for number in numbers])

    def points(name: str, count: int, pairs: Sequence[Pair]) -> str:
        return row(name, [count] + [number for pair in without_trailing(pairs, (0, 0)) for number in pair])

    return ["record", row("elements", [record.elements]),
            face("top", record.top), face("bottom", record.bottom),
            row("gravity", [record.gravity]),
            row("top_level", [record.top_level]), row("bottom_level", [record.bottom_level]),
            points("curve1", record.curve1_count, record.curve1),
            points("curve2", record.curve2_count, record.curve2),
            points("table", record.table_count, record.table),
            row("solids", without_trailing(record.solids, 0)), row("water", without_trailing(record.water, 0)),
            row("present_load", [record.load]), row("clock", [record.clock]),
            row("top_outflow", [record.top_outflow]), row("bottom_outflow", [record.bottom_outflow]),
            row("starting_water", [record.starting_water])]
