#!/usr/bin/env python3
"""Finds water heights at which a layer is steady under its first load, such as one over an artesian sand, and writes
the layer with them.

    python3 steady_layer.py PROGRAM LAYER [OUT]

LAYER is a layer's text, or a job. Its start does not matter, and its water may be left out or be any heights. PROGRAM
reads the words of a layer on standard input and writes its job, as target/bin/compose does. The search is not to be
trusted: PROGRAM alone decides whether the layer is steady, and only then OUT is written, a text if it ends in .toml and
a job if in .job. Without OUT a text goes to the current folder under the layer's name with _steady.toml. Exit status 0
for a layer written, 1 where no steady heights are found or the program refuses the layer, 2 where LAYER gives no layer
or OUT cannot be written; unless a layer is written, OUT is as it was.
"""

from __future__ import annotations

import os
import sys
from typing import List, Sequence, Tuple, Union

sys.path.insert(0, os.path.dirname(os.path.abspath(__file__)))

from describe import comment  # noqa: E402
from job import store  # noqa: E402
from keys import (YEAR_DAYS, NoAnswer, Refusal, counted, job_bytes, kilopascals, millimetres,  # noqa: E402
                  printed)
from layer import AT_REST, STEADY, Layer, compose, read_job  # noqa: E402
from layer_blame import refusal_words  # noqa: E402
from layer_print import in_text_units, layer_lines  # noqa: E402
from layer_text import layer_in  # noqa: E402
from layer_units import KILOPASCAL, METRE, amount, decimal  # noqa: E402
from seepage import SECONDS, Ground, apart, face_name  # noqa: E402
from steady_search import Found, search, water_at  # noqa: E402

YEAR = YEAR_DAYS * 86_400
FOUND_BY = "# The water heights are from ./kufandra steady"
REFUSED = "# refused "      # as `describe` begins the text of a job that is refused
EVERY = 10      # of lines of which many follow, the ones shown where they stay


class Refused(Exception):
    """No steady layer is to be had; why."""


class Progress:
    """Says how far a search is: on one line of a terminal, else on lines now and then. Where nobody can read it, the
    search goes on."""

    def __init__(self) -> None:
        self.lines = 0
        self.terminal = sys.stderr is not None and sys.stderr.isatty()

    def say(self, text: str, end: str) -> None:
        """Write to standard error, if there is one and it takes anything."""
        try:
            if sys.stderr is not None:
                print(text, end=end, file=sys.stderr, flush=True)
        except OSError:
            pass

    def __call__(self, words: str, many: bool) -> None:
        text = "steady: %s" % words
        if self.terminal:
            self.say("\r%-78s" % text, "")
        elif not many or self.lines % EVERY == 0:
            self.say(text, "\n")
        self.lines += 1

    def end(self) -> None:
        """Leave the line of a terminal."""
        if self.lines and self.terminal:
            self.say("", "\n")


# ----------------------------------------------------------------------------------------------------------------
# The layer, and what is written of it
# ----------------------------------------------------------------------------------------------------------------

def read_given(path: str, data: bytes) -> Tuple[Layer, List[str]]:
    """The layer of a text or a job, and the comment on top of it."""
    if data.startswith(b"LSC"):
        layer = read_job(data)
        if isinstance(layer, Refusal):
            raise Refused("refused %d: %s" % (layer.number, layer.words()))
        return in_text_units(layer), [comment("The layer of %s." % os.path.basename(path))]
    return layer_in(path, data, dry=True), top_comment(data.decode("utf-8-sig"))


def top_comment(text: str) -> List[str]:
    """The lines of comment on top of a text, but for those that an earlier search or a refusal put there."""
    lines = text.splitlines()
    end = next((at for at, line in enumerate(lines) if not line.startswith("#")), len(lines))
    return [line for line in lines[:end] if not line.startswith((FOUND_BY, REFUSED))]


def text_bytes(layer: Layer, heads: Sequence[str], flows: Sequence[int]) -> bytes:
    """The text of a steady layer."""
    lines = [*heads, "%s: %s." % (FOUND_BY, seepage_words(flows)), *layer_lines(layer), ""]
    return "\n".join(lines).encode("utf-8")


# ----------------------------------------------------------------------------------------------------------------
# Words
# ----------------------------------------------------------------------------------------------------------------

def number(value: int) -> str:
    """A whole number with its thousands apart."""
    return format(value, ",")


def seepage_words(flows: Sequence[int]) -> str:
    """What flows through a steady layer."""
    least, most = sorted((abs(min(flows)), abs(max(flows))))
    if most == 0:
        return "nothing flows through any face in %s s" % number(SECONDS)
    nanometres = number(most) if least == most else "%s to %s" % (number(least), number(most))
    way = "upward" if max(flows) > 0 else "downward"
    yearly = abs(sum(flows)) * YEAR / len(flows) / SECONDS / 10**6
    return "%s nm go %s through every face in %s s, about %.4g mm a year" % (nanometres, way, number(SECONDS), yearly)


def water_words(given: Sequence[int], water: Sequence[int]) -> str:
    """All the water of a layer, and what of it is new."""
    total = "%s mm in all" % millimetres(sum(water))
    if not any(given):
        return total
    changes = [new - old for old, new in zip(given, water)]
    if not any(changes):
        return total + ", as it was given"
    place = max(range(len(changes)), key=lambda at: abs(changes[at]))
    more = "%s mm %s than" % (millimetres(abs(sum(changes))), "less" if sum(changes) < 0 else "more")
    return "%s, %s was given; element %d changed most, by %s mm" \
        % (total, more if sum(changes) else "as much as", place + 1, millimetres(changes[place]))


def coarse_words(ground: Ground, found: Found) -> str:
    """Why no whole heights have even flows: one that the least change of an element moves by more than may be."""
    moved = []
    for place, height in enumerate(found.water):
        other = water_at(ground, place, ground.pressure(place, height) + 1)
        changed = found.water[:place] + [other] + found.water[place + 1:]
        moved.append(max(abs(new - old) for old, new in zip(found.flows, ground.flows(changed))))
    place = moved.index(max(moved))
    if moved[place] <= 1:
        return ""
    return "the least change of water that changes the stress of element %d moves a flow by %s nm, so whole numbers " \
        "may be too coarse" % (place + 1, number(moved[place]))


def off_reason(ground: Ground, element: int, stress: int) -> str:
    """Why an element would need a stress that the curve does not have: the load alone, or what the water adds to it."""
    carried, first, last = ground.carried[element - 1], ground.stresses[0], ground.stresses[-1]
    if stress < first:
        return "the load is too small for the curve" if carried < first else "the water would lift the soil"
    return "the load is too great for the curve" if carried > last else "the water would press the soil past the curve"


def off_words(ground: Ground, found: Found) -> str:
    """Which element would need a stress that the curve does not have."""
    element, stress = found.off[0]
    first, last = ground.stresses[0], ground.stresses[-1]
    why = off_reason(ground, element, stress)
    others = ", and %s off it as well" % counted(len(found.off) - 1, "other element") if found.off[1:] else ""
    return "element %d would need an effective stress of %s kPa, and the curve has %s to %s: %s%s" \
        % (element, kilopascals(stress), decimal(first, KILOPASCAL), amount(last, KILOPASCAL), why, others)


def none_words(ground: Ground, found: Found) -> str:
    """That no steady heights were found, how far the flows still differ, and why."""
    least, most = found.flows.index(min(found.flows)), found.flows.index(max(found.flows))
    words = "no steady heights found: the upward flows of %s s still differ by %s nm, %s nm through %s and %s nm " \
        "through %s" % (number(SECONDS), number(apart(found.flows)), number(found.flows[least]),
                        face_name(least, len(ground)), number(found.flows[most]), face_name(most, len(ground)))
    why = off_words(ground, found) if found.off else coarse_words(ground, found)
    return "; ".join(filter(None, (words, why)))


# ----------------------------------------------------------------------------------------------------------------
# The command
# ----------------------------------------------------------------------------------------------------------------

def check_sound(program: str, layer: Layer) -> None:
    """Let the program judge all of a layer but its water, which a layer at rest has not. That it cannot be at rest does
    not matter."""
    dry = layer._replace(start=AT_REST, water=[0] * len(layer.solids))
    answer = compose(program, dry)
    if isinstance(answer, Refusal) and answer.number != 9:
        raise Refused(refusal_words(dry, answer))


def find(layer: Layer) -> Found:
    """Steady heights of a layer."""
    ground, progress = Ground(layer), Progress()
    narrow = ground.without_height()
    if narrow:
        raise Refused("no steady heights found: no whole height of element %d, %s of solids, is on the curve"
                      % (narrow, amount(layer.solids[narrow - 1], METRE)))
    found = search(ground, layer.water, progress)
    progress.end()
    if not found.steady():
        raise Refused(none_words(ground, found))
    return found


def judged(program: str, layer: Layer) -> bytes:
    """The job of a steady layer, which the program has to take for one."""
    answer: Union[bytes, Refusal] = compose(program, layer)
    if isinstance(answer, Refusal):
        raise Refused("the program does not take the heights found: %s" % refusal_words(layer, answer))
    return answer


def out_path(path: str, arguments: Sequence[str]) -> str:
    """Where the layer goes."""
    if not arguments:
        return os.path.splitext(os.path.basename(path))[0] + "_steady.toml"
    if not arguments[0].endswith((".toml", ".job")):
        raise NoAnswer("%s: the name has to end in .toml for a text or in .job for a job" % arguments[0])
    return arguments[0]


def make(program: str, path: str, out: str) -> List[str]:
    """Write the steady layer of a file; gives the lines that tell of it, none where OUT is no ordinary file."""
    given, heads = read_given(path, job_bytes(path))
    if os.path.exists(out) and os.path.samefile(path, out):
        raise NoAnswer("%s: the steady layer would take the place of the layer that was given" % out)
    check_sound(program, given)
    found = find(given)
    layer = given._replace(start=STEADY, water=found.water)
    job = judged(program, layer)
    store(out, job if out.endswith(".job") else text_bytes(layer, heads, found.flows))
    if not os.path.isfile(out):
        return []
    return ["wrote %s, which the program takes for steady" % out, "seepage   " + seepage_words(found.flows),
            "water     " + water_words(given.water, found.water)]


def main(arguments: Sequence[str]) -> int:
    """Write the steady layer of a command line."""
    if len(arguments) not in (2, 3):
        print("usage: steady_layer.py PROGRAM LAYER [OUT.toml or OUT.job]", file=sys.stderr)
        return 2
    program, path = arguments[:2]
    out = ""
    try:
        out = out_path(path, arguments[2:])
        lines = make(program, path, out)
    except Refused as refusal:
        print("%s: %s" % (os.path.basename(path), refusal), file=sys.stderr)
        return 1
    except NoAnswer as error:
        print("steady: %s" % error, file=sys.stderr)
        return 2
    except OSError as error:
        print("steady: %s: %s" % (out, error.strerror), file=sys.stderr)
        return 2
    return printed(lines, "steady") if lines else 0


if __name__ == "__main__":
    sys.exit(main(sys.argv[1:]))
