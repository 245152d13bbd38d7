#!/usr/bin/env python3
"""Prints the key of a job as a table.

    python3 key_table.py PROGRAM JOBFILE

PROGRAM reads a job on standard input and writes its key, as target/bin/consolidate does. The table has the key's own
numbers; only the decimal point is moved. Exit status 0 for a key, 1 for a refusal, 2 where neither can be had.
"""

from __future__ import annotations

import os
import sys
from typing import List, Sequence

sys.path.insert(0, os.path.dirname(os.path.abspath(__file__)))

from keys import (Key, NoAnswer, Refusal, ask, job_bytes, kilopascals, millimetres, span,  # noqa: E402
                  stop_words, void_ratio)

HEADS = [("", "element"), ("water", "mm"), ("void ratio", "-"), ("effective stress", "kPa"), ("total stress", "kPa"),
         ("pore pressure", "kPa")]
GAP = 3


def totals(key: Key) -> List[str]:
    """What a key says of the layer as a whole."""
    facts = [
        ("stop", "%d: %s" % (key.stop, stop_words(key.stop))),
        ("elements", "%d" % len(key.elements)),
        ("clock", "%s s = %s (years of 365 days)" % (format(key.clock, ","), span(key.clock))),
        ("steps", format(key.steps, ",")),
        ("load", "%s kPa" % kilopascals(key.load)),
        ("top outflow", "%s mm" % millimetres(key.top_outflow)),
        ("bottom outflow", "%s mm" % millimetres(key.bottom_outflow)),
        ("settlement", "%s mm" % millimetres(key.settlement)),
    ]
    return ["%-16s%s" % fact for fact in facts]


def columns(rows: Sequence[Sequence[str]]) -> List[str]:
    """Rows of cells as lines, each column as wide as its widest cell and set to the right."""
    widths = [max(len(row[i]) for row in rows) for i in range(len(rows[0]))]
    return [(" " * GAP).join(cell.rjust(width) for cell, width in zip(row, widths)) for row in rows]


def element_lines(key: Key) -> List[str]:
    """A line for every element, from the top down, below two lines of heads."""
    rows = [[name for name, _ in HEADS], [unit for _, unit in HEADS]]
    for number in range(len(key.elements), 0, -1):
        element = key.elements[number - 1]
        rows.append(["%d" % number, millimetres(element.water), void_ratio(element.void_ratio),
                     kilopascals(element.effective_stress), kilopascals(element.total_stress),
                     kilopascals(element.pore_pressure)])
    return columns(rows)


def table(name: str, key: Key) -> List[str]:
    """A key as lines."""
    return ["Key of %s" % name, ""] + totals(key) + ["", "From the top down; element 1 is the lowest."] + \
        element_lines(key)


def main(arguments: Sequence[str]) -> int:
    """Print the table of a command line."""
    if len(arguments) != 2:
        print("usage: key_table.py PROGRAM JOBFILE", file=sys.stderr)
        return 2
    program, path = arguments
    try:
        answer = ask(program, job_bytes(path))
    except NoAnswer as error:
        print("key_table: %s" % error, file=sys.stderr)
        return 2
    if isinstance(answer, Refusal):
        print("%s: refused %d: %s" % (os.path.basename(path), answer.number, answer.words()))
        return 1
    try:
        print("\n".join(table(os.path.basename(path), answer)), flush=True)
    except BrokenPipeError:
        os.dup2(os.open(os.devnull, os.O_WRONLY), sys.stdout.fileno())
    return 0


if __name__ == "__main__":
    sys.exit(main(sys.argv[1:]))
