#!/usr/bin/env python3
"""Prints the text of a job, of which job.py makes the same bytes.

    python3 describe.py PROGRAM JOBFILE

PROGRAM reads the words of a layer on standard input and writes its job, as target/bin/compose does. It has to write
the job's own bytes again. Exit status 0 for a text, 1 for a refusal, 2 where neither can be had. A layer that the
program refuses is printed all the same, below the refusal, so that it can be mended; bytes that no layer has are not.
"""

from __future__ import annotations

import os
import sys
from typing import List, Sequence

sys.path.insert(0, os.path.dirname(os.path.abspath(__file__)))

from keys import NoAnswer, Refusal, job_bytes, printed  # noqa: E402
from layer import compose, read_job  # noqa: E402
from layer_blame import refusal_words  # noqa: E402
from layer_print import in_text_units, layer_lines  # noqa: E402


def comment(words: str) -> str:
    """A line of comment; what cannot stand in one is left out."""
    return "# " + "".join(letter for letter in words if letter.isprintable())


def main(arguments: Sequence[str]) -> int:
    """Print the text of a command line."""
    if len(arguments) != 2:
        print("usage: describe.py PROGRAM JOBFILE", file=sys.stderr)
        return 2
    program, path = arguments
    name = os.path.basename(path)
    refused: List[str] = []
    try:
        job = job_bytes(path)
        layer = read_job(job)
        if isinstance(layer, Refusal):
            print("%s: refused %d: %s" % (name, layer.number, layer.words()), file=sys.stderr)
            return 1
        layer = in_text_units(layer)
        answer = compose(program, layer)
        if isinstance(answer, Refusal):
            refused = [refusal_words(layer, answer)]
        elif answer != job:
            raise NoAnswer("%s: the program writes other bytes of this layer" % path)
    except NoAnswer as error:
        print("describe: %s" % error, file=sys.stderr)
        return 2
    for words in refused:
        print("%s: %s" % (name, words), file=sys.stderr)
    heads = [comment(words) for words in refused + ["The layer of %s." % name]]
    return printed(heads + layer_lines(layer), "describe") or (1 if refused else 0)


if __name__ == "__main__":
    sys.exit(main(sys.argv[1:]))
