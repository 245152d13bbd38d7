#!/usr/bin/env python3
"""Writes the job of a layer that is described as text.

    python3 job.py PROGRAM LAYER.toml [OUT]

PROGRAM reads the words of a layer on standard input and writes its job, as target/bin/compose does; it alone decides
whether the layer is accepted. Without OUT the job goes to the current folder under the text's name. Exit status 0 for
a job, 1 for a refused layer, 2 where the text gives no layer or the job cannot be written; then OUT is as it was.
"""

from __future__ import annotations

import os
import sys
from typing import Sequence

sys.path.insert(0, os.path.dirname(os.path.abspath(__file__)))

from keys import NoAnswer, Refusal, counted, printed  # noqa: E402
from layer import compose  # noqa: E402
from layer_blame import refusal_words  # noqa: E402
from layer_text import read_layer  # noqa: E402


def store(out: str, data: bytes) -> None:
    """Write a file that is either as it was or complete. What is no ordinary file is written as it is."""
    if os.path.exists(out) and not os.path.isfile(out):
        with open(out, "wb") as target:
            target.write(data)
        return
    out = os.path.realpath(out) if out else out
    part = os.path.join(os.path.dirname(out), ".%s.%d.part" % (os.path.basename(out), os.getpid()))
    with open(part, "xb") as target:
        try:
            target.write(data)
            target.flush()
            os.replace(part, out)
        except OSError:
            os.remove(part)
            raise


def main(arguments: Sequence[str]) -> int:
    """Write the job of a command line."""
    if len(arguments) not in (2, 3):
        print("usage: job.py PROGRAM LAYER.toml [OUT]", file=sys.stderr)
        return 2
    program, path = arguments[:2]
    out = arguments[2] if len(arguments) == 3 else os.path.splitext(os.path.basename(path))[0] + ".job"
    try:
        layer = read_layer(path)
        if os.path.exists(out) and os.path.samefile(path, out):
            raise NoAnswer("%s: the job would take the place of its text" % out)
        answer = compose(program, layer)
        if isinstance(answer, Refusal):
            print("%s: %s" % (os.path.basename(path), refusal_words(layer, answer)), file=sys.stderr)
            return 1
        store(out, answer)
    except NoAnswer as error:
        print("job: %s" % error, file=sys.stderr)
        return 2
    except OSError as error:
        print("job: %s: %s" % (out, error.strerror), file=sys.stderr)
        return 2
    return printed(["wrote %s, %s" % (out, counted(len(answer), "byte"))], "job") if os.path.isfile(out) else 0


if __name__ == "__main__":
    sys.exit(main(sys.argv[1:]))
