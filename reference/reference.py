#!/usr/bin/env python3
"""Reference program for the Consolidation Key, in exact whole numbers.

Large-strain consolidation of one soil layer, worked element by element with explicit time steps. Everything is a
Python integer; the only roundings are `//` (down), `ceil_div` (up) and `cut` (toward zero).

Units: lengths and water heights in nm, stresses and pressures in mPa, times in s, conductivities in fm/s, void
ratios in hundred-millionths, specific gravity in thousandths.

As a module, in rules.py:
    open_job(job) -> (refusal, record)       is_layer(record) -> bool
    load_call(record, load) -> refusal       step_call(record, seconds) -> refusal
    run_call(record, end, budget) -> (refusal, stop, steps)
    result_bytes(record, stop, steps) -> bytes
    key_into(job, buffer) -> refusal         key(job) -> (refusal, result)
    write_job(description, buffer) -> length or refusal
In piezometer.py:
    reading_call(record, reading) -> (refusal, missing, difference)
    readings_into(job, words, answers) -> refusal
In division.py:
    division_call(record, seconds) -> (refusal, [(flow, remainder), ...])
    flows_into(job, seconds, flows, remainders) -> entries or minus the refusal
    long_division(job, seconds) -> bytes
A refusal of 0 means that the call was accepted. A refused call leaves its record or buffer as it was.
"""

from __future__ import annotations

import argparse
import functools
import io
import os
import sys
from typing import Callable, Optional, Sequence

from lists import CALLS_HELP, ScriptError, answer_script
from makers import make_inputs
from printing import describe
from rules import JOB_BYTES_READ, key
from steady_jobs import make_steady

KEY_HELP = """\
reads   A job on standard input, of which 8,192 bytes are read at most.
writes  On standard output the bytes of its key, or `refused N` and a newline, N being the number of the cause.
        Heights, outflows and settlement in nm, stresses and pressures in mPa, clock in s, void ratios in
        hundred-millionths.
exit    0 in both cases.
"""

MAKE_HELP = """\
reads   Nothing. The same kind, seed and number always give the same input.
        KIND jobs      jobs for `key`, about a third of them damaged
        KIND lists     scripts for `calls`, each a list that begins with a job
        KIND records   scripts for `calls`, each a list that begins with a record; about half are no layer
        KIND steady    jobs for `key` in start 2, of which most are steady and the rest nearly so
writes  With --out, files DIR/job-00000.lsc (bytes), DIR/list-00000.txt or DIR/record-00000.txt and so on; DIR is made
        if need be. Without it, one script on standard output, the lists separated by blank lines; a job is then a
        list of its `job` statement alone. Units as in `key` and `calls`.
        A run takes some 3,000 element-steps at most.
exit    0.
"""

DESCRIBE_HELP = """\
reads   A job or a key on standard input, told apart by their marks.
writes  Its numbers as tables, with units, on standard output.
exit    0.
"""


def key_verb(_arguments: argparse.Namespace) -> int:
    """The verb `key`."""
    refusal, result = key(sys.stdin.buffer.read(JOB_BYTES_READ))
    sys.stdout.buffer.write(b"refused %d\n" % refusal if refusal else result)
    return 0


def calls_verb(arguments: argparse.Namespace) -> int:
    """The verb `calls`."""
    try:
        if not arguments.files:
            source = io.TextIOWrapper(sys.stdin.buffer, encoding="ascii", errors="replace")
            sys.stdout.writelines(line + "\n" for line in answer_script(source, "standard input"))
        for name in arguments.files:
            with open(name, encoding="ascii", errors="replace") as source:
                sys.stdout.writelines(line + "\n" for line in answer_script(source, name))
    except ScriptError as error:
        sys.stdout.flush()
        print(error, file=sys.stderr)
        return 2
    return 0


def make_verb(arguments: argparse.Namespace) -> int:
    """The verb `make`."""
    if arguments.out is not None:
        os.makedirs(arguments.out, exist_ok=True)
    name = {"lists": "list-%05d.txt", "records": "record-%05d.txt"}.get(arguments.kind, "job-%05d.lsc")
    make = make_steady if arguments.kind == "steady" else functools.partial(make_inputs, arguments.kind)
    for number, data in enumerate(make(arguments.seed, arguments.count)):
        if arguments.out is not None:
            with open(os.path.join(arguments.out, name % number), "wb") as target:
                target.write(data)
        else:
            text = "job %s" % data.hex() if arguments.kind in ("jobs", "steady") else data.decode("ascii")
            print(text.strip() + "\n")
    return 0


def describe_verb(_arguments: argparse.Namespace) -> int:
    """The verb `describe`."""
    print("\n".join(describe(sys.stdin.buffer.read(JOB_BYTES_READ))))
    return 0


def parser() -> argparse.ArgumentParser:
    """The command line."""
    raw = argparse.RawDescriptionHelpFormatter
    epilog = "\n".join(["%s\n%s" % pair for pair in [("key", KEY_HELP), ("calls [FILE...]", CALLS_HELP),
                                                     ("make KIND --seed S --count C [--out DIR]", MAKE_HELP),
                                                     ("describe", DESCRIBE_HELP)]])
    top = argparse.ArgumentParser(prog="reference.py", formatter_class=raw, epilog=epilog,
                                  description="Consolidation of a soil layer in exact whole numbers.")
    verbs = top.add_subparsers(dest="verb", required=True, metavar="VERB")

    def verb(name: str, summary: str, text: str, act: Callable[[argparse.Namespace], int]) -> argparse.ArgumentParser:
        added = verbs.add_parser(name, help=summary, description=text, formatter_class=raw)
        added.set_defaults(act=act)
        return added

    verb("key", "work a job and write its key", KEY_HELP, key_verb)
    calls = verb("calls", "answer scripts of calls", CALLS_HELP, calls_verb)
    calls.add_argument("files", metavar="FILE", nargs="*", help="scripts; standard input if there is none")
    make = verb("make", "make test inputs from a seed", MAKE_HELP, make_verb)
    make.add_argument("kind", metavar="KIND", choices=["jobs", "records", "lists", "steady"],
                      help="jobs, records, lists or steady")
    make.add_argument("--seed", type=int, required=True, metavar="S", help="a whole number of 0 or more")
    make.add_argument("--count", type=int, required=True, metavar="C", help="how many inputs")
    make.add_argument("--out", metavar="DIR", help="directory for the files")
    verb("describe", "show a job or a key as tables", DESCRIBE_HELP, describe_verb)
    return top


def main(arguments: Optional[Sequence[str]] = None) -> int:
    """Run the verb of a command line."""
    chosen = parser().parse_args(arguments)
    return chosen.act(chosen)


if __name__ == "__main__":
    sys.exit(main())
