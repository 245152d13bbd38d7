"""Jobs and keys as tables for people."""

from __future__ import annotations

import struct
from typing import Iterable, List, Sequence

from rules import STEADY, STEADY_SECONDS, Job, body_refusal, header_refusal, open_job, opened_record, present_flows
from rules import read_job, result_length, starting_waters


# Titles and columns of the tables of a job.
TABLES = (("elements, lowest first", ("solids nm", "water nm")), ("first curve", ("stress mPa", "void ratio 1e-8")),
          ("second curve", ("void ratio 1e-8", "conductivity fm/s")), ("load table", ("time s", "load mPa")))


def table_rows(title: str, heads: Sequence[str], rows: Iterable[Sequence[int]]) -> List[str]:
    """A titled table with a column of row numbers."""
    lines = ["", title, "%5s" % "no." + "".join("%24s" % head for head in heads)]
    return lines + ["%5d" % number + "".join("%24d" % cell for cell in row) for number, row in enumerate(rows, 1)]


STARTS = ("water given", "at rest", "steady")


def flow_lines(job: Job) -> List[str]:
    """The flows by which a job in start 2 is steady or not, where there are any."""
    if job.start != STEADY or body_refusal(job) or None in starting_waters(job):
        return []
    flows = present_flows(opened_record(job, starting_waters(job)), STEADY_SECONDS)
    return ["upward flows in %d s, from the bottom: %s nm" % (STEADY_SECONDS, " ".join(map(str, flows)))]


def describe_job(data: bytes) -> List[str]:
    """A job as lines for a person."""
    refusal = header_refusal(data)
    if refusal:
        return ["job refused %d" % refusal]
    job = read_job(data)
    face = ("closed", "drained")
    lines = ["job, opening answers %d" % open_job(data)[0],
             "top %s, bottom %s, start %d: %s" % (face[job.top], face[job.bottom], job.start, STARTS[job.start]),
             "specific gravity %d thousandths" % job.gravity,
             "top level %d nm, bottom level %d nm" % (job.top_level, job.bottom_level),
             "end %d s, budget %d steps" % (job.end, job.budget)] + flow_lines(job)
    for (title, heads), rows in zip(TABLES, (job.elements, job.curve1, job.curve2, job.table)):
        lines += table_rows(title, heads, rows)
    return lines


def describe_result(data: bytes) -> List[str]:
    """A key as lines for a person."""
    if len(data) < 56 or len(data) != result_length(data[6]):
        return ["key of a wrong length"]
    clock, steps, load, top, bottom, settled = struct.unpack("<QQQqqq", data[8:56])
    rows = [struct.unpack("<QQQqq", data[at:at + 40]) for at in range(56, len(data), 40)]
    heads = ["water nm", "void ratio 1e-8", "effective stress mPa", "total stress mPa", "pore pressure mPa"]
    return ["key, version %d, stop %d, %d steps" % (struct.unpack("<H", data[3:5])[0], data[5], steps),
            "clock %d s, load %d mPa" % (clock, load),
            "outflow: top %d nm, bottom %d nm; settlement %d nm" % (top, bottom, settled)] + \
        table_rows("elements, lowest first", heads, rows)


def describe(data: bytes) -> List[str]:
    """A job or a key as lines for a person."""
    return describe_result(data) if data[:3] == b"LSR" else describe_job(data)
