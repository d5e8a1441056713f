#!/usr/bin/env python3
"""Prints a run as a table, by the Python module `chemstation` (docs/PYTHON.md).

    examples/python/table.py [--log] KIND FILE

Status: 0 the run closed with 0; 1 another answer closed it, or the output could not be written; 2 wrong usage, or a file or a
library that cannot be read.
"""
import argparse
import math
import struct
import sys
from itertools import chain
from pathlib import Path

sys.dont_write_bytecode = True
sys.path.insert(0, str(Path(__file__).resolve().parent.parent.parent / "python"))
import chemstation  # noqa: E402

NUMBERS = ["edition", "size", "sequence", "vial", "replicate", "start", "end", "offset", "multiplier"]


def bits(x):
    """A double as the log program writes it: 16 digits of its bits, or nan."""
    return "nan" if math.isnan(x) else struct.pack(">d", x).hex().upper()


def row(run, record, written):
    """The doubles of a record."""
    return written(record.time), written(record.axis) if run.axis_name else "-", written(record.unscaled), written(record.scaled)


def total(run, name):
    """The sum of the unscaled intensities, or - where it is refused; the intensities of an array are not added up."""
    if run.kind_name != "array":
        try:
            yield name, run.sum()
        except chemstation.Refused:
            yield name, "-"


def log(run):
    yield "h", run.edition, run.size
    yield from (("r", *row(run, record, bits)) for record in run.records())
    yield from total(run, "t")


def marked(text, replaced):
    """A text, and how many of its letters were replaced by U+FFFD, where there are some."""
    return (text, f"{replaced} replaced") if replaced else (text,)


def table(run):
    yield from ((name, getattr(run, name)) for name in NUMBERS)
    yield from ((name.replace("_", " "), *marked(text, run.replaced[name])) for name, text in run.texts.items())
    stored = ("minutes", "leftover") if run.axis_name else ()  # the kinds with an axis are those with a stored time
    yield ("time", run.axis_name or "-", "unscaled", "scaled", *stored)
    for record in run.records():
        yield (*row(run, record, repr), *(getattr(record, name) for name in stored))
    yield from total(run, "sum")


def main():
    parser = argparse.ArgumentParser(
        description="Prints a run as a table, its columns divided by tabs. Times are in minutes; for MS, DAD and UV the time as the file "
        "stores it stands behind the intensities, in whole minutes and the milliseconds left over. Behind a text of which letters were "
        "replaced by U+FFFD stands how many.")
    parser.add_argument("--log", action="store_true", help="print the log program's lines (README.md) in its place")
    parser.add_argument("kind", metavar="KIND", help="1 FID, 2 MS, 3 MWD, 4 DAD, 5 UV, 6 array, by number or name")
    parser.add_argument("file", metavar="FILE")
    given = parser.parse_args()
    try:
        run = chemstation.open(given.file, given.kind)
        lines, closing, count = (log if given.log else table)(run), run.closing, run.columns().count
    except chemstation.Refused as refused:
        lines, closing, count = [], refused, 0
    except (OSError, ValueError, chemstation.NoLibrary) as error:
        print(f"table.py: {error}", file=sys.stderr)
        return 2
    end = [("e", closing.number, count)] if given.log else [("closed", closing.words), ("records", count)]
    for line in chain(lines, end):
        print(*line, sep=" " if given.log else "\t")
    sys.stdout.flush()
    if closing.number != 0:
        print(f"table.py: {given.file}: {closing}", file=sys.stderr)
    return 0 if closing.number == 0 else 1


if __name__ == "__main__":
    sys.exit(main())
