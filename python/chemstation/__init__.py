"""Runs of Agilent ChemStation, read by the proved library (include/chemstation.h): headers, texts and records as columns.

    import chemstation

    run = chemstation.open("samples/fid.1", "FID")
    print(run.sample, run.run_date)
    columns = run.columns()
    print(columns.time[0], columns.scaled[0], columns.sum(), columns.closing.words)

`tools/build-library` makes the library; CHEMSTATION_LIBRARY may name another. docs/PYTHON.md has the rest.
"""
from chemstation.answers import AXES, KINDS, Answer, Refused
from chemstation.columns import Columns, Left, Record
from chemstation.library import NoLibrary
from chemstation.run import Run, Texts, open, texts
from chemstation.sums import add_up

__all__ = ["AXES", "KINDS", "Answer", "Columns", "Left", "NoLibrary", "Record", "Refused", "Run", "Texts", "add_up", "open", "texts"]
