"""`press table`: a run as text or CSV."""
import csv

from chemstation.answers import TIMED
from press import advice, cli, show

HELP = "a run as text or CSV"
DESCRIPTION = (
    "Prints a run as a table: a row for each record, with its time in minutes, its m/z (MS) or its wavelength in nanometres (DAD, UV), and "
    "its intensity before and after scaling. For MS, DAD and UV two more columns, minutes and leftover, have the time as the file stores it, "
    "in whole minutes and the milliseconds left over. Each double is written with the digits that give it again. Text has what the header "
    "says above the table, as show prints it, and below it the sum of the unscaled intensities (not for array) and what closed the run. "
    "CSV (--csv) has a line of names and the rows, and where another answer than 0 closed the run a last line that says so and begins "
    "with #. With --atlas the rows are those of the atlas reading, which text says above them."
)


def add(subparsers):
    parser = cli.added(subparsers, "table", run, HELP, DESCRIPTION)
    cli.add_run(parser)
    cli.add_atlas(parser)
    cli.add_form(parser)


def named(opened):
    """The columns that the kind has, by name."""
    columns = opened.columns()
    axis = {opened.axis_name: columns.axis} if opened.axis_name else {}
    stored = {"minutes": columns.minutes, "leftover": columns.leftover} if opened.kind in TIMED else {}
    return {"time": columns.time, **axis, "unscaled": columns.unscaled, "scaled": columns.scaled, **stored}


def as_csv(opened, out):
    columns = named(opened)
    rows = csv.writer(out, lineterminator="\n")
    rows.writerow(columns)
    rows.writerows(zip(*columns.values()))
    if opened.closing.number != 0:
        out.write(f"# {opened.closing}\n")


def as_text(opened, out):
    columns = named(opened)
    out.writelines(show.lines(show.header(opened)))
    out.write("\n" + "".join(f"{name:>24}" for name in columns) + "\n")
    form = ("{!r:>24}" * len(columns) + "\n").format
    out.writelines(form(*row) for row in zip(*columns.values()))
    out.write("\n")
    out.writelines(show.lines(show.reach(opened.columns())))


def run(arguments):
    opened = cli.opened(arguments)
    cli.keep_apart(arguments.output, [arguments.file])
    with cli.output(arguments.output) as out:
        (as_csv if arguments.csv else as_text)(opened, out)
    cli.advise(arguments.file, advice.of_run(opened, arguments.file))
    return cli.closed(arguments, opened.closing)
