"""`press texts`: the texts in the headers of many runs, for an index."""
import csv

import chemstation
from press import advice, cli, show

HELP = "the headers' texts of many runs"
DESCRIPTION = (
    "Prints the eight texts in the header of each run, for an index: sample, description, operator, instrument, method, signal "
    "name, y units and run date, empty where the edition has none. Only the header is read: nothing is said of the records. Text "
    "has a block for each file, its name and then a line for each text. CSV (--csv) has a line of names and a row for each file. "
    "Where letters of a text were replaced by U+FFFD (unpaired surrogates in the header), its line ends with how many, as "
    "[2 replaced]; CSV has a last column for it, replaced, as 'sample 2, run date 1', empty where there are none. Control "
    "characters in a name or a text are written as \\x and two digits, so that each row is one line. A file that is refused or "
    "cannot be read is told on standard error and has no block or row; the others have theirs, in the order in which they are "
    "named. If no file has one, nothing is written, and OUT is as it was."
)
STATUS = (
    "Status: 0 each file gave its texts; 1 a run was refused (docs/ANSWERS.md), or the output could not be written; 2 wrong usage, "
    "or a file that cannot be read, whatever became of the others. What to look at, where the kind and the name of a file disagree "
    "or letters of a text were replaced, is said on standard error."
)


def add(subparsers):
    parser = cli.added(subparsers, "texts", run, HELP, DESCRIPTION, STATUS)
    cli.add_kind(parser)
    parser.add_argument("files", metavar="FILE", nargs="+", help="a run file of this kind")
    cli.add_form(parser)


def index(kind, files):
    """The name and the texts of each file that has them, and the status."""
    entries, status = [], 0
    for file in files:
        try:
            texts = cli.given(chemstation.texts, file, kind)
            cli.advise(file, advice.of_name(kind, file) + advice.of_replaced(texts.replaced))
            entries.append((show.plain(file), texts))
        except chemstation.Refused as error:
            cli.say(f"{file}: {error}")
            status = max(status, 1)
        except cli.GiveUp as error:
            cli.say(error)
            status = 2
    return entries, status


def counted(replaced):
    """The counts of replaced letters that are not 0, with the names of their texts."""
    return ", ".join(f"{show.spaced(name)} {count}" for name, count in replaced.items() if count)


def as_csv(entries, out):
    rows = csv.writer(out, lineterminator="\n")
    rows.writerow(["file", *map(show.spaced, entries[0][1]), "replaced"])
    rows.writerows([file, *map(show.plain, texts.values()), counted(texts.replaced)] for file, texts in entries)


def as_text(entries, out):
    out.write("\n".join("".join(show.lines([("file", file), *show.texts(texts)])) for file, texts in entries))


def run(arguments):
    cli.keep_apart(arguments.output, arguments.files)
    entries, status = index(arguments.kind, arguments.files)
    if entries:
        with cli.output(arguments.output) as out:
            (as_csv if arguments.csv else as_text)(entries, out)
    return status
