"""`press sum`: the sum of the unscaled intensities of a run."""
from chemstation import Refused
from chemstation.answers import ARRAY
from press import advice, cli

HELP = "the sum of the unscaled intensities"
DESCRIPTION = (
    "Prints the sum of the unscaled intensities of a run, in whole numbers of 64 bits, as the line t of its log has it: a decimal number, "
    "or - where one of them is no whole number of a size below 2^53, or where a sum leaves the range; standard error says so in words. "
    "Of a run that closes with another answer than 0 the records before that are added up. A log that closes with m holds the first "
    "records only, and its line t is of those; here the whole run is read. With --atlas the sum is that of a log of the atlas reading. The "
    "intensities of an array run are not added up."
)
STATUS = (
    "Status: 0 the sum is given, and the run closed with 0; 1 the sum is refused, another answer closed the run (docs/ANSWERS.md), or the "
    "output could not be written; 2 wrong usage, an array run, or a file that cannot be read. What to look at, where the kind and the file "
    "disagree or letters of a text were replaced, is said on standard error."
)


def add(subparsers):
    parser = cli.added(subparsers, "sum", run, HELP, DESCRIPTION, STATUS)
    cli.add_run(parser)
    cli.add_atlas(parser)


def run(arguments):
    if arguments.kind == ARRAY:
        raise cli.GiveUp("the intensities of an array run are not added up: its log has no line t")
    opened = cli.opened(arguments)
    try:
        total, refused = str(opened.sum()), None
    except Refused as error:
        total, refused = "-", error
    with cli.output(None) as out:
        out.write(f"{total}\n")
    cli.advise(arguments.file, advice.of_run(opened, arguments.file))
    if refused:
        cli.say(f"{arguments.file}: {refused}")
    return cli.closed(arguments, opened.closing) or (1 if refused else 0)
