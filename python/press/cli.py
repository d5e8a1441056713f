"""The command line of `tools/press`: its subcommands, and what they share.

A subcommand is a module with `add(subparsers)`, which makes its parser by `added`, and `run(arguments)`, which gives its status:
0 all is well, 1 a run closed with another answer than 0, its sum was refused or the output could not be written, 2 wrong usage or a
file that cannot be read. What goes wrong is told by exceptions, which `main` turns into one line on standard error and a status.
"""
import argparse
import contextlib
import importlib
import os
import stat
import sys
from pathlib import Path

import chemstation
from chemstation.answers import kind_number, kinds_in_words
from press import advice

SUBCOMMANDS = ["show", "table", "sum", "texts", "plot", "volume"]
KINDS_HELP = f"the kind of the run, by number or name: {kinds_in_words()}; the file does not say it"
ATLAS_HELP = "the atlas reading of DAD and UV: the last scan of a DAD run comes whole, and UV scans of one wavelength are counted off"
STATUS_HELP = (
    "Status: 0 the run closed with 0; 1 another answer closed it (docs/ANSWERS.md), or the output could not be written; "
    "2 wrong usage, or a file that cannot be read. What to look at, where the kind and the file disagree or letters of a text were "
    "replaced, is said on standard error."
)
TEXT = {"encoding": "utf-8", "errors": "surrogateescape", "newline": ""}  # names of files may be any bytes


class GiveUp(Exception):
    """Wrong usage, or nothing to work with: a sentence and status 2."""


def say(text):
    print(f"press: {text}", file=sys.stderr)


def advise(name, sentences):
    """Advice about a file, a line for each sentence."""
    for sentence in sentences:
        say(f"{name}: to look at: {sentence}")


def added(subparsers, name, run, help, description, status=STATUS_HELP):
    """A new parser for a subcommand: `help` in a few words, `description` in sentences."""
    parser = subparsers.add_parser(name, help=help, description=description, epilog=status)
    parser.set_defaults(run=run)
    return parser


def kind(word):
    """The type of a KIND argument."""
    try:
        return kind_number(word)
    except ValueError as error:
        raise argparse.ArgumentTypeError(str(error)) from None


def add_kind(parser):
    parser.add_argument("kind", metavar="KIND", type=kind, help=KINDS_HELP)


def add_run(parser):
    """The two words that name a run."""
    add_kind(parser)
    parser.add_argument("file", metavar="FILE", help="the run file")


def add_atlas(parser, help=f"{ATLAS_HELP}; for another kind it is refused (18)"):
    parser.add_argument("--atlas", action="store_true", help=help)


def add_form(parser):
    """Text or CSV, and where it goes."""
    parser.add_argument("--csv", action="store_true", help="comma-separated values in place of text")
    parser.add_argument("-o", "--output", metavar="OUT", help="write to the file OUT, which is put in place when it is whole")


def why_not(path):
    """Why a file cannot be read, or None."""
    if not os.path.exists(path):
        return "no such file"
    if os.path.isdir(path):
        return "is a folder; name the run file itself"
    return None if os.access(path, os.R_OK) else "is not readable"


def given(reader, file, kind, **how):
    """What a function of the module gives of a file and a kind; of a refused one, what its name tells is said."""
    reason = why_not(file)
    if reason:
        raise GiveUp(f"{file}: {reason}")
    try:
        return reader(file, kind, **how)
    except chemstation.Refused:
        advise(file, advice.of_name(kind, file))
        raise
    except OSError as error:
        raise GiveUp(f"{file}: {error.strerror}") from error


def opened(arguments):
    """The run that `add_run`'s two words name, by the reading that `add_atlas` asks for."""
    return given(chemstation.open, arguments.file, arguments.kind, atlas=arguments.atlas)


def keep_apart(output, files):
    """No output takes the place of a run file."""
    if output and os.path.exists(output) and any(os.path.exists(file) and os.path.samefile(output, file) for file in files):
        raise GiveUp(f"{output}: is the run file itself")


def closed(arguments, answer):
    """The status of a run that was read as far as it goes; an answer other than 0 is told in one line."""
    if answer.number == 0:
        return 0
    say(f"{arguments.file}: {answer}")
    return 1


@contextlib.contextmanager
def replacing(path):
    """A name to write to, with the same ending; at the end it becomes `path`, so that nothing half written ever stands there. What is
    there and no plain file (a pipe, a device) is written to as it is."""
    path = Path(os.path.realpath(path))
    if path.exists() and not stat.S_ISREG(path.stat().st_mode):
        yield path
        return
    part = path.with_name(f".{path.stem}.{os.getpid()}{path.suffix}")
    try:
        yield part
        os.replace(part, path)
    finally:
        part.unlink(missing_ok=True)


@contextlib.contextmanager
def output(path):
    """A text file in UTF-8 to write to: `path` by `replacing`, or standard output for None."""
    if path is None:
        with open(sys.stdout.fileno(), "w", closefd=False, **TEXT) as out:
            yield out
        return
    with replacing(path) as part, open(part, "w", **TEXT) as out:
        yield out


def parser():
    whole = argparse.ArgumentParser(
        prog="press",
        description="Reads runs of Agilent ChemStation, by the proved library: headers, tables, sums, texts, pictures and volumes "
                    "of runs.",
        epilog=f"KIND is {KINDS_HELP}. `press SUBCOMMAND --help` has the rest.",
    )
    subparsers = whole.add_subparsers(metavar="SUBCOMMAND", required=True)
    for name in SUBCOMMANDS:
        importlib.import_module(f"press.{name}").add(subparsers)
    return whole


def ran(arguments):
    """The status of a subcommand, whatever stopped it."""
    try:
        status = arguments.run(arguments)
        sys.stdout.flush()
        return status
    except chemstation.Refused as error:
        say(f"{arguments.file}: {error}")
        return 1
    except (GiveUp, chemstation.NoLibrary, MemoryError) as error:
        say(error)
        return 2
    except BrokenPipeError:
        # Whoever read the output has gone and needs no message, nor one when Python closes it.
        os.dup2(os.open(os.devnull, os.O_WRONLY), sys.stdout.fileno())
        return 1
    except OSError as error:
        say(f"the output could not be written: {error}")
        return 1
    except KeyboardInterrupt:
        return 130


def main(words=None):
    return ran(parser().parse_args(words))
