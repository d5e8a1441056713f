"""`press plot`: a picture of a run, or of its log."""
import argparse
import contextlib
import importlib
import math
import os
import sys
from array import array

import chemstation
from chemstation.answers import DAD, KINDS, NO_ATLAS
from press import advice, cli
from press.picture import picture_of
from press.picture_log import refusal, source_of_log
from press.picture_parts import AXES, CannotDraw, Source, Wish

HELP = "a picture of a run, as PDF, SVG or PNG"
DESCRIPTION = (
    "Draws the scaled intensities of a run: FID, MWD and array as a line over time, DAD and UV as a map over time and "
    "wavelength, MS as the total of its scans over time. No peak is lost, however many records share a dot of print. NaN and "
    "infinities leave a gap, with a red mark below the axis. Title and axes have what the header says: sample, signal, units "
    "and run date. The peaks that rise highest above what is around them are marked with time and height. The caption has the "
    "file, its edition, the count of records, the largest and the smallest intensity and the closing answer. What is refused, "
    "cut or damaged is said in red, and so is what to look at where the kind and the file disagree, or where letters of a text "
    "that the picture shows were replaced by U+FFFD. A DAD run is drawn by the atlas reading, so that its last scan is whole, unless "
    "--plain is given; a UV run by the plain one, unless --atlas is; the caption says so where it is the atlas reading. A log "
    "(--log) is drawn as it is: it does not say which reading it has, and neither option goes with it."
)
STATUS = (
    "Status: 0 drawn, and the run closed with 0; 1 drawn, but the run is refused, cut or damaged, as the picture says, "
    "or not drawn, since there is no such kind or it has no atlas reading, or the picture could not be written; 2 wrong usage, no "
    "matplotlib, a file that cannot be read, or that is no log though --log was given."
)
ENDINGS = "pdf", "svg", "png"
SHOWN = "sample", "signal_name", "y_units", "run_date"  # the texts that a picture has
MOST_DOTS = 100_000_000  # of a picture: 400 MB of memory


# ---- the words of the command

def number(word):
    found = float(word)
    if not math.isfinite(found):
        raise argparse.ArgumentTypeError(f"'{word}' is not a finite number")
    return found


def between(low, high, sort=float):
    """The type of a number from low to high."""
    def number(word):
        found = sort(word)
        if not low <= found <= high:
            raise argparse.ArgumentTypeError(f"'{word}' is not from {low:,} to {high:,}")
        return found
    return number


def add_views(parser):
    view = parser.add_mutually_exclusive_group()
    view.add_argument("--map", action="store_true", help="MS as a map over time and m/z")
    view.add_argument("--total", action="store_true", help="DAD or UV as the total of each scan over time")
    view.add_argument("--axis", metavar="X", type=number,
                      help="one m/z (half a unit to both sides) or wavelength (the nearest) over time")
    view.add_argument("--time", metavar="MINUTES", type=number, help="the scan that is nearest to a time, as a spectrum")


def add_sizes(parser):
    parser.add_argument("--width", metavar="MM", type=between(40, 1000), default=Wish.width, help="in millimetres (180)")
    parser.add_argument("--height", metavar="MM", type=between(40, 1000), default=Wish.height, help="in millimetres (120)")
    parser.add_argument("--dpi", metavar="N", type=between(50, 2400, int), default=Wish.dpi,
                        help="dots an inch, of a PNG and of maps (300)")


def add_source(parser):
    """What is drawn: a log, or a run by one of its readings."""
    source = parser.add_mutually_exclusive_group()
    source.add_argument("--log", action="store_true",
                        help="FILE is the log of a run of that kind, or - for a log on standard input; needs no library")
    cli.add_atlas(source, f"{cli.ATLAS_HELP}; DAD runs are drawn so without it too")
    source.add_argument("--plain", action="store_true", help="a DAD run by the plain reading: of its last scan the first point alone")


def add(subparsers):
    parser = cli.added(subparsers, "plot", run, HELP, DESCRIPTION, STATUS)
    cli.add_run(parser)
    parser.add_argument("out", metavar="OUT", help="the picture; its ending says what it is: .pdf, .svg or .png")
    add_source(parser)
    add_views(parser)
    parser.add_argument("--minutes", nargs=2, metavar=("FROM", "TO"), type=number, help="this part of the time only")
    parser.add_argument("--intensity", nargs=2, metavar=("LOW", "HIGH"), type=number,
                        help="limits for the intensity axis, or for the colours of a map")
    parser.add_argument("--peaks", metavar="N", type=between(0, 50, int), default=Wish.peaks,
                        help="how many peaks are marked (5)")
    add_sizes(parser)


def wish_of(arguments):
    ranges = {name: tuple(getattr(arguments, name) or ()) or None for name in ("minutes", "intensity")}
    for name, ends in ranges.items():
        if ends and not ends[0] < ends[1]:
            raise cli.GiveUp(f"--{name}: the first number must be below the second")
    if arguments.time is not None and arguments.minutes:
        raise cli.GiveUp("--minutes is for a picture over time, and --time asks for one scan")
    dots = arguments.width * arguments.height * (arguments.dpi / 25.4) ** 2
    if dots > MOST_DOTS:
        raise cli.GiveUp(f"{dots / 1e6:.0f} million dots are too many: give a smaller size or --dpi")
    names = "map", "total", "axis", "time", "peaks", "width", "height", "dpi"
    return Wish(**ranges, **{name: getattr(arguments, name) for name in names})


def ending_of(arguments):
    ending = os.path.splitext(arguments.out)[1][1:].lower()
    if ending not in ENDINGS:
        raise cli.GiveUp(f"{arguments.out}: the name of a picture ends in .pdf, .svg or .png")
    with contextlib.suppress(OSError):  # one of them is not there
        if os.path.samefile(arguments.out, arguments.file):
            raise cli.GiveUp(f"{arguments.out}: is the file to be drawn itself")
    return ending


def drawing():
    """The module that draws."""
    try:
        return importlib.import_module("press.drawing")
    except ImportError as error:
        raise cli.GiveUp(f"pictures need matplotlib 3.5 or later, which {sys.executable} does not have ({error}); on Debian, "
                         "install python3-matplotlib and run /usr/bin/python3 tools/press") from None


# ---- what is drawn

def by_atlas(arguments):
    """Whether a run is read by the atlas reading: a DAD run unless it is asked for otherwise, another only if it is asked for."""
    return arguments.atlas or arguments.kind == DAD and not arguments.plain


def source_of_run(arguments):
    """The records of a run and what its header says; of a refused one, that it is. Where the kind, or a reading that it has not, is
    what is refused, there is nothing to draw."""
    name, atlas = os.path.basename(arguments.file), by_atlas(arguments)
    try:
        opened = cli.given(chemstation.open, arguments.file, arguments.kind, atlas=atlas)
    except chemstation.Refused as error:
        if arguments.kind not in KINDS or error.number == NO_ATLAS:
            raise
        axes = array("d") if arguments.kind in AXES else None
        faults = [refusal(0, error.number)]
        return Source(name, arguments.kind, array("d"), axes, array("d"), error.number, atlas=atlas, faults=faults)
    columns = opened.columns()
    times, axes, values = (array("d", column.tobytes()) for column in (columns.time, columns.axis, columns.scaled))
    answer = columns.closing.number
    faults = [refusal(len(values), answer)] if answer else []
    unseen = advice.of_replaced({text: count for text, count in opened.replaced.items() if text not in SHOWN})
    return Source(name, opened.kind, times, axes if opened.kind in AXES else None, values, answer, (opened.edition, opened.size),
                  opened.texts, atlas, faults=faults, advice=advice.of_run(opened, arguments.file), unseen=unseen)


def source_of_stream(stream, name, kind):
    source = source_of_log(stream, name, kind)
    source.advice = (advice.of_edition(kind, source.header[0]) if source.header else []) + source.advice
    return source


def source_of_file(arguments):
    """A run, or a log, which needs no library."""
    if not arguments.log:
        return source_of_run(arguments)
    if arguments.kind not in KINDS:
        raise chemstation.Refused(1)
    if arguments.file == "-":
        return source_of_stream(sys.stdin.buffer, "standard input", arguments.kind)
    reason = cli.why_not(arguments.file)
    if reason:
        raise cli.GiveUp(f"{arguments.file}: {reason}")
    try:
        with open(arguments.file, "rb") as stream:
            return source_of_stream(stream, os.path.basename(arguments.file), arguments.kind)
    except OSError as error:
        raise cli.GiveUp(f"{arguments.file}: cannot be read: {error.strerror}") from error


def run(arguments):
    ending, wish, draw = ending_of(arguments), wish_of(arguments), drawing()
    try:
        source = source_of_file(arguments)
        cli.advise(arguments.file, source.advice)
        picture = picture_of(source, wish)
        with cli.replacing(arguments.out) as part:
            sentences = draw.write(picture, wish, part, ending)
    except CannotDraw as error:
        raise cli.GiveUp(f"{arguments.file}: {error}") from None
    for sentence in source.faults + sentences:
        cli.say(f"{arguments.file}: {sentence}")
    return 1 if source.faults else 0
