"""`press show`: what a run's header says, and how far its records go."""
import chemstation
from chemstation.answers import SUMMED
from press import advice, cli

HELP = "what a header says"
DESCRIPTION = (
    "Prints what the header of a run says, each field by its name, and how many records the run has, from when to when, the sum of their "
    "unscaled intensities (not for array; - where it is refused), and what closed it. Times are in minutes. Control characters in a text "
    "are written as \\x and two digits. Behind a text of which letters were replaced by U+FFFD (unpaired surrogates in the header) stands "
    "how many, as [2 replaced]. With --atlas a line says that the records are those of the atlas reading."
)


def add(subparsers):
    parser = cli.added(subparsers, "show", run, HELP, DESCRIPTION)
    cli.add_run(parser)
    cli.add_atlas(parser)


def plain(text):
    return "".join(f"\\x{ord(c):02X}" if ord(c) < 32 or ord(c) == 127 else c for c in text)


def minutes(time):
    """Ten digits: sums of 0.2 are not shown to the last bit."""
    return f"{time:.10g} minutes"


def spaced(name):
    return name.replace("_", " ")


def marked(text, replaced):
    """A text with the count of its replaced letters behind it, where there are some."""
    return f"{plain(text)}  [{replaced} replaced]" if replaced else plain(text)


def texts(named):
    """The texts of a header, as pairs of a name and a text."""
    return [(spaced(name), marked(text, named.replaced[name])) for name, text in named.items()]


def header(run):
    """What the header says, as such pairs; and that the run is read by the atlas reading, where it is."""
    return [
        ("kind", f"{run.kind} {run.kind_name}"),
        *[("reading", "atlas")] * run.atlas,
        ("edition", str(run.edition)),
        ("header", f"{run.size} bytes"),
        ("sequence", str(run.sequence)),
        ("vial", str(run.vial)),
        ("replicate", str(run.replicate)),
        ("start", minutes(run.start)),
        ("end", minutes(run.end)),
        ("offset", str(run.offset)),
        ("multiplier", str(run.multiplier)),
        *texts(run.texts),
    ]


def total(columns):
    """The sum of the unscaled intensities, as a text."""
    try:
        return str(columns.sum())
    except chemstation.Refused as error:
        return f"-, {error.number}: {error.words}"


def reach(columns):
    """How far the records go, as such pairs."""
    pairs = [("records", str(columns.count))]
    if columns.count:
        pairs += [("first time", minutes(columns.time[0])), ("last time", minutes(columns.time[-1]))]
    if columns.kind in SUMMED:
        pairs += [("sum", total(columns))]
    pairs += [("closed with", f"{columns.closing.number}: {columns.closing.words}")]
    if columns.left and columns.left.last_scan:
        pairs += [("unread", f"{columns.left.last_scan} bytes of the last scan")]
    return pairs


def lines(pairs):
    return [f"{name:<14}{text}".rstrip() + "\n" for name, text in pairs]


def run(arguments):
    opened = cli.opened(arguments)
    with cli.output(None) as out:
        out.writelines(lines([("file", plain(arguments.file)), ("bytes", str(opened.length)), *header(opened), *reach(opened.columns())]))
    cli.advise(arguments.file, advice.of_run(opened, arguments.file))
    return cli.closed(arguments, opened.closing)
