"""Puts a picture on paper by matplotlib. No other module needs it."""
import re
import warnings
from contextlib import contextmanager
from math import ceil, inf

import matplotlib
import numpy
from matplotlib.backends.backend_agg import FigureCanvasAgg
from matplotlib.collections import LineCollection
from matplotlib.colors import FuncNorm, ListedColormap
from matplotlib.figure import Figure
from matplotlib.patches import Patch
from matplotlib.ticker import ScalarFormatter

from press.picture_labels import POINT, apart, fitting, wrapped
from press.picture_parts import ROWS, CannotDraw

LINE, FAULT, INK, LEADER, ZERO, GRID = "#0b3d91", "#c00000", "#222222", "#999999", "#9a9a9a", "#ececec"
EMPTY, ODD = "#d4d4d4", "#00a0ff"  # cells of a map without a record, and without a finite one
COLOURS = "magma_r"  # light for small, ever darker for large, so that a print in greys says the same
TITLE, SUBTITLE, WORDS, LABEL, SMALL, TINY = 10.5, 8, 7.5, 8, 7, 6.3  # sizes of letters, in points
SPACING = 1.4  # from line to line, in sizes of the letters
# Millimetres:
MARGIN = 4
LEAD = 3.5  # between the plot and the words of its peaks, for the lines that lead there
BAR = 3.5  # the width of the bar of colours
NUMBERS = 11  # below a plot, for the numbers and the name of its axis
LEAST = 25, 18  # a plot that is smaller cannot be read

STYLE = {
    "font.family": "DejaVu Sans", "font.size": LABEL, "axes.labelsize": LABEL, "xtick.labelsize": SMALL,
    "ytick.labelsize": SMALL, "text.color": INK, "axes.edgecolor": INK, "axes.labelcolor": INK, "xtick.color": INK,
    "ytick.color": INK, "axes.linewidth": 0.6,
    # Joins are round: a sharp one would make a peak higher. Lines have no more points than they need: none is to be left out.
    "lines.solid_joinstyle": "round", "lines.solid_capstyle": "round", "path.simplify": False,
    "svg.hashsalt": "press", "svg.fonttype": "none", "pdf.fonttype": 42,
}
UNDATED = {"svg": {"Date": None}, "pdf": {"CreationDate": None}, "png": {}}  # the same file each time


@contextmanager
def styled():
    """The same style whatever the user's own is."""
    with matplotlib.rc_context():
        matplotlib.rcdefaults()
        matplotlib.rcParams.update(STYLE)
        yield


class Numbers(ScalarFormatter):
    """Numbers of an axis with a comma between thousands."""

    def __call__(self, number, position=None):
        whole, point, part = super().__call__(number, position).partition(".")
        return re.sub(r"(?<=\d)(?=(?:\d{3})+$)", ",", whole) + point + part


def literal(text):
    """A dollar would begin mathematics."""
    return text.replace("$", r"\$")


# ---- words around the plot

class Sheet:
    """A figure in millimetres, and how much of it is taken from above and from below."""

    def __init__(self, width, height, dpi):
        self.width, self.height, self.top, self.bottom = width, height, MARGIN, MARGIN
        self.figure = Figure(figsize=(width / 25.4, height / 25.4), dpi=dpi, facecolor="white")
        FigureCanvasAgg(self.figure)  # measures texts

    def size_of(self, axes):
        """Width and height of a plot."""
        wide, high = axes.get_position().size
        return wide * self.width, high * self.height

    def line(self, gid, text, y, size, how):
        self.figure.text(MARGIN / self.width, 1 - y / self.height, literal(text), size=size, va="top", gid=gid, **how)

    def above(self, gid, lines, size, **how):
        for text in lines:
            self.line(gid, text, self.top, size, how)
            self.top += size * POINT * SPACING

    def below(self, gid, lines, size, **how):
        """The lines end above those that were put below before."""
        for text in reversed(lines):
            self.bottom += size * POINT * SPACING
            self.line(gid, text, self.height - self.bottom, size, how)


def put_words(sheet, picture):
    """Title and faults above the plot, the caption below it."""
    room = sheet.width - 2 * MARGIN
    bold = 1.15  # letters are wider
    sheet.above("title", wrapped([picture.title], TITLE * bold, room), TITLE, weight="bold")
    sheet.above("subtitle", wrapped([picture.subtitle], SUBTITLE, room), SUBTITLE)
    sheet.above("fault", wrapped(picture.faults, WORDS * bold, room), WORDS, weight="bold", color=FAULT)
    sheet.below("note", wrapped(picture.notes, TINY, room), TINY, color=FAULT)
    sheet.below("fact", wrapped(picture.facts, TINY, room), TINY)
    sheet.bottom += 1.5


# ---- lines

def add_lines(axes, picture):
    """All lines as one, with a gap between two; dots; sticks."""
    gap = (numpy.nan, numpy.nan)
    points = [point for line in picture.lines for point in (*line, gap)]
    if points:
        axes.plot(*zip(*points), color=LINE, linewidth=0.7, gid="lines")
    if picture.dots:
        size = 3.2 if len(picture.dots) <= 40 else 2.0 if len(picture.dots) <= 150 else 1.2
        dots = {"linestyle": "", "marker": "o", "markersize": size, "markeredgewidth": 0}
        axes.plot(*zip(*picture.dots), color=LINE, gid="dots", **dots)
    if picture.sticks:
        ends = [((x, 0), (x, y)) for x, y in picture.sticks]
        axes.add_collection(LineCollection(ends, colors=LINE, linewidths=0.8, gid="sticks"), autolim=False)
    if picture.y.low < 0 < picture.y.high:
        axes.axhline(0, color=ZERO, linewidth=0.5, zorder=0.5, gid="zero")
    axes.grid(color=GRID, linewidth=0.4)
    axes.set_axisbelow(True)


# ---- maps

def root(number):
    """The square root with the sign of the number."""
    return numpy.sign(number) * numpy.sqrt(numpy.abs(number))


def square(number):
    return numpy.sign(number) * numpy.square(number)


def empty_of(drawn):
    """The colour of a cell without a record: where most have none, that of the paper."""
    return "white" if drawn.sparse else EMPTY


def add_map(axes, picture):
    cells, colours = numpy.array(picture.map.rows), picture.map.colours
    low, high = (colours.low, colours.high) if colours.low < colours.high else (colours.low - 1, colours.high + 1)
    extent = picture.x.low, picture.x.high, picture.y.low, picture.y.high
    how = {"origin": "lower", "aspect": "auto", "extent": extent, "interpolation": "nearest"}
    axes.set_facecolor(empty_of(picture.map))
    norm = FuncNorm((root, square), low, high)
    image = axes.imshow(numpy.ma.masked_invalid(cells), cmap=COLOURS, norm=norm, gid="map", **how)
    odd = numpy.isinf(cells)
    if odd.any():
        axes.imshow(numpy.ma.masked_where(~odd, odd), cmap=ListedColormap([ODD]), gid="odd", **how)
    if not picture.message:
        add_colours(axes, image, cells, colours)


def add_colours(axes, image, cells, colours):
    """The colours in numbers, at the right; with a tip where intensities lie beyond them."""
    finite = cells[numpy.isfinite(cells)]
    beyond = (finite < colours.low).any(), (finite > colours.high).any()
    tips = {(False, False): "neither", (True, False): "min", (False, True): "max", (True, True): "both"}
    share = BAR / (axes.figure.get_figwidth() * 25.4)
    bar = axes.figure.colorbar(image, ax=axes, extend=tips[beyond], fraction=share, pad=share, format=Numbers())
    bar.ax.set_box_aspect(None)
    bar.set_label(literal(colours.label))
    bar.outline.set_linewidth(0.6)


def add_key(axes, drawn, high):
    """What the cells say that have no intensity, below the plot at the right; the plot is so many millimetres high."""
    cells = numpy.array(drawn.rows)
    keys = [("no record", empty_of(drawn))] * numpy.isnan(cells).any() + [("not finite", ODD)] * numpy.isinf(cells).any()
    patches = [Patch(facecolor=colour, edgecolor=INK, linewidth=0.4, label=label) for label, colour in keys]
    if patches:
        place = {"loc": "upper right", "bbox_to_anchor": (1, -5 / high), "borderpad": 0, "borderaxespad": 0}
        axes.legend(handles=patches, fontsize=TINY, frameon=False, ncol=2, **place).set_in_layout(False)


# ---- the plot

def add_axes(axes, picture):
    for axis, ends in ((axes.xaxis, picture.x), (axes.yaxis, picture.y)):
        if ends:
            axis.set_major_formatter(Numbers())
            axis.set_label_text(literal(ends.label))
        else:
            axis.set_ticks([])
    if picture.x:
        axes.set_xlim(picture.x.low, picture.x.high)
    if picture.y:
        axes.set_ylim(picture.y.low, picture.y.high)


def add_marks(axes, marks):
    """Red marks just below the axis, wide enough to be seen."""
    ends = [((low, -0.015), (high, -0.015)) for low, high in marks]
    if ends:
        how = {"colors": FAULT, "linewidths": 3, "capstyle": "projecting", "clip_on": False, "zorder": 5}
        axes.add_collection(LineCollection(ends, transform=axes.get_xaxis_transform(), gid="marks", **how), autolim=False)


def add_plot(axes, picture):
    add_axes(axes, picture)  # first: limits that matplotlib would find in extreme numbers may be none
    if picture.map:
        add_map(axes, picture)
    elif picture.y:
        add_lines(axes, picture)
    add_marks(axes, picture.marks)
    if picture.message:
        middle = {"transform": axes.transAxes, "ha": "center", "va": "center"}
        axes.text(0.5, 0.5, literal(picture.message), size=11, gid="message", **middle)
    if picture.faults:
        for spine in axes.spines.values():
            spine.set(color=FAULT, linewidth=1.2)


# ---- peaks

def band_of(peaks):
    """The height in millimetres of what is said above the plot about its peaks."""
    return LEAD + max(len(peak.words) for peak in peaks) * TINY * POINT * 1.25 + 1 if peaks else 0.0


def mark_peaks(axes, picture, sheet):
    """Each peak's words above the plot, and a thin line from there to the peak; in a map to its edge, and rings around the
    peaks."""
    wide, high = sheet.size_of(axes)
    peaks, widths = fitting(picture.peaks, TINY, wide)
    xs = [(peak.x - picture.x.low) / (picture.x.high - picture.x.low) for peak in peaks]
    ys = [(peak.y - picture.y.low) / (picture.y.high - picture.y.low) + 1 / high for peak in peaks]
    top, places = 1 + LEAD / high, apart([x * wide for x in xs], widths, wide)
    free = {"transform": axes.transAxes, "in_layout": False}
    for peak, x, y, place in zip(peaks, xs, ys, places):
        lead = [x, x, place / wide], [1 if picture.map else min(1, y), 1, top]
        axes.plot(*lead, color=LEADER, linewidth=0.4, clip_on=False, zorder=1.5, gid="lead", **free)
        words = literal("\n".join(peak.words))
        axes.text(place / wide, top, words, ha="center", va="bottom", size=TINY, linespacing=1.1, gid="peak", **free)
    if picture.map:
        add_rings(axes, peaks)


def add_rings(axes, peaks):
    """Dark in white, to be seen on any colour."""
    places = [peak.x for peak in peaks], [peak.y for peak in peaks]
    ring = {"linestyle": "", "marker": "o", "markersize": 5.5, "markerfacecolor": "none", "gid": "rings"}
    for colour, width in (("white", 1.4), (INK, 0.5)):
        axes.plot(*places, markeredgecolor=colour, markeredgewidth=width, **ring)


# ---- the whole

def cells_in_mm(picture, dpi):
    """How large a map must be: a cell that is smaller than a dot could be lost."""
    rows = picture.map.rows if picture.map else [[]]
    return len(rows[0]) / dpi * 25.4, len(rows) / dpi * 25.4


def laid_out(sheet, axes, picture):
    """Gives the plot what the words leave free, or refuses where that is too little."""
    top = sheet.top + band_of(picture.peaks) + (WORDS * POINT * SPACING if picture.stamp else 1.0)
    words = top + sheet.bottom + NUMBERS
    if words < sheet.height:
        edges = MARGIN / sheet.width, sheet.bottom / sheet.height, 1 - MARGIN / sheet.width, 1 - top / sheet.height
        with warnings.catch_warnings():
            warnings.simplefilter("ignore")  # what does not fit is found below
            sheet.figure.tight_layout(pad=0, rect=edges)
    wide, high = sheet.size_of(axes) if words < sheet.height else (inf, 0)
    least_wide, least_high = map(max, LEAST, cells_in_mm(picture, sheet.figure.dpi))
    enough = {"--width": sheet.width + least_wide - wide if wide < least_wide else 0,
              "--height": max(words + LEAST[1], words / (1 - ROWS)) if high < least_high else 0}
    if any(enough.values()):
        sizes = " ".join(f"{name} {ceil(size)}" for name, size in enough.items() if size)
        raise CannotDraw(f"the picture is too small for what it has to show: give at least {sizes}")


def add_stamp(axes, picture, sheet):
    """The first fault beside the plot as well, for those who cut the words around it off."""
    place = axes.get_position()
    above = place.y1 + (band_of(picture.peaks) + 0.8) / sheet.height
    how = {"ha": "right", "va": "bottom", "size": WORDS, "weight": "bold", "color": FAULT}
    sheet.figure.text(place.x1, above, literal(picture.stamp), gid="stamp", **how)


def figure_of(picture, wish):
    sheet = Sheet(wish.width, wish.height, wish.dpi)
    put_words(sheet, picture)
    axes = sheet.figure.add_subplot(gid="plot")
    add_plot(axes, picture)
    laid_out(sheet, axes, picture)
    if picture.peaks:
        mark_peaks(axes, picture, sheet)
    if picture.map:
        add_key(axes, picture.map, sheet.size_of(axes)[1])
    if picture.stamp:
        add_stamp(axes, picture, sheet)
    return sheet.figure


def write(picture, wish, path, ending):
    """Draws into a file, and gives sentences about what could not be drawn."""
    with styled(), warnings.catch_warnings(record=True) as found:
        warnings.simplefilter("always")
        figure_of(picture, wish).savefig(path, format=ending, dpi=wish.dpi, metadata=UNDATED[ending])
    # An SVG leaves letters to whoever shows it.
    lacking = ending != "svg" and any("missing from" in str(one.message) for one in found)
    return ["letters that the font lacks are drawn as boxes"] if lacking else []
