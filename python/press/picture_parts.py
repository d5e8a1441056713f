"""The parts of a picture as plain data: what it is made from, what is asked for, and what is shown, with the words that all
pictures have."""
import re
from array import array
from dataclasses import dataclass, field
from math import isnan
from typing import List, Optional, Tuple

from chemstation.answers import KINDS, meaning
from press.picture_numbers import counted, ten_to, without, written

FID, MS, MWD, DAD, UV = 1, 2, 3, 4, 5
TIME = "time (minutes)"
AXES = {MS: "m/z", DAD: "wavelength (nm)", UV: "wavelength (nm)"}
ROWS = 0.3  # of the height of a picture; a map has rows for that much
MARKED = 4  # significant digits of a peak's height
LEAST_PEAK = 0.01  # of the range of intensities; what rises by less is not marked
UNPRINTABLE = re.compile("[^ -~\u00a0-\ud7ff\ue000-\ufffd\U00010000-\U0010ffff]")


class CannotDraw(Exception):
    """There is no such picture of the run: a sentence."""


@dataclass
class Source:
    """A run as far as it is known: its records, and what is said of them."""

    name: str  # of the file
    kind: int
    times: array
    axes: Optional[array]  # None for the kinds without an axis
    values: array  # scaled intensities
    closing: object = None  # the closing answer, or None where there is none
    header: Optional[Tuple[int, int]] = None  # edition and size
    texts: dict = field(default_factory=dict)  # of the header; a log has none
    atlas: bool = False  # whether it was read by the atlas reading; a log does not say it
    breaks: frozenset = frozenset()  # records that have a line that cannot be read before them
    faults: List[str] = field(default_factory=list)  # what is refused, cut or damaged; each begins with the word for it
    advice: List[str] = field(default_factory=list)
    unseen: List[str] = field(default_factory=list)  # advice of texts that no picture shows

    @property
    def units(self):
        return clean(self.texts.get("y_units", ""), 24)


@dataclass
class Wish:
    """What is asked for."""

    total: bool = False
    map: bool = False
    axis: Optional[float] = None  # m/z or nm
    time: Optional[float] = None  # minutes
    minutes: Optional[Tuple[float, float]] = None
    intensity: Optional[Tuple[float, float]] = None
    peaks: int = 5
    width: float = 180.0  # mm
    height: float = 120.0  # mm
    dpi: int = 300

    @property
    def columns(self):
        """Of a line: about as many as there are dots across the plot."""
        return max(100, int(self.width / 25.4 * self.dpi * 0.85))

    def cells(self, dpi):
        """Of a map, across and up: fewer than there are dots, or some would be lost in print. The words take the rest."""
        sides = self.width - 60, self.height * ROWS
        return tuple(max(60, int(side / 25.4 * min(dpi, self.dpi))) for side in sides)


@dataclass
class Axis:
    label: str
    low: float
    high: float


@dataclass
class Peak:
    """A place that is marked, and its words, a line each."""

    x: float
    y: float
    words: List[str]


@dataclass
class Map:
    """Rows from the lowest to the highest, over the limits of both axes, and the intensities that the colours stand for."""

    rows: List[array]
    colours: Axis
    sparse: bool  # cells without a record are what is usual


@dataclass
class Picture:
    title: str
    subtitle: str
    stamp: str = ""  # one word for the first fault
    faults: List[str] = field(default_factory=list)
    facts: List[str] = field(default_factory=list)
    notes: List[str] = field(default_factory=list)
    message: str = ""  # in the place of a plot that has nothing to show
    x: Optional[Axis] = None
    y: Optional[Axis] = None
    lines: List[list] = field(default_factory=list)
    dots: List[tuple] = field(default_factory=list)
    sticks: List[tuple] = field(default_factory=list)
    map: Optional[Map] = None
    marks: List[tuple] = field(default_factory=list)  # of the x axis, from and to: where something is not drawn
    peaks: List[Peak] = field(default_factory=list)  # the largest first


# ---- words

def clean(text, most):
    """A text of a header, or a name, in one line and shortened in the middle; what cannot be printed is U+FFFD."""
    text = UNPRINTABLE.sub("\ufffd", re.sub(r"\s+", " ", text).strip())
    return text if len(text) <= most else f"{text[: most // 2]} .. {text[4 - most // 2 :]}"


def begun(source, view=""):
    """A picture with the words that do not depend on what is drawn; `view` says what is."""
    sample, signal, date = (clean(source.texts.get(name, ""), 70) for name in ("sample", "signal_name", "run_date"))
    name = clean(source.name, 60)
    below = [part for part in (signal or KINDS[source.kind], view, date) if part]
    stamp = re.split(":| after", source.faults[0])[0] if source.faults else ""
    advice = [f"to look at: {sentence}" for sentence in source.advice if sentence not in source.unseen]
    facts = [main_fact(source, name)]
    return Picture(sample or name, "  ·  ".join(below), stamp, list(source.faults), facts, advice)


def main_fact(source, name):
    kind = f"{KINDS[source.kind]}, atlas reading" if source.atlas else KINDS[source.kind]
    header = f"edition {source.header[0]}, header of {source.header[1]:,} bytes" if source.header else "no header"
    answer = source.closing
    closing = "no closing answer" if answer is None else f"closed with {answer}: {meaning(answer)}"
    return f"{name}: {kind}; {header}; {counted(len(source.values), 'record')}; {closing}"


def label_of(name, units="", power=0):
    label = f"{name} ({units})" if units else name
    return f"{label}, {ten_to(power)}" if power else label


def with_unit(number, units, digits=6):
    return f"{written(number, digits)} {units}" if units else written(number, digits)


def on_axis(kind):
    """How a place on the axis of a kind is written."""
    return lambda number: f"m/z {written(number)}" if kind == MS else f"{written(number)} nm"


def note_odd(picture, values, noun):
    """Of intensities that are not finite."""
    nans = sum(map(isnan, values))
    if values:
        picture.notes.append(f"{counted(len(values), noun)} not drawn ({nans:,} NaN, {len(values) - nans:,} infinite): "
                             "a gap, with a red mark below the axis")


def note_lost(picture, count, noun, what):
    """Of what has no place in a picture."""
    if count:
        picture.notes.append(f"{counted(count, noun)} not drawn: the {what} is not finite")


def none_from(span):
    return f"no record from {written(span[0])} to {written(span[1])} minutes"


def asked_ends(ends, power):
    """Limits that were asked for, without a power of ten."""
    low, high = (without(power, end) for end in ends)
    if not 1e-12 < high - low < 1e12:
        raise CannotDraw(f"nothing can be seen from {written(ends[0])} to {written(ends[1])}: the run is of another size")
    return low, high
