"""Pictures of runs with an axis as a map over time and m/z or wavelength."""
from array import array
from dataclasses import dataclass
from math import isfinite

from press.picture_cells import NOT_FINITE, Side, rows_of, strongest, whole_mass
from press.picture_lines import Columns, backward, largest_peaks, marks_of
from press.picture_numbers import counted, limits, power_for, value_limits, without
from press.picture_parts import AXES, LEAST_PEAK, MARKED, MS, TIME, Axis, Map, Peak
from press.picture_parts import asked_ends, begun, label_of, none_from, note_lost, note_odd, on_axis, with_unit
from press.picture_scans import distinct, minute_word, usual_step

SEEN = 100  # dots an inch; a cell alone among empty ones must be larger than a dot of print to be seen


@dataclass
class Points:
    """The records of a map: their numbers without powers of ten, and the indices of those that have a place in it."""

    times: array
    axes: array
    values: array
    powers: tuple  # of times, axes and values
    placed: list
    shown: list  # with a finite intensity
    odd: list  # without


def placed_in(source, span):
    return [i for i, (time, axis) in enumerate(zip(source.times, source.axes))
            if isfinite(time) and isfinite(axis) and (not span or span[0] <= time <= span[1])]


def points_of(source, placed):
    """Masses are taken whole, since a spectrometer's jitter would leave rows of specks."""
    times, axes, values = source.times, source.axes, source.values
    if source.kind == MS:
        axes = array("d", (whole_mass(axis) if isfinite(axis) else axis for axis in axes))
    shown = [i for i in placed if isfinite(values[i])]
    odd = [i for i in placed if not isfinite(values[i])]
    powers = [power_for(max((abs(column[i]) for i in indices), default=0))
              for column, indices in ((times, placed), (axes, placed), (values, shown))]
    columns = [array("d", (without(power, x) for x in column)) if power else column
               for column, power in zip((times, axes, values), powers)]
    return Points(*columns, tuple(powers), placed, shown, odd)


# ---- what is told

def place_words(source):
    """How the place of a record is written, given its index."""
    minutes, axis = minute_word(source.times), on_axis(source.kind)
    return lambda i: [minutes(source.times[i]), axis(source.axes[i])]


def tell(picture, source, points, words):
    timed = sum(map(isfinite, source.times))
    both = sum(isfinite(time) and isfinite(axis) for time, axis in zip(source.times, source.axes))
    if points.shown:
        ends = [find(points.shown, key=source.values.__getitem__) for find in (max, min)]
        high, low = (f"{with_unit(source.values[i], source.units)} at {', '.join(words(i))}" for i in ends)
        picture.facts.append(f"largest {high}; smallest {low}")
    note_odd(picture, [source.values[i] for i in points.odd], "record")
    note_lost(picture, len(source.times) - timed, "record", "time")
    note_lost(picture, timed - both, "record", AXES[source.kind])
    back = backward(source.times)
    if back:
        picture.notes.append(f"the time goes backward {counted(back, 'time')}")


# ---- cells

def ends_of(numbers, step):
    """Limits with half a step beside the outer numbers."""
    return (numbers[0] - step / 2, numbers[-1] + step / 2) if step else limits(numbers[0], numbers[-1], 0.03)


def sides_of(points, kind, wish):
    """The two sides of the map, and the limits of each."""
    x_power, y_power, _ = points.powers
    times, axes = (distinct(column[i] for i in points.placed) for column in (points.times, points.axes))
    steps = usual_step(times), without(y_power, 1.0) if kind == MS else usual_step(axes)
    x_ends = asked_ends(wish.minutes, x_power) if wish.minutes else ends_of(times, steps[0])
    y_ends = ends_of(axes, steps[1])
    wide, high = wish.cells(SEEN if kind == MS else wish.dpi)
    return Side(times, steps[0], *x_ends, wide), Side(axes, steps[1], *y_ends, high), x_ends, y_ends


def add_cells(picture, source, points, wish):
    """The axes, and the rows of the map."""
    across, up, x_ends, y_ends = sides_of(points, source.kind, wish)
    picture.x = Axis(label_of(TIME, power=points.powers[0]), *x_ends)
    picture.y = Axis(label_of(AXES[source.kind], power=points.powers[1]), *y_ends)
    cells = strongest(points.times, points.axes, points.values, points.shown, across, up)
    for i in points.odd:
        cells.setdefault(across.cell(points.times[i]) * up.count + up.cell(points.axes[i]), NOT_FINITE)
    picture.map = Map(rows_of(cells, across, up), colours_of(source, points, wish), source.kind == MS)


def colours_of(source, points, wish):
    """The intensities that the colours stand for: those that are asked for, or all."""
    power = points.powers[2]
    values = [points.values[i] for i in points.shown] or [0.0]
    ends = asked_ends(wish.intensity, power) if wish.intensity else value_limits(min(values), max(values), share=0.0)
    return Axis(label_of("scaled intensity", source.units, power), *ends)


# ---- peaks

def largest_of_scans(points):
    """The index of the largest intensity of each scan."""
    found = []
    for i in points.shown:
        if not found or points.times[i] != points.times[found[-1]]:
            found.append(i)
        elif points.values[i] > points.values[found[-1]]:
            found[-1] = i
    return found


def mark_peaks(picture, source, points, wish, words):
    """The peaks of the largest intensity of each scan over time."""
    scans = largest_of_scans(points)
    tops = [points.values[i] for i in scans]
    for n in largest_peaks([range(len(tops))], tops, wish.peaks, (max(tops) - min(tops)) * LEAST_PEAK):
        i = scans[n]
        height = with_unit(source.values[i], source.units, MARKED)
        picture.peaks.append(Peak(points.times[i], points.axes[i], [*words(i), height]))


# ---- the picture

def map_picture(source, wish):
    picture, words = begun(source, "map"), place_words(source)
    points = points_of(source, placed_in(source, wish.minutes))
    tell(picture, source, points, words)
    if not points.placed:
        nowhere = "no record has a finite place: nothing to draw"
        picture.message = none_from(wish.minutes) if wish.minutes else nowhere
        return picture
    add_cells(picture, source, points, wish)
    columns = Columns(picture.x.low, picture.x.high, wish.columns)
    picture.marks = marks_of(columns, points.times, points.odd, source.breaks)
    what = "the largest absolute intensity" + " of a whole m/z" * (source.kind == MS)
    picture.facts.append(f"drawn: in each cell {what}, in colours on a square-root scale")
    if points.shown:
        mark_peaks(picture, source, points, wish, words)
    else:
        picture.message = "no finite intensity: nothing to draw"
    return picture
