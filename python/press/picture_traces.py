"""Pictures with one intensity at a place: lines over time, and spectra."""
from array import array
from dataclasses import dataclass
from typing import Callable

from press.picture_lines import Columns, Series, backward, largest_peaks, lines_of, marks_of
from press.picture_numbers import counted, limits, power_for, value_limits, without
from press.picture_parts import AXES, DAD, FID, LEAST_PEAK, MARKED, MS, MWD, TIME, UV, Axis, Peak
from press.picture_parts import asked_ends, begun, label_of, none_from, note_lost, note_odd, on_axis, with_unit
from press.picture_scans import minute_word, scan_at, starts_of, totals, unknown_scans, window_of, within

FEW = 150  # so many records have a dot each


@dataclass
class Trace:
    """A series, and the words for it."""

    series: Series
    x: str  # the name of the x axis
    place: Callable  # how a place on it is written
    y: str = "scaled intensity"
    noun: str = "record"


# ---- what is told

def tell(picture, trace, units):
    """The facts and notes of every trace."""
    series = trace.series
    if series.shown:
        low, high = (f"{with_unit(series.ys[i], units)} at {trace.place(series.xs[i])}" for i in series.ends())
        picture.facts.append(f"largest {high}; smallest {low}")
    note_odd(picture, [series.ys[i] for i in series.odd], trace.noun)
    note_lost(picture, len(series) - len(series.placed), trace.noun, "time" if trace.x == TIME else trace.x)
    if series.breaks:
        picture.notes.append("the line is broken where the log has a line that is none of it, with a red mark below the axis")
    back = backward(series.xs) if trace.x == TIME else 0
    if back:
        picture.notes.append(f"the time goes backward {counted(back, 'time')}: the line is broken there")


def nothing_in(series):
    """Why nothing can be drawn of a series; empty if something can."""
    if not len(series):
        return "no records"
    if not series.placed:
        return "no record has a finite place: nothing to draw"
    if not series.inside:
        return none_from(series.span)
    return "" if series.shown else "no finite intensity: nothing to draw"


# ---- axes

def scaled_down(series):
    """The series without powers of ten, and these: so differences of doubles cannot overflow, and axes can be read."""
    x_power = power_for(max(abs(series.xs[i]) for i in series.inside))
    y_power = power_for(max((abs(series.ys[i]) for i in series.shown), default=0))
    xs = array("d", (without(x_power, x) for x in series.xs)) if x_power else series.xs
    ys = array("d", (without(y_power, y) for y in series.ys)) if y_power else series.ys
    return Series(xs, ys, series.breaks, series.span and asked_ends(series.span, x_power)), x_power, y_power


def x_axis(name, series, power):
    xs = [series.xs[i] for i in series.inside]
    return Axis(label_of(name, power=power), *(series.span or limits(min(xs), max(xs), 0.01)))


def y_axis(name, ends, power, wish, units):
    """The axis of intensities: as far as is asked for, or so that all is seen."""
    low, high = asked_ends(wish.intensity, power) if wish.intensity else value_limits(min(ends), max(ends))
    label = label_of(name, units, power)
    return Axis(label if low <= 0 <= high else f"{label} (axis without 0)", low, high)


# ---- lines and sticks

def split_dots(picture, lines, series):
    """Lines, and dots where a line would be too small to be seen or the records are few."""
    wide, high = (picture.x.high - picture.x.low) / 400, (picture.y.high - picture.y.low) / 200
    few = len(series.shown) <= FEW
    for line in lines:
        points = [(series.xs[i], series.ys[i]) for i in line]
        xs, ys = zip(*points)
        if len(points) > 1:
            picture.lines.append(points)
        small = max(xs) - min(xs) < wide and max(ys) - min(ys) < high
        picture.dots += points if few else points[:1] if small else []


def mark(picture, trace, scaled, indices, units):
    for i in indices:
        words = [trace.place(trace.series.xs[i]), with_unit(trace.series.ys[i], units, MARKED)]
        picture.peaks.append(Peak(scaled.xs[i], scaled.ys[i], words))


def add_lines(picture, trace, scaled, wish, units):
    columns = Columns(picture.x.low, picture.x.high, wish.columns)
    lines, less = lines_of(scaled, columns)
    split_dots(picture, lines, scaled)
    inside = [[i for i in line if columns.low <= scaled.xs[i] <= columns.high] for line in lines]
    if sum(map(len, inside)) < len(scaled.shown):
        left_out = "; some between, where gaps cut it into many parts, are left out" if less else ""
        what = f"the first, last, smallest and largest {trace.noun}"
        picture.facts.append(f"drawn: of each of {columns.count:,} columns {what}{left_out}")
    low, high = (scaled.ys[i] for i in scaled.ends())
    mark(picture, trace, scaled, largest_peaks(inside, scaled.ys, wish.peaks, (high - low) * LEAST_PEAK), units)


def add_sticks(picture, trace, scaled, wish, units):
    """Masses stand for themselves, with nothing between two."""
    picture.sticks = [(scaled.xs[i], scaled.ys[i]) for i in scaled.shown]
    mark(picture, trace, scaled, sorted(scaled.shown, key=lambda i: -scaled.ys[i])[: wish.peaks], units)


def trace_picture(picture, source, trace, wish, add=add_lines):
    """Completes a picture that was begun; `add` puts in what is drawn."""
    tell(picture, trace, source.units)
    picture.message = nothing_in(trace.series)
    if not trace.series.inside:
        return picture
    scaled, x_power, y_power = scaled_down(trace.series)
    picture.x = x_axis(trace.x, scaled, x_power)
    columns = Columns(picture.x.low, picture.x.high, wish.columns)
    picture.marks = marks_of(columns, scaled.xs, scaled.odd, scaled.breaks)
    if scaled.shown:
        ends = [scaled.ys[i] for i in scaled.ends()] + [0.0] * (add is add_sticks)
        picture.y = y_axis(trace.y, ends, y_power, wish, source.units)
        add(picture, trace, scaled, wish, source.units)
    return picture


# ---- the pictures

def line_picture(source, wish):
    breaks = frozenset(i for i in source.breaks if 0 < i < len(source.times))
    series = Series(source.times, source.values, breaks, wish.minutes)
    picture = begun(source)
    if source.kind in (FID, MWD) and source.header and not source.texts:
        picture.facts.append("the time grows by 0.2 minutes a record, whatever the header says, which a log does not tell")
    return trace_picture(picture, source, Trace(series, TIME, minute_word(source.times)), wish)


def note_last_scan(picture, source):
    """By the plain reading only the first point of the last DAD scan comes, and the end of what is not whole may lie inside one."""
    starts = starts_of(source.times)[-3:]
    sizes = [j - i for i, j in zip(starts, starts[1:])]
    if sizes[-1] < sizes[0] and (source.faults or source.kind in (DAD, UV)):
        picture.notes.append(f"the last total is of {counted(sizes[1], 'record')}, the one before it of {sizes[0]:,}")


def total_picture(source, wish):
    picture = begun(source, "total of each scan")
    xs, ys = totals(source)
    picture.facts.append(f"{counted(len(xs), 'scan')}, of which the totals are drawn")
    note_last_scan(picture, source)
    series = Series(xs, ys, span=wish.minutes)
    trace = Trace(series, TIME, minute_word(xs), "total scaled intensity of a scan", "total")
    return trace_picture(picture, source, trace, wish)


def axis_picture(source, wish):
    low, high, words = window_of(source, wish.axis)
    picture = begun(source, words)
    xs, ys = within(source, low, high)
    scans = counted(len(xs), "scan")
    picture.facts.append(f"drawn: of each of {scans} the total of its points there, 0 where it has none" if source.kind == MS
                         else f"{scans}, at the wavelength nearest to {on_axis(source.kind)(wish.axis)}")
    series = Series(xs, ys, span=wish.minutes)
    return trace_picture(picture, source, Trace(series, TIME, minute_word(xs), f"scaled intensity at {words}", "scan"), wish)


def spectrum_picture(source, wish):
    number, first, end = scan_at(source, wish.time)
    word = minute_word(source.times)
    picture = begun(source, f"spectrum at {word(source.times[first])}")
    picture.facts.append(f"{counted(end - first, 'record')} of one scan, the nearest to {word(wish.time)}")
    if number in unknown_scans(source, starts_of(source.times)):
        picture.notes.append("the log has a line that is none of it beside this scan")
    trace = Trace(Series(source.axes[first:end], source.values[first:end]), AXES[source.kind], on_axis(source.kind))
    return trace_picture(picture, source, trace, wish, add_sticks if source.kind == MS else add_lines)
