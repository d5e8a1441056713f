"""Runs with an axis by their scans: totals, one m/z or wavelength, one scan. A scan is the records in a row that have one
time."""
from array import array
from bisect import bisect_left
from math import fsum, inf, isfinite, isnan, nan

from press.picture_numbers import placed, written
from press.picture_parts import MS, CannotDraw, on_axis

MASS_WINDOW = 0.5  # m/z to both sides of the one asked for
SAME_WAVELENGTH = 0.025  # nm; a file stores twentieths


def starts_of(times):
    """The first record of each scan, and the end. A NaN equals nothing: records without a time are a scan each, and none is
    drawn."""
    return [i for i in range(len(times)) if not i or times[i] != times[i - 1]] + [len(times)]


def unknown_scans(source, starts):
    """The numbers of the scans beside a line that cannot be read: what they hold is not known."""
    found = set()
    for record in source.breaks:
        scan = bisect_left(starts, record)
        found |= {scan, scan - 1} if scan < len(starts) and starts[scan] == record else {scan - 1}
    return found


def total_of(values):
    """NaN stands for a total that has no value of its own."""
    if any(map(isnan, values)):
        return nan
    try:
        return fsum(values)
    except OverflowError:
        return inf
    except ValueError:  # of infinities of both signs
        return nan


def over_time(source, number_of):
    """The times of the scans and a number for each: what `number_of` gives for its first record and its end; None leaves the
    scan out."""
    starts = starts_of(source.times)
    unknown = unknown_scans(source, starts)
    scans = enumerate(zip(starts, starts[1:]))
    found = [(source.times[i], nan if n in unknown else number_of(i, j)) for n, (i, j) in scans]
    kept = [(time, number) for time, number in found if number is not None]
    return array("d", (time for time, _ in kept)), array("d", (number for _, number in kept))


def totals(source):
    return over_time(source, lambda i, j: total_of(source.values[i:j]))


def within(source, low, high):
    """The total of each scan from an m/z or wavelength up to another. A mass that a scan lacks counts 0; a scan without the
    wavelength is left out."""
    def number_of(i, j):
        found = [value for axis, value in zip(source.axes[i:j], source.values[i:j]) if low <= axis < high]
        return total_of(found) if found or source.kind == MS else None
    return over_time(source, number_of)


# ---- what is there

def distinct(numbers):
    return sorted({number for number in numbers if isfinite(number)})


def usual_step(numbers):
    """The step in the middle of all steps between distinct numbers in order; 0 for a single number."""
    steps = sorted(b - a for a, b in zip(numbers, numbers[1:]))
    return steps[len(steps) // 2] if steps else 0.0


def reach_of(there, word):
    """From the first to the last of numbers, in words."""
    return f"there is {word(there[0])} only" if len(there) == 1 else f"there are {word(there[0])} to {word(there[-1])}"


def nearest(there, wanted, word, what):
    """The number nearest to the one wanted, not farther away than a step."""
    if not there:
        raise CannotDraw(f"no {what} that is finite")
    found = min(there, key=lambda number: abs(number - wanted))
    if abs(found - wanted) > max(usual_step(there), SAME_WAVELENGTH):
        raise CannotDraw(f"no {what} near {word(wanted)}: {reach_of(there, word)}")
    return found


def window_of(source, wanted):
    """What is drawn for one m/z or wavelength: from, up to, and the words for it."""
    there, word = distinct(source.axes), on_axis(source.kind)
    if source.kind != MS:
        found = nearest(there, wanted, word, "wavelength")
        return found - SAME_WAVELENGTH, found + SAME_WAVELENGTH, word(found)
    low, high = wanted - MASS_WINDOW, wanted + MASS_WINDOW
    at = bisect_left(there, low)
    if at == len(there) or there[at] >= high:
        have = reach_of(there, word) if there else "no record has one"
        raise CannotDraw(f"no {word(low)} to {written(high)}: {have}")
    return low, high, f"{word(low)} to {written(high)}"


def scan_at(source, wanted):
    """The scan nearest to a time: its number, its first record and its end."""
    starts, there = starts_of(source.times), distinct(source.times)
    time = nearest(there, wanted, minute_word(there), "scan")
    first = source.times.index(time)
    number = bisect_left(starts, first)
    return number, first, starts[number + 1]


def minute_word(times):
    """How a time is written: as fine as the span of the times asks for."""
    finite = [time for time in times if isfinite(time)]
    span = max(finite) - min(finite) if finite else 0.0
    return lambda time: f"{placed(time, span)} min"
