"""The atlas reading, from the words of request 5: a scan is spent when its last point has been given.

DAD and UV are written here once more, by that rule. The header is document 01's (model.py, text_places.py), the plain reading and
the memory that is lent are those of minutes.py. The reading is a number beside the state, which Open gives and Fill goes on by.
"""

import foot
import minutes
import model
import text_places
from minutes import FULL, GIVEN, LENT_LENGTH, UNKNOWN
from model import DAD, UV, Finished, Refusal

PLAIN, ATLAS = 0, 1
ANOTHER_KIND = 18


# Next record: of numbers, counts and stored time, the four doubles of the row, and the state behind it.

def delta(f, value):
    """The next value, and the bytes it took."""
    v = f.le(2, signed=True)
    return (float(f.le(4, signed=True)), 6) if v == -32768 else (value + v, 2)


def dad(numbers, counts, stored, f):
    time, value, wavelength, step = numbers[:4]
    _, scans, due, _ = counts
    # No byte more is asked for: the file may end here, or go on with anything.
    if scans == 0 and due == 0:
        raise Finished
    if due == 0:
        if f.le(2) != 67:
            raise Finished
        due = max(f.le(2) - 22, 0)
        stored = f.le(4)
        first, _, apart = f.le(2), f.le(2), f.le(2)
        f.take(8)
        if due == 0:
            raise Finished
        time, wavelength, step, value = float(stored), float(first), float(apart), 0.0
    else:
        wavelength += step
    value, taken = delta(f, value)
    due = max(due - taken, 0)
    if due == 0:
        # Only a state of the caller's own has no scans due within one.
        scans = max(scans - 1, 0)
    row = time / 60000, wavelength / 20, value, value / 2000
    return row, ([time, value, wavelength, step, 0.0, 0.0], [DAD, scans, due, 0], stored)


def uv(numbers, counts, stored, f):
    time, value, wavelength, step, multiplier = numbers[:5]
    _, scans, points, _ = counts
    if scans == 0:
        raise Finished
    if points == 0:
        f.take(4)
        stored = f.le(4)
        first, final = f.le(2), f.le(2)
        if first > final:
            raise Refusal(12)
        apart = f.le(2)
        if apart == 0:
            raise Refusal(13)
        points = (final - first) // apart + 1
        time, step, value = stored / 60000, apart / 20, 0.0
        wavelength = first / 20 - step
        f.take(8)
    wavelength += step
    value, _ = delta(f, value)
    points -= 1
    if points == 0:
        scans -= 1
    row = time, wavelength, value, value * multiplier
    return row, ([time, value, wavelength, step, multiplier, 0.0], [UV, scans, points, 0], stored)


STREAMS = {DAD: dad, UV: uv}
# How many of the numbers a kind has a use for; 0 stands in the rest.
USED = {DAD: 4, UV: 5}


def opened(reading, kind, data, last, lent):
    """Open by a reading: the answer, and what the lent header, corrections, text starts and lengths, numbers, counts, stored time and
    reading hold then."""
    if reading == ATLAS and kind in model.STREAMS and kind not in STREAMS:
        return ANOTHER_KIND, lent
    answer, found = minutes.opened(kind, data, last, None)
    if answer != GIVEN:
        return answer, lent
    header, corrections, *state = found
    return GIVEN, (header, corrections, *text_places.of(data[:header[1]]), *state, reading)


def fill(numbers, counts, stored, reading, data, last, columns):
    """Fill columns: the answer, given, numbers, counts and stored time after, and the six columns."""
    if reading == PLAIN:
        return minutes.fill(numbers, counts, stored, data, last, columns)
    columns, kind, room = [list(column) for column in columns], counts[0], len(columns[0])
    if reading != ATLAS or kind not in STREAMS:
        return UNKNOWN, [0, 0], numbers, counts, stored, columns
    state = [*numbers[:USED[kind]], 0.0, 0.0][:6], [*counts[:3], 0], stored
    rows, at, answer = 0, 0, None if all(len(column) == room for column in columns) else LENT_LENGTH
    while answer is None:
        f = model.Fields(data, at)
        found, closing = model.asked(lambda: STREAMS[kind](*state, f), last) if rows < room else (None, FULL)
        if closing:
            answer = minutes.number(closing)
        else:
            (row, state), at = found, f.at
            for column, value in zip(columns, (*row, *minutes.split(state[2]))):
                column[rows] = value
            rows += 1
    return (answer, [rows, at], *state, columns)


def log(case):
    """The text of the log program. No record of these kinds is longer than its buffer, so it is as if all bytes were at hand."""
    kind, file = case[0] - 48 if case else 0, case[1:]
    answer, found = opened(ATLAS, kind, file, True, None)
    if answer != GIVEN:
        return 'e %d 0\n' % answer
    (edition, size, *_), state = found[0], found[4:]
    # No record is shorter than two bytes.
    answer, (count, _), *_, columns = fill(*state, file[size:], True, [[0] * (len(file) // 2 + 1)] * 6)
    rows = [model.row(*row).rstrip() for row in list(zip(*columns[:4]))[:count]]
    return foot.text(case, ['h %d %d' % (edition, size), *rows, 'e %d %d' % (answer, count)])
