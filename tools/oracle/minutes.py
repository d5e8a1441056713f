"""Minutes and what is left over, from the request's words, beside the reader of document 01 (model.py).

Records of MS, DAD and UV carry the time that their scan stores, whole milliseconds, as minutes and a leftover. The state holds that
number beside the doubles, and neither is worked out from the other. Memory is lent as include/chemstation.h lays it out.
"""

import model
from model import ARRAY, DAD, FID, MS, MWD, UV

MINUTE = 60000
UNKNOWN, LENT_LENGTH, MORE, FULL, GIVEN = 1, 15, 101, 102, 103

# The kinds whose scans store a time.
TIMED = (MS, DAD, UV)

# What of a lent state is of use to a kind: places of its numbers, then of its counts, under the names of model.py.
PLACES = {
    FID: ({0: 'time', 1: 'value', 2: 'slope', 3: 'step', 4: 'multiplier', 5: 'offset'}, {}),
    MS: ({0: 'time', 1: 'value'}, {1: 'scans', 2: 'points'}),
    MWD: ({0: 'time', 1: 'value', 3: 'step', 4: 'multiplier', 5: 'offset'}, {2: 'points'}),
    DAD: ({0: 'time', 1: 'value', 2: 'wavelength', 3: 'step'}, {1: 'scans', 2: 'bytes'}),
    UV: ({0: 'time', 1: 'value', 2: 'wavelength', 3: 'step', 4: 'multiplier'}, {1: 'scans', 2: 'points'}),
    ARRAY: ({0: 'time', 1: 'value', 3: 'step', 4: 'multiplier'}, {1: 'scans', 3: 'doubles'}),
}


def split(stored):
    return stored // MINUTE, stored % MINUTE


def scan_time(kind, data, at):
    """The time in the scan that begins here. Empty MS scans are passed over: the point is not theirs."""
    if kind == MS:
        while int.from_bytes(data[at:at + 2], 'big') in (14, 15):
            at += 28
        return int.from_bytes(data[at + 2:at + 6], 'big')
    return int.from_bytes(data[at + 4:at + 8], 'little')


class State:
    """A stream of model.py with the stored time of its scan."""

    def __init__(self, stream, kind, stored):
        self.stream, self.kind = stream, kind
        # Document 01's state has the unscaled intensity and the step by which time grows. model.py has no use for the intensity in
        # MS and array, and a plain 0.2 in FID and MWD.
        stream.value, stream.step = getattr(stream, 'value', 0.0), getattr(stream, 'step', 0.2)
        self.stored = stored if kind in TIMED else 0

    @classmethod
    def lent(cls, numbers, counts, stored):
        kind = counts[0]
        stream = object.__new__(model.STREAMS[kind])
        for names, held in zip(PLACES[kind], (numbers, counts)):
            for place, name in names.items():
                setattr(stream, name, held[place])
        return cls(stream, kind, stored)

    def given_back(self):
        """Numbers, counts and stored time, 0 in the places without a use."""
        numbers, counts = [0.0] * 6, [self.kind, 0, 0, 0]
        for names, held in zip(PLACES[self.kind], (numbers, counts)):
            for place, name in names.items():
                held[place] = getattr(self.stream, name)
        return numbers, counts, self.stored

    def due(self):
        """Points or bytes of a begun scan."""
        return getattr(self.stream, PLACES[self.kind][1].get(2, ''), 0)

    def next(self, data, at, last):
        """Next record: the six values of its row, where its bytes end, and None; or None, the same place, and the answer."""
        f, begins, before = model.Fields(data, at), self.due() == 0, self.stream.time
        record, closing = model.asked(lambda: self.stream.next(f, last), last)
        if closing:
            return None, at, number(closing)
        time, axis, unscaled, scaled = record
        self.stream.value = unscaled
        if self.kind in (FID, MWD):
            time = self.stream.time = before + self.stream.step
        if self.kind in TIMED and begins:
            self.stored = scan_time(self.kind, data, at)
        return (time, 0.0 if axis is None else axis, unscaled, scaled, *split(self.stored)), f.at, None


def number(closing):
    """The interface's number of an answer of model.py."""
    return MORE if closing == 'm' else int(closing)


def opened(kind, data, last, lent):
    """Open: the answer, and what the lent header, corrections, numbers, counts and stored time hold then."""
    told, closing = model.asked(lambda: model.Header(kind, model.Fields(data)), last)
    if closing:
        return number(closing), lent
    state = State(model.STREAMS[kind](told), kind, 0)
    return GIVEN, ([told.edition, told.size, told.sequence, told.vial, told.replicate],
                   [told.start, told.end, told.offset, told.multiplier], *state.given_back())


def fill(numbers, counts, stored, data, last, columns):
    """Fill columns: the answer, given, numbers, counts and stored time after, and the six columns."""
    columns = [list(column) for column in columns]
    if counts[0] not in PLACES:
        return UNKNOWN, [0, 0], numbers, counts, stored, columns
    state, rows, at = State.lent(numbers, counts, stored), 0, 0
    answer, room = None, min(map(len, columns))
    if any(len(column) != room for column in columns):
        answer = LENT_LENGTH
    while answer is None:
        row, at, answer = state.next(data, at, last) if rows < room else (None, at, FULL)
        if row:
            for column, value in zip(columns, row):
                column[rows] = value
            rows += 1
    return (answer, [rows, at], *state.given_back(), columns)
