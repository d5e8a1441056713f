#!/usr/bin/env python3
"""Judges the minutes and leftovers of the library, and the state's stored time, by the request's words.

The library is given made, generated, cut and damaged runs of all kinds, at once and in parts with the state kept by the caller, and
states that a caller makes. Its answer, given, all six columns between guards, with what stands behind the count, and the state
after each call are held to the model (minutes.py). From Open on, each row is held once more to the u32 in the file.
Prints each fault and saves its bytes, then counts; status 1 where there was a fault.
"""

import argparse
import array
import collections
import ctypes
import itertools
import random
import re
import struct
import sys
import time
from pathlib import Path

sys.dont_write_bytecode = True
import minutes
import minutes_cases as cases
import misreadings
import model
import sum_cases

ROOT = Path(__file__).resolve().parents[2]
FAULTS = 10  # then it is enough
COLUMNS = ('time', 'axis', 'unscaled', 'scaled', 'minutes', 'leftover')
PLAIN = 0  # the reading

# What stands in lent places: no record has such values, and no two places near each other are alike.
DOUBLES = [-2.0**900 * (1 + i / 2**20) for i in range(200000)]
NUMBERS = [2**32 - 1 - i for i in range(200000)]


class Fault(Exception):
    """What is at fault, what is due, what came."""


# The library

class Lent:
    """An array between guards."""
    GUARDS = {'d': DOUBLES[-4:], 'I': NUMBERS[-4:], 'Q': [0x5AA5_0FF0_1234_4321 + i for i in range(4)], 'B': [0xA5, 0x5A, 1, 255]}

    def __init__(self, code, values, shift=0):
        # One guard fewer or more puts a column of u32 on an odd multiple of 4 bytes.
        self.front, self.back = self.GUARDS[code][shift:], self.GUARDS[code]
        self.array = array.array(code, [*self.front, *values, *self.back])
        self.address = self.array.buffer_info()[0] + len(self.front) * self.array.itemsize

    def values(self, what):
        found, front, back = self.array.tolist(), len(self.front), len(self.array) - len(self.back)
        if found[:front] != self.front or found[back:] != self.back:
            raise Fault(what, 'nothing written beside it', 'a write beside it')
        return found[front:back]


class Library:
    """Open and Fill of a shared library."""

    def __init__(self, file):
        library = ctypes.CDLL(str(Path(file).resolve()))
        self.open_run, self.fill_columns = library.chemstation_open, library.chemstation_fill
        pointer, length, byte, flag = ctypes.c_void_p, ctypes.c_size_t, ctypes.c_uint8, ctypes.c_bool
        self.open_run.restype = self.fill_columns.restype = byte
        self.open_run.argtypes = [byte, pointer, length, flag] + [pointer] * 8
        self.fill_columns.argtypes = [pointer] * 3 + [byte, pointer, length, flag] + [pointer, length] * 6 + [pointer]
        self.calls = 0

    def bytes_of(self, data):
        self.calls += 1
        lent = Lent('B', b'', self.calls % 4)
        lent.array[len(lent.front):len(lent.front)] = array.array('B', data)
        lent.address = lent.array.buffer_info()[0] + len(lent.front)
        return lent

    def opened(self, kind, data, last, lent):
        data_lent = self.bytes_of(data)
        texts = [NUMBERS[:8], NUMBERS[8:16]]
        header, corrections, starts, lengths, numbers, counts, stored, reading = memory = [
            Lent('Q', lent[0]), Lent('d', lent[1]), Lent('Q', texts[0]), Lent('Q', texts[1]), Lent('d', lent[2]), Lent('Q', lent[3]),
            Lent('I', [lent[4]], self.calls % 2), Lent('B', b'\x07')]
        answer = self.open_run(kind, data_lent.address, len(data), last, *(m.address for m in memory))
        if data_lent.array[len(data_lent.front):len(data_lent.front) + len(data)].tobytes() != data:
            raise Fault('bytes', 'nothing written', 'a write')
        data_lent.values('bytes')
        compared('reading', [PLAIN if answer == minutes.GIVEN else 7], reading.values('reading'))
        if answer != minutes.GIVEN and [starts.values('text starts'), lengths.values('text lengths')] != texts:
            raise Fault('texts', 'nothing written', 'a write')
        starts.values('text starts'), lengths.values('text lengths')
        return answer, (header.values('header'), corrections.values('corrections'), numbers.values('numbers'), counts.values('counts'),
                        *stored.values('stored time'))

    def fill(self, numbers, counts, stored, data, last, columns):
        data_lent = self.bytes_of(data)
        shift = self.calls % 2
        lent = [Lent('I' if i > 3 else 'd', column, shift if i > 3 else 0) for i, column in enumerate(columns)]
        state = Lent('d', numbers), Lent('Q', counts), Lent('I', [stored], 1 - shift)
        given = Lent('Q', NUMBERS[:2])
        pairs = itertools.chain.from_iterable((l.address, len(column)) for l, column in zip(lent, columns))
        answer = self.fill_columns(*(s.address for s in state), PLAIN, data_lent.address, len(data), last, *pairs, given.address)
        if data_lent.array[len(data_lent.front):len(data_lent.front) + len(data)].tobytes() != data:
            raise Fault('bytes', 'nothing written', 'a write')
        data_lent.values('bytes')
        return (answer, given.values('given'), state[0].values('numbers'), state[1].values('counts'), *state[2].values('stored time'),
                [l.values(name) for name, l in zip(COLUMNS, lent)])


# Comparing

def shown(values):
    """Doubles by their bits, all NaNs alike; the rest as it is."""
    return [model.bits(v) if isinstance(v, float) else v for v in values]


def compared(what, due, got):
    """Lists of numbers of one type."""
    if len(due) == len(got) and due and isinstance(due[0], float):
        form = '<%dd' % len(due)
        if struct.pack(form, *due) == struct.pack(form, *got):
            return
    due, got = shown(due), shown(got)
    if due != got:
        at = next((i for i, pair in enumerate(itertools.zip_longest(due, got)) if pair[0] != pair[1]))
        raise Fault('%s[%d]' % (what, at), *(side[at] if at < len(side) else 'nothing' for side in (due, got)))


def meaning(counts):
    """Any number but 0 is the array's one type of record."""
    return [*counts[:3], int(counts[3] != 0)] if counts[0] == model.ARRAY else counts


class Judge:
    def __init__(self, callee):
        self.callee, self.counts, self.answers = callee, collections.Counter(), collections.Counter()
        self.call = None  # the last one, for who looks into a fault

    def open(self, kind, data, last):
        """Its answer and what it lent, as due."""
        lent = (NUMBERS[20:25], DOUBLES[:4], DOUBLES[4:10], NUMBERS[30:34], NUMBERS[40])
        self.call = 'open', (kind, last), data
        due, got = minutes.opened(kind, data, last, lent), self.callee.opened(kind, data, last, lent)
        self.counts['openings'] += 1
        compared('answer of open', [due[0]], [got[0]])
        for what, d, g in zip(('header', 'corrections', 'numbers of open', 'counts of open'), due[1], got[1]):
            compared(what, *((meaning(d), meaning(g)) if what == 'counts of open' else (d, g)))
        compared('stored time of open', [due[1][4]], [got[1][4]])
        return got

    def fill(self, *lent):
        """What came of the call, not yet compared."""
        self.call = 'fill', lent[:3] + (lent[4], [len(column) for column in lent[5]]), lent[3]
        got = self.callee.fill(*lent)
        self.counts['calls'] += 1
        self.counts['records'] += got[1][0]
        self.answers[lent[1][0] if lent[1][0] in minutes.PLACES else 0, got[0]] += 1
        return got

    def hold(self, lent, got):
        """To the model."""
        self.call = 'fill', lent[:3] + (lent[4], [len(column) for column in lent[5]]), lent[3]
        due = minutes.fill(*lent)
        compared('answer', [due[0]], [got[0]])
        compared('given', due[1], got[1])
        for what, d, g in zip(COLUMNS, due[5], got[5]):
            compared(what, d, g)
        compared('numbers', due[2], got[2])
        compared('counts', meaning(due[3]), meaning(got[3]))
        compared('stored time', [due[4]], [got[4]])
        return got

    def filled(self, *lent):
        return self.hold(lent, self.fill(*lent))

    def law(self, kind, records, rows, put_in=None):
        """The rows of a run from Open on: by the u32 in the file, without the model."""
        stored = [0] * len(rows[0])
        if kind in minutes.TIMED:
            stored = list(itertools.islice(until_end(cases.times(kind, records)), len(rows[0])))
            if put_in is not None and any(s != p for s, p in zip(stored, put_in)):
                sys.exit('the judge is not at one with itself: %s, %s' % (stored, put_in))
            if len(stored) < len(rows[0]):
                raise Fault('law: rows', 'at most %d' % len(stored), len(rows[0]))
        for i, (s, time, whole, left) in enumerate(zip(stored, rows[0], rows[4], rows[5])):
            if not left < 60000:
                raise Fault('law: leftover[%d]' % i, 'below 60000', left)
            if whole * 60000 + left != s:
                raise Fault('law: minutes[%d] * 60000 + leftover[%d]' % (i, i), s, '%d * 60000 + %d' % (whole, left))
            if kind in minutes.TIMED and time != s / 60000:
                raise Fault('law: time[%d]' % i, s / 60000, time)
        self.counts['rows held to the u32' if kind in minutes.TIMED else 'rows held to 0'] += len(stored)


def until_end(numbers):
    try:
        yield from numbers
    except EOFError:
        return


def columns(rng, *lengths):
    """Six lent columns, of one length or of a length each, each place with something of its own."""
    if len(lengths) == 1:
        lengths *= 6
    first = rng.randrange(20000)
    lent = [(NUMBERS if i > 3 else DOUBLES)[first + 5 * i:first + 5 * i + length] for i, length in enumerate(lengths)]
    if [len(column) for column in lent] != list(lengths):
        sys.exit('too few places for columns of %s' % (lengths,))
    return lent


# Trials: each takes a judge and numbers by chance, and raises what is at fault.

def run(judge, rng, case, put_in=None):
    """A run from Open on: at once, with hardly or just enough room, with unequal columns, in parts."""
    kind, file = (case[0] - 48) % 256 if case else 0, case[1:]
    cut = rng.randrange(len(file) + 1)
    judge.open(kind, file[:cut], rng.random() < 0.5)
    judge.open(kind, file, False)
    answer, lent = judge.open(kind, file, True)
    if answer != minutes.GIVEN:
        return
    records, state = file[lent[0][1]:], lent[2:]
    # No record is shorter than two bytes.
    call = (*state, records, True, columns(rng, len(records) // 2 + 1 + rng.randrange(3)))
    whole = judge.fill(*call)
    count = whole[1][0]
    judge.law(kind, records, [column[:count] for column in whole[5]], put_in)
    judge.hold(call, whole)
    judge.filled(*state, records, False, columns(rng, len(records) // 2 + 1))
    for room in {0, count // 2, max(count - 1, 0), count, count + 1}:
        judge.filled(*state, records, rng.random() < 0.5, columns(rng, room))
    in_parts(judge, rng, kind, state, records, count)
    in_parts(judge, rng, kind, state, records, count)
    unequal(judge, rng, *(rng.choice([whole[2:5], state])), records)


def in_parts(judge, rng, kind, state, records, count):
    """The caller keeps the state and passes the bytes on bit by bit; here and there they are told to be the last and are not."""
    piece = max(rng.choice([1, 4, 30, len(records)]), len(records) // 50)
    room = max(rng.choice([1, 1, 3, 40]), count // 30)
    calls, rows, at, seen = [], [[] for _ in COLUMNS], 0, 0
    answer, last, ends = minutes.FULL, False, False
    for _ in range(150):
        if ends and last and answer != minutes.FULL:
            break
        seen = min(len(records), seen + rng.randrange(2 * piece + 1))
        ends = seen == len(records)
        last = rng.random() < (0.7 if ends else 0.15)
        call = (*state, records[at:seen], last, columns(rng, rng.randrange(2 * room + 1)))
        got = judge.fill(*call)
        calls.append((call, got))
        answer, (given, consumed), state = got[0], got[1], got[2:5]
        for so_far, column in zip(rows, got[5]):
            so_far += column[:given]
        at += consumed
        if rng.random() < 0.05:
            unequal(judge, rng, *state, records[at:seen], [rng.randrange(6)])
    judge.law(kind, records, rows)
    for call, got in calls:
        judge.hold(call, got)
    judge.counts['runs in parts'] += 1
    judge.counts['to their end'] += ends and last and answer != minutes.FULL


def unequal(judge, rng, numbers, counts, stored, data, which=range(6)):
    """Each column in turn is longer or shorter than the others; then any lengths."""
    for i in which:
        length = rng.choice([0, 1, 2, 5, 40])
        lengths = [length] * 6
        lengths[i] = rng.choice([length + 1, length + 1, max(length - 1, 0), 2 * length, 0, length + 30])
        judge.filled(numbers, counts, stored, data, rng.random() < 0.5, columns(rng, *lengths))
    lengths = [rng.randrange(3) for _ in COLUMNS]
    judge.filled(numbers, counts, stored, data, rng.random() < 0.5, columns(rng, *lengths))


def prefixes(judge, rng, case):
    """All prefixes of a run's records."""
    kind = case[0] - 48
    _, lent = judge.open(kind, case[1:], True)
    records = case[1 + lent[0][1]:]
    for end in range(len(records) + 1):
        for last in (True, False):
            call = (*lent[2:], records[:end], last, columns(rng, 30))
            got = judge.fill(*call)
            judge.law(kind, records[:end], [column[:got[1][0]] for column in got[5]])
            judge.hold(call, got)


def made_state(judge, rng):
    """A state that a caller made, and what comes of it in a few calls."""
    numbers, counts, stored, data = cases.a_state(rng)
    if rng.random() < 0.15:
        unequal(judge, rng, numbers, counts, stored, data)
    for _ in range(rng.choice([1, 1, 3])):
        room = rng.choice([0, 1, 1, 2, 5, 30])
        got = judge.filled(numbers, counts, stored, data, rng.random() < 0.5, columns(rng, room))
        numbers, counts, stored, data = *got[2:5], data[got[1][1]:]
    judge.counts['made states'] += 1


def no_kind(judge, rng):
    """Numbers that are no kind, with equal columns and others."""
    for kind in cases.NO_KINDS:
        numbers, counts, stored, data = cases.a_state(rng)
        lengths = [rng.randrange(4)] * 6 if rng.random() < 0.6 else [rng.randrange(3) for _ in COLUMNS]
        judge.filled(numbers, [kind, *counts[1:]], stored, data, rng.random() < 0.5, columns(rng, *lengths))
        if kind < 256:
            judge.open(kind, rng.randbytes(600), rng.random() < 0.5)


def timed(judge, rng):
    run(judge, rng, *cases.timed(rng))


def any_run(judge, rng):
    run(judge, rng, sum_cases.case('minutes', rng.getrandbits(40))[1])


FAMILIES = [(made_state, 55), (timed, 30), (any_run, 12), (no_kind, 3)]


def made_trials(seed):
    """Name and trial: the made runs, whole and then cut everywhere."""
    for name, case, put_in in cases.made(seed):
        yield name, lambda judge, rng, case=case, put_in=put_in: run(judge, rng, case, put_in)
    for name, case in cases.small(seed):
        yield 'prefixes of ' + name, lambda judge, rng, case=case: prefixes(judge, rng, case)


def generated_trials(seed, numbers, families=FAMILIES):
    for i in numbers:
        family = random.Random('%s/minutes/%d' % (seed, i)).choices([f for f, _ in families], [w for _, w in families])[0]
        yield '%s-%d %s' % (seed, i, family.__name__), family


def tried(judge, seed, name, trial):
    """None, or the fault."""
    try:
        trial(judge, random.Random('%s/%s' % (seed, name)))
    except Fault as fault:
        return fault
    return None


# Wrong models, each of which the same trials have to tell from the right one

class Modelled:
    """A model in the library's place."""

    def __init__(self, module):
        self.opened, self.fill = module.opened, module.fill


SPLIT = 'return stored // MINUTE, stored % MINUTE'
LOOP = "        while int.from_bytes(data[at:at + 2], 'big') in (14, 15):\n            at += 28\n"
MS_TIME = "return int.from_bytes(data[at + 2:at + 6], 'big')"
LE_TIME = "return int.from_bytes(data[at + 4:at + 8], 'little')"
HELD = 'self.stored = stored if kind in TIMED else 0'
CLOSED = '        if closing:\n            return None, at, number(closing)\n'
TAKEN = '        if self.kind in TIMED and begins:\n            self.stored = scan_time(self.kind, data, at)\n'
ROW = '        return (time, 0.0 if axis is None else axis, unscaled, scaled, *split(self.stored)), f.at, None\n'
WRITTEN = 'for column, value in zip(columns, row):\n                column[rows] = value'
LENGTHS = 'if any(len(column) != room for column in columns):'
BACK = 'return (answer, [rows, at], *state.given_back(), columns)'
OF_OPEN = '*state.given_back())'


def by_double(form):
    """The row's minutes and leftover from its double; 0.0 in the place of one out of any bounds."""
    wrong = '(lambda t: (%s))(time if 0 <= time < 1e9 else 0.0)' % form
    return ROW, ROW.replace('*split(self.stored)', '*(%s if self.kind in TIMED else (0, 0))' % wrong)


def written(condition):
    """Column i is written only where the condition holds."""
    return WRITTEN, ('for i, (column, value) in enumerate(zip(columns, row)):\n'
                     '                if %s:\n                    column[rows] = value' % condition)


def zeroed(condition):
    return BACK, 'if %s:\n        columns[4:] = [[0] * len(column) for column in columns[4:]]\n    ' % condition + BACK


# What is misread, the text of minutes.py, the misreading's.
EDITS = [
    # Whose time
    ("the scan's before, on its first point", TAKEN + ROW,
     '        late = self.stored\n' + TAKEN + ROW.replace('split(self.stored)', 'split(late if begins else self.stored)')),
    ('always one scan late', TAKEN, '        if self.kind in TIMED and begins:\n'
     '            self.stored, self.later = getattr(self, "later", 0), scan_time(self.kind, data, at)\n'),
    ("the first empty scan's", LOOP, ''),
    ("the last empty scan's", LOOP, LOOP.replace('15):', '15) and int.from_bytes(data[at + 28:at + 30], "big") in (14, 15):')),
    ('a count of 15 is no empty scan', LOOP, LOOP.replace('(14, 15)', '(14,)')),
    ("the first record's, for a whole call", '        if row:\n', '        if row:\n            first = row if rows == 0 else first\n'
     '            row = (*row[:4], *first[4:])\n'),
    ('none but for the first point', ROW, ROW.replace('split(self.stored)', '(split(self.stored) if begins else (0, 0))')),
    ('not taken at a scan', TAKEN, ''),
    ('taken at every point', TAKEN, TAKEN.replace(' and begins', '')),
    # From the double
    ('the double by 60,000, rounded', *by_double('divmod(round(t * 60000), 60000)')),
    ('the double by 60,000, cut off', *by_double('divmod(int(t * 60000), 60000)')),
    ('whole minutes cut off, the rest rounded', *by_double('int(t), round((t - int(t)) * 60000)')),
    ('whole minutes cut off, the rest cut off', *by_double('int(t), int((t - int(t)) * 60000)')),
    ('whole minutes rounded', *by_double('round(t), round(t * 60000) % 60000')),
    ('minutes from the double', *by_double('int(t), self.stored % 60000')),
    ('leftover from the double', *by_double('self.stored // 60000, round(t * 60000) % 60000')),
    ('by a remainder', *by_double('int(t), int(t % 1.0 * 60000 + 0.5)')),
    ('whole minutes cut off, the rest rounded up', *by_double('int(t), -int(-(t - int(t)) * 60000 // 1)')),
    ('in single precision', *by_double('divmod(round(model.struct.unpack("f", model.struct.pack("f", t))[0] * 60000), 60000)')),
    ('the double from the stored time', ROW, ROW.replace('(time, 0.0', '(self.stored / 60000 if self.kind in TIMED else time, 0.0')),
    ('the double by a reciprocal', ROW, ROW.replace('(time, 0.0', '(self.stored * (1 / 60000) if self.kind in TIMED else time, 0.0')),
    # How it is split
    ('a leftover of 60,000', SPLIT, 'return max(stored - 1, 0) // MINUTE, stored - max(stored - 1, 0) // MINUTE * MINUTE'),
    ('a leftover of 60,000, 60,000 alone', SPLIT, 'return (0, MINUTE) if stored == MINUTE else divmod(stored, MINUTE)'),
    ('minutes rounded', SPLIT, 'return (stored + 30000) // MINUTE, stored % MINUTE'),
    ('minutes rounded up', SPLIT, 'return -(-stored // MINUTE), stored % MINUTE'),
    ('swapped', SPLIT, 'return stored % MINUTE, stored // MINUTE'),
    ('16-bit minutes', SPLIT, 'return stored // MINUTE % 2**16, stored % MINUTE'),
    ('16-bit signed minutes', SPLIT, 'return (min(stored // MINUTE, 32767), stored % MINUTE)'),
    ('16-bit signed leftover', SPLIT, 'return stored // MINUTE, (stored % MINUTE + 2**15) % 2**16 - 2**15 & 2**32 - 1'),
    ('a signed stored time', SPLIT, 'signed = (stored + 2**31) % 2**32 - 2**31\n'
     '    return signed // MINUTE % 2**32, signed % MINUTE'),
    ('24 bits', SPLIT, 'return stored % 2**24 // MINUTE, stored % 2**24 % MINUTE'),
    ('the whole as leftover', SPLIT, 'return stored // MINUTE, stored'),
    ('a leftover in seconds', SPLIT, 'return stored // MINUTE, stored % MINUTE // 1000'),
    ('a leftover of the second', SPLIT, 'return stored // MINUTE, stored % 1000'),
    ('minutes of 65,536', SPLIT, 'return stored >> 16, stored & 65535'),
    ('hours taken off', SPLIT, 'return stored // MINUTE % 60, stored % MINUTE'),
    # How it is read
    ('MS little-endian', MS_TIME, MS_TIME.replace('big', 'little')),
    ('DAD and UV big-endian', LE_TIME, LE_TIME.replace('little', 'big')),
    ('DAD big-endian', LE_TIME, LE_TIME.replace("'little'", "'big' if kind == DAD else 'little'")),
    ('UV big-endian', LE_TIME, LE_TIME.replace("'little'", "'big' if kind == UV else 'little'")),
    ('halves mixed', LE_TIME, 'return int.from_bytes(data[at + 6:at + 8] + data[at + 4:at + 6], "little")'),
    # The columns
    ('FID, MWD and array left as they were', *written('i < 4 or state.kind in TIMED')),
    ('FID left as it was', *written('i < 4 or state.kind != FID')),
    ('MWD left as it was', *written('i < 4 or state.kind != MWD')),
    ('array left as it was', *written('i < 4 or state.kind != ARRAY')),
    ('their leftovers left as they were', *written('i < 5 or state.kind in TIMED')),
    ('0 left as it was', *written('i < 4 or value != 0')),
    ('zeros behind the count', *zeroed('answer != LENT_LENGTH and state.kind not in TIMED')),
    ('zeros on 15', *zeroed('answer == LENT_LENGTH')),
    ('zeros without a record', *zeroed('answer != LENT_LENGTH and rows == 0')),
    ('the sixth not in the length check', LENGTHS, LENGTHS.replace('in columns', 'in columns[:5]').replace('room', 'len(columns[0])')),
    ('the fifth not in the length check', LENGTHS,
     LENGTHS.replace('in columns', 'in columns[:4] + columns[5:]').replace('room', 'len(columns[0])')),
    ('the old four in the length check', LENGTHS, LENGTHS.replace('in columns', 'in columns[:4]').replace('room', 'len(columns[0])')),
    ('fifth and sixth checked by themselves', LENGTHS,
     'if any(len(c) != len(columns[0]) for c in columns[:4]) or len(columns[4]) != len(columns[5]):'),
    ('the new two may be longer', LENGTHS,
     'if any(len(c) != len(columns[0]) for c in columns[:4]) or min(map(len, columns[4:])) < len(columns[0]):'),
    ('the new two may be shorter', LENGTHS,
     'if any(len(c) != len(columns[0]) for c in columns[:4]) or max(map(len, columns[4:])) > len(columns[0]):'),
    ('lengths not looked at where there is no record', LENGTHS, LENGTHS.replace('any(', 'data and any(')),
    ('a record too many', BACK, BACK.replace('[rows, at]', '[rows + (rows < room), at]')),
    # The state
    ('not kept between calls', BACK, BACK.replace('*state.given_back()', '*state.given_back()[:2], 0')),
    ("the caller's not taken", HELD, 'self.stored = 0'),
    ("the caller's kept", BACK, BACK.replace('*state.given_back()', '*state.given_back()[:2], stored')),
    ("the caller's kept by FID, MWD and array", BACK,
     BACK.replace('*state.given_back()', '*state.given_back()[:2], state.stored if state.kind in TIMED else stored')),
    ("the caller's given by FID, MWD and array", HELD, 'self.stored = stored'),
    ('cleared behind the last point', BACK,
     'if state.kind in TIMED and rows and state.due() == 0:\n        state.stored = 0\n    ' + BACK),
    ('cleared by finished', BACK, 'if answer == 0:\n        state.stored = 0\n    ' + BACK),
    ('cleared by 15', BACK, 'if answer == LENT_LENGTH:\n        state.stored = 0\n    ' + BACK),
    ('cleared by a length of 0', BACK, 'if room == 0:\n        state.stored = 0\n    ' + BACK),
    ('the minutes alone', BACK, BACK.replace('*state.given_back()', '*state.given_back()[:2], state.stored // MINUTE * MINUTE')),
    ('from the double of the state', HELD, 'self.stored = (round(stream.time * (60000 if kind != DAD else 1)) % 2**32\n'
     '                       if kind in TIMED and 0 <= stream.time < 1e10 else 0)'),
    ('moved by a call without a record', CLOSED, '        if closing and self.kind in TIMED and begins and len(data) >= at + 8:\n'
     '            self.stored = int.from_bytes(data[at + 2:at + 6], "big") if self.kind == MS '
     'else int.from_bytes(data[at + 4:at + 8], "little")\n' + CLOSED),
    ('moved by an empty scan', CLOSED, '        if closing and self.kind == MS and begins and len(data) >= at + 28:\n'
     '            self.stored = int.from_bytes(data[at + 2:at + 6], "big")\n' + CLOSED),
    ('0 for an unknown kind', 'numbers, counts, stored, columns\n', 'numbers, counts, 0, columns\n'),
    ('15 before an unknown kind', 'return UNKNOWN,', 'return UNKNOWN if len(set(map(len, columns))) == 1 else LENT_LENGTH,'),
    ('the low byte is the kind', 'if counts[0] not in PLACES:',
     'counts = [counts[0] % 256, *counts[1:]]\n    if counts[0] not in PLACES:'),
    # Open
    ('left as it was by Open', OF_OPEN, '*state.given_back()[:2], lent[4])'),
    ('the start time by Open', OF_OPEN, '*state.given_back()[:2], round(told.start * 60000) % 2**32 if abs(told.start) < 1e9 else 0)'),
    ('the first u32 by Open', OF_OPEN, '*state.given_back()[:2], int.from_bytes(data[told.size + 2:told.size + 6], "big"))'),
    ('0 by an Open that is refused', 'return number(closing), lent', 'return number(closing), (*lent[:4], 0)'),
]


def telling(judge, seed, trials):
    """The first trial that tells the judge's model, and by what; a model may fail in any way."""
    for name, trial in trials:
        try:
            fault = tried(judge, seed, name, trial)
        except Exception as error:
            fault = Fault(repr(error))
        if fault:
            return name, fault.args[0]
    return None


def tell_misreadings(seed):
    runs, states = list(made_trials(seed)), list(generated_trials(seed, range(3000), [(made_state, 9), (no_kind, 1)]))
    runs += generated_trials(seed, range(300), [(timed, 1), (any_run, 1)])
    right = Judge(Modelled(minutes))
    for name, trial in runs + states:
        fault = tried(right, seed, name, trial)
        if fault:
            sys.exit('the judge is not at one with itself: %s, %s' % (name, fault.args))
    source = Path(minutes.__file__).read_text()
    missed = 0
    print('%-47s %-62s %s' % ('misreading', 'the first run that tells it, and by what', 'the first made state'))
    for what, old, new in EDITS:
        callee = Modelled(misreadings.edited(source, old, new))
        told = [telling(Judge(callee), seed, trials) for trials in (runs, states)]
        missed += not any(told)
        by_run, by_state = (': '.join(t) if t else '-' for t in told)
        print('%-47s %-62s %s' % (what, by_run, by_state if any(told) else 'MISSED'))
    print('%d misreadings, %d missed' % (len(EDITS), missed))
    return missed


# The library on all trials

def judged(options):
    judge, faults, begun = Judge(Library(options.library)), 0, time.monotonic()
    numbers = range(options.first, options.first + options.cases)
    for name, trial in itertools.chain(made_trials(options.seed), generated_trials(options.seed, numbers)):
        judge.counts['cases'] += 1
        fault = tried(judge, options.seed, name, trial)
        if fault:
            what, due, got = fault.args
            call, lent, data = judge.call
            folder = Path(options.saved)
            folder.mkdir(parents=True, exist_ok=True)
            file = folder / (re.sub('[^A-Za-z0-9]+', '-', name) + '.bytes')
            file.write_bytes(data)
            print('FAULT in %s, seed %s: %s of %s\n  due %s\n  got %s\n  lent %s\n  bytes saved %s (%d)'
                  % (name, options.seed, what, call, due, got, lent, file, len(data)))
            faults += 1
            if faults == FAULTS:
                break
    print(', '.join('%s %d' % pair for pair in judge.counts.items()) + ', faults %d, %.0f s' % (faults, time.monotonic() - begun))
    for kind in sorted({kind for kind, _ in judge.answers}):
        found = sorted((answer, count) for (k, answer), count in judge.answers.items() if k == kind)
        print('%-6s %s' % (cases.NAMES.get(kind, 'none'), ', '.join('%d: %d' % pair for pair in found)))
    return faults


def parsed():
    p = argparse.ArgumentParser(description=__doc__)
    p.add_argument('--library', metavar='FILE', default=str(ROOT / 'target/lib/libchemstation.so'), help='the shared library')
    p.add_argument('--misreadings', action='store_true', help='shows instead that wrong models are told from the right one')
    p.add_argument('--seed', default='1')
    p.add_argument('--first', type=int, default=0, help='number of the first generated case')
    p.add_argument('--cases', type=int, default=20000, help='generated cases')
    p.add_argument('--saved', default=str(ROOT / 'target/oracle/failed'), help='folder for the bytes of failing calls')
    return p.parse_args()


def main():
    options = parsed()
    return 1 if (tell_misreadings(options.seed) if options.misreadings else judged(options)) else 0


if __name__ == '__main__':
    sys.exit(main())
