#!/usr/bin/env python3
"""Judges the atlas reading of the library and of its log program by the words of request 5, and the plain reading beside it.

The library is given made, generated, cut and damaged files of DAD and UV, at once and in parts with the state kept by the caller, files
of all kinds, and states that a caller makes. Its answers and all that it is lent are held to the model (atlas.py) after every call.
Without the model, its rows are held to those that the file's places give (atlas_cases.walked), to themselves on a longer file, and to
those of the other reading. The log programs' texts are held to the model's. Before that wrong models (atlas_wrong.py) are put in the
library's place, and generated cases have to tell each of them.
Prints each fault and saves its bytes, then counts; status 1 where there was a fault.
"""

import argparse
import array
import collections
import ctypes
import faulthandler
import itertools
import random
import re
import shlex
import shutil
import sys
import time
from pathlib import Path

sys.dont_write_bytecode = True
import atlas
import atlas_cases as cases
import atlas_wrong
import compare
import foot
import generate
import misreadings
import text_places
import texts
from atlas import ATLAS, PLAIN
from judge_minutes import COLUMNS, DOUBLES, NUMBERS, Fault, Lent, columns, compared, meaning
from minutes import FULL, GIVEN, MORE
from model import DAD, UV

ROOT = Path(__file__).resolve().parents[2]
FAULTS = 10  # then it is enough
OPENED = ('header', 'corrections', 'text starts', 'text lengths', 'numbers', 'counts', 'stored time', 'reading')
NAMES = {1: 'FID', 2: 'MS', 3: 'MWD', 4: 'DAD', 5: 'UV', 6: 'array'}


# The library and the log programs

class Library:
    """Both openings and Fill of a shared library, with all that they may write between guards."""

    def __init__(self, file):
        library = ctypes.CDLL(str(Path(file).resolve()))
        self.openings = {PLAIN: library.chemstation_open, ATLAS: library.chemstation_open_atlas}
        self.fill_columns = library.chemstation_fill
        pointer, length, byte, flag = ctypes.c_void_p, ctypes.c_size_t, ctypes.c_uint8, ctypes.c_bool
        for function in self.openings.values():
            function.argtypes, function.restype = [byte, pointer, length, flag] + [pointer] * 8, byte
        self.fill_columns.restype = byte
        self.fill_columns.argtypes = [pointer] * 3 + [byte, pointer, length, flag] + [pointer, length] * 6 + [pointer]
        self.calls = 0

    def opened(self, reading, kind, data, last, lent):
        given = self.bytes_of(data)
        memory = [Lent(code, [values] if i > 5 else values, self.calls % 2 if i > 5 else 0)
                  for i, (code, values) in enumerate(zip('QdQQdQIB', lent))]
        answer = self.openings[reading](kind, given.address, len(data), last, *(m.address for m in memory))
        self.untouched(given, data)
        held = [m.values(name) for name, m in zip(OPENED, memory)]
        return answer, (*held[:6], *held[6], *held[7])

    def fill(self, numbers, counts, stored, reading, data, last, columns):
        bytes_lent = self.bytes_of(data)
        shift = self.calls % 2
        lent = [Lent('I' if i > 3 else 'd', column, shift if i > 3 else 0) for i, column in enumerate(columns)]
        state = Lent('d', numbers), Lent('Q', counts), Lent('I', [stored], 1 - shift)
        given = Lent('Q', NUMBERS[:2])
        pairs = itertools.chain.from_iterable((l.address, len(column)) for l, column in zip(lent, columns))
        answer = self.fill_columns(*(s.address for s in state), reading, bytes_lent.address, len(data), last, *pairs, given.address)
        self.untouched(bytes_lent, data)
        return (answer, given.values('given'), state[0].values('numbers'), state[1].values('counts'), *state[2].values('stored time'),
                [l.values(name) for name, l in zip(COLUMNS, lent)])

    def bytes_of(self, data):
        """At every alignment in turn."""
        self.calls += 1
        lent = Lent('B', b'', self.calls % 4)
        lent.array[len(lent.front):len(lent.front)] = array.array('B', data)
        lent.address = lent.array.buffer_info()[0] + len(lent.front)
        return lent

    @staticmethod
    def untouched(lent, data):
        lent.values('bytes')
        if lent.array[len(lent.front):len(lent.front) + len(data)].tobytes() != data:
            raise Fault('bytes', 'nothing written', 'a write')


class Programs:
    """The log programs, as commands."""

    def __init__(self, plain, by_atlas):
        self.commands = {PLAIN: shlex.split(plain), ATLAS: shlex.split(by_atlas)}

    def log(self, reading, case, pieces):
        command = self.commands[reading]
        return compare.in_pieces(command, case, pieces) if pieces else compare.one_by_one(command, [case])[0]


class Modelled:
    """A model in the place of both."""

    def __init__(self, module):
        self.opened, self.fill, self.module = module.opened, module.fill, module

    def log(self, reading, case, pieces):
        return self.module.log(case) if reading == ATLAS else foot.log(case)


# Comparing

class Judge:
    def __init__(self, callee):
        self.callee, self.counts, self.answers = callee, collections.Counter(), collections.Counter()
        self.call = None  # the last one, for who looks into a fault

    def open(self, reading, kind, data, last):
        """What came, as due. The lent byte of the reading is none."""
        lent = (NUMBERS[20:25], DOUBLES[:4], NUMBERS[:8], NUMBERS[8:16], DOUBLES[4:10], NUMBERS[30:34], NUMBERS[40], 0xA7)
        self.call = 'open', (reading, kind, last), data
        got, due = self.callee.opened(reading, kind, data, last, lent), atlas.opened(reading, kind, data, last, lent)
        self.counts['openings'] += 1
        self.answers['open', reading, kind if kind in NAMES else 0, got[0]] += 1
        compared('answer of open', [due[0]], [got[0]])
        for what, d, g in zip(OPENED, due[1], got[1]):
            d, g = ([d], [g]) if what in OPENED[6:] else (d, g)
            compared(what + ' of open', *((meaning(d), meaning(g)) if what == 'counts' else (d, g)))
        return got

    def fill(self, *lent):
        """What came of the call, not yet compared."""
        self.call = 'fill', lent[:4] + (lent[5], [len(column) for column in lent[6]]), lent[4]
        got = self.callee.fill(*lent)
        self.counts['calls'] += 1
        self.counts['records'] += got[1][0]
        self.answers['fill', lent[3], lent[1][0] if lent[1][0] in NAMES else 0, got[0]] += 1
        return got

    def hold(self, lent, got):
        """To the model."""
        self.call = 'fill', lent[:4] + (lent[5], [len(column) for column in lent[6]]), lent[4]
        self.same('', atlas.fill(*lent), got)
        return got

    @staticmethod
    def same(law, due, got):
        compared(law + 'answer', [due[0]], [got[0]])
        compared(law + 'given', due[1], got[1])
        for what, d, g in zip(COLUMNS, due[5], got[5]):
            compared(law + what, d, g)
        compared(law + 'numbers', due[2], got[2])
        compared(law + 'counts', meaning(due[3]), meaning(got[3]))
        compared(law + 'stored time', [due[4]], [got[4]])

    def filled(self, *lent):
        return self.hold(lent, self.fill(*lent))

    def log(self, reading, case, pieces=None, due=None):
        """The text, as due."""
        self.call = 'log', (reading,), case
        text = self.callee.log(reading, case, pieces)
        self.counts['logs'] += 1
        due = due or (atlas if reading == ATLAS else foot).log(case)
        if text != due:
            line, *lines = compare.first_difference(due.split('\n'), text.split('\n'))
            raise Fault('line %d of the log' % line, *lines)
        self.answers['log', reading, case[0] - 48 if case and case[0] - 48 in NAMES else 0, text.split()[-2]] += 1
        return text


# Laws, of what came alone

def begins(law, few, many):
    """The rows of one call begin those of another."""
    count = few[1][0]
    if count > many[1][0]:
        raise Fault('law: ' + law, 'at least %d rows' % count, many[1][0])
    for what, f, m in zip(COLUMNS, few[5], many[5]):
        compared('law: %s: %s' % (law, what), f[:count], m[:count])


def by_places(judge, kind, records, scans, got):
    """All rows of an atlas reading from Open on, told last, and how it closes."""
    rows, closing = cases.walked(kind, records, scans)
    compared('law: by places: answer, count and bytes', [closing, len(rows), rows[-1][3] if rows else 0], [got[0], *got[1]])
    for i, ((stored, twentieths, value, _), row) in enumerate(zip(rows, zip(*got[5]))):
        # A UV wavelength is added up in doubles.
        axis = twentieths / 20 if kind == DAD or abs(row[1] - twentieths / 20) > 1e-6 else row[1]
        due = stored / 60000, axis, value, row[3], stored // 60000, stored % 60000
        if row != due:
            raise Fault('law: by places: row %d' % i, due, row)
    judge.counts['rows by places'] += len(rows)


def lengthened(judge, rng, state, records):
    """Any answer but *more bytes* on bytes that are not the last stays where more stand behind them."""
    cut = rng.randrange(len(records) + 1)
    first, behind = records[:cut], rng.choice([records[cut:], records[cut:], rng.randbytes(rng.randrange(60))])
    lent = columns(rng, rng.choice([1, 3, cut // 2 + 1, len(records) // 2 + 31]))
    calls = [(*state, first, False, lent), (*state, first + behind, rng.random() < 0.5, lent)]
    short, long = (judge.fill(*call) for call in calls)
    if short[0] == MORE:
        begins('lengthened', short, long)
    else:
        judge.same('law: lengthened: ', short, long)
    for call, got in zip(calls, (short, long)):
        judge.hold(call, got)
    judge.counts['lengthened'] += 1


def in_parts(judge, rng, state, records, whole):
    """The caller keeps the state and passes the bytes on bit by bit, the last of them told last; now and then they are told so before."""
    piece = max(rng.choice([1, 4, 30, len(records)]), len(records) // 50)
    room = max(rng.choice([1, 1, 3, 40]), whole[1][0] // 30)
    early, rows, at, seen, answer, last = rng.choice([0, 0, 0.15]), [[] for _ in COLUMNS], 0, 0, FULL, False
    for _ in range(150):
        if last and seen == len(records) and answer != FULL:
            compared('law: in parts: answer and bytes', [whole[0], whole[1][1]], [answer, at])
            judge.counts['in parts to the end'] += 1
            break
        seen = min(len(records), seen + rng.randrange(2 * piece + 1))
        last = rng.random() < (0.7 if seen == len(records) else early)
        got = judge.filled(*state, records[at:seen], last, columns(rng, rng.randrange(2 * room + 1)))
        answer, (given, consumed), state = got[0], got[1], (*got[2:5], state[3])
        for so_far, column in zip(rows, got[5]):
            so_far += column[:given]
        at += consumed
        if rng.random() < 0.05:
            unequal(judge, rng, state, records[at:seen])
    begins('in parts', (answer, [len(rows[0])], None, None, None, rows), whole)
    judge.counts['in parts'] += 1


# Trials: each takes a judge and numbers by chance, and raises what is at fault.

def openings(judge, rng, kind, file):
    """By both readings: cut, told last or not, then longer. Gives what came of the whole file, told last."""
    came = {}
    for reading in (PLAIN, ATLAS):
        cut = rng.choice([0, 1, 267, 268, 511, 512, rng.randrange(len(file) + 1), len(file)])
        judge.open(reading, kind, file[:cut], True)
        short, long = judge.open(reading, kind, file[:cut], False), judge.open(reading, kind, file, False)
        # By their texts, in which NaNs are alike.
        if short[0] != MORE and repr(short) != repr(long):
            raise Fault('law: an opening lengthened', short, long)
        came[reading] = judge.open(reading, kind, file, True)
    return came


def run(judge, rng, case):
    """A file from Open on: at once, lengthened, with hardly or just enough room, in parts, with unequal columns, by both readings."""
    kind, file = (case[0] - 48) % 256 if case else 0, case[1:]
    came = openings(judge, rng, kind, file)
    wholes = {}
    for reading, (answer, memory) in came.items():
        if answer != GIVEN:
            continue
        records, state = file[memory[0][1]:], memory[4:]
        # No record is shorter than two bytes.
        call = (*state, records, True, columns(rng, len(records) // 2 + 1 + rng.randrange(3)))
        whole = wholes[reading] = judge.fill(*call)
        if reading == ATLAS:
            by_places(judge, kind, records, memory[5][1], whole)
        judge.hold(call, whole)
        lengthened(judge, rng, state, records)
        for room in {0, whole[1][0], rng.randrange(whole[1][0] + 2)}:
            judge.filled(*state, records, rng.random() < 0.5, columns(rng, room))
        in_parts(judge, rng, state, records, whole)
        unequal(judge, rng, rng.choice([state, (*whole[2:5], reading)]), records)
    if len(wholes) == 2:
        few, many = (PLAIN, ATLAS) if kind == DAD else (ATLAS, PLAIN)
        begins('%s, by the one reading and by the other' % NAMES[kind], wholes[few], wholes[many])
        judge.counts['read both ways'] += 1
        judge.counts['with more rows one way'] += wholes[few][1] != wholes[many][1]


def prefixes(judge, rng, case):
    """All prefixes of a run's records."""
    kind = case[0] - 48
    for reading in (ATLAS, PLAIN):
        _, memory = judge.open(reading, kind, case[1:], True)
        for end, last in itertools.product(range(len(case) - 512), (True, False)):
            call = (*memory[4:], case[513:513 + end], last, columns(rng, 30))
            got = judge.fill(*call)
            if reading == ATLAS and last:
                by_places(judge, kind, call[4], memory[5][1], got)
            judge.hold(call, got)


def unequal(judge, rng, state, data):
    """One column longer or shorter than the others; then any lengths."""
    lengths = [rng.choice([0, 1, 2, 5, 40])] * 6
    lengths[rng.randrange(6)] += rng.choice([1, 2, 30])
    judge.filled(*state, data, rng.random() < 0.5, columns(rng, *lengths))
    judge.filled(*state, data, rng.random() < 0.5, columns(rng, *(rng.randrange(3) for _ in COLUMNS)))


def made_state(judge, rng):
    """A state that a caller made, and what comes of it in a few calls."""
    *state, data = cases.a_state(rng)
    if rng.random() < 0.15:
        unequal(judge, rng, state, data)
    if rng.random() < 0.3:
        lengthened(judge, rng, state, data)
    for _ in range(rng.choice([1, 1, 3])):
        got = judge.filled(*state, data, rng.random() < 0.5, columns(rng, rng.choice([0, 1, 1, 2, 5, 30])))
        state, data = [*got[2:5], state[3]], data[got[1][1]:]
    judge.counts['made states'] += 1


def every_kind(judge, rng):
    """Every kind and none, of any bytes and of a file of any kind; every reading."""
    for kind in [*range(10), 255, rng.randrange(256)]:
        file = rng.choice([b'', rng.randbytes(rng.choice([1, 267, 268, 600])), cases.any_file(rng)[1:], cases.a_bad_header(rng)[1:]])
        openings(judge, rng, kind, file)
        for _ in range(3 if kind in (DAD, UV) else 0):
            openings(judge, rng, kind, cases.a_bad_header(rng)[1:])
        *_, data = state = cases.a_state(rng)
        state[1][0] = rng.choice([kind, kind + 2**32, kind + 256])
        for reading in cases.READINGS:
            room = rng.randrange(3)
            judge.filled(*state[:3], reading, data, rng.random() < 0.5, columns(rng, *[room] * 5, room + rng.choice([0, 0, 1])))


def generated_run(judge, rng):
    run(judge, rng, cases.a_file(rng))


def any_run(judge, rng):
    run(judge, rng, cases.any_file(rng))


def logged(judge, rng):
    """Both logs of a file; some come in small pieces."""
    case = rng.choices([cases.a_file, cases.any_file, cases.of_other_kind], [6, 2, 2])[0](rng)
    logs = {reading: judge.log(reading, case, rng if rng.random() < 0.1 else None) for reading in (ATLAS, PLAIN)}
    if case[:1] in (b'4', b'5'):
        few, many = (logs[reading].splitlines() for reading in ((PLAIN, ATLAS) if case[:1] == b'4' else (ATLAS, PLAIN)))
        rows = [line for line in few if line[0] in 'hr']
        if many[:len(rows)] != rows:
            raise Fault('law: rows of both logs', *compare.first_difference(rows, many[:len(rows)])[1:])


def worked(judge, rng, kind, scans, stream, values, times, wavelengths, consumed, scans_due, due, *closings):
    """By hand."""
    file = cases.headed(kind, stream, scans=scans)[1:]
    _, memory = judge.open(ATLAS, kind, file, True)
    for last, closing in zip((True, False), closings):
        call = (*memory[4:], file[512:], last, columns(rng, len(values) + 2))
        got = judge.fill(*call)
        compared('worked: answer, count, bytes, scans and bytes or points due', [closing, len(values), consumed, kind, scans_due, due],
                 [got[0], *got[1], *got[3][:3]])
        rows = [column[:len(values)] for column in got[5]]
        for what, d, g in zip(COLUMNS, ([t / 60000 for t in times], map(float, wavelengths), map(float, values)), rows):
            compared('worked: ' + what, list(d), g)
        compared('worked: stored times', times, [m * 60000 + left for m, left in zip(*rows[4:])])
        judge.hold(call, got)


def worked_log(judge, rng, case, text):
    judge.log(ATLAS, case, due=text)
    judge.log(ATLAS, case)


def worked_trials():
    for name, *numbers in cases.WORKED:
        yield name, lambda judge, rng, numbers=numbers: worked(judge, rng, *numbers)


def worked_logs():
    for case, text in cases.WORKED_LOGS:
        yield 'the log ' + text, lambda judge, rng, case=case, text=text: worked_log(judge, rng, case, text)


def long_logs(seed):
    for kind, pieces in itertools.product((DAD, UV), (None, random.Random(seed))):
        case = cases.several_buffers(random.Random('%s/%d' % (seed, kind)), kind)
        yield 'several buffers of %s' % NAMES[kind], lambda judge, rng, case=case, pieces=pieces: judge.log(ATLAS, case, pieces)


def made_trials(seed):
    for name, case in cases.made(seed):
        yield name, lambda judge, rng, case=case: run(judge, rng, case)
    for name, case in cases.small(seed):
        yield 'prefixes of ' + name, lambda judge, rng, case=case: prefixes(judge, rng, case)


RUNS, STATES = [(generated_run, 9), (any_run, 2)], [(made_state, 1)]
FAMILIES = [(generated_run, 45), (any_run, 10), (made_state, 42), (every_kind, 3)]


def generated(seed, numbers, families):
    for i in numbers:
        family = random.Random('%s/atlas/%d' % (seed, i)).choices([f for f, _ in families], [w for _, w in families])[0]
        yield '%s-%d %s' % (seed, i, family.__name__), family


def tried(judge, seed, name, trial):
    """None, or the fault."""
    try:
        trial(judge, random.Random('%s/%s' % (seed, name)))
    except Fault as fault:
        return fault
    return None


# Wrong models, each of which the same trials have to tell from the right one

def telling(judge, seed, trials):
    """The first trial that tells the judge's model, and by what. That a model fails in itself tells nothing."""
    for name, trial in trials:
        try:
            fault = tried(judge, seed, name, trial)
        except Exception:
            continue
        if fault:
            return '%s: %s' % (name, fault.args[0])
    return None


def misplaced(seed):
    """The places of texts (text_places.py) against the texts (texts.py): a run in which they disagree, or None."""
    for i in range(600):
        name, case = generate.case(seed, i)
        answer, found = texts.opened(case[0] - 48 if case else 0, case[1:])
        if answer == GIVEN:
            header = case[1:1 + int(foot.log(case).split()[2])]
            stored = [header[start:start + length] for start, length in zip(*text_places.of(header))]
            if texts.be(header, 248, 4) > 102:
                stored = [texts.to_utf8(texts.of_units(array.array('H', units).tolist())) for units in stored]
            if stored != found:
                return '%s-%d %s' % (seed, i, name)
    return None


def tell_wrong_models(seed, shown):
    """How many are missed: by generated cases, of each group that can tell the model."""
    runs = [*made_trials(seed), *generated(seed, range(600), RUNS)]
    # In any order, as a wrong model may be told by one family only.
    random.Random(seed).shuffle(runs)
    groups = {'runs': runs, 'states': list(generated(seed, range(6000), STATES)),
              'openings': list(generated(seed, range(60), [(every_kind, 1)])), 'logs': list(generated(seed, range(2500), [(logged, 1)]))}
    right, where = Judge(Modelled(atlas)), misplaced(seed)
    if where:
        sys.exit('the judge is not at one with itself: texts of %s' % where)
    for name, trial in [*worked_trials(), *worked_logs(), *itertools.chain(*groups.values())]:
        fault = tried(right, seed, name, trial)
        if fault:
            sys.exit('the judge is not at one with itself: %s, %s' % (name, fault.args))
    print('the model: %d specimens by hand, ' % (len(cases.WORKED) + len(cases.WORKED_LOGS)) + counted(right.counts))
    source = Path(atlas.__file__).read_text()
    missed = 0
    for what, old, new, names in atlas_wrong.EDITS:
        judge = Judge(Modelled(misreadings.edited(source, old, new)))
        told = {name: telling(judge, seed, groups[name]) for name in names}
        missed += not all(told.values())
        if shown or not all(told.values()):
            print('%-55s %s' % (what, '   '.join('%s: %s' % (name, by or 'MISSED') for name, by in told.items())))
    print('%d wrong models, %d missed' % (len(atlas_wrong.EDITS), missed))
    return missed


# The library and the programs on all trials

def counted(counts):
    return ', '.join('%s %d' % pair for pair in counts.items())


def report(options, judge, name, fault):
    what, due, got = fault.args
    call, lent, data = judge.call
    folder = Path(options.saved)
    folder.mkdir(parents=True, exist_ok=True)
    file = folder / ('atlas-%s.bytes' % re.sub('[^A-Za-z0-9]+', '-', name)[:60])
    file.write_bytes(data)
    print('FAULT in %s, seed %s: %s of %s\n  due %s\n  got %s\n  lent %s\n  bytes saved %s (%d)'
          % (name, options.seed, what, call, due, got, lent, file, len(data)))


def judged(options, judge, trials):
    faults, begun = 0, time.monotonic()
    for name, trial in trials:
        judge.counts['cases'] += 1
        fault = tried(judge, options.seed, name, trial)
        if fault:
            report(options, judge, name, fault)
            faults += 1
            if faults == FAULTS:
                break
    print(counted(judge.counts) + ', faults %d, %.0f s' % (faults, time.monotonic() - begun))
    for call, reading, kind in sorted({key[:3] for key in judge.answers}):
        found = sorted((key[3], count) for key, count in judge.answers.items() if key[:3] == (call, reading, kind))
        # Readings that are none are answered alike.
        if reading in (PLAIN, ATLAS):
            called = call, ('plain', 'atlas')[reading], NAMES.get(kind, 'none')
            print('%-4s %-5s %-6s ' % called + ', '.join('%s: %d' % pair for pair in found))
    return faults


def judged_library(options):
    try:
        library = Library(options.library)
    except (OSError, AttributeError) as error:
        print('FAULT: the library cannot be loaded, or lacks a function: %s' % error)
        return 1
    numbers = range(options.first, options.first + options.cases)
    trials = itertools.chain(worked_trials(), made_trials(options.seed), generated(options.seed, numbers, FAMILIES))
    return judged(options, Judge(library), trials)


def judged_programs(options):
    programs = Programs(options.chemlog, options.atlaslog)
    missing = [command[0] for command in programs.commands.values() if not shutil.which(command[0])]
    if missing:
        print('FAULT: no program %s' % ' and '.join(missing))
        return 1
    numbers = range(options.first, options.first + options.logs)
    trials = itertools.chain(worked_logs(), long_logs(options.seed), generated(options.seed, numbers, [(logged, 1)]))
    return judged(options, Judge(programs), trials)


def built(name):
    return shlex.quote(str(ROOT / 'target/bin' / name))


def parsed():
    p = argparse.ArgumentParser(description=__doc__)
    p.add_argument('--library', metavar='FILE', default=str(ROOT / 'target/lib/libchemstation.so'), help='the shared library')
    p.add_argument('--atlaslog', metavar='CMD', default=built('atlaslog'), help='the log program of the atlas reading')
    p.add_argument('--chemlog', metavar='CMD', default=built('chemlog'), help='that of the plain one')
    p.add_argument('--selftest', action='store_true', help='only shows, without a library, by what each wrong model is told')
    p.add_argument('--without', choices=['library', 'logs'], help='what is not judged')
    p.add_argument('--seed', default='1')
    p.add_argument('--first', type=int, default=0, help='number of the first generated case')
    p.add_argument('--cases', type=int, default=12000, help='generated cases for the library')
    p.add_argument('--logs', type=int, default=1500, help='generated cases for the log programs')
    p.add_argument('--saved', default=str(ROOT / 'target/oracle/failed'), help='folder for the bytes of failing calls')
    return p.parse_args()


def main():
    options = parsed()
    # A library that crashes is to be seen to do so.
    faulthandler.enable()
    faults = tell_wrong_models(options.seed, options.selftest)
    if not options.selftest and options.without != 'library':
        faults += judged_library(options)
    if not options.selftest and options.without != 'logs':
        faults += judged_programs(options)
    print('%d faults' % faults if faults else 'no fault')
    return 1 if faults else 0


if __name__ == '__main__':
    sys.exit(main())
