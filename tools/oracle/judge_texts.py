#!/usr/bin/env python3
"""Judges the texts that the library gives, one by one and all eight at once, by document 01's words.

The library is given made, generated, cut and damaged headers, all kinds, text numbers and rooms. Its answer, the whole of the lent
buffer between guards, and the length, or the starts and lengths, are held to the model (texts.py) after every call. Before that
wrong models (texts_wrong.py) are put in the library's place, and the cases have to tell each of them.
How many units were replaced is not judged here (judge_replaced.py); the memory lent for it stands between guards all the same.
Prints each fault and saves its bytes, then counts; status 1 where there was a fault.
"""

import argparse
import collections
import ctypes
import faulthandler
import itertools
import random
import re
import sys
import time
from pathlib import Path

sys.dont_write_bytecode = True
import misreadings
import texts
import texts_cases as cases
import texts_wrong

ROOT = Path(__file__).resolve().parents[2]
FAULTS = 10  # then it is enough
TOLD_BY = 400  # generated cases that wrong models are tried on, beside the made ones
NUMBERS = (*range(10), 255)
LONGEST, ALL = 1024, 6120

# What stands in lent bytes: none of these is ever a byte of UTF-8, and no stretch comes back soon. Guards are the same.
FOREIGN = bytes(random.Random('texts').choices([0xC0, 0xC1, *range(0xF5, 0x100)], k=2 * ALL))
GUARD = 24
COUNT, STARTS, LENGTHS = 2**63 + 11, [2**62 + 3 * i for i in range(8)], [2**61 + 5 * i for i in range(8)]
REPLACED = [0xF1E2_D3C4_B5A6_9788 + 7 * i for i in range(8)]  # no byte is 0: who writes half a number leaves some of them
RESULTS = {'text': ('answer', 'buffer', 'text_length', 'replaced'), 'texts': ('answer', 'buffer', 'starts', 'lengths', 'replaced')}


class Fault(Exception):
    """What is at fault, what is due, what came."""


# The library

class Words:
    """Lent numbers between guards."""
    GUARDS = [0x5AA5_0FF0_1234_4321, 0x0123_4567_89AB_CDEF]

    def __init__(self, count):
        self.held = (ctypes.c_size_t * (count + 4))()
        self.address = ctypes.addressof(self.held) + 2 * ctypes.sizeof(ctypes.c_size_t)

    def lend(self, values):
        self.held[:] = self.GUARDS + values + self.GUARDS

    def values(self, what):
        found = self.held[:]
        if found[:2] != self.GUARDS or found[-2:] != self.GUARDS:
            raise Fault(what, 'nothing written beside it', 'a write beside it')
        return found[2:-2]


class Library:
    """The two functions of a shared library."""

    def __init__(self, file):
        library = ctypes.CDLL(str(Path(file).resolve()))
        self.text_of, self.texts_of = (getattr(library, 'chemstation_' + name, None) for name in ('text', 'texts'))
        pointer, length, byte = ctypes.c_void_p, ctypes.c_size_t, ctypes.c_uint8
        if self.text_of:
            self.text_of.restype, self.text_of.argtypes = byte, [byte, byte, pointer, length, pointer, length, pointer, pointer]
        if self.texts_of:
            self.texts_of.restype, self.texts_of.argtypes = byte, [byte, pointer, length, pointer, length, pointer, pointer, pointer]
        self.room = ctypes.create_string_buffer(2 * ALL + 4 * GUARD)
        self.count, self.replaced = Words(1), Words(1)
        self.starts, self.lengths, self.eight = Words(8), Words(8), Words(8)
        self.calls = 0

    def lend(self, case):
        """The file, at any address. What is not told of it stands behind, and then bytes that are in no text."""
        self.calls += 1
        self.front = FOREIGN[:self.calls % 8]
        self.file, self.told = self.front + case.file + FOREIGN[:GUARD], case.length
        self.bytes = ctypes.create_string_buffer(self.file, len(self.file))
        self.address = ctypes.addressof(self.bytes) + len(self.front)

    def given_back(self):
        if self.bytes.raw != self.file:
            raise Fault('bytes', 'nothing written', 'a write')

    def lend_room(self, lent):
        """Its address, which may be any, too."""
        self.calls += 1
        at = ctypes.addressof(self.room) + self.calls % 8
        ctypes.memmove(at, FOREIGN[-GUARD:] + lent + FOREIGN[:GUARD], len(lent) + 2 * GUARD)
        return at + GUARD

    @staticmethod
    def held(at, room):
        found = ctypes.string_at(at - GUARD, room + 2 * GUARD)
        if found[:GUARD] != FOREIGN[-GUARD:] or found[-GUARD:] != FOREIGN[:GUARD]:
            raise Fault('buffer', 'nothing written beside it', 'a write beside it')
        return found[GUARD:-GUARD]

    def text(self, kind, number, lent, count, replaced):
        at = self.lend_room(lent)
        self.count.lend([count]), self.replaced.lend([replaced])
        answer = self.text_of(kind, number, self.address, self.told, at, len(lent), self.count.address, self.replaced.address)
        return answer, self.held(at, len(lent)), self.count.values('text_length')[0], self.replaced.values('replaced')[0]

    def texts(self, kind, lent, starts, lengths, replaced):
        at = self.lend_room(lent)
        self.starts.lend(starts), self.lengths.lend(lengths), self.eight.lend(replaced)
        answer = self.texts_of(kind, self.address, self.told, at, len(lent),
                               self.starts.address, self.lengths.address, self.eight.address)
        return (answer, self.held(at, len(lent)),
                self.starts.values('starts'), self.lengths.values('lengths'), self.eight.values('replaced'))


class Modelled:
    """A model in the library's place, with both functions or one."""

    def __init__(self, module, functions=('text', 'texts')):
        self.text_of, self.texts_of = (getattr(module, name) if name in functions else None for name in ('text', 'texts'))

    def lend(self, case):
        self.data = case.file[:case.length]

    def given_back(self):
        pass

    def text(self, kind, number, lent, count, replaced):
        return self.text_of(kind, number, self.data, lent, count)

    def texts(self, kind, lent, starts, lengths, replaced):
        return self.texts_of(kind, self.data, lent, starts, lengths)


# Comparing

def shown(value):
    return value.hex(' ') if isinstance(value, bytes) else value


def compared(names, due, got):
    for what, d, g in zip(names, due, got):
        if d != g:
            if isinstance(d, bytes) and len(d) == len(g):
                first = next(i for i in range(len(d)) if d[i] != g[i])
                what, d, g = '%s from %d on' % (what, first), d[first:first + 16], g[first:first + 16]
            raise Fault(what, shown(d), shown(g))


class Judge:
    # What is judged: the model, wrong ones, cases, and what puts a model in the library's place.
    name, model, edits, cases, modelled = 'texts', texts, texts_wrong.EDITS, cases, Modelled

    def __init__(self, callee):
        self.callee, self.right = callee, self.modelled(self.model)
        self.counts, self.answers = collections.Counter(), collections.Counter()
        self.call = None  # the last one, for who looks into a fault

    def text(self, case, number, room):
        self.call = 'text %d, room %d' % (number, room)
        lent = case.kind, number, FOREIGN[number % 256:][:room], COUNT, REPLACED[number % 8]
        self.compare('text', self.right.text(*lent), self.callee.text(*lent))

    def texts(self, case, room):
        self.call = 'texts, room %d' % room
        lent = case.kind, FOREIGN[:room], STARTS, LENGTHS, REPLACED
        self.compare('texts', self.right.texts(*lent), self.callee.texts(*lent))

    def compare(self, function, due, got):
        """What the model says nothing of is not compared."""
        self.counts['calls of ' + function] += 1
        compared(RESULTS[function], due, got)
        self.answers[function, got[0]] += 1

    def case(self, case, rng):
        """All numbers with all rooms that matter; of a light case some."""
        _, found = texts.opened(case.kind, case.file[:case.length])
        self.right.lend(case)
        self.callee.lend(case)
        self.counts['cases'] += 1
        if self.callee.text_of:
            for number in [rng.randrange(1, 9), rng.choice(NUMBERS)] if case.light else NUMBERS:
                for room in rooms(rng, len(found[number - 1]) if found and number in texts.NUMBERS else None, LONGEST, case.light):
                    self.text(case, number, room)
            # In a light case the text that it is about may be any.
            for number in range(1, 9) if case.light and found else ():
                if found[number - 1]:
                    self.text(case, number, LONGEST)
        if self.callee.texts_of:
            for room in rooms(rng, sum(map(len, found)) if found else None, ALL, case.light):
                self.texts(case, room)
        self.callee.given_back()


def rooms(rng, exact, large, light):
    """Where nothing is given any room will do, and none."""
    if exact is None:
        return [rng.choice([0, large])] if light else [0, large]
    some = [max(exact - 1, 0), exact, exact + 1, 0]
    return [large, rng.choice(some)] if light else sorted({large, *some})


def tried(judge, seed, case):
    """None, or the fault."""
    try:
        judge.case(case, random.Random('%s/%s' % (seed, case.name)))
    except Fault as fault:
        return fault
    return None


# Wrong models, each of which the cases have to tell from the right one

def telling(judge, seed, chosen):
    """The first case that tells the judge's model, in which call and by what. That a model fails in itself tells nothing."""
    for case in chosen:
        try:
            fault = tried(judge, seed, case)
        except Exception:
            continue
        if fault:
            return case.name, judge.call + ', ' + fault.args[0]
    return None


def decoders(seed):
    """The model's UTF-8 and UTF-16 against Python's own; what they agree on."""
    rng = random.Random('%s/decoders' % seed)
    for _ in range(20000):
        some = [0x41, 0x7F, 0x80, 0x8F, 0x9F, 0xA0, 0xBF, 0xC2, 0xE0, 0xED, 0xEF, 0xF0, 0xF4, rng.randrange(256)]
        data = cases.exactly(rng, rng.choice([0, 5])) + bytes(rng.choices(some, k=rng.randrange(6)))
        units = [rng.choice([rng.randrange(0xD800, 0xE000), rng.randrange(0x10000)]) for _ in range(rng.randrange(6))]
        try:
            own = texts.to_utf8(texts.code_points(data))
        except texts.Refused:
            own = None
        try:
            pythons = data.decode('utf-8').encode('utf-8')
        except UnicodeDecodeError:
            pythons = None
        wide = b''.join(unit.to_bytes(2, 'little') for unit in units).decode('utf-16-le', 'replace').encode('utf-8')
        if own != pythons or texts.to_utf8(texts.of_units(units)) != wide:
            sys.exit('the judge is not at one with Python: %s, %s' % (data, units))
    return '20000 strings as Python decodes them'


def tell_wrong_models(judge, seed, shown):
    """How many are missed."""
    chosen = [*judge.cases.made(seed), *(judge.cases.generated(seed, i) for i in range(TOLD_BY))]
    # In any order, as a wrong model may be told by one family only.
    random.Random(seed).shuffle(chosen)
    right = judge(judge.modelled(judge.model))
    for case in chosen:
        if tried(right, seed, case):
            sys.exit('the judge is not at one with itself: %s, %s' % (case.name, right.call))
    source = Path(judge.model.__file__).read_text()
    missed = 0
    for (what, old, new), functions in judge.edits:
        module = misreadings.edited(source, old, new)
        told = [telling(judge(judge.modelled(module, [name])), seed, chosen) for name in functions]
        missed += not all(told)
        if shown or not all(told):
            print('%-45s %s' % (what, '   '.join('%s: %s' % t if t else 'MISSED' for t in told)))
    print('%d wrong models, %d missed' % (len(judge.edits), missed))
    return missed


# The library on all cases

def report(options, judge, case, fault):
    what, due, got = fault.args
    folder = Path(options.saved)
    folder.mkdir(parents=True, exist_ok=True)
    file = folder / ('%s-%s.bytes' % (judge.name, re.sub('[^A-Za-z0-9]+', '-', case.name)))
    file.write_bytes(case.file)
    print('FAULT in %s, seed %s, kind %d, %s: %s\n  due %s\n  got %s\n  bytes saved %s (%d, of which %d told)'
          % (case.name, options.seed, case.kind, judge.call, what, due, got, file, len(case.file), case.length))


def missing(library):
    """A function that is not there is a fault; the other is judged all the same."""
    faults = 0
    for name, function in (('chemstation_text', library.text_of), ('chemstation_texts', library.texts_of)):
        if not function:
            print('FAULT: the library has no function %s' % name)
            faults += 1
    return faults


def judged(judge, options):
    begun = time.monotonic()
    try:
        library = Library(options.library)
    except OSError as error:
        print('FAULT: the library cannot be loaded: %s' % error)
        return 1
    judge, faults = judge(library), missing(library)
    numbers = range(options.first, options.first + options.cases)
    for case in itertools.chain(judge.cases.made(options.seed), (judge.cases.generated(options.seed, i) for i in numbers)):
        fault = tried(judge, options.seed, case)
        if fault:
            report(options, judge, case, fault)
            faults += 1
            if faults >= FAULTS:
                break
    print(', '.join('%s %d' % pair for pair in judge.counts.items()) + ', %.0f s' % (time.monotonic() - begun))
    for name in ('text', 'texts'):
        found = sorted((answer, count) for (n, answer), count in judge.answers.items() if n == name)
        print('%-6s %s' % (name, ', '.join('%d: %d' % pair for pair in found)))
    return faults


def parsed(about):
    p = argparse.ArgumentParser(description=about)
    p.add_argument('--library', metavar='FILE', default=str(ROOT / 'target/lib/libchemstation.so'), help='the shared library')
    p.add_argument('--selftest', action='store_true', help='only shows, without a library, by what each wrong model is told')
    p.add_argument('--seed', default='1')
    p.add_argument('--first', type=int, default=0, help='number of the first generated case')
    p.add_argument('--cases', type=int, default=4000, help='generated cases')
    p.add_argument('--saved', default=str(ROOT / 'target/oracle/failed'), help='folder for the bytes of failing calls')
    return p.parse_args()


def main(judge, about, agreed):
    """agreed: holds the model to another method, and says on what."""
    options = parsed(about)
    # A library that crashes is to be seen to do so.
    faulthandler.enable()
    print(agreed(options.seed))
    faults = tell_wrong_models(judge, options.seed, options.selftest)
    if not options.selftest:
        faults += judged(judge, options)
    print('%d faults' % faults if faults else 'no fault')
    return 1 if faults else 0


if __name__ == '__main__':
    sys.exit(main(Judge, __doc__, decoders))
