"""Headers to judge the numbers of replaced units by; texts_cases.py says what a case is."""

import itertools
import random
import struct

import texts_cases
from texts import ARRAY, FID, KINDS, MINIMA, MS, NEW, OLD, UNITS_131
from texts_cases import (NAMES, NEW_EDITIONS, NO_EDITIONS, OLD_EDITIONS, Case, a_size, blank, damaged, least, numbers, place, plain,
                         put, put_units, seal, whole, word)

HIGH, LOW = 0xD83D, 0xDE00
UNITS = (0x41, HIGH, LOW, 0xFFFD, 0xD800, 0xDBFF, 0xDC00, 0xDFFF, 0xD7FF, 0xE000)
# Never replaced: a zero, no characters, U+FFFD with its bytes turned round, and pairs for U+1FFFD and U+10FFFD.
OTHERS = ((0,), (0xFFFE,), (0xFFFF,), (0xFDFF,), (0x20,), (0xD83F, 0xDFFD), (0xDBFF, 0xDFFD))
# Where an edition has a text, or could be thought to have one (1369 is a description's place to some).
NEW_PLACES = (*NEW.values(), UNITS_131, 1369)
OLD_PLACES = tuple(at for at, _ in OLD.values())


def lay(header, at, units, behind=LOW):
    """Halves of pairs stand on either side, and are none of the text's."""
    struct.pack_into('<H', header, at - 2, HIGH)
    put_units(header, at, units, [behind])


def some(rng, most):
    """Mostly halves of pairs."""
    units = []
    for _ in range(rng.randrange(most + 1)):
        units += rng.choice(OTHERS) if rng.random() < 0.2 else [rng.choice(UNITS)]
    return units


def filled(rng, kind, edition, size=5120):
    """Units at all places; in an old edition, whose texts have to be UTF-8, at those of the new ones."""
    header = blank(kind, edition, size)
    for at in (*NEW_PLACES, *OLD_PLACES) if edition > 102 else NEW_PLACES:
        if at + 24 <= size:
            lay(header, at, some(rng, 5), rng.choice([LOW, HIGH]))
    seal(header, edition, word(kind, size))
    return header


# Made cases

def short(rng):
    """Every list of up to three units in every text of every new edition, before a low half and before a high one."""
    lists = [units for n in range(4) for units in itertools.product(UNITS, repeat=n)]
    for edition, behind in itertools.product(NEW_EDITIONS, (LOW, HIGH)):
        for first in range(len(lists)):
            header = blank(MS, edition)
            for i, field in enumerate(numbers(edition)):
                lay(header, place(edition, field), lists[(first + 37 * i) % len(lists)], behind)
            yield whole('short %d, edition %d, behind %04X' % (first, edition, behind), MS, header, True)


def longer(rng):
    """Every list of four units somewhere, and a fifth of those of five."""
    lists = [*itertools.product(UNITS, repeat=4), *rng.sample([*itertools.product(UNITS, repeat=5)], 20000)]
    rng.shuffle(lists)
    while lists:
        edition = rng.choice(NEW_EDITIONS)
        header = blank(MS, edition)
        for field in numbers(edition):
            lay(header, place(edition, field), lists.pop() if lists else (), rng.choice([LOW, HIGH]))
        yield whole('longer %d, edition %d' % (len(lists), edition), MS, header, True)


def longest(rng):
    """Up to 255 units, also as many as make the length byte the upper one of a half; and headers that are all halves."""
    forms = [(HIGH,), (LOW,), (HIGH, LOW), (LOW, HIGH), (HIGH, HIGH, LOW), (HIGH, LOW, LOW), (0xFFFD,), (0xFFFD, HIGH)]
    for edition in NEW_EDITIONS:
        for field, form, count in itertools.product(numbers(edition), forms, (127, 128, 216, 219, 220, 254, 255)):
            header = blank(MS, edition)
            lay(header, place(edition, field), (form * 255)[:count], rng.choice([LOW, HIGH]))
            shown = ' '.join('%04X' % unit for unit in form)
            yield whole('text %d, edition %d, %d units %s' % (field, edition, count, shown), MS, header, True)
        for some_bytes in ('D8', 'DC', '00D8', '00DC', '00D800DC', '00DC00D8', 'D8DC', 'DBDF', 'FDFF'):
            header = blank(MS, edition)
            header[300:] = (bytes.fromhex(some_bytes) * len(header))[:len(header) - 300]
            yield whole('all %s, edition %d' % (some_bytes, edition), MS, header)


def each_kind(rng):
    for kind in (*KINDS, 0, 7, 255):
        for edition in MINIMA:
            for size in {5120, least(kind if kind in KINDS else FID, edition)}:
                for i in range(2):
                    header = filled(rng, kind if kind in KINDS else rng.choice(KINDS), edition, size)
                    yield whole('kind %d, edition %d of %d, %d' % (kind, edition, size, i), kind, header)


def old(rng):
    """U+FFFD in old texts, and bytes that would be halves as units: 61 D8 80 D8 80, 61 DC 80 and others."""
    told = ['\uFFFD', 'a\u0600', 'a\u0700',
            'a\uFFFD', '\uFFFD\uFFFD', ' \uFFFD\u00A0', 'a\uFFFD b\uFFFD', 'a\u0600\u0600', 'b\u0600\u0700b']
    for edition, size, i in itertools.product(OLD_EDITIONS, (652, 5120), range(30)):
        header = filled(rng, MS, edition, size)
        for field in numbers(edition):
            # Behind three bytes of text 7 the edition follows.
            text = rng.choice(told[:3] if field == 7 else told)
            put(header, place(edition, field), text.encode())
        yield whole('old %d, edition %d of %d' % (i, edition, size), MS, header)


def refused(rng):
    """By each number, with halves at all places."""
    for edition, i in itertools.product(NEW_EDITIONS, range(6)):
        for kind, size_word in ((FID, 0), (FID, 1), (MS, 1), (MS, 256), (FID, 41), (MS, 10002), (FID, 2**32 - 1)):
            header = filled(rng, kind, edition)
            seal(header, edition, size_word)
            # Of those that are too large all bytes are there.
            yield whole('word %d, edition %d, %d' % (size_word, edition, i), kind, header + bytes(16000))
        for kind, size in ((FID, 3584), (FID, 512), (MS, 3998), (MS, MINIMA[edition] - 2)):
            # Behind the header the texts go on.
            header = filled(rng, MS, edition)
            seal(header, edition, word(kind, size))
            yield whole('edition %d of %d, %d' % (edition, size, i), kind, header)
        header = filled(rng, ARRAY, edition)
        struct.pack_into('>II', header, 282, 0, 0x47000000)
        header[4122:4126] = b'\0\0\0\1'
        yield whole('too many scans, edition %d, %d' % (edition, i), ARRAY, header)
        for kind, length in itertools.product((FID, MS, ARRAY), (0, 267, 268, 4000, 4799, 5119)):
            header = filled(rng, kind, edition)
            yield Case('kind %d, edition %d, %d told, %d' % (kind, edition, length, i), kind, bytes(header), length)
        yield whole('array of 4096, %d' % i, ARRAY, filled(rng, ARRAY, 131, 4096))
        for unknown in NO_EDITIONS:
            kind = rng.choice(KINDS)
            header = filled(rng, kind, edition)
            header[248:252] = unknown.to_bytes(4, 'big')
            yield whole('edition %d, %d' % (unknown, i), kind, header, True)
    for edition, field, damage in itertools.product(OLD_EDITIONS, OLD, (b'\xED\xA0\x80', b'a\xD8', b'\xEF\xBF', b'\xFD\xFF', None)):
        header = filled(rng, MS, edition)
        put(header, OLD[field][0], damage or b'\xEF\xBF\xBD', None if damage else 255)
        yield whole('edition %d, text %d, %s' % (edition, field, damage and damage.hex()), MS, header)


def flipped(rng):
    """Each bit of the edition, the size word, the length bytes and the first units."""
    for edition in NEW_EDITIONS:
        header = filled(rng, MS, edition)
        places = [at + i for at in NEW_PLACES for i in range(9)]
        for at, bit in itertools.product((*range(248, 252), *range(264, 268), *places), range(8)):
            turned = bytearray(header)
            turned[at] ^= 1 << bit
            yield whole('byte %d, bit %d, edition %d' % (at, bit, edition), MS, turned, True)


def cuts(rng):
    """The whole file stands in memory."""
    for kind, edition in itertools.product(KINDS, NEW_EDITIONS):
        file = bytes(filled(rng, kind, edition, least(kind, edition))) + b'\0\xDC\0\xDC'
        size = len(file) - 4
        ends = {at + i for at in NEW_PLACES for i in (0, 1, 2, 3, 12)}
        for length in sorted(ends | {267, 268, size - 1, size, size + 1, size + 4}):
            yield Case('%s, edition %d, %d of %d bytes' % (NAMES[kind], edition, length, size), kind, file, length, True)


def made(seed):
    for family in (short, longer, longest, each_kind, old, refused, flipped, cuts):
        yield from family(random.Random('%s/replaced/%s' % (seed, family.__name__)))


# Generated cases

def generated(seed, i):
    """Some as texts_cases.py makes them; the others have new texts of halves, or short old ones."""
    rng = random.Random('%s/replaced/%d' % (seed, i))
    if rng.random() < 0.25:
        return texts_cases.generated(seed, i)
    kind, edition = rng.choice(KINDS), rng.choice(NEW_EDITIONS * 3 + OLD_EDITIONS)
    file = plain(rng, kind, edition, max(a_size(rng, kind, edition), 512))
    for field in numbers(edition) if edition > 102 and len(file) >= MINIMA[edition] else ():
        lay(file, place(edition, field), some(rng, rng.choice([2, 6, 40, 120])), rng.choice([LOW, HIGH]))
    if rng.random() < 0.2:
        file[rng.randrange(len(file))] ^= 1 << rng.randrange(8)
    return Case('%s-%d' % (seed, i), *damaged(rng, kind, file))
