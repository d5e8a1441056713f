#!/usr/bin/env python3
"""Runs to compare readers on, made from a seed.

Case number i of a seed is always the same bytes: a kind digit, then the file.

usage: generate.py SEED FIRST COUNT FOLDER      writes case files and prints number, family, length
"""

import random
import struct
import sys
from pathlib import Path

FID, MS, MWD, DAD, UV, ARRAY = KINDS = range(1, 7)
SMALLEST = {2: 512, 31: 512, 102: 512, 30: 652, 81: 652, 131: 4000, 130: 4800, 179: 4800}
EDITIONS = sorted(SMALLEST)
OLD = (2, 30, 31, 81, 102)

OLD_TEXTS = {24: 60, 86: 60, 148: 28, 208: 20, 596: 40, 178: 60, 228: 256, 244: 64}
NEW_TEXTS = [858, 1880, 2492, 2574, 4213, 3093, 4172, 2391]

# Where header fields begin or end: places to cut at and to spoil.
PLACES = [0, 1, 24, 84, 86, 146, 148, 176, 178, 208, 228, 238, 244, 248, 249, 250, 251, 252, 254, 256, 258, 264, 265,
          266, 267, 268, 278, 279, 280, 281, 282, 286, 290, 348, 352, 512, 596, 636, 644, 652, 858, 1880, 2391, 2492,
          2574, 3085, 3090, 3093, 3104, 4000, 4122, 4123, 4124, 4125, 4126, 4172, 4213, 4732, 4740, 4800]

WHITE = [*range(0x9, 0xE), 0x20, 0x85, 0xA0, 0x1680, *range(0x2000, 0x200B), 0x2028, 0x2029, 0x202F, 0x205F, 0x3000]
NOT_WHITE = [0x0, 0x8, 0xE, 0x1C, 0x1D, 0x1E, 0x1F, 0x84, 0x86, 0x9F, 0xA1, 0x167F, 0x180E, 0x1FFF, 0x200B, 0x200C,
             0x2027, 0x202A, 0x2060, 0x2FFF, 0x3001, 0xFEFF]
LETTERS = [0x41, 0x7A, 0x7F, 0x80, 0xE9, 0x7FF, 0x800, 0x20AC, 0xD7FF, 0xE000, 0xFFFD, 0xFFFF, 0x10000, 0x1F600, 0x10FFFF]
NOT_UTF8 = ['80', 'BF', 'C0', 'C080', 'C1BF', 'C2', 'C241', 'DF', 'E0', 'E080', 'E08080', 'E09FBF', 'E0A0', 'E1', 'E180',
            'ED9F', 'EDA080', 'EDBFBF', 'EF', 'EFBF', 'F0', 'F08080', 'F0808080', 'F08FBFBF', 'F09080', 'F3BFBF',
            'F48FBF', 'F4908080', 'F5808080', 'F8888080', 'FE', 'FF']
UNITS = [0x0, 0x9, 0x20, 0x41, 0x7F, 0x80, 0x7FF, 0x800, 0x3000, 0xD7FF, 0xD800, 0xDBFF, 0xDC00, 0xDFFF, 0xE000, 0xFEFF,
         0xFFFD, 0xFFFE, 0xFFFF]

DOUBLES = [0x0, 1 << 63, 1, 0x000FFFFFFFFFFFFF, 0x0010000000000000, 0x7FEFFFFFFFFFFFFF, 0x7FF0000000000000,
           0xFFF0000000000000, 0x7FF0000000000001, 0x7FF8000000000000, 0xFFF8000000000001, 0x3FF0000000000000,
           0xBFF0000000000000, 0x3FB999999999999A, 0x3F30000000000000, 0x4340000000000000, 0x3FF0000000000001]
SINGLES = [0x0, 1 << 31, 1, 0x007FFFFF, 0x00800000, 0x7F7FFFFF, 0xFF7FFFFF, 0x7F800000, 0xFF800000, 0x7F800001,
           0x7FC00000, 0xFFC00001, 0x3F800000, 0xBF800000, 0x3DCCCCCD, 0x4B800000]


class Run:
    """A header and a stream, and where the stream's fields end."""

    def __init__(self, rng, kind, edition=None, size=None):
        self.rng, self.kind = rng, kind
        self.edition = rng.choice(EDITIONS) if edition is None else edition
        size = self.a_size() if size is None else size
        # What no field of the edition covers may hold anything.
        self.header = bytearray(rng.randbytes(size) if rng.random() < 0.3 else size)
        self.stream = bytearray()
        self.ends = []
        self.scans = 0

    def a_size(self):
        """A size that the edition and the kind accept; most often the smallest."""
        least = max(SMALLEST[self.edition], 4126 if self.kind == ARRAY else 0)
        unit = 2 if self.kind == MS else 512
        size = -(-least // unit) * unit
        if self.rng.random() < 0.1:
            size += unit * self.rng.randrange(1, (20000 - size) // unit + 1)
        return size

    def field(self, form, *numbers):
        self.stream += struct.pack(form, *numbers)
        self.ends.append(len(self.stream))

    def put(self, form, at, *numbers):
        """Into the header, as far as it reaches."""
        if at + struct.calcsize(form) <= len(self.header):
            struct.pack_into(form, self.header, at, *numbers)

    def put_bytes(self, at, data):
        if at + len(data) <= len(self.header):
            self.header[at:at + len(data)] = data

    def word(self):
        size = len(self.header)
        return size // 2 + 1 if self.kind == MS else size // 512 + 1

    def seal(self):
        """The numbers that make it a run; after the texts, which lie over some of them."""
        self.put('>I', 248, self.edition)
        self.put('>I', 264, self.word())
        self.put('>I', 278, self.scans)
        return self

    def case(self, cut=None):
        file = bytes(self.header + self.stream)
        return b'%d' % self.kind + (file if cut is None else file[:max(cut, 0)])

    def cuts(self):
        """Where fields of the whole file end."""
        size = len(self.header)
        return [at for at in PLACES if at <= size] + [size] + [size + end for end in self.ends]


# Numbers

def an_i16(rng):
    return rng.choice([rng.randrange(-50, 51), rng.randrange(-32768, 32768), 32767, -32768, 32766, -32767, 0, 1, -1])


def an_i32(rng):
    return rng.choice([rng.randrange(-1000, 1001), rng.randrange(-2**31, 2**31), 2**31 - 1, -2**31, 0, -1, 2**24 + 1])


def a_u32(rng):
    return an_i32(rng) % 2**32


def a_u16(rng):
    return an_i16(rng) % 65536


def double_bits(x):
    return struct.unpack('>Q', struct.pack('>d', x))[0]


def single_bits(x):
    return struct.unpack('>I', struct.pack('>f', x))[0]


def a_double(rng):
    """Bits of a double."""
    plain = double_bits(rng.choice([rng.uniform(-2, 2), rng.gauss(0, 1000), 10.0 ** rng.randrange(-9, 9)]))
    return rng.choice([plain, plain, plain, rng.choice(DOUBLES), rng.getrandbits(64)])


def a_single(rng):
    plain = single_bits(rng.choice([rng.uniform(-2, 2), rng.gauss(0, 1e5), 10.0 ** rng.randrange(-9, 9)]))
    return rng.choice([plain, plain, plain, rng.choice(SINGLES), rng.getrandbits(32)])


# Header contents

def plain_text(rng, most):
    return bytes(rng.choice(b'ABCDEFxyz 0123456789,=_-') for _ in range(rng.randrange(0, most + 1)))


def odd_points(rng, room):
    """UTF-8 of white and other points in at most so many bytes."""
    text = b''
    pools = [WHITE] * 3 + [NOT_WHITE, LETTERS]
    while True:
        more = chr(rng.choice(rng.choice(pools))).encode()
        if len(text) + len(more) > room or rng.random() < 0.05:
            return text
        text += more


def old_text(rng, run, at, wild):
    width = OLD_TEXTS[at] if at != 228 else min(len(run.header) - 228, 256)
    if not wild:
        # Short enough not to reach the fields behind that matter.
        text = plain_text(rng, {228: 14, 208: 18, 178: 28, 244: 3}.get(at, width - 1))
        run.put_bytes(at, bytes([len(text)]) + text)
        return
    room = width - 1
    text = odd_points(rng, room)
    length = rng.choice([len(text)] * 6 + [room, room, room + 1, room - 1, width + 1, 255, rng.randrange(256)])
    if rng.random() < 0.25:
        where = rng.randrange(0, len(text) + 1)
        text = text[:where] + bytes.fromhex(rng.choice(NOT_UTF8)) + text[where:]
        length = rng.choice([len(text), room, len(text) - 1]) % 256
    text = text[:room].ljust(rng.choice([0, room]), b' ')
    run.put_bytes(at, bytes([min(length, 255)]) + text)


def new_text(rng, run, at, wild):
    if not wild:
        units = [*plain_text(rng, 30)]
    else:
        pool = rng.choice([UNITS, [0xD83D, 0xDE00, 0x41], range(65536)])
        count = rng.choice([0, 1, 2, 3, rng.randrange(256), 254, 255])
        units = [rng.choice(pool) for _ in range(count)]
    run.put_bytes(at, struct.pack('<B%dH' % len(units), len(units), *units))


def fill_header(rng, run, wild_texts=False, wild_numbers=False):
    """Texts, then numbers."""
    old = run.edition in OLD
    if old:
        places = [24, 86, 148, 178, 208, 228] + ([596] if run.edition in (30, 81) else []) + ([244] if run.edition == 81 else [])
    else:
        places = NEW_TEXTS
    odd = rng.sample(places, rng.randrange(1, 3)) if wild_texts else []
    for at in places:
        (old_text if old else new_text)(rng, run, at, at in odd)
    run.put('>HHH', 252, a_u16(rng), a_u16(rng), a_u16(rng))
    if wild_numbers:
        for at in (282, 286):
            run.put('>I', at, a_single(rng) if run.edition == 179 else a_u32(rng))
        multiplier, offset = a_double(rng), a_double(rng)
    else:
        begin = rng.choice([0, 0, 1000, 60000, rng.randrange(0, 100000)])
        end = begin + rng.choice([0, 60000, rng.randrange(0, 2000000)])
        run.put('>ff' if run.edition == 179 else '>ii', 282, begin, end)
        multiplier = double_bits(rng.choice([1.0, 0.0001, 1 / 2000, rng.uniform(0, 2)]))
        offset = double_bits(rng.choice([0.0, 0.0, rng.uniform(-5, 5)]))
    if run.edition in (30, 81):
        run.put('>Q', 636, offset)
    at = {30: 644, 81: 644, 131: 3085, 130: 4732, 179: 4732}.get(run.edition)
    if at:
        run.put('>Q', at, multiplier)


# Streams

def delta(rng, run, order, escape, wild):
    """A delta, or an absolute value behind its escape."""
    v = an_i16(rng) if wild else rng.randrange(-300, 301)
    if rng.random() < (0.2 if wild else 0.03):
        v = escape
    run.field(order + 'h', v)
    return v == escape


def fid_stream(rng, run, count, wild):
    for _ in range(count):
        if delta(rng, run, '>', 32767, wild):
            run.field('>i', an_i32(rng) if wild else rng.randrange(-3, 4))
            run.field('>H', a_u16(rng))


def mwd_stream(rng, run, count, wild):
    while count > 0:
        points = rng.choice([1, 2, 3, rng.randrange(1, 40), 4095 if wild else 7])
        run.field('>H', rng.choice([0x1000, 0x1000, rng.randrange(16) << 12]) + points)
        for _ in range(min(points, count)):
            if delta(rng, run, '>', -32768, wild):
                run.field('>i', an_i32(rng))
        count -= points
    if rng.random() < 0.2:
        run.field('>H', rng.choice([0, 0x1000, 0xF000]))


def scan_count(rng, made):
    """How many scans the header says there are."""
    return rng.choice([made] * 4 + [made + 1, max(made - 1, 0), 0, 1, 2, 2**32 - 1])


def ms_scan(rng, run, points, wild):
    run.field('>H', 14 + 2 * points + rng.choice([0, 0, 1]))
    run.field('>I', a_u32(rng) if wild else rng.randrange(0, 10**6))
    run.field('>12s', rng.randbytes(12))
    for i in range(points):
        run.field('>H', a_u16(rng) if wild else rng.randrange(600, 10000))
        run.field('>H', rng.choice([a_u16(rng), rng.randrange(65536), 0x4003, 0xFFFF, 0x3FFF, 0x4000, 0x8000, 0xC000]))
    run.field('>10s', rng.randbytes(10))


def ms_stream(rng, run, count, wild):
    made = 0
    while count > 0:
        points = rng.choice([0, 1, 2, rng.randrange(0, 30)]) if wild else rng.randrange(0, 30)
        ms_scan(rng, run, points, wild)
        count -= points + 1
        made += 1
    run.scans = scan_count(rng, made)
    if rng.random() < 0.15:
        run.field('>H', rng.choice([0, 13, 14, 15, 16]))


def dad_stream(rng, run, count, wild):
    made = 0
    while count > 0:
        points = rng.choice([1, 2, rng.randrange(1, 30)])
        run.field('<H', rng.choice([67] * (30 if wild else 60) + [68, 0, 66, 0x4300]))
        length_at = len(run.stream)
        run.field('<H', 0)
        run.field('<I', a_u32(rng) if wild else rng.randrange(0, 10**6))
        for number in (rng.randrange(3800, 4200), rng.randrange(8000, 12000), rng.choice([20, 40, 1, 0])):
            run.field('<H', a_u16(rng) if wild else number)
        run.field('<8s', rng.randbytes(8))
        length = 22
        for _ in range(points):
            length += 2
            if delta(rng, run, '<', -32768, wild):
                run.field('<i', an_i32(rng))
                length += 4
        if rng.random() < (0.3 if wild else 0.05):
            length = rng.choice([length - 1, length + 1, length - 3, length + 2, 21, 22, 23, 24, 25, 0, 65535])
        struct.pack_into('<H', run.stream, length_at, length % 65536)
        count -= points
        made += 1
    run.scans = scan_count(rng, made)


def uv_stream(rng, run, count, wild):
    made = 0
    while count > 0:
        points = rng.choice([1, 1, 2, rng.randrange(1, 40)]) if wild else rng.randrange(1, 40)
        step = rng.choice([20, 40, 1, 7, rng.randrange(1, 1000)])
        first = rng.randrange(0, 65536) if wild else rng.randrange(3800, 4200)
        final = min(first + step * (points - 1) + rng.randrange(0, step), 65535)
        if wild and rng.random() < 0.02:
            first, final = final, first
        if wild and rng.random() < 0.05:
            first, final = rng.choice([(65535, 65535), (0, 65535), (0, 0), (final, final)])
        if wild and rng.random() < 0.04:
            step = rng.choice([0, 0, 65535])
        run.field('<4s', rng.randbytes(4))
        run.field('<I', a_u32(rng) if wild else rng.randrange(0, 10**6))
        for number in (first, final, step):
            run.field('<H', number)
        run.field('<8s', rng.randbytes(8))
        for _ in range(min(points, count)):
            if delta(rng, run, '<', -32768, wild):
                run.field('<i', an_i32(rng))
        count -= points
        made += 1
    run.scans = scan_count(rng, made)


def array_stream(rng, run, count, wild):
    doubles = rng.random() < 0.5
    if doubles:
        run.put_bytes(348, b'G\0C\0') if rng.random() < 0.5 else run.put_bytes(3090, b'M\0u\0s\0t\0a\0n\0g\0')
    elif wild:
        run.put_bytes(348, rng.choice([b'G\0C', b'L\0C\0', b'G\0C\x01', b'GC\0\0']))
        run.put_bytes(3090, rng.choice([b'M\0u\0s\0t\0a\0n\0g\x01', b'm\0u\0s\0t\0a\0n\0g\0', b'Mustang']))
    numerator, denominator = rng.choice([(60, 1), (12, 1), (1, 5), (200, 1000),
                                         (rng.randrange(1, 65536), rng.randrange(1, 65536))])
    if wild and rng.random() < 0.5:
        numerator, denominator = rng.choice([(0, 0), (1, 0), (a_u16(rng), a_u16(rng)), (a_u16(rng), a_u16(rng)),
                                             (65535, 1), (1, 65535)])
    run.put('>HH', 4122, numerator, denominator)
    if not wild or rng.random() < 0.5:
        span = int(count * 1000 * numerator / (denominator or 1)) + rng.randrange(-3, 4)
        if span < 2**31 - 200000:
            begin = rng.choice([0, 1000, 60000])
            run.put('>ff' if run.edition == 179 else '>ii', 282, begin, begin + span)
    for _ in range(count + rng.choice([0, 1, 1, 1, 2])):
        if doubles:
            run.field('<Q', a_double(rng))
        else:
            run.field('<I', a_single(rng))


STREAMS = {FID: fid_stream, MS: ms_stream, MWD: mwd_stream, DAD: dad_stream, UV: uv_stream, ARRAY: array_stream}


def a_run(rng, kind=None, edition=None, count=None, wild=False, wild_texts=False, size=None):
    run = Run(rng, kind or rng.choice(KINDS), edition, size)
    if count is None:
        count = rng.choice([0, 1, 2, rng.randrange(1, 10), rng.randrange(1, 80)])
    fill_header(rng, run, wild_texts, wild)
    STREAMS[run.kind](rng, run, count, wild)
    return run.seal()


# Families of cases: each gives a case from a generator of random numbers.

def plain(rng):
    return a_run(rng).case()


def extreme(rng):
    return a_run(rng, wild=True).case()


def texts(rng):
    return a_run(rng, count=1, wild_texts=True).case()


def sizes(rng):
    """Size words around every limit, under and over what the file has."""
    kind, edition = rng.choice(KINDS), rng.choice(EDITIONS)
    unit = 2 if kind == MS else 512
    limit = rng.choice([0, 268, 512, 652, 4000, 4126, 4800, 20000, 20000])
    word = limit // unit + 1 + rng.randrange(-1, 3)
    word = rng.choice([word] * 6 + [0, 1, 2, 2**31, 2**31 + 1, 2**32 - 1, 2**24 + 2]) % 2**32
    size = min(max(unit * (word - 1), 300), 20480)
    run = a_run(rng, kind, edition, count=2, size=size)
    run.put('>I', 264, word)
    cut = rng.choice([None, None, None, size - 1, size, size + 1, 267, 268, 269])
    return run.case(cut)


def cut_short(rng):
    """Cut at and around a field's end."""
    run = a_run(rng, count=rng.randrange(0, 8), wild=rng.random() < 0.7)
    places = run.cuts()
    if rng.random() < 0.8:
        places = [at for at in places if at >= len(run.header)]
    return run.case(rng.choice(places) + rng.choice([-1, 0, 0, 1]))


def checks(rng):
    """A last scan that fails a check, or hardly passes, cut around the field that is checked."""
    kind = rng.choice([MS, DAD, UV])
    run = a_run(rng, kind, count=rng.choice([0, 0, 0, 3]))
    before = len(run.ends)
    if kind == MS:
        for form, number in (('>H', rng.choice([0, 12, 13, 13, 14, 15, 16])), ('>I', 60000)):
            run.field(form, number)
        run.field('>12s', b'')
    elif kind == DAD:
        run.field('<H', rng.choice([67, 67, 67, 68]))
        run.field('<H', rng.choice([0, 21, 22, 23, 24]))
        for form, number in (('<I', 60000), ('<H', 4000), ('<H', 4040), ('<H', 20)):
            run.field(form, number)
        run.field('<8s', b'')
    else:
        run.field('<4s', b'')
        first, final, step = rng.choice([(1, 0, 1), (1, 0, 0), (0, 1, 0), (1, 1, 0), (1, 1, 1), (65535, 65534, 0)])
        for form, number in (('<I', 60000), ('<H', first), ('<H', final), ('<H', step)):
            run.field(form, number)
        run.field('<8s', b'')
    run.field('>4s', b'\0\1\0\1')
    run.scans = 2**32 - 1
    run.seal()
    return run.case(len(run.header) + rng.choice(run.ends[before:][-6:]) + rng.choice([-1, 0, 0, 1]))


def spoiled(rng):
    """Some bytes of a run changed."""
    run = a_run(rng, wild=rng.random() < 0.3)
    data = bytearray(run.case())
    size = len(run.header)
    for _ in range(rng.choice([1, 1, 2, 5, 20])):
        at = rng.choice([rng.choice(PLACES), rng.randrange(0, size), size + rng.randrange(0, len(run.stream) + 1),
                         size + rng.randrange(0, len(run.stream) + 1)])
        if at + 1 < len(data):
            data[at + 1] = rng.choice([0, 255, 127, 128, rng.randrange(256), data[at + 1] ^ (1 << rng.randrange(8))])
    return bytes(data)


def noise(rng):
    """A sound header before random bytes or words."""
    run = a_run(rng, count=0, wild=rng.random() < 0.5)
    run.scans = rng.choice([1, 2, 5, 2**32 - 1])
    run.seal()
    words = [0x7FFF, 0x8000, 0x0000, 0x0001, 0xFFFF, 0x4300, 0x0043, 0x001A, 0x1A00, 0x1002, 0x0010, 0x000E, 0x7FFE, 0x8001]
    for _ in range(rng.randrange(0, 120)):
        run.field('>H', rng.choice([rng.choice(words), rng.randrange(65536)]))
    if rng.random() < 0.5:
        run.field('>B', rng.randrange(256))
    return run.case()


def digits(rng):
    """Kinds that are none, and files that hardly are."""
    case = bytearray(a_run(rng, count=2).case())
    case[0] = rng.choice([48, 55, 56, 57, 0, 255, rng.randrange(256)])
    few = b'%d' % rng.choice(KINDS) + rng.randbytes(rng.randrange(0, 400))
    return rng.choice([bytes(case), bytes(case), b'', bytes(case[:1]), few])


def quotients(rng):
    """Array runs whose scan quotient is around a limit."""
    run = a_run(rng, ARRAY, rng.choice([130, 131, 179, 179, 179]), count=rng.randrange(0, 6), wild=True)
    run.put('>HH', 4122, *rng.choice([(60, 1), (60, 1), (1, 1), (0, 7), (0, 0), (7, 0), (1, 65535), (a_u16(rng), a_u16(rng))]))
    if run.edition == 179:
        big = single_bits(60000.0 * 2.0 ** rng.choice([52, 53, 53, 53, 54, 63, 64, 65]))
        run.put('>II', 282, rng.choice([0, 0, a_single(rng)]), rng.choice([big, big - 1, big + 1, a_single(rng)]))
    else:
        run.put('>ii', 282, rng.choice([0, an_i32(rng)]), an_i32(rng))
    return run.case()


def empty_scans(rng):
    """Runs of empty MS scans about as long as the log program's buffer."""
    run = Run(rng, MS, rng.choice([2, 31, 102]), 512)
    fill_header(rng, run)
    before = rng.choice([0, 0, 1, 5])
    for _ in range(before):
        ms_scan(rng, run, rng.randrange(1, 4), False)
    start = len(run.header) + len(run.stream)
    empty = rng.choice([1165, 1168, 1169, 1170, 1171, 1172, 1200, 2400])
    scan = struct.pack('>HI12s10s', 14, 60000, b'', b'')
    run.stream += scan * empty
    after = rng.choice([0, 1, 1, 3])
    for _ in range(after):
        ms_scan(rng, run, rng.choice([0, 1, 2, 3]), False)
    run.scans = rng.choice([before + empty + after] * 3 + [before + empty, before + empty + after + 1])
    run.seal()
    end = len(run.header) + len(run.stream)
    return run.case(rng.choice([None, None, None, end - 1, end - 11, start + 32767, start + 32768, start + 32769]))


def long(rng):
    """Runs past the log program's buffer."""
    kind = rng.choice(KINDS)
    count = {FID: 18000, MS: 9000, MWD: 18000, DAD: 15000, UV: 17000, ARRAY: 9000}[kind]
    run = a_run(rng, kind, count=int(count * rng.uniform(0.8, 1.4)), wild=rng.random() < 0.3)
    if kind in (MS, DAD, UV) and run.scans < 100:
        run.scans = 2**32 - 1
        run.seal()
    end = len(run.header) + len(run.stream)
    return run.case(rng.choice([None, None, 32767, 32768, 32769, 65536, end - 1, end - 2]))


# Family and weight.
FAMILIES = [(plain, 10), (extreme, 20), (texts, 16), (sizes, 6), (cut_short, 19), (checks, 5), (spoiled, 9), (noise, 8),
            (digits, 1), (quotients, 3), (empty_scans, 2), (long, 1)]


def case(seed, number):
    """The family's name and the bytes of a case."""
    rng = random.Random('%s/%s' % (seed, number))
    family = rng.choices([f for f, _ in FAMILIES], [w for _, w in FAMILIES])[0]
    return family.__name__, family(rng)


def prefixes(seed, number):
    """All prefixes of a small run: of its stream, and around the header's ends."""
    rng = random.Random('%s/prefixes/%s' % (seed, number))
    run = a_run(rng, KINDS[number % 6], EDITIONS[number // 6 % 8], count=rng.randrange(1, 9), wild=rng.random() < 0.7)
    size = len(run.header)
    cuts = [0, 1, 267, 268, 269, *range(size - 1, size + len(run.stream) + 1)]
    return [run.case(cut) for cut in cuts]


if __name__ == '__main__':
    if '--help' in sys.argv[1:]:
        sys.exit(print(__doc__.strip()))
    if len(sys.argv) != 5:
        sys.exit(__doc__)
    folder = Path(sys.argv[4])
    folder.mkdir(parents=True, exist_ok=True)
    for i in range(int(sys.argv[2]), int(sys.argv[2]) + int(sys.argv[3])):
        name, data = case(sys.argv[1], i)
        (folder / ('%s-%06d.case' % (sys.argv[1], i))).write_bytes(data)
        print(i, name, len(data))
