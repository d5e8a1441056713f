#!/usr/bin/env python3
"""A plain reader of ChemStation runs, written from document 01 alone.

It answers where the original can't be asked (outside the comparison) and tells a wrong driver from a wrong program.
Its log has no line `t`, as the original's: foot.py adds that.

usage: model.py log|whole|single|header < CASE      a case is a kind digit, then the file
       model.py batch < FRAMES                      frames as the oracle's (README.md)
"""

import struct
import sys

FID, MS, MWD, DAD, UV, ARRAY = range(1, 7)

# Edition: the smallest header.
SMALLEST = {2: 512, 31: 512, 102: 512, 30: 652, 81: 652, 131: 4000, 130: 4800, 179: 4800}
OLD = (2, 30, 31, 81, 102)

# Unicode's White_Space.
WHITE = frozenset(map(chr, [*range(0x9, 0xE), 0x20, 0x85, 0xA0, 0x1680, *range(0x2000, 0x200B),
                            0x2028, 0x2029, 0x202F, 0x205F, 0x3000]))

BUFFER = 32768


class Short(Exception):
    """A due field ends past the bytes at hand."""


class Refusal(Exception):
    """A refusal by its number."""


class Finished(Exception):
    """No record is left."""


class Fields:
    """The bytes at hand, from a position to an end."""

    def __init__(self, data, at=0, end=None):
        self.data, self.at, self.end = data, at, len(data) if end is None else end

    def take(self, width):
        at = self.at
        if self.end - at < width:
            raise Short
        self.at = at + width
        return self.data[at:at + width]

    def be(self, width, signed=False):
        return int.from_bytes(self.take(width), 'big', signed=signed)

    def le(self, width, signed=False):
        return int.from_bytes(self.take(width), 'little', signed=signed)


def divide(a, b):
    """IEEE 754 division."""
    if b != 0:
        return a / b
    if a == 0 or a != a:
        return float('nan')
    negative = (struct.pack('>d', a)[0] ^ struct.pack('>d', b)[0]) >= 128
    return float('-inf') if negative else float('inf')


# Texts

def old_text(data, start, width):
    """A length byte and UTF-8, trimmed."""
    length = data[start]
    if length >= width:
        raise Refusal(7)
    try:
        text = data[start + 1:start + 1 + length].decode('utf-8')
    except UnicodeDecodeError:
        raise Refusal(8) from None
    first, behind = 0, len(text)
    while first < behind and text[first] in WHITE:
        first += 1
    while first < behind and text[behind - 1] in WHITE:
        behind -= 1
    return text[first:behind]


def new_text(data, start):
    """A length byte and so many UTF-16 units; an unpaired surrogate becomes U+FFFD."""
    units = struct.unpack_from('<%dH' % data[start], data, start + 1)
    text, i = [], 0
    while i < len(units):
        u = units[i]
        i += 1
        if 0xD800 <= u < 0xDC00 and i < len(units) and 0xDC00 <= units[i] < 0xE000:
            u = 0x10000 + ((u - 0xD800) << 10) + (units[i] - 0xDC00)
            i += 1
        elif 0xD800 <= u < 0xE000:
            u = 0xFFFD
        text.append(chr(u))
    return ''.join(text)


# Header

def header_size(kind, f):
    """Size the header; the bytes at hand are `f`."""
    if kind not in range(1, 7):
        raise Refusal(1)
    f.take(264)
    word = f.be(4)
    if word == 0:
        raise Refusal(2)
    size = 2 * (word - 1) * (1 if kind == MS else 256)
    if size < 512:
        raise Refusal(3)
    if size > 20000:
        raise Refusal(4)
    f.take(size - 268)
    return size


class Header:
    """The description, and what the streams start from."""

    def __init__(self, kind, f):
        start = f.at
        self.size = header_size(kind, f)
        data = self.data = f.data[start:start + self.size]
        self.edition = edition = self.u32(248)
        if edition not in SMALLEST:
            raise Refusal(5)
        if self.size < SMALLEST[edition]:
            raise Refusal(6)
        self.texts = self.read_texts()

        self.sequence, self.vial, self.replicate = struct.unpack_from('>HHH', data, 252)
        self.scans = self.u32(278)
        self.offset = self.f64(636) if edition in (30, 81) else 0.0
        multiplier = {30: 644, 81: 644, 131: 3085, 130: 4732, 179: 4732}.get(edition)
        self.multiplier = self.f64(multiplier) if multiplier else 1.0
        self.start, self.end = self.minutes(282), self.minutes(286)
        if kind == ARRAY:
            self.open_array()

    def u32(self, at):
        return struct.unpack_from('>I', self.data, at)[0]

    def f64(self, at):
        return struct.unpack_from('>d', self.data, at)[0]

    def minutes(self, at):
        if self.edition == 31:
            return 0.0
        return struct.unpack_from('>f' if self.edition == 179 else '>i', self.data, at)[0] / 60000

    def read_texts(self):
        data, edition = self.data, self.edition
        if edition in OLD:
            fields = [(24, 60), (86, 60), (148, 28), (208, 20), (228, self.size - 228),
                      (596, 40) if edition in (30, 81) else None,
                      (244, 64) if edition == 81 else None,
                      (178, 60)]
            return [old_text(data, *field) if field else '' for field in fields]
        starts = [858, None, 1880, 2492, 2574,
                  None if edition == 131 else 4213,
                  3093 if edition == 131 else 4172,
                  2391]
        return [new_text(data, start) if start else '' for start in starts]

    def open_array(self):
        if self.size < 4126:
            raise Refusal(9)
        data = self.data
        numerator, denominator = struct.unpack_from('>HH', data, 4122)
        self.step = divide(float(numerator), float(denominator)) / 60
        quotient = divide(self.end - self.start, self.step)
        if quotient >= 2.0 ** 53:
            raise Refusal(10)
        self.array_scans = 1 + (int(quotient) if quotient >= 1 else 0)
        self.doubles = data[348:352] == b'G\0C\0' or data[3090:3104] == b'M\0u\0s\0t\0a\0n\0g\0'


# Record streams. `next` gives (time, axis or None, unscaled, scaled), or raises and leaves the state as it was.

class Trace:
    """What FID and MWD have in common."""

    def __init__(self, header):
        self.time = header.start - 0.2
        self.value = self.slope = 0.0
        self.points = 0
        self.multiplier, self.offset = header.multiplier, header.offset

    def record(self, value):
        self.value = value
        self.time += 0.2
        return self.time, None, value, value * self.multiplier + self.offset


class Fid(Trace):
    def next(self, f, last):
        if last and f.at == f.end:
            raise Finished
        v = f.be(2, signed=True)
        if v == 32767:
            high, low = f.be(4, signed=True), f.be(2)
            self.slope = 0.0
            return self.record(float(high) * 65534.0 + float(low))
        self.slope += float(v)
        return self.record(self.value + self.slope)


class Mwd(Trace):
    def next(self, f, last):
        if last and f.at == f.end:
            raise Finished
        points = self.points
        if points == 0:
            points = f.be(2) % 4096
            if points == 0:
                raise Finished
        v = f.be(2, signed=True)
        value = float(f.be(4, signed=True)) if v == -32768 else self.value + float(v)
        self.points = points - 1
        return self.record(value)


class Ms:
    def __init__(self, header):
        self.scans = header.scans
        self.points, self.time = 0, 0.0

    def next(self, f, last):
        scans, points, time = self.scans, self.points, self.time
        if scans == 0:
            raise Finished
        while points == 0:
            count = f.be(2)
            if count < 14:
                raise Refusal(11)
            points = (count - 14) // 2
            time = f.be(4) / 60000
            f.take(12)
            if points == 0:
                f.take(10)
                scans -= 1
                if scans == 0:
                    raise Finished
        mz = f.be(2) / 20
        r = f.be(2)
        if points == 1:
            f.take(10)
            scans -= 1
        self.scans, self.points, self.time = scans, points - 1, time
        value = float((r % 16384) * 8 ** (r // 16384))
        return time, mz, value, value


class Dad:
    def __init__(self, header):
        self.scans = header.scans
        self.bytes = 0
        self.time = self.wavelength = self.step = self.value = 0.0

    def next(self, f, last):
        if self.scans == 0:
            raise Finished
        scans, due, time, step = self.scans, self.bytes, self.time, self.step
        if due == 0:
            if f.le(2) != 67:
                raise Finished
            due = max(f.le(2) - 22, 0)
            time = float(f.le(4))
            wavelength = float(f.le(2))
            f.take(2)
            step = float(f.le(2))
            f.take(8)
            if due == 0:
                raise Finished
            value = 0.0
            scans -= 1
        else:
            wavelength, value = self.wavelength + step, self.value
        v = f.le(2, signed=True)
        if v == -32768:
            value = float(f.le(4, signed=True))
            due = max(due - 6, 0)
        else:
            value += float(v)
            due = max(due - 2, 0)
        self.scans, self.bytes, self.time, self.step = scans, due, time, step
        self.wavelength, self.value = wavelength, value
        return time / 60000, wavelength / 20, value, value / 2000


class Uv:
    def __init__(self, header):
        self.scans = header.scans
        self.points = 0
        self.time = self.wavelength = self.step = self.value = 0.0
        self.multiplier = header.multiplier

    def next(self, f, last):
        if self.scans == 0:
            raise Finished
        points, time, step = self.points, self.time, self.step
        wavelength, value = self.wavelength, self.value
        if points == 0:
            f.take(4)
            time = f.le(4) / 60000
            first, final = f.le(2), f.le(2)
            if first > final:
                raise Refusal(12)
            apart = f.le(2)
            if apart == 0:
                raise Refusal(13)
            points = (final - first) // apart + 1
            step = apart / 20
            wavelength = first / 20 - step
            value = 0.0
            f.take(8)
        v = f.le(2, signed=True)
        value = float(f.le(4, signed=True)) if v == -32768 else value + float(v)
        if self.points == 1:
            self.scans -= 1
        self.points, self.time, self.step = points - 1, time, step
        self.wavelength, self.value = wavelength + step, value
        return time, self.wavelength, value, value * self.multiplier


class Array:
    def __init__(self, header):
        self.scans = header.array_scans
        self.time, self.step = header.start, header.step
        self.multiplier, self.doubles = header.multiplier, header.doubles

    def next(self, f, last):
        if self.scans == 0:
            raise Finished
        value = struct.unpack('<d', f.take(8))[0] if self.doubles else struct.unpack('<f', f.take(4))[0]
        self.scans -= 1
        self.time += self.step
        return self.time, None, value, value * self.multiplier


STREAMS = {FID: Fid, MS: Ms, MWD: Mwd, DAD: Dad, UV: Uv, ARRAY: Array}


# The log

def bits(x):
    return 'nan' if x != x else struct.pack('>d', x).hex().upper()


def row(time, axis, unscaled, scaled):
    return 'r %s %s %s %s\n' % (bits(time), '-' if axis is None else bits(axis), bits(unscaled), bits(scaled))


def asked(call, last):
    """The outcome of a call and None, or None and the closing answer."""
    try:
        return call(), None
    except Finished:
        return None, '0'
    except Refusal as refusal:
        return None, str(refusal)
    except Short:
        return None, '14' if last else 'm'


def run(case, seen):
    """The log of a case. `seen` says of the bytes left how many a call sees and whether these are told last."""
    kind, data = (case[0] - 48 if case else 0), case[1:]
    lines = []

    def fields(at):
        count, last = seen(len(data) - at)
        return Fields(data, at, at + count), last

    f, last = fields(0)
    header, closing = asked(lambda: Header(kind, f), last)
    if header:
        lines.append('h %d %d\n' % (header.edition, header.size))
        state, at = STREAMS[kind](header), header.size
        while closing is None:
            f, last = fields(at)
            record, closing = asked(lambda: state.next(f, last), last)
            if closing is None:
                lines.append(row(*record))
                at = f.at
    lines.append('e %s %d\n' % (closing, max(len(lines) - 1, 0)))
    return ''.join(lines)


def log(case):
    """The log program: a buffer of 32,768 bytes, never taken as the last when it is full."""
    return run(case, lambda left: (left, True) if left < BUFFER else (BUFFER, False))


def whole(case):
    """All bytes at once, told last."""
    return run(case, lambda left: (left, True))


def single(case):
    """All bytes at once, told not last."""
    return run(case, lambda left: (left, False))


def header(case):
    """The description."""
    kind, f = (case[0] - 48 if case else 0), Fields(case[1:])
    told, closing = asked(lambda: Header(kind, f), True)
    if closing:
        return 'e %s 0\n' % closing
    lines = ['h %d %d\n' % (told.edition, told.size),
             'n %d %d %d\n' % (told.sequence, told.vial, told.replicate),
             'd %s\n' % ' '.join(map(bits, (told.start, told.end, told.offset, told.multiplier)))]
    lines += ['t %d %s\n' % (i, text.encode('utf-8').hex().upper()) for i, text in enumerate(told.texts, 1)]
    return ''.join(lines)


MODES = {'log': log, 'whole': whole, 'single': single, 'header': header}


def batch(frames, out):
    names = {name[0]: name for name in MODES}
    at = 0
    while at < len(frames):
        size = int.from_bytes(frames[at:at + 4], 'big')
        frame = frames[at + 4:at + 4 + size]
        text = MODES[names[chr(frame[0])]](frame[1:]).encode()
        out.write(len(text).to_bytes(4, 'big') + text)
        at += 4 + size


if __name__ == '__main__':
    if '--help' in sys.argv[1:]:
        sys.exit(print(__doc__.strip()))
    if len(sys.argv) != 2 or sys.argv[1] not in [*MODES, 'batch']:
        sys.exit(__doc__)
    given = sys.stdin.buffer.read()
    if sys.argv[1] == 'batch':
        batch(given, sys.stdout.buffer)
    else:
        sys.stdout.write(MODES[sys.argv[1]](given))
