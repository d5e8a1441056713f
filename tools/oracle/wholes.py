"""The added-up values of a run in whole numbers, straight from its bytes: nothing is rounded, nothing is a double.

Written from document 01's streams a second time, for the sums. Each gives values for as long as it is asked: where a run ends
is not asked here, the reader's count of records says it.
"""

from generate import DAD, FID, MS, MWD, UV


class Bytes:
    def __init__(self, data, order):
        self.data, self.order, self.at = data, order, 0

    def number(self, width, signed=False):
        self.at += width
        if self.at > len(self.data):
            raise EOFError('asked for more values than the run has')
        return int.from_bytes(self.data[self.at - width:self.at], self.order, signed=signed)

    def delta(self, value):
        """The next value, by a delta or as an absolute behind -32768."""
        v = self.number(2, True)
        return self.number(4, True) if v == -32768 else value + v


def fid(b):
    value = slope = 0
    while True:
        v = b.number(2, True)
        if v == 32767:
            slope, value = 0, b.number(4, True) * 65534 + b.number(2)
        else:
            slope += v
            value += slope
        yield value


def mwd(b):
    value = 0
    while True:
        for _ in range(b.number(2) & 0xFFF):
            value = b.delta(value)
            yield value


def ms(b):
    while True:
        points = (b.number(2) - 14) // 2
        b.at += 16
        for _ in range(points):
            b.at += 2
            r = b.number(2)
            yield (r & 0x3FFF) << 3 * (r >> 14)
        b.at += 10


def dad(b):
    while True:
        b.at += 2
        end = b.at + b.number(2) - 2
        b.at += 18
        value = 0
        # An absolute may pass the scan's end by its own bytes.
        while b.at < end:
            value = b.delta(value)
            yield value


def uv(b):
    while True:
        b.at += 8
        first, final, step = b.number(2), b.number(2), b.number(2)
        b.at += 8
        value = 0
        for _ in range((final - first) // step + 1):
            value = b.delta(value)
            yield value


STREAMS = {FID: (fid, 'big'), MS: (ms, 'big'), MWD: (mwd, 'big'), DAD: (dad, 'little'), UV: (uv, 'little')}


def values(kind, records):
    """Of the bytes behind the header."""
    stream, order = STREAMS[kind]
    return stream(Bytes(records, order))
