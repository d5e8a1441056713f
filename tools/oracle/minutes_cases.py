"""Runs and states to judge minutes and leftovers by."""

import random
import struct

import generate
from generate import ARRAY, DAD, FID, MS, MWD, UV
from selftest import headed
from wholes import Bytes

LAST = 2**32 - 1
# 65,536 minutes and more do not fit in 16 bits, 32,768 not in 15.
TIMES = [0, 1, 59999, 60000, 60001, 119999, 120000, 0x01020304, 2**31 - 1, 2**31, 32768 * 60000, 65536 * 60000 - 1, 65536 * 60000,
         LAST // 60000 * 60000 - 1, LAST // 60000 * 60000, LAST]


def a_time(rng):
    near = 60000 * rng.randrange(LAST // 60000 + 1) + rng.choice([-2, -1, 0, 0, 1, 2])
    return rng.choice([rng.choice(TIMES), near % 2**32, rng.getrandbits(32), rng.randrange(300000)])


# Scans: their bytes. What no rule looks at holds anything.

def ms_scan(rng, time, points):
    return struct.pack('>HI', 14 + 2 * points + rng.randrange(2), time) + rng.randbytes(12 + 4 * points + 10)


def deltas(rng, points):
    absolute = [rng.random() < 0.15 for _ in range(points)]
    return b''.join(struct.pack('<hi', -32768, rng.randrange(-2**31, 2**31)) if a else struct.pack('<h', rng.randrange(-32767, 32768))
                    for a in absolute)


def dad_scan(rng, time, points):
    body = deltas(rng, points)
    return struct.pack('<HHIHHH', 67, 22 + len(body), time, rng.randrange(65536), rng.randrange(65536), rng.randrange(65536)) \
        + rng.randbytes(8) + body


def uv_scan(rng, time, points):
    step = rng.randrange(1, 1000)
    first = rng.randrange(65536 - step * points)
    return rng.randbytes(4) + struct.pack('<IHHH', time, first, first + step * points - rng.randrange(1, step + 1), step) \
        + rng.randbytes(8) + deltas(rng, points)


SCANS = {MS: ms_scan, DAD: dad_scan, UV: uv_scan}
NAMES = {FID: 'FID', MS: 'MS', MWD: 'MWD', DAD: 'DAD', UV: 'UV', ARRAY: 'array'}


def a_stream(rng, kind, scans):
    """Of times and points."""
    return b''.join(SCANS[kind](rng, time, points) for time, points in scans)


def of_points(scans):
    """The time of each point."""
    return [time for time, points in scans for _ in range(points)]


# Scans that end a run or are refused, each with a time of its own.
BAD = {MS: [('a count of 13', struct.pack('>HI', 13, 99999)), ('a count of 0', struct.pack('>HI', 0, 99999))],
       DAD: [('another type', struct.pack('<HHIHHH', 68, 24, 99999, 1, 2, 1)),
             ('no bytes', struct.pack('<HHIHHH', 67, 22, 99999, 1, 2, 1)),
             ('a length of 21', struct.pack('<HHIHHH', 67, 21, 99999, 1, 2, 1))],
       UV: [('start above end', struct.pack('<4sIHHH', b'', 99999, 2, 1, 1)),
            ('step 0', struct.pack('<4sIHHH', b'', 99999, 2, 2, 0))]}


# Runs made for it: name, case, and the times of all points that were put in.

def made(seed):
    rng = random.Random('%s/made' % seed)

    def a_run(name, kind, scans, due=None, tail=b''):
        stream = a_stream(rng, kind, scans) + tail
        return '%s, %s' % (NAMES[kind], name), headed(kind, stream.hex(), scans=len(scans) if due is None else due), of_points(scans)

    near = [60000 * k + d for k in (1, 2, 3, 59, 60, 545, 32767, 32768, 65535, 65536, 71582) for d in (-2, -1, 0, 1, 2)]
    for kind in (MS, DAD, UV):
        for time in TIMES:
            yield a_run('%d alone' % time, kind, [(time, 3)], 2)
        yield a_run('each time', kind, [(time, 2) for time in TIMES])
        yield a_run('each time, one point each', kind, [(time, 1) for time in TIMES], len(TIMES) + 1)
        yield a_run('near whole minutes', kind, [(time, rng.randrange(1, 4)) for time in near], len(near) + 1)
        yield a_run('times going down', kind, [(time, rng.randrange(1, 4)) for time in sorted(TIMES + near, reverse=True)])
        yield a_run('up and down', kind, [(time, 2) for pair in zip(TIMES, reversed(TIMES)) for time in pair])
        yield a_run('one long scan', kind, [(59999, 60), (60001, 1), (2**31, 2)], 4)
        yield a_run('no scan due', kind, [(60000, 2)], 0)
        yield a_run('fewer due than there are', kind, [(time, 2) for time in TIMES], 5)
        yield a_run('more due than there are', kind, [(time, 2) for time in TIMES], LAST)

    # Empty scans with times of their own, before and behind; the last run ends in them.
    for empty in (1, 2, 3, 7):
        some = [(a_time(rng), 0) for _ in range(empty)]
        yield a_run('%d empty before' % empty, MS, [*some, (59999, 2), (60000, 1)])
        yield a_run('%d empty between' % empty, MS, [(60001, 1), *some, (119999, 2)])
        yield a_run('%d empty behind' % empty, MS, [(120001, 2), *some])
        yield a_run('%d empty alone' % empty, MS, some)
        yield a_run('%d empty, then a cut scan' % empty, MS, [(7, 1), *some], LAST, ms_scan(rng, 65536, 2)[:-11])
        yield a_run('%d empty, then a count of 13' % empty, MS, [(7, 1), *some], LAST, b'\0\x0d' + bytes(4))
    yield a_run('empty at every place', MS, [scan for time in TIMES for scan in ((LAST - time, 0), (time, 1), (time ^ 1, 0), (1, 0))])
    yield a_run('many empty', MS, [(1, 1)] + [(i, 0) for i in range(1200)] + [(60000, 2)])

    for kind, bad in BAD.items():
        for name, head in bad:
            yield a_run(name, kind, [(60000, 3)], 3, head + bytes(40))
            yield a_run(name + ' at once', kind, [], 3, head + bytes(40))

    yield 'FID', headed(FID, '0005 0002 7FFF 00000001 0003 0004', start=60000), []
    yield 'MWD', headed(MWD, '1002 0005 8000 FFFFFFFE 1001 0003', start=60000), []
    for name, form in (('single', '<6f'), ('double', '<6d')):
        stream = struct.pack(form, 1, 2.5, -3, 4, 5, 6).hex()
        case = bytearray(headed(ARRAY, stream, edition=131, size=4608, end=240000, step=(60, 1)))
        if name == 'double':
            case[349:353] = b'G\0C\0'
        yield 'array, ' + name, bytes(case), []


def small(seed):
    """Runs to try all prefixes of."""
    rng = random.Random('%s/small' % seed)
    for kind in (MS, DAD, UV):
        scans = [(60001, 2), (59999, 1), (LAST, 1)]
        if kind == MS:
            scans[1:1] = [(3, 0), (2**31, 0)]
        yield NAMES[kind], headed(kind, a_stream(rng, kind, scans).hex(), scans=len(scans) + 1)
    for kind in (FID, MWD, ARRAY):
        run = generate.a_run(rng, kind, 131, count=5)
        yield NAMES[kind], run.case()


# Generated runs: case and the times of the points put in; no times where bytes were changed.

def timed(rng):
    kind = rng.choice([MS, MS, DAD, UV])
    times = [a_time(rng) for _ in range(rng.choice([1, 2, rng.randrange(1, 30)]))]
    if rng.random() < 0.2:
        times.sort(reverse=rng.random() < 0.7)
    empty = rng.choice([0, 0.3, 0.8]) if kind == MS else 0
    scans = [(time, 0 if rng.random() < empty else rng.choice([1, 1, 2, 3, rng.randrange(1, 12)])) for time in times]
    run = generate.Run(rng, kind)
    generate.fill_header(rng, run)
    run.stream += a_stream(rng, kind, scans)
    made = len(scans)
    if rng.random() < 0.15:
        run.stream += rng.choice(BAD[kind])[1] + rng.randbytes(rng.randrange(30))
        made += 1
    run.scans = rng.choice([made] * 4 + [made + 1, made + 1, max(made - 1, 0), LAST])
    run.seal()
    end = len(run.header) + len(run.stream)
    if rng.random() < 0.3:
        return run.case(end - rng.randrange(len(run.stream) + 1)), of_points(scans)
    if rng.random() < 0.2:
        return flipped(rng, run), None
    return run.case(), of_points(scans)


def flipped(rng, run):
    data = bytearray(run.case())
    for _ in range(rng.choice([1, 2, 9])):
        data[1 + len(run.header) + rng.randrange(len(run.stream))] ^= 1 << rng.randrange(8)
    return bytes(data)


# The u32 of each point once more, straight from the bytes, for as long as it is asked.

def ms_times(b):
    while True:
        points, time = (b.number(2) - 14) // 2, b.number(4)
        b.at += 12
        for _ in range(points):
            yield time
        b.at += 4 * points + 10


def dad_times(b):
    while True:
        b.at += 2
        end = b.at + b.number(2) - 2
        time = b.number(4)
        b.at += 14
        # An absolute may pass the scan's end by its own bytes.
        while b.at < end:
            b.delta(0)
            yield time


def uv_times(b):
    while True:
        b.at += 4
        time = b.number(4)
        first, final, step = b.number(2), b.number(2), b.number(2)
        b.at += 8
        for _ in range((final - first) // step + 1):
            b.delta(0)
            yield time


def times(kind, records):
    """Of the bytes behind the header."""
    walk, order = {MS: (ms_times, 'big'), DAD: (dad_times, 'little'), UV: (uv_times, 'little')}[kind]
    return walk(Bytes(records, order))


# States that a caller makes: numbers, counts, stored time, bytes.

def a_double(rng):
    return struct.unpack('>d', struct.pack('>Q', generate.a_double(rng)))[0]


def a_count(rng):
    return rng.choice([0, 0, 1, 1, 2, 3, rng.randrange(1, 40), 2**32 - 1, 2**32, 2**64 - 1])


def some_records(rng, kind):
    """Bytes of records, from a scan's beginning or from anywhere."""
    if kind in SCANS and rng.random() < 0.7:
        points = [0, 1, 2, 4] if kind == MS else [1, 2, 4]
        data = a_stream(rng, kind, [(a_time(rng), rng.choice(points)) for _ in range(rng.randrange(1, 7))])
    else:
        data = bytes(generate.a_run(rng, kind, count=rng.randrange(1, 20), wild=rng.random() < 0.5).stream)
    chance = rng.random()
    if chance < 0.4:
        data = data[rng.randrange(len(data) + 1):]
    elif chance < 0.5:
        data = rng.randbytes(rng.randrange(60))
    return data[:rng.randrange(len(data) + 1)] if rng.random() < 0.3 else data


def a_state(rng):
    kind = rng.choice([FID, MS, MS, MWD, DAD, DAD, UV, UV, ARRAY])
    stored = a_time(rng)
    numbers = [a_double(rng) for _ in range(6)]
    counts = [kind, a_count(rng), a_count(rng), a_count(rng)]
    # The double beside it: of the same time, of another, or any.
    numbers[0] = rng.choice([stored / 60000, float(stored), a_time(rng) / 60000, float(a_time(rng)), numbers[0]])
    if rng.random() < 0.3:
        numbers[1:] = [float(rng.randrange(-99, 99)) for _ in range(5)]
    return numbers, counts, stored, some_records(rng, kind)


NO_KINDS = [0, 7, 8, 255, 256, 257, 258, 2**16 + 2, 2**32, 2**32 + 1, 2**32 + 4, 2**63 + 5, 2**64 - 1]
