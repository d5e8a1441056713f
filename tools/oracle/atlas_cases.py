"""Files, states and worked specimens to judge the atlas reading by, and its rows once more, by places instead of counts due."""

import itertools
import random
import struct

import generate
import sum_cases
from generate import ARRAY, DAD, FID, MS, MWD, UV
from minutes_cases import BAD, LAST, NO_KINDS, a_double, a_stream, a_time, dad_scan, deltas, flipped, some_records, uv_scan
from selftest import DAD_SCAN, UV_SCAN, headed
from wholes import Bytes

FINISHED, INCOMPLETE = 0, 14


# The rows of a file from Open on, told last: each yields the stored time, the wavelength in twentieths, the value in whole numbers, and
# where its bytes end; the closing answer is returned.

def dad_rows(b, scans):
    for _ in range(scans):
        begin = b.at
        if b.number(2) != 67:
            return FINISHED
        end, time = begin + b.number(2), b.number(4)
        first, _, step = b.number(2), b.number(2), b.number(2)
        b.number(8)
        if end <= b.at:
            return FINISHED
        value = 0
        for k in itertools.count():
            value = b.delta(value)
            yield time, first + k * step, value, b.at
            if b.at >= end:
                break
    return FINISHED


def uv_rows(b, scans):
    for _ in range(scans):
        b.number(4)
        time, first, final = b.number(4), b.number(2), b.number(2)
        if first > final:
            return 12
        step = b.number(2)
        if step == 0:
            return 13
        b.number(8)
        value = 0
        for wavelength in range(first, final + 1, step):
            value = b.delta(value)
            yield time, wavelength, value, b.at
    return FINISHED


def walked(kind, records, scans):
    """All rows and the closing answer, of the bytes behind the header."""
    rows, walk = [], {DAD: dad_rows, UV: uv_rows}[kind](Bytes(records, 'little'), scans)
    while True:
        try:
            rows.append(next(walk))
        except StopIteration as end:
            return rows, end.value
        except EOFError:
            return rows, INCOMPLETE


# Worked by hand: name, kind, scans due, stream, unscaled values, stored times, wavelengths in nm, bytes consumed, scans and bytes or
# points due after, the closing answer told last, and told not last.

TWO = DAD_SCAN + '0A00 F6FF'                       # length 26: 10, then 10 - 10
ODD = TWO.replace('1A00', '1900')                  # length 25: behind the first point one byte is due
EMPTY = DAD_SCAN.replace('1A00', '1600')           # length 22
PAST = DAD_SCAN.replace('1A00', '1800') + '0080 07000000'  # length 24: two bytes due, an absolute of six
LATER = DAD_SCAN.replace('1A00 00000000', '1800 60EA0000') + '0500'  # length 24, 60,000 ms
ONE = '43000000 60EA0000 A00F A00F 0100' + '00' * 8  # one wavelength

WORKED = [
    ('DAD, one due', DAD, 1, TWO, [10, 0], [0, 0], [200, 201], 26, 0, 0, 0, 0),
    ('DAD, one due, another type behind', DAD, 1, TWO + '4400', [10, 0], [0, 0], [200, 201], 26, 0, 0, 0, 0),
    ('DAD, one due, a scan behind', DAD, 1, TWO + TWO, [10, 0], [0, 0], [200, 201], 26, 0, 0, 0, 0),
    ('DAD, one due, cut behind its first point', DAD, 1, TWO[:-5], [10], [0], [200], 24, 1, 2, 14, 101),
    ('DAD, two due', DAD, 2, TWO, [10, 0], [0, 0], [200, 201], 26, 1, 0, 14, 101),
    ('DAD, two due, half a type behind', DAD, 2, TWO + '44', [10, 0], [0, 0], [200, 201], 26, 1, 0, 14, 101),
    ('DAD, two due, another type behind', DAD, 2, TWO + '4400', [10, 0], [0, 0], [200, 201], 26, 1, 0, 0, 0),
    ('DAD, two due, a scan without points behind', DAD, 2, TWO + EMPTY, [10, 0], [0, 0], [200, 201], 26, 1, 0, 0, 0),
    ('DAD, two due, less a byte of that', DAD, 2, TWO + EMPTY[:-2], [10, 0], [0, 0], [200, 201], 26, 1, 0, 14, 101),
    ('DAD, two due and there', DAD, 2, TWO + LATER, [10, 0, 5], [0, 0, 60000], [200, 201, 200], 50, 0, 0, 0, 0),
    ('DAD, three due, the second cut', DAD, 3, TWO + LATER + '43', [10, 0, 5], [0, 0, 60000], [200, 201, 200], 50, 1, 0, 14, 101),
    ('DAD, one byte due takes a whole delta', DAD, 1, ODD, [10, 0], [0, 0], [200, 201], 26, 0, 0, 0, 0),
    ('DAD, one byte due, one there', DAD, 1, ODD[:-2], [10], [0], [200], 24, 1, 1, 14, 101),
    ('DAD, an absolute past the length', DAD, 1, PAST, [7], [0], [200], 28, 0, 0, 0, 0),
    ('DAD, an absolute past the length, then a scan', DAD, 2, PAST + LATER, [7, 5], [0, 60000], [200, 200], 52, 0, 0, 0, 0),
    ('DAD, none due', DAD, 0, TWO, [], [], [], 0, 0, 0, 0, 0),
    ('UV, one wavelength, two due of three', UV, 2, ONE + '0500' + ONE + '0600' + ONE + '0700', [5, 6], [60000, 60000], [200, 200],
     48, 0, 0, 0, 0),
    ('UV, one wavelength, two due of one', UV, 2, ONE + '0500', [5], [60000], [200], 24, 1, 0, 14, 101),
    ('UV, one wavelength, one due', UV, 1, ONE + '0500', [5], [60000], [200], 24, 0, 0, 0, 0),
    ('UV, three points, one due', UV, 1, UV_SCAN + '0100 0100 0100', [1, 2, 3], [0] * 3, [200, 201, 202], 28, 0, 0, 0, 0),
    ('UV, three points cut', UV, 1, UV_SCAN + '0100 0100 01', [1, 2], [0] * 2, [200, 201], 26, 1, 1, 14, 101),
    ('UV, one, three and one, two due', UV, 2, ONE + '0500' + UV_SCAN + '0100 0100 0100' + ONE + '0900', [5, 1, 2, 3],
     [60000, 0, 0, 0], [200, 200, 201, 202], 52, 0, 0, 0, 0),
    ('UV, none due', UV, 0, ONE + '0500', [], [], [], 0, 0, 0, 0, 0),
    ('UV, start above end behind the last', UV, 1, ONE + '0500' + ONE.replace('A00F A00F', 'A00F 9F0F'), [5], [60000], [200],
     24, 0, 0, 0, 0),
    ('UV, start above end', UV, 2, ONE + '0500' + ONE.replace('A00F A00F', 'A00F 9F0F'), [5], [60000], [200], 24, 1, 0, 12, 12),
    ('UV, step 0', UV, 2, ONE + '0500' + ONE.replace('0100', '0000'), [5], [60000], [200], 24, 1, 0, 13, 13),
]

WORKED_LOGS = [
    (headed(DAD, TWO, scans=1), 'h 2 512\nr 0000000000000000 4069000000000000 4024000000000000 3F747AE147AE147B\n'
     'r 0000000000000000 4069200000000000 0000000000000000 0000000000000000\nt 10\ne 0 2\n'),
    (headed(UV, (ONE + '0500') * 3, scans=2), 'h 2 512\n' + 'r 3FF0000000000000 4069000000000000 4014000000000000 4014000000000000\n' * 2
     + 't 10\ne 0 2\n'),
    (headed(DAD, scans=1), 'h 2 512\nt 0\ne 14 0\n'), (headed(DAD), 'h 2 512\nt 0\ne 0 0\n'),
    (headed(UV), 'h 2 512\nt 0\ne 0 0\n'),
    (b'4', 'e 14 0\n'), (b'5', 'e 14 0\n'), (headed(DAD, word=0), 'e 2 0\n'), (headed(UV, edition=3), 'e 5 0\n'),
    (b'1', 'e 18 0\n'), (b'2', 'e 18 0\n'), (b'3', 'e 18 0\n'), (b'6', 'e 18 0\n'), (headed(FID, '00050002'), 'e 18 0\n'),
    (headed(MS, word=0), 'e 18 0\n'), (headed(MWD, edition=3), 'e 18 0\n'), (headed(ARRAY, edition=3), 'e 18 0\n'),
    (b'', 'e 1 0\n'), (b'0', 'e 1 0\n'), (b'7', 'e 1 0\n'), (b'9' + bytes(600), 'e 1 0\n'), (b'D', 'e 1 0\n'),
]

# What may stand behind the last scan that is due.
TAILS = {DAD: ['', '43', '44', '4300', '4400', '43001600', EMPTY, EMPTY[:-2], TWO, '43001500' + '00' * 18, '43000000' + '00' * 30],
         UV: ['', '43', ONE[:-2], ONE, ONE + '0500', ONE.replace('A00F A00F', 'A00F 9F0F'), ONE.replace('0100', '0000')]}


def made(seed):
    """Runs of a few scans of a few points, with each count of scans due, and each tail."""
    rng = random.Random('%s/made' % seed)
    for kind, tails in TAILS.items():
        for points in [(1,), (2,), (1, 1), (3, 1), (1, 3), (1, 1, 1), (2, 1, 2)]:
            for due, tail in itertools.product(range(len(points) + 2), tails):
                stream = a_stream(rng, kind, [(a_time(rng), n) for n in points]).hex() + tail
                yield '%s of %s, %d due, then %s' % (kind, points, due, tail[:12] or 'nothing'), headed(kind, stream, scans=due)


# Generated files

def a_dad_scan(rng, points):
    """Of a length that is right, or hardly so, or not at all."""
    scan = bytearray(dad_scan(rng, a_time(rng), points))
    length = chosen = len(scan)
    if rng.random() < 0.2:
        chosen += rng.choice([-1, 1, -2, 2, 3])
    elif rng.random() < 0.15:
        # An absolute at the end, of which one to five bytes are past the length; or a delta, by one.
        scan += struct.pack('<hi', -32768, rng.randrange(-2**31, 2**31)) if rng.random() < 0.8 else b'\1\0'
        chosen = rng.randrange(length + 1, len(scan))
    elif rng.random() < 0.06:
        chosen = rng.choice([0, 21, 22, 23, 24, 65535])
    struct.pack_into('<H', scan, 2, chosen)
    if rng.random() < 0.02:
        struct.pack_into('<H', scan, 0, rng.choice([0, 66, 68, 0x4300, 67 + 256]))
    return bytes(scan)


def a_uv_scan(rng, points):
    return uv_scan(rng, a_time(rng), points)


# Where fields of a scan's head end, and the first deltas behind it.
ENDS = [0, 2, 4, 8, 10, 12, 14, 22, 24, 28]

# Heads that end a run or are refused, and where to cut them: around the fields that tell.
HEADS = {DAD: [head for _, head in BAD[DAD]] + [struct.pack('<HHIHHH', 67 + 256, 26, 99999, 1, 2, 1)], UV: [head for _, head in BAD[UV]]}
TELLING = {DAD: [1, 2, 3, 4, 5, 21, 22, 23, 40], UV: [11, 12, 13, 14, 15, 21, 22, 40]}


def some_scans(rng, kind):
    """Bytes of scans, how many there are, and where each begins and the last ends."""
    stream, begins, most = b'', [0], rng.choice([1, 2, 3, 12])
    for _ in range(rng.choice([0, 1, 1, 2, 3, rng.randrange(1, 12)])):
        stream += (a_dad_scan if kind == DAD else a_uv_scan)(rng, rng.randrange(1, most + 1))
        begins.append(len(stream))
    return stream, len(begins) - 1, begins


def a_head(rng, kind):
    return (rng.choice(HEADS[kind]) + bytes(30))[:rng.choice(TELLING[kind])]


def a_tail(rng, kind):
    return rng.choice([b'', b'', b'', bytes.fromhex(rng.choice(TAILS[kind])), rng.choice(HEADS[kind]) + rng.randbytes(9), rng.randbytes(3)])


def a_cut(rng, stream, begins):
    """Anywhere, or at and around a field's end, most often behind the last scan."""
    at = rng.choice([begins[-1], begins[-1], rng.choice(begins)]) + rng.choice(ENDS) + rng.choice([-1, 0, 0, 1])
    return min(max(rng.choice([at, at, rng.randrange(len(stream) + 1)]), 0), len(stream))


# Place, form and number in the header: what Open refuses by 2 to 8, hardly refuses, or accepts after all.
FAULTS = [(264, '>I', 0), (264, '>I', 1), (264, '>I', 3), (264, '>I', 41), (264, '>I', 2**32 - 1), (248, '>I', 3), (248, '>I', 2**31),
          (248, '>I', 30), (248, '>I', 131), (248, '>I', 179), (24, '>B', 59), (24, '>B', 60), (148, '>B', 28), (228, '>B', 255),
          (24, '>H', 0x01FF), (178, '>I', 0x03E28241), (208, '>H', 0x0180)]


def a_bad_header(rng):
    file = bytearray(headed(rng.choice([DAD, UV]), TWO, scans=1))
    for at, form, number in rng.sample(FAULTS, rng.choice([1, 1, 2])):
        struct.pack_into(form, file, 1 + at, number)
    return bytes(file)


def a_file(rng):
    """A case of DAD or UV: whole, cut, or damaged."""
    kind = rng.choice([DAD, UV])
    run = generate.Run(rng, kind, rng.choice([2, 31, 102, None]))
    generate.fill_header(rng, run, wild_numbers=rng.random() < 0.2)
    stream, made, begins = some_scans(rng, kind)
    chance = rng.random()
    run.scans = rng.choice([made + 1, LAST] if chance < 0.15 else
                           [made] * 5 + [made + 1, made + 1, max(made - 1, 0), max(made - 1, 0), 0, 1, 2, LAST])
    run.stream += stream + (a_head if chance < 0.15 else a_tail)(rng, kind)
    run.seal()
    if 0.15 < chance < 0.4:
        return run.case(len(run.header) + a_cut(rng, run.stream, begins))
    if 0.4 < chance < 0.55 and run.stream:
        return flipped(rng, run)
    if 0.55 < chance < 0.6:
        return a_bad_header(rng) if chance < 0.58 else run.case(rng.randrange(len(run.header) + 1))
    return run.case()


def any_file(rng):
    """A run as it is made for other judges: of any kind, of one of ours, or one as if it were ours."""
    chance = rng.random()
    if chance < 0.4:
        return generate.a_run(rng, rng.choice([DAD, UV]), wild=rng.random() < 0.5).case()
    case = sum_cases.case('atlas', rng.getrandbits(40))[1]
    return case if chance < 0.7 or not case else rng.choice([b'4', b'5']) + case[1:]


def of_other_kind(rng):
    """A file under any digit, or hardly a file."""
    case = bytearray(any_file(rng) if rng.random() < 0.5 else a_file(rng))
    case[:1] = bytes([rng.choice([*b'0123456789', rng.randrange(256)])])
    return bytes(case[:rng.choice([0, 1, 2, 268, 269, 512, 513, len(case), len(case)])])


def small(seed):
    """Runs to try all prefixes of."""
    rng = random.Random('%s/small' % seed)
    for kind, streams in ((DAD, [TWO + LATER, ODD + PAST + TWO, PAST + LATER + EMPTY, LATER + TWO + '4400']),
                          (UV, [ONE + '0500' + UV_SCAN + '0100 0080 07000000 0100', UV_SCAN + '0100 0100 0100' + ONE + '0500' + ONE])):
        for stream, due in itertools.product(streams, (1, 2, 3)):
            yield '%s, %d due' % (stream[:40], due), headed(kind, stream + rng.choice(TAILS[kind]), scans=due)


def several_buffers(rng, kind):
    """A run longer than the log program's buffer, that ends with its scans."""
    scans = [(a_time(rng), rng.choice([1, 2, 40])) for _ in range(2500)]
    return headed(kind, a_stream(rng, kind, scans).hex() + rng.choice(TAILS[kind]), scans=len(scans))


# States that a caller makes: numbers, counts, stored time, reading, bytes.

READINGS = [0, 1, 2, 3, 128, 129, 254, 255]


def a_count(rng):
    return rng.choice([0, 0, 0, 1, 1, 2, 2, 3, 4, 5, 6, 7, rng.randrange(40), 2**31, 2**32, 2**63, 2**64 - 1])


def a_state(rng):
    kind = rng.choice([DAD] * 6 + [UV] * 6 + [*range(10), rng.choice(NO_KINDS)])
    reading = rng.choice([1] * 8 + [0, 0, 0, *READINGS, rng.randrange(256)])
    numbers = [a_double(rng) for _ in range(6)]
    if rng.random() < 0.5:
        numbers = [float(rng.randrange(-99, 99)) for _ in range(6)]
    counts = [kind, a_count(rng), a_count(rng), a_count(rng)]
    if kind in (DAD, UV) and rng.random() < 0.75:
        # Deltas of a begun scan, as many as are due or not, then whole scans.
        points = rng.choice([0, 0, 1, 2, 5])
        begun, (stream, made, begins) = deltas(rng, points), some_scans(rng, kind)
        due, chance = points if kind == UV else len(begun), rng.random()
        counts[2] = rng.choice([due, counts[2]])
        if chance < 0.2:
            counts[1:3] = rng.choice([made + 2, 2**64 - 1]), due
            stream += a_head(rng, kind)
        else:
            stream += a_tail(rng, kind)
        data = begun + (stream[:a_cut(rng, stream, begins)] if chance > 0.7 else stream)
    else:
        data = some_records(rng, kind) if kind in generate.KINDS else rng.randbytes(rng.randrange(60))
    return numbers, counts, a_time(rng), reading, data
