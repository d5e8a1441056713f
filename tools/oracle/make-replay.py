#!/usr/bin/env python3
"""Makes the stored cases of the crate `replay`: its stdin, and the answers of the original as its stdout.

Cases outside the original's domain are dropped, but for a last part that is worked from document 01 by the model.

usage: make-replay.py [ORACLE]        the built oracle; target/oracle/oracle if not given
"""

import collections
import random
import struct
import sys
from pathlib import Path

sys.dont_write_bytecode = True
import generate
import misreadings
import model
from compare import frames, in_batch
from generate import ARRAY, DAD, EDITIONS, FID, KINDS, LETTERS, MS, MWD, NOT_UTF8, NOT_WHITE, OLD, SMALLEST, UV, WHITE
from selftest import SPECIMENS, headed

ROOT = Path(__file__).resolve().parents[2]
CRATE = ROOT / 'crates/replay'
SEED = 'replay'
OUTSIDE = ('1', '5', '6', '7', '9', '10')  # refusals of which the original says nothing, or something else
MOST = 1000  # bytes of a stream that is taken from the generator

# Start of a text and its width, by its number; the method has no width that a length byte could reach.
OLD_FIELDS = {1: (24, 60), 2: (86, 60), 3: (148, 28), 4: (208, 20), 5: (228, 256), 6: (596, 40), 7: (244, 64), 8: (178, 60)}
NEW_FIELDS = {1: 858, 3: 1880, 4: 2492, 5: 2574, 6: 4213, 7: 4172, 8: 2391}


# Headers

def header(kind, edition, puts=(), size=None, word=None):
    """A header alone, as small as it may be, with bytes put at places, and over them its edition and size word."""
    unit = 2 if kind == MS else 512
    size = size or -(-max(SMALLEST.get(edition, 512), 4126 if kind == ARRAY else 0) // unit) * unit
    data = bytearray(size)
    for at, some in puts:
        data[at:at + len(some)] = some
    struct.pack_into('>I', data, 248, edition)
    struct.pack_into('>I', data, 264, size // unit + 1 if word is None else word)
    return b'%d' % kind + bytes(data)


def pascal(number, text, length=None):
    return OLD_FIELDS[number][0], bytes([len(text) if length is None else length]) + text


def utf16(number, units, start=None):
    return start or NEW_FIELDS[number], struct.pack('<B%dH' % len(units), len(units), *units)


def by_fives(texts):
    """MS headers of edition 81, each with five of the texts."""
    for first in range(0, len(texts), 5):
        yield header(MS, 81, [pascal(n, text) for n, text in zip((1, 2, 3, 4, 6), texts[first:first + 5])])


def old_texts():
    for number, (_, width) in OLD_FIELDS.items():
        # the method and the date lie over length bytes of others
        yield header(MS, 81, [pascal(number, (b'\x10' if number in (5, 8) else b'a') * (width - 1))])
        yield header(MS, 81, [pascal(number, b'', width - 1)])
        yield header(MS, 81, [pascal(number, b'\xff')])
    for points in (WHITE, NOT_WHITE, LETTERS):
        yield from by_fives([(chr(p) + 'x' + chr(p) + 'y' + chr(p)).encode() for p in points])
    for points in (WHITE, LETTERS):
        yield from by_fives([(chr(p) * 2).encode() for p in points])
    yield from by_fives(['é'.encode(), ' \u3000\u0085é\u2028\t '.encode(), b' ', b'', '\u200bx\u180e'.encode()])
    for bad in map(bytes.fromhex, NOT_UTF8):
        yield header(MS, 2, [pascal(1, b'a' + bad)])
        yield header(MS, 2, [pascal(3, bad + b'b')])
    # a text that is cut by its length byte
    for text in ('é', '€', '😀'):
        for cut in range(1, len(text.encode())):
            yield header(MS, 2, [pascal(4, text.encode(), cut)])
    # an early refusal wins over a later one
    yield header(MS, 81, [pascal(1, b'\xff'), pascal(3, b'', 28)])


def new_texts():
    high, low, pair = 0xD83D, 0xDE00, [0xD83D, 0xDE00]
    sets = [[high], [low], pair, [low, high], [high, high], [low, low], [high, *pair], [*pair, low], [*pair, high],
            [high, 0x41], [low, 0x41], [0x41, high], [0x41, low], [high, high, low, low], [*pair, *pair],
            [0xD800, 0xDC00], [0xDBFF, 0xDFFF], [0xD7FF, 0xE000], [0xDC00, 0xDBFF], [0xFFFF, 0xFEFF], [],
            [0x20, 0x41, 0x20], [0x85, 0x3000], [0, 0x7F, 0x80, 0x7FF, 0x800], [high, 0, low]]
    for first in range(0, len(sets), 7):
        for edition in (130, 179):
            yield header(MS, edition, [utf16(n, units) for n, units in zip((1, 3, 4, 5, 6, 7, 8), sets[first:first + 7])])
    for first in range(0, len(sets), 6):
        yield header(MS, 131, [utf16(n, units, 3093 if n == 7 else None)
                               for n, units in zip((1, 3, 4, 5, 7, 8), sets[first:first + 6])])
    for number in NEW_FIELDS:
        yield header(MS, 130, [utf16(number, [0x800 + i for i in range(255)])])
        yield header(MS, 179, [utf16(number, pair * 127 + [high])])
    yield header(MS, 131, [utf16(7, [0xFFFF] * 255, 3093)])


def numbers():
    """Times and corrections at their limits."""
    wholes = [-2**31, 2**31 - 1, -1, 1, 60000, 59999]
    for edition in (2, 30, 31, 81, 102, 130, 131):
        for first, second in zip(wholes[::2], wholes[1::2]) if edition in OLD else [wholes[:2]]:
            yield header(MS, edition, [(282, struct.pack('>ii', first, second))])
    for first, second in zip(generate.SINGLES[::2], generate.SINGLES[1::2]):
        yield header(MS, 179, [(282, struct.pack('>II', first, second))])
    for i, pattern in enumerate(generate.DOUBLES):
        yield header(MS, (30, 81)[i % 2], [(636, struct.pack('>QQ', pattern, generate.DOUBLES[-i]))])
    for edition, at in ((131, 3085), (130, 4732), (179, 4732)):
        for pattern in generate.DOUBLES[-3:]:
            yield header(MS, edition, [(at, struct.pack('>Q', pattern)), (252, struct.pack('>HHH', 1, 65535, 258))])


def sizes():
    for kind in (FID, MS, ARRAY):
        for word in (0, 1, 2, 3, 40, 41, 42, 256, 257, 10001, 10002, 2**31, 2**31 + 1, 2**24 + 2, 2**32 - 1):
            short = header(kind, 2, word=word)
            yield short[:269]
            yield short[:1 + 512]
    yield headed(FID, word=40, size=19968)
    yield headed(MS, word=10001, size=20000)


def header_cuts(kind):
    case = header(kind, 2)
    for cut in (0, 1, 247, 248, 251, 252, 263, 264, 265, 267, 268, 269, len(case) - 2, len(case) - 1):
        yield case[:1 + cut]


# Streams

MS_HEAD = '0000EA60' + '00' * 12
FOOT = '00' * 10


def ms_scan(count, *points):
    return '%04X' % count + MS_HEAD + ''.join('%04X %04X' % p for p in points) + FOOT


def dad_scan(length, deltas, kind=67, step=20):
    return struct.pack('<HHIHHH8s', kind, length, 60000, 4000, 4040, step, b'').hex() + deltas


def uv_scan(first, final, step, deltas=''):
    return struct.pack('<4sIHHH8s', b'C', 60000, first, final, step, b'').hex() + deltas


def array(stream, numerator=60, denominator=1, start=0, end=600000, mark=None, edition=2, single=False):
    """An array run; its marks stand where document 01 says, and its header is as small as may be."""
    form = '>ff' if single else '>ii'
    puts = [(282, struct.pack(form, start, end)), (4122, struct.pack('>HH', numerator, denominator))]
    return header(ARRAY, edition, puts + ([mark] if mark else [])) + bytes.fromhex(stream)


LIMIT = generate.single_bits(60000.0 * 2.0**53)


def quotient(bits):
    """An array run with steps of a minute, by the bits of its end."""
    return array('', 60, 1, 0, struct.unpack('>f', struct.pack('>I', bits))[0], edition=179, single=True)


GC, MUSTANG = (348, b'G\0C\0'), (3090, b'M\0u\0s\0t\0a\0n\0g\0')
ONES = struct.pack('<ff', 1.5, -2.5).hex()
DOUBLES = struct.pack('<dd', 1.5, -2.5).hex()

# For each kind a small run whose every prefix is tried.
SMALL = {
    FID: headed(FID, '0005 FFFE 7FFF 0000 0001 0003 0004 8000 7FFE', start=60000),
    MS: headed(MS, ms_scan(14) + ms_scan(18, (600, 0x4003), (601, 0xFFFF)) + ms_scan(17, (9, 1)), scans=3),
    MWD: headed(MWD, '1002 0005 8000 FFFFFFFE F001 0003 1000 1001 0001'),
    DAD: headed(DAD, dad_scan(30, '0A00 0080 FEFFFFFF') + dad_scan(24, '0100'), scans=3),
    UV: headed(UV, uv_scan(4000, 4040, 20, '0100 0080 FEFFFFFF 0100') + uv_scan(7, 7, 1, '0200'), scans=2),
}
# The same for scans that are refused or the last: a check comes as soon as its field is read.
CHECKED = [
    headed(MS, '000D' + MS_HEAD, scans=1),
    headed(DAD, dad_scan(22, ''), scans=2),
    headed(DAD, dad_scan(26, '0A00', 68), scans=2),
    headed(UV, uv_scan(1, 0, 0), scans=1),
    headed(UV, uv_scan(0, 0, 0), scans=1),
]
# The original panics where an array's record is cut.
SMALL_ARRAYS = [array(ONES, end=60000), array(DOUBLES, end=60000, mark=MUSTANG)]


# Each kind's branches.

def traces():
    for stream in ('', '00', '7FFF', '7FFFFFFFFFFF0000', '7FFF7FFFFFFFFFFF', '7FFF80000000FFFF0001', '8000', '80008000',
                   '7FFE', '7FFE7FFE7FFF000000000000FFFF', '0001' * 9):
        yield headed(FID, stream)
    for edition in OLD:
        yield headed(FID, '00050002', edition=edition, size=1024, start=60000)
        yield headed(FID, '00050002', edition=edition, size=1024, start=-1, end=5)
    for stream in ('', '10', '1000', '0000', 'F000', '0001', '00018000', '000180007FFFFFFF', '0001800080000000',
                   '0001FFFF000100020001FFFF', '0FFF0001', '00027FFF7FFF0001', '1002000180000000000110018000FFFFFFFF'):
        yield headed(MWD, stream)


def masses():
    for count in range(0, 20):
        yield headed(MS, ms_scan(count, (20, 3)), scans=1)
    for scans in (0, 1, 2, 3, 4, 2**32 - 1):
        yield headed(MS, ms_scan(14) + ms_scan(15) + ms_scan(16, (20, 3)), scans=scans)
        yield headed(MS, ms_scan(18, (20, 3), (21, 4)) + ms_scan(14), scans=scans)
    yield headed(MS, ms_scan(14) * 40, scans=40)
    yield headed(MS, ms_scan(14) * 40 + '000D', scans=41)
    for r in (0, 1, 0x3FFF, 0x4000, 0x4003, 0x7FFF, 0x8000, 0xBFFF, 0xC000, 0xFFFF):
        yield headed(MS, ms_scan(16, (r, r)), scans=1)


def spectra():
    for scans in (0, 1, 2, 3, 2**32 - 1):
        yield headed(DAD, dad_scan(26, '0A00 F6FF') * 2, scans=scans)
        yield headed(DAD, dad_scan(28, '0080 FFFFFFFF') + dad_scan(24, '0500'), scans=scans)
    for length in (0, 21, 22, 23, 24, 25, 26, 27, 28, 29, 65535):
        yield headed(DAD, dad_scan(length, '0A00 F6FF 0080 00000080'), scans=5)
    for kind in (0, 66, 68, 0x4300, 65535):
        yield headed(DAD, dad_scan(26, '0A00 F6FF', kind), scans=5)
        yield headed(DAD, dad_scan(26, '0A00 F6FF') + dad_scan(26, '', kind), scans=5)
    yield headed(DAD, dad_scan(28, '0080 00000080 0100', step=65535) * 2, scans=5)

    for scans in (0, 1, 2, 3, 2**32 - 1):
        yield headed(UV, uv_scan(4000, 4040, 20, '0100 0100 0100') + uv_scan(5, 5, 9, '0700') * 3, scans=scans)
    for first, final, step in ((1, 0, 1), (1, 0, 0), (0, 0, 0), (0, 1, 0), (0, 0, 1), (0, 65535, 65535), (0, 65535, 1),
                               (65535, 65535, 65535), (65535, 0, 1), (10, 29, 10), (10, 30, 10), (10, 31, 10)):
        yield headed(UV, uv_scan(first, final, step, '0080 FFFFFFFF 0100 FFFF 0080 00000080 0080'), scans=3)
    yield headed(UV, uv_scan(9, 9, 1, '0100') + uv_scan(9, 8, 1), scans=2)
    for edition, at in ((81, 644), (131, 3085)):
        case = header(UV, edition, [(278, b'\0\0\0\2'), (at, struct.pack('>d', 0.1))])
        yield case + bytes.fromhex(uv_scan(4000, 4040, 20, '0100 0300 0500'))


def arrays():
    yield array('00' * 48)
    for mark in (GC, MUSTANG, (348, b'G\0C'), (348, b'GC'), (3090, b'M\0u\0s\0t\0a\0n\0g\1')):
        yield array(DOUBLES, end=60000, mark=mark)
    for times in ((0, 0, 0, 60000), (60, 0, 0, 60000), (60, 1, 60000, 0), (60, 1, 0, 0), (1, 1, 0, 60000), (60, 1, 0, 59999),
                  (60, 1, 0, 119999), (60, 1, 0, 120000), (1, 65535, 0, 1), (0, 1, 60000, 0), (0, 7, 0, 0),
                  (60, 1, 2**31 - 1, -2**31)):
        yield array(ONES + ONES, *times)
    for start, end in ((0.0, float('-inf')), (float('nan'), 0.0), (float('inf'), float('inf')), (0.0, 60000.0)):
        yield array(ONES, start=start, end=end, edition=179, single=True)
    yield array(struct.pack('<16I', *generate.SINGLES).hex(), end=15 * 60000)
    yield array(struct.pack('<17Q', *generate.DOUBLES).hex(), end=16 * 60000, mark=GC)


def prefixes(case, size):
    """Those with a whole header."""
    return [case[:1 + cut] for cut in range(size, len(case))]


def generated(count):
    """Of the generator's runs those that show something new: a kind, a closing answer, how they were made."""
    seen, made = set(), []
    for i in range(count):
        family, case = generate.case(SEED, i)
        text = model.whole(case)
        key = family, case[:1], closing(text), text.count('\nr') > 0
        small = len(case) < (4608 if case[:1] == b'6' else 1024) + MOST
        if small and key not in seen and closing(text) not in OUTSIDE:
            seen.add(key)
            made.append(case)
    return made


def a_run(kind, edition):
    """A run of the generator with odd numbers and some record; of arrays a whole one, since the original panics at a cut."""
    for i in range(100):
        rng = random.Random('%s/%d/%d/%d' % (SEED, kind, edition, i))
        case = generate.a_run(rng, kind, edition, count=6, wild=True, size=len(header(kind, edition)) - 1).case()
        text = model.whole(case)
        if '\nr' in text and (kind != ARRAY or closing(text) == '0'):
            return case
    sys.exit('no run of kind %d and edition %d' % (kind, edition))


# The cases that the original answers

def asked():
    for kind in KINDS:
        for edition in EDITIONS:
            case = a_run(kind, edition)
            yield 'h', case
            yield 'w', case
    yield 'h', quotient(LIMIT - 1)
    for cases in (old_texts(), new_texts(), numbers(), sizes()):
        for case in cases:
            yield 'h', case
    for kind in (FID, MS, ARRAY):
        for case in header_cuts(kind):
            yield 'h', case
            yield 's', case
    yield 'w', headed(FID, '00050002')  # the printed run
    for case in [case for _, case, _ in SPECIMENS if 1 < len(case) < 20000]:
        yield 'w', case
        yield 's', case
    for cases in (traces(), masses(), spectra(), arrays()):
        for case in cases:
            yield 'w', case
            yield 's', case
    for case in SMALL.values():
        for prefix in prefixes(case, 512):
            yield 's', prefix
            yield 'w', prefix
    for case in CHECKED:
        for prefix in prefixes(case, 512):
            yield 's', prefix
    for case in generated(3000):
        yield 'w', case


# The cases that only document 01 answers

def fetch(case, number, room):
    """Fetch a text, as the program prints it."""
    kind, f = (case[0] - 48 if case else 0), model.Fields(case[1:])

    def text():
        if kind in KINDS and number not in range(1, 9):
            raise model.Refusal(16)
        found = model.Header(kind, f).texts[number - 1].encode()
        if len(found) > room:
            raise model.Refusal(15)
        return found

    found, closing = model.asked(text, True)
    return 'e %s 0\n' % closing if closing else 't %d %s\n' % (number, found.hex().upper())


def no_kind():
    yield from (b'', b'0', b'7', b'8', b'9', b'a', b'\0', b'\xff', b'7' + header(FID, 2)[1:], b'0' + header(FID, 2)[1:])


def refused_headers():
    """5, 6, 7, 9 and 10."""
    for edition in (0, 1, 3, 29, 32, 80, 82, 101, 103, 129, 132, 178, 180, 2 << 24, 2**32 - 1):
        yield header(FID, edition)
    for edition, least in SMALLEST.items():
        if least > 512:
            yield header(MS, edition, size=least - 2)
            yield header(MS, edition, size=512)
    for number, (_, width) in OLD_FIELDS.items():
        if number != 5:
            for length in (width, width + 1, 255):
                yield header(MS, 81, [pascal(number, b'', length)])
    # 7 comes before 8, and an early text before a later one
    yield header(MS, 81, [pascal(1, b'\xff', 60)])
    yield header(MS, 81, [pascal(1, b'', 60), pascal(2, b'\xff')])
    yield header(MS, 81, [pascal(7, b'', 64), pascal(8, b'\xff')])
    # the array's own refusals come behind those of the texts
    for edition, size in ((2, 512), (2, 4096), (81, 4096), (131, 4096)):
        yield header(ARRAY, edition, size=size)
    yield header(ARRAY, 2, [pascal(1, b'', 60)], size=512)
    for start, end in ((0, 1), (-1, 0), (-2**31, 2**31 - 1)):
        yield array('', 0, 1, start, end)
    for bits in (LIMIT, LIMIT + 1, 0x7F7FFFFF, 0x7F800000):
        yield quotient(bits)


def fetches():
    """A file, the number of a text, the length of the lent memory."""
    old = header(MS, 81, [pascal(1, ' né '.encode()), pascal(6, b'signal')])
    new = header(MS, 131, [utf16(1, [0x20, 0xD83D, 0xDE00, 0xDE00])])
    for number, room in ((1, 3), (1, 2), (1, 4), (1, 0), (2, 0), (6, 6), (6, 5), (0, 9), (9, 9), (255, 0)):
        yield old, number, room
    for number, room in ((1, 8), (1, 7), (2, 0), (3, 0)):
        yield new, number, room
    for case in (b'7', b'1', old[:512]):
        for number in (0, 1, 9):
            yield case, number, 9
    yield header(MS, 3), 1, 9
    yield header(MS, 2, [pascal(3, b'\xff')]), 1, 9
    yield header(ARRAY, 2, size=4096), 1, 9
    yield array('', 0, 1, 0, 1), 8, 9


def worked():
    """Mode, case and the text that is due."""
    def by(mode, case):
        return mode[0], case, model.MODES[mode](case)

    for case in no_kind():
        for mode in ('header', 'whole', 'single'):
            yield by(mode, case)
    for case in refused_headers():
        for mode in ('header', 'single'):
            yield by(mode, case)
    for case in SMALL_ARRAYS:
        for prefix in prefixes(case, 4608):
            yield by('single', prefix)
    for prefix in prefixes(SMALL_ARRAYS[0], 4608):
        yield by('whole', prefix)
    for case, number, room in fetches():
        yield 'f', bytes([number, room]) + case, fetch(case, number, room)


# The files

def closing(text):
    last = text.splitlines()[-1].split()
    return last[1] if last[0] == 'e' else 'ok'


def main():
    oracle = sys.argv[1] if len(sys.argv) > 1 else str(ROOT / 'target/oracle/oracle')
    cases = list(dict.fromkeys(asked()))
    answers = {}
    for mode in ('header', 'whole', 'single'):
        of_mode = [case for letter, case in cases if letter == mode[0]]
        answers.update(zip(((mode[0], case) for case in of_mode), in_batch([oracle, 'batch'], mode, of_mode)))
    stored, dropped = [], collections.Counter()
    for mode, case in cases:
        text = answers[mode, case]
        last = text.splitlines()[-1]
        if last.startswith('#'):
            dropped[last[2:]] += 1
        else:
            stored.append((mode, case, text))
    first = len(stored) + 1
    stored += worked()

    CRATE.mkdir(parents=True, exist_ok=True)
    (CRATE / 'stdin').write_bytes(b''.join(frames(mode, [case]) for mode, case, _ in stored))
    (CRATE / 'stdout').write_text(''.join('= %d\n%s' % (i, text) for i, (_, _, text) in enumerate(stored, 1)))
    report(stored, first, dropped)


def untold(stored):
    """The misreadings that no stored case tells from a right reading."""
    source = Path(model.__file__).read_text()
    names = {'h': 'header', 'w': 'whole', 's': 'single'}
    for what, old, new in misreadings.EDITS:
        modes = misreadings.misread(source, old, new)
        if all(misreadings.answered(modes[names[mode]], case) == text.splitlines()
               for mode, case, text in stored if mode in names):
            yield what


def report(stored, first, dropped):
    print('%d cases of the original, then %d worked from document 01, from number %d on'
          % (first - 1, len(stored) - first + 1, first))
    print('longest frame: %d bytes' % max(len(case) + 1 for _, case, _ in stored))
    print('dropped, being outside: ' + (', '.join('%d %s' % (n, why) for why, n in sorted(dropped.items())) or 'none'))
    print('misreadings that no case tells: ' + (', '.join(untold(stored)) or 'none'))
    counts = collections.Counter()
    for mode, case, text in stored:
        kind = case[2:3] if mode == 'f' else case[:1]
        counts[mode, kind.decode() if kind and kind in b'123456' else '-', closing(text)] += 1
    answers = sorted({a for _, _, a in counts}, key=lambda a: (len(a), a))
    print('mode kind ' + ''.join('%5s' % a for a in answers))
    for mode, kind in sorted({key[:2] for key in counts}):
        print('%4s %4s ' % (mode, kind) + ''.join('%5s' % (counts[mode, kind, a] or '.') for a in answers))


if __name__ == '__main__':
    if '--help' in sys.argv[1:]:
        sys.exit(print(__doc__.strip()))
    main()
