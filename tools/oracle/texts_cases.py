"""Headers to judge texts by.

A case is a kind, a file, and how many of its bytes are told. The others stand behind them in memory, so that who reads on finds
what is missing.
"""

import collections
import itertools
import random
import struct

from texts import ARRAY, DAD, FID, KINDS, MINIMA, MS, MWD, NEW, OLD, UNITS_131, UV, WHITE, lacks

Case = collections.namedtuple('Case', 'name kind file length light', defaults=[False])  # light: a few calls are enough

OLD_EDITIONS, NEW_EDITIONS = (2, 30, 31, 81, 102), (130, 131, 179)
NO_EDITIONS = (0, 1, 3, 29, 32, 80, 82, 101, 103, 129, 132, 178, 180, 255, 0x0200, 0x1E000000, 0x51 << 16, 2**32 - 1, 0x80000002)
NAMES = {FID: 'FID', MS: 'MS', MWD: 'MWD', DAD: 'DAD', UV: 'UV', ARRAY: 'array'}

# No White_Space, though near to one, or white to some: C's and Python's, zero width, a byte order mark, a zero.
NEAR = [0x0, 0x8, 0xE, 0x1C, 0x1D, 0x1E, 0x1F, 0x21, 0x84, 0x86, 0x9F, 0xA1, 0x167F, 0x1681, 0x180E, 0x1FFF, 0x200B, 0x200C, 0x200D,
        0x2027, 0x202A, 0x202E, 0x2030, 0x205E, 0x2060, 0x2FFF, 0x3001, 0x303F, 0xFEFF, 0x10085, 0x10020]
EDGES = [0x0, 0x7F, 0x80, 0xBF, 0xC0, 0xFF, 0x7FF, 0x800, 0xFFF, 0x1000, 0xD7FF, 0xE000, 0xFFFD, 0xFFFE, 0xFFFF, 0x10000, 0x3FFFF,
         0x40000, 0xFFFFF, 0x100000, 0x10FFFF]


# Headers

def least(kind, edition):
    """The least size that Open lets pass."""
    minimum = max(MINIMA.get(edition, 512), 4126 if kind == ARRAY else 0)
    return minimum if kind == MS else -(-minimum // 512) * 512


def word(kind, size):
    return size // (2 if kind == MS else 512) + 1


def seal(header, edition, size_word):
    """The two numbers stand inside of texts 5 and 7 of old editions, and come last."""
    header[248:252], header[264:268] = edition.to_bytes(4, 'big'), size_word.to_bytes(4, 'big')


def blank(kind, edition, size=None):
    size = least(kind, edition) if size is None else size
    header = bytearray(size)
    seal(header, edition, word(kind, size))
    return header


def plain(rng, kind, edition, size=None, over=0):
    """Short texts of ASCII wherever one may stand in an old edition; some are white."""
    header = blank(kind, edition, size)
    size_word = word(kind, len(header))
    header[:] = bytes(rng.choices(range(1, 20), k=len(header)))
    seal(header, edition, size_word)
    return header + bytes(rng.choices(range(32, 127), k=over))


def place(edition, number):
    if edition <= 102:
        return OLD[number][0]
    return UNITS_131 if edition == 131 and number == 7 else NEW[number]


def numbers(edition):
    return [number for number in range(1, 9) if not lacks(edition, number)]


def put(header, at, text, count=None):
    """Keeps the two numbers. A count below the text's length leaves the rest of it behind the text."""
    kept = header[248:252], header[264:268]
    header[at + 1:at + 1 + len(text)] = text
    header[248:252], header[264:268] = kept
    header[at] = len(text) if count is None else count


def put_units(header, at, units, behind=()):
    header[at] = len(units)
    struct.pack_into('<%dH' % (len(units) + len(behind)), header, at + 1, *units, *behind)


def whole(name, kind, header, light=False):
    return Case(name, kind, bytes(header), len(header), light)


# Made cases

def each_kind(rng):
    """All kinds and editions, known or not, with short texts; and each text by itself."""
    for kind in (*KINDS, 0, 7, 8, 128, 255):
        for edition in (*MINIMA, *NO_EDITIONS):
            header = plain(rng, kind if kind in KINDS else rng.choice(KINDS), edition, over=rng.choice([0, 1, 300]))
            yield whole('kind %d, edition %d' % (kind, edition), kind, header)
    for edition in MINIMA:
        for number in OLD:
            # In its places in all editions; which is read, the edition says.
            header = blank(MS, edition, 4800)
            for at in {OLD[number][0], NEW.get(number, 858), UNITS_131}:
                put(header, at, b'A\0b\0C\0d\0'[:3 if at == 244 else 8])
            yield whole('text %d alone, edition %d' % (number, edition), MS, header)


def sizes(rng):
    for kind in KINDS:
        unit = 2 if kind == MS else 512
        near = [n // unit + 1 + d for n in (512, 652, 4000, 4126, 4800, 20000) for d in (-1, 0, 1, 2)]
        # From 2^23 on the size of all but MS leaves 32 bits, of MS from 2^31 on; some come back to a good size.
        far = [0, 1, 2, 3, 2**15, 2**16 + 2, 2**23 + 1, 2**23 + 2, 2**23 + 20, 2**24 + 2, 2**31, 2**31 + 1, 2**31 + 257, 2**32 - 1]
        for edition in (*MINIMA, 1, 103):
            for size_word in dict.fromkeys(near + far):
                size = (size_word - 1) * unit
                length = size if 512 <= size <= 20480 and rng.random() < 0.7 else 20600
                header = plain(rng, MS, edition, max(length, 512))
                seal(header, edition, size_word)
                yield whole('%s, edition %d, word %d' % (NAMES[kind], edition, size_word), kind, header, light=True)


def cuts(rng):
    """The whole file stands in memory."""
    for kind in KINDS:
        for edition in MINIMA:
            file = bytes(plain(rng, kind, edition, over=9))
            size = len(file) - 9
            for length in {0, 1, 247, 251, 252, 263, 264, 267, 268, 269, 511, 512, 651, 652, size - 1, size, size + 1, size + 9}:
                if length <= len(file):
                    yield Case('%s, edition %d, %d of %d bytes' % (NAMES[kind], edition, length, size), kind, file, length, True)
    for kind, edition in ((FID, 2), (MS, 81)):
        file = bytes(plain(rng, kind, edition, over=3))
        for length in range(len(file) + 1):
            yield Case('prefix %d, edition %d' % (length, edition), kind, file, length, True)
    # Two things are wrong, and the bytes end between them.
    words, told = (0, 1, 2, 40, 41, 2**32 - 1), (100, 267, 268, 511, 512, 19967, 19968)
    for edition, size_word, length in itertools.product((2, 5), words, told):
        file = plain(rng, FID, edition, 20480)
        seal(file, edition, size_word)
        file[24] = rng.choice([60, 1])
        yield Case('edition %d, word %d, %d bytes' % (edition, size_word, length), FID, bytes(file), length, True)


def forms(c, other):
    """Texts of one character, for seven fields; the first has room for three bytes only."""
    return [c, c + 'a' + c, 'b' + c, c + 'd', c + c + 'ef' + c, 'g' + c + 'h', other + c + 'i' + c + other]


def whites(rng):
    """Each at both ends, at one, inside, alone; in old texts, where it is trimmed, and in new ones, where it is not."""
    points = sorted(WHITE) + NEAR
    for i, point in enumerate(points):
        other = chr(points[(i * 7 + 3) % len(points)])
        for turn in range(7):
            header, new = blank(MS, 81), blank(MS, NEW_EDITIONS[(i + turn) % 3])
            told = forms(chr(point), other)
            fields = [1, 2, 3, 4, 6, 8, 5]
            for field, text in zip(fields[turn:] + fields[:turn], told):
                put(header, OLD[field][0], text.encode()[:19])
            if len(told[0].encode()) <= 3:
                put(header, OLD[7][0], told[0].encode())
            yield whole('U+%04X, turn %d' % (point, turn), MS, header)
            edition = int.from_bytes(new[248:252], 'big')
            for field, text in zip(numbers(edition), told[turn:] + told[:turn]):
                units = text.encode('utf-16-le')
                put(new, place(edition, field), units, len(units) // 2)
            yield whole('U+%04X, turn %d, edition %d' % (point, turn, edition), MS, new)
    for field in (1, 2, 3, 4, 6, 8):
        for n in (1, 2, 3, 5, 6):
            header = blank(MS, 81)
            put(header, OLD[field][0], ''.join(map(chr, rng.choices(sorted(WHITE), k=n))).encode())
            yield whole('text %d is white' % field, MS, header)


def edges(rng):
    """Code points at the edges of the lengths in UTF-8, in all texts."""
    for point in EDGES:
        for edition in (81, 130, 131, 179):
            header = blank(MS, edition)
            for field in numbers(edition):
                text = rng.choice(['%s', 'a%s', '%sb', '%s%s']).replace('%s', chr(point))
                if edition == 81:
                    text = text[:1] if field == 7 else text
                    if field != 7 or len(text.encode()) < 4:
                        put(header, OLD[field][0], text.encode())
                else:
                    units = text.encode('utf-16-le')
                    put(header, place(edition, field), units, len(units) // 2)
            yield whole('edge U+%04X, edition %d' % (point, edition), MS, header)


def ill_formed(rng):
    """Cut sequences with the missing bytes behind them, in each text; and a table of sequences in one."""
    for field in OLD:
        for sequence in map(str.encode, '\u00A0\u3000\u2028\u07FF\uFFFF\U00010000\U0010FFFF'):
            for count in range(1, len(sequence)):
                for front in (b'', b'ab', b' '):
                    if field != 7 or len(front) + count <= 3:
                        header = blank(MS, 81)
                        put(header, OLD[field][0], front + sequence, len(front) + count)
                        yield whole('text %d, %s cut to %d' % (field, sequence.hex(), count), MS, header, True)
        for byte in (0x80, 0xBF, 0xC0, 0xC1, 0xED, 0xF5, 0xFF):
            header = blank(MS, 81)
            put(header, OLD[field][0], bytes([byte]))
            yield whole('text %d is %02X' % (field, byte), MS, header, True)
    firsts = (0x00, 0x7F, 0x80, 0xBF, 0xC0, 0xC1, 0xC2, 0xDF, 0xE0, 0xE1, 0xEC, 0xED, 0xEE, 0xEF,
              0xF0, 0xF1, 0xF3, 0xF4, 0xF5, 0xF7, 0xF8, 0xFB, 0xFC, 0xFE, 0xFF)
    seconds, others = (0x00, 0x20, 0x7F, 0x80, 0x85, 0x8F, 0x90, 0x9F, 0xA0, 0xBF, 0xC0, 0xE0, 0xFF), (0x20, 0x7F, 0x80, 0xBF, 0xC0)
    singles = [bytes([byte]) for byte in range(256)]
    for table in (singles, *(itertools.product(*(firsts, seconds, others, others)[:n]) for n in (2, 3, 4))):
        for sequence in map(bytes, table):
            header = blank(FID, rng.choice([2, 31, 102]))
            put(header, OLD[rng.choice([1, 2, 3, 4, 8])][0], sequence)
            yield whole('sequence ' + sequence.hex(), FID, header, True)


def surrogates(rng):
    """Pairs and what is none, at every place, also with the missing half behind the text."""
    high, low, other = (0xD800, 0xDBFF, 0xD83D), (0xDC00, 0xDFFF, 0xDE00), (0x41, 0xD7FF, 0xE000, 0xFFFF, 0x20AC)
    sequences = [(units, ()) for n in (1, 2, 3, 4) for units in itertools.product('HLo', repeat=n)]
    sequences += [(units + 'H', 'L') for units in ('', 'o', 'H', 'L', 'HL', 'oo', 'ooH')]
    sequences += [(units, 'LHo') for units in ('', 'o', 'HL')]
    pools = {'H': high, 'L': low, 'o': other}
    for edition in NEW_EDITIONS:
        fields = numbers(edition)
        for first in range(0, len(sequences), 3):
            header = blank(MS, edition)
            for i, field in enumerate(fields):
                units, behind = sequences[(first + i) % len(sequences)]
                put_units(header, place(edition, field), *([rng.choice(pools[u]) for u in part] for part in (units, behind)))
            yield whole('surrogates %d, edition %d' % (first, edition), MS, header)
    for a, b in itertools.product((0xD7FF, 0xD800, 0xD801, 0xDBFF, 0xDC00, 0xDC01, 0xDFFF, 0xE000), repeat=2):
        header = blank(MS, 131)
        put_units(header, NEW[1], [a, b])
        put_units(header, NEW[8], [0x61, a], [b])
        yield whole('units %04X %04X' % (a, b), MS, header, True)


def lengths(rng):
    """Length bytes up to the width and above, in old editions; all of them in new ones."""
    for edition in OLD_EDITIONS:
        for field, (at, width) in OLD.items():
            for count in {0, 1, 19, 20, 27, 28, 39, 40, 59, 60, 63, 64, 127, 128, 254, 255, (width or 256) - 1}:
                header = plain(rng, MS, edition, 652)
                header[at] = count
                yield whole('edition %d, text %d, length %d' % (edition, field, count), MS, header, True)
    for edition in NEW_EDITIONS:
        for field in numbers(edition):
            for count in (0, 1, 19, 20, 127, 128, 254, 255):
                header = plain(rng, MS, edition)
                header[place(edition, field)] = count
                yield whole('edition %d, text %d, length %d' % (edition, field, count), MS, header, True)
        header = blank(MS, edition)
        header[300:] = b'\xFF' * (len(header) - 300)
        yield whole('the longest texts, edition %d' % edition, MS, header)
    for kind in (FID, MS):
        header = plain(rng, kind, 81)
        for field, (at, width) in OLD.items():
            # As long as can be; text 5's length is a byte of text 8.
            header[at] = width - 1 if width else 127
        yield whole('long old texts', kind, header)


def orders(rng):
    """One text is too long and another is not UTF-8; a text is bad in a header that is too small, or in an array that is."""
    for i, j in itertools.permutations(OLD, 2):
        if i != 5:
            for kind in (MS, ARRAY):
                header = blank(kind, 81, 4096 if kind == ARRAY else None)
                put(header, OLD[j][0], b'\xFF')
                header[OLD[i][0]] = OLD[i][1]
                yield whole('text %d too long, %d not UTF-8' % (i, j), kind, header, True)
    for edition, i, damage in itertools.product((30, 81), (1, 2, 3, 4, 5, 8), (b'\xFF', None)):
        header = blank(FID, edition, 512)
        put(header, OLD[i][0], damage or b'', None if damage else 255)
        yield whole('edition %d below its minimum, text %d bad' % (edition, i), FID, header, True)
    for i, size, scans in itertools.product((None, *OLD), (4096, 4608), (True, False)):
        header = blank(ARRAY, 81, size)
        header[289] = 9  # the end
        if len(header) > 4126:
            header[4122:4126] = b'\0\0\0\1' if scans else b'\0\1\0\1'
        if i:
            put(header, OLD[i][0], b'\xC3', 1)
        yield whole('array of %d, text %s not UTF-8' % (size, i), ARRAY, header, True)


def arrays(rng):
    steps = [(0, 0), (0, 1), (1, 0), (1, 1), (60, 1), (1, 65535), (65535, 1), (0, 65535), (65535, 0), (256, 1), (1, 256)]
    integers = [0, 1, 2**32 - 1, 2**31, 2**31 - 1, 60000, 0x00010000]
    # 60,000 times 2^53 and the numbers beside it, in single precision; zeros, infinities, NaNs, the least and the largest.
    edge = int.from_bytes(struct.pack('>f', 60000.0 * 2**53), 'big')
    singles = [0, 0x80000000, 0x7F800000, 0xFF800000, 0x7FC00000, 0x7F800001, 1, 0x7F7FFFFF, 0xFF7FFFFF, edge - 1, edge, edge + 1,
               edge | 2**31, edge + 0x03000000, edge - 0x03000000]
    for edition, size in ((2, 4608), (30, 4608), (31, 4608), (81, 5120), (102, 19968), (130, 5120), (131, 4608), (179, 5120)):
        for step, start, end in itertools.product(steps, *[singles if edition == 179 else integers] * 2):
            header = blank(ARRAY, edition, size)
            struct.pack_into('>II', header, 282, start, end)
            struct.pack_into('>HH', header, 4122, *step)
            put(header, place(edition, 1), b'x\0y\0', 2)
            yield whole('array, edition %d, %08X to %08X, step %d/%d' % (edition, start, end, *step), ARRAY, header, True)
    for edition in MINIMA:
        for size in (512, 1024, 4096, 4608, 5120):
            yield whole('array of %d, edition %d' % (size, edition), ARRAY, plain(rng, ARRAY, edition, size), True)


def made(seed):
    for family in (each_kind, whites, edges, surrogates, lengths, orders, sizes, cuts, ill_formed, arrays):
        yield from family(random.Random('%s/%s' % (seed, family.__name__)))


# Generated cases

def a_point(rng):
    point = rng.choice([rng.randrange(32, 127), rng.randrange(32, 127), a_white(rng), rng.choice(NEAR), rng.choice(EDGES),
                        rng.randrange(0x800), rng.randrange(0x110000)])
    return 0xFFFD if 0xD800 <= point <= 0xDFFF else point


def a_white(rng):
    return rng.choice(sorted(WHITE))


def exactly(rng, length, point=a_point):
    """UTF-8 of that many bytes."""
    text = b''
    while len(text) < length:
        more = chr(point(rng)).encode()
        if len(text) + len(more) <= length:
            text += more
    return text


def ended(rng, length):
    """The same, now and then white at an end or altogether."""
    front, back = (rng.choice([0, 0, 1, 3, 7, length]) for _ in range(2))
    front = min(front, length)
    back = min(back, length - front)
    return exactly(rng, front, a_white) + exactly(rng, length - front - back) + exactly(rng, back, a_white)


def old_counts(rng):
    counts = {}
    for field, (_, width) in OLD.items():
        most = width - 1 if width else 255
        counts[field] = rng.choice([0, rng.randrange(most + 1), rng.randrange(most + 1), rng.randrange(8), most])
    # Text 5's length byte is then a byte of text 8.
    if counts[8] >= 50:
        counts[5] %= 128
    return counts


def a_size(rng, kind, edition):
    size = rng.choice([least(kind, edition)] * 4 + [rng.choice([20000, 20002, 19998, 4126, 4124, 4800, 652, 650, 4000, 512, 510])])
    if rng.random() < 0.2:
        size = rng.randrange(least(kind, edition), 20001)
    size -= size % (2 if kind == MS else 512)
    # Words of ASCII leave the texts that they stand in UTF-8.
    good = all(byte < 128 for byte in word(kind, size).to_bytes(4, 'big'))
    return size if good or rng.random() < 0.3 else least(kind, edition)


def old_header(rng, kind, edition, size):
    """Texts that overlap and all are UTF-8: no character reaches over the beginning or end of any."""
    counts = old_counts(rng)
    header = bytearray(rng.randbytes(max(size, 700)))
    borders = {0, 248, 252, 264, 268, 700}
    for field, (at, _) in OLD.items():
        borders |= {at, at + 1, at + 1 + counts[field]}
    borders = sorted(borders)
    for a, b in zip(borders, borders[1:]):
        header[a:b] = ended(rng, b - a)
    for field, count in counts.items():
        header[OLD[field][0]] = count
    seal(header, edition, word(kind, size))
    return header[:max(size, 268)]


def new_header(rng, kind, edition, size):
    header = bytearray(rng.randbytes(max(size, 4800)))
    surrogate = rng.choice([0, 0.1, 0.7])
    for field in numbers(edition):
        count = rng.choice([0, rng.randrange(8), rng.randrange(40), rng.randrange(256), 255])
        units = b''
        while len(units) < 2 * count + 4:
            unit = struct.pack('<H', rng.randrange(0xD800, 0xE000))
            units += unit if rng.random() < surrogate else chr(a_point(rng)).encode('utf-16-le')
        put(header, place(edition, field), units, count)
    seal(header, edition, word(kind, size))
    return header[:max(size, 268)]


def damaged(rng, kind, file):
    """What may be done to a file: the kind, the bytes, how many are told."""
    length, chance = len(file), rng.random()
    if chance < 0.12:
        length = rng.choice([rng.randrange(length + 1), rng.randrange(min(length, 300) + 1), length - 1])
    elif chance < 0.3:
        for _ in range(rng.choice([1, 1, 1, 3])):
            file[rng.randrange(min(length, rng.choice([310, 310, 660, length])))] = rng.choice([0, 0x80, 0xFF, rng.randrange(256)])
    elif chance < 0.36:
        seal(file, rng.choice(NO_EDITIONS + tuple(MINIMA)), int.from_bytes(file[264:268], 'big'))
    elif chance < 0.40:
        seal(file, int.from_bytes(file[248:252], 'big'), rng.choice([0, 1, 2, 40, 41, 256, 10001, 10002, rng.getrandbits(32)]))
    elif chance < 0.43:
        kind = rng.choice([*KINDS, 0, 7, 255])
    elif chance < 0.48:
        at, width = rng.choice([field for field in OLD.values() if field[0] < length])
        file[at] = rng.choice([width or 255, (width or 255) - 1, rng.randrange(256)])
    return kind, bytes(file), length


def generated(seed, i):
    rng = random.Random('%s/texts/%d' % (seed, i))
    kind, edition = rng.choice(KINDS), rng.choice(OLD_EDITIONS * 2 + NEW_EDITIONS * 2)
    size = a_size(rng, kind, edition)
    file = (old_header if edition <= 102 else new_header)(rng, kind, edition, size)
    if kind == ARRAY and len(file) >= 4126 and rng.random() < 0.6:
        # A step that is no zero, so that most open.
        file[4122:4126] = struct.pack('>HH', rng.randrange(1, 65536), rng.randrange(65536))
    if rng.random() < 0.03:
        file = bytearray(rng.randbytes(rng.randrange(268, 1300)))
        seal(file, edition, rng.randrange(5))
    file += rng.randbytes(rng.choice([0, 0, 1, 40]))
    return Case('%s-%d' % (seed, i), *damaged(rng, kind, file))
