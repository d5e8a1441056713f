"""Runs and columns to judge sums by.

Only FID runs carry a sum out of 64 bits in a length that can be tried: a restart is a value of up to 2^47, and slopes add up.
"""

import random
import struct

import generate
from foot import LEAST, MOST, SIZE
from generate import ARRAY, DAD, FID, KINDS, MS, MWD, UV, double_bits
from selftest import DAD_SCAN, MS_HEAD, SPECIMENS, UV_SCAN, headed

# What one restart can be.
LOWEST, HIGHEST = -2**31 * 65534, (2**31 - 1) * 65534 + 65535


class Trace:
    """A FID stream and the sum of its values, in whole numbers."""

    def __init__(self):
        self.stream = bytearray()
        self.value = self.slope = self.total = 0

    def restart(self, value):
        """A record of this value."""
        high = min(max(value // 65534, -2**31), 2**31 - 1)
        self.stream += struct.pack('>hiH', 32767, high, value - high * 65534)
        self.slope, self.value = 0, value
        self.total += value
        return self

    def delta(self, v):
        self.stream += struct.pack('>h', v)
        self.slope += v
        self.value += self.slope
        self.total += self.value
        return self

    def climb(self, total):
        """By full slopes to where one more record would pass this sum."""
        up = total > self.total
        self.restart(HIGHEST if up else LOWEST)
        v = 32766 if up else -32768
        while abs(total - self.total) > abs(self.value + self.slope + v):
            self.delta(v)
        return self

    def reach(self, total):
        """This sum exactly, without passing it."""
        if abs(total - self.total) > 2**52:
            self.climb(total)
        while not LOWEST <= total - self.total <= HIGHEST:
            self.restart(HIGHEST if total > self.total else LOWEST)
        return self.restart(total - self.total)

    def reach_by_delta(self, total):
        """The same, the last record a delta behind a restart."""
        self.reach(total - 2**40 - 3)
        v = 5 if total > self.total else -6
        # The restart's value x, then x + v.
        v += (total - self.total - v) % 2
        return self.restart((total - self.total - v) // 2).delta(v)

    def case(self, **header):
        return headed(FID, self.stream.hex(), **header)


def ends():
    """Sums at and around both ends of 64 bits; left for good, for a while, or just not."""
    for name, end, out in (('2^63 - 1', MOST, 1), ('-2^63', LEAST, -1)):
        yield name, Trace().reach(end)
        yield name + ' by a delta', Trace().reach_by_delta(end)
        yield name + ', then nothing more', Trace().reach(end).restart(0).restart(0)
        yield name + ' and back', Trace().reach(end).restart(-out).restart(-5 * out)
        yield name + ' and across zero', Trace().reach(end).reach(-7 * out)
        yield 'one inside ' + name, Trace().reach(end - out)
        yield 'one outside ' + name, Trace().reach(end).restart(out)
        yield 'one outside %s in one record' % name, Trace().reach(end + out)
        yield 'one outside %s by a delta' % name, Trace().reach_by_delta(end + out)
        yield 'one outside %s and back' % name, Trace().reach(end).restart(out).restart(-out).restart(-3 * out)
        yield 'far outside %s and back' % name, Trace().reach(end + out * 2**60).reach(17)
        yield 'outside %s, then a long tail' % name, tail(Trace().reach(end).restart(out).restart(-9 * out), 30000)
        # A sum that wraps would be small again.
        yield 'twice ' + name, Trace().reach(2 * end)
    yield 'from end to end', Trace().reach(MOST).reach(LEAST)
    yield 'by restarts alone', restarts(HIGHEST, MOST)
    # Slopes carry a value to 2^53 only where they have carried the sum out long before.
    yield 'a value above 2^53', slope(32766, SIZE)
    yield 'a value below -2^53', slope(-32768, SIZE)


def tail(trace, count):
    rng = random.Random('tail')
    for _ in range(count):
        trace.delta(rng.randrange(-9, 10))
    return trace


def restarts(value, total):
    trace = Trace()
    while trace.total + value <= total:
        trace.restart(value)
    return trace.reach(total)


def slope(v, size):
    trace = Trace().restart(LOWEST if v < 0 else HIGHEST)
    while abs(trace.value) < size:
        trace.delta(v)
    return trace


def small():
    """A run of each kind in which the sum is small, and the places at which no sum or none but 0 is due."""
    yield 'the printed run', headed(FID, '00050002')
    ms = '0012' + MS_HEAD + '0000 4003 0000 FFFF' + '00' * 10
    empty = '000E' + MS_HEAD + '00' * 10
    yield 'MS', headed(MS, ms, scans=1)
    yield 'a count of 13', headed(MS, ms + '000D' + MS_HEAD, scans=2)
    yield 'a count of 13 at once', headed(MS, '000D' + MS_HEAD, scans=2)
    yield 'empty scans without end', headed(MS, empty * 1200, scans=1201)
    yield 'empty scans without end behind points', headed(MS, ms + empty * 1200 + ms, scans=1202)
    yield 'MWD', headed(MWD, '1002 FFFB 8000 FFFFFFFE 1001 0003')
    yield 'a group of none', headed(MWD, '1001 0005 1000 1001 0007')
    yield 'DAD', headed(DAD, DAD_SCAN + '0A00 F6FF' + DAD_SCAN + '0080 00000080 0000', scans=3)
    yield 'DAD, the last scan', headed(DAD, DAD_SCAN + '0A00 F6FF' + DAD_SCAN + '0700 0900', scans=2)
    yield 'another type', headed(DAD, DAD_SCAN + '0A00 F6FF' + DAD_SCAN.replace('4300', '4400', 1), scans=3)
    yield 'UV', headed(UV, UV_SCAN + '0100 0080 FFFFFFFF 0300', scans=1)
    for name, before in (('', UV_SCAN + '0100 0100 0100'), (' at once', '')):
        yield 'UV, start above end' + name, headed(UV, before + UV_SCAN.replace('A00F', 'FFFF'), scans=2)
        yield 'UV, step 0' + name, headed(UV, before + UV_SCAN.replace('1400', '0000'), scans=2)
    # Largest values, both signs.
    yield 'MWD, -2^31', headed(MWD, '0FFF' + '8000 80000000' * 4095)
    yield 'MWD, 2^31 - 1', headed(MWD, '0FFF' + '8000 7FFFFFFF' * 4095)
    yield 'MS, 8,388,096', headed(MS, ('FFFE' + MS_HEAD + '0000 FFFF' * 32760 + '00' * 10) * 2, scans=2)
    for kind in KINDS:
        yield 'no record of kind %d' % kind, headed(kind, edition=131, size=4608)
        yield 'no record of kind %d, cut' % kind, headed(kind, '00', edition=131, size=4608, scans=1)
    for i, (_, case, _) in enumerate(SPECIMENS):
        yield 'specimen %d' % i, case


def arrays():
    """Kind 6 has no sum, whatever its numbers are."""
    for name, numbers in (('whole', [3.0, -8.0, 12.0]), ('not whole', [0.5, -0.25, 1e-9]), ('zeros', [0.0, -0.0, 0.0]),
                          ('large', [2.0**60, -2.0**53, 1e30]), ('none', [float('nan'), float('inf'), float('-inf')])):
        yield 'array, ' + name, headed(ARRAY, struct.pack('<3f', *numbers).hex(), edition=131, size=4608, end=120000, step=(60, 1))


def cut(name, trace, rng):
    """Such a run cut somewhere: in its last record, in its last ones, anywhere."""
    case = trace.case()
    back = rng.choice([1, rng.randrange(2, 60), rng.randrange(1, len(case) - 513)])
    return '%s, less %d bytes' % (name, back), case[:-back]


def made(seed):
    """All runs that are made for the sum, by name."""
    rng = random.Random('%s/made' % seed)
    yield from small()
    yield from arrays()
    for name, trace in ends():
        # A header of another size puts the buffer's end elsewhere in the records.
        yield name, trace.case(size=512 * rng.randrange(1, 40), start=rng.randrange(2) * 60000)
        if abs(trace.value) < 2**52:
            yield cut(name, trace, rng)
    for kind in KINDS:
        yield 'several buffers of kind %d' % kind, several_buffers(random.Random('%s/%d' % (seed, kind)), kind)


def several_buffers(rng, kind):
    count = {FID: 60000, MS: 30000, MWD: 60000, DAD: 50000, UV: 60000, ARRAY: 20000}[kind]
    run = generate.a_run(rng, kind, count=count)
    run.scans = 2**32 - 1
    return run.seal().case()


# Of these some in every hundred generated cases.

def other_kind(rng):
    """A run under another kind's digit."""
    case = bytearray(generate.a_run(rng, wild=rng.random() < 0.3).case())
    case[0] = rng.choice(b'123456')
    return bytes(case)


def flipped(rng):
    """Some bits of a run turned over, most of them behind the header."""
    run = generate.a_run(rng, count=rng.randrange(1, 60))
    data = bytearray(run.case())
    for _ in range(rng.choice([1, 1, 3, 10])):
        first = rng.choice([0, 1 + len(run.header), 1 + len(run.header)])
        if first < len(data):
            data[rng.randrange(first, len(data))] ^= 1 << rng.randrange(8)
    return bytes(data)


def a_prefix(rng):
    case = generate.a_run(rng, count=rng.randrange(1, 60)).case()
    return case[:rng.randrange(len(case) + 1)]


def large_values(rng):
    """FID restarts of any size between deltas."""
    trace = Trace()
    for _ in range(rng.randrange(1, 60)):
        trace.restart(rng.randrange(LOWEST, HIGHEST + 1)) if rng.random() < 0.4 else trace.delta(rng.randrange(-32768, 32767))
    return trace.case()


def back_to_nothing(rng):
    """A run whose sum comes to a small number, or to 0."""
    trace = Trace()
    for _ in range(rng.randrange(0, 9)):
        trace.delta(rng.randrange(-900, 900))
    return trace.reach(rng.randrange(-3, 4)).case()


OWN = [other_kind, flipped, a_prefix, large_values, back_to_nothing]


def case(seed, number):
    """The family's name and the bytes of a case: half of them as in the comparison with the original."""
    if number % 2:
        return generate.case(seed, number)
    rng = random.Random('%s/sum/%s' % (seed, number))
    family = rng.choice(OWN)
    return family.__name__, family(rng)


# Columns for the library

EDGES = [double_bits(x) for x in (
    0.0, 1.0, 0.5, 1.5, 2.5, 2.0**31, 2.0**32, 2.0**51 + 0.5, 2.0**52 - 0.5, 2.0**52, 2.0**52 + 1, 2.0**53 - 1, 2.0**53,
    2.0**53 + 2, 2.0**54, 2.0**62, 2.0**63 - 1024, 2.0**63, 2.0**63 + 2048, 2.0**64, 2.0**1023, 5e-324, 2.0**-1022, 2.0**-1074 * 7,
    1 - 2.0**-53, 1 + 2.0**-52, 3 - 2.0**-51, float('inf'), float('nan'))]
EDGES += [bits | 1 << 63 for bits in EDGES] + [0x7FF0000000000001, 0xFFF8000000000001, 0x7FFFFFFFFFFFFFFF, 2**64 - 1]


def whole(rng):
    """Bits of a whole number that may be added; of any size."""
    return double_bits(float(rng.choice([-1, 1]) * rng.getrandbits(rng.randrange(0, 54))))


def with_a_fraction(rng):
    """A whole number, or one with a last bit behind the point."""
    return double_bits(rng.choice([-1, 1]) * (2**rng.randrange(0, 53) + rng.choice([0.0, 0.5, 0.25, 2.0**-20])))


def a_start(rng):
    near = rng.choice([0, 1, 2, rng.randrange(2**10), rng.randrange(2**54)])
    return rng.choice([0, 0, rng.randrange(-9, 10), MOST - near, LEAST + near, rng.randrange(LEAST, MOST + 1)])


def to_an_end(rng):
    """A column that comes to an end of 64 bits, or one past it, and may come back."""
    start, sign = a_start(rng), rng.choice([-1, 1])
    goal = (MOST if sign > 0 else LEAST) + rng.choice([-1, 0, 0, 1, 2])
    column, total = [], start
    while total != goal:
        step = min(abs(goal - total), rng.choice([SIZE - 1, rng.randrange(1, SIZE)]) if abs(goal - total) > 2**57 else SIZE - 1)
        column.append(step if goal > total else -step)
        total += column[-1]
    column += [-sign * rng.randrange(2**40) for _ in range(rng.choice([0, 1, 5]))]
    return start, [double_bits(float(x)) for x in column]


def mixed(rng):
    pools = [lambda: whole(rng), lambda: rng.choice(EDGES), lambda: rng.getrandbits(64), lambda: with_a_fraction(rng),
             lambda: double_bits(float(rng.randrange(-9, 10)))]
    weights = rng.choice([(1, 0, 0, 0, 0), (0, 0, 0, 0, 1), (30, 1, 0, 0, 9), (9, 1, 1, 1, 9), (0, 1, 0, 0, 0), (0, 0, 1, 0, 0),
                          (9, 0, 0, 1, 0)])
    count = rng.choice([0, 1, 1, 1, 2, 3, rng.randrange(0, 40)])
    return a_start(rng), [rng.choices(pools, weights)[0]() for _ in range(count)]


def long_column(rng):
    return a_start(rng), [whole(rng) for _ in range(rng.randrange(1000, 5000))]


def column(seed, number):
    """What the sum starts from, and the bits of the values."""
    if number < 2 * len(EDGES):
        return (0, 7)[number % 2], [EDGES[number // 2]]
    rng = random.Random('%s/column/%s' % (seed, number))
    return rng.choices([mixed, to_an_end, long_column], [90, 9, 1])[0](rng)


def parts(rng, patterns):
    """The column cut in some places, an empty part now and then."""
    places = sorted(rng.choices(range(len(patterns) + 1), k=rng.randrange(1, 5)))
    return [patterns[a:b] for a, b in zip([0, *places], [*places, len(patterns)])]
