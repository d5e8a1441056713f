"""A run's eight texts, from document 01 alone: Size the header, Open as far as it refuses, and Fetch a text; and all eight at once.

Memory is lent as include/chemstation.h lays it out: what a call is lent goes in, and what it holds after the call comes back.
"""

import functools
import math
import struct

GIVEN = 103
FID, MS, MWD, DAD, UV, ARRAY = KINDS = range(1, 7)
NUMBERS = range(1, 9)

# The least size of an edition's header. Those up to 102 are old.
MINIMA = {2: 512, 31: 512, 102: 512, 30: 652, 81: 652, 131: 4000, 130: 4800, 179: 4800}

# Where a text's length byte stands, and in old editions the width of its field, that byte included; None is "to the end".
OLD = {1: (24, 60), 2: (86, 60), 3: (148, 28), 4: (208, 20), 5: (228, None), 6: (596, 40), 7: (244, 64), 8: (178, 60)}
NEW = {1: 858, 3: 1880, 4: 2492, 5: 2574, 6: 4213, 7: 4172, 8: 2391}
# Who has the two texts that not all have.
SIGNAL = (30, 81, 130, 179)
UNITS = (81, 131, 130, 179)
UNITS_131 = 3093

# White_Space, all 25. Python's own str.isspace has U+001C to U+001F too.
WHITE = frozenset([0x9, 0xA, 0xB, 0xC, 0xD, 0x20, 0x85, 0xA0, 0x1680,
                   0x2000, 0x2001, 0x2002, 0x2003, 0x2004, 0x2005, 0x2006, 0x2007, 0x2008, 0x2009, 0x200A,
                   0x2028, 0x2029, 0x202F, 0x205F, 0x3000])

# Well-formed UTF-8 (the Unicode Standard, table 3-7): first bytes, the bounds of the second, how many follow the first.
FORMS = [(0x00, 0x7F, 0x00, 0x00, 0), (0xC2, 0xDF, 0x80, 0xBF, 1),
         (0xE0, 0xE0, 0xA0, 0xBF, 2), (0xE1, 0xEC, 0x80, 0xBF, 2), (0xED, 0xED, 0x80, 0x9F, 2), (0xEE, 0xEF, 0x80, 0xBF, 2),
         (0xF0, 0xF0, 0x90, 0xBF, 3), (0xF1, 0xF3, 0x80, 0xBF, 3), (0xF4, 0xF4, 0x80, 0x8F, 3)]


class Refused(Exception):
    """By a number."""


def be(data, at, width):
    return int.from_bytes(data[at:at + width], 'big')


def sized(kind, data):
    """Size the header, the bytes being the last."""
    if kind not in KINDS:
        raise Refused(1)
    if len(data) < 268:
        raise Refused(14)
    word = be(data, 264, 4)
    if word == 0:
        raise Refused(2)
    size = 2 * (word - 1) * (1 if kind == MS else 256)
    if size < 512:
        raise Refused(3)
    if size > 20000:
        raise Refused(4)
    if len(data) < size:
        raise Refused(14)
    return size


def code_points(text):
    """Of UTF-8."""
    points, at = [], 0
    while at < len(text):
        first = text[at]
        form = next((form for form in FORMS if form[0] <= first <= form[1]), None)
        if form is None:
            raise Refused(8)
        _, _, low, high, more = form
        rest = text[at + 1:at + 1 + more]
        if len(rest) < more:
            raise Refused(8)
        if more and not low <= rest[0] <= high or any(byte >> 6 != 2 for byte in rest):
            raise Refused(8)
        point = first & (0x7F if more == 0 else 0x3F >> more)
        for byte in rest:
            point = point << 6 | byte & 0x3F
        points.append(point)
        at += 1 + more
    return points


def trimmed(points):
    first, end = 0, len(points)
    while first < end and points[first] in WHITE:
        first += 1
    while first < end and points[end - 1] in WHITE:
        end -= 1
    return points[first:end]


def of_units(units):
    """Code points of UTF-16; U+FFFD for each unit that should be half of a pair and is not."""
    points, at = [], 0
    while at < len(units):
        high, low = units[at], units[at + 1] if at + 1 < len(units) else 0
        at += 1
        if not 0xD800 <= high <= 0xDFFF:
            points.append(high)
        elif high <= 0xDBFF and 0xDC00 <= low <= 0xDFFF:
            points.append(0x10000 + (high - 0xD800 << 10 | low - 0xDC00))
            at += 1
        else:
            points.append(0xFFFD)
    return points


def to_utf8(points):
    text = bytearray()
    for point in points:
        more = (point > 0x7F) + (point > 0x7FF) + (point > 0xFFFF)
        text.append((0x00, 0xC0, 0xE0, 0xF0)[more] | point >> 6 * more)
        text += bytes(0x80 | point >> 6 * i & 0x3F for i in reversed(range(more)))
    return bytes(text)


def lacks(edition, number):
    return (number == 2 and edition > 102 or number == 6 and edition not in SIGNAL or number == 7 and edition not in UNITS)


def old_text(header, number):
    at, width = OLD[number]
    count = header[at]
    if count >= (len(header) - at if width is None else width):
        raise Refused(7)
    return to_utf8(trimmed(code_points(header[at + 1:at + 1 + count])))


def new_text(header, number, edition):
    # No width is given; 255 units end in front of the least header's end, from every start.
    at = UNITS_131 if number == 7 and edition == 131 else NEW[number]
    count = header[at]
    return to_utf8(of_units(struct.unpack_from('<%dH' % count, header, at + 1)))


def a_text(header, number, edition):
    if lacks(edition, number):
        return b''
    if edition <= 102:
        return old_text(header, number)
    return new_text(header, number, edition)


def divided(a, b):
    """As IEEE 754 does; no divisor here is below 0 or -0."""
    if b == 0:
        return math.nan if a == 0 or math.isnan(a) else math.copysign(math.inf, a)
    return a / b


def minutes(header, at, edition):
    if edition == 31:
        return 0.0
    return struct.unpack_from('>f' if edition == 179 else '>i', header, at)[0] / 60000


def array_scans(header, edition):
    """What of an array's header Open refuses."""
    if len(header) < 4126:
        raise Refused(9)
    step = divided(divided(be(header, 4122, 2), be(header, 4124, 2)), 60)
    quotient = divided(minutes(header, 286, edition) - minutes(header, 282, edition), step)
    if quotient >= 2**53:
        raise Refused(10)


@functools.lru_cache(maxsize=8)
def opened(kind, data):
    """Open, told that the bytes are the last: 103 and the eight texts, or a refusal and None."""
    try:
        header = data[:sized(kind, data)]
        edition = be(header, 248, 4)
        if edition not in MINIMA:
            raise Refused(5)
        if len(header) < MINIMA[edition]:
            raise Refused(6)
        found = [a_text(header, number, edition) for number in NUMBERS]
        if kind == ARRAY:
            array_scans(header, edition)
        return GIVEN, found
    except Refused as refused:
        return refused.args[0], None


def text(kind, number, data, lent, count):
    """Fetch a text: the answer, what the lent buffer then holds, and the count."""
    if kind not in KINDS:
        return 1, lent, count
    if number not in NUMBERS:
        return 16, lent, count
    answer, found = opened(kind, data)
    if answer != GIVEN:
        return answer, lent, count
    found = found[number - 1]
    if len(found) > len(lent):
        return 15, lent, count
    return GIVEN, found + lent[len(found):], len(found)


def texts(kind, data, lent, starts, lengths):
    """All eight, one behind the other: the answer, what the buffer then holds, the starts and the lengths."""
    answer, found = opened(kind, data)
    if answer != GIVEN:
        return answer, lent, starts, lengths
    whole = b''.join(found)
    if len(whole) > len(lent):
        return 15, lent, starts, lengths
    lengths = [len(text) for text in found]
    starts = [sum(lengths[:i]) for i in range(8)]
    return GIVEN, whole + lent[len(whole):], starts, lengths
