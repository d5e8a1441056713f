"""How many UTF-16 units were replaced in the text that a call fetched, from the words of request 4 alone; all else is texts.py's.

Memory is lent as include/chemstation.h lays it out. The numbers are written on every call: what they were is never what they are.
"""

import struct

import texts as fetched
from texts import GIVEN, NEW, NUMBERS, UNITS_131, be, lacks


def high(unit):
    return 0xD800 <= unit <= 0xDBFF


def low(unit):
    return 0xDC00 <= unit <= 0xDFFF


def lone(units):
    """By places: a high one that no low one follows, and a low one that follows no high one."""
    fronts, behinds = [0, *units], [*units[1:], 0]
    broken = [high(unit) and not low(behind) or low(unit) and not high(front)
              for front, unit, behind in zip(fronts, units, behinds)]
    return sum(broken)


def stored(data, number):
    """The units of a text; none where the edition is old or lacks it."""
    edition = be(data, 248, 4)
    if edition <= 102 or lacks(edition, number):
        return ()
    at = UNITS_131 if number == 7 and edition == 131 else NEW[number]
    return struct.unpack_from('<%dH' % data[at], data, at + 1)


def text(kind, number, data, lent, before):
    """What *replaced holds after the call; before it, `before`."""
    answer = fetched.text(kind, number, data, lent, 0)[0]
    if answer != GIVEN:
        return 0
    return lone(stored(data, number))


def texts(kind, data, lent, before):
    """What the eight numbers of `replaced` are."""
    answer = fetched.texts(kind, data, lent, [], [])[0]
    if answer != GIVEN:
        return [0] * 8
    return [lone(stored(data, number)) for number in NUMBERS]
