"""Wrong models of the count: what is misread, the text of replaced.py, the misreading's. judge_replaced.py has to tell each."""

REFUSALS = (*range(1, 11), 14, 15)
BOUNDS = 'unit <= 0xDBFF\n\n\ndef low(unit):\n    return 0xDC00 <= unit'
BROKEN = 'high(unit) and not low(behind) or low(unit) and not high(front)'
SUM = 'return sum(broken)'
# As a decoder goes, up to what it does at a half of no pair.
WALK = '''count = at = 0
    while at < len(units):
        unit, behind = units[at], units[at + 1] if at + 1 < len(units) else 0
        at += 1
        if high(unit) and low(behind):
            at += 1
        elif high(unit) or low(unit):
            %s
    return count'''
PAIRING = 'paired = {}\n            count, at = count + (not paired), at + paired'
HALVES = 'sum(high(unit) or low(unit) for unit in units)'
PAIRS = 'sum(high(unit) and low(behind) for unit, behind in zip(units, behinds))'

COUNTING = [
    ('always 0', SUM, 'return 0'),
    ('1 for any', SUM, 'return int(any(broken))'),
    ('one for a run of several', SUM, 'return sum(b and not a for a, b in zip([False, *broken], broken))'),
    ('one for two', SUM, 'return (sum(broken) + 1) // 2'),
    ('ends at the first', SUM, WALK % 'return 1'),
    ('the next is skipped after a broken pair', SUM, WALK % 'count, at = count + 1, at + high(unit)'),
    ('the next is skipped after any', SUM, WALK % 'count, at = count + 1, at + 1'),
    ('a broken pair is two', SUM, WALK % 'count, at = count + 1 + (high(unit) and at < len(units)), at + high(unit)'),
    ('high, high, low is two: the second skipped', SUM, WALK % 'count, at = count + 1, at + (high(unit) and high(behind))'),
    ('high, high, low is two: both high ones', SUM,
     'return sum(broken) + sum(map(lambda a, b, c: high(a) and high(b) and low(c), units, units[1:], units[2:]))'),
    ('low, high is a pair', SUM, WALK % PAIRING.format('low(unit) and high(behind)')),
    ('low, high is one', SUM, WALK % 'count, at = count + 1, at + (low(unit) and high(behind))'),
    ('high, high is a pair', SUM, WALK % PAIRING.format('high(unit) and high(behind)')),
    ('low, low is a pair', SUM, WALK % PAIRING.format('low(unit) and low(behind)')),
    ('high, letter, low is a pair', SUM,
     SUM + ' - 2 * sum(map(lambda a, b, c: high(a) and low(c) and not (high(b) or low(b)), units, units[1:], units[2:]))'),
    ('a pair is one', SUM, 'return sum(broken) + ' + PAIRS),
    ('a pair is two', SUM, 'return ' + HALVES),
    ('only pairs', SUM, 'return ' + PAIRS),
    ('how many more of the one half', SUM, 'return abs(sum(map(high, units)) - sum(map(low, units)))'),
    ('high ones only', BROKEN, 'high(unit) and not low(behind)'),
    ('low ones only', BROKEN, 'low(unit) and not high(front)'),
    ('not a high one at the end', 'behinds = [0, *units], [*units[1:], 0]', 'behinds = [0, *units], [*units[1:], 0xDC00]'),
    ('not a low one in front', '[0, *units]', '[0xD800, *units]'),
    ('U+FFFD counted', BROKEN, BROKEN + ' or unit == 0xFFFD'),
    ('U+FFFD only', BROKEN, 'unit == 0xFFFD'),
    ('U+FFFD ends a pair', 'return 0xDC00 <= unit <= 0xDFFF', 'return 0xDC00 <= unit <= 0xDFFF or unit == 0xFFFD'),
    ('U+FFFD takes one off', SUM, 'return max(sum(broken) - units.count(0xFFFD), 0)'),
    ('U+FFFE and U+FFFF counted', BROKEN, BROKEN + ' or unit >= 0xFFFE'),
    ('U+1FFFD and U+10FFFD counted', SUM,
     SUM + ' + sum(high(a) and a & 0x3F == 0x3F and b == 0xDFFD for a, b in zip(units, behinds))'),
    ('D800 is no half', 'return 0xD800 <= unit', 'return 0xD800 < unit'),
    ('D7FF is one', 'return 0xD800 <= unit', 'return 0xD7FF <= unit'),
    ('DBFF is no high one', 'unit <= 0xDBFF', 'unit < 0xDBFF'),
    ('DBFF is a low one', BOUNDS, BOUNDS.replace('<= 0xDBFF', '< 0xDBFF').replace('0xDC00 <=', '0xDBFF <=')),
    ('DC00 is no low one', 'return 0xDC00 <= unit', 'return 0xDC00 < unit'),
    ('DC00 is a high one', BOUNDS, BOUNDS.replace('<= 0xDBFF', '<= 0xDC00').replace('0xDC00 <= unit', '0xDC00 < unit')),
    ('DFFF is no half', 'unit <= 0xDFFF', 'unit < 0xDFFF'),
    ('E000 is one', 'unit <= 0xDFFF', 'unit <= 0xE000'),
    ('E000 and more are halves', 'unit <= 0xDFFF', 'unit <= 0xFFFF'),
    ('bytes of the header', SUM, 'return 2 * sum(broken)'),
    ('bytes of the text', SUM, 'return 3 * sum(broken)'),
    ('units', SUM, 'return len(units)'),
    ('units that stay', SUM, 'return len(units) - sum(broken)'),
    ('one more', SUM, 'return sum(broken) + 1'),
    ('127 at most', SUM, 'return min(sum(broken), 127)'),
    ('a signed byte', SUM, 'return (sum(broken) + 128) % 256 - 128 & 2**64 - 1'),
    ('254 at most', SUM, 'return min(sum(broken), 254)'),
    ('the place of the first', SUM, 'return broken.index(True) if any(broken) else 0'),
    ('the place behind the last', SUM, 'return max([i + 1 for i, one in enumerate(broken) if one], default=0)'),
]

NONE = '    if edition <= 102 or lacks(edition, number):\n        return ()\n'
OLD_NONE = '    if edition <= 102:\n        return %s\n'
LACKED = '    if lacks(edition, number):\n        return ()\n'
AT = 'at = UNITS_131 if number == 7 and edition == 131 else NEW[number]'
UNITS = "return struct.unpack_from('<%dH' % data[at], data, at + 1)"
GIVEN_TEXT = 'fetched.a_text(data, number, edition)'

STORED = [
    ('U+FFFD counted in the text given', NONE,
     '    return (0xD800,) * %s.count(b"\\xEF\\xBF\\xBD")\n' % GIVEN_TEXT + NONE),
    ("an old text's U+FFFD counted", NONE, OLD_NONE % ('(0xD800,) * %s.count(b"\\xEF\\xBF\\xBD")' % GIVEN_TEXT) + LACKED),
    ('old bytes beyond ASCII counted', NONE, OLD_NONE % ('[0xD800 for byte in %s if byte > 127]' % GIVEN_TEXT) + LACKED),
    ('old bytes taken as units', NONE,
     OLD_NONE % ('struct.unpack_from("<%%dH" %% (len(%s) // 2), %s)' % (GIVEN_TEXT, GIVEN_TEXT)) + LACKED),
    ('old texts at the places of new ones', NONE,
     '    if len(data) < 4800 if edition <= 102 and number != 2 else lacks(max(edition, 103), number):\n        return ()\n'),
    ('as if 131 had text 6', NONE, NONE.replace('lacks', 'number == 2 or edition != 131 and lacks')),
    ('as if new editions had text 2 where old ones have it', NONE,
     NONE.replace('lacks(edition, number)', 'number != 2 and lacks(edition, number)') + '    NEW = {**fetched.NEW, 2: 86}\n'),
    ('as if new editions had text 2 at 1369', NONE,
     NONE.replace('lacks(edition, number)', 'number != 2 and lacks(edition, number)') + '    NEW = {**fetched.NEW, 2: 1369}\n'),
    ('text 2 is the sample', NONE, '    number = 1 if number == 2 else number\n' + NONE),
    ('131 has text 7 at 4172', AT, 'at = NEW[number]'),
    ('130 and 179 have text 7 at 3093', AT, AT.replace('and edition == 131 ', '')),
    ('131 has none of text 7', NONE, NONE.replace('lacks', 'edition == 131 and number == 7 or lacks')),
    ('edition 130 only', NONE, NONE.replace('edition <= 102', 'edition != 130')),
    ('edition 179 not', NONE, NONE.replace('edition <= 102', 'edition in (*range(103), 179)')),
    ('a pair over the end', UNITS, UNITS.replace('return', 'units =') + '\n'
     "    behind = struct.unpack_from('<H', data, at + 1 + 2 * len(units))[0]\n"
     '    return units[:-1] if units and high(units[-1]) and low(behind) else units'),
    ('a pair over the beginning', UNITS, UNITS.replace('return', 'units =') + '\n'
     "    front = struct.unpack_from('<H', data, at - 2)[0]\n"
     '    return units[1:] if units and low(units[0]) and high(front) else units'),
    ('a pair with the length byte', UNITS, UNITS.replace('return', 'units =') + '\n'
     "    front = struct.unpack_from('<H', data, at - 1)[0]\n"
     '    return units[1:] if units and low(units[0]) and high(front) else units'),
    ('a unit too many', UNITS, UNITS.replace('data[at],', '(data[at] + 1),')),
    ('a unit too few', UNITS, UNITS.replace('data[at],', 'max(data[at] - 1, 0),')),
    ('the length byte counts bytes', UNITS, UNITS.replace('data[at],', '(data[at] // 2),')),
    ('127 units at most', UNITS, UNITS.replace('data[at],', 'min(data[at], 127),')),
    ('254 units at most', UNITS, UNITS.replace('data[at],', 'min(data[at], 254),')),
    ('from the length byte on', UNITS, UNITS.replace('at + 1', 'at')),
    ('one byte late', UNITS, UNITS.replace('at + 1', 'at + 2')),
    ('one unit late', UNITS, UNITS.replace('at + 1', 'at + 3')),
    ('big-endian units', UNITS, UNITS.replace('<', '>')),
    ('a zero ends it', UNITS, UNITS.replace('return', 'units =') + '\n    return units[:units.index(0)] if 0 in units else units'),
    ('not in a text of halves alone', UNITS, UNITS.replace('return', 'units =') + '\n'
     '    return () if all(high(unit) or low(unit) for unit in units) else units'),
]

REFUSED = 'return 0\n'
ONE = 'return lone(stored(data, number))'
# 16 says that no text is meant: that of the sample will do.
MEANT = ONE.replace('number', 'number if number in NUMBERS else 1')

FETCHING = [
    ('not written on a refusal', REFUSED, 'return before\n'),
    ('the answer on a refusal', REFUSED, 'return answer\n'),
    ('1 on a refusal', REFUSED, 'return 1\n'),
    *(('not written on %d' % n, REFUSED, 'return before if answer == %d else 0\n' % n) for n in (*REFUSALS, 16)),
    # 7 and 8 come with old texts alone, of which nothing is replaced.
    *(('counted on %d' % n, REFUSED, '%s if answer == %d else 0\n' % (MEANT, n)) for n in (*REFUSALS, 16) if n not in (7, 8)),
    ('counted on every refusal', REFUSED, MEANT + ' if len(data) >= 4800 else 0\n'),
    ('what is not UTF-8 counted', REFUSED, 'return int(answer == 8)\n'),
    ('counted on 15 up to the room', REFUSED, 'return 0 if answer != 15 else lone(stored(data, number)[:len(lent) // 3])\n'),
    ('not written without room', ONE, ONE + ' if lent else before'),
    ('not written where it is 0', ONE, ONE + ' or before'),
    ('not written for an old text', ONE, ONE + ' if be(data, 248, 4) > 102 else before'),
    ('not written for one that is lacked', ONE, ONE + ' if not lacks(be(data, 248, 4), number) else before'),
    ('added to what it was', ONE, ONE.replace('return', 'return 2**64 - 1 & before +')),
    ('one byte written', ONE, ONE.replace('return', 'return before >> 8 << 8 |')),
    ('four bytes written', ONE, ONE.replace('return', 'return before >> 32 << 32 |')),
    ("the sample's for all", ONE, ONE.replace('number', '1')),
    ('of the sample only', ONE, ONE + ' if number == 1 else 0'),
    ('of the next text', ONE, ONE.replace('number', 'number % 8 + 1')),
    ('of the eight together', ONE, 'return sum(lone(stored(data, n)) for n in NUMBERS)'),
    ('of all up to this one', ONE, 'return sum(lone(stored(data, n)) for n in range(1, number + 1))'),
]

ALL_REFUSED = 'return [0] * 8'
ALL = 'return [lone(stored(data, number)) for number in NUMBERS]'
EIGHT = ALL.replace('return', 'counts =') + '\n    return '

FETCHING_ALL = [
    ('all: not written on a refusal', ALL_REFUSED, 'return before'),
    ('all: the first only on a refusal', ALL_REFUSED, 'return [0] + before[1:]'),
    ('all: the last not on a refusal', ALL_REFUSED, 'return [0] * 7 + before[7:]'),
    ('all: the answer on a refusal', ALL_REFUSED, 'return [answer] * 8'),
    *(('all: not written on %d' % n, ALL_REFUSED, 'return before if answer == %d else [0] * 8' % n) for n in REFUSALS),
    *(('all: counted on %d' % n, ALL_REFUSED, '%s if answer == %d else [0] * 8' % (ALL, n)) for n in REFUSALS if n not in (7, 8)),
    ('all: the first counted on 15', ALL_REFUSED, 'return [lone(stored(data, 1)) if answer == 15 else 0] + [0] * 7'),
    ('all: those that fit counted on 15', ALL_REFUSED,
     'whole = [len(text) for text in fetched.opened(kind, data)[1]] if answer == 15 else [2**64] * 8\n'
     '        return [lone(stored(data, n)) if sum(whole[:n]) <= len(lent) else 0 for n in NUMBERS]'),
    ('all: what is not UTF-8 counted', ALL_REFUSED, 'return [int(answer == 8)] * 8'),
    ('all: not written without room', ALL, ALL + ' if lent else before'),
    ('all: not written where it is 0', ALL, EIGHT + '[a or b for a, b in zip(counts, before)]'),
    ('all: not written for old texts', ALL, ALL + ' if be(data, 248, 4) > 102 else before'),
    ('all: not written for those that are lacked', ALL,
     EIGHT + '[before[n - 1] if lacks(be(data, 248, 4), n) else counts[n - 1] for n in NUMBERS]'),
    ('all: added to what it was', ALL, EIGHT + '[2**64 - 1 & a + b for a, b in zip(counts, before)]'),
    ('all: one byte written', ALL, EIGHT + '[b >> 8 << 8 | a for a, b in zip(counts, before)]'),
    ('all: four bytes written', ALL, EIGHT + '[b >> 32 << 32 | a for a, b in zip(counts, before)]'),
    ('all: from the last on', ALL, EIGHT + 'counts[::-1]'),
    ('all: the last two swapped', ALL, EIGHT + 'counts[:6] + counts[:5:-1]'),
    ('all: in the order of their places', ALL, EIGHT + '[counts[n - 1] for n in (1, 2, 3, 8, 4, 5, 7, 6)]'),
    ('all: by size', ALL, EIGHT + 'sorted(counts, reverse=True)'),
    ('all: none for those that are lacked', ALL,
     EIGHT + '([counts[n - 1] for n in NUMBERS if not lacks(be(data, 248, 4), n)] + [0] * 8)[:8]'),
    ('all: one place on', ALL, EIGHT + 'counts[7:] + counts[:7]'),
    ("all: the sample's only", ALL, EIGHT + 'counts[:1] + [0] * 7'),
    ("all: only the sample's written", ALL, EIGHT + 'counts[:1] + before[1:]'),
    ('all: seven written', ALL, EIGHT + 'counts[:7] + before[7:]'),
    ("all: the sample's for all", ALL, EIGHT + 'counts[:1] * 8'),
    ('all: the sum for all', ALL, EIGHT + '[sum(counts)] * 8'),
    ('all: the sum in the first', ALL, EIGHT + '[sum(counts)] + [0] * 7'),
    ('all: running sums', ALL, EIGHT + '[sum(counts[:n]) for n in NUMBERS]'),
    ('all: the largest for all', ALL, EIGHT + '[max(counts)] * 8'),
]

# What is counted has to be told by each function alone: a library may count in two ways.
EDITS = [(edit, ('text', 'texts')) for edit in (*COUNTING, *STORED)]
EDITS += [(edit, ('text',)) for edit in FETCHING] + [(edit, ('texts',)) for edit in FETCHING_ALL]
