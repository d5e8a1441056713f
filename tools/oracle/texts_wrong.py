"""Wrong models of texts: what is misread, the text of texts.py, the misreading's. judge_texts.py has to tell each."""

import texts
import texts_cases

TRIMMED = 'to_utf8(trimmed(code_points(header[at + 1:at + 1 + count])))'
STORED = 'header[at + 1:at + 1 + count]'
WHITES = '0x2028, 0x2029, 0x202F, 0x205F, 0x3000])'
FRONT = '    while first < end and points[first] in WHITE:\n        first += 1\n'
BACK = '    while first < end and points[end - 1] in WHITE:\n        end -= 1\n'
KEPT = 'return points[first:end]'

TRIMMING = [
    ('untrimmed', TRIMMED, 'to_utf8(code_points(%s))' % STORED),
    ('trimmed in front only', BACK, ''),
    ('trimmed behind only', FRONT, ''),
    ('one character trimmed in front', FRONT, FRONT.replace('while', 'if')),
    ('one character trimmed behind', BACK, BACK.replace('while', 'if')),
    ('a white text kept', KEPT, KEPT + ' or points'),
    ('white inside dropped', KEPT, 'return [point for point in points[first:end] if point not in WHITE]'),
    *(('U+%04X not white' % point, WHITES, '%s - {0x%X}' % (WHITES, point)) for point in sorted(texts.WHITE)),
    *(('U+%04X white' % point, WHITES, '%s | {0x%X}' % (WHITES, point)) for point in texts_cases.NEAR),
    ('white as Python has it', WHITES, WHITES + ' | {0x1C, 0x1D, 0x1E, 0x1F}'),
    ('white as ASCII has it', WHITES, WHITES + ' & set(range(128))'),
    ('bytes trimmed, not characters', TRIMMED, TRIMMED.replace(STORED, STORED + r'.strip(b" \t\n\r\v\f\x85\xA0")')),
    ('not UTF-8 is no fault in white', TRIMMED, TRIMMED.replace(STORED, STORED + r'.rstrip(b" \xC2")')),
    ('a zero ends it', TRIMMED, TRIMMED + '.split(b"\\0")[0]'),
    ('a byte order mark dropped', TRIMMED, TRIMMED + '.removeprefix(b"\\xEF\\xBB\\xBF")'),
]

TAILS = 'any(byte >> 6 != 2 for byte in rest)'
SHORT = 'if len(rest) < more:\n            raise Refused(8)'
POINT = '        points.append(point)\n'

UTF8 = [
    ('lone continuation bytes accepted', '(0x00, 0x7F, 0x00', '(0x00, 0xBF, 0x00'),
    ('80 is ASCII', '(0x00, 0x7F, 0x00', '(0x00, 0x80, 0x00'),
    ('7F refused', '(0x00, 0x7F, 0x00', '(0x00, 0x7E, 0x00'),
    ('zeros refused', '(0x00, 0x7F, 0x00', '(0x01, 0x7F, 0x00'),
    ('C0 and C1 accepted', '(0xC2, 0xDF', '(0xC0, 0xDF'),
    ('C1 accepted', '(0xC2, 0xDF', '(0xC1, 0xDF'),
    ('C2 refused', '(0xC2, 0xDF', '(0xC3, 0xDF'),
    ('overlong three bytes accepted', '0xE0, 0xA0, 0xBF', '0xE0, 0x80, 0xBF'),
    ('E0 A0 refused', '0xE0, 0xA0, 0xBF', '0xE0, 0xA1, 0xBF'),
    ('surrogates accepted', '0xED, 0x80, 0x9F', '0xED, 0x80, 0xBF'),
    ('ED 9F refused', '0xED, 0x80, 0x9F', '0xED, 0x80, 0x9E'),
    ('overlong four bytes accepted', '0xF0, 0x90, 0xBF', '0xF0, 0x80, 0xBF'),
    ('F0 90 refused', '0xF0, 0x90, 0xBF', '0xF0, 0x91, 0xBF'),
    ('above U+10FFFF accepted', '0xF4, 0x80, 0x8F', '0xF4, 0x80, 0xBF'),
    ('F4 8F refused', '0xF4, 0x80, 0x8F', '0xF4, 0x80, 0x8E'),
    ('F5 to F7 accepted', '0xF4, 0x80, 0x8F, 3)', '0xF4, 0x80, 0x8F, 3), (0xF5, 0xF7, 0x80, 0xBF, 3)'),
    ('U+FFFE and U+FFFF refused', POINT, '        if point in (0xFFFE, 0xFFFF):\n            raise Refused(8)\n' + POINT),
    ('four bytes refused', POINT, '        if more == 3:\n            raise Refused(8)\n' + POINT),
    ('any byte may follow', TAILS, 'False'),
    ('C0 and more may follow', TAILS, TAILS.replace('>> 6 != 2', '< 0x80')),
    ('the third byte not looked at', TAILS, TAILS.replace('rest)', 'rest[:1] + rest[2:])')),
    ('the fourth byte not looked at', TAILS, TAILS.replace('rest)', 'rest[:2])')),
    ('a cut end accepted', SHORT, 'if len(rest) < more:\n            return points'),
    ('a cut end replaced', SHORT, 'if len(rest) < more:\n            return points + [0xFFFD]'),
    ('a cut end completed from behind', TRIMMED,
     TRIMMED.replace('+ count]', '+ count + next(k for k in range(9) if header[at + 1 + count + k] >> 6 != 2)]')),
    ('damage replaced', TRIMMED,
     TRIMMED.replace('code_points(%s)' % STORED, '[*map(ord, %s.decode("utf-8", "replace"))]' % STORED)),
    ('as Latin-1', TRIMMED, TRIMMED.replace('code_points', 'list')),
]

UNITS = "return to_utf8(of_units(struct.unpack_from('<%dH' % count, header, at + 1)))"
LONE = 'points.append(0xFFFD)'
PAIRED = 'elif high <= 0xDBFF and 0xDC00 <= low <= 0xDFFF:'
PAIR = 'points.append(0x10000 + (high - 0xD800 << 10 | low - 0xDC00))\n            at += 1'

UTF16 = [
    ('new texts trimmed', UNITS, UNITS.replace('of_units', 'trimmed(of_units') + ')'),
    ('zeros behind new texts dropped', UNITS, UNITS + '.rstrip(b"\\0")'),
    ('a zero ends new texts', UNITS, UNITS + '.split(b"\\0")[0]'),
    ('a byte order mark of new texts dropped', UNITS, UNITS + '.removeprefix(b"\\xEF\\xBB\\xBF")'),
    ('big-endian units', UNITS, UNITS.replace('<', '>')),
    ('as many bytes as the length byte says', UNITS, UNITS.replace('% count', '% (count // 2)')),
    ('a unit too many', UNITS, UNITS.replace('% count', '% (count + 1)')),
    ('127 units at most', UNITS, UNITS.replace('% count', '% min(count, 127)')),
    ('a length of 255 refused', UNITS, 'if count == 255:\n        raise Refused(7)\n    ' + UNITS),
    ('UTF-8 in new editions', UNITS, 'return to_utf8(code_points(%s))' % STORED),
    ('lone surrogates dropped', LONE, 'pass'),
    ('lone surrogates as question marks', LONE, 'points.append(0x3F)'),
    ('lone surrogates end the text', LONE, 'return points'),
    ('lone surrogates refused', LONE, 'raise Refused(8)'),
    ('lone surrogates kept', LONE, 'points.append(high)'),
    ('lone low ones dropped', LONE, 'points += [0xFFFD][:high <= 0xDBFF]'),
    ('lone high ones dropped', LONE, 'points += [0xFFFD][:high > 0xDBFF]'),
    ('a high one at the end dropped', LONE, 'points += [0xFFFD][:at < len(units) or high > 0xDBFF]'),
    ('a high one at the end paired from behind', UNITS, 'end = at + 2 * count\n'
     '    count += 0 < count < 255 and header[end] >> 2 == 0xD8 >> 2 and header[end + 2] >> 2 == 0xDC >> 2\n    ' + UNITS),
    ('one U+FFFD for several', LONE, 'points += [0xFFFD][:points[-1:] != [0xFFFD]]'),
    ('a lone high one takes the next with it', LONE, 'at += high <= 0xDBFF\n            ' + LONE),
    ('two high ones are a pair', PAIRED, PAIRED.replace('0xDC00', '0xD800')),
    ('two low ones are a pair', PAIRED, PAIRED.replace('high <= 0xDBFF', 'high <= 0xDFFF')),
    ('E000 ends a pair', PAIRED, PAIRED.replace('low <= 0xDFFF', 'low <= 0xE000')),
    ('DC00 ends none', PAIRED, PAIRED.replace('0xDC00 <= low', '0xDC00 < low')),
    ('DFFF ends none', PAIRED, PAIRED.replace('low <= 0xDFFF', 'low < 0xDFFF')),
    ('DBFF begins none', PAIRED, PAIRED.replace('high <= 0xDBFF', 'high < 0xDBFF')),
    ('D800 is none', 'if not 0xD800 <= high', 'if not 0xD800 < high'),
    ('E000 is one', 'high <= 0xDFFF:\n            points', 'high <= 0xE000:\n            points'),
    ('a pair without 10000', '0x10000 + (high', '(high'),
    ('halves swapped', PAIR, PAIR.replace('(high - 0xD800 << 10 | low - 0xDC00)', '(low - 0xDC00 << 10 | high - 0xD800)')),
    ('a pair is two characters', PAIR, 'points += [0xFFFD, 0xFFFD]\n            at += 1'),
    ('a pair leaves its low half', PAIR, PAIR.replace('at += 1', 'pass')),
]

BELOW_MINIMA = "\n# Where a text's length byte"
WIDTH = 'if count >= (len(header) - at if width is None else width):'
LACKS = 'return (number == 2 and edition > 102 or number == 6 and edition not in SIGNAL or number == 7 and edition not in UNITS)'


def places():
    """Starts and widths, each off by one."""
    for number, (at, width) in texts.OLD.items():
        told = '%d: (%d, %s)' % (number, at, width)
        for start in (at - 1, at + 1):
            yield 'old text %d at %d' % (number, start), told, '%d: (%d, %s)' % (number, start, width)
        for wrong in (width - 1, width + 1) if width else (16, 20, 60, 64, 128, 255):
            yield 'old text %d %d wide' % (number, wrong), told, '%d: (%d, %d)' % (number, at, wrong)
    for number, at in texts.NEW.items():
        for start in (at - 1, at + 1):
            yield 'new text %d at %d' % (number, start), '%d: %d' % (number, at), '%d: %d' % (number, start)
    for edition, minimum in texts.MINIMA.items():
        for wrong in (minimum - 2, minimum + 2):
            if wrong >= 512:
                told = 'MINIMA[%d] = %d\n' % (edition, wrong)
                yield 'edition %d from %d on' % (edition, wrong), BELOW_MINIMA, told + BELOW_MINIMA


EDITIONS = [
    *(('%d has text 6' % edition, 'SIGNAL = (', 'SIGNAL = (%d, ' % edition) for edition in (2, 31, 102, 131)),
    *(('%d has text 7' % edition, 'UNITS = (', 'UNITS = (%d, ' % edition) for edition in (2, 30, 31, 102)),
    *(('%d lacks text %d' % (edition, number), LACKS, 'return edition == %d and number == %d or ' % (edition, number) + LACKS[7:])
      for edition in texts.MINIMA for number in texts_cases.numbers(edition)),
    ('131 has text 7 at 4172', 'number == 7 and edition == 131 else', 'number == 7 and edition == 999 else'),
    ('130 and 179 have text 7 at 3093', 'number == 7 and edition == 131 else', 'number == 7 else'),
    ('text 2 of new editions is the old one', LACKS, LACKS.replace('number == 2 and edition > 102 or ', '')
     + '\n\n\nNEW[2] = 1369'),
    ('the width is the most', WIDTH, WIDTH.replace('>=', '>')),
    ('the length byte counts itself', 'count = header[at]\n    if', 'count = max(header[at] - 1, 0)\n    if'),
    ('too long is cut', WIDTH + '\n        raise Refused(7)', 'count = min(count, 255 if width is None else width - 1)'),
    ('too long is empty', WIDTH + '\n        raise Refused(7)', WIDTH + "\n        return b''"),
    ('102 is new', 'if edition <= 102:', 'if edition < 102 or number == 2:'),
    *(('no edition %d' % edition, BELOW_MINIMA, 'del MINIMA[%d]\n' % edition + BELOW_MINIMA) for edition in texts.MINIMA),
    ('the low half is the edition', 'edition = be(header, 248, 4)', 'edition = be(header, 250, 2)'),
    ('the last byte is the edition', 'edition = be(header, 248, 4)', 'edition = header[251]'),
]

SIZED = 'size = 2 * (word - 1) * (1 if kind == MS else 256)'
DUE = '    if len(data) < 268:\n        raise Refused(14)\n'
ALL_DUE = '    if len(data) < size:\n        raise Refused(14)\n'
MINIMUM = '        if len(header) < MINIMA[edition]:\n            raise Refused(6)\n'
FOUND = '        found = [a_text(header, number, edition) for number in NUMBERS]\n'
CHECKED = '        if kind == ARRAY:\n            array_scans(header, edition)\n'
QUOTIENT = 'if quotient >= 2**53:'

OPENING = [
    ('269 bytes due', DUE, DUE.replace('268', '269')),
    ('267 bytes due', DUE, DUE.replace('268', '267')),
    ('512 bytes due at once', DUE, DUE.replace('268', '512')),
    ('more bytes', DUE, DUE.replace('14', '101')),
    ('one byte fewer due', ALL_DUE, ALL_DUE.replace('< size', '< size - 1')),
    ('one byte more due', ALL_DUE, ALL_DUE.replace('< size', '<= size')),
    ('more bytes of the header', ALL_DUE, ALL_DUE.replace('14', '101')),
    ('the size not due', ALL_DUE, ''),
    ('the size due behind edition and minimum', ALL_DUE,
     '    if len(data) < size:\n        raise Refused(14 if size >= MINIMA.get(be(data, 248, 4), size + 1) else 6 if '
     'be(data, 248, 4) in MINIMA else 5)\n'),
    ('the size due before its bounds', 'if size < 512:', 'if len(data) < size:\n        raise Refused(14)\n    if size < 512:'),
    ('word 0 is a size', 'if word == 0:', 'if word == -1:'),
    ('512 too few', 'if size < 512:', 'if size <= 512:'),
    ('510 enough', 'if size < 512:', 'if size < 510:'),
    ('20,000 too many', 'if size > 20000:', 'if size >= 20000:'),
    ('20,002 not too many', 'if size > 20000:', 'if size > 20002:'),
    ('19,966 at most', 'if size > 20000:', 'if size > 19966:'),
    ('a size in 32 bits', SIZED, SIZED + ' % 2**32'),
    ('a signed word', 'word = be(data, 264, 4)', 'word = (be(data, 264, 4) + 2**31) % 2**32 - 2**31'),
    ('half a word', 'word = be(data, 264, 4)', 'word = be(data, 266, 2)'),
    ('MS by 256 too', SIZED, SIZED.replace('1 if kind == MS else 256', '256')),
    ('DAD as MS', SIZED, SIZED.replace('kind == MS', 'kind in (MS, DAD)')),
    ('the word not less 1', SIZED, SIZED.replace('word - 1', 'word')),
    ('an unknown edition is old', 'raise Refused(5)', 'edition = 2'),
    ('the minimum not looked at', MINIMUM, ''),
    ('the minimum after the texts', MINIMUM + FOUND, FOUND.replace('header,', 'header + bytes(5000),') + MINIMUM),
    ('texts from the last on', FOUND, FOUND.replace('NUMBERS]', 'NUMBERS[::-1]][::-1]')),
    ('texts by their places', FOUND,
     '        for number in sorted(NUMBERS, key=lambda n: OLD[n]):\n            a_text(header, number, edition)\n' + FOUND),
    ('all lengths first', FOUND, '        for number in NUMBERS if edition <= 102 else ():\n'
     '            if not lacks(edition, number) and OLD[number][1] and header[OLD[number][0]] >= OLD[number][1]:\n'
     '                raise Refused(7)\n' + FOUND),
    ('only the sample is looked at', FOUND, FOUND.replace('a_text(', '(lambda *a: b"" if a[1] != 1 else a_text(*a))(')),
    ('an array is looked at before its texts', FOUND + CHECKED, CHECKED + FOUND),
    ('an array is not looked at', CHECKED, ''),
    ('every kind is looked at as an array', CHECKED, CHECKED.replace('kind == ARRAY', 'len(header) >= 4126')),
    ('9 for every kind', CHECKED, '        if len(header) < 4126:\n            raise Refused(9)\n' + CHECKED),
    ('an array of 4,096', 'if len(header) < 4126:\n        raise Refused(9)', 'header += bytes(4126)'),
    ('10 for infinity only', QUOTIENT, 'if quotient == math.inf:'),
    ('10 without infinity', QUOTIENT, 'if math.inf > quotient >= 2**53:'),
    ('10 above 2^53', QUOTIENT, QUOTIENT.replace('>=', '>')),
    ('10 for minus infinity', QUOTIENT, QUOTIENT.replace('quotient', 'abs(quotient)')),
    ('10 for a NaN', QUOTIENT, 'if not quotient < 2**53:'),
    ('10 below 0', QUOTIENT, 'if not (math.isnan(quotient) or 0 <= quotient < 2**53):'),
    ('2^52 is enough', QUOTIENT, QUOTIENT.replace('53', '52')),
    ('2^63', QUOTIENT, QUOTIENT.replace('53', '63')),
    ('a step in seconds', 'be(header, 4124, 2)), 60)', 'be(header, 4124, 2)), 1)'),
    ('the step upside down', 'divided(be(header, 4122, 2), be(header, 4124, 2))',
     'divided(be(header, 4124, 2), be(header, 4122, 2))'),
    ('the end before the start', 'minutes(header, 286, edition) - minutes(header, 282, edition)',
     'minutes(header, 282, edition) - minutes(header, 286, edition)'),
    ('31 has times', 'if edition == 31:', 'if edition == -1:'),
    ('179 has whole times', "'>f' if edition == 179 else '>i'", "'>i'"),
    ('130 has single ones', 'if edition == 179 else', 'if edition in (130, 179) else'),
]

KIND = '    if kind not in KINDS:\n        return 1, lent, count\n'
NUMBER = '    if number not in NUMBERS:\n        return 16, lent, count\n'
FIRST = '    answer, found = opened(kind, data)\n    if answer != GIVEN:\n        return answer, lent, count\n'
FITS = 'if len(found) > len(lent):'
NO_ROOM = 'return 15, lent, count'
GIVES = 'return GIVEN, found + lent[len(found):], len(found)'

FETCHING = [
    ('16 before 1', KIND + NUMBER, NUMBER + KIND),
    ('16 behind Open', NUMBER + FIRST, FIRST + NUMBER),
    ('text 0 is the first', NUMBER + FIRST, '    number = number or 1\n' + NUMBER + FIRST),
    ('text 9 is empty', NUMBER, NUMBER.replace('number not in NUMBERS', 'not 1 <= number <= 9')
     + '    if number == 9:\n        answer, found = opened(kind, data)\n        return answer, lent, 0 if found else count\n'),
    ('texts from 0 on', 'found = found[number - 1]', 'found = found[number % 8]'),
    ('kind 0 known', 'if kind not in KINDS:\n        return', 'if kind not in KINDS and kind != 0:\n        return'),
    ('Open behind 15', FIRST, FIRST.replace('    if answer', '    if not lent:\n        return 15, lent, count\n    if answer')),
    ('only its own text has to be good', FIRST, FIRST.replace('    if answer', (
        '    if answer in (7, 8):\n        header = data[:sized(kind, data)]\n        try:\n'
        '            found, answer = [a_text(header, number, be(header, 248, 4))] * 8, GIVEN\n'
        '        except Refused as refused:\n            answer = refused.args[0]\n    if answer'))),
    ('no array is looked at', FIRST, FIRST.replace('opened(kind, data)', 'opened(1 if kind == ARRAY else kind, data)')),
    ('an exact fit refused', FITS, FITS.replace('>', '>=')),
    ('an exact fit refused but for none', FITS, FITS.replace('> len(lent)', '>= len(lent) > 0')),
    ('room for one more', FITS, FITS.replace('len(lent)', 'len(lent) + 1')),
    ('1,024 due', FITS, 'if len(lent) < 1024:'),
    ('as much as fits', FITS + '\n        ' + NO_ROOM, FITS + '\n        found = found[:len(lent)]'),
    ('written on 15', NO_ROOM, 'return 15, found[:len(lent)], count'),
    ('the length on 15', NO_ROOM, 'return 15, lent, len(found)'),
    ('the length 0 on 15', NO_ROOM, 'return 15, lent, 0'),
    ('the length 0 on a refusal', 'return answer, lent, count', 'return answer, lent, 0'),
    ('the length 0 on 16', 'return 16, lent, count', 'return 16, lent, 0'),
    ('the length 0 on 1', 'return 1, lent, count', 'return 1, lent, 0'),
    ('zeros on a refusal', 'return answer, lent, count', 'return answer, bytes(len(lent)), count'),
    ('a zero behind the text', GIVES,
     GIVES.replace('found + lent[len(found):]', '(found + b"\\0" + lent[len(found) + 1:])[:len(lent)]')),
    ('zeros to the end', GIVES, GIVES.replace('found + lent[len(found):]', 'found.ljust(len(lent), b"\\0")')),
    ('at the end of the buffer', GIVES, GIVES.replace('found + lent[len(found):]', 'lent[:len(lent) - len(found)] + found')),
    ('a zero counted', GIVES, GIVES.replace(', len(found)', ', len(found) + 1')),
    ('characters counted', GIVES, GIVES.replace(', len(found)', ', len(found.decode())')),
    ('the room counted', GIVES, GIVES.replace(', len(found)', ', len(lent)')),
    ('no length of an empty one', GIVES, GIVES.replace(', len(found)', ', len(found) or count')),
    ('finished', GIVES, GIVES.replace('GIVEN', '0')),
]

ALL_FIRST = '    answer, found = opened(kind, data)\n    if answer != GIVEN:\n        return answer, lent, starts, lengths\n'
WHOLE = "whole = b''.join(found)"
ALL_FIT = 'if len(whole) > len(lent):'
NO_ROOM_FOR_ALL = 'return 15, lent, starts, lengths'
EACH = '[len(text) for text in found]'
EIGHT = 'lengths = ' + EACH
WHERE = 'starts = [sum(lengths[:i]) for i in range(8)]'
GIVES_ALL = 'return GIVEN, whole + lent[len(whole):], starts, lengths'

FETCHING_ALL = [
    ('all: ends for starts', WHERE, WHERE.replace('[:i]', '[:i + 1]')),
    ('all: starts one too large', WHERE, WHERE.replace('sum(', '1 + sum(')),
    ('all: 0 starts an empty one', WHERE, WHERE.replace('sum(lengths[:i])', 'sum(lengths[:i]) if lengths[i] else 0')),
    ('all: starts of empty ones left', WHERE, 'starts = [sum(lengths[:i]) if lengths[i] else starts[i] for i in range(8)]'),
    ('all: lengths of empty ones left', EIGHT + '\n    ' + WHERE,
     'told, lengths = lengths, %s\n    %s\n    lengths = [a or b for a, b in zip(lengths, told)]' % (EACH, WHERE)),
    ('all: a start for each 765 bytes', WHERE, 'starts = [765 * i for i in range(8)]'),
    ('all: a zero between', WHOLE, "found = [text + b'\\0' for text in found]\n    " + WHOLE),
    ('all: a zero behind the last', GIVES_ALL,
     GIVES_ALL.replace('whole + lent[len(whole):]', '(whole + b"\\0" + lent[len(whole) + 1:])[:len(lent)]')),
    ('all: zeros to the end', GIVES_ALL, GIVES_ALL.replace('whole + lent[len(whole):]', 'whole.ljust(len(lent), b"\\0")')),
    ('all: from the last on', WHOLE, "whole = b''.join(found[::-1])"),
    ('all: the last two swapped', WHOLE, 'found = found[:6] + found[:5:-1]\n    ' + WHOLE),
    ('all: characters counted', EIGHT, 'lengths = [len(text.decode()) for text in found]'),
    ('all: an exact fit refused', ALL_FIT, ALL_FIT.replace('>', '>=')),
    ('all: an exact fit refused but for none', ALL_FIT, ALL_FIT.replace('> len(lent)', '>= len(lent) > 0')),
    ('all: room for one more', ALL_FIT, ALL_FIT.replace('len(lent)', 'len(lent) + 1')),
    ('all: room for the longest', ALL_FIT, 'if max(map(len, found)) > len(lent):'),
    ('all: room for the last not needed', ALL_FIT, 'if len(whole) - len(found[7]) > len(lent):'),
    ('all: 6,120 due', ALL_FIT, 'if len(lent) < 6120:'),
    ('all: what fits written on 15', NO_ROOM_FOR_ALL, 'return 15, whole[:len(lent)], starts, lengths'),
    ('all: the sample written on 15', NO_ROOM_FOR_ALL,
     'return 15, found[0] + lent[len(found[0]):] if len(found[0]) <= len(lent) else lent, starts, lengths'),
    ('all: starts on 15', NO_ROOM_FOR_ALL, 'return 15, lent, [sum(map(len, found[:i])) for i in range(8)], lengths'),
    ('all: lengths on 15', NO_ROOM_FOR_ALL, 'return 15, lent, starts, %s' % EACH),
    ('all: Open behind 15', ALL_FIRST,
     ALL_FIRST.replace('    if answer', '    if not lent:\n        return 15, lent, starts, lengths\n    if answer')),
    ('all: zeros on a refusal', 'return answer, lent, starts, lengths', 'return answer, lent, [0] * 8, [0] * 8'),
    ('all: a byte written on a refusal', 'return answer, lent, starts, lengths',
     'return answer, b"x"[:len(lent)] + lent[1:], starts, lengths'),
    ('all: no array is looked at', ALL_FIRST,
     ALL_FIRST.replace('opened(kind, data)', 'opened(1 if kind == ARRAY else kind, data)')),
    ('all: every kind known', ALL_FIRST, ALL_FIRST.replace('opened(kind, data)', 'opened(kind if kind in KINDS else 1, data)')),
    ('all: finished', GIVES_ALL, GIVES_ALL.replace('GIVEN', '0')),
]

# What is wrong in Open has to be told by each function alone: a library may open in two ways.
EDITS = [(edit, ('text', 'texts')) for edit in (*TRIMMING, *UTF8, *UTF16, *places(), *EDITIONS, *OPENING)]
EDITS += [(edit, ('text',)) for edit in FETCHING] + [(edit, ('texts',)) for edit in FETCHING_ALL]
