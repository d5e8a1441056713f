"""Wrong models of the atlas reading: what is misread, the text of atlas.py, the misreading's, and the groups of generated cases of
which each has to tell it. Some are told by few: from Open on no scan begins with none due, so that only made states can."""

ALL = ('runs', 'states', 'logs')
STATE = ('runs', 'states')  # the rows come out the same, or a log has no such thing
MADE = ('states',)
OPEN = ('openings', 'logs')

ENDS = 'if scans == 0 and due == 0:\n        raise Finished'
TYPE = 'if f.le(2) != 67:\n            raise Finished'
LENGTH = 'due = max(f.le(2) - 22, 0)'
NO_POINTS = 'if due == 0:\n            raise Finished\n        time'
STARTS = 'time, wavelength, step, value = float(stored), float(first), float(apart), 0.0'
TAKEN = 'value, taken = delta(f, value)'
FALLS = 'due = max(due - taken, 0)'
SPENT = 'if due == 0:\n        # Only'
DEBIT = 'scans = max(scans - 1, 0)'

DAD = [
    ('ends at no scans or no bytes due', ENDS, ENDS.replace('and', 'or'), ALL),
    ('ends at no scans due alone', ENDS, ENDS.replace(' and due == 0', ''), MADE),
    ('ends at no bytes due alone', ENDS, ENDS.replace('scans == 0 and ', ''), ALL),
    ('does not end with its scans', ENDS, '', ALL),
    ('waits for a type behind the last scan', ENDS, ENDS.replace('raise', 'f.take(2)\n        raise'), ALL),
    ('waits for a byte behind the last scan', ENDS, ENDS.replace('raise', 'f.take(1)\n        raise'), ALL),
    ('waits for a head behind the last scan', ENDS, ENDS.replace('raise', 'f.take(22)\n        raise'), ALL),
    ('goes on at a scan behind the last', ENDS,
     ENDS.replace('due == 0:', 'due == 0 and f.data[f.at:f.at + 2] != b"C\\0":'), ALL),
    ('the type is not looked at', TYPE, 'f.le(2)', ALL),
    ('another type waits for its head', TYPE, TYPE.replace('raise', 'f.take(20)\n            raise'), ALL),
    ('another type waits for its length', TYPE, TYPE.replace('raise', 'f.take(2)\n            raise'), ALL),
    ('another type is looked at in its low byte', TYPE, TYPE.replace('f.le(2)', 'f.le(2) % 256'), STATE),
    ('a scan without points is passed over and spent', NO_POINTS,
     NO_POINTS.replace('raise Finished', 'return dad(numbers, [DAD, max(scans - 1, 0), 0, 0], stored, f)'), ALL),
    ('a scan without points is passed over', NO_POINTS,
     NO_POINTS.replace('raise Finished', 'return dad(numbers, [DAD, scans, 0, 0], stored, f)'), ALL),
    ('a scan without points ends it before its head is read', LENGTH, LENGTH + '\n        if due == 0:\n            raise Finished', ALL),
    ('a scan without points is refused', NO_POINTS, NO_POINTS.replace('Finished', 'Refusal(11)'), ALL),
    ('a length below 22 wraps', LENGTH, 'due = (f.le(2) - 22) % 2**16', ALL),
    ('the length is that of the points', LENGTH, 'due = f.le(2)', ALL),
    ('an odd byte of the length is dropped', LENGTH, LENGTH + ' // 2 * 2', ALL),
    ('an odd byte of the length is two', LENGTH, 'due = (max(f.le(2) - 22, 0) + 1) // 2 * 2', STATE),
    ('a scan as a whole or not at all', NO_POINTS, NO_POINTS.replace('time', 'f.take(due)\n        f.at -= due\n        time'), ALL),
    ('the value is not cleared at a scan', STARTS, STARTS.replace('0.0', 'value'), ALL),
    ('a step before the first point', STARTS, STARTS.replace('float(first)', 'float(first) + apart'), ALL),
    ('the wavelength stands still', '    else:\n        wavelength += step\n', '', ALL),
    ('an absolute does not pass the length', TAKEN, TAKEN + '\n    if taken == 6 and due < 6:\n        raise model.Short', ALL),
    ('an absolute past the length ends it', TAKEN, TAKEN + '\n    if taken == 6 and due < 6:\n        raise Finished', ALL),
    ('an absolute past the length is cut back', TAKEN, TAKEN + '\n    f.at -= max(taken - due, 0) if taken == 6 else 0', ALL),
    ('one byte due ends it', TAKEN, 'if due == 1:\n        raise Finished\n    ' + TAKEN, ALL),
    ('one byte due is one byte read', TAKEN, TAKEN + '\n    f.at -= due == 1', ALL),
    ('one byte due is none', FALLS, FALLS + '\n    due = due if due > 1 else 0', ALL),
    ('an absolute is debited by 2', FALLS, FALLS.replace('taken', '2'), ALL),
    ('an absolute is debited by 4', FALLS, FALLS.replace('taken', 'min(taken, 4)'), ALL),
    ('a delta is debited by 1', FALLS, FALLS.replace('taken', '(taken // 6 * 5 + 1)'), ALL),
    ('bytes due wrap below 0', FALLS, 'due = (due - taken) % 2**64', ALL),
    ('bytes due are 16 bits', FALLS, FALLS.replace('max(due', 'max(due % 2**16'), MADE),
    ('bytes due are 32 bits', FALLS, FALLS.replace('max(due', 'max(due % 2**32'), MADE),
    ('debited with the first point', SPENT, SPENT.replace('due', 'counts[2]'), STATE),
    ('debited with the first point, ended by it', SPENT, SPENT.replace('due', 'counts[2]').replace(
        'if', 'if scans == 1 and counts[2] == 0:\n        due = 0\n    if'), ALL),
    ('debited where two bytes were due', SPENT, SPENT.replace('due == 0', 'counts[2] == 2'), ALL),
    ('debited where one delta was due, or a byte', SPENT, SPENT.replace('due == 0', '0 < counts[2] <= 2'), ALL),
    ('debited by a delta only', SPENT, SPENT.replace('due == 0', 'due == 0 and taken == 2'), ALL),
    ('debited with every point', SPENT, SPENT.replace('due == 0', 'True'), ALL),
    ('never debited', DEBIT, 'pass', ALL),
    ('debited by two', DEBIT, 'scans = max(scans - 2, 0)', ALL),
    ('the debit wraps below 0', DEBIT, 'scans = (scans - 1) % 2**64', MADE),
    ('the debit refuses below 0', DEBIT, 'if scans == 0:\n            raise Finished\n        scans -= 1', MADE),
    ('scans due are 32 bits', DEBIT, 'scans = max(scans % 2**32 - 1, 0)', MADE),
    ('scans due are signed', DEBIT, 'scans = max(scans - 1, 0) if scans < 2**63 else 0', MADE),
]

UV_ENDS = 'if scans == 0:\n        raise Finished'
UV_STARTS = 'time, step, value = stored / 60000, apart / 20, 0.0'
UV_SPENT = 'if points == 0:\n        scans -= 1'

UV = [
    ('UV: debited where one was due before', UV_SPENT, UV_SPENT.replace('points == 0', 'counts[2] == 1'), ALL),
    ('UV: debited with the first point', UV_SPENT, UV_SPENT.replace('points == 0', 'counts[2] == 0'), ALL),
    ('UV: debited where one is left', UV_SPENT, UV_SPENT.replace('points == 0', 'points == 1'), ALL),
    ('UV: debited with every point', UV_SPENT, UV_SPENT.replace('points == 0', 'True'), ALL),
    ('UV: never debited', UV_SPENT, '', ALL),
    ('UV: one-point scans debited alone', UV_SPENT, UV_SPENT.replace('points == 0', 'points == counts[2] == 0'), ALL),
    ('UV: one-point scans debited twice', UV_SPENT, UV_SPENT + ' + (counts[2] == 0 and scans > 1)', ALL),
    ('UV: a one-point scan ends it', UV_SPENT, UV_SPENT + ' if counts[2] else scans', ALL),
    ('UV: ends at no scans and no points due', UV_ENDS, UV_ENDS.replace(':', ' and points == 0:', 1), MADE),
    ('UV: ends behind its first scan', UV_ENDS, UV_ENDS.replace(':', ' or points == 0 and stored:', 1), ALL),
    ('UV: does not end with its scans', UV_ENDS, 'scans = max(scans, 1)', ALL),
    ('UV: waits behind the last scan', UV_ENDS, UV_ENDS.replace('raise', 'f.take(4)\n        raise'), ALL),
    ('UV: waits for a byte behind the last scan', UV_ENDS, UV_ENDS.replace('raise', 'f.take(1)\n        raise'), ALL),
    ('UV: the value is not cleared at a scan', UV_STARTS, UV_STARTS.replace('0.0', 'value'), ALL),
    ('UV: a step before the first point', 'wavelength = first / 20 - step', 'wavelength = first / 20', ALL),
    ('UV: 12 waits for the head', 'raise Refusal(12)', 'f.take(10)\n            raise Refusal(12)', ALL),
    ('UV: 12 waits for the step', 'raise Refusal(12)', 'f.take(2)\n            raise Refusal(12)', ALL),
    ('UV: 13 waits for the head', 'raise Refusal(13)', 'f.take(8)\n            raise Refusal(13)', ALL),
    ('UV: start above end ends it', 'raise Refusal(12)', 'raise Finished', ALL),
    ('UV: step 0 is one point', 'raise Refusal(13)', 'apart = 65536', ALL),
    ('UV: a point too few', '// apart + 1', '// apart or 1', ALL),
    ('UV: points due are 32 bits', 'points -= 1', 'points = (points - 1) % 2**32', MADE),
    ('-32768 is a delta', 'if v == -32768 else', 'if False else', ALL),
    ('an absolute is added', '(float(f.le(4', '(value + float(f.le(4', ALL),
]

PLAINLY = 'if reading == PLAIN:'
NOT_OURS = 'if reading != ATLAS or kind not in STREAMS:'
NO_STATE = 'return UNKNOWN, [0, 0], numbers, counts, stored, columns'
CLOSES = 'answer = minutes.number(closing)\n'
ON = '            rows += 1\n'

FILL = [
    ('the plain rule for both', PLAINLY, 'if reading in (PLAIN, ATLAS):', ALL),
    ('the plain rule behind the first record', ON, ON + '''
            answer, (more, taken), *state, rest = minutes.fill(*state, data[at:], last, [column[rows:] for column in columns])
            columns = [column[:rows] + added for column, added in zip(columns, rest)]
            rows, at = rows + more, at + taken
''', ALL),
    ('the plain rule for DAD', PLAINLY, 'if reading == PLAIN or reading == ATLAS and counts[0] == DAD:', ALL),
    ('the plain rule for UV', PLAINLY, 'if reading == PLAIN or reading == ATLAS and counts[0] == UV:', ALL),
    ('the atlas rule for both', PLAINLY, 'if reading == PLAIN and counts[0] in STREAMS:\n        reading = ATLAS\n    ' + PLAINLY, STATE),
    ('2 is atlas too', NOT_OURS, NOT_OURS.replace('!= ATLAS', 'not in (1, 2)'), MADE),
    ('255 is atlas too', NOT_OURS, NOT_OURS.replace('!= ATLAS', 'not in (1, 255)'), MADE),
    ('any but 0 is atlas', NOT_OURS, 'if kind not in STREAMS:', MADE),
    ('the lowest bit is the reading', PLAINLY, 'reading %= 2\n    ' + PLAINLY, MADE),
    ('2 is plain too', PLAINLY, 'if reading in (0, 2):', MADE),
    ('any but 1 is plain', PLAINLY, 'if reading != ATLAS:', MADE),
    *(('kind %d is read plainly' % kind, PLAINLY, 'if reading == PLAIN or reading == ATLAS and counts[0] == %d:' % kind, MADE)
      for kind in (1, 2, 3, 6)),
    ('another kind is 18 to Fill', NO_STATE,
     NO_STATE.replace('UNKNOWN', '18 if reading == ATLAS and kind in model.STREAMS else UNKNOWN'), MADE),
    ('15 before an unknown reading', NO_STATE,
     NO_STATE.replace('UNKNOWN', 'UNKNOWN if len(set(map(len, columns))) == 1 else LENT_LENGTH'), MADE),
    ('given is left with an unknown reading', NO_STATE, NO_STATE.replace('0, 0', '2**32 - 1, 2**32 - 2'), MADE),
    ('the state is cleared with an unknown reading', NO_STATE, NO_STATE.replace('numbers, counts, stored', '[0.0] * 6, [0] * 4, 0'), MADE),
    ('places without a use are cleared then', NO_STATE, NO_STATE.replace('counts', '[*counts[:3], 0]'), MADE),
    ('places without a use are kept',
     '[*numbers[:USED[kind]], 0.0, 0.0][:6], [*counts[:3], 0], stored', 'numbers, counts, stored', MADE),
    ('finished consumes its type or head', CLOSES, CLOSES + "            at = f.at if closing == '0' else at\n", STATE),
    ('a scan without points is spent by finished', CLOSES, CLOSES + "            if closing == '0' and f.at - at == 22:\n"
     '                state[1][1] = max(state[1][1] - 1, 0)\n', STATE),
    ('a cut scan is spent where the bytes are the last', CLOSES, CLOSES + "            if closing == '14' and state[1][2]:\n"
     '                state[1][1] = max(state[1][1] - 1, 0)\n', STATE),
    ('not finished before more bytes are seen', CLOSES,
     CLOSES[:-1] + " if closing != '0' or last or at < len(data) else minutes.MORE\n", STATE),
    ('finished where the last bytes are all read', CLOSES, CLOSES[:-1] + " if closing != '14' or at < len(data) else 0\n", ALL),
    ('finished in full columns', ' if rows < room else (None, FULL)',
     '\n        closing = closing or (FULL if rows == room else None)', STATE),
    ("the caller's stored time in every row", 'minutes.split(state[2])', 'minutes.split(stored)', STATE),
    ('the sixth not in the length check', 'for column in columns) else', 'for column in columns[:5]) else', STATE),
    ('zeros behind the count', '    return (answer, [rows, at]',
     '    columns = [column[:rows] + [0 * x for x in column[rows:]] for column in columns]\n    return (answer, [rows, at]', STATE),
]

OTHERS = 'kind in model.STREAMS and kind not in STREAMS'
IS_18 = 'return ANOTHER_KIND, lent'
REFUSED = 'return answer, lent'
GIVES = '*state, reading)'


def waits(condition):
    return '''return (ANOTHER_KIND if %s else 14 if last else minutes.MORE), lent''' % condition


def first(call):
    """Another refusal comes first."""
    return '_, closing = model.asked(lambda: %s, last)\n        return (minutes.number(closing) if closing else ANOTHER_KIND), lent' % call


OPENING = [
    ('18 before 1', OTHERS, 'kind not in STREAMS', OPEN),
    ('18 behind a byte', IS_18, waits('data'), OPEN),
    ('18 behind 268 bytes', IS_18, waits('len(data) >= 268'), OPEN),
    ("18 behind the header's size", IS_18, first('model.header_size(kind, model.Fields(data))'), OPEN),
    ('18 behind Open', IS_18, first('model.Header(kind, model.Fields(data))'), OPEN),
    ('18 of the last bytes only', 'if reading == ATLAS and', 'if reading == ATLAS and last and', ('openings',)),
    *(('no 18 for kind %d' % kind, OTHERS, OTHERS + ' and kind != %d' % kind, OPEN) for kind in (1, 2, 3, 6)),
    *(('18 for kind %d too' % kind, OTHERS, OTHERS.replace('kind not in STREAMS', '(kind == %d or kind not in STREAMS)' % kind), OPEN)
      for kind in (4, 5)),
    ('18 by the plain opening', 'if reading == ATLAS and', 'if', ('openings',)),
    ('1 in the place of 18', IS_18, 'return UNKNOWN, lent', OPEN),
    ('18 for 1 and 1 for 18', 'if reading == ATLAS and ' + OTHERS + ':\n        ' + IS_18,
     'if reading == ATLAS and kind not in STREAMS:\n        return (UNKNOWN if kind in model.STREAMS else ANOTHER_KIND), lent', OPEN),
    *(('%d in the place of %d by the atlas opening' % (wrong, number), REFUSED,
       'return (%d if reading == ATLAS and answer == %d else answer), lent' % (wrong, number), OPEN if number < 100 else ('openings',))
      for number, wrong in ((2, 3), (3, 2), (4, 3), (5, 6), (6, 5), (7, 8), (8, 7), (14, 0), (101, 14))),
    ('the reading is left as it was', GIVES, '*state, lent[-1] if lent else reading)', ('openings', 'runs')),
    ('0 by the atlas opening', GIVES, '*state, PLAIN)', ('openings', 'runs', 'logs')),
    ('1 by the plain opening', GIVES, '*state, ATLAS)', ('openings', 'runs')),
    ('the reading is written by a refusal', REFUSED, 'return answer, lent and (*lent[:-1], reading)', ('openings', 'runs')),
    ('the reading is written by 18', IS_18, 'return ANOTHER_KIND, lent and (*lent[:-1], reading)', ('openings',)),
    ('the reading is written as a word', GIVES, '*state[:2], reading if lent and last else state[2], reading)', ('openings', 'runs')),
    ('a scan more by the atlas opening', 'header, corrections, *state = found',
     'found[3][1] += reading\n    header, corrections, *state = found',
     ('openings', 'runs', 'logs')),
]

TEXT = "return foot.text(case, ['h %d %d' % (edition, size), *rows, 'e %d %d' % (answer, count)])"
SHORT = "return 'e %d 0\\n' % answer"

LOG = [
    ('the log by the plain rule', 'opened(ATLAS, kind, file', 'opened(PLAIN, kind, file', ('logs',)),
    ('no line t', TEXT, "return '\\n'.join(['h %d %d' % (edition, size), *rows, 'e %d %d' % (answer, count), ''])", ('logs',)),
    ('a line t before e 18', SHORT, "return 't 0\\n' * (answer == 18) + 'e %d 0\\n' % answer", ('logs',)),
    ('an h line before e 18', SHORT, "return 'h 0 0\\n' * (answer == 18) + 'e %d 0\\n' % answer", ('logs',)),
    ('nothing for 18', SHORT, "return 'e %d 0\\n' % answer if answer != 18 else ''", ('logs',)),
    ('any byte is a digit', 'case[0] - 48 if case', 'case[0] % 16 if case', ('logs',)),
    ('no digit is 18', 'case[0] - 48 if case else 0', 'case[0] - 48 if case else 1', ('logs',)),
    ('the sum of the plain records', TEXT, TEXT.replace('return', 'lines =') + """.splitlines(True)
    return ''.join([*lines[:-2], foot.log(case).splitlines(True)[-2], lines[-1]])""", ('logs',)),
]

EDITS = DAD + UV + FILL + OPENING + LOG
