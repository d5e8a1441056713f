"""The line `t` at the foot of the log, from the request's words alone.

It is the sum of the unscaled values of the r lines, just before `e`. The original has no such line; the other lines are
those of document 01 (model.py), or the original's own.
"""

import struct

import model

SIZE = 2**53
LEAST, MOST = -2**63, 2**63 - 1
GIVEN, REFUSED = 103, 17


def added(values, total=0):
    """The sum of the values and of what it starts from, or None where it is refused."""
    for x in values:
        # Not below: so NaN, of which nothing is true, is refused too.
        if not abs(x) < SIZE or x != int(x):
            return None
        total += int(x)
        if not LEAST <= total <= MOST:
            return None
    return total


def column(values, start):
    """The library's call: its answer, and what the lent sum holds then."""
    total = added(values, start)
    return (REFUSED, start) if total is None else (GIVEN, total)


def unscaled(line):
    """The unscaled value of an r line."""
    bits = line.split()[3]
    return float('nan') if bits == 'nan' else struct.unpack('>d', bytes.fromhex(bits))[0]


def foot(lines):
    total = added(unscaled(line) for line in lines if line[0] == 'r')
    return 't -' if total is None else 't %d' % total


def footed(case, lines):
    """The lines of the log, given its h, r and e lines."""
    if case[:1] == b'6' or lines[0][0] != 'h':
        return lines
    return lines[:-1] + [foot(lines)] + lines[-1:]


def text(case, lines):
    """The log's text, given the same."""
    return ''.join(line + '\n' for line in footed(case, lines))


def log(case):
    """The text of the log program."""
    return text(case, model.log(case).splitlines())
