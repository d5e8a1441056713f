#!/usr/bin/env python3
"""The oracle and the model on document 01's printed run and specimens, and the model of the log's foot on the printed run.

usage: selftest.py [ORACLE]        the built oracle; target/oracle/oracle if not given
"""

import struct
import subprocess
import sys
from pathlib import Path

sys.dont_write_bytecode = True
import foot
import model

PRINTED = '''h 2 512
r 0000000000000000 - 4014000000000000 4014000000000000
r 3FC999999999999A - 4028000000000000 4028000000000000
e 0 2
'''


def headed(kind, stream='', word=None, edition=2, size=None, scans=0, **numbers):
    """A case: a header that is zero but for what is given, then the stream in hexadecimal."""
    size = size or 512
    data = bytearray(size)
    struct.pack_into('>I', data, 248, edition)
    struct.pack_into('>I', data, 264, (size // 2 if kind == 2 else size // 512) + 1 if word is None else word)
    struct.pack_into('>I', data, 278, scans)
    struct.pack_into('>ii', data, 282, numbers.get('start', 0), numbers.get('end', 0))
    if 'step' in numbers:
        struct.pack_into('>HH', data, 4122, *numbers['step'])
    return b'%d' % kind + bytes(data) + bytes.fromhex(stream)


def closing(text):
    return text.splitlines()[-1].split()[1]


def size(text):
    return text.splitlines()[0].split()[2]


def values(text):
    """The unscaled intensities."""
    return [struct.unpack('>d', bytes.fromhex(line.split()[3]))[0] for line in text.splitlines() if line[0] == 'r']


def sized(kind, word):
    """A file of 20,000 zero bytes of edition 2 with this size word."""
    return headed(kind, word=word, size=20000)


MS_HEAD = '00000000' + '00' * 12
DAD_SCAN = '4300 1A00 00000000 A00F C80F 1400' + '00' * 8
UV_SCAN = '43000000 00000000 A00F C80F 1400' + '00' * 8

# What is looked at, the case, the answer looked for.
SPECIMENS = [
    (closing, sized(1, 0), '2'),
    (closing, sized(2, 0), '2'),
    (closing, sized(1, 1), '3'), (size, sized(1, 2), '512'),
    (size, sized(1, 40), '19968'), (closing, sized(1, 41), '4'),
    (closing, sized(2, 256), '3'), (size, sized(2, 257), '512'),
    (size, sized(2, 10001), '20000'), (closing, sized(2, 10002), '4'),
    (values, headed(1, '0005 0002 FFFF'), [5, 12, 18]),
    (values, headed(1, '0005 0002 FFFF 7FFF 00000001 0003 0004'), [5, 12, 18, 65537, 65541]),
    (values, headed(3, '1002 0005 8000 FFFFFFFE 1001 0003'), [5, -2, 1]),
    (values, headed(2, '0010' + MS_HEAD + '0000 4003' + '00' * 10, scans=1), [24]),
    (values, headed(2, '0010' + MS_HEAD + '0000 FFFF' + '00' * 10, scans=1), [8388096]),
    (closing, headed(2, '000D' + MS_HEAD, scans=1), '11'),
    (str, headed(2, '000F' + MS_HEAD + '00' * 10, scans=1), 'h 2 512\ne 0 0\n'),
    (values, headed(4, DAD_SCAN + '0A00 F6FF', scans=2), [10, 0]),
    (values, headed(4, DAD_SCAN + '0A00 F6FF', scans=1), [10]),
    (values, headed(5, UV_SCAN + '0100 0100 0100', scans=1), [1, 2, 3]),
    (values, headed(6, '00' * 48, edition=131, size=4608, end=600000, step=(60, 1)), [0] * 11),
    (closing, headed(6, '00' * 48, edition=131, size=4608, end=600000, step=(60, 1)), '0'),
    (closing, b'', '1'), (closing, b'7', '1'), (closing, b'1', '14'),
]

# The run date's place, which the original shows as a date only.
DATES = [
    (2, 178, b'\x14' + b'04/15/13 10:22:31 AM', 'Some(2013-04-15T10:22:31)'),
    (131, 2391, b'\x13' + '15-Apr-13, 10:22:31'.encode('utf-16-le'), 'Some(2013-04-15T10:22:31)'),
    (131, 2391, b'\x00', 'None'),
]


def main():
    oracle = sys.argv[1] if len(sys.argv) > 1 else str(Path(__file__).resolve().parents[2] / 'target/oracle/oracle')

    def asked(mode, case):
        return subprocess.run([oracle, mode], input=case, capture_output=True, check=True).stdout.decode()

    failed = 0

    def expect(what, got, due):
        nonlocal failed
        if got != due:
            failed += 1
            print('FAILED %s\n  got %s\n  due %s' % (what, got, due))

    expect('printed run, oracle', asked('log', headed(1, '00050002')), PRINTED)
    expect('printed run, model', model.log(headed(1, '00050002')), PRINTED)
    expect('printed run with its sum', foot.log(headed(1, '00050002')), PRINTED.replace('e 0', 't 17\ne 0'))
    for i, (look, case, due) in enumerate(SPECIMENS):
        for name, text in (('oracle', asked('log', case)), ('model', model.log(case))):
            expect('specimen %d, %s' % (i, name), look(text), due)
    for edition, at, text, due in DATES:
        case = bytearray(headed(1, edition=edition, size=4608))
        case[1 + at:1 + at + len(text)] = text
        expect('date of edition %d' % edition, asked('date', bytes(case)).strip(), due)
    print('%d checks, %d failed' % (3 + 2 * len(SPECIMENS) + len(DATES), failed))
    return 1 if failed else 0


if __name__ == '__main__':
    if '--help' in sys.argv[1:]:
        sys.exit(print(__doc__.strip()))
    sys.exit(main())
