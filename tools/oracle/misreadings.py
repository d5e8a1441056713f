#!/usr/bin/env python3
"""Shows that the generated runs tell misreadings from the original: each edit of the model must be caught.

usage: misreadings.py [ORACLE [CASES]]
"""

import sys
import types
from pathlib import Path

sys.dont_write_bytecode = True
import compare
import generate
import model

MODES = ('log', 'single', 'header')

# What is misread, the model's text, the misreading's.
EDITS = [
    # FID
    ('32767 is a delta', 'v == 32767', 'v == 99999'),
    ('-32768 is the escape', 'v == 32767', 'v == -32768'),
    ('high by 65536', '* 65534.0', '* 65536.0'),
    ('low is signed', 'f.be(4, signed=True), f.be(2)', 'f.be(4, signed=True), f.be(2, signed=True)'),
    ('a restart keeps the slope', '            self.slope = 0.0\n', ''),
    ('deltas without a slope', 'self.slope += float(v)', 'self.slope = float(v)'),
    ('time begins at start', 'header.start - 0.2', 'header.start'),
    ('time by count', 'self.time += 0.2', 'self.time = round(self.time + 0.2, 9)'),
    ('offset before the multiplier',
     'value * self.multiplier + self.offset',
     '(value + self.offset) * self.multiplier'),
    ('no offset', 'value * self.multiplier + self.offset', 'value * self.multiplier'),
    # MWD
    ('the top four bits count', '% 4096', '% 65536'),
    ('a group clears the value', 'points = f.be(2) % 4096', 'points, self.value = f.be(2) % 4096, 0.0'),
    ('an absolute is added', 'float(f.be(4, signed=True)) if', 'self.value + float(f.be(4, signed=True)) if'),
    ('a group of none goes on',
     '                raise Finished\n'
     '        v = f.be',
     '                points = 1\n'
     '        v = f.be'),
    # MS
    ('a count of 14 is refused', 'count < 14', 'count <= 14'),
    ('a count of 13 is taken', 'count < 14', 'count < 13'),
    ('the count is checked behind the time',
     '            if count < 14:\n'
     '                raise Refusal(11)\n',
     '            f.take(4)\n'
     '            f.at -= 4\n'
     '            if count < 14:\n'
     '                raise Refusal(11)\n'),
    ('points rounded up', '(count - 14) // 2', '(count - 13) // 2'),
    ('eleven bytes passed over', 'f.take(12)', 'f.take(11)'),
    ('empty scans are not spent',
     '                f.take(10)\n'
     '                scans -= 1',
     '                f.take(10)'),
    ('an empty scan has no footer', '                f.take(10)\n', ''),
    ('a scan has no footer',
     '            f.take(10)\n'
     '            scans -= 1\n'
     '        self',
     '            scans -= 1\n'
     '        self'),
    ('powers of two', '8 ** (r', '2 ** (r'),
    ('fifteen bits', '(r % 16384)', '(r % 32768)'),
    # DAD
    ('another type goes on', 'f.le(2) != 67', 'f.le(2) < 0'),
    ('none due is seen before the 8 bytes',
     '            f.take(8)\n'
     '            if due == 0:\n'
     '                raise Finished',
     '            if due == 0:\n'
     '                raise Finished\n'
     '            f.take(8)'),
    ('length less 24', 'f.le(2) - 22', 'f.le(2) - 24'),
    ('an absolute takes 2', 'due - 6', 'due - 2'),
    ('a delta takes 1', 'due - 2, 0', 'due - 1, 0'),
    ('the last scan is read whole',
     'if self.scans == 0:\n'
     '            raise Finished\n'
     '        scans, due',
     'if self.scans == 0 and self.bytes == 0:\n'
     '            raise Finished\n'
     '        scans, due'),
    ('the value runs on over scans',
     '            value = 0.0\n'
     '            scans -= 1',
     '            value = self.value\n'
     '            scans -= 1'),
    ('the first point adds the step', 'wavelength = float(f.le(2))\n', 'wavelength = float(f.le(2)) + 20\n'),
    ('scaled not by 2000', 'value / 2000', 'value / 1000'),
    # UV
    ('start at the end is refused', 'first > final', 'first >= final'),
    ('no point for the end', '(final - first) // apart + 1', 'max((final - first) // apart, 1)'),
    ('one-point scans are spent', 'if self.points == 1:', 'if points == 1:'),
    ('bounds checked after the step',
     'if first > final:\n'
     '                raise Refusal(12)\n'
     '            apart = f.le(2)',
     'apart = f.le(2)\n'
     '            if first > final:\n'
     '                raise Refusal(12)'),
    ('step checked after its eight bytes',
     'apart = f.le(2)\n'
     '            if apart == 0:\n'
     '                raise Refusal(13)',
     'apart = f.le(2)\n'
     '            f.take(8)\n'
     '            f.at -= 8\n'
     '            if apart == 0:\n'
     '                raise Refusal(13)'),
    ('the wavelength begins one step on', 'first / 20 - step', 'first / 20'),
    ('no multiplier', 'self.wavelength, value, value * self.multiplier', 'self.wavelength, value, value'),
    # Array
    ('time grows behind the record',
     'self.time += self.step\n'
     '        return self.time,',
     'self.time += self.step\n'
     '        return self.time - self.step,'),
    ('big-endian', "'<f', f.take(4)", "'>f', f.take(4)"),
    ('no f64 by GC', "data[348:352] == b'G\\0C\\0'", 'False'),
    ('no f64 by Mustang', "data[3090:3104] == b'M\\0u\\0s\\0t\\0a\\0n\\0g\\0'", 'False'),
    ('one scan fewer', '1 + (int(quotient)', '0 + (int(quotient)'),
    ('step in seconds', 'float(denominator)) / 60', 'float(denominator)) / 1'),
    ('NaN gives no scan',
     '(int(quotient) if quotient >= 1 else 0)',
     '(int(quotient) if quotient >= 1 else 0 if quotient == quotient else -1)'),
    # Header
    ('above 19,968 is refused', 'size > 20000', 'size > 19999'),
    ('below 514 is refused', 'size < 512', 'size < 514'),
    ('MS counts pages', '(1 if kind == MS else 256)', '256'),
    ('edition 31 has times', 'if self.edition == 31:', 'if self.edition == 0:'),
    ('edition 179 has whole times', "'>f' if self.edition == 179 else '>i'", "'>i'"),
    ('edition 81 has no offset', 'self.f64(636) if edition in (30, 81)', 'self.f64(636) if edition in (30,)'),
    ('131 has the multiplier elsewhere', '131: 3085', '131: 3086'),
    ('130 needs 4,802', '130: 4800', '130: 4802'),
    ('81 needs 654', '81: 652', '81: 654'),
    ('131 needs 4,002', '131: 4000', '131: 4002'),
    ('units in 30', '(244, 64) if edition == 81', '(244, 64) if edition in (30, 81)'),
    ('signal in 131', 'None if edition == 131 else 4213', '4213'),
    ('date elsewhere', '(178, 60)]', '(179, 60)]'),
    ('dates of new editions elsewhere', '2391]', '2392]'),
    ('units before the signal',
     '(596, 40) if edition in (30, 81) else None,\n'
     '                      (244, 64) if edition == 81 else None,',
     '(244, 64) if edition == 81 else None,\n'
     '                      (596, 40) if edition in (30, 81) else None,'),
    ('instrument one shorter', '(208, 20)', '(208, 19)'),
    ('operator one shorter', '(148, 28)', '(148, 27)'),
    ('sample one shorter', '(24, 60)', '(24, 59)'),
    ('trimmed of controls too', 'text[first] in WHITE', 'text[first].isspace()'),
    ('U+0085 is not white', '0x85, ', ''),
    ('trimmed in front only', 'text[behind - 1] in WHITE', 'False'),
    ('a pair is two U+FFFD', '0xDC00 <= units[i] < 0xE000', 'False'),
    ('two units lost after a lone surrogate', 'u = 0xFFFD', 'u, i = 0xFFFD, i + 1'),
    ('UTF-16 is big-endian', "'<%dH'", "'>%dH'"),
    # The log program
    ('a full buffer is the last', '(BUFFER, False)', '(BUFFER, True)'),
    ('a larger buffer', 'BUFFER = 32768', 'BUFFER = 32769'),
    ('a smaller buffer', 'BUFFER = 32768', 'BUFFER = 32767'),
]


def edited(source, old, new):
    """The module that the edit makes of a model's source."""
    if source.count(old) != 1:
        sys.exit('stands %d times in the model: %s' % (source.count(old), old))
    module = types.ModuleType('misread')
    exec(compile(source.replace(old, new), 'misread', 'exec'), module.__dict__)
    return module


def misread(source, old, new):
    return edited(source, old, new).MODES


def answered(mode, case):
    try:
        return mode(case).splitlines()
    except Exception as error:  # a misreading may fail in any way
        return [repr(error)]


def main():
    oracle = sys.argv[1] if len(sys.argv) > 1 else str(compare.ROOT / 'target/oracle/oracle')
    count = int(sys.argv[2]) if len(sys.argv) > 2 else 6000
    source = Path(model.__file__).read_text()
    cases = [generate.case('misread', i)[1] for i in range(count)]
    due = {mode: compare.in_batch([oracle, 'batch'], mode, cases) for mode in MODES}
    missed = 0
    for what, old, new in EDITS:
        modes, caught = misread(source, old, new), None
        for i, case in enumerate(cases):
            for mode in MODES:
                lines = due[mode][i].splitlines()
                # By the original alone: what is outside counts for nothing.
                if not lines[-1].startswith('#') and answered(modes[mode], case) != lines:
                    caught = caught or (i, mode)
            if caught:
                break
        missed += caught is None
        print('%-40s %s' % (what, 'case %d, %s' % caught if caught else 'MISSED'))
    print('%d misreadings, %d missed' % (len(EDITS), missed))
    return 1 if missed else 0


if __name__ == '__main__':
    if '--help' in sys.argv[1:]:
        sys.exit(print(__doc__.strip()))
    sys.exit(main())
