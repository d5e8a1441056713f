#!/usr/bin/env python3
"""Judges the sum at the foot of the log, and the library's, by the request's words.

A program is given made and generated runs, whole and damaged, at once and in small pieces, and its whole text is held to the
model of the log with its line `t` (foot.py). The number is worked out twice more: from the bits that the program's own r lines
print, and from the run's bytes in whole numbers (wholes.py). A library is given columns of doubles, whole and in parts.
Prints each fault and saves its case, then one line of counts; status 1 where there was a fault.
"""

import argparse
import collections
import ctypes
import itertools
import os
import pty
import random
import re
import resource
import shlex
import struct
import subprocess
import sys
import tempfile
import tty
from pathlib import Path

sys.dont_write_bytecode = True
import compare
import foot
import misreadings
import model
import sum_cases
import wholes

ROOT = Path(__file__).resolve().parents[2]
CHUNK = 100
FAULTS = 10  # then it is enough

BITS = '(?:[0-9A-F]{16}|nan)'
LINES = {'h': re.compile('h [0-9]+ [0-9]+'),
         'r': re.compile('r %s (?:-|%s) %s %s' % (BITS, BITS, BITS, BITS)),
         't': re.compile('t (?:-|0|-?[1-9][0-9]*)'),
         'e': re.compile('e (?:m|0|[1-9][0-9]*) (?:0|[1-9][0-9]*)')}


# The sum a second and a third time

def whole_of(bits):
    """The whole number that a double's bits are, or None; without a double."""
    exponent, fraction = bits >> 52 & 0x7FF, bits & 2**52 - 1
    if exponent == 0x7FF:
        return None
    shift, size = (exponent - 1075, fraction | 1 << 52) if exponent else (-1074, fraction)
    if shift < 0 and size & (1 << -shift) - 1:
        return None
    size = size << shift if shift > 0 else size >> -shift
    return -size if bits >> 63 else size


def sum_of(numbers, start=0):
    """The sum of whole numbers, or None: each is below 2^53 in size, and so is each sum along the way inside 64 bits."""
    numbers = list(numbers)
    if any(n is None or not -2**53 < n < 2**53 for n in numbers):
        return None
    sums = list(itertools.accumulate(numbers, initial=start))
    return sums[-1] if -2**63 <= min(sums) and max(sums) < 2**63 else None


def printed(total):
    return 't -' if total is None else 't ' + str(total)


def printed_numbers(rows):
    for row in rows:
        bits = row.split(' ')[3]
        yield None if bits == 'nan' else whole_of(int(bits, 16))


# A log

def fault_in(case, text):
    """What is wrong with a program's log of a case: what is due and what came; or None."""
    if not text.endswith('\n'):
        return 'a newline at the end', repr(text[-20:])
    lines = text[:-1].split('\n')
    for line in lines:
        if not (line and line[0] in LINES and LINES[line[0]].fullmatch(line)):
            return 'a line of the log', repr(line)
    letters = ''.join(line[0] for line in lines)
    order = 'hr*te' if letters[0] == 'h' and case[:1] != b'6' else 'hr*e|e'
    if not re.fullmatch(order, letters):
        return 'lines in the order ' + order, ''.join(letter for letter, _ in itertools.groupby(letters))
    rows = [line for line in lines if line[0] == 'r']
    if int(lines[-1].split()[2]) != len(rows):
        return 'a count of %d' % len(rows), lines[-1]
    if 't' in letters and lines[-2] != printed(sum_of(printed_numbers(rows))):
        return printed(sum_of(printed_numbers(rows))) + ' by the bits of the r lines', lines[-2]
    if text != foot.log(case):
        return compare.first_difference(foot.log(case).splitlines(), lines)[1:]
    if 't' in letters:
        values = wholes.values(case[0] - 48, case[1 + int(lines[0].split()[2]):])
        due = printed(sum_of(itertools.islice(values, len(rows))))
        if lines[-2] != due:
            return due + ' by the added-up values', lines[-2]
    return None


class Judge:
    def __init__(self, options):
        self.options = options
        self.counts = collections.Counter()
        self.faults = 0

    def fault(self, name, due, got, case):
        folder = Path(self.options.saved)
        folder.mkdir(parents=True, exist_ok=True)
        file = folder / (re.sub('[^A-Za-z0-9]+', '-', name) + '.case')
        file.write_bytes(case)
        print('FAULT in %s, seed %s\n  due %s\n  got %s\n  saved %s (%d bytes)'
              % (name, self.options.seed, due, got, file, len(case)))
        self.faults += 1
        if self.faults == FAULTS:
            self.report()
            sys.exit(1)

    def log(self, name, case, text):
        self.counts['logs'] += 1
        fault = fault_in(case, text)
        if fault:
            return self.fault(name, *fault, case)
        lines = text.splitlines()
        self.counts['records'] += sum(line[0] == 'r' for line in lines)
        sums = [line for line in lines[-2:] if line[0] == 't']
        self.counts['without a sum' if not sums else 'refused' if sums == ['t -'] else 'with a sum'] += 1

    def programs(self):
        """The program on all runs."""
        command = shlex.split(self.options.log)
        seed = self.options.seed
        for i, (name, case) in enumerate(sum_cases.made(seed)):
            self.log(name, case, compare.one_by_one(command, [case])[0])
            if len(case) < 2**20:
                self.log(name + ', in pieces', case, compare.in_pieces(command, case, random.Random(i)))
        numbers = range(self.options.first, self.options.first + self.options.cases)
        for some in (numbers[i:i + CHUNK] for i in range(0, len(numbers), CHUNK)):
            made = [sum_cases.case(seed, i) for i in some]
            for i, (family, case), text in zip(some, made, compare.one_by_one(command, [case for _, case in made])):
                self.log('%s-%d %s' % (seed, i, family), case, text)
        for i in numbers[:self.options.pieces]:
            family, case = sum_cases.case(seed + '/pieces', i)
            self.log('%s-%d %s in pieces' % (seed, i, family), case, compare.in_pieces(command, case, random.Random(i)))
        for name, case, text in broken(command):
            self.counts['broken off'] += 1
            due = foot.log(case)
            if not due.startswith(text) or '\nt' in text or '\ne' in text or text.startswith('e'):
                self.fault(name, 'the first h and r lines alone', repr(text[-60:]), case)

    def libraries(self):
        """The library on all columns, whole and then in parts."""
        added = Library(self.options.library)
        for i in range(self.options.columns):
            start, patterns = sum_cases.column(self.options.seed, i)
            rng = random.Random('%s/parts/%d' % (self.options.seed, i))
            whole = self.column('column %d' % i, added, start, patterns)
            answer, total = foot.GIVEN, start
            for part in sum_cases.parts(rng, patterns):
                if answer == foot.GIVEN:
                    answer, total = self.column('column %d, a part' % i, added, total, part)
            # In parts the sum stays where the refused part began.
            if answer != whole[0] or answer == foot.GIVEN and total != whole[1]:
                self.fault('column %d, in parts' % i, whole, (answer, total), b'')

    def column(self, name, added, start, patterns):
        values = [struct.unpack('<d', struct.pack('<Q', bits))[0] for bits in patterns]
        due = foot.column(values, start)
        total = sum_of(map(whole_of, patterns), start)
        if due != ((17, start) if total is None else (103, total)):
            sys.exit('the judge is not at one with itself: %s, %s, %s' % (name, due, total))
        got = added(patterns, start)
        self.counts['columns'] += 1
        self.counts['columns refused'] += due[0] == 17
        if got != due:
            self.fault('%s, from %d' % (name, start), due, got, struct.pack('<%dQ' % len(patterns), *patterns))
        return got

    def report(self):
        print(', '.join('%s %d' % pair for pair in self.counts.items()) + ', faults %d' % self.faults)


# Input that fails, and output

def broken(command):
    """Reads and writes that fail: name, case and text. Without its end a log has no sum."""
    case = sum_cases.Trace().restart(2**40).delta(-3).delta(5).case()
    directory = os.open('/', os.O_RDONLY)
    done = subprocess.run(command, stdin=directory, stdout=subprocess.PIPE, stderr=subprocess.DEVNULL, timeout=compare.PATIENCE)
    os.close(directory)
    yield 'a folder as input', b'', done.stdout.decode()
    for length in (1, 300, 513, 520, len(case)):
        yield 'a read that fails behind %d bytes' % length, case, hung_up(command, case[:length])
    long = sum_cases.several_buffers(random.Random('broken'), 1)
    for room in (0, 5, 4096, 40000):
        yield 'a write that fails behind %d bytes' % room, long, with_room(command, long, room)


def hung_up(command, data):
    """The text where the input is a line that is hung up behind the data."""
    line, far = pty.openpty()
    tty.setraw(far)
    with subprocess.Popen(command, stdin=line, stdout=subprocess.PIPE, stderr=subprocess.DEVNULL) as program:
        os.write(far, data)
        os.close(far)
        text = program.communicate(timeout=compare.PATIENCE)[0].decode()
    os.close(line)
    return text


def with_room(command, case, room):
    """The text where the output may grow to so many bytes."""
    def limit():
        resource.setrlimit(resource.RLIMIT_FSIZE, (room, room))
    with tempfile.TemporaryFile() as out, tempfile.TemporaryFile() as given:
        given.write(case)
        given.seek(0)
        subprocess.run(command, stdin=given, stdout=out, stderr=subprocess.DEVNULL, preexec_fn=limit, restore_signals=False,
                       timeout=compare.PATIENCE)
        out.seek(0)
        return out.read().decode()


# The library

class Library:
    """Calls `chemstation_sum`, between guards."""
    GUARD = 0x5AA5_0FF0_1234_4321

    def __init__(self, file):
        self.function = ctypes.CDLL(str(Path(file).resolve())).chemstation_sum
        self.function.argtypes = [ctypes.c_void_p, ctypes.c_size_t, ctypes.c_void_p]
        self.function.restype = ctypes.c_uint8

    def __call__(self, patterns, start):
        """Its answer and the lent sum; or what it wrote elsewhere."""
        lent = [self.GUARD, *patterns, self.GUARD]
        values = (ctypes.c_uint64 * len(lent))(*lent)
        sums = (ctypes.c_int64 * 3)(self.GUARD, start, self.GUARD)
        answer = self.function(ctypes.addressof(values) + 8, len(patterns), ctypes.addressof(sums) + 8)
        if list(values) != lent or sums[0] != self.GUARD or sums[2] != self.GUARD:
            return 'wrote elsewhere', sums[1]
        return answer, sums[1]


# Wrong models, each of which a run or a column has to tell from the right one

FOOTED = '    return lines[:-1] + [foot(lines)] + lines[-1:]'
OUTSIDE = 'if not LEAST <= total <= MOST:\n            return None\n    return total'
CLOSED = 'if lines[-1].startswith(%r):\n        return lines\n' + FOOTED

# What is misread, the text of foot.py, the misreading's.
EDITS = [
    # Which values are added
    ('2^53 is added', 'SIZE = 2**53', 'SIZE = 2**53 + 1'),
    ('2^53 - 1 is refused', 'SIZE = 2**53', 'SIZE = 2**53 - 1'),
    ('any whole number is added', 'not abs(x) < SIZE or x != int(x)', 'abs(x) == float("inf") or x != x or x != int(x)'),
    ('-2^53 is added', 'not abs(x) < SIZE', 'not -SIZE <= x < SIZE'),
    ('no limit below zero', 'not abs(x) < SIZE', 'not float("-inf") < x < SIZE'),
    ('NaN adds nothing', 'for x in values:', 'for x in (0.0 if x != x else x for x in values):'),
    ('infinities add nothing', 'for x in values:', 'for x in (0.0 if abs(x) == float("inf") else x for x in values):'),
    ('-0 is refused', 'x != int(x)', 'x != int(x) or str(x) == "-0.0"'),
    ('halves are rounded', 'x != int(x):\n            return None\n        total += int(x)',
     'False:\n            return None\n        total += round(x)'),
    ('fractions are cut off', ' or x != int(x)', ''),
    ('what is refused is passed over', 'if not abs(x) < SIZE or x != int(x):\n            return None',
     'if not abs(x) < SIZE or x != int(x):\n            continue'),
    ('a value of 2^52 is refused', 'SIZE = 2**53', 'SIZE = 2**52'),
    ('a value of 2^31 is refused', 'SIZE = 2**53', 'SIZE = 2**31'),
    ('small fractions are let pass', 'x != int(x)', 'abs(x - round(x)) > 1e-9'),
    # The sum and its limits
    ('the sum wraps', OUTSIDE, 'total = (total - LEAST) % 2**64 + LEAST\n    return total'),
    ('the sum stays at the end', OUTSIDE, 'total = max(min(total, MOST), LEAST)\n    return total'),
    ('tested at the end alone', OUTSIDE, 'pass\n    return total if LEAST <= total <= MOST else None'),
    ('not tested at the end', 'total += int(x)\n        ' + OUTSIDE,
     'if not LEAST <= total <= MOST:\n            return None\n        total += int(x)\n    return total'),
    ('no limit at all', OUTSIDE, 'pass\n    return total'),
    ('2^63 is a sum', 'MOST = -2**63, 2**63 - 1', 'MOST = -2**63, 2**63'),
    ('2^63 - 1 is none', 'MOST = -2**63, 2**63 - 1', 'MOST = -2**63, 2**63 - 2'),
    ('-2^63 is none', 'MOST = -2**63, 2**63 - 1', 'MOST = -2**63 + 1, 2**63 - 1'),
    ('-2^63 - 1 is a sum', 'MOST = -2**63, 2**63 - 1', 'MOST = -2**63 - 1, 2**63 - 1'),
    ('unsigned limits', 'MOST = -2**63, 2**63 - 1', 'MOST = 0, 2**64 - 1'),
    ('32 bits', 'MOST = -2**63, 2**63 - 1', 'MOST = -2**31, 2**31 - 1'),
    ('the sum has to be below 2^53', 'MOST = -2**63, 2**63 - 1', 'MOST = 1 - SIZE, SIZE - 1'),
    ('added as doubles', 'total += int(x)', 'total = int(float(total) + x)'),
    ('sizes are added', 'total += int(x)', 'total += abs(int(x))'),
    ('taken away', 'total += int(x)', 'total -= int(x)'),
    ('only what is above zero', 'total += int(x)', 'total += max(int(x), 0)'),
    ('low 32 bits', 'total += int(x)', 'total += (int(x) + 2**31) % 2**32 - 2**31'),
    ('the start is forgotten', 'total = added(values, start)', 'total = added(values)'),
    ('a refusal clears the sum', '(REFUSED, start)', '(REFUSED, 0)'),
    ('another answer', 'GIVEN, REFUSED = 103, 17', 'GIVEN, REFUSED = 0, 17'),
    ('another refusal', 'GIVEN, REFUSED = 103, 17', 'GIVEN, REFUSED = 103, 15'),
    # Which lines are added
    ('the scaled column', "split()[3]", "split()[4]"),
    ('the times', "split()[3]", "split()[1]"),
    ('the first is left out', "if line[0] == 'r')", "if line[0] == 'r' and line is not lines[1])"),
    ('the last is left out', "if line[0] == 'r')", "if line[0] == 'r' and line is not lines[-2])"),
    ('the last 600 lines', 'for line in lines if', 'for line in lines[-601:] if'),
    ('the first 600 lines', 'for line in lines if', 'for line in lines[:601] if'),
    ('begun again every 600 lines', 'for line in lines if', 'for line in lines[-1 - (len(lines) - 2) % 600:] if'),
    ('the last 16,384 lines', 'for line in lines if', 'for line in lines[-16385:] if'),
    ('the last value alone', 'for line in lines if', 'for line in lines[-2:] if'),
    ('equal values once', "(unscaled(line) for line in lines if line[0] == 'r')",
     "(dict.fromkeys(unscaled(line) for line in lines if line[0] == 'r'))"),
    ('the count', "'t %d' % total", "'t %d' % (len(lines) - 2)"),
    # How it is written
    ('17 for -', "'t -'", "'t 17'"),
    ('nothing for -', "'t -'", "'t'"),
    ('0 for -', "'t -'", "'t 0'"),
    ('a plus sign', "'t %d'", "'t %+d'"),
    ('leading zeros', "'t %d'", "'t %04d'"),
    ('unsigned', "'t %d' % total", "'t %d' % (total % 2**64)"),
    ('hexadecimal', "'t %d'", "'t %x'"),
    ('as a double', "'t %d' % total", "'t %.0f' % total"),
    ('commas', "'t %d' % total", "'t {:,}'.format(total)"),
    ('two spaces', "'t %d'", "'t  %d'"),
    ('a space behind', "'t %d'", "'t %d '"),
    ('-0', "'t %d' % total", "'t %d' % total if total else 't -0'"),
    ('a capital letter', "'t %d'", "'T %d'"),
    ('no newline at the end', "''.join(line + '\\n' for line in footed(case, lines))", "'\\n'.join(footed(case, lines))"),
    # Where it stands
    ('behind e', FOOTED, '    return lines + [foot(lines)]'),
    ('before the records', FOOTED, '    return lines[:1] + [foot(lines)] + lines[1:]'),
    ('twice', FOOTED, '    return lines[:-1] + [foot(lines)] * 2 + lines[-1:]'),
    ('never', FOOTED, '    return lines'),
    ('for kind 6 too', "case[:1] == b'6' or ", ''),
    ('for kind 6 where its numbers are whole', "if case[:1] == b'6' or", "if case[:1] == b'6' and foot(lines) == 't -' or"),
    ('a - for kind 6', "    if case[:1] == b'6'", "    if case[:1] == b'6' and lines[0][0] == 'h':\n"
     "        return lines[:-1] + ['t -'] + lines[-1:]\n    if case[:1] == b'6'"),
    ('not for kind 5', "case[:1] == b'6'", "case[:1] in b'56'"),
    ('for a refused opening too', " or lines[0][0] != 'h'", ''),
    ('a - for a refused opening', "or lines[0][0] != 'h':\n        return lines", "or lines[0][0] != 'h':\n"
     "        return ['t -'] * (lines[0][0] != 'h') + lines"),
    ('not before e m', FOOTED, '    ' + CLOSED % 'e m'),
    ('not before e 11', FOOTED, '    ' + CLOSED % 'e 11'),
    ('not before e 12', FOOTED, '    ' + CLOSED % 'e 12'),
    ('not before e 13', FOOTED, '    ' + CLOSED % 'e 13'),
    ('not before e 14', FOOTED, '    ' + CLOSED % 'e 14'),
    ('only before e 0', FOOTED, "    if not lines[-1].startswith('e 0 '):\n        return lines\n" + FOOTED),
    ('a - before e 14', FOOTED,
     "    if lines[-1].startswith('e 14 '):\n        return lines[:-1] + ['t -'] + lines[-1:]\n" + FOOTED),
    ('not without records', FOOTED, '    if len(lines) == 2:\n        return lines\n' + FOOTED),
    ('a - without records', FOOTED, "    if len(lines) == 2:\n        return lines[:-1] + ['t -'] + lines[-1:]\n" + FOOTED),
    ('not where it is 0', FOOTED, "    if foot(lines) == 't 0':\n        return lines\n" + FOOTED),
    ('not where it is refused', FOOTED, "    if foot(lines) == 't -':\n        return lines\n" + FOOTED),
    # What else a refusal does
    ('e 17', FOOTED, "    if foot(lines) == 't -':\n        lines = lines[:-1] + ['e 17 %d' % (len(lines) - 2)]\n" + FOOTED),
    ('no records', FOOTED, "    if foot(lines) == 't -':\n        return [lines[0], 't -', 'e 17 0']\n" + FOOTED),
    ('reading stops there', FOOTED, '''    kept, total = lines[:1], 0
    for line in lines[1:-1]:
        kept.append(line)
        total += int(unscaled(line))
        if not LEAST <= total <= MOST:
            return kept + ['t -', 'e %s %d' % (lines[-1].split()[1], len(kept) - 1)]
''' + FOOTED),
]


def telling_logs(seed):
    """Runs by name, with their h, r and e lines: the small ones first."""
    cases = [*sum_cases.small(), *sum_cases.arrays()]
    cases += [('%s-%d' % (seed, i), sum_cases.case(seed, i)[1]) for i in range(400)]
    cases += [(name, trace.case()) for name, trace in sum_cases.ends() if len(trace.stream) < 2**17]
    cases += [('several buffers', sum_cases.several_buffers(random.Random('%s/%d' % (seed, kind)), kind)) for kind in (1, 2)]
    for name, case in cases:
        lines = model.log(case).splitlines()
        yield name, case, lines, foot.text(case, lines)


def telling_columns(seed, count):
    for i in range(count):
        start, patterns = sum_cases.column(seed, i)
        values = [struct.unpack('<d', struct.pack('<Q', bits))[0] for bits in patterns]
        yield 'column %d' % i, values, start, foot.column(values, start)


def tell_misreadings(seed):
    source = Path(foot.__file__).read_text()
    logs, columns = list(telling_logs(seed)), list(telling_columns(seed, 3000))
    missed = 0
    for what, old, new in EDITS:
        wrong = misreadings.edited(source, old, new)
        log = next((name for name, case, lines, due in logs if wrong.text(case, lines) != due), '-')
        column = next((name for name, values, start, due in columns if wrong.column(values, start) != due), '-')
        missed += log == column == '-'
        print('%-40s %-32s %s' % (what, log, column if log != '-' or column != '-' else 'MISSED'))
    print('%d misreadings, %d missed' % (len(EDITS), missed))
    return missed


def parsed():
    p = argparse.ArgumentParser(description=__doc__)
    p.add_argument('--log', metavar='CMD', help='the log program; without --library target/bin/chemlog if not given')
    p.add_argument('--library', metavar='FILE', help='a shared library with chemstation_sum')
    p.add_argument('--misreadings', action='store_true', help='shows instead that wrong models are told from the right one')
    p.add_argument('--seed', default='1')
    p.add_argument('--first', type=int, default=0, help='number of the first generated case')
    p.add_argument('--cases', type=int, default=3000, help='generated cases')
    p.add_argument('--pieces', type=int, default=200, metavar='N', help='generated cases that the program gets in small pieces')
    p.add_argument('--columns', type=int, default=20000, metavar='N')
    p.add_argument('--saved', default=str(ROOT / 'target/oracle/failed'), help='folder for failing cases')
    return p.parse_args()


def main():
    options = parsed()
    if options.misreadings:
        return 1 if tell_misreadings(options.seed) else 0
    if not options.library and not options.log:
        options.log = shlex.quote(str(ROOT / 'target/bin/chemlog'))
    judge = Judge(options)
    if options.log:
        judge.programs()
    if options.library:
        judge.libraries()
    judge.report()
    return 1 if judge.faults else 0


if __name__ == '__main__':
    sys.exit(main())
