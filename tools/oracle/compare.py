#!/usr/bin/env python3
"""Compares a program with the original on generated runs.

Where the oracle marks a case as outside the comparison, the lines before the mark are still the original's, and the
rest is held to the model. Prints the first difference, saves its case and ends with status 1; else prints counts.
A log program has a line more than the original, the sum `t`: that line is held to the request's words (foot.py), the h, r
and e lines to the original. Without a program the model itself is compared with the original.
"""

import argparse
import collections
import concurrent.futures
import fcntl
import os
import random
import shlex
import subprocess
import sys
import tempfile
import termios
import time
from pathlib import Path

sys.dont_write_bytecode = True
import foot
import generate
import model

ROOT = Path(__file__).resolve().parents[2]
CHUNK = 500
PATIENCE = 60  # seconds for a case


def frames(mode, cases):
    return b''.join((len(c) + 1).to_bytes(4, 'big') + mode[:1].encode() + c for c in cases)


def unframed(data):
    texts, at = [], 0
    while at < len(data):
        size = int.from_bytes(data[at:at + 4], 'big')
        texts.append(data[at + 4:at + 4 + size].decode('ascii', 'replace'))
        at += 4 + size
    return texts


def in_batch(command, mode, cases):
    """The program's texts for many cases at once."""
    done = subprocess.run(command, input=frames(mode, cases), stdout=subprocess.PIPE)
    texts = unframed(done.stdout)
    if done.returncode != 0 or len(texts) != len(cases):
        sys.exit('%s: status %d after %d of %d cases' % (' '.join(command), done.returncode, len(texts), len(cases)))
    return texts


def told(data, status):
    return data.decode('ascii', 'replace') + ('' if status == 0 else 'status %d\n' % status)


def one_by_one(command, cases):
    """The program's texts, a process for each case."""
    def run(case):
        try:
            done = subprocess.run(command, input=case, stdout=subprocess.PIPE, stderr=subprocess.DEVNULL, timeout=PATIENCE)
        except subprocess.TimeoutExpired:
            return 'no end within %d seconds\n' % PATIENCE
        return told(done.stdout, done.returncode)
    with concurrent.futures.ThreadPoolExecutor(os.cpu_count()) as pool:
        return list(pool.map(run, cases))


def in_pieces(command, case, rng):
    """The program's text when each read of its input gives a small piece."""
    # At most some thousands of pieces.
    most = max(rng.choice([1, 3, 50, 700, 5000, 40000]), len(case) // 2000)
    reading, writing = os.pipe()
    deadline = time.monotonic() + PATIENCE
    with tempfile.TemporaryFile() as out, subprocess.Popen(command, stdin=reading, stdout=out, stderr=subprocess.DEVNULL) as program:
        os.close(reading)
        try:
            at = 0
            while at < len(case):
                at += os.write(writing, case[at:at + rng.randrange(1, most + 1)])
                await_reading(program, writing, deadline)
        except BrokenPipeError:
            pass  # it had its answer before the end
        except TimeoutError:
            program.kill()
        finally:
            os.close(writing)
        try:
            status = program.wait(max(deadline - time.monotonic(), 1))
        except subprocess.TimeoutExpired:
            program.kill()
            status = program.wait()
        out.seek(0)
        return told(out.read(), status)


def await_reading(program, pipe, deadline):
    """Returns when all that was written has been read, so that the next piece can't join it."""
    while fcntl.ioctl(pipe, termios.FIONREAD, bytes(4)) != bytes(4):
        if program.poll() is not None:
            raise BrokenPipeError
        if time.monotonic() > deadline:
            raise TimeoutError
        time.sleep(0)


def expected(mode, case, text, outside):
    """The lines that are due."""
    lines = text.splitlines()
    if lines and lines[-1].startswith('#'):
        outside[lines[-1][2:]] += 1
        before = len(lines) - 1
        return lines[:before] + model.MODES[mode](case).splitlines()[before:]
    return lines


def first_difference(due, got):
    for i in range(max(len(due), len(got))):
        a = due[i] if i < len(due) else '(nothing)'
        b = got[i] if i < len(got) else '(nothing)'
        if a != b:
            return i + 1, a, b
    return None


class Comparison:
    def __init__(self, options):
        self.options = options
        self.outside = collections.Counter()
        self.answers = collections.Counter()
        self.families = collections.Counter()
        self.counts = collections.Counter()
        self.sums = collections.Counter()
        self.records = 0

    def check(self, mode, names, cases, subject):
        """`subject` gives the texts of the cases in a mode."""
        oracle = in_batch([self.options.oracle, 'batch'], mode, cases)
        for name, case, text, answered in zip(names, cases, oracle, subject(cases)):
            due = expected(mode, case, text, self.outside)
            closing, records = due[-1], max(len(due) - 2, 0)
            if mode == 'log' and self.options.log:
                due = foot.footed(case, due)
                self.sums.update(line if line == 't -' else 't' for line in due[-2:] if line[0] == 't')
            difference = first_difference(due, answered.splitlines())
            if difference:
                self.fail(mode, name, case, difference)
            if mode == 'log':
                self.answers[chr(case[0]) if case[:1].isdigit() else '-', closing.split()[1]] += 1
                self.records += records
        self.counts[mode] += len(cases)

    def fail(self, mode, name, case, difference):
        folder = Path(self.options.saved)
        folder.mkdir(parents=True, exist_ok=True)
        file = folder / ('%s.%s.case' % (name.replace(' ', '-'), mode))
        file.write_bytes(case)
        print('DIFFERENCE in %s, case %s, line %d\n  due %s\n  got %s\n  saved %s (%d bytes)'
              % (mode, name, *difference, file, len(case)))
        sys.exit(1)

    def report(self):
        print('compared: ' + ', '.join('%d %s' % (n, what) for what, n in self.counts.items()))
        print('records in logs: %d' % self.records)
        if self.sums:
            print('sums, held to the request: %d, and %d refused' % (self.sums['t'], self.sums['t -']))
        print('families: ' + ', '.join('%s %d' % pair for pair in sorted(self.families.items())))
        print('outside the original\'s domain, held to the model: %d' % sum(self.outside.values()))
        for why, n in sorted(self.outside.items()):
            print('  %6d  %s' % (n, why))
        closings = sorted({a for _, a in self.answers}, key=lambda a: (len(a), a))
        print('closing answers of logs, by kind:')
        print('  kind ' + ''.join('%7s' % a for a in closings))
        for kind in sorted({k for k, _ in self.answers}):
            print('  %4s ' % kind + ''.join('%7d' % self.answers[kind, a] for a in closings))
        print('no difference')


def subjects(options):
    """For each mode that can be compared, what gives the texts."""
    given = {mode: shlex.split(getattr(options, mode)) for mode in model.MODES if getattr(options, mode)}
    if options.batch:
        command = shlex.split(options.batch)
        return {mode: lambda cases, mode=mode: in_batch(command, mode, cases) for mode in options.modes.split(',')}
    if given:
        return {mode: lambda cases, command=command: one_by_one(command, cases) for mode, command in given.items()}
    return {mode: lambda cases, answer=answer: [answer(c) for c in cases] for mode, answer in model.MODES.items()}


def parsed():
    p = argparse.ArgumentParser(description=__doc__)
    p.add_argument('--oracle', default=str(ROOT / 'target/oracle/oracle'))
    p.add_argument('--log', metavar='CMD', help='a program: one case from standard input, its log out')
    p.add_argument('--whole', metavar='CMD', help='the same, all bytes at once told last')
    p.add_argument('--single', metavar='CMD', help='the same, all bytes at once told not last')
    p.add_argument('--header', metavar='CMD', help='the same, printing the description')
    p.add_argument('--batch', metavar='CMD', help='a program that takes frames in all of --modes')
    p.add_argument('--modes', default='log', help='for --batch: modes with commas between (log,whole,single,header)')
    p.add_argument('--seed', default='1')
    p.add_argument('--first', type=int, default=0, help='number of the first case')
    p.add_argument('--cases', type=int, default=20000)
    p.add_argument('--prefixes', type=int, default=96, metavar='N', help='small runs of which every prefix is tried')
    p.add_argument('--pieces', type=int, default=300, metavar='N', help='cases that --log gets in small pieces')
    p.add_argument('--saved', default=str(ROOT / 'target/oracle/failed'), help='folder for a failing case')
    return p.parse_args()


def main():
    options = parsed()
    comparison = Comparison(options)
    by_mode = subjects(options)

    for first in range(options.first, options.first + options.cases, CHUNK):
        numbers = range(first, min(first + CHUNK, options.first + options.cases))
        made = [generate.case(options.seed, i) for i in numbers]
        names = ['%s-%d %s' % (options.seed, i, family) for i, (family, _) in zip(numbers, made)]
        comparison.families.update(family for family, _ in made)
        for mode, subject in by_mode.items():
            comparison.check(mode, names, [c for _, c in made], subject)

    for i in range(options.prefixes):
        cases = generate.prefixes(options.seed, i)
        comparison.families['prefixes'] += len(cases)
        names = ['%s-%d prefix %d' % (options.seed, i, len(c) - 1) for c in cases]
        for mode, subject in by_mode.items():
            comparison.check(mode, names, cases, subject)

    if options.log:
        command = shlex.split(options.log)
        for i in range(options.first, options.first + options.pieces):
            family, case = generate.case('%s/pieces' % options.seed, i)
            rng = random.Random(i)
            name = '%s-%d %s in pieces' % (options.seed, i, family)
            comparison.check('log', [name], [case], lambda cases: [in_pieces(command, cases[0], rng)])
        comparison.counts['log in pieces'] += options.pieces
        comparison.counts['log'] -= options.pieces
    comparison.report()


if __name__ == '__main__':
    main()
