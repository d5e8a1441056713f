#!/usr/bin/env python3
"""Judges how many replaced units the library reports, of one text and of all eight, by the words of request 4.

The library is given headers with halves of pairs in all orders and places, all kinds, text numbers and rooms. The number, or the eight
numbers, are held to the model (replaced.py) after every call, and all else that the call answers and writes to texts.py. Before that
wrong models (replaced_wrong.py) are put in the library's place, and the cases have to tell each of them.
Prints each fault and saves its bytes, then counts; status 1 where there was a fault.
"""

import itertools
import random
import sys

sys.dont_write_bytecode = True
import judge_texts
import replaced
import replaced_cases as cases
import replaced_wrong
import texts


class Counted(judge_texts.Modelled):
    """A model of the numbers in the library's place; all else is as texts.py has it."""

    def text(self, kind, number, lent, count, before):
        return *texts.text(kind, number, self.data, lent, count), self.text_of(kind, number, self.data, lent, before)

    def texts(self, kind, lent, starts, lengths, before):
        return *texts.texts(kind, self.data, lent, starts, lengths), self.texts_of(kind, self.data, lent, before)


class Judge(judge_texts.Judge):
    name, model, edits, cases, modelled = 'replaced', replaced, replaced_wrong.EDITS, cases, Counted

    def compare(self, function, due, got):
        super().compare(function, due, got)
        self.counts['calls with units replaced'] += due[-1] not in (0, [0] * 8)


# The model against other methods

def disagreeing(units):
    """Whether the model counts otherwise than Python's decoder, which lets lone halves pass, or than texts.py, which replaces them."""
    passed = b''.join(unit.to_bytes(2, 'little') for unit in units).decode('utf-16-le', 'surrogatepass')
    pythons = sum('\uD800' <= character <= '\uDFFF' for character in passed)
    written = texts.of_units(units).count(0xFFFD) - units.count(0xFFFD)
    return not replaced.lone(units) == pythons == written


def lists(seed):
    """All short ones of the units that cases are made of, and any."""
    for n in range(5):
        yield from itertools.product(cases.UNITS, repeat=n)
    rng = random.Random('%s/lists' % seed)
    for _ in range(20000):
        halves = [rng.randrange(0xD800, 0xE000) for _ in range(8)]
        yield tuple(rng.choices([*halves, *cases.UNITS, rng.randrange(0x10000)], k=rng.choice([3, 6, 12, 255])))


def agreed(seed):
    """What the model is at one on with other methods."""
    count = 0
    for units in lists(seed):
        count += 1
        if disagreeing(units):
            sys.exit('the judge is not at one with Python: %s' % ' '.join('%04X' % unit for unit in units))
    # That it counts in the text that is given.
    for case in cases.made(seed):
        data = case.file[:case.length]
        _, found = texts.opened(case.kind, data)
        for number in texts.NUMBERS if found and texts.be(data, 248, 4) > 102 else ():
            if texts.to_utf8(texts.of_units(replaced.stored(data, number))) != found[number - 1]:
                sys.exit('the judge counts in another text: %s, text %d' % (case.name, number))
    return '%d lists of units as Python counts them' % count


if __name__ == '__main__':
    sys.exit(judge_texts.main(Judge, __doc__, agreed))
