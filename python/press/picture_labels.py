"""Where words go: lines that fit a width, and the words of peaks side by side. Lengths are in millimetres, sizes of letters in
points."""
import textwrap

POINT = 25.4 / 72  # mm
LETTER, DIGIT = 0.54, 0.64  # mean widths, in the size of the letters


def wrapped(texts, size, room):
    """Texts in lines that fit."""
    letters = max(20, int(room / (size * POINT * LETTER)))
    return [line for text in texts for line in textwrap.wrap(text, letters)]


class Block:
    """Things that touch one another. `wanted` is the sum of the starts that its members would give it."""

    def __init__(self, wanted, width, count=1):
        self.wanted, self.width, self.count = wanted, width, count

    def start(self, room):
        return min(max(self.wanted / self.count, 0.0), room - self.width)

    def with_next(self, other):
        wanted = self.wanted + other.wanted - other.count * self.width
        return Block(wanted, self.width + other.width, self.count + other.count)


def apart(places, widths, room):
    """Places in rising order, moved as little as needed so that things of these widths around them do not touch, from 0 to
    room."""
    blocks = []
    for place, width in zip(places, widths):
        blocks.append(Block(place - width / 2, width))
        while len(blocks) > 1 and blocks[-2].start(room) + blocks[-2].width > blocks[-1].start(room):
            blocks[-2:] = [blocks[-2].with_next(blocks[-1])]
    starts = [block.start(room) for block in blocks for _ in range(block.count)]
    firsts = [n for block in blocks for n in range(block.count)]
    before = [sum(widths[n - first : n]) for n, first in enumerate(firsts)]
    return [start + left + width / 2 for start, left, width in zip(starts, before, widths)]


def fitting(peaks, size, room):
    """Of peaks, the largest first, those whose words fit side by side, from left to right; and the widths of the words."""
    widths = [(max(map(len, peak.words)) + 2) * size * POINT * DIGIT for peak in peaks]
    count = len(peaks)
    while sum(widths[:count]) > room:
        count -= 1
    chosen = sorted(range(count), key=lambda n: peaks[n].x)
    return [peaks[n] for n in chosen], [widths[n] for n in chosen]
