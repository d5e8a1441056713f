"""A line through numbers, reduced to what a picture can show, with its gaps and its peaks. No number is changed: a line is a
list of indices into the series."""
from math import isfinite
from operator import gt, le, lt

KEEP = 12  # pieces of a column that are kept where gaps cut the line into very many
MANY = 20_000  # pieces of a whole line, from which on some are left out


class Series:
    """Intensities `ys` over places `xs`, in the order of the run. The line is broken before the indices in `breaks`. `span` is
    the part of the places that is wanted, or None for all."""

    def __init__(self, xs, ys, breaks=frozenset(), span=None):
        self.xs, self.ys, self.breaks, self.span = xs, ys, breaks, span
        self.placed = [i for i, x in enumerate(xs) if isfinite(x)]
        self.drawn = [i for i in self.placed if isfinite(ys[i])]
        self.inside, self.shown = self.placed, self.drawn
        if span:
            self.inside = [i for i in self.placed if span[0] <= xs[i] <= span[1]]
            self.shown = [i for i in self.inside if isfinite(ys[i])]
        self.odd = [i for i in self.inside if not isfinite(ys[i])] if len(self.shown) < len(self.inside) else []

    def __len__(self):
        return len(self.ys)

    def ends(self):
        """The indices of the smallest and the largest intensity shown."""
        return min(self.shown, key=self.ys.__getitem__), max(self.shown, key=self.ys.__getitem__)


class Columns:
    """Columns of one width from low to high; -1 is what lies before them, `count` what lies behind."""

    def __init__(self, low, high, count):
        self.low, self.high, self.count = low, high, count
        self.factor = count / (high - low)

    def of(self, x):
        place = (x - self.low) * self.factor
        return -1 if place < 0 else self.count if place > self.count else min(int(place), self.count - 1)

    def edge(self, column):
        """Where a column begins."""
        return self.low + (self.high - self.low) * column / self.count


# ---- lines

def pieces_of(series, columns):
    """The line cut where a column ends: for each piece its column, whether the line comes to it from the piece before, and the
    indices of its first, last, smallest and largest number."""
    xs, ys, breaks, of = series.xs, series.ys, series.breaks, columns.of
    pieces, piece, before = [], None, -2
    for i in series.drawn:
        at = of(xs[i])
        joined = before == i - 1 and xs[before] <= xs[i] and i not in breaks
        if joined and at == piece[0]:
            piece[3] = i
            if ys[i] < ys[piece[4]]:
                piece[4] = i
            elif ys[i] > ys[piece[5]]:
                piece[5] = i
        else:
            piece = [at, joined, i, i, i, i]
            pieces.append(piece)
        before = i
    return pieces


def some_of(members, pieces, ys):
    """Of very many pieces in one column: the first and the last, which the line goes on from, those with the smallest and the
    largest number, and some between."""
    low = min(members, key=lambda n: ys[pieces[n][4]])
    high = max(members, key=lambda n: ys[pieces[n][5]])
    return {members[0], members[-1], low, high, *members[:: len(members) // KEEP + 1]}


def kept_of(pieces, ys):
    """The numbers of the pieces to draw."""
    if len(pieces) <= MANY:
        return range(len(pieces))
    by_column = {}
    for n, piece in enumerate(pieces):
        by_column.setdefault(piece[0], []).append(n)
    return sorted(set().union(*(some_of(members, pieces, ys) for members in by_column.values())))


def joined_of(pieces, kept):
    """The pieces to draw as lines, each a list of indices."""
    lines, last = [], None
    for n in kept:
        if not pieces[n][1] or last != n - 1:
            lines.append([])
        lines[-1] += sorted(set(pieces[n][2:]))
        last = n
    return lines


def lines_of(series, columns):
    """The lines to draw, and whether some pieces are left out."""
    pieces = pieces_of(series, columns)
    kept = kept_of(pieces, series.ys)
    return joined_of(pieces, kept), len(kept) < len(pieces)


# ---- gaps

def backward(xs):
    """How often places go backward."""
    finite = [x for x in xs if isfinite(x)]
    return sum(map(gt, finite, finite[1:]))


def merged(columns):
    """Columns in a row as pairs, the first and the last."""
    columns = sorted(columns)
    starts = [n for n, column in enumerate(columns) if not n or columns[n - 1] != column - 1]
    return [(columns[a], columns[b - 1]) for a, b in zip(starts, starts[1:] + [len(columns)])]


def marks_of(columns, xs, odd, breaks):
    """Where numbers are not finite (`odd`), and where something is lacking before a number (`breaks`): places, from and to."""
    found = {columns.of(xs[i]) for i in odd}
    for i in breaks:
        if 0 < i < len(xs) and isfinite(xs[i - 1]) and isfinite(xs[i]):
            found.update(range(columns.of(xs[i - 1]), columns.of(xs[i]) + 1))
    inside = found - {-1, columns.count}
    return [(columns.edge(first), columns.edge(last + 1)) for first, last in merged(inside)]


# ---- peaks

def lows_before(values, lower):
    """For each value the smallest between it and the last one before it that is not `lower`, or the start."""
    lows, open_ = [], []
    for value in values:
        low = value
        while open_ and lower(open_[-1][0], value):
            low = min(low, open_.pop()[1])
        open_.append((value, low))
        lows.append(low)
    return lows


def summits(values):
    """The tops, with a lower value on both sides: the first and the last place of each, for a top may be flat."""
    found, first = [], None
    for n in range(1, len(values)):
        if values[n] > values[n - 1]:
            first = n
        elif values[n] < values[n - 1] and first is not None:
            found.append((first, n - 1))
            first = None
    return found


def peaks_of(line, ys):
    """Every peak of a line as (how far it rises above what is around it, its index). The rise is the drop to either side before
    the line is higher again or ends, the smaller of the two. The index of a flat top is that of its middle."""
    values = [ys[i] for i in line]
    # Of two tops that are equally high the first counts: the second ends there.
    before, behind = lows_before(values, lt), lows_before(values[::-1], le)[::-1]
    peaks = []
    for first, last in summits(values):
        middle = (line[first] + line[last]) // 2
        at = middle if ys[middle] == values[first] else line[first]
        peaks.append((values[first] - max(before[first], behind[last]), at))
    return peaks


def largest_peaks(lines, ys, count, least):
    """The indices of so many peaks that rise by at least so much, the largest first."""
    peaks = [peak for line in lines for peak in peaks_of(line, ys)]
    return [i for rise, i in sorted(peaks, key=lambda peak: (-peak[0], peak[1])) if rise >= least][:count]
