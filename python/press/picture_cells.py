"""The cells of a map over time and m/z or wavelength: all of one size, each with the largest absolute intensity that lies in
it."""
from array import array
from bisect import bisect_left
from math import floor, inf, nan

NO_RECORD, NOT_FINITE = nan, inf  # what a cell holds that has no intensity


class Side:
    """One side of a map: the distinct numbers along it, cut into `count` cells from low to high. A number fills the cells to
    half a step on both sides, so that neighbours meet, and a cell or two at least, so that a lone one is seen."""

    def __init__(self, numbers, step, low, high, count):
        self.low, self.count = low, count
        self.factor = count / (high - low)
        self.shows = self._shown(numbers, step)

    def cell(self, number):
        return max(0, min(self.count - 1, int((number - self.low) * self.factor)))

    def _shown(self, numbers, step):
        """For each cell the one whose records it shows: that of the nearest number if it is near enough, else None."""
        places = [(number - self.low) * self.factor for number in numbers]
        reach = max(1.5, 0.6 * step * self.factor)
        shown = []
        for middle in (cell + 0.5 for cell in range(self.count)):
            right = bisect_left(places, middle)
            beside = [n for n in (right - 1, right) if 0 <= n < len(places)]
            near = min(beside, key=lambda n: abs(places[n] - middle))
            shown.append(self.cell(numbers[near]) if abs(places[near] - middle) <= reach else None)
        return shown


def whole_mass(mass):
    """The whole m/z that a stored one stands for."""
    return float(floor(mass + 0.5))


def strongest(times, axes, values, indices, across, up):
    """The largest absolute intensity in each cell that has one, by the number of its column and row."""
    rows = {axis: up.cell(axis) for axis in {axes[i] for i in indices}}
    cells, last, column = {}, None, 0
    for i in indices:
        if times[i] != last:
            last = times[i]
            column = across.cell(last) * up.count
        at, value = column + rows[axes[i]], values[i]
        if at not in cells or abs(value) > abs(cells[at]):
            cells[at] = value
    return cells


def row_of(cells, row, across, up):
    columns = (None if column is None else column * up.count + row for column in across.shows)
    return array("d", (cells.get(at, NO_RECORD) for at in columns))


def rows_of(cells, across, up):
    """The rows of the map from the lowest to the highest; one and the same array where two rows show the same cells."""
    made = {row: row_of(cells, row, across, up) for row in set(up.shows) if row is not None}
    made[None] = array("d", [NO_RECORD]) * across.count
    return [made[row] for row in up.shows]
