"""The sum of unscaled values in plain Python, as a log's line t has it: what checks a log without the library."""
from itertools import accumulate

SIZE, LOW, HIGH = 2**53, -(2**63), 2**63 - 1


def is_whole(value):
    """Whether a double is a whole number of a size below 2^53."""
    return -SIZE < value < SIZE and value == int(value)


def added(total, values):
    """The sum after these values, or None where it is refused: at a value, at a sum that leaves 64 bits, or before (`total` is None)."""
    if total is None or not all(map(is_whole, values)):
        return None
    sums = list(accumulate(map(int, values), initial=total))
    return sums[-1] if LOW <= min(sums) and max(sums) <= HIGH else None


def in_log(total):
    """A sum as a log's line t has it."""
    return "-" if total is None else str(total)
