"""The records of a run as columns, by Fill columns of the library."""
import contextlib
import mmap
from collections import namedtuple
from ctypes import byref, c_double, c_size_t, c_ubyte, c_uint32, sizeof

from chemstation.answers import DAD, SUMMED, Answer
from chemstation.library import COLUMNS, FINISHED, library
from chemstation.sums import add_up

NORESERVE = 0x4000  # Linux; mmap has its name from Python 3.13 on
COUNT_DUE = 2  # the place in a state's counts of the points, or for DAD the bytes, due in the scan
FORMATS = {c_double: "d", c_uint32: "I"}  # what a place of a column holds, as a memoryview names it

Record = namedtuple("Record", COLUMNS)
Left = namedtuple("Left", "last_scan behind")


class Columns:
    """The records of a run, in memoryviews `count` long: `time`, `axis`, `unscaled` and `scaled` (format 'd'); `minutes` and `leftover`,
    the stored time in whole minutes and the milliseconds left over (format 'I'), 0 where the kind has none. `closing`, the Answer that
    closed them; `left`, where that answer is 0: the unread bytes of the last scan, and those behind the end of the run; `kind`, that of
    the run."""

    def __init__(self, columns, closing, left, kind):
        self.time, self.axis, self.unscaled, self.scaled, self.minutes, self.leftover = columns
        self.count, self.closing, self.left, self.kind = len(self.time), closing, left, kind

    def records(self):
        """The records one by one, as named tuples."""
        return map(Record, self.time, self.axis, self.unscaled, self.scaled, self.minutes, self.leftover)

    def sum(self):
        """The sum of `unscaled` in whole numbers, as the line t of a log of all records has it. Refused (17) where that says -,
        ValueError for an array run, whose log has no such line."""
        if self.kind not in SUMMED:
            raise ValueError("the intensities of an array run are not added up: its log has no line t")
        return add_up(self.unscaled)


def column(element, places):
    """Memory for a column of so many places; pages that are never written take none."""
    try:
        memory = mmap.mmap(-1, places * sizeof(element), flags=mmap.MAP_PRIVATE | mmap.MAP_ANONYMOUS | NORESERVE)
    except OSError as error:
        raise MemoryError(f"no memory for columns of {places:,} places") from error
    with contextlib.suppress(OSError):  # a kernel may have no large pages; with small ones their first use takes longer than Fill
        memory.madvise(mmap.MADV_HUGEPAGE)
    return memory


def shrunk(memory, element, places):
    """The first places of a column, and no more memory than they take."""
    memory.resize(max(places, 1) * sizeof(element))
    return memoryview(memory).cast(FORMATS[element])[:places].toreadonly()


class Reading:
    """A reading of the bytes behind a header, from the state before the first record, which ends with whether it is plain or atlas. It
    has to itself what changes of the state."""

    def __init__(self, memory, state):
        *changing, reading = state
        self.memory, self.state, self.reading = memory, [type(part)(*part) for part in changing], reading[0]
        self.counts = self.state[1]

    def columns(self, position, length):
        """All records, by one call, told that the bytes are the last."""
        places = length // 2 + 1  # no record takes less than two bytes, so there is a place more than records
        memory = [column(element, places) for element in COLUMNS.values()]
        answer, records, consumed = self.fill(position, length, True, memory, places)
        left = self.left(position + consumed, length - consumed) if answer == FINISHED else None
        columns = [shrunk(part, element, records) for part, element in zip(memory, COLUMNS.values())]
        return Columns(columns, Answer(answer), left, self.counts[0])

    def fill(self, position, length, last, memory, places):
        """The answer of Fill columns, and how many records and bytes it took."""
        given, start = (c_size_t * 2)(), byref(c_ubyte.from_buffer(self.memory), position)
        lent = [word for part, element in zip(memory, COLUMNS.values()) for word in (byref(element.from_buffer(part)), places)]
        answer = library().chemstation_fill(*self.state, self.reading, start, length, last, *lent, given)
        return (answer, *given)

    def left(self, position, length):
        """Of the bytes behind the last record of a finished run: what is not the field that closed it (an empty MWD group, for one). By
        the atlas reading no DAD run ends inside a scan, and none are of its last."""
        length -= self.closing_field(position, length)
        scan = min(self.counts[COUNT_DUE], length) if self.counts[0] == DAD else 0
        return Left(scan, length - scan)

    def closing_field(self, position, length):
        """The least number of bytes with which Fill says again that the run is finished, though not told that they are the last."""
        memory, low, high = [bytearray(sizeof(element)) for element in COLUMNS.values()], 0, length
        while low < high:
            middle = (low + high) // 2
            if self.fill(position, middle, False, memory, 1)[0] == FINISHED:
                high = middle
            else:
                low = middle + 1
        return low
