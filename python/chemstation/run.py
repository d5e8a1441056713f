"""A run: what its header says."""
import builtins
import mmap
from ctypes import byref, c_double, c_size_t, c_ubyte, c_uint32

from chemstation.answers import AXES, KINDS, Refused, kind_number
from chemstation.columns import Reading
from chemstation.library import GIVEN, library

TEXTS = ["sample", "description", "operator", "instrument", "method", "signal_name", "y_units", "run_date"]
ROOM = 6120  # bytes, enough for the eight texts of any run
EIGHT = c_size_t * 8  # a number for each text


def held(source):
    """The bytes of a file, or those given, in memory that ctypes can point into (at least one byte), and their count."""
    if isinstance(source, (bytes, bytearray, memoryview)):
        data = bytes(source)
        return bytearray(data + b"\0"), len(data)
    with builtins.open(source, "rb") as file:
        try:
            mapped = mmap.mmap(file.fileno(), 0, access=mmap.ACCESS_COPY)
            return mapped, len(mapped)
        except (OSError, ValueError):  # empty, or a file that cannot be mapped
            return held(file.read())


def taken(answer):
    """An answer of Open or of a fetch of texts: refused, or all is well."""
    if answer != GIVEN:
        raise Refused(answer)


def byte_of(kind):
    """A kind as the library takes it, in a byte; no kind is above 6."""
    return kind if 0 <= kind < 256 else 0


def pointer(memory):
    return byref(c_ubyte.from_buffer(memory))


class Texts(dict):
    """The eight texts of a header by name. `replaced` has by the same names how many letters of each were replaced by U+FFFD: unpaired
    surrogates in the header's UTF-16. A U+FFFD that stands in the header itself is none of them."""

    def __init__(self, texts, replaced):
        super().__init__(texts)
        self.replaced = replaced

    def copy(self):
        return Texts(self, dict(self.replaced))


def texts_in(memory, length, kind):
    """The Texts, by one call."""
    texts, starts, lengths, replaced = (c_ubyte * ROOM)(), EIGHT(), EIGHT(), EIGHT()
    taken(library().chemstation_texts(byte_of(kind), pointer(memory), length, texts, ROOM, starts, lengths, replaced))
    written = memoryview(texts)
    found = {name: bytes(written[start : start + count]).decode("utf-8") for name, start, count in zip(TEXTS, starts[:], lengths[:])}
    return Texts(found, dict(zip(TEXTS, replaced[:])))


def texts(source, kind):
    """The eight texts of a run's header by name, as Texts, from a file's name or its bytes, which need not go beyond the header; no record
    is read. Refused where the bytes are no run of this kind."""
    return texts_in(*held(source), kind_number(kind))


class Run:
    """A run that was opened: what its header says, in the names of include/chemstation.h; times in minutes; `length`, the bytes of the
    whole file; `texts`, the eight texts by name, which are attributes too; `replaced`, how many letters of each were replaced, by name;
    `atlas`, whether its records are those of the atlas reading. Refused where the bytes are no run of this kind, and where the kind
    has no atlas reading."""

    def __init__(self, source, kind, *, atlas=False):
        kind = kind_number(kind)
        self._memory, self.length = held(source)
        header, corrections, at = (c_size_t * 5)(), (c_double * 4)(), (EIGHT(), EIGHT())
        self._state, self._columns = ((c_double * 6)(), (c_size_t * 4)(), (c_uint32 * 1)(), (c_ubyte * 1)()), None
        opens = library().chemstation_open_atlas if atlas else library().chemstation_open
        taken(opens(byte_of(kind), pointer(self._memory), self.length, True, header, corrections, *at, *self._state))
        self.kind, self.kind_name, self.axis_name, self.atlas = kind, KINDS[kind], AXES.get(kind), bool(atlas)
        self.edition, self.size, self.sequence, self.vial, self.replicate = header
        self.start, self.end, self.offset, self.multiplier = corrections
        self.texts = texts_in(self._memory, self.size, kind)
        self.replaced = self.texts.replaced
        vars(self).update(self.texts)

    def columns(self):
        """All records as columns, read by one call the first time: a Columns."""
        if self._columns is None:
            self._columns = Reading(self._memory, self._state).columns(self.size, self.length - self.size)
        return self._columns

    def records(self):
        """The records one by one, as named tuples."""
        return self.columns().records()

    def sum(self):
        """The sum of the unscaled intensities, an int, as the line t of a log of all records has it: that of `columns()`."""
        return self.columns().sum()

    @property
    def closing(self):
        """What closed the run: an Answer."""
        return self.columns().closing


def open(source, kind, *, atlas=False):
    """The run in a file (its name), or in bytes, of a kind by number or name. `atlas`: by the atlas reading, which DAD and UV have, and
    by which a scan is spent when its last point has been given. The file must not change as long as the run is in use."""
    return Run(source, kind, atlas=atlas)
