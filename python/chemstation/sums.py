"""The sum of a column in whole numbers, by the library."""
import ctypes
import operator
from array import array
from contextlib import contextmanager
from ctypes import POINTER, byref, c_double, c_int, c_int64, c_ssize_t, c_void_p, cast, py_object

from chemstation.answers import Refused
from chemstation.library import GIVEN, library


class Buffer(ctypes.Structure):
    """Python's Py_buffer. ctypes has no other way to memory that Python may not write to, which the columns are."""

    _fields_ = [("start", c_void_p), ("owner", c_void_p), ("length", c_ssize_t), ("itemsize", c_ssize_t), ("readonly", c_int),
                ("ndim", c_int), ("format", c_void_p), ("shape", c_void_p), ("strides", c_void_p), ("suboffsets", c_void_p),
                ("internal", c_void_p)]


def is_column(values):
    """Whether these are doubles, one behind the other, of which a call can be lent the memory."""
    try:
        view = memoryview(values)
    except TypeError:
        return False
    return view.format == "d" and view.ndim == 1 and view.c_contiguous


@contextmanager
def lent(values):
    """Where a column's doubles stand, as long as they are lent."""
    buffer = Buffer()
    ctypes.pythonapi.PyObject_GetBuffer(py_object(values), byref(buffer), 0)
    try:
        yield buffer.start
    finally:
        ctypes.pythonapi.PyBuffer_Release(byref(buffer))


def added(values, total):
    """The answer to doubles that lie in a column; `total`, a c_int64, grows by them."""
    with lent(values) as start:
        if start % 8:
            return added(array("d", values), total)
        return library().chemstation_sum(cast(start, POINTER(c_double)), len(values), byref(total))


def add_up(values, start=0):
    """`start` and the values, added up in order in whole numbers: an int. Refused (17) where one is no whole number of a size below
    2^53, or where the sum after some value leaves 64 bits. A buffer of doubles is lent to the library as it is; of anything else that
    can be looped over a copy is."""
    start = operator.index(start)
    if not -(2**63) <= start < 2**63:
        raise ValueError(f"{start} is no number of 64 bits to start from")
    values = values if is_column(values) else array("d", iter(values))
    total = c_int64(start)
    answer = added(values, total) if len(values) else GIVEN
    if answer != GIVEN:
        raise Refused(answer)
    return total.value
