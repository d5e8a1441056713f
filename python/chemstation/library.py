"""The shared object and the types of its functions, as include/chemstation.h declares them."""
import ctypes
import functools
import os
from ctypes import POINTER, c_bool, c_double, c_int64, c_size_t, c_ubyte, c_uint32
from pathlib import Path

BUILT = Path(__file__).resolve().parent.parent.parent / "target/lib/libchemstation.so"
FINISHED, GIVEN = 0, 103

# The columns of Fill in its order: their names, and what a place of each holds.
COLUMNS = {"time": c_double, "axis": c_double, "unscaled": c_double, "scaled": c_double, "minutes": c_uint32, "leftover": c_uint32}
UNWRITTEN = 2**64 - 1  # as a count of replaced letters: no text has so many


class NoLibrary(Exception):
    """The library is not there, or is none, or is too old."""


def counts_replaced(library):
    """Whether it has the counts of replaced letters, which each call writes, a refusal (here of kind 0) too. An older library has the
    same functions with a pointer less, and would leave them as they were."""
    replaced, places = (c_size_t * 8)(*[UNWRITTEN] * 8), c_size_t * 8
    library.chemstation_texts(0, (c_ubyte * 1)(), 0, (c_ubyte * 1)(), 0, places(), places(), replaced)
    return UNWRITTEN not in replaced


@functools.lru_cache(maxsize=None)
def loaded(path):
    """The library at a path, with the types of its functions."""
    made = "tools/build-library makes it, or CHEMSTATION_LIBRARY names it"
    try:
        library = ctypes.CDLL(path)
        functions = (library.chemstation_open, library.chemstation_open_atlas, library.chemstation_text, library.chemstation_texts,
                     library.chemstation_fill, library.chemstation_sum)
    except (OSError, AttributeError) as error:
        raise NoLibrary(f"the library cannot be loaded ({error}); {made}") from None
    slice_, numbers, counts = [POINTER(c_ubyte), c_size_t], POINTER(c_double), POINTER(c_size_t)
    state = [numbers, counts, POINTER(c_uint32)]
    columns = [word for element in COLUMNS.values() for word in (POINTER(element), c_size_t)]
    for opens in (library.chemstation_open, library.chemstation_open_atlas):
        opens.argtypes = [c_ubyte, *slice_, c_bool, counts, numbers, counts, counts, *state, POINTER(c_ubyte)]
    library.chemstation_text.argtypes = [c_ubyte, c_ubyte, *slice_, *slice_, counts, counts]
    library.chemstation_texts.argtypes = [c_ubyte, *slice_, *slice_, counts, counts, counts]
    library.chemstation_fill.argtypes = [*state, c_ubyte, *slice_, c_bool, *columns, counts]
    library.chemstation_sum.argtypes = [numbers, c_size_t, POINTER(c_int64)]
    for function in functions:
        function.restype = c_ubyte
    if not counts_replaced(library):
        raise NoLibrary(f"the library {path} is too old: it does not count replaced letters; {made}")
    return library


def library():
    """The one that CHEMSTATION_LIBRARY names, or that tools/build-library made."""
    return loaded(os.environ.get("CHEMSTATION_LIBRARY") or str(BUILT))
