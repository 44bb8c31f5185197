"""The exported functions of the core, as include/harzoulin.h declares them.

A call through ctypes.CDLL lets go of the interpreter's lock until the function returns.
"""

import ctypes
from ctypes import POINTER, c_bool, c_double, c_int64, c_size_t, c_uint32, c_uint64, c_void_p
from pathlib import Path

LIBRARY = Path(__file__).with_name("libharzoulin.so")

_SLICE = [c_void_p, c_size_t]
_SERIES = _SLICE * 2
_PLACE = [POINTER(c_uint64)]
_CHOICES = [c_uint32, c_uint32, c_double, c_double]
_GRID = [c_int64, c_int64, c_int64]
_SETTINGS = [*_GRID, c_int64, c_bool, c_bool, c_int64, c_int64, c_int64, c_uint64]
_SETTLED = [*_GRID, c_int64, c_int64, c_uint64]
_LENT = _SLICE * 4

# The types of the parameters of each function.
FUNCTIONS = {
    "prepare": [*_SERIES, c_uint32, *_SLICE, *_PLACE],
    "settle": [*_SLICE, *_SETTINGS, POINTER(c_int64), POINTER(c_int64), *_PLACE * 2],
    "run": [*_SERIES, *_CHOICES, *_SETTINGS, *_LENT, *_PLACE * 2],
    "settled_run": [*_SERIES, *_CHOICES, *_SETTLED, *_LENT, *_PLACE * 2],
    "crossings": [*_SERIES, c_double, *_SLICE, *_PLACE * 2],
    "nearest": [*_SLICE, c_int64, *_PLACE * 3],
    "merge": [*_SERIES * 2, *_SLICE * 2, *_PLACE * 2],
}


def _load(path):
    """The functions of a library by their names."""
    if not path.exists():
        raise ImportError(f"no core at {path}: python/build writes it")
    library = ctypes.CDLL(str(path))
    found = {}
    for name, types in FUNCTIONS.items():
        function = getattr(library, f"harzoulin_{name}", None)
        if function is None:
            raise ImportError(f"{path} has no function harzoulin_{name}: python/build writes it anew")
        function.argtypes, function.restype = types, c_uint64
        found[name] = function
    return found


CORE = _load(LIBRARY)
