"""What is handed to the core: numpy arrays that are what the call takes them for.

The core trusts a caller with three things (include/harzoulin.h): a slice is as long as its length
says, no pointer is null, and what is written overlaps nothing else. They are seen to here.
"""

import sys
import warnings
from typing import NamedTuple

import numpy as np

# What a slice without entries points to.
_NOTHING = np.zeros(1)


class Converted(UserWarning):
    """An array could not be handed over as it is: a converted copy of it was."""


class Handed(NamedTuple):
    """An array of a call: its name, the array as it was handed in, and the one that the core is handed."""

    name: str
    given: np.ndarray
    array: np.ndarray


def to_read(name, array, kind):
    """An array that the core reads, or a copy of it."""
    return Handed(name, array, readable(name, array, kind))


def to_write(name, array, kind):
    """An array that the core writes."""
    return Handed(name, array, writable(name, array, kind))


def readable(name, array, kind):
    """The array itself if it is a contiguous one of the kind in the machine's byte order, else a copy
    with the same numbers, which a warning says."""
    _one_dimension(name, array)
    kind = np.dtype(kind)
    if array.dtype != kind and not _exact(array.dtype, kind):
        raise TypeError(f"{name}: expected {kind}, found {array.dtype}")
    if array.dtype == kind and array.flags.c_contiguous and array.flags.aligned:
        return array
    why = array.dtype if array.dtype != kind else "strided" if array.flags.aligned else "unaligned"
    message = f"{name}: a copy is handed over as contiguous {kind}, since the array is {why}"
    warnings.warn(message, Converted, stacklevel=_outside())
    return np.array(array, dtype=kind, order="C", subok=False)


def writable(name, array, kind):
    """The array, which has to be one that the core can write to as it is."""
    _one_dimension(name, array)
    kind = np.dtype(kind)
    if array.dtype != kind:
        raise TypeError(f"{name}: expected {kind}, found {array.dtype}")
    if not (array.flags.c_contiguous and array.flags.aligned):
        raise ValueError(f"{name}: expected a contiguous array to write to")
    if not array.flags.writeable:
        raise ValueError(f"{name}: expected an array to write to, found a read-only one")
    return array


def apart(written, read):
    """An error where an array that is written shares memory with another one, as they were handed in."""
    for place, one in enumerate(written):
        for other in [*written[place + 1 :], *read]:
            if np.shares_memory(one.given, other.given):
                raise ValueError(f"{one.name} overlaps {other.name}: what is written stands by itself")


def slices(handed):
    """Pointer and length of each array, one after the other."""
    for _, _, array in handed:
        yield (array if array.size else _NOTHING).__array_interface__["data"][0]
        yield array.size


def _one_dimension(name, array):
    if not isinstance(array, np.ndarray):
        raise TypeError(f"{name}: expected a numpy array, found {type(array).__name__}")
    if isinstance(array, np.ma.MaskedArray):
        raise TypeError(f"{name}: expected an array without a mask")
    if array.ndim != 1:
        raise ValueError(f"{name}: expected one dimension, found {array.ndim}")


def _exact(found, kind):
    """Whether each number of a type is one of the kind. A 64-bit integer may be no float64."""
    kept = found.kind == kind.kind or found.itemsize < 8
    return kept and found.kind in "iuf" and np.can_cast(found, kind)


def _outside():
    """How many frames up the first one stands that is not of this package."""
    depth, frame = 1, sys._getframe(1)
    while frame and frame.f_globals.get("__name__", "").startswith(__package__ + "."):
        depth, frame = depth + 1, frame.f_back
    return depth
