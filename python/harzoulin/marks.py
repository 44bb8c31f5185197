"""The staleness mark, which Prometheus writes as the value of a series that went away."""

import struct

import numpy as np

from .arrays import readable
from .names import Rollup

_BITS = 0x7FF0000000000002

# The staleness mark. It is a NaN, and NaN equals nothing: `is_stale` tells it by its bits. Arithmetic may
# change them, so it belongs in memory, as an element of an array.
STALE = struct.unpack("<d", struct.pack("<Q", _BITS))[0]


def is_stale(values):
    """Where values are the staleness mark, to the bit: an array of True and False, or one of them for a
    float."""
    if isinstance(values, float) and not isinstance(values, np.floating):
        return struct.pack("<d", values) == struct.pack("<Q", _BITS)
    return np.asarray(values, np.float64).view(np.uint64) == _BITS


def remaining_times(times, values, rollup):
    """The times of the readings that the figures of a rollup are made of: all, or those that are no
    marks."""
    if Rollup.of(rollup).sees_marks or len(times) != len(values):
        return times
    stale = is_stale(readable("values", values, np.float64))
    return times[~stale] if stale.any() else times
