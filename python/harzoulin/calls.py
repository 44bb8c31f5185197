"""The calls on a series, with the memory that they are lent kept for each thread."""

import threading

import numpy as np

from . import lent
from .arrays import readable
from .marks import remaining_times
from .pandas_series import arrays_of, index_of, series_of, times_of
from .settings import MOST
from .workspace import Workspace

_own = threading.local()


def _workspace():
    if not hasattr(_own, "workspace"):
        _own.workspace = Workspace()
    return _own.workspace


def clear():
    """Lets go of the memory that this thread's calls are lent."""
    _workspace().clear()


def prepare(timestamps, values=None, *, pre):
    return _workspace().prepare(timestamps, values, pre=pre)


def run(timestamps, values=None, *, rollup, pre="none", **settings):
    return _workspace().run(timestamps, values, rollup=rollup, pre=pre, **settings)


def settled_run(timestamps, values=None, *, rollup, pre="none", **settings):
    return _workspace().settled_run(timestamps, values, rollup=rollup, pre=pre, **settings)


for _call in (prepare, run, settled_run):
    _call.__doc__ = getattr(Workspace, _call.__name__).__doc__


def settle(timestamps, **settings):
    times = timestamps if isinstance(timestamps, np.ndarray) else times_of(timestamps)
    return lent.settle(times, **settings)


def nearest(timestamps, at):
    times = timestamps if isinstance(timestamps, np.ndarray) else times_of(timestamps)
    return lent.nearest(times, at)


settle.__doc__, nearest.__doc__ = lent.settle.__doc__, lent.nearest.__doc__


def remaining(timestamps, values=None, *, rollup):
    """The times of the readings that the figures of a rollup are made of: all of them, or those of the
    readings that are no marks. They are what `settle` is handed."""
    if values is None:
        return index_of(remaining_times(*arrays_of(timestamps), rollup))
    return remaining_times(readable("timestamps", timestamps, np.int64), values, rollup)


def crossings(timestamps, values=None, *, limit):
    """The index of each reading that lies on the other side of a limit from the one before it, in order:
    below is less than the limit, above is all else. Of a pandas Series, those readings."""
    if values is None:
        indexes = crossings(*arrays_of(timestamps), limit=limit)
        return timestamps.iloc[indexes]
    # Room for a crossing at every reading, so that 16 is not met; the core touches what it writes.
    indexes = np.empty(min(np.size(values), MOST), np.uint64)
    count = lent.crossings(timestamps, values, limit, indexes=indexes)
    return indexes[:count].astype(np.int64)


def merge(*series):
    """Times and values of the readings that are in at least one of two series, by their times: `merge(
    first_timestamps, first_values, second_timestamps, second_values)`, or of two pandas Series one.

    A reading that is in both is there once; a time with values of different bits is refused, and so are
    two readings of one time in one series, and a staleness mark.
    """
    if len(series) == 2:
        return series_of(*merge(*arrays_of(series[0]), *arrays_of(series[1])), series[0].name)
    if len(series) != 4:
        raise TypeError("expected times and values of two series, or two pandas Series")
    # Room for all readings of both, or for the longest series there is, so that 18 is not met.
    room = min(np.size(series[0]) + np.size(series[2]), MOST)
    times, values = np.empty(room, np.int64), np.empty(room)
    length = lent.merge(*series, timestamps=times, values=values)
    return times[:length].copy(), values[:length].copy()
