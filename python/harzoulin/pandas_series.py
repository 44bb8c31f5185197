"""A pandas Series with a DatetimeIndex in UTC as the two arrays that the core reads, and back."""

from datetime import timedelta

import numpy as np

_NANOSECONDS = 1_000_000


def times_of(index):
    """The times of an index in milliseconds."""
    import pandas

    if isinstance(index, pandas.Series):
        index = index.index
    if not isinstance(index, pandas.DatetimeIndex):
        raise TypeError(f"expected a numpy array or a DatetimeIndex, found {type(index).__name__}")
    if index.tz is None or index.tz.utcoffset(None) != timedelta(0):
        raise TypeError(f"expected a DatetimeIndex in UTC, found one in {index.tz}")
    if index.hasnans:
        raise ValueError("expected times, found NaT in the DatetimeIndex")
    milliseconds, rest = np.divmod(index.astype("datetime64[ns, UTC]").asi8, _NANOSECONDS)
    if rest.any():
        raise ValueError("expected times in whole milliseconds in the DatetimeIndex")
    return milliseconds


def arrays_of(series):
    """Times in milliseconds and values of a Series."""
    import pandas

    if not isinstance(series, pandas.Series):
        kind = type(series).__name__
        raise TypeError(f"expected times and values, or a pandas Series, found {kind} alone")
    if not isinstance(series.dtype, np.dtype):
        raise TypeError(f"values: expected float64, found {series.dtype}")
    return times_of(series.index), series.to_numpy()


def index_of(milliseconds):
    """A DatetimeIndex in UTC of times in milliseconds."""
    import pandas

    return pandas.DatetimeIndex(milliseconds.astype("datetime64[ms]"), tz="UTC")


def series_of(milliseconds, values, name=None):
    """A Series of times in milliseconds and values."""
    import pandas

    return pandas.Series(values, index=index_of(milliseconds), name=name)
