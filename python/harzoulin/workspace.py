"""The memory that calls are lent, kept from one call to the next."""

import sys
import threading
from dataclasses import dataclass, replace
from typing import Any

import numpy as np

from . import lent
from .marks import is_stale
from .names import Rollup
from .pandas_series import arrays_of, index_of, series_of
from .settings import MOST, Settings, SettledSettings

# No time that the core accepts.
_NO_TIME = np.iinfo(np.int64).max


@dataclass(frozen=True, eq=False)
class Figures:
    """The answer of a run.

    times: the output times.
    values: one figure for each.
    count: how many readings the figures are made of, and for each output time how many were scanned.
    remaining: the times of the readings that figures are made of: all for a rollup that sees marks, for
        the others those that are no marks.
    prepared: the values of those readings after the preparing step.

    Of a pandas Series, `values` and `prepared` are Series, `times` and `remaining` DatetimeIndexes. Where
    they were left out, `remaining` and `prepared` are None.
    """

    times: Any
    values: Any
    count: int
    remaining: Any = None
    prepared: Any = None

    def bare(self):
        """The same without remaining times and prepared values."""
        return replace(self, remaining=None, prepared=None)

    def as_pandas(self, name):
        """The same as Series and DatetimeIndexes."""
        times, values = index_of(self.times), series_of(self.times, self.values, name)
        figures = replace(self, times=times, values=values)
        if self.remaining is None:
            return figures
        prepared = series_of(self.remaining, self.prepared, name)
        return replace(figures, remaining=prepared.index, prepared=prepared)


class Workspace:
    """Owns what runs are lent beside the output: 32 bytes a reading of the longest series so far.

    An answer's `remaining` and `prepared` stand in that memory. As long as somebody holds them, later
    calls take other memory, so that no answer changes. Calls from several threads wait for one another:
    each thread that is to work at the same time needs a workspace of its own.
    """

    def __init__(self):
        self._lock, self._lent = threading.Lock(), {}

    def clear(self):
        """Lets go of the memory."""
        with self._lock:
            self._lent = {}

    def prepare(self, timestamps, values=None, *, pre):
        """The values after a preparing step. A staleness mark is refused, as any NaN: a run, which takes
        them, has the prepared values of the readings that remain."""
        if values is None:
            prepared = self.prepare(*arrays_of(timestamps), pre=pre)
            return type(timestamps)(prepared, index=timestamps.index, name=timestamps.name)
        with self._lock:
            prepared = self._room("prepared", _length(values), np.float64)
            lent.prepare(timestamps, values, pre=pre, prepared=prepared)
            return prepared[: len(values)]

    def run(self, timestamps, values=None, *, rollup, pre="none", **settings):
        """One figure for each output time of a grid: `Figures`. The settings are those of `Settings`.

        A series is two numpy arrays, times in milliseconds (int64) and values (float64), or a pandas
        Series with a DatetimeIndex in UTC. Values may be `STALE`.
        """
        return self._figures(timestamps, values, rollup, pre, Settings(**settings))

    def settled_run(self, timestamps, values=None, *, rollup, pre="none", **settings):
        """As `run`, with window and reach given, settled on the times that the rollup sees: the settings
        are those of `SettledSettings`."""
        return self._figures(timestamps, values, rollup, pre, SettledSettings(**settings))

    def _figures(self, timestamps, values, rollup, pre, settings):
        if values is None:
            figures = self._figures(*arrays_of(timestamps), rollup, pre, settings)
            return figures.as_pandas(timestamps.name)
        read = lent.series(timestamps, values)
        times, values = (each.array for each in read)
        if isinstance(settings, Settings):
            settings = settings.over(times)
        points, readings = settings.points(), _length(times)
        output = np.empty(points)
        with self._lock:
            prepared = self._room("prepared", readings, np.float64)
            remaining = self._room("remaining", readings, np.int64)
            work = self._room("work", 2 * readings, np.float64)
            remaining[readings - 1 : readings] = _NO_TIME
            slices = output, prepared, remaining, work
            count = lent.figures(read, rollup, pre, settings, slices)
            seen = _seen(values, rollup, remaining[:readings])
            grid = settings.start + settings.step * np.arange(points)
            return Figures(grid, output, count, remaining[:seen], prepared[:seen])

    def _room(self, name, length, kind):
        """An array of that length or longer that nobody else holds, not even a part of it."""
        own = self._lent.get(name)
        # One reference is the dictionary's, one is `own`, one is getrefcount's.
        if own is None or len(own) < length or sys.getrefcount(own) > 3:
            own = self._lent[name] = np.empty(length, kind)
        return own


def _length(values):
    """The length, or 0 where the core refuses it or the array is none."""
    length = values.size if isinstance(values, np.ndarray) else 0
    return length if length <= MOST else 0


def _seen(values, rollup, remaining):
    """How many readings an accepted run goes by. The last place for their times tells whether that is
    all of them: it is written only then."""
    if Rollup.of(rollup).sees_marks or not (remaining[-1:] == _NO_TIME).any():
        return len(remaining)
    return len(values) - np.count_nonzero(is_stale(values))
