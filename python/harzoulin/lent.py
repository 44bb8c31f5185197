"""The calls as the core has them, on arrays that the caller lends to be written.

What is written is int64, uint64 or float64 as each function says, contiguous, and overlaps nothing
else of the call. While a call works on arrays, no other thread may write to them.
"""

from ctypes import byref, c_double, c_int64, c_uint64

import numpy as np

from .arrays import apart, slices, to_read, to_write
from .exported import CORE
from .names import Rollup, step_number
from .refusal import accepted, accepted_merge
from .settings import Settings, Settled, SettledSettings, time


def settle(timestamps, **settings):
    """Window, reach and number of output times of a run on these times. It sees no values: where some are
    marks, it is handed the times that `remaining` gives. The settings are those of `Settings`."""
    read = [to_read("timestamps", timestamps, np.int64)]
    settings = Settings(**settings).over(read[0].array)
    window, reach, points, index = c_int64(), c_int64(), c_uint64(), c_uint64()
    places = map(byref, (window, reach, points, index))
    number = CORE["settle"](*slices(read), *settings.numbers(), *places)
    accepted(number, index.value)
    return Settled(window.value, reach.value, points.value)


def prepare(timestamps, values, *, pre, prepared):
    """Writes the values after a preparing step to the first entries of `prepared` (float64)."""
    read = series(timestamps, values)
    written = [to_write("prepared", prepared, np.float64)]
    apart(written, read)
    index = c_uint64()
    number = CORE["prepare"](
        *slices(read), step_number(pre), *slices(written), byref(index)
    )
    accepted(number, index.value)


def run(timestamps, values, *, rollup, pre="none", output, prepared, remaining, work, **settings):
    """Writes one figure for each output time to the first entries of `output` and gives the count.

    Afterwards the first entries of `remaining` (int64) are the times of the readings that the figures are
    made of, as many of `prepared` their prepared values, and twice as many of `work` are 0.0. `output`,
    `prepared` and `work` are float64, `work` twice as long as the series. The settings are those of
    `Settings`.
    """
    read = series(timestamps, values)
    settings = Settings(**settings).over(read[0].array)
    return figures(read, rollup, pre, settings, (output, prepared, remaining, work))


def settled_run(
    timestamps, values, *, rollup, pre="none", output, prepared, remaining, work, **settings
):
    """As `run`, with window and reach given: the settings are those of `SettledSettings`."""
    read = series(timestamps, values)
    settings = SettledSettings(**settings)
    return figures(read, rollup, pre, settings, (output, prepared, remaining, work))


def crossings(timestamps, values, limit, *, indexes):
    """Writes the index of each reading that lies on the other side of a limit from the one before it to the
    first entries of `indexes` (uint64) and gives how many there are."""
    read = series(timestamps, values)
    written = [to_write("indexes", indexes, np.uint64)]
    apart(written, read)
    count, index = c_uint64(), c_uint64()
    places = byref(count), byref(index)
    number = CORE["crossings"](*slices(read), c_double(limit), *slices(written), *places)
    accepted(number, index.value)
    return count.value


def nearest(timestamps, at):
    """The index of the reading that is nearest to a time, the lower one of two that are as near; None
    only for a series without readings. Refusal 3 with index 0 may also be of the time `at`."""
    read = [to_read("timestamps", timestamps, np.int64)]
    found, place, index = c_uint64(), c_uint64(), c_uint64()
    places = map(byref, (found, place, index))
    number = CORE["nearest"](*slices(read), time("at", at), *places)
    accepted(number, index.value)
    return place.value if found.value else None


def merge(
    first_timestamps, first_values, second_timestamps, second_values, *, timestamps, values
):
    """Writes the readings that are in at least one of two series, those in both once, to the first entries
    of `timestamps` (int64) and `values` (float64), by their times, and gives how many there are."""
    first = series(first_timestamps, first_values, "first_")
    read = first + series(second_timestamps, second_values, "second_")
    written = [
        to_write("timestamps", timestamps, np.int64),
        to_write("values", values, np.float64),
    ]
    apart(written, read)
    length, index = c_uint64(), c_uint64()
    places = byref(length), byref(index)
    number = CORE["merge"](*slices(read), *slices(written), *places)
    accepted_merge(number, index.value)
    return length.value


def series(timestamps, values, prefix=""):
    """The two arrays of a series."""
    times = to_read(f"{prefix}timestamps", timestamps, np.int64)
    return [times, to_read(f"{prefix}values", values, np.float64)]


def figures(read, rollup, pre, settings, lent):
    """A run or, of settled settings, a settled run. Gives the count."""
    kinds = np.float64, np.float64, np.int64, np.float64
    names = "output", "prepared", "remaining", "work"
    written = list(map(to_write, names, lent, kinds))
    apart(written, read)
    choices = step_number(pre), *Rollup.of(rollup).choice
    count, index = c_uint64(), c_uint64()
    places = byref(count), byref(index)
    call = CORE["run" if isinstance(settings, Settings) else "settled_run"]
    number = call(
        *slices(read), *choices, *settings.numbers(), *slices(written), *places
    )
    accepted(number, index.value)
    return count.value

