"""What a run is told beside its series: the grid, the window and the limits. All in milliseconds."""

import operator
from dataclasses import dataclass, replace
from datetime import datetime, timedelta, timezone

import numpy as np

# The most readings of a series, and the most output times of a grid.
MOST = 16_777_216

_LEAST_INT, _MOST_INT = -(2**63), 2**63 - 1
_EPOCH = datetime(1970, 1, 1, tzinfo=timezone.utc)
_MILLISECOND = timedelta(milliseconds=1)
_TRUTH = bool, np.bool_


def whole(name, number, least=_LEAST_INT, most=_MOST_INT):
    """A whole number that fits where the core has it; what the core refuses is left to the core."""
    if isinstance(number, _TRUTH):
        raise TypeError(f"{name}: expected a whole number, found {number}")
    try:
        number = operator.index(number)
    except TypeError:
        raise TypeError(f"{name}: expected a whole number, found {type(number).__name__}") from None
    if not least <= number <= most:
        raise ValueError(f"{name}: {number} does not fit in 64 bits")
    return number


def time(name, given):
    """A time in milliseconds, which a datetime with a zone is as well."""
    if not isinstance(given, datetime):
        return whole(name, given)
    if given.utcoffset() is None:
        raise TypeError(f"{name}: expected a time with its zone, found {given}")
    return duration(name, given - _EPOCH)


def duration(name, given):
    """A length of time in milliseconds, which a timedelta is as well."""
    if not isinstance(given, timedelta):
        return whole(name, given)
    milliseconds, rest = divmod(given, _MILLISECOND)
    if rest:
        raise ValueError(f"{name}: expected whole milliseconds, found {given}")
    return whole(name, milliseconds)


def truth(name, given):
    """True or False."""
    if not isinstance(given, _TRUTH):
        raise TypeError(f"{name}: expected True or False, found {type(given).__name__}")
    return bool(given)


def per_call(name, given):
    """A number that an output time adds to the count."""
    return whole(name, given, 0, 2**64 - 1)


class _Grid:
    def _take(self, read, *names):
        """Reads the fields of these names."""
        for name in names:
            object.__setattr__(self, name, read(name, getattr(self, name)))

    def numbers(self):
        """The settings in the order in which the core takes them."""
        return vars(self).values()

    def points(self):
        """The number of output times; 0 where rows 6, 7 or 11 refuse the grid."""
        if not (1 <= self.step <= 2**50 and -(2**50) <= self.start <= self.end <= 2**50):
            return 0
        points = (self.end - self.start) // self.step + 1
        return points if points <= MOST else 0

    def part(self, first, points):
        """The same over so many output times from the one at an index on."""
        start = self.start + first * self.step
        return replace(self, start=start, end=start + (points - 1) * self.step)


@dataclass(frozen=True)
class Settings(_Grid):
    """The settings of a run. 0 leaves a limit out.

    start: the first output time; None stands for the first reading's, moved up to a whole step.
    end: no output time is past this one; None stands for the last reading's, moved up to a whole step.
    step: from one output time to the next; None stands for the window.
    window: a figure at t is of the readings after t - window, up to t. 0 stands for the step.
    may_adjust_window: raises a window of 0 to the reach, so that it covers two readings.
    is_default_rollup: caps a window of 0 by the lookback delta.
    lookback_delta: the longest reach back to a predecessor.
    min_staleness_interval: the shortest reach; it goes before the lookback delta.
    max_points_per_series: the most output times.
    samples_scanned_per_call: what an output time adds to the count; 0 stands for the readings in its
        window.

    Times may be datetimes with a zone, lengths of time timedeltas.
    """

    start: int | None = None
    end: int | None = None
    step: int | None = None
    window: int = 0
    may_adjust_window: bool = False
    is_default_rollup: bool = False
    lookback_delta: int = 0
    min_staleness_interval: int = 0
    max_points_per_series: int = 0
    samples_scanned_per_call: int = 0

    def __post_init__(self):
        self._take(time, *(name for name in ("start", "end") if getattr(self, name) is not None))
        self._take(duration, "window", "lookback_delta", "min_staleness_interval")
        if self.step is None and self.window == 0:
            raise TypeError("expected a step or a window")
        self._take(lambda name, step: self.window if step is None else duration(name, step), "step")
        self._take(truth, "may_adjust_window", "is_default_rollup")
        self._take(whole, "max_points_per_series")
        self._take(per_call, "samples_scanned_per_call")

    def over(self, timestamps):
        """The settings for a series of these times, with a grid of its own where none is given."""
        if self.start is not None and self.end is not None:
            return self
        if len(timestamps) == 0:
            raise ValueError("expected a reading, or start and end")
        start = self._moved_up(timestamps[0]) if self.start is None else self.start
        end = self._moved_up(timestamps[-1]) if self.end is None else self.end
        return replace(self, start=start, end=end)

    def _moved_up(self, time):
        step = max(self.step, 1)
        return min(int(time) + -int(time) % step, _MOST_INT)

    def settled(self, settled):
        """The same grid with the window and the reach that were settled."""
        return SettledSettings(
            self.start, self.end, self.step, settled.window, settled.reach, self.samples_scanned_per_call
        )


@dataclass(frozen=True)
class Settled:
    """What settling gives: the window in force, how far before a window its predecessor may stand, and
    the number of output times."""

    window: int
    reach: int
    points: int


@dataclass(frozen=True)
class SettledSettings(_Grid):
    """The settings of a settled run: those of a run, with window and reach as `settle` gave them."""

    start: int
    end: int
    step: int
    window: int
    reach: int
    samples_scanned_per_call: int = 0

    def __post_init__(self):
        self._take(time, "start", "end")
        self._take(duration, "step", "window", "reach")
        self._take(per_call, "samples_scanned_per_call")
