"""Rollup figures of a series of readings: one number for each time of a grid, worked out by the proved
core of Harzoulin.

    figures = harzoulin.run(timestamps, values, rollup="avg", step=60_000)
    figures.times, figures.values

A series is two numpy arrays, times in milliseconds (int64) and values (float64), or a pandas Series with
a DatetimeIndex in UTC, which comes out as one. A call gives its answer or raises `Refused`, the core's
numbered refusal; what cannot be handed over safely is a TypeError or a ValueError before the call.
`harzoulin.lent` has the calls on memory of one's own, `harzoulin.distributed` figures of many series,
and of one long one, on many machines.
"""

from . import lent
from .arrays import Converted
from .calls import (
    clear,
    crossings,
    merge,
    nearest,
    prepare,
    remaining,
    run,
    settle,
    settled_run,
)
from .marks import STALE, is_stale
from .names import ROLLUPS, STEPS, Rollup
from .refusal import Refused
from .settings import MOST, Settings, Settled, SettledSettings
from .workspace import Figures, Workspace

__all__ = [
    "MOST", "ROLLUPS", "STALE", "STEPS", "Converted", "Figures", "Refused", "Rollup", "Settings",
    "Settled", "SettledSettings", "Workspace", "clear", "crossings", "is_stale", "lent", "merge",
    "nearest", "prepare", "remaining", "run", "settle", "settled_run",
]  # fmt: skip
