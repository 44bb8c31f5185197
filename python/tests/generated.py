"""Series, settings and parameters for the tests that compare with the model."""

import math

import numpy as np
from hypothesis import strategies as st

from harzoulin import STALE

LARGEST = 2**50
LARGEST_VALUE = float(np.finfo(np.float64).max)

ZEROS = st.sampled_from([0.0, -0.0])
NEAR_ZERO = st.sampled_from([0.0, -0.0, 5e-324, -5e-324, 2.5e-308, 1e-12])
HUGE = st.sampled_from([LARGEST_VALUE, -LARGEST_VALUE, 1e308, 1e300, -1e300, 2.0**53])
# Counters that restart, fall a little, or rise by less than what counts as a change.
COUNTER = st.sampled_from([0.0, 1.0, 2.0, 2.5, 7.0, 8.0, 79.0, 80.0, 80.00000000000001, 1000.0])
# Falls by an eighth, by a little less and by a little more.
FALLING = st.sampled_from([8.0, 7.0, 7.000000000000001, 6.999999999999999, 0.0, 16.0, 14.0])
ANY = st.floats(allow_nan=False, allow_infinity=False)
# What the values of a series are drawn from.
KINDS = [COUNTER, FALLING, COUNTER | NEAR_ZERO, HUGE | NEAR_ZERO, ANY, ZEROS]
MARK = st.just(STALE)
NOT_FINITE = st.sampled_from([math.nan, math.inf, -math.inf, STALE])

GAPS = st.sampled_from([0, 1, 7, 500, 999, 1000, 1001, 2000, 15_000, 60_000, 3_600_000, 2**40])
FIRST = st.sampled_from([0, -1000, -1, 999, -31_500, 1_700_000_000_123, -LARGEST, LARGEST - 70_000, LARGEST])
STEPS_OF_GRIDS = st.sampled_from([1, 500, 1000, 15_000, 60_000, 7_200_000, 2**45, LARGEST])
LENGTHS = st.sampled_from([0, 0, 1, 1000, 1500, 30_000, 300_000, 2**42, LARGEST]) | st.integers(0, 100_000)
SETTLED_LENGTHS = st.sampled_from([1, 2, 1000, 1001, 60_000, 2**41, 2**52])

PHIS = st.sampled_from([-0.0, 0.0, -5e-324, 0.25, 0.5, 0.9, 1.0, 1.0000000000000002, math.inf, math.nan])
PHIS |= st.floats(0.0, 1.0)


def inside(time):
    """The time, or the end of the range that it lies past."""
    return max(-LARGEST, min(time, LARGEST))


@st.composite
def times(draw, least=0, most=12, gaps=GAPS):
    """Times in order, some of them equal unless the gaps are above 0."""
    found, readings = [], draw(st.integers(least, most))
    for gap in draw(st.lists(gaps, min_size=readings, max_size=readings)):
        found.append(inside(found[-1] + gap) if found else draw(FIRST))
    return found


@st.composite
def series(draw, values=None, marks=True, **how):
    """Times and values of as many readings."""
    found = draw(times(**how))
    values = draw(st.sampled_from(KINDS)) if values is None else values
    if marks and draw(st.booleans()):
        values = values | MARK
    return found, draw(st.lists(values, min_size=len(found), max_size=len(found)))


@st.composite
def rising(draw):
    """Times and values of a series without marks whose times rise strictly."""
    found, values = draw(series(marks=False, gaps=st.sampled_from([1, 2, 3, 500])))
    kept = dict(zip(found, values))
    return list(kept), list(kept.values())


@st.composite
def grids(draw, times):
    """Start, end and step of up to ten output times, about where the readings are."""
    step = draw(STEPS_OF_GRIDS)
    about = draw(st.sampled_from(times)) if times else 0
    start = inside(about + draw(st.sampled_from([0, 1, -1, -step, step, -3 * step])))
    end = inside(start + draw(st.integers(0, 9)) * step + draw(st.sampled_from([0, step - 1])))
    return {"start": start, "end": end, "step": step}


@st.composite
def settings(draw, times):
    """The settings of a run that is accepted."""
    return {
        **draw(grids(times)),
        "window": draw(LENGTHS),
        "may_adjust_window": draw(st.booleans()),
        "is_default_rollup": draw(st.booleans()),
        "lookback_delta": draw(LENGTHS),
        "min_staleness_interval": draw(LENGTHS),
        "max_points_per_series": draw(st.sampled_from([0, 10, LARGEST])),
        "samples_scanned_per_call": draw(st.sampled_from([0, 0, 1, 65_535])),
    }


@st.composite
def calls(draw, **how):
    """Times, values and settings of a run that is accepted."""
    found = draw(series(**how))
    return *found, draw(settings(found[0]))


@st.composite
def offending(draw):
    """Times and values with something in them that rows 1 to 5 may refuse."""
    found, values = draw(series())
    for _ in range(draw(st.integers(0, 3)) if found else 0):
        place = draw(st.integers(0, len(found) - 1))
        if draw(st.booleans()):
            before = found[place - 1] - 1 if place else 0
            outside = LARGEST + 1, -LARGEST - 1, 2**63 - 1, -(2**63)
            found[place] = draw(st.sampled_from([*outside, max(before, -(2**63))]))
        else:
            values[place] = draw(NOT_FINITE)
    return found, values + draw(st.sampled_from([[]] * 7 + [[0.0]]))


def arrays(times, values):
    """The two arrays of a series."""
    return np.array(times, np.int64), np.array(values, np.float64)


def rollup(name, phi):
    """The rollup of a name; quantile with this parameter."""
    return ("quantile", phi) if name == "quantile" else name


def parameters(name, phi):
    """The parameters of the same."""
    return (phi,) if name == "quantile" else ()


def settled(settings, window, reach):
    """The settings of a settled run on the grid of a run."""
    kept = {name: settings[name] for name in ("start", "end", "step", "samples_scanned_per_call")}
    return {**kept, "window": window, "reach": reach}
