"""A grid cut into stretches: each output time once, at least one in each, and about the same work."""

import numpy as np
import pytest
from cluster import series
from hypothesis import given, settings, strategies

from harzoulin import SettledSettings
from harzoulin.stretches import OUTPUT_TIME, cut, pays, work


def worked_of(times, settled):
    """The work of each output time, counted one by one."""
    ends = settled.start + settled.step * np.arange(settled.points())
    inside = [np.count_nonzero((times > end - settled.window) & (times <= end)) for end in ends]
    return np.array(inside) + OUTPUT_TIME


@settings(deadline=None, derandomize=True, database=None, max_examples=200)
@given(
    strategies.lists(strategies.integers(0, 3000), max_size=60).map(sorted),
    strategies.integers(1, 90),
    strategies.integers(1, 2000),
    strategies.integers(0, 3000),
    strategies.integers(1, 120),
)
def test_a_cut_has_each_output_time_once(times, step, window, end, pieces):
    settled = SettledSettings(start=-50, end=end, step=step, window=window, reach=1)
    cuts = cut(*work(np.array(times, np.int64), settled), pieces)
    assert cuts[0] == 0 and cuts[-1] == settled.points()
    assert all(begin < end for begin, end in zip(cuts, cuts[1:]))
    assert len(cuts) - 1 == min(pieces, settled.points())


@pytest.mark.parametrize("pieces", [2, 3, 7, 20])
def test_stretches_have_about_the_same_work(pieces):
    times, _ = series(20_000)
    bunched = np.sort(np.concatenate([times, np.linspace(50_000_000, 51_000_000, 20_000).astype(np.int64)]))
    settled = SettledSettings(start=0, end=int(times[-1]), step=60_000, window=600_000, reach=1)
    cuts = cut(*work(bunched, settled), pieces)
    worked = worked_of(bunched, settled)
    each = np.add.reduceat(worked, cuts[:-1])
    assert each.max() <= each.sum() / pieces + 2 * worked.max()


def test_a_piece_is_worth_its_pass_over_the_series():
    worked = np.array([0.0, 1e6])
    assert pays(1_000_000, worked, 8) == 1
    assert pays(100_000, worked, 8) == 10
    assert pays(1, worked, 8) == 32
    assert pays(0, worked, 1) == 4
