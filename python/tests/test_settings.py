"""What settings the calls take: whole numbers, times, lengths of time, and the grid where none is given."""

from datetime import datetime, timedelta, timezone
from fractions import Fraction

import numpy as np
import pandas
import pytest
from samples import GRID, READ, SETTLED_GRID, TIMES, VALUES, WAYS, through_the_package

import harzoulin
from harzoulin import Settings, SettledSettings, lent

UTC = timezone.utc
EAST = timezone(timedelta(hours=5, minutes=30))
ZERO = datetime(1970, 1, 1, tzinfo=UTC)

LIMITS = ["lookback_delta", "min_staleness_interval", "max_points_per_series"]
WHOLE = {
    "settle": [*GRID, "window", *LIMITS, "samples_scanned_per_call"],
    "run": [*GRID, "window", *LIMITS, "samples_scanned_per_call"],
    "settled_run": [*SETTLED_GRID, "samples_scanned_per_call"],
    "nearest": ["at"],
}
WHOLE_NUMBERS = [(call, name) for call, listed in WHOLE.items() for name in listed]
each_way = pytest.mark.parametrize("through", WAYS)
each_whole = pytest.mark.parametrize("call, name", WHOLE_NUMBERS)


def in_range(name):
    """The least and the largest number that a setting may be handed to the core as."""
    return (0, 2**64 - 1) if name == "samples_scanned_per_call" else (-(2**63), 2**63 - 1)


@each_way
@each_whole
def test_whole_numbers_that_do_not_fit_are_value_errors(through, call, name):
    least, most = in_range(name)
    for number in (least - 1, most + 1, 10**30):
        with pytest.raises(ValueError, match=f"^{name}: {number} does not fit in 64 bits$"):
            through(call, **{name: number})


@each_way
@each_whole
def test_whole_numbers_that_fit_are_left_to_the_core(through, call, name):
    for number in in_range(name):
        if number != 0:
            with pytest.raises(harzoulin.Refused):
                through(call, **{name: number})


OTHERS = [1.0, np.float64(1), "1", b"1", True, False, np.True_, [1], np.array([1, 2]), np.datetime64(1, "ms")]


@each_way
@each_whole
@pytest.mark.parametrize("other", [*OTHERS, np.timedelta64(1, "ms"), 1j], ids=repr)
def test_what_is_no_whole_number_is_a_type_error(through, call, name, other):
    with pytest.raises(TypeError, match=f"^{name}: expected a whole number, found "):
        through(call, **{name: other})


@each_way
@each_whole
def test_none_stands_for_no_number_but_those_of_a_grid(through, call, name):
    if call in ("settle", "run") and name in GRID:
        grid = {"start": 3000, "end": 3000, "step": 1000, "window": 1000}
        times = {"timestamps": TIMES[3:], **({"values": VALUES[3:]} if call == "run" else {})}
        assert through(call, **times, **{**grid, name: None}) == through(call, **times, **grid)
    else:
        with pytest.raises(TypeError, match=f"^{name}: expected a whole number, found NoneType$"):
            through(call, **{name: None})


@each_way
@pytest.mark.parametrize("name", ["may_adjust_window", "is_default_rollup"])
def test_flags_are_true_or_false_and_nothing_else(through, name):
    for other in (0, 1, None, "yes", 1.0, np.int64(1), np.array([True])):
        with pytest.raises(TypeError, match=f"^{name}: expected True or False, found "):
            through("run", **{name: other})
    for flag in (True, False):
        assert through("run", **{name: np.bool_(flag)}) == through("run", **{name: flag})


@each_way
@each_whole
def test_whole_numbers_of_numpy_are_whole_numbers(through, call, name):
    number = {**READ[call], "window": 1}.get(name, 5)
    expected = through(call, **{name: number})
    for kind in (np.int64, np.int32, np.uint16):
        assert through(call, **{name: kind(number)}) == expected


@pytest.mark.parametrize("call", ["settle", "run", "settled_run"])
def test_a_setting_that_is_not_known_is_a_type_error(call):
    with pytest.raises(TypeError, match="unexpected keyword argument 'windows'"):
        through_the_package(call, windows=1)


@each_way
def test_times_may_be_datetimes_and_lengths_timedeltas(through):
    second = timedelta(seconds=1)
    for zero in (ZERO, ZERO.astimezone(EAST), pandas.Timestamp(0, tz="UTC")):
        grid = {"start": zero - 2 * second, "end": zero + 3 * second, "step": second, "window": 2 * second}
        numbers = {"start": -2000, "end": 3000, "step": 1000, "window": 2000}
        limits = {"lookback_delta": 5000, "min_staleness_interval": 1}
        lengths = {name: timedelta(milliseconds=number) for name, number in limits.items()}
        assert Settings(**grid, **lengths) == Settings(**numbers, **limits)
        assert SettledSettings(**grid, reach=second) == SettledSettings(**numbers, reach=1000)
    room = {} if through is through_the_package else {"output": np.zeros(2)}
    grid = {"start": ZERO, "end": ZERO + second, "step": pandas.Timedelta(second)}
    assert through("run", **grid, **room) == through("run", start=0, end=1000, step=1000, **room)
    assert through("nearest", at=ZERO + 2 * second) == through("nearest", at=2000)


def test_a_datetime_is_exact_far_from_1970():
    for year in (1, 1969, 9999):
        at = datetime(year, 1, 2, 3, 4, 5, 678_000, tzinfo=EAST)
        whole = (at - ZERO) // timedelta(milliseconds=1)
        assert Settings(start=at, step=1).start == whole
        assert ZERO + timedelta(milliseconds=whole) == at


A_TIME = [("run", "start"), ("run", "end"), ("settled_run", "start"), ("nearest", "at")]


@each_way
@pytest.mark.parametrize("call, name", A_TIME)
def test_a_datetime_without_a_zone_is_a_type_error(through, call, name):
    for naive in (datetime(1970, 1, 1), pandas.Timestamp(0)):
        with pytest.raises(TypeError, match=f"^{name}: expected a time with its zone, found 1970-01-01"):
            through(call, **{name: naive})


@each_way
@pytest.mark.parametrize("call, name", A_TIME)
def test_a_datetime_with_microseconds_is_a_value_error(through, call, name):
    for rest in (timedelta(microseconds=1), timedelta(microseconds=-1)):
        with pytest.raises(ValueError, match=f"^{name}: expected whole milliseconds, found "):
            through(call, **{name: ZERO + rest})


@each_way
@pytest.mark.parametrize("name", ["step", "window", "reach"])
def test_a_timedelta_with_microseconds_is_a_value_error(through, name):
    call = "settled_run" if name == "reach" else "run"
    for given in (timedelta(milliseconds=5, microseconds=1), pandas.Timedelta(5, "ns")):
        with pytest.raises(ValueError, match=f"^{name}: expected whole milliseconds, found "):
            through(call, **{name: given})


@each_way
def test_times_are_no_lengths_and_lengths_no_times(through):
    for name, given in [("start", timedelta(0)), ("step", ZERO), ("window", ZERO)]:
        with pytest.raises(TypeError, match=f"^{name}: expected a whole number, found "):
            through("run", **{name: given})


@each_way
@pytest.mark.parametrize("call", ["settle", "run"])
def test_no_step_and_no_window_is_a_type_error(through, call):
    with pytest.raises(TypeError, match="^expected a step or a window$"):
        through(call, step=None)


def test_no_step_stands_for_the_window():
    grid = {"rollup": "count", "start": 0, "end": 3000}
    figures = harzoulin.run(TIMES, VALUES, window=1500, **grid)
    assert (figures.times.tolist(), figures.values.tolist()) == ([0, 1500, 3000], [1.0, 1.0, 2.0])
    again = harzoulin.run(TIMES, VALUES, step=1500, **grid)
    assert again.values.tolist() == figures.values.tolist()


@pytest.mark.parametrize(
    "first, last, step, start, end",
    [
        (0, 1000, 1000, 0, 1000),
        (1, 1002, 1000, 1000, 2000),
        (1000, 2001, 1000, 1000, 3000),
        (-1, 1, 1000, 0, 1000),
        (-1001, -999, 1000, -1000, 0),
        (-2000, 999, 1000, -2000, 1000),
        (-7, 7, 1, -7, 7),
    ],
)
def test_the_grid_is_that_of_the_readings_moved_up_to_whole_steps(first, last, step, start, end):
    times = np.array([first, last])
    grid = list(range(start, end + 1, step))
    assert harzoulin.run(times, VALUES[:2], rollup="count", step=step).times.tolist() == grid
    assert harzoulin.settle(times, step=step).points == len(grid)
    given = harzoulin.run(times, VALUES[:2], rollup="count", step=step, start=start - step)
    assert given.times.tolist() == [start - step, *grid]
    given = harzoulin.run(times, VALUES[:2], rollup="count", step=step, end=end - 1)
    assert given.times.tolist() == grid[:-1]


@each_way
@pytest.mark.parametrize("call", ["settle", "run"])
def test_no_readings_and_no_grid_is_a_value_error(through, call):
    nothing = {name: READ[call][name][:0] for name in ("timestamps", "values") if name in READ[call]}
    for missing in ({"start": None}, {"end": None}, {"start": None, "end": None}):
        with pytest.raises(ValueError, match="^expected a reading, or start and end$"):
            through(call, **nothing, **missing)
    through(call, **nothing)


@pytest.mark.parametrize("step", [0, -5, -(2**63), 2**63 - 1])
def test_a_step_that_is_refused_is_refused_without_a_grid_as_well(step):
    with pytest.raises(harzoulin.Refused, match="^refusal 6: "):
        harzoulin.run(TIMES, VALUES, rollup="avg", step=step)


@pytest.mark.parametrize("step", [1, 1000, 2**62, 0])
def test_a_time_that_is_refused_is_refused_without_a_grid_as_well(step):
    for time in (2**63 - 1, 2**63 - 2, -(2**63), 2**50 + 1):
        with pytest.raises(harzoulin.Refused, match="^refusal 3 at reading 1: "):
            harzoulin.run(np.array([0, time]), VALUES[:2], rollup="avg", step=step)


def test_settings_that_were_settled_run_to_the_same_figures():
    settings = Settings(step=1000, may_adjust_window=True, samples_scanned_per_call=3).over(TIMES)
    settled = settings.settled(lent.settle(TIMES, **vars(settings)))
    figures = harzoulin.run(TIMES, VALUES, rollup="sum", **vars(settings))
    again = harzoulin.settled_run(TIMES, VALUES, rollup="sum", **vars(settled))
    assert figures.values.tolist() == again.values.tolist() == [1.0, 3.0, 7.0, 10.0]
    assert figures.count == again.count == len(TIMES) + 3 * len(figures.times)


@each_way
def test_a_limit_is_a_number(through):
    for limit in ("3.5", b"3.5", None, [3.5], 3.5j, timedelta(0)):
        with pytest.raises(TypeError):
            through("crossings", limit=limit)
    for limit in (np.float64(3), np.float32(3), np.int64(3), Fraction(3), 3):
        assert through("crossings", limit=limit) == through("crossings", limit=3.0)
