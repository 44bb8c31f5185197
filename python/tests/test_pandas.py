"""A pandas Series with a DatetimeIndex in UTC goes in and comes out as one."""

import datetime
import warnings
import zoneinfo

import dateutil.tz
import numpy as np
import pandas
import pytest
from samples import bits, in_bytes

import harzoulin
from harzoulin import STALE, Converted, Workspace

TIMES = np.array([-1500, 0, 999, 1000, 1000, 61_003])
VALUES = np.array([1.0, -0.0, 4.5, 2.0, 2.0, 8.0])
GRID = {"start": -2000, "end": 62_000, "step": 1000, "window": 3000}
SETTLED_GRID = {**GRID, "reach": 5000}
RISING = [0, 1, 2, 3, 5]
UTC = [datetime.timezone.utc, zoneinfo.ZoneInfo("UTC"), "UTC", dateutil.tz.UTC, "Etc/UTC"]


def index(times, zone="UTC"):
    """A DatetimeIndex of times in milliseconds."""
    return pandas.to_datetime(times, unit="ms", utc=True).tz_convert(zone)


def series(times=TIMES, values=VALUES, name="hall 4", zone="UTC"):
    return pandas.Series(values, index(times, zone), name=name)


# Each call on a Series alone, and the same on arrays.
CALLS = {
    "settle": (harzoulin.settle, {"step": 1000}),
    "remaining": (harzoulin.remaining, {"rollup": "avg"}),
    "prepare": (harzoulin.prepare, {"pre": "resets"}),
    "run": (harzoulin.run, {"rollup": "integrate", "pre": "delta", **GRID}),
    "settled_run": (harzoulin.settled_run, {"rollup": "stdvar", **SETTLED_GRID}),
    "crossings": (harzoulin.crossings, {"limit": 2.5}),
    "nearest": (harzoulin.nearest, {"at": 900}),
    "workspace_prepare": (Workspace().prepare, {"pre": "none"}),
    "workspace_run": (Workspace().run, {"rollup": "quantile(0.4)", **GRID}),
    "workspace_settled_run": (Workspace().settled_run, {"rollup": "range", **SETTLED_GRID}),
}
each_call = pytest.mark.parametrize("call, how", CALLS.values(), ids=CALLS)


def same(found, times, values, name="hall 4"):
    """Asserts that a Series has these times and values, to the bit, and its name."""
    assert type(found) is pandas.Series and found.name == name
    same_index(found.index, times)
    assert found.dtype == np.float64 and bits(found.to_numpy()).tolist() == bits(values).tolist()


def same_index(found, times):
    assert type(found) is pandas.DatetimeIndex and str(found.tz) == "UTC"
    assert found.equals(index(times))


def same_figures(found, of_arrays):
    """Asserts that figures of a Series are those of its arrays."""
    same_index(found.times, of_arrays.times)
    same(found.values, of_arrays.times, of_arrays.values)
    same_index(found.remaining, of_arrays.remaining)
    same(found.prepared, of_arrays.remaining, of_arrays.prepared)
    assert found.count == of_arrays.count


SOME = ["avg", "delta", "default", "stale_samples", "until_next", "quantile(0.9)"]


@pytest.mark.parametrize("marks", [[], [0], [1, 3], [5], range(6)], ids=str)
@pytest.mark.parametrize("rollup", SOME)
def test_figures_of_a_series_are_those_of_its_arrays(marks, rollup):
    values = VALUES.copy()
    values[list(marks)] = STALE
    for function, how in [(harzoulin.run, GRID), (harzoulin.settled_run, SETTLED_GRID)]:
        of_arrays = function(TIMES, values, rollup=rollup, **how)
        same_figures(function(series(values=values), rollup=rollup, **how), of_arrays)


@pytest.mark.parametrize("pre", harzoulin.STEPS)
def test_prepared_values_of_a_series_are_those_of_its_arrays(pre):
    same(harzoulin.prepare(series(), pre=pre), TIMES, harzoulin.prepare(TIMES, VALUES, pre=pre))
    of_arrays = harzoulin.run(TIMES, VALUES, rollup="sum", pre=pre, **GRID)
    same_figures(harzoulin.run(series(), rollup="sum", pre=pre, **GRID), of_arrays)


@pytest.mark.parametrize("rollup", ["avg", "default"])
def test_the_remaining_times_of_a_series_are_an_index_to_settle(rollup):
    values = VALUES.copy()
    values[[0, 2]] = STALE
    expected = TIMES if rollup == "default" else TIMES[[1, 3, 4, 5]]
    assert harzoulin.remaining(TIMES, values, rollup=rollup).tolist() == expected.tolist()
    found = harzoulin.remaining(series(values=values), rollup=rollup)
    same_index(found, expected)
    settings = {"step": 7, "may_adjust_window": True}
    settled = harzoulin.settle(expected, **settings)
    assert harzoulin.settle(found, **settings) == settled
    assert harzoulin.settle(pandas.Series(0.0, found), **settings) == settled


def test_crossings_of_a_series_are_its_readings():
    found = harzoulin.crossings(series(), limit=2.5)
    places = harzoulin.crossings(TIMES, VALUES, limit=2.5)
    assert (places.dtype, places.tolist()) == (np.int64, [2, 3, 5])
    same(found, TIMES[places], VALUES[places])


def test_the_nearest_reading_of_a_series_is_a_place():
    at = pandas.Timestamp(900, unit="ms", tz="UTC")
    for of in (series(), series().index, TIMES):
        assert harzoulin.nearest(of, 900) == harzoulin.nearest(of, at) == 2
        assert harzoulin.nearest(of[:0], 900) is None


def test_two_series_are_merged_to_one_with_the_name_of_the_first():
    times, values = TIMES[RISING], VALUES[RISING]
    first, second = series(times[:3], values[:3]), series(times[1:], values[1:], "b")
    same(harzoulin.merge(first, second), times, values)
    same(harzoulin.merge(second, first), times, values, "b")
    same(harzoulin.merge(first, first[:0]), times[:3], values[:3])
    with pytest.raises(harzoulin.Refused, match="^refusal 17: "):
        harzoulin.merge(first, first + 1.0)


def test_a_merge_takes_two_series_or_four_arrays():
    expected = "^expected times and values of two series, or two pandas Series$"
    for handed in ((), (series(),), (series(), TIMES, VALUES), (TIMES, VALUES, TIMES, VALUES, TIMES)):
        with pytest.raises(TypeError, match=expected):
            harzoulin.merge(*handed)
    with pytest.raises(TypeError, match="or a pandas Series, found ndarray alone$"):
        harzoulin.merge(TIMES, VALUES)


@pytest.mark.parametrize("name", [None, "", ("hall", 4), 7])
def test_names_are_kept(name):
    named = series(name=name)
    figures = harzoulin.run(named, rollup="avg", **GRID)
    prepared, crossed = harzoulin.prepare(named, pre="delta"), harzoulin.crossings(named, limit=1.0)
    for found in (figures.values, figures.prepared, prepared, crossed):
        assert found.name == name and type(found.name) is type(name)


def test_marks_are_kept():
    values = np.array([1.0, STALE, STALE, 2.0])
    grid = {"start": -1000, "end": 1000, "step": 500}
    figures = harzoulin.run(series(TIMES[:4], values), rollup="default", **grid)
    assert harzoulin.is_stale(figures.prepared).tolist() == [False, True, True, False]
    assert harzoulin.is_stale(figures.values).tolist() == [False, False, True, False, False]
    assert harzoulin.is_stale(figures.values).any()


@each_call
@pytest.mark.parametrize("zone", UTC, ids=repr)
def test_utc_by_each_of_its_names_is_utc(call, how, zone):
    handed = series(zone=zone)
    assert str(handed.index.dtype).startswith("datetime64[ns, ")
    expected, found = call(series(), **how), call(handed, **how)
    assert comparable(found) == comparable(expected)
    if isinstance(found, pandas.Series):
        assert found.index.tz is handed.index.tz


def comparable(answer):
    """An answer of a Series as bytes."""
    if isinstance(answer, harzoulin.Figures):
        return [comparable(part) for part in vars(answer).values()]
    if isinstance(answer, pandas.Series):
        return comparable(answer.index), in_bytes(answer.to_numpy(np.float64))
    return answer.asi8.tobytes() if isinstance(answer, pandas.DatetimeIndex) else in_bytes(answer)


OTHER_ZONES = ["Europe/London", "Africa/Abidjan", zoneinfo.ZoneInfo("Europe/Vienna"), "+01:00"]


@each_call
@pytest.mark.parametrize("zone", OTHER_ZONES, ids=str)
def test_other_zones_are_type_errors(call, how, zone):
    other = pandas.Series(VALUES, index(TIMES).tz_convert(zone))
    with pytest.raises(TypeError, match="^expected a DatetimeIndex in UTC, found one in "):
        call(other, **how)


@each_call
def test_times_without_a_zone_are_a_type_error(call, how):
    with pytest.raises(TypeError, match="^expected a DatetimeIndex in UTC, found one in None$"):
        call(series().tz_localize(None), **how)


OTHER_INDEXES = {
    "numbers": pandas.Index(TIMES),
    "places": pandas.RangeIndex(6),
    "periods": pandas.period_range("2020", periods=6, freq="D"),
    "texts": pandas.Index(list("abcdef")),
    "lengths": pandas.to_timedelta(TIMES, unit="ms"),
    "levels": pandas.MultiIndex.from_arrays([index(TIMES), range(6)]),
}


@each_call
@pytest.mark.parametrize("other", OTHER_INDEXES.values(), ids=OTHER_INDEXES)
def test_other_indexes_are_type_errors(call, how, other):
    with pytest.raises(TypeError, match=f"expected .*a DatetimeIndex, found {type(other).__name__}$"):
        call(pandas.Series(VALUES, other), **how)


@each_call
def test_no_time_is_a_value_error(call, how):
    times = index(TIMES).insert(3, pandas.NaT)[:6]
    with pytest.raises(ValueError, match="^expected times, found NaT in the DatetimeIndex$"):
        call(pandas.Series(VALUES, times), **how)


@each_call
@pytest.mark.parametrize("rest", ["1ns", "-1ns", "500us"])
def test_times_between_milliseconds_are_a_value_error(call, how, rest):
    times = index(TIMES).to_series()
    times[0] += pandas.Timedelta(rest)
    with pytest.raises(ValueError, match="^expected times in whole milliseconds in the DatetimeIndex$"):
        call(pandas.Series(VALUES, pandas.DatetimeIndex(times.to_numpy(), tz="UTC")), **how)


OF_TIMES = ("settle", "remaining", "nearest")
OF_VALUES = {name: called for name, called in CALLS.items() if name not in OF_TIMES}
each_call_of_values = pytest.mark.parametrize("call, how", OF_VALUES.values(), ids=OF_VALUES)
OTHER_VALUES = ["int64", "object", "bool", "Float64", "Int64", "complex128", "string", "category"]


@each_call_of_values
@pytest.mark.parametrize("kind", OTHER_VALUES)
def test_other_values_are_type_errors(call, how, kind):
    with pytest.raises(TypeError, match="^values: expected float64, found "):
        call(series(values=np.arange(6.0)).astype(kind), **how)


@each_call_of_values
def test_narrower_values_are_converted_with_a_warning(call, how):
    with pytest.warns(Converted, match="^values: a copy .* since the array is float32$") as said:
        found = call(series().astype("float32"), **how)
    assert said[0].filename == __file__
    assert comparable(found) == comparable(call(series(), **how))


@each_call
def test_what_is_no_series_is_a_type_error(call, how):
    for other in (series().to_frame(), list(VALUES), None, "a", TIMES.tolist()):
        with pytest.raises(TypeError, match=f"found {type(other).__name__}( alone)?$"):
            call(other, **how)


@each_call
def test_a_series_is_read_without_a_warning_and_without_a_change(call, how):
    handed = series()
    with warnings.catch_warnings():
        warnings.simplefilter("error")
        call(handed, **how)
    same(handed, TIMES, VALUES)


@each_call
def test_a_column_of_a_frame_is_a_series(call, how):
    frame = pandas.DataFrame({"a": VALUES, "b": 2 * VALUES}, index(TIMES))
    with warnings.catch_warnings():
        warnings.simplefilter("ignore", Converted)
        for name in frame:
            expected = call(pandas.Series(frame[name].to_numpy().copy(), frame.index), **how)
            assert comparable(call(frame[name], **how)) == comparable(expected)


def test_an_answer_that_is_held_as_a_series_keeps_its_bits():
    workspace = Workspace()
    held = [workspace.run(series(values=VALUES + n), rollup="avg", **GRID) for n in range(3)]
    held_prepared = [workspace.prepare(series(values=VALUES + n), pre="none") for n in range(3)]
    for n in range(3):
        same(held[n].prepared, TIMES, VALUES + n)
        same(held_prepared[n], TIMES, VALUES + n)


def test_a_series_without_readings_has_figures_on_a_grid():
    figures = harzoulin.run(series()[:0], rollup="absent", start=0, end=2000, step=1000)
    same(figures.values, [0, 1000, 2000], [1.0, 1.0, 1.0])
    same(figures.prepared, [], [])
    same(harzoulin.prepare(series()[:0], pre="none"), [], [])
    same(harzoulin.crossings(series()[:0], limit=0.0), [], [])


def test_a_refusal_of_a_series_names_its_reading():
    with pytest.raises(harzoulin.Refused, match="^refusal 4 at reading 1: "):
        harzoulin.run(series(TIMES[::-1].copy()), rollup="avg", **GRID)
    for call, how in [CALLS["prepare"], CALLS["crossings"]]:
        with pytest.raises(harzoulin.Refused, match="^refusal 5 at reading 2: "):
            call(series(values=[1.0, 2.0, STALE, 1.0, 1.0, 1.0]), **how)


def test_output_times_that_pandas_has_not_are_an_error():
    with pytest.raises(ValueError):
        harzoulin.run(series(), rollup="avg", start=2**50, end=2**50, step=1)
