"""Each call against a model in plain Python, on generated series."""

import math

import generated
import model
import numpy as np
import pytest
from hypothesis import given, settings
from hypothesis import strategies as st
from samples import bits

import harzoulin
from harzoulin import STEPS, Refused

WORKSPACE = harzoulin.Workspace()


def examples(count):
    """So many generated examples, the same in each run, of which nothing is kept."""
    return settings(max_examples=count, deadline=None, derandomize=True, database=None)


def words(values):
    """The words of the model's values, all NaN but the mark as the core writes them."""
    return [model.bits(model.NAN if math.isnan(x) and not model.is_mark(x) else x) for x in values]


def all_of(figures):
    """What a run answers as plain numbers and words."""
    answer = bits(figures.values).tolist(), figures.count, figures.remaining.tolist()
    return *answer, bits(figures.prepared).tolist()


def all_of_the_model(figures, count, times, prepared):
    return words(figures), count, times, words(prepared)


def refusal(call, *arrays, **how):
    """Number and index of a call's refusal, or None."""
    try:
        call(*arrays, **how)
    except Refused as refused:
        return refused.number, refused.index


def refused_run(values):
    """The values with another one in the place of each mark, which runs do not refuse."""
    return [0.0 if model.is_mark(value) else value for value in values]


def same_run(call, pre, name, phi):
    """Asserts that a run has the figures of the model."""
    times, values, settings = call
    asked = {"rollup": generated.rollup(name, phi), "pre": pre}
    figures = WORKSPACE.run(*generated.arrays(times, values), **asked, **settings)
    parameters, numbers = generated.parameters(name, phi), model.Settings(**settings)
    expected = model.run(times, values, pre, name, parameters, numbers)
    assert all_of(figures) == all_of_the_model(*expected), (name, pre)
    assert figures.times.tolist() == list(model.output_times(numbers))


@pytest.mark.parametrize("pre", STEPS)
@examples(250)
@given(generated.calls(), generated.PHIS)
def test_runs_have_the_figures_of_the_model(pre, call, phi):
    for name in model.ROLLUPS:
        if pre == "none" or name not in model.SEES_MARKS:
            same_run(call, pre, name, phi)


@pytest.mark.parametrize("pre", STEPS)
@examples(80)
@given(generated.calls(), generated.PHIS, generated.SETTLED_LENGTHS, generated.SETTLED_LENGTHS)
def test_settled_runs_have_the_figures_of_the_model(pre, call, phi, window, reach):
    times, values, settings = call
    settled, numbers = generated.settled(settings, window, reach), model.Settings(**settings)
    for name in model.ROLLUPS:
        if pre == "none" or name not in model.SEES_MARKS:
            asked = {"rollup": generated.rollup(name, phi), "pre": pre}
            figures = WORKSPACE.settled_run(*generated.arrays(times, values), **asked, **settled)
            how = pre, name, generated.parameters(name, phi), numbers, window, reach
            assert all_of(figures) == all_of_the_model(*model.settled_run(times, values, *how)), name


@pytest.mark.parametrize("name", ["range", "min", "max", "median", "first", "sum", "distinct"])
@examples(60)
@given(generated.calls(values=generated.ZEROS, marks=False, least=1))
def test_zeros_of_both_signs_keep_their_signs_and_their_order(name, call):
    same_run(call, "none", name, None)


@pytest.mark.parametrize("phi", [-0.0, 0.0, 0.25, 0.5, 0.75, 1.0])
@pytest.mark.parametrize("values", [generated.ZEROS, generated.NEAR_ZERO], ids=["zeros", "near_zero"])
@examples(30)
@given(st.data())
def test_quantiles_of_zeros_keep_their_signs_and_their_order(phi, values, data):
    call = data.draw(generated.calls(values=values, marks=False, least=1))
    same_run(call, "none", "quantile", phi)


@examples(400)
@given(generated.times(most=24), st.data())
def test_what_is_settled_is_what_the_model_settles(times, data):
    settings = data.draw(generated.settings(times))
    settled = harzoulin.settle(np.array(times, np.int64), **settings)
    assert (settled.window, settled.reach, settled.points) == model.settle(times, model.Settings(**settings))


@examples(200)
@given(generated.series())
def test_the_remaining_times_are_those_of_the_model(series):
    for name in model.ROLLUPS:
        rollup = generated.rollup(name, 0.5)
        times = harzoulin.remaining(*generated.arrays(*series), rollup=rollup)
        assert times.tolist() == model.remaining(*series, name)[0], name


@examples(400)
@given(generated.offending())
def test_steps_refuse_and_prepare_as_the_model(series):
    times, values = generated.arrays(*series)
    expected = model.first_refused_reading(*series)
    for pre in STEPS:
        assert refusal(WORKSPACE.prepare, times, values, pre=pre) == expected
        if expected is None:
            prepared = WORKSPACE.prepare(times, values, pre=pre)
            assert bits(prepared).tolist() == words(model.prepare(*series, pre)), pre


@examples(300)
@given(generated.offending(), st.sampled_from(model.ROLLUPS))
def test_runs_refuse_a_series_as_the_model_but_for_its_marks(series, name):
    times, values = series
    expected = model.first_refused_reading(times, refused_run(values))
    asked = {"rollup": generated.rollup(name, 0.5), "start": 0, "end": 0, "step": 1}
    assert refusal(WORKSPACE.run, *generated.arrays(times, values), **asked) == expected
    asked.update(window=1, reach=1)
    assert refusal(WORKSPACE.settled_run, *generated.arrays(times, values), **asked) == expected


@examples(300)
@given(generated.offending(), st.sampled_from([0.0, -0.0, 5e-324, 2.5, 8.0, 1e300]))
def test_crossings_are_those_of_the_model(series, limit):
    arrays = generated.arrays(*series)
    expected = model.first_refused_reading(*series)
    assert refusal(harzoulin.crossings, *arrays, limit=limit) == expected
    if expected is None:
        assert harzoulin.crossings(*arrays, limit=limit).tolist() == model.crossings(*series, limit)


@examples(250)
@given(generated.offending(), st.data())
def test_the_nearest_reading_is_that_of_the_model(series, data):
    times, _ = series
    at = data.draw(generated.FIRST | st.sampled_from(times or [0]).map(generated.inside))
    at = generated.inside(at + data.draw(st.integers(-40_000, 40_000)))
    expected = model.first_refused_reading(times, [0.0] * len(times))
    assert refusal(harzoulin.nearest, np.array(times, np.int64), at) == expected
    if expected is None:
        assert harzoulin.nearest(np.array(times, np.int64), at) == model.nearest(times, at)


@examples(400)
@given(generated.rising(), generated.rising(), st.booleans())
def test_merged_series_are_those_of_the_model(first, second, agree):
    times, values = second
    if agree:
        known = dict(zip(*first))
        values = [known.get(time, value) for time, value in zip(times, values)]
    arrays = *generated.arrays(*first), *generated.arrays(times, values)
    value_at = {time: model.bits(value) for time, value in zip(*first)}
    words_of_second = zip(times, map(model.bits, values))
    conflict = any(value_at.get(time, word) != word for time, word in words_of_second)
    assert refusal(harzoulin.merge, *arrays) == ((17, 0) if conflict else None)
    if not conflict:
        merged = harzoulin.merge(*arrays)
        expected_times, expected = model.merge(*first, times, values)
        assert (merged[0].tolist(), bits(merged[1]).tolist()) == (expected_times, words(expected))
