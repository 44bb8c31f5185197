"""Each call against the stored runs of the original Rust, the lists that the gate replays."""

import numpy as np
import pytest
import stored
from samples import bits

import harzoulin
from harzoulin import ROLLUPS, Refused, lent


@pytest.fixture(scope="module")
def runs():
    return stored.runs()


@pytest.fixture(scope="module")
def workspace():
    return harzoulin.Workspace()


def same(figures, case, name, count):
    """Whether figures are the stored ones, and made of the readings that remain."""
    return (
        figures.values.tobytes() == case.answers[name].tobytes()
        and figures.count == count
        and figures.remaining.tobytes() == case.remaining(name).tobytes()
        and figures.prepared.tobytes() == case.prepared(name).tobytes()
    )


def settled_settings(case, settled):
    """The settings of the settled run."""
    settings = {name: case.settings[name] for name in ("start", "end", "step", "samples_scanned_per_call")}
    return {**settings, "window": settled.window, "reach": settled.reach}


def test_the_list_of_runs_is_read(runs):
    refused = sum(isinstance(case.outcomes[name], Refused) for case in runs for name in ROLLUPS)
    marks = sum(np.count_nonzero(harzoulin.is_stale(case.values)) for case in runs)
    assert (len(runs), refused, marks) == (728, 6_272, 647)


@pytest.mark.parametrize("name", ROLLUPS)
def test_runs_and_settled_runs_have_the_bits_of_the_rust(name, runs, workspace):
    for place, case in enumerate(runs):
        if isinstance(case.outcomes[name], Refused):
            continue
        settled, count = case.outcomes[name]
        how = {"rollup": case.rollup(name), "pre": case.pre}
        figures = workspace.run(case.times, case.values, **how, **case.settings)
        assert same(figures, case, name, count), place
        settings = settled_settings(case, settled)
        figures = workspace.settled_run(case.times, case.values, **how, **settings)
        assert same(figures, case, name, count), place


@pytest.mark.parametrize("name", ROLLUPS)
def test_what_the_rust_has_no_answer_for_is_refused_and_nothing_is_written(name, runs):
    for place, case in enumerate(runs):
        expected = case.outcomes[name]
        if not isinstance(expected, Refused):
            continue
        lengths = {"output": case.points, "prepared": len(case.times), "work": 2 * len(case.times)}
        slices = {name: np.full(length, 7.0) for name, length in lengths.items()}
        slices["remaining"] = np.full(len(case.times), 7)
        with pytest.raises(Refused) as refused:
            how = {"rollup": case.rollup(name), "pre": case.pre, **case.settings}
            lent.run(case.times, case.values, **how, **slices)
        assert refused.value.args == expected.args, place
        assert all((array == 7).all() for array in slices.values())


@pytest.mark.parametrize("name", ["avg", "default"])
def test_runs_are_settled_on_the_remaining_times(name, runs):
    for place, case in enumerate(runs):
        times = harzoulin.remaining(case.times, case.values, rollup=name)
        assert (times == case.remaining(name)).all(), place
        if not isinstance(case.outcomes[name], Refused):
            assert harzoulin.settle(times, **case.settings) == case.outcomes[name][0], place


def test_steps_have_the_bits_of_the_rust():
    number = 0
    for number, (pre, times, values, prepared) in enumerate(stored.preparations(), 1):
        assert (bits(harzoulin.prepare(times, values, pre=pre)) == bits(prepared)).all(), number
    assert number == 10_200


def test_what_is_settled_is_what_the_rust_settles():
    number = 0
    for number, (times, settings, settled) in enumerate(stored.settlings(), 1):
        assert harzoulin.settle(times, **settings) == settled, number
    assert number == 4_600
