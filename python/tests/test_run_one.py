"""One series over all workers: the bits of a run, however it is cut and whoever dies."""

import os
import threading
import time
from concurrent.futures import ThreadPoolExecutor

import numpy as np
import pandas
import pytest
from cluster import bits, client_of, kill_one, series

import harzoulin
from harzoulin import Refused
from harzoulin.distributed import run_one

PIECES = 1, 2, 3, 7, 100
GRID = {"step": 30_000, "window": 90_000}
PARAMETERS = {"quantile": (0.9,), "predict_linear": (3600.0,), "holt_winters": (0.5, 0.1)}


@pytest.fixture(scope="module", params=[1, 2])
def client(request, tmp_path_factory):
    with client_of(request.param, tmp_path_factory.mktemp("workers")) as client:
        yield client


@pytest.fixture(scope="module")
def files(tmp_path_factory):
    """A series as a pair of .npy files."""
    paths = [str(tmp_path_factory.mktemp("series") / name) for name in ("times.npy", "values.npy")]
    for path, array in zip(paths, series()):
        np.save(path, array)
    return tuple(paths)


def answer(run, *given, **asked):
    """The bits of an answer, or the refusal's number and index."""
    try:
        return bits(run(*given, **asked))
    except Refused as refusal:
        return refusal.number, refusal.index


@pytest.mark.parametrize("pre", harzoulin.STEPS)
def test_every_rollup_has_the_bits_of_a_run_in_any_number_of_pieces(client, files, pre):
    times, values = series()
    cases = [(rollup, pieces) for rollup in harzoulin.ROLLUPS for pieces in PIECES]
    if len(client.nthreads()) == 1:
        cases = cases[::7]

    def same(case):
        rollup, pieces = case
        asked = {"rollup": (rollup, *PARAMETERS.get(rollup, ())), "pre": pre, **GRID}
        whole = answer(harzoulin.run, times, values, **asked)
        return answer(run_one, client, files, pieces=pieces, **asked) == whole

    with ThreadPoolExecutor(8) as threads:
        results = list(threads.map(same, cases))
    assert [case for case, fits in zip(cases, results) if not fits] == []
    assert len(harzoulin.run(times, values, rollup="avg", **GRID).values) > 100


@pytest.mark.parametrize("kind", ["arrays", "strided arrays", "function", "files"])
@pytest.mark.parametrize("limits", [{}, {"samples_scanned_per_call": 3}, {"start": -90_000, "end": 900_000}])
def test_any_source_and_any_limits(client, files, kind, limits):
    times, values = series()
    sources = {
        "arrays": (times, values),
        "strided arrays": (np.repeat(times, 2)[::2], values),
        "function": lambda: series(),
        "files": files,
    }
    asked = {"rollup": "median", "step": 60_000, "may_adjust_window": True, **limits}
    whole = harzoulin.run(times, values, **asked)
    for pieces in (None, 5):
        if kind == "strided arrays":
            with pytest.warns(harzoulin.Converted):
                figures = run_one(client, sources[kind], pieces=pieces, **asked)
        else:
            figures = run_one(client, sources[kind], pieces=pieces, **asked)
        assert bits(figures) == bits(whole)


def test_prepared_values_can_be_left_out(client, files):
    whole = harzoulin.run(*series(), rollup="avg", step=60_000)
    for given in (files, pandas.Series(series()[1], pandas.to_datetime(series()[0], unit="ms", utc=True))):
        figures = run_one(client, given, rollup="avg", step=60_000, pieces=3, prepared=False)
        assert np.asarray(figures.values).tobytes() == whole.values.tobytes()
        assert (figures.count, figures.remaining, figures.prepared) == (whole.count, None, None)


def test_a_pandas_series_comes_out_as_one(client):
    times, values = series()
    given = pandas.Series(values, index=pandas.to_datetime(times, unit="ms", utc=True), name="probe")
    asked = {"rollup": "increase_pure", "pre": "resets_once", "step": 60_000}
    whole, figures = harzoulin.run(given, **asked), run_one(client, given, pieces=3, **asked)
    pandas.testing.assert_series_equal(figures.values, whole.values, check_exact=True)
    pandas.testing.assert_series_equal(figures.prepared, whole.prepared, check_exact=True)
    assert figures.count == whole.count and figures.values.name == "probe"


@pytest.mark.parametrize(
    "change, number",
    [
        ({"step": 0, "start": 0, "end": 1}, 6),
        ({"start": 2, "end": 1}, 7),
        ({"window": -1}, 8),
        ({"lookback_delta": -1}, 9),
        ({"max_points_per_series": 1}, 10),
        ({"step": 1, "start": 0, "end": 2**40}, 11),
        ({"rollup": "default", "pre": "delta"}, 19),
    ],
)
def test_a_refusal_is_raised_as_of_a_run(client, files, change, number):
    asked = {"rollup": "avg", "step": 60_000} | change
    for run, given in (run_one, (client, files)), (harzoulin.run, series()):
        with pytest.raises(Refused) as refused:
            run(*given, **asked)
        assert (refused.value.number, refused.value.index) == (number, 0)


def test_a_series_that_is_refused_is_raised_with_its_reading(client):
    times, values = series(marks=False)
    values[123] = np.inf
    with pytest.raises(Refused) as refused:
        run_one(client, (times, values), rollup="avg", step=60_000, pieces=3)
    assert (refused.value.number, refused.value.index) == (5, 123)


def test_a_source_that_cannot_be_read_is_an_error(client, tmp_path):
    for wrong in (str(tmp_path / "none.csv"), (str(tmp_path / "a.npy"), str(tmp_path / "b.npy"))):
        with pytest.raises((OSError, ValueError)):
            run_one(client, wrong, rollup="avg", step=60_000)
    two = tmp_path / "two.csv"
    two.write_text("a,0,1\nb,0,1\n")
    with pytest.raises(ValueError, match="expected one series, found 2"):
        run_one(client, str(two), rollup="avg", step=60_000)


def test_wrong_names_and_settings_are_refused_before_anything_is_asked(client, files):
    for change in ({"rollup": "average"}, {"pre": "no"}, {"stepp": 1}, {"pieces": 0}, {"pieces": 1.5}):
        with pytest.raises((TypeError, ValueError)):
            run_one(client, files, **({"rollup": "avg", "step": 60_000} | change))


def test_no_worker_keeps_a_series_that_was_worked_out(client, files):
    def kept():
        from harzoulin import distributed

        return set(distributed._at_hand)

    # a piece of a run that failed, in a test before this one, may have left its own
    before = client.run(kept)
    run_one(client, files, rollup="avg", step=60_000, pieces=3)
    assert client.run(kept) == before


def test_another_client_that_was_made_later_is_left_alone(client, files, tmp_path):
    whole = bits(harzoulin.run(*series(), rollup="avg", step=60_000))
    with client_of(1, tmp_path) as later:
        for each in (client, later, client):
            assert bits(run_one(each, files, rollup="avg", step=60_000, pieces=9)) == whole


def finished(dask_scheduler):
    """How many pieces are done, and how many are not."""
    states = [task.state for key, task in dask_scheduler.tasks.items() if "_asked" in str(key)]
    return states.count("memory"), len(states) - states.count("memory")


def kill_amid(client, killed):
    """Kills a worker once some pieces are done and some are not."""
    deadline = time.monotonic() + 60
    while time.monotonic() < deadline:
        done, left = client.run_on_scheduler(finished)
        if done >= 2 and left >= 4:
            killed.append(kill_one(client))
            return
        time.sleep(0.01)


@pytest.mark.parametrize("workers", [1, 2])
@pytest.mark.parametrize("kind", ["arrays", "files"])
def test_a_worker_that_is_killed_changes_nothing_but_the_time(tmp_path, workers, kind):
    given = series(60_000)
    asked = {"rollup": "median", "step": 240_000, "window": 3_000_000_000}
    paths = tuple(str(tmp_path / name) for name in ("times.npy", "values.npy"))
    for path, array in zip(paths, given):
        np.save(path, array)
    whole, killed = harzoulin.run(*given, **asked), []
    with client_of(workers, tmp_path / "workers") as client:
        killer = threading.Thread(target=kill_amid, args=(client, killed))
        killer.start()
        figures = run_one(client, given if kind == "arrays" else paths, pieces=24, **asked)
        killer.join()
        assert len(killed) == 1 and killed[0] not in client.run(os.getpid).values()
    assert bits(figures) == bits(whole)
