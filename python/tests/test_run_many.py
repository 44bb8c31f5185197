"""Figures of many series: each has the bits of a run, whatever its source and whoever dies."""

import time

import numpy as np
import pandas
import pytest
from cluster import bits, client_of, kill_one, series

import harzoulin
from harzoulin import Refused
from harzoulin.distributed import run_many
from harzoulin.sources import Csv, Made, Npy

ASKED = {"rollup": "median", "step": 60_000, "window": 120_000}


@pytest.fixture(scope="module", params=[1, 2])
def client(request, tmp_path_factory):
    with client_of(request.param, tmp_path_factory.mktemp("workers")) as client:
        yield client


def save(folder, times, values):
    """A pair of .npy files."""
    paths = str(folder / "times.npy"), str(folder / "values.npy")
    for path, array in zip(paths, (times, values)):
        np.save(path, array)
    return paths


def figures_of(result):
    """The bits of a result's times, figures and count."""
    return result.figures.times.tobytes(), result.figures.values.tobytes(), result.figures.count


def expected(given, **asked):
    """The same of a run."""
    figures = harzoulin.run(*given, **asked)
    return figures.times.tobytes(), figures.values.tobytes(), figures.count


def test_every_source_has_the_bits_of_a_run(client, tmp_path):
    times, values = series()
    csv = tmp_path / "readings.csv"
    marked = ["stale" if harzoulin.is_stale(value) else repr(value) for value in values.tolist()]
    csv.write_text("".join(f"{time},{value}\n" for time, value in zip(times, marked)))
    as_pandas = pandas.Series(values, index=pandas.to_datetime(times, unit="ms", utc=True))
    sources = [save(tmp_path, times, values), str(csv), series, lambda: as_pandas]
    results = sorted(run_many(client, sources, **ASKED), key=lambda result: result.place)
    assert [result.place for result in results] == [0, 1, 2, 3]
    assert [type(result.source) for result in results] == [Npy, Csv, Made, Made]
    whole = expected(series(), **ASKED)
    assert all(figures_of(result) == whole for result in results[:3])
    assert results[3].figures.values.to_numpy().tobytes() == whole[1]


def test_series_of_a_csv_and_several_rollups_are_results_each(client, tmp_path):
    csv = tmp_path / "two.csv"
    csv.write_text("name,time,value\npanel,0,1\nserver,0,5\npanel,60000,2\nserver,60000,7\n")
    rollups = ["max", ("quantile", 0.5), "default"]
    results = list(run_many(client, [str(csv)], rollup=rollups, step=60_000))
    assert [(result.name, str(result.rollup)) for result in results] == [
        (name, rollup) for name in ("panel", "server") for rollup in ("max", "quantile(0.5)", "default")
    ]
    assert [result.figures.values.tolist() for result in results] == [[1, 2]] * 3 + [[5, 7]] * 3
    assert all("all times lie in January 1970" in result.notes[0] for result in results)


def test_columns_of_a_csv_are_chosen(client, tmp_path):
    csv = tmp_path / "columns.csv"
    csv.write_text("when,volts,amperes\n0,1,3\n60000,2,4\n")
    source = Csv(str(csv), time_column="when", value_column="amperes")
    (result,) = run_many(client, [source], rollup="sum", step=60_000)
    assert result.figures.values.tolist() == [3, 4]
    assert any("columns that are not used: volts" in note for note in result.notes)


def test_what_is_refused_or_cannot_be_read_is_a_result(client, tmp_path):
    times, values = series(marks=False)
    falling, infinite = times[::-1].copy(), np.where(np.arange(len(values)) == 9, np.inf, values)
    (tmp_path / "bad.csv").write_text("0,1\n60000,one\n")

    def broken():
        raise LookupError("no such drive")

    sources = [
        lambda: (falling, values),
        lambda: (times, infinite),
        lambda: (times, values[:-1]),
        str(tmp_path / "bad.csv"),
        (str(tmp_path / "none.npy"), str(tmp_path / "none.npy")),
        broken,
        lambda: (times, values),
        lambda: (list(times), values),
    ]
    asked = {"rollup": "avg", "step": 60_000, "start": 0, "end": 600_000}
    results = sorted(run_many(client, sources, **asked), key=lambda result: result.place)
    errors = [result.error for result in results]
    assert [(error.number, error.index) for error in errors[:3]] == [(4, 1), (5, 9), (1, 0)]
    assert isinstance(errors[3], ValueError) and "bad.csv:2" in str(errors[3])
    assert isinstance(errors[4], FileNotFoundError) and isinstance(errors[5], LookupError)
    assert errors[6] is None and figures_of(results[6]) == expected((times, values), **asked)
    assert isinstance(errors[7], TypeError)
    assert [result.figures is None for result in results] == [error is not None for error in errors]


def test_each_rollup_is_refused_by_itself(client):
    rollups = ["avg", "default", "stale_samples"]
    results = list(run_many(client, [series], rollup=rollups, pre="delta", step=60_000))
    assert [getattr(result.error, "number", None) for result in results] == [None, 19, 19]


def test_prepared_values_come_where_they_are_asked_for(client):
    for prepared in (False, True):
        asked = {"rollup": "max", "pre": "delta", "step": 60_000}
        (result,) = run_many(client, [series], prepared=prepared, **asked)
        assert (result.figures.prepared is not None) == prepared
    assert bits(result.figures) == bits(harzoulin.run(*series(), **asked))


def test_results_come_as_they_are_worked_out_and_sources_are_taken_as_they_are_needed(client):
    taken = []

    def sources():
        for place in range(50):
            taken.append(place)
            yield series

    results = run_many(client, sources(), ahead=3, **ASKED)
    for count in range(1, 11):
        next(results)
        assert len(taken) <= count + 2 * 3
    results.close()
    assert len(taken) < 20


def test_wrong_names_and_settings_are_errors_before_anything_is_asked(client):
    for change in ({"rollup": "average"}, {"pre": "no"}, {"stepp": 1}, {"step": 1.5}, {"ahead": 0}):
        with pytest.raises((TypeError, ValueError)):
            next(run_many(client, [series], **(ASKED | change)))
    with pytest.raises(TypeError, match="expected a pair of .npy files"):
        next(run_many(client, [7], **ASKED))


def test_no_sources_have_no_results(client):
    assert list(run_many(client, [], **ASKED)) == []


@pytest.mark.parametrize("workers", [1, 2])
def test_a_worker_that_is_killed_changes_nothing_but_the_time(tmp_path, workers):
    def slow(seed):
        def source():
            time.sleep(0.1)
            return series(seed=seed)

        return source

    seeds, results = range(24), {}
    with client_of(workers, tmp_path) as client:
        for result in run_many(client, map(slow, seeds), **ASKED):
            results[result.place] = figures_of(result)
            if len(results) == 5:
                kill_one(client)
    assert results == {seed: expected(series(seed=seed), **ASKED) for seed in seeds}


def test_a_source_that_kills_its_worker_each_time_is_a_result(tmp_path):
    def deadly():
        import os

        os.kill(os.getpid(), 9)

    with client_of(2, tmp_path) as client:
        results = sorted(run_many(client, [deadly, series], **ASKED), key=lambda result: result.place)
    assert type(results[0].error).__name__ == "KilledWorker" and not isinstance(results[0].error, Refused)
    assert figures_of(results[1]) == expected(series(), **ASKED)
