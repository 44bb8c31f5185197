"""A CSV is read as the command reads it, and .npy files are mapped, not read."""

import subprocess

import numpy as np
import pytest
from cluster import series

import harzoulin
from harzoulin import sources
from harzoulin.sources import Csv, Made, Npy, source_of


def test_a_csv_is_read_to_the_bit(tmp_path):
    values = np.array([-0.0, 5e-324, -1.7976931348623157e308, 0.1, harzoulin.STALE, 1e22])
    times = np.array([-(2**50), 0, 0, 1, 2, 2**50])
    texts = ["-0", "5e-324", "-1.7976931348623157e308", ".1", "stale", "1e22"]
    path = tmp_path / "readings.csv"
    path.write_text("# by hand\ntime,value\n" + "".join(f"{t}, {v}\r\n\n" for t, v in zip(times, texts)))
    (found,), notes = Csv(str(path)).read()
    assert (found.name, notes) == (None, ())
    assert found.timestamps.tobytes() == times.tobytes() and found.values.tobytes() == values.tobytes()


def test_series_come_by_their_names(tmp_path):
    path = tmp_path / "readings.csv"
    path.write_text('name,time,value\n"a ""b""",2026-03-01T00:00:00Z,1\nß,5,2\n"a ""b""",2026-03-01,3\n')
    found, _ = Csv(str(path)).read()
    assert [each.name for each in found] == ['a "b"', "ß"]
    assert [each.values.tolist() for each in found] == [[1, 3], [2]]
    assert found[0].timestamps.tolist() == [1_772_323_200_000] * 2


def test_a_csv_without_readings_is_a_series_without_readings(tmp_path):
    path = tmp_path / "empty.csv"
    path.write_text("time,value\n")
    (found,), _ = Csv(str(path)).read()
    assert len(found.timestamps) == len(found.values) == 0


@pytest.mark.parametrize("text", ["0,1\n1,x\n", "0,1,2,3\n", "0,Stale\n", "0\n"])
def test_what_the_command_does_not_read_is_an_error_with_its_line(tmp_path, text):
    path = tmp_path / "bad.csv"
    path.write_text(text)
    with pytest.raises(ValueError, match=f"bad.csv:{text.count(chr(10))}: expected"):
        Csv(str(path)).read()


def test_a_path_that_looks_like_an_option_is_a_path(tmp_path, monkeypatch):
    monkeypatch.chdir(tmp_path)
    (tmp_path / "--help").write_text("0,1\n")
    assert Csv("--help").read()[0][0].values.tolist() == [1.0]


def test_figures_of_a_csv_are_those_of_the_command(tmp_path):
    data = sources.COMMAND.parents[2] / "data" / "drive.csv"
    (found,), _ = Csv(str(data)).read()
    figures = harzoulin.run(found.timestamps, found.values, rollup="default", step=21_600_000)
    command = [sources.COMMAND, "--rollup", "default", "--step", "6h", "--times", "ms", data]
    lines = subprocess.run(command, capture_output=True, text=True, check=True).stdout.splitlines()[1:]
    stale = harzoulin.is_stale(figures.values)
    texts = ["stale" if mark else value for mark, value in zip(stale, figures.values.tolist())]
    rows = [line.split(",") for line in lines]
    assert [int(time) for time, _ in rows] == figures.times.tolist() and stale.any()
    read = [text if text == "stale" else float(text) for _, text in rows]
    assert repr(read) == repr(texts)


def test_without_the_command_the_error_says_who_writes_it(monkeypatch, tmp_path):
    monkeypatch.setattr(sources, "COMMAND", tmp_path / "figures")
    with pytest.raises(OSError, match="python/build writes it"):
        Csv("any.csv").read()


def test_npy_files_are_mapped(tmp_path):
    paths = [str(tmp_path / name) for name in ("times.npy", "values.npy")]
    for path, array in zip(paths, series()):
        np.save(path, array)
    (found,), notes = Npy(*paths).read()
    assert isinstance(found.timestamps, np.memmap) and isinstance(found.values, np.memmap) and notes == ()
    for path, array in zip(paths, (np.empty(0, np.int64), np.empty(0))):
        np.save(path, array)
    (found,), _ = Npy(*paths).read()
    asked = {"rollup": "count", "start": 0, "end": 9, "step": 1}
    assert len(harzoulin.run(found.timestamps, found.values, **asked).values) == 10


def test_a_source_is_told_by_its_kind(tmp_path, monkeypatch):
    monkeypatch.chdir(tmp_path)
    assert source_of("a.csv") == Csv(str(tmp_path / "a.csv"))
    assert source_of(tmp_path / "a.csv") == Csv(str(tmp_path / "a.csv"))
    assert source_of(("t.npy", "v.npy")) == Npy(str(tmp_path / "t.npy"), str(tmp_path / "v.npy"))
    assert source_of(series) == Made(series)
    for wrong in (7, None, ("a.npy",), ("a", "b", "c")):
        with pytest.raises(TypeError, match="expected a pair of .npy files"):
            source_of(wrong)
