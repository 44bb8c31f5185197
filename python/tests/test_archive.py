"""The script: a folder of series in, a folder of figures out; what is there whole is not made again."""

import json
import os
import shutil
import signal
import subprocess
import time
from functools import partial
from pathlib import Path

import numpy as np
import pytest
from cluster import client_of, series

import harzoulin
from harzoulin import archive

SCRIPT = Path(__file__).parents[1] / "archive"
ASKED = ["--rollup", "avg", "--rollup", "quantile(0.9)", "--step", "1m"]


def fill(folder, names, seed=0):
    """Pairs of .npy files in a folder."""
    folder.mkdir(exist_ok=True)
    for place, name in enumerate(names):
        for kind, array in zip(("times", "values"), series(seed=seed + place, marks=False)):
            np.save(folder / f"{name}.{kind}.npy", array)


@pytest.fixture(scope="module")
def client(tmp_path_factory):
    with client_of(2, tmp_path_factory.mktemp("workers")) as client:
        yield client


@pytest.fixture
def make(client, tmp_path, capfd):
    """Asks the script's function, and gives the exit status and what was said."""

    def make(*words, asked=ASKED):
        given = archive.arguments([str(tmp_path / "in"), str(tmp_path / "out"), *asked, *words])
        status = archive.make(given, client)
        return status, capfd.readouterr().err

    return make


def changes(folder):
    """The files of a folder with the times of their last change."""
    return {path.name: path.stat().st_mtime_ns for path in folder.rglob("*")}


def test_each_series_has_its_figures_with_what_they_are_of(make, tmp_path):
    fill(tmp_path / "in", ["a", "b"])
    status, said = make()
    assert (status, said) == (0, "2 sources made, 0 there already, 0 failed; 0 figures refused\n")
    became = json.loads((tmp_path / "out" / "b.json").read_text())
    for rollup, entry in zip(("avg", "quantile(0.9)"), became["series"]):
        figures = harzoulin.run(*series(seed=1, marks=False), rollup=rollup, step=60_000)
        stored = np.load(tmp_path / "out" / entry["file"])
        assert stored.tobytes() == figures.values.tobytes()
        assert (entry["rollup"], entry["count"], entry["points"]) == (rollup, figures.count, len(stored))
        assert entry["start"] == figures.times[0] and entry["name"] is None
    assert sorted(became["made_from"]) == ["b.times.npy", "b.values.npy"]


def test_what_is_there_whole_is_not_made_again_and_all_else_is(make, tmp_path):
    fill(tmp_path / "in", ["a", "b", "c", "d"])
    make()
    out = tmp_path / "out"
    before = changes(out)
    assert make() == (0, "0 sources made, 4 there already, 0 failed; 0 figures refused\n")
    assert changes(out) == before
    (out / "a.avg.npy").unlink()
    (out / "b.json").write_text('{"made_from"')
    fill(tmp_path / "in", ["c"], seed=7)
    with open(out / "d.avg.npy", "ab") as file:
        file.truncate(200)
    assert make() == (0, "4 sources made, 0 there already, 0 failed; 0 figures refused\n")
    figures = harzoulin.run(*series(seed=7, marks=False), rollup="avg", step=60_000)
    assert np.load(out / "c.avg.npy").tobytes() == figures.values.tobytes()
    assert sorted(changes(out)) == sorted(before)


def test_a_folder_of_figures_is_of_one_question(make, tmp_path):
    fill(tmp_path / "in", ["a"])
    make()
    before = changes(tmp_path / "out")
    status, said = make(asked=["--rollup", "max", "--step", "1m"])
    assert status == 2 and "asked for otherwise" in said and changes(tmp_path / "out") == before


def test_a_folder_of_anything_else_is_left_as_it_is(make, tmp_path):
    fill(tmp_path / "in", ["a"])
    (tmp_path / "out").mkdir()
    (tmp_path / "out" / "a.json").write_text("somebody's")
    (tmp_path / "out" / ".a.part").write_text("somebody's, too")
    before = changes(tmp_path / "out")
    status, said = make()
    assert status == 2 and "holds something else" in said and changes(tmp_path / "out") == before


def test_series_of_a_csv_have_a_folder(make, tmp_path):
    (tmp_path / "in").mkdir()
    (tmp_path / "in" / "drives.csv").write_text("name,time,value\nA/1,0,1\nA/1,60000,3\n..,0,5\n")
    (tmp_path / "in" / "notes.txt").write_text("no series")
    assert make()[0] == 0
    became = json.loads((tmp_path / "out" / "drives.json").read_text())
    files = [entry["file"] for entry in became["series"]]
    assert files[0] == "drives/A%2F1.avg.npy" and files[2] == "drives/...avg.npy"
    assert [np.load(tmp_path / "out" / file).tolist() for file in files[::2]] == [[1, 3], [5]]
    assert "January 1970" in became["notes"][0]


def test_a_refused_series_stands_there_as_refused(make, tmp_path):
    fill(tmp_path / "in", ["good", "bad"])
    values = np.load(tmp_path / "in" / "bad.values.npy")
    values[7] = np.inf
    np.save(tmp_path / "in" / "bad.values.npy", values)
    for made, there in ((2, 0), (0, 2)):
        line = f"{made} sources made, {there} there already, 0 failed; 2 figures refused\n"
        assert make() == (1, line)
    became = json.loads((tmp_path / "out" / "bad.json").read_text())
    assert [(entry["refused"], entry["index"]) for entry in became["series"]] == [(5, 7)] * 2
    assert became["series"][0]["sentence"] == "the value is NaN or infinite"


def test_what_cannot_be_read_is_said_and_tried_again(make, tmp_path):
    fill(tmp_path / "in", ["good"])
    (tmp_path / "in" / "bad.csv").write_text("0,one\n")
    (tmp_path / "in" / "half.times.npy").write_bytes(b"")
    (tmp_path / "in" / "other.values.npy").write_bytes(b"")
    (tmp_path / "in" / "good.csv").write_text("0,1\n")
    status, said = make()
    assert status == 1 and said.endswith("1 sources made, 0 there already, 4 failed; 0 figures refused\n")
    for text in ("bad.csv:1: expected a number", "another source of that name"):
        assert text in said
    for text in ("half.times.npy: expected half.values.npy", "other.values.npy: expected other.times.npy"):
        assert f"{text} beside it" in said
    (tmp_path / "in" / "bad.csv").write_text("0,1\n")
    assert "1 sources made, 1 there already, 3 failed" in make()[1]


def test_a_name_too_long_for_a_file_fails_by_itself(make, tmp_path):
    fill(tmp_path / "in", ["good"])
    (tmp_path / "in" / "long.csv").write_text(f"{'x' * 300},0,1\n")
    status, said = make()
    assert status == 1 and "long: [Errno 36] File name too long" in said and "1 sources made" in said


def test_limits_and_grid_reach_the_core(make, tmp_path):
    fill(tmp_path / "in", ["a"])
    words = "--rollup count --pre resets_once --window 2m --lookback 3m --staleness 1m30s --step 30s"
    words = f"{words} --start 1970-01-01 --end 1970-01-01T01:00:00Z".split()
    assert make(asked=words)[0] == 0
    asked = {"rollup": "count", "pre": "resets_once", "window": 120_000, "step": 30_000, "start": 0}
    asked |= {"end": 3_600_000, "lookback_delta": 180_000, "min_staleness_interval": 90_000}
    figures = harzoulin.run(*series(seed=0, marks=False), **asked)
    assert np.load(tmp_path / "out" / "a.count.npy").tobytes() == figures.values.tobytes()


@pytest.mark.parametrize(
    "words",
    [
        ["in", "out"],
        ["in", "out", "--rollup", "avg"],
        ["in", "out", "--rollup", "average", "--step", "1d"],
        ["in", "out", "--rollup", "avg", "--step", "1 day"],
        ["in", "out", "--rollup", "avg", "--step", "1d", "--start", "yesterday"],
        ["in", "out", "--rollup", "avg", "--step", "1d", "--start", "2026-01-01T00:00:00"],
        ["in", "out", "--rollup", "avg", "--step", "1d", "--start", "2026-13-01"],
        ["in", "out", "--rollup", "avg", "--step", "1d", "--end", str(2**63)],
        ["in", "out", "--rollup", "avg", "--step", "1d", "--workers", "0"],
        ["none", "out", "--rollup", "avg", "--step", "1d"],
        ["in", "in", "--rollup", "avg", "--step", "1d"],
    ],
)
def test_bad_usage_has_status_2(tmp_path, monkeypatch, words, capsys):
    monkeypatch.chdir(tmp_path)
    (tmp_path / "in").mkdir()
    with pytest.raises(SystemExit) as ended:
        archive.arguments(words)
    assert ended.value.code == 2 and "python/archive: error:" in capsys.readouterr().err


def test_a_script_that_is_killed_goes_on_where_it_was(tmp_path):
    names = [f"s{place:03}" for place in range(200)]
    fill(tmp_path / "in", names)
    command = [SCRIPT, tmp_path / "in", tmp_path / "out", *ASKED, "--workers", "1"]
    running = subprocess.Popen(command, stderr=subprocess.DEVNULL, start_new_session=True)
    deadline = time.monotonic() + 60
    while len(list((tmp_path / "out").glob("*.json"))) < 3 and time.monotonic() < deadline:
        time.sleep(0.002)
    os.killpg(running.pid, signal.SIGKILL)
    running.wait()
    made = {path.stem for path in (tmp_path / "out").glob("*.json")}
    left = len(names) - len(made)
    assert made and left
    (tmp_path / "out" / ".half.npy.part").write_bytes(b"half")
    ended = subprocess.run(command, stderr=subprocess.PIPE, text=True)
    line = f"{left} sources made, {len(made)} there already, 0 failed; 0 figures refused"
    assert (ended.returncode, ended.stderr.splitlines()[-1]) == (0, line)
    assert not list((tmp_path / "out").glob(".*.part"))
    for place, name in enumerate(names):
        figures = harzoulin.run(*series(seed=place, marks=False), rollup="avg", step=60_000)
        assert np.load(tmp_path / "out" / f"{name}.avg.npy").tobytes() == figures.values.tobytes()


def test_a_terminal_has_a_bar(tmp_path):
    fill(tmp_path / "in", ["a", "b"])
    command = f"{SCRIPT} {tmp_path / 'in'} {tmp_path / 'out'} --rollup avg --step 1m --workers 1"
    ended = subprocess.run(
        [shutil.which("script"), "-qec", command, "/dev/null"], capture_output=True, text=True
    )
    assert ended.returncode == 0 and "2 of 2 sources, 0 figures refused, 0 s left" in ended.stdout
    assert "2 sources made, 0 there already, 0 failed; 0 figures refused" in ended.stdout


def test_an_interrupt_ends_the_script_with_a_word(tmp_path):
    fill(tmp_path / "in", [f"s{place:03}" for place in range(200)])
    command = [SCRIPT, tmp_path / "in", tmp_path / "out", *ASKED, "--workers", "1"]
    # Tests that are run in the background may have been told to ignore interrupts.
    heed = partial(signal.signal, signal.SIGINT, signal.SIG_DFL)
    running = subprocess.Popen(command, stderr=subprocess.PIPE, text=True, preexec_fn=heed)
    deadline = time.monotonic() + 60
    while not list((tmp_path / "out").glob("*.json")) and time.monotonic() < deadline:
        time.sleep(0.002)
    running.send_signal(signal.SIGINT)
    said = running.communicate(timeout=60)[1]
    assert running.returncode == 130 and "ended; the same command goes on from here" in said
