"""How runs by workers compare with the bare core on the same series: tables in Markdown.

Each time is the best of ten, or of as many as begin within four seconds. Files have just been written, so
that they are in the system's memory: what a disk or a network adds is worked out in docs/SCALE.md.
"""

import shutil
import sys
import tempfile
import time
from functools import partial
from pathlib import Path

import numpy as np
from cluster import client_of

import harzoulin
from harzoulin.distributed import run_many, run_one

MINUTE, HOUR, DAY = 60_000, 3_600_000, 86_400_000

# Questions: a cheap one, and one whose windows are sorted.
HOURLY = {"rollup": "avg", "step": HOUR}
SORTED = {"rollup": "median", "step": HOUR, "window": DAY}
LONGEST = 15_800_000


def probe(readings, seed=0):
    """A climate probe: a reading a minute, a walk with noise."""
    random = np.random.default_rng(seed)
    times = 1_000_000_000_000 + MINUTE * np.arange(readings)
    return times, 20 + 0.01 * np.cumsum(random.normal(size=readings)) + random.normal(size=readings)


def saved(folder, count, readings):
    """So many series as pairs of .npy files. Their values are those of a few series."""
    series = [probe(readings, seed) for seed in range(min(count, 4))]
    paths = []
    for place in range(count):
        pair = tuple(str(folder / f"{place}.{kind}.npy") for kind in ("times", "values"))
        for path, array in zip(pair, series[place % 4]):
            np.save(path, array)
        paths.append(pair)
    return paths


def best(function):
    """The least seconds of ten calls, or of as many as begin within four seconds."""
    took = []
    while len(took) < 10 and sum(took) < 4:
        begin = time.perf_counter()
        function()
        took.append(time.perf_counter() - begin)
    return min(took)


def core(paths, asked):
    """The seconds that the core takes for all series, one after the other, in memory that is used again."""
    arrays = [np.load(path) for path in paths[0]]
    return best(lambda: harzoulin.run(*arrays, **asked)) * len(paths)


def table(head, *rows):
    """A table in Markdown."""
    print("| " + " | ".join(head) + " |")
    print("|" + "---|" * len(head))
    for row in rows:
        print("| " + " | ".join(row) + " |", flush=True)
    print(flush=True)


def timed(client, paths, asked):
    """The seconds of run_many, with each result looked at."""

    def all_of_them():
        assert sum(result.figures is not None for result in run_many(client, paths, **asked)) == len(paths)

    return best(all_of_them)


def many(folder):
    """Series and readings a second on one and two workers beside the core."""
    rows = []
    with client_of(1, folder / "one") as one, client_of(2, folder / "two") as two:
        for count, readings in ((2000, 10_000), (400, 100_000), (60, 1_000_000), (6, LONGEST)):
            place = folder / str(readings)
            place.mkdir()
            for asked, count in ((HOURLY, count), (SORTED, max(count // 10, 4))):
                paths = saved(place, count, readings)
                bare = core(paths, asked)
                took = [timed(client, paths, asked) for client in (one, two)]
                speeds = (f"{count / t:,.{0 if count / t >= 20 else 2}f}" for t in (bare, *took))
                rates = (f"{count * readings / t / 1e6:,.1f}" for t in (bare, *took))
                shares = (f"{max(0, 1 - bare / n / t):.0%}" for n, t in zip((1, 2), took))
                rows.append([asked["rollup"], f"{count:,} × {readings:,}", *speeds, *rates, *shares])
            shutil.rmtree(place)
    head = "rollup", "series × readings", "series a second: core", "1 worker", "2 workers"
    head += "million readings a second: core", "1 worker", "2 workers", "not the core: 1 worker", "2 workers"
    table(head, *rows)


def growth(folder):
    """How run_many grows with the number of series."""
    rows = []
    with client_of(2, folder / "workers") as client:
        paths = saved(folder, 10_000, 1000)
        for count in (10, 100, 1000, 10_000):
            took = timed(client, paths[:count], HOURLY)
            rows.append([f"{count:,}", f"{took:.3f}", f"{count / took:,.0f}", f"{took / count * 1e3:.2f}"])
    table(("series of 1,000 readings", "seconds", "series a second", "milliseconds a series"), *rows)


def pieces(folder):
    """How run_one grows with the number of pieces, without the prepared values, and the time for those."""
    rows = []
    (pair,) = saved(folder, 1, LONGEST)
    arrays = [np.load(path) for path in pair]
    with client_of(1, folder / "one") as one, client_of(2, folder / "two") as two:
        for asked in (HOURLY, SORTED):
            bare = best(lambda: harzoulin.run(*arrays, **asked))
            for count in (None, 1, 2, 8, 32, 100):
                bare_run = partial(run_one, prepared=False, pieces=count, **asked)
                took = [best(lambda: bare_run(client, pair)) for client in (one, two)]
                ratios = [f"{bare / t:.2f}" for t in took]
                seconds = (f"{t:.2f}" for t in (bare, *took))
                rows.append([asked["rollup"], str(count), *seconds, *ratios])
        sent = [best(lambda: run_one(two, pair, prepared=prepared, **HOURLY)) for prepared in (False, True)]
    head = "rollup", "pieces", "run, seconds", "1 worker", "2 workers", "run over 1 worker", "over 2 workers"
    table(head, *rows)
    print(f"Prepared values and remaining times: {sent[1] - sent[0]:.2f} seconds.\n", flush=True)


def memory(folder):
    """The most memory that a worker and the client had."""
    rows = []
    for readings in (10_000, 1_000_000, LONGEST):
        place = folder / str(readings)
        place.mkdir()
        paths = saved(place, 4, readings)
        for kind in ("run_many", "run_one", "run_one of arrays"):
            with client_of(1, place / "workers") as client:
                before = peak(client)
                if kind == "run_many":
                    list(run_many(client, paths, **HOURLY))
                else:
                    given = paths[0] if kind == "run_one" else tuple(np.load(path) for path in paths[0])
                    run_one(client, given, pieces=4, **HOURLY)
                more = peak(client) - before
            numbers = readings, before, more, more * 2**20 / readings
            rows.append([kind, *(f"{number:,.0f}" for number in numbers)])
        shutil.rmtree(place)
    table(("call", "readings a series", "MiB before", "MiB more", "bytes a reading"), *rows)


def peak(client):
    """The most mebibytes that the worker had in memory, files that are mapped there included."""

    def most():
        lines = Path("/proc/self/status").read_text().splitlines()
        return next(int(line.split()[1]) for line in lines if line.startswith("VmHWM:")) / 1024

    return max(client.run(most).values())


if __name__ == "__main__":
    tables = {table.__name__: table for table in (many, growth, pieces, memory)}
    for name in sys.argv[1:] or tables:
        with tempfile.TemporaryDirectory(prefix="harzoulin-") as folder:
            tables[name](Path(folder))
