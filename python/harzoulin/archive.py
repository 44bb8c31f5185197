"""Figures of a folder of series into a folder of figures: the script python/archive.

A series is a CSV, or a pair NAME.times.npy and NAME.values.npy. What becomes of a source stands in NAME.json,
and each list of figures in a .npy beside it. NAME.json is written last and names the files that it was made
from with their sizes and times of change, so that what is there whole is known and not made again.
"""

import argparse
import json
import os
import re
import shutil
import sys
import tempfile
import time
from datetime import datetime, timezone
from functools import partial
from itertools import groupby
from operator import attrgetter
from pathlib import Path
from types import NoneType
from urllib.parse import quote

import numpy as np
from distributed import Client, LocalCluster

from .distributed import run_many
from .names import STEPS, Rollup
from .refusal import Refused
from .settings import Settings
from .settings import time as milliseconds_of
from .sources import Csv, Npy

_UNITS = {"w": 604_800_000, "d": 86_400_000, "h": 3_600_000, "m": 60_000, "s": 1000, "ms": 1}


def duration(text):
    """The milliseconds of a duration such as 1d, 1h30m or 250ms."""
    parts = re.findall(r"(\d+)(ms|[wdhms])", text)
    if not parts or "".join(map("".join, parts)) != text:
        raise argparse.ArgumentTypeError(f"expected a duration, such as 1d or 1h30m, found {text!r}")
    return sum(int(number) * _UNITS[unit] for number, unit in parts)


def moment(text):
    """The milliseconds of a time: milliseconds, a date, or as 2026-01-31T12:00:00Z."""
    if re.fullmatch(r"[-+]?\d+", text):
        return int(text)
    try:
        if not re.fullmatch(r"\d{4}-\d\d-\d\d(T\d\d:\d\d:\d\d(\.\d{1,3})?Z)?", text):
            raise ValueError("neither a date nor a time in UTC")
        given = datetime.fromisoformat(text)
    except ValueError:
        expected = "milliseconds, a date, or a time as 2026-01-31T12:00:00Z"
        raise argparse.ArgumentTypeError(f"expected {expected}, found {text!r}") from None
    return milliseconds_of("time", given.replace(tzinfo=timezone.utc))


def positive(text):
    """A whole number from 1 on."""
    if not re.fullmatch(r"0*[1-9]\d*", text):
        raise argparse.ArgumentTypeError(f"expected a whole number from 1 on, found {text!r}")
    return int(text)


def rollup(text):
    """A rollup from its text."""
    try:
        return Rollup.of(text)
    except ValueError as error:
        raise argparse.ArgumentTypeError(str(error).removeprefix("rollup: ")) from None


# The options of a run: name, what is read of it, and what it says.
_OPTIONS = [
    ("--rollup", {"type": rollup, "action": "append", "required": True}, "such as avg; may be given again"),
    ("--pre", {"choices": STEPS, "default": "none"}, "prepares the values [none]"),
    ("--step", {"type": duration}, "from one output time to the next, such as 1d [the window]"),
    ("--window", {"type": duration, "default": 0}, "the length of a window [the step]"),
    ("--start", {"type": moment}, "the first output time [the first reading, moved up to a whole step]"),
    ("--end", {"type": moment}, "no output time is later [the last reading, moved up to a whole step]"),
    ("--lookback", {"type": duration, "default": 0, "dest": "lookback_delta"}, "the longest reach back"),
    ("--staleness", {"type": duration, "default": 0, "dest": "min_staleness_interval"}, "the shortest reach"),
    ("--adjust-window", {"action": "store_true", "dest": "may_adjust_window"}, "raises it to the reach"),
    ("--default-rollup", {"action": "store_true", "dest": "is_default_rollup"}, "caps it by the lookback"),
    ("--time-column", {}, "the name of the column of times in CSV"),
    ("--value-column", {}, "that of values"),
    ("--name-column", {}, "that of names"),
    ("--workers", {"type": positive, "default": os.cpu_count()}, "processes on this machine [as processors]"),
    ("--scheduler", {"metavar": "ADDRESS"}, "a Dask scheduler; its workers see SERIES by the same path"),
]


def arguments(words):
    """What the command line asks for."""
    parser = argparse.ArgumentParser(
        prog="python/archive",
        description="Figures of each series of a folder: a .csv, or a pair NAME.times.npy and "
        "NAME.values.npy. What is there whole is not made again: a run that was ended goes on where it was.",
        epilog="The exit status is 0, 1 where a series was refused or could not be read, 2 for bad usage.",
    )
    parser.add_argument("series", type=Path, metavar="SERIES", help="the folder of series")
    parser.add_argument("figures", type=Path, metavar="FIGURES", help="that of figures")
    for name, how, says in _OPTIONS:
        parser.add_argument(name, help=says, **how)
    given = parser.parse_args(words)
    try:
        Settings(**settings_of(given))
    except (TypeError, ValueError) as error:
        parser.error(str(error))
    if not given.series.is_dir():
        parser.error(f"{given.series} is no folder")
    if given.figures.exists() and given.figures.samefile(given.series):
        parser.error("series and figures have a folder each")
    return given


def settings_of(given):
    """What the command line says of the settings of a run."""
    return {name: value for name, value in vars(given).items() if name in Settings.__dataclass_fields__}


def sources(folder, columns):
    """The sources of a folder by their names, and what is wrong with others."""
    found, wrong = {}, []
    for path in sorted(folder.resolve().iterdir()):
        kind = re.search(r"\.csv$|\.(times|values)\.npy$", path.name)
        if not kind:
            continue
        name = path.name[: kind.start()]
        pair = [path.with_name(f"{name}.{part}.npy") for part in ("times", "values")]
        missing = [other.name for other in pair if kind[1] and not other.exists()]
        if missing:
            wrong.append(f"{path.name}: expected {missing[0]} beside it")
            continue
        if kind[1] == "values":
            continue
        source = Npy(*map(str, pair)) if kind[1] else Csv(str(path), **columns)
        if name in found:
            wrong.append(f"{path.name}: there is another source of that name")
        found.setdefault(name, source)
    return found, wrong


def state(source):
    """The files of a source with their sizes and the times of their last change."""
    paths = [source.path] if isinstance(source, Csv) else [source.timestamps, source.values]
    try:
        stats = [(path, os.stat(path)) for path in paths]
    except OSError:
        return {}
    return {os.path.basename(path): [stat.st_size, stat.st_mtime_ns] for path, stat in stats}


class Figures:
    """The folder of figures."""

    def __init__(self, folder):
        self.folder = folder
        folder.mkdir(parents=True, exist_ok=True)

    def holds(self, asked):
        """Notes what is asked for in an empty folder; False where one holds anything else. What was left
        unfinished in a folder of this question is removed."""
        path = self.folder / ".asked"
        if not any(self.folder.iterdir()):
            self.write(path, asked)
        if not path.exists() or json.loads(path.read_bytes()) != asked:
            return False
        for left in self.folder.rglob(".*.part"):
            left.unlink()
        return True

    def whole(self, name, source):
        """What became of a source, where that is there whole and made from the files as they are now."""
        try:
            became = json.loads((self.folder / f"{name}.json").read_bytes())
            sizes = {each["file"]: each["bytes"] for each in became["series"] if "file" in each}
            there = all((self.folder / file).stat().st_size == size for file, size in sizes.items())
            return became if there and became["made_from"] == state(source) else None
        except (OSError, ValueError, KeyError):
            return None

    def put(self, name, made_from, results):
        """Writes what became of a source."""
        series = [self.entry(name, result) for result in results]
        became = {"made_from": made_from, "notes": list(results[0].notes), "series": series}
        self.write(self.folder / f"{name}.json", became)
        return became

    def entry(self, name, result):
        """Writes the figures of a result, and says what stands there, or why nothing does."""
        entry = {"name": result.name, "rollup": str(result.rollup)}
        if result.error:
            number, index, sentence = result.error.args
            return entry | {"refused": number, "index": index, "sentence": sentence}
        figures = result.figures
        title = name if result.name is None else f"{name}/{quote(result.name, safe=' ')}"
        file = f"{title}.{result.rollup}.npy"
        size = self.write(self.folder / file, figures.values)
        start, points = int(figures.times[0]), len(figures.times)
        return entry | {"file": file, "bytes": size, "start": start, "points": points, "count": figures.count}

    def write(self, path, content):
        """Writes a file whole or not at all, and gives its size."""
        path.parent.mkdir(exist_ok=True)
        part = path.with_name(f".{path.name}.part")
        with open(part, "wb") as file:
            if isinstance(content, np.ndarray):
                np.save(file, content)
            else:
                file.write(json.dumps(content, indent=1).encode())
            file.flush()
            os.fsync(file.fileno())
            size = file.tell()
        os.replace(part, path)
        return size


class Progress:
    """A bar on a terminal, and at the end a line of what was done."""

    def __init__(self, there, left):
        self.there, self.left, self.begin = len(there), len(left), time.monotonic()
        self.made = self.failed = 0
        self.refused = sum(map(refused, there.values()))

    def show(self):
        """Draws the bar."""
        done, total = self.there + self.made + self.failed, self.there + self.left
        if not (sys.stderr.isatty() and total):
            return
        width = min(30, shutil.get_terminal_size().columns // 3)
        bar = ("=" * (width * done // total)).ljust(width)
        now = self.made + self.failed
        rest = (time.monotonic() - self.begin) / now * (self.left - now) if now else 0
        text = f"[{bar}] {done:,} of {total:,} sources, {self.refused:,} figures refused, {rest:,.0f} s left"
        print(f"\r{text}\033[K", end="", file=sys.stderr, flush=True)

    def fail(self, text):
        """A source that cannot be read, or whose figures cannot be written."""
        self.failed += 1
        clear = "\r\033[K" if sys.stderr.isatty() else ""
        print(f"{clear}{text}", file=sys.stderr, flush=True)

    def make(self, became):
        """A source whose figures are there now."""
        self.made += 1
        self.refused += refused(became)

    def end(self):
        """The last line, and the exit status."""
        clear = "\r\033[K" if sys.stderr.isatty() else ""
        parts = f"{self.made:,} sources made", f"{self.there:,} there already", f"{self.failed:,} failed"
        print(f"{clear}{', '.join(parts)}; {self.refused:,} figures refused", file=sys.stderr)
        return 1 if self.refused or self.failed else 0


def refused(became):
    """How many figures of a source are refused."""
    return sum("refused" in each for each in became["series"])


def make(given, client):
    """Makes what is not there, and gives the exit status."""
    columns = {f"{kind}_column": getattr(given, f"{kind}_column") for kind in ("time", "value", "name")}
    found, wrong = sources(given.series, columns)
    settings = settings_of(given)
    asked = {"rollups": list(map(str, given.rollup)), "pre": given.pre, **settings, **columns}
    folder = Figures(given.figures)
    if not folder.holds(asked):
        text = "holds something else: figures that were asked for otherwise, as its file .asked says, or none"
        print(f"python/archive: {given.figures} {text}", file=sys.stderr)
        return 2
    there = {name: became for name, source in found.items() if (became := folder.whole(name, source))}
    left = {name: source for name, source in found.items() if name not in there}
    progress = Progress(there, left)
    for line in wrong:
        progress.fail(line)
    progress.show()
    run = partial(run_many, client, rollup=given.rollup, pre=given.pre, **settings)
    for name, made_from, results in by_source(run, left):
        errors = [result.error for result in results if not isinstance(result.error, (Refused, NoneType))]
        try:
            if errors:
                raise errors[0]
            progress.make(folder.put(name, made_from, results))
        except Exception as error:
            progress.fail(f"{name}: {error}")
        progress.show()
    return progress.end()


def by_source(run, left):
    """The results of each source with its name and its files as they were before it was read."""
    states, names = {}, list(left)

    def begun():
        for name, source in left.items():
            states[name] = state(source)
            yield source

    for place, results in groupby(run(begun()), attrgetter("place")):
        yield names[place], states[names[place]], list(results)


def main(words):
    """The script."""
    given = arguments(words)
    try:
        return work_out(given)
    except KeyboardInterrupt:
        print("\nended; the same command goes on from here", file=sys.stderr)
        return 130
    except OSError as error:
        print(f"python/archive: {error}", file=sys.stderr)
        return 1


def work_out(given):
    """Makes the figures by the workers of this machine or of a scheduler, and gives the exit status."""
    if given.scheduler:
        with Client(given.scheduler) as client:
            return make(given, client)
    with tempfile.TemporaryDirectory(prefix="harzoulin-") as folder:
        cluster = LocalCluster(
            n_workers=given.workers, threads_per_worker=1, dashboard_address=":0", local_directory=folder
        )
        with cluster, Client(cluster) as client:
            return make(given, client)


if __name__ == "__main__":
    sys.exit(main(sys.argv[1:]))
