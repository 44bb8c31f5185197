"""Where a worker finds a series: a pair of .npy files, a CSV, or a function."""

import json
import os
import subprocess
import tempfile
from dataclasses import dataclass
from pathlib import Path
from typing import Any, Callable

import numpy as np

# The command `figures`, which reads CSV.
COMMAND = Path(__file__).with_name("figures")


@dataclass(frozen=True)
class Found:
    """A series of a source, with its name where the source has one."""

    name: str | None
    timestamps: Any
    values: Any


@dataclass(frozen=True)
class Npy:
    """A pair of .npy files, times (int64) and values (float64), which are mapped into memory: what a call
    does not look at is not read."""

    timestamps: str
    values: str

    def read(self):
        """The one series, and no notes."""
        arrays = [np.load(path, mmap_mode="r") for path in (self.timestamps, self.values)]
        return [Found(None, *arrays)], ()


@dataclass(frozen=True)
class Csv:
    """A CSV as the command `figures` reads it, which is run for it; it may have several series."""

    path: str
    time_column: str | None = None
    value_column: str | None = None
    name_column: str | None = None

    def read(self):
        """The series in the order in which they begin, and what a person should know of how they were
        read."""
        if not COMMAND.exists():
            raise OSError(f"no command at {COMMAND}, which reads CSV: python/build writes it")
        columns = ("time", self.time_column), ("value", self.value_column), ("name", self.name_column)
        chosen = [f"--{kind}-column={name}" for kind, name in columns if name is not None]
        asked = [COMMAND, "readings", "--format", "raw", *chosen, os.path.abspath(self.path)]
        with tempfile.TemporaryFile("w+", encoding="utf-8") as said:
            with subprocess.Popen(asked, stdout=subprocess.PIPE, stderr=said) as command:
                found = list(_series(command.stdout))
            said.seek(0)
            notes = said.read().splitlines()
        if command.returncode:
            raise ValueError("\n".join(notes))
        return found, tuple(notes)


@dataclass(frozen=True)
class Made:
    """A function that a worker calls: it gives times and values, or a pandas Series."""

    function: Callable

    def read(self):
        """The one series, and no notes."""
        given = self.function()
        return [Found(None, *(given if isinstance(given, tuple) else (given, None)))], ()


def source_of(given):
    """A pair of paths, of times and values, as `Npy`; a path as `Csv`; a function as `Made`."""
    if isinstance(given, (Npy, Csv, Made)):
        return given
    if isinstance(given, (tuple, list)) and len(given) == 2:
        return Npy(*map(os.path.abspath, given))
    if isinstance(given, (str, os.PathLike)):
        return Csv(os.path.abspath(given))
    if callable(given):
        return Made(given)
    kind = type(given).__name__
    raise TypeError(f"expected a pair of .npy files, a CSV's path or a function, found {kind}")


def _series(stream):
    """What `figures readings --format raw` writes."""
    while line := stream.readline():
        head = json.loads(line)
        arrays = [_array(stream, head["readings"], kind) for kind in ("<i8", "<f8")]
        yield Found(head["name"], *arrays)


def _array(stream, length, kind):
    array = np.empty(length, kind)
    if stream.readinto(memoryview(array).cast("B")) != array.nbytes:
        raise EOFError("the readings end early")
    return array
