"""What the tests hand to the calls: a few readings, a grid, and slices that hold sevens."""

import functools
from pathlib import Path

import numpy as np

import harzoulin
from harzoulin import lent

ROOT = Path(__file__).parents[2]

TIMES = np.array([0, 1000, 2000, 3000])
VALUES = np.array([1.0, 2.0, 4.0, 3.0])
GRID = {"start": 0, "end": 10, "step": 1}
SETTLED_GRID = {**GRID, "window": 1, "reach": 1000}
RUN = {"timestamps": TIMES, "values": VALUES, "rollup": "avg", "pre": "none"}
SERIES = {"timestamps": TIMES, "values": VALUES}
LATER = {"second_timestamps": TIMES + 2000, "second_values": VALUES[[2, 3, 0, 1]]}
LOGS = {"first_timestamps": TIMES, "first_values": VALUES, **LATER}

# What each call is handed to be read, which it accepts.
READ = {
    "settle": {"timestamps": TIMES, **GRID},
    "prepare": {**SERIES, "pre": "delta"},
    "run": {**RUN, **GRID},
    "settled_run": {**RUN, **SETTLED_GRID},
    "crossings": {**SERIES, "limit": 3.5},
    "nearest": {"timestamps": TIMES, "at": 1600},
    "merge": LOGS,
}
# The slices that each call is lent, with their types and how long they have to be for this.
ROOM = {
    "output": (np.float64, 11),
    "prepared": (np.float64, 4),
    "remaining": (np.int64, 4),
    "work": (np.float64, 8),
}
WRITTEN = {
    "settle": {},
    "prepare": {"prepared": (np.float64, 4)},
    "run": ROOM,
    "settled_run": ROOM,
    "crossings": {"indexes": (np.uint64, 2)},
    "nearest": {},
    "merge": {"timestamps": (np.int64, 6), "values": (np.float64, 6)},
}

# Call and parameter of each array that is read, and of each that is written.
READ_ARRAYS = [
    (call, name) for call, read in READ.items() for name in read if name.endswith(("timestamps", "values"))
]
WRITTEN_ARRAYS = [(call, name) for call, written in WRITTEN.items() for name in written]


def bits(values):
    """The words of an array of float64."""
    return np.ascontiguousarray(values, np.float64).view(np.uint64)


def sevens(call, **lengths):
    """The slices that a call is lent, each entry a 7. Other lengths by the slices' names."""
    return {
        name: np.full(lengths.get(name, length), 7, kind) for name, (kind, length) in WRITTEN[call].items()
    }


def untouched(slices):
    """Whether each entry of each slice is still a 7."""
    return all((array == 7).all() for array in slices.values())


def through_lent(call, **changes):
    """The answer of a call of `lent` and the bytes of all that it wrote."""
    slices = sevens(call)
    slices.update((name, changes[name]) for name in slices if name in changes)
    answer = getattr(lent, call)(**{**READ[call], **changes, **slices})
    return answer, [array.tobytes() for array in slices.values()]


def through_the_package(call, **changes):
    """The answer of a call of the package, whose arrays are bytes."""
    handed = {**READ[call], **changes}
    function = getattr(harzoulin, call)
    return in_bytes(function(*handed.values()) if call == "merge" else function(**handed))


@functools.singledispatch
def in_bytes(answer):
    """An answer with the bytes of its arrays, which compare by their bits."""
    return answer


@in_bytes.register
def _(answer: np.ndarray):
    return str(answer.dtype), answer.tobytes()


@in_bytes.register
def _(answer: tuple):
    return tuple(map(in_bytes, answer))


@in_bytes.register
def _(answer: harzoulin.Figures):
    return tuple(map(in_bytes, vars(answer).values()))


WAYS = [through_lent, through_the_package]
