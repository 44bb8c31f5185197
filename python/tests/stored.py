"""Reads the lists of stored answers that the gate replays: a case on each line, words of 16 hex digits,
after a first line that says what a case holds."""

from dataclasses import dataclass
from functools import cached_property

import numpy as np
from samples import ROOT

import harzoulin
from harzoulin import ROLLUPS, STEPS, Refused, Settled
from harzoulin.names import SEE_MARKS


class Words:
    """The words of a case, taken in order."""

    def __init__(self, line):
        self._words = np.frombuffer(bytes.fromhex(line), ">u8").astype(np.uint64)
        self._taken = 0

    def words(self, count):
        taken = self._words[self._taken : self._taken + count]
        assert len(taken) == count
        self._taken += count
        return taken

    def ints(self, count):
        return self.words(count).view(np.int64)

    def floats(self, count):
        return self.words(count).view(np.float64)

    def word(self):
        return int(self.words(1)[0])

    def step(self):
        return STEPS[self.word()]

    def settings(self):
        """The ten settings of a run by their names."""
        numbers, flags, limits = (part.tolist() for part in (self.ints(4), self.words(2), self.ints(3)))
        return {
            **dict(zip(("start", "end", "step", "window"), numbers)),
            **dict(zip(("may_adjust_window", "is_default_rollup"), map(bool, flags))),
            **dict(zip(("lookback_delta", "min_staleness_interval", "max_points_per_series"), limits)),
            "samples_scanned_per_call": self.word(),
        }

    def outcome(self):
        """What was settled and the count, or, without output times, the refusal."""
        window, reach, count, points = self.words(4).tolist()
        return (Settled(window, reach, points), count) if points else Refused(window, reach)

    def end(self):
        assert self._taken == len(self._words)


def cases(name):
    """The words of each case of a list."""
    first, *lines = (ROOT / f"crates/replay_{name}/stdin").read_text("ascii").splitlines()
    assert first.startswith(f"# {name}: ")
    return map(Words, lines)


@dataclass
class Run:
    """A case of the list of runs. `outcomes` and `answers` are by the rollups' names."""

    pre: str
    parameters: tuple
    times: np.ndarray
    values: np.ndarray
    settings: dict
    outcomes: dict
    answers: dict

    def rollup(self, name):
        """The rollup of a name with as many of the parameters as it has."""
        return name, *self.parameters[: len(harzoulin.names.PARAMETERS.get(name, ()))]

    @cached_property
    def bare(self):
        """Times and values of the readings that are no marks."""
        kept = ~harzoulin.is_stale(self.values)
        return self.times[kept], self.values[kept]

    @cached_property
    def bare_prepared(self):
        return harzoulin.prepare(*self.bare, pre=self.pre)

    def remaining(self, name):
        """The times of the readings that the figures of a rollup are made of."""
        return self.times if name in SEE_MARKS else self.bare[0]

    def prepared(self, name):
        """Their prepared values."""
        return self.values if name in SEE_MARKS else self.bare_prepared

    @property
    def points(self):
        """How many places for answers the runs of most rollups need."""
        return len(self.answers["avg"])


def _run(words):
    pre, parameters = words.step(), tuple(words.floats(2).tolist())
    readings = words.word()
    series = words.ints(readings), words.floats(readings)
    settings, kinds = words.settings(), [words.outcome(), words.outcome()]
    words.word()
    outcomes = {name: kinds[name in SEE_MARKS] for name in ROLLUPS}
    points = [0 if isinstance(kind, Refused) else kind[0].points for kind in kinds]
    answers = {name: words.floats(points[name in SEE_MARKS]) for name in ROLLUPS}
    words.end()
    return Run(pre, parameters, *series, settings, outcomes, answers)


def runs():
    """The cases of the list of runs."""
    return list(map(_run, cases("run")))


def preparations():
    """Step, times, values and prepared values of each case."""
    for words in cases("prepare"):
        pre, readings = words.step(), words.word()
        yield pre, words.ints(readings), words.floats(readings), words.floats(readings)
        words.end()


def settlings():
    """Times, settings and what was settled of each case."""
    for words in cases("settle"):
        times, settings = words.ints(words.word()), words.settings()
        yield times, settings, Settled(*words.ints(3).tolist())
        words.end()
