"""Figures of many series, and of one long one, worked out by the workers of a Dask cluster.

    with LocalCluster() as cluster, Client(cluster) as client:
        for result in run_many(client, sources, rollup="avg", step=3_600_000):
            ...
        figures = run_one(client, ("times.npy", "values.npy"), rollup="median", step=3_600_000)

Dask schedules and moves data. A worker needs this package, and the files under the paths that it is given.
No task waits for another one's answer, so that one that was lost with its worker is simply done again, by
whichever worker is there.
"""

import threading
import uuid
import warnings
from dataclasses import asdict, dataclass, replace
from functools import partial
from itertools import chain, islice
from typing import Any

import numpy as np
from distributed import as_completed

from . import lent
from .arrays import Converted
from .calls import run, settled_run
from .marks import remaining_times
from .names import Rollup, step_number
from .pandas_series import arrays_of
from .refusal import Refused
from .settings import Settings, whole
from .sources import Found, source_of
from .stretches import cut, pays, work
from .workspace import Figures

__all__ = ["Result", "run_many", "run_one"]

# How many sources are under way for each thread: enough that none waits for the next one.
_AHEAD = 8

# How often in a row all pieces that are left may be lost with their workers.
_LOST = 5


@dataclass(frozen=True, eq=False)
class Result:
    """What became of one series and one rollup.

    place: where the source stood among those that were handed in.
    source: the source, as `Npy`, `Csv` or `Made`.
    name: the name of the series where the source has one.
    rollup: the rollup; None where the source could not be read.
    figures: the figures, or None.
    error: None, or why there are no figures: a `Refused`, or what was met when the source was read.
    notes: what a person should know of how the source was read.
    """

    place: int
    source: Any
    name: str | None = None
    rollup: Rollup | None = None
    figures: Figures | None = None
    error: Exception | None = None
    notes: tuple = ()


def run_many(client, sources, *, rollup, pre="none", prepared=False, ahead=None, **settings):
    """Figures of many series, as they are worked out: yields a `Result` for each series and rollup.

    A source is a pair of paths of .npy files, of times and values, which a worker maps into memory; a path of
    a CSV, as the command `figures` reads it; or a function that a worker calls, which gives times and
    values or a pandas Series. `rollup` is one or a list, the settings are those of `Settings`; without
    start and end each series has a grid of its own. A series that is refused, or cannot be read, is a
    result. With `prepared` the figures have remaining times and prepared values as well.

    So many sources are under way at a time: `ahead`, or eight for each thread that the cluster has now. The
    others are taken as results are.
    """
    rollups = [Rollup.of(each) for each in (rollup if isinstance(rollup, list) else [rollup])]
    step_number(pre)
    ahead = _AHEAD * max(sum(client.nthreads().values()), 1) if ahead is None else _counted("ahead", ahead)
    task = partial(_results, rollups, pre, asdict(Settings(**settings)), prepared)
    waiting = enumerate(map(source_of, sources))
    under_way, done = {}, as_completed(loop=client.loop)

    def submit(count):
        taken = list(islice(waiting, count))
        futures = client.map(task, taken, pure=False) if taken else []
        under_way.update(zip(futures, taken))
        done.update(futures)

    try:
        submit(ahead)
        for batch in _answered(client, done):
            answers = [(*under_way.pop(future), answer) for future, answer in batch]
            submit(len(answers))
            for place, source, answer in answers:
                yield from [Result(place, source, error=answer)] if isinstance(answer, Exception) else answer
    finally:
        client.cancel(list(under_way))


def _answered(client, done):
    """Futures that are done, each with its result or its error, as many at a time as there are: their results
    come in one message, or one by one where some have failed."""
    for batch in done.batches():
        try:
            answers = client.gather(batch)
        except Exception:
            answers = map(_answer, batch)
        yield list(zip(batch, answers))


def _answer(future):
    """The result of a future, or its error."""
    try:
        return future.result()
    except Exception as error:
        return error


def run_one(client, series, *, rollup, pre="none", pieces=None, prepared=True, **settings):
    """The figures of one series, worked out by all workers: answers, count, remaining times and prepared
    values as `run` gives them, to the bit.

    The series is settled once and its grid cut into stretches of about equal work; each is a settled run
    with the window and the reach of the whole, and they are joined. That the cut cannot be seen is proved
    for every cut of every accepted run: theorem `cut-rejoins` of crates/claims (`Rejoined` of
    specs/Cut.antt) says that the answers joined are the run's, bit for bit, and that the counts add up to
    its count and the samples once more for each piece after the first; `stretches-cut` that any split of a
    grid into consecutive stretches is such a cut.

    `series` is a source as of `run_many` with one series, a pair of numpy arrays, or a pandas Series, which
    comes out as one. Arrays are sent to each worker, a file or a function is read by each. `pieces` is how
    many stretches there are, one for each output time at the most; without it up to four for each thread,
    as far as that pays: a piece begins with a pass over the whole series. Remaining times and prepared
    values are 16 bytes a reading to be sent, which may take longer than the figures: `prepared=False` leaves
    them out. The settings are those of `Settings`. A refusal is raised.
    """
    if pieces is not None:
        _counted("pieces", pieces)
    rollup, asked = Rollup.of(rollup), asdict(Settings(**settings))
    step_number(pre)
    is_pandas = type(series).__module__.partition(".")[0] == "pandas"
    held = _Held(client, arrays_of(series) if is_pandas else series)
    try:
        threads = max(sum(client.nthreads().values()), 1)
        plan = partial(_plan, rollup=rollup, pre=pre, settings=asked, pieces=pieces, threads=threads)
        ((_, plan),) = held.answers([plan])
        figures = _joined(held, plan, rollup, pre, prepared)
    finally:
        held.forget()
    return figures.as_pandas(series.name) if is_pandas else figures


def _counted(name, number):
    """A whole number from 1 on."""
    if whole(name, number) < 1:
        raise ValueError(f"{name}: expected 1 or more, found {number}")
    return number


def _results(rollups, pre, settings, prepared, placed):
    """The results of a source."""
    place, source = placed
    try:
        found, notes = source.read()
    except Exception as error:
        return [Result(place, source, error=error)]
    results = []
    for series in found:
        for rollup in rollups:
            result = Result(place, source, series.name, rollup, notes=notes)
            try:
                figures = run(series.timestamps, series.values, rollup=rollup, pre=pre, **settings)
            except Exception as error:
                results.append(replace(result, error=error))
            else:
                results.append(replace(result, figures=figures if prepared else figures.bare()))
    return results


@dataclass(frozen=True)
class _Plan:
    """A run cut into pieces: what was settled, the grid, and where stretches begin and end."""

    settled: Any
    cuts: list


def _plan(series, rollup, pre, settings, pieces, threads):
    """What `run` refuses for its series or its settings is refused; else the run is settled and cut. Row 19
    comes after those of the slices, and the pieces meet it."""
    read = lent.series(series.timestamps, series.values)
    settings = Settings(**settings).over(read[0].array)
    # Lent no slices, a run is refused for these, row 12 first, only if its series and settings are accepted.
    nothing = np.empty(0), np.empty(0), np.empty(0, np.int64), np.empty(0)
    try:
        lent.figures(read, rollup, pre, settings, nothing)
    except Refused as refusal:
        if refusal.number != 12:
            raise
    times = remaining_times(read[0].array, read[1].array, rollup)
    settled = settings.settled(lent.settle(times, **asdict(settings)))
    places, worked = work(times, settled)
    return _Plan(settled, cut(places, worked, pieces or pays(len(times), worked, threads)))


def _piece(series, rollup, pre, settled, prepared):
    """A settled run, and how many readings it goes by."""
    figures = settled_run(series.timestamps, series.values, rollup=rollup, pre=pre, **asdict(settled))
    return figures if prepared else figures.bare(), len(figures.remaining)


def _joined(held, plan, rollup, pre, prepared):
    """The pieces of a plan, worked out and joined. The remaining times and the prepared values are the same
    in all pieces; the first one gives them."""
    settled, cuts = plan.settled, plan.cuts
    stretches = list(zip(cuts, cuts[1:]))
    parts = (settled.part(begin, end - begin) for begin, end in stretches)
    piece = partial(_piece, rollup=rollup, pre=pre)
    calls = [partial(piece, settled=part, prepared=prepared and not i) for i, part in enumerate(parts)]
    points = cuts[-1]
    values, scanned, first = np.empty(points), 0, None
    for place, (figures, samples) in held.answers(calls):
        begin, end = stretches[place]
        values[begin:end] = figures.values
        scanned += figures.count - samples
        first = figures if begin == 0 else first
    times = settled.start + settled.step * np.arange(points)
    return Figures(times, values, samples + scanned, first.remaining, first.prepared)


class _Held:
    """A series where all workers have it: arrays are sent to each, another source is read by each."""

    def __init__(self, client, given):
        self.client, self.token = client, uuid.uuid4().hex
        self.arrays = None
        if isinstance(given, tuple) and all(isinstance(part, np.ndarray) for part in given):
            self.arrays = Found(None, *(each.array for each in lent.series(*given)))
        else:
            self.source = source_of(given)

    def answers(self, calls):
        """What the calls give, each with its place, as they come. A call that is lost with its worker is
        asked again."""
        left, lost = dict(enumerate(calls)), 0
        while left:
            before = len(left)
            for place, answer in self._round(left):
                del left[place]
                yield place, answer
            lost = lost + 1 if len(left) == before else 0
            if lost == _LOST:
                raise RuntimeError(f"the workers were lost {lost} times in a row")

    def _round(self, left):
        """Asks each of the calls once, and gives the answers of those that were not lost: a call is cancelled
        where no worker has the arrays any more that it hangs on."""
        try:
            series = self._sent() if self.arrays else self.source
        except OSError:
            return
        calls = list(left.values())
        futures = self.client.map(_asked, calls, token=self.token, series=series, pure=False)
        places = dict(zip(futures, left))
        done = as_completed(futures, loop=self.client.loop)
        try:
            for future, answer in chain.from_iterable(_answered(self.client, done)):
                place = places.pop(future)
                if future.cancelled():
                    continue
                if isinstance(answer, Exception):
                    raise answer
                yield place, answer
        finally:
            self.client.cancel(list(places))

    def _sent(self):
        """The arrays on each worker. If all that have them are lost, so are the calls on them."""
        self.client.wait_for_workers(1)
        return self.client.scatter([self.arrays], broadcast=True, hash=False)[0]

    def forget(self):
        """Has the workers let go of what they read."""
        self.client.run(_forget, self.token, on_error="ignore")


# The series that a worker has at hand, by the token of the run, so that it is read or copied once. A piece
# that is still worked out when its run has failed would leave its own here for ever: the eldest goes.
_at_hand, _reading = {}, threading.Lock()
_MOST_AT_HAND = 4


def _asked(call, token, series):
    """What a call gives of a series, or its error: a refusal is no failure of a worker."""
    try:
        with _reading:
            if token not in _at_hand:
                _at_hand[token] = _ready(series)
            series = _at_hand[token]
            if len(_at_hand) > _MOST_AT_HAND:
                del _at_hand[next(iter(_at_hand))]
        return call(series)
    except Exception as error:
        return error


def _ready(series):
    """A series as the core reads it. Arrays that were sent may have come to lie unaligned."""
    if not isinstance(series, Found):
        found, _ = series.read()
        if len(found) != 1:
            raise ValueError(f"expected one series, found {len(found)}")
        series = found[0]
    if series.values is None:
        series = Found(None, *arrays_of(series.timestamps))
    with warnings.catch_warnings():
        warnings.simplefilter("ignore", Converted)
        return Found(None, *(each.array for each in lent.series(series.timestamps, series.values)))


def _forget(token):
    _at_hand.pop(token, None)
