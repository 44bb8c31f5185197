"""The memory that calls are lent, which no answer shares with a later one, and calls from several threads."""

import sys
import threading
import time
import weakref
from concurrent.futures import ThreadPoolExecutor

import numpy as np
import pytest
from samples import GRID, TIMES, VALUES, in_bytes, sevens

import harzoulin
from harzoulin import STALE, Refused, Workspace, lent

THREADS = 4


def readings(length, seed=0):
    """A series of so many readings."""
    numbers = np.random.default_rng(seed)
    return np.cumsum(numbers.integers(0, 2000, length)), numbers.integers(0, 50, length) / 4


def ask(workspace, length=100, seed=0, rollup="median", **settings):
    """A run on such a series."""
    return workspace.run(*readings(length, seed), rollup=rollup, **{"step": 1000, "window": 5000, **settings})


def place(array):
    return array.ctypes.data


def places(figures):
    """Where what stands in the workspace's memory begins."""
    return place(figures.remaining), place(figures.prepared)


def test_memory_is_used_again_when_nobody_holds_an_answer():
    workspace = Workspace()
    first = places(ask(workspace))
    for seed, length in enumerate((100, 7, 1, 100)):
        assert places(ask(workspace, length, seed)) == first
    assert place(workspace.prepare(*readings(99), pre="delta")) == first[1]
    assert places(workspace.settled_run(TIMES, VALUES, rollup="avg", window=1, reach=1, **GRID)) == first


def test_an_answer_that_is_held_keeps_its_bits():
    workspace = Workspace()
    asked = [(length, seed) for seed in range(20) for length in (100, 3, 250)]
    held = [ask(workspace, *of) for of in asked]
    held += [workspace.prepare(*readings(*of), pre="resets") for of in asked]
    fresh = [ask(Workspace(), *of) for of in asked]
    fresh += [Workspace().prepare(*readings(*of), pre="resets") for of in asked]
    assert list(map(in_bytes, held)) == list(map(in_bytes, fresh))


HOLDS = {
    "all": lambda figures: (figures.remaining, figures.prepared),
    "a part": lambda figures: (figures.remaining[5:9], figures.prepared[::2]),
    "a part of a part": lambda figures: (figures.remaining[5:][1:3], figures.prepared[:50][3:]),
    "as other numbers": lambda figures: (figures.remaining.view("M8[ms]"), figures.prepared.view(np.uint64)),
    "as memory": lambda figures: (memoryview(figures.remaining), memoryview(figures.prepared)),
}


@pytest.mark.parametrize("hold", HOLDS.values(), ids=HOLDS)
def test_what_is_held_of_an_answer_is_not_written_again(hold):
    workspace = Workspace()
    held = hold(ask(workspace))
    before = [np.array(part).tobytes() for part in held]
    for seed in (1, 2):
        ask(workspace, 100, seed)
        workspace.prepare(*readings(100, seed), pre="delta")
    assert [np.array(part).tobytes() for part in held] == before


def test_only_what_is_held_takes_other_memory():
    workspace = Workspace()
    figures = ask(workspace)
    before, prepared = places(figures), figures.prepared
    del figures
    after = places(ask(workspace, seed=1))
    assert after[0] == before[0] and after[1] != before[1]
    assert in_bytes(prepared) == in_bytes(ask(Workspace()).prepared)
    assert places(ask(workspace, seed=2)) == after


def test_figures_and_times_of_answers_are_memory_of_their_own():
    workspace = Workspace()
    first, second = ask(workspace), ask(workspace)
    for name in ("times", "values", "remaining", "prepared"):
        assert not np.shares_memory(getattr(first, name), getattr(second, name)), name


@pytest.mark.parametrize("owner", [Workspace(), harzoulin], ids=["workspace", "thread"])
def test_clear_lets_go_of_the_memory(owner):
    kept = weakref.ref(ask(owner).prepared.base)
    assert kept() is not None
    owner.clear()
    assert kept() is None
    held = ask(owner)
    owner.clear()
    assert in_bytes(ask(owner)) == in_bytes(held)


def test_an_answer_outlives_its_workspace():
    figures = ask(Workspace())
    ask(Workspace(), seed=1)
    assert in_bytes(figures) == in_bytes(ask(Workspace()))


def test_an_answer_does_not_change_when_a_later_call_is_refused():
    workspace = Workspace()
    figures = ask(workspace)
    before = in_bytes(figures)
    with pytest.raises(Refused):
        ask(workspace, seed=1, lookback_delta=-1)
    with pytest.raises(Refused):
        workspace.prepare(TIMES[::-1].copy(), VALUES, pre="none")
    assert in_bytes(figures) == before


@pytest.mark.parametrize("marks", [[], [0], [99], [0, 99], range(50), range(50, 100), range(100)])
@pytest.mark.parametrize("rollup", ["count", "default"])
def test_the_remaining_readings_are_told_in_memory_that_was_used_before(marks, rollup):
    workspace = Workspace()
    times, values = readings(100)
    workspace.run(times, values, rollup=rollup, step=1000)
    values[list(marks)] = STALE
    figures = workspace.run(times, values, rollup=rollup, start=0, end=10_000, step=1000)
    kept = np.full(100, True) if rollup == "default" else ~harzoulin.is_stale(values)
    assert in_bytes(figures.remaining) == in_bytes(times[kept])
    assert in_bytes(figures.prepared) == in_bytes(values[kept])


def every_answer(workspace):
    """Answers of calls of many kinds, which hold on to what they were given, as bytes."""
    found = []
    for seed in range(30):
        found.append(ask(workspace, 50 + seed * 7, seed, ["median", "mad", "quantile(0.3)"][seed % 3]))
        found.append(workspace.prepare(*readings(40 + seed, seed), pre="resets_once"))
    return list(map(in_bytes, found))


@pytest.mark.parametrize("shared", [False, True], ids=["a_workspace_each", "one_workspace"])
def test_threads_have_the_answers_of_one(shared):
    one, expected = Workspace(), every_answer(Workspace())
    begin = threading.Barrier(THREADS)

    def work(_):
        begin.wait()
        return every_answer(one if shared else Workspace())

    with ThreadPoolExecutor(THREADS) as threads:
        assert list(threads.map(work, range(THREADS))) == [expected] * THREADS


def test_threads_that_call_the_package_have_memory_of_their_own():
    expected, begin = every_answer(Workspace()), threading.Barrier(THREADS)

    def work(_):
        begin.wait()
        return every_answer(harzoulin)

    with ThreadPoolExecutor(THREADS) as threads:
        assert list(threads.map(work, range(THREADS))) == [expected] * THREADS


def test_a_thread_lets_go_of_its_own_memory_only():
    kept = weakref.ref(ask(harzoulin).prepared.base)
    with ThreadPoolExecutor(1) as thread:
        other = thread.submit(lambda: weakref.ref(ask(harzoulin).prepared.base)).result()
        assert other() is not None and other() is not kept()
        thread.submit(harzoulin.clear).result()
        assert (kept() is None, other() is None) == (False, True)
    harzoulin.clear()
    assert kept() is None


def counted_during(call):
    """How far another thread counts while a call works. No thread is made to let go of the interpreter's
    lock meanwhile, so it counts only where the call lets go."""
    count, stop = [0], threading.Event()

    def counting():
        while not stop.is_set():
            count[0] += 1
            time.sleep(0.0005)

    interval, thread = sys.getswitchinterval(), threading.Thread(target=counting)
    sys.setswitchinterval(60)
    try:
        thread.start()
        before = count[0]
        call()
        return count[0] - before
    finally:
        sys.setswitchinterval(interval)
        stop.set()
        thread.join()


def test_other_threads_go_on_during_a_call():
    times, values = readings(20_000)
    how = {"rollup": "mad", "start": 0, "end": 30_000_000, "step": 1_000_000, "window": 40_000_000}
    long = {**sevens("run", output=31, prepared=20_000, remaining=20_000, work=40_000), **how}
    # A busy machine may leave the other thread without its turn once, not each time.
    assert any(counted_during(lambda: lent.run(times, values, **long)) > 3 for _ in range(20))


def test_no_other_thread_goes_on_where_the_lock_is_kept():
    assert counted_during(lambda: sum(range(1_000_000))) == 0
