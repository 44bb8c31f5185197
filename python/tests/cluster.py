"""Clusters of worker processes on this machine, and series for them."""

import os
import signal
from contextlib import contextmanager

import numpy as np
from distributed import Client, LocalCluster

import harzoulin


@contextmanager
def client_of(workers, folder):
    """A client of a cluster of so many worker processes with a thread each."""
    cluster = LocalCluster(
        n_workers=workers, threads_per_worker=1, dashboard_address=":0", local_directory=str(folder)
    )
    with cluster, Client(cluster) as client:
        yield client


def kill_one(client):
    """Kills a worker by its process id, and gives the id."""
    victim = next(iter(client.run(os.getpid).values()))
    os.kill(victim, signal.SIGKILL)
    return victim


def series(readings=400, seed=1, marks=True):
    """A series with equal times, gaps, zeros of both signs and staleness marks."""
    random = np.random.default_rng(seed)
    times = np.sort(random.integers(0, 40 * readings, readings) * 250)
    values = random.choice([random.normal(size=readings), random.integers(-3, 3, readings) * 1.0])
    values[:: 17] = -0.0
    if marks:
        values[5::29] = harzoulin.STALE
    return times, values


def bits(figures):
    """All of an answer, to the bit."""
    arrays = figures.times, figures.values, figures.remaining, figures.prepared
    return figures.count, *(array.tobytes() for array in arrays)
