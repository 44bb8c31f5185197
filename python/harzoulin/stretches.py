"""A grid cut into consecutive stretches of about equal work."""

import numpy as np

# An output time costs as much as this many readings in its window, about.
OUTPUT_TIME = 16

# The places of a grid where windows are looked at, at most.
_PLACES = 10_000


def work(times, settled):
    """Indexes of output times and the work up to each: the readings in their windows, and a number for each
    output time. Between the places that are looked at windows are taken to change evenly."""
    points = settled.points()
    places = np.unique(np.linspace(0, points, min(points, _PLACES) + 1).astype(np.int64))
    ends = settled.start + settled.step * places
    inside = np.searchsorted(times, ends, "right")
    inside -= np.searchsorted(times, ends - settled.window, "right")
    each = inside + float(OUTPUT_TIME)
    return places, np.append(0.0, np.cumsum((each[1:] + each[:-1]) / 2 * np.diff(places)))


def cut(places, worked, pieces):
    """The indexes where stretches begin, and the end of the last: at least one output time each, and
    about the same work."""
    points = int(places[-1])
    pieces = min(pieces, points)
    counted = np.arange(pieces + 1)
    cuts = np.interp(worked[-1] * counted / pieces, worked, places).astype(np.int64)
    spare = np.clip(np.maximum.accumulate(cuts - counted), 0, points - pieces)
    spare[0], spare[-1] = 0, points - pieces
    return (spare + counted).tolist()


def pays(readings, worked, threads):
    """How many pieces pay: up to four for each thread, of which each scans at least as much as the series has
    readings, since it begins with a pass over all of them."""
    return max(1, min(4 * threads, int(worked[-1] // max(readings, 1))))
