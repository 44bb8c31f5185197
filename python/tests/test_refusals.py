"""Each refusal with its number, its index, its sentence and its text, and that nothing was written."""

import copy
import itertools
import math
import pickle
import re

import numpy as np
import pytest
from samples import READ, ROOT, TIMES, VALUES, WAYS, WRITTEN, sevens, through_the_package, untouched

import harzoulin
from harzoulin import MOST, STALE, STEPS, Refused, lent
from harzoulin.refusal import SENTENCES

OUTSIDE = 2**50 + 1
NOT_RISING = "the time is not above the one before"
# The rows that calls which own their memory do not meet.
OF_SLICES = (12, 13, 14, 16, 18)

# For each call and number what it is handed that offends that row, at reading 2 for 3 to 5.
SERIES_ROWS = {
    1: {"values": VALUES[1:]},
    3: {"timestamps": np.array([0, 1000, OUTSIDE, OUTSIDE])},
    4: {"timestamps": np.array([0, 1000, 999, 0])},
    5: {"values": np.array([1.0, 2.0, math.nan, math.inf])},
}
TIMES_ROWS = {number: SERIES_ROWS[number] for number in (3, 4)}
SPAN_ROWS = {6: {"step": 0}, 7: {"start": -OUTSIDE}}
GRID_ROWS = {**SPAN_ROWS, 8: {"window": -1}, 9: {"samples_scanned_per_call": 65_536}}
POINTS_ROW = {10: {"max_points_per_series": 4}}
LONG_GRID_ROW = {11: {"end": MOST}}
SLICES_ROWS = {12: {"output": 10}, 13: {"prepared": 3}, 14: {"work": 7}}
MARKS_ROW = {19: {"rollup": "default", "pre": "delta"}}
ROWS = {
    "prepare": {**SERIES_ROWS, 13: {"prepared": 3}},
    "settle": {**TIMES_ROWS, **GRID_ROWS, **POINTS_ROW, **LONG_GRID_ROW},
    "run": {**SERIES_ROWS, **GRID_ROWS, **POINTS_ROW, **LONG_GRID_ROW, **SLICES_ROWS, **MARKS_ROW},
    "settled_run": {**SERIES_ROWS, **GRID_ROWS, **LONG_GRID_ROW, **SLICES_ROWS, **MARKS_ROW},
    "crossings": {**SERIES_ROWS, 15: {"limit": math.nan}, 16: {"indexes": 0}},
    "nearest": TIMES_ROWS,
    "merge": {
        **{n: {f"first_{name}": array for name, array in row.items()} for n, row in SERIES_ROWS.items()},
        17: {"second_values": VALUES},
        18: {"values": 5},
    },
}
FALLING = ROWS["merge"][4]
EACH_ROW = [(call, number) for call, rows in ROWS.items() for number in rows]
# Two rows that are offended at once; not two by one argument.
PAIRS = [
    (call, *pair)
    for call, rows in ROWS.items()
    for pair in itertools.combinations(rows, 2)
    if not set(rows[pair[0]]) & set(rows[pair[1]])
]



def refused_by(function, *arguments, **named):
    """Number, index and sentence of the refusal that a call meets."""
    with pytest.raises(Refused) as refused:
        function(*arguments, **named)
    return refused.value.args


def offended(call, changes):
    """The refusal of a call of `lent`, where slices may have other lengths. All are left as they were."""
    lengths = {name: given for name, given in changes.items() if name in WRITTEN[call]}
    slices = sevens(call, **lengths)
    refusal = refused_by(getattr(lent, call), **{**READ[call], **changes, **slices})
    assert untouched(slices)
    return refusal


def row(call, number):
    """What a refusal has to be: that of reading 2, where it is of a reading."""
    sentence = NOT_RISING if (call, number) == ("merge", 4) else SENTENCES[number]
    return number, 2 if number in (3, 4, 5) else 0, sentence


@pytest.mark.parametrize("call, number", EACH_ROW)
def test_each_row_is_met_and_nothing_is_written(call, number):
    assert offended(call, ROWS[call][number]) == row(call, number)


@pytest.mark.parametrize("call, number", [met for met in EACH_ROW if met[1] not in OF_SLICES])
def test_calls_with_memory_of_their_own_are_refused_alike(call, number):
    assert refused_by(through_the_package, call, **ROWS[call][number]) == row(call, number)


@pytest.mark.parametrize("call, number, other", PAIRS)
def test_the_lowest_row_goes_first(call, number, other):
    assert offended(call, {**ROWS[call][other], **ROWS[call][number]}) == row(call, number)


@pytest.mark.parametrize(
    "times, values, number, index",
    [
        ([5, 6, OUTSIDE], [math.nan, 1.0], 1, 0),
        ([5, 4, OUTSIDE], [math.nan] * 3, 3, 2),
        ([5, -OUTSIDE, 4], [math.nan] * 3, 3, 1),
        ([5, 5, 4], [math.nan] * 3, 4, 2),
        ([5, 5, 5], [1.0, -math.inf, math.nan], 5, 1),
    ],
)
def test_the_lowest_row_of_a_series_goes_first(times, values, number, index):
    series = {"timestamps": np.array(times), "values": np.array(values)}
    for call in ("prepare", "run", "settled_run", "crossings"):
        assert offended(call, series) == (number, index, SENTENCES[number])


def test_an_asked_time_is_looked_at_after_the_times_and_before_their_order():
    for at in (OUTSIDE, -OUTSIDE, 2**63 - 1, -(2**63)):
        assert refused_by(lent.nearest, np.array([5, 5, OUTSIDE]), at) == (3, 2, SENTENCES[3])
        assert refused_by(lent.nearest, np.array([5, 4]), at) == (3, 0, SENTENCES[3])
        assert refused_by(lent.nearest, TIMES[:0], at) == (3, 0, SENTENCES[3])
    assert refused_by(harzoulin.nearest, np.array([5, 4]), 2**50) == (4, 1, SENTENCES[4])


@pytest.mark.parametrize("number", [1, 3, 4, 5])
@pytest.mark.parametrize("other", [1, 3, 4, 5])
def test_rows_of_the_first_series_of_a_merge_go_before_those_of_the_second(number, other):
    second = {f"second_{name}": array for name, array in SERIES_ROWS[other].items()}
    assert offended("merge", {**second, "values": 0}) == row("merge", other)
    assert offended("merge", {**ROWS["merge"][number], **second}) == row("merge", number)


@pytest.mark.parametrize("call", ROWS)
def test_too_many_readings_are_refused(call):
    many = {"timestamps": np.zeros(MOST + 1, np.int64), "values": np.zeros(MOST + 1)}
    for prefix in ("first_", "second_") if call == "merge" else ("",):
        changes = {prefix + name: array for name, array in many.items() if prefix + name in READ[call]}
        assert offended(call, changes) == (2, 0, SENTENCES[2])
        assert refused_by(through_the_package, call, **changes) == (2, 0, SENTENCES[2])


def test_a_merge_of_too_many_readings_is_refused_before_values_that_differ():
    times, values = np.arange(MOST + 1), np.zeros(MOST + 1)
    values[8_500_000] = 1.0
    parts = times[:9_000_000], np.zeros(9_000_000), times[8_000_000:], values[8_000_000:]
    assert refused_by(harzoulin.merge, *parts) == (2, 0, SENTENCES[2])
    parts = *parts[:2], times[8_000_000:MOST], values[8_000_000:MOST]
    assert refused_by(harzoulin.merge, *parts) == (17, 0, SENTENCES[17])


@pytest.mark.parametrize(
    "number, changes",
    [
        *((6, {"step": step}) for step in (0, -1, -(2**63), OUTSIDE, 2**63 - 1)),
        *((7, {"start": start, "end": end}) for start, end in [(1, 0), (-OUTSIDE, 0), (0, OUTSIDE)]),
        *((7, {"start": start, "end": end}) for start, end in [(-(2**63), 2**63 - 1), (2**63 - 1, -(2**63))]),
        *((9, {"samples_scanned_per_call": number}) for number in (65_536, 2**63, 2**64 - 1)),
        (11, {"end": MOST}),
        (11, {"start": -(2**50), "end": 2**50}),
    ],
)
def test_grids_and_the_number_per_call_are_refused_outside_their_ranges(number, changes):
    for call in ("settle", "run", "settled_run"):
        assert offended(call, changes) == (number, 0, SENTENCES[number])
        assert refused_by(through_the_package, call, **changes) == (number, 0, SENTENCES[number])


@pytest.mark.parametrize("outside", [-1, OUTSIDE, 2**63 - 1, -(2**63)])
@pytest.mark.parametrize(
    "number, name",
    [(8, "window"), (9, "lookback_delta"), (9, "min_staleness_interval"), (9, "max_points_per_series")],
)
def test_windows_and_limits_are_refused_outside_their_ranges(number, name, outside):
    for call in ("settle", "run"):
        assert offended(call, {name: outside}) == (number, 0, SENTENCES[number])


@pytest.mark.parametrize("name", ["window", "reach"])
def test_settled_lengths_are_refused_outside_1_to_2_to_the_52(name):
    for outside in (0, -1, 2**52 + 1, -(2**63)):
        assert offended("settled_run", {name: outside}) == (8, 0, SENTENCES[8])
    for inside in (1, 2**52):
        through_the_package("settled_run", **{name: inside})


@pytest.mark.parametrize("limit", [math.nan, math.inf, -math.inf])
def test_a_limit_that_is_not_finite_is_refused_of_no_readings_as_well(limit):
    assert offended("crossings", {"limit": limit}) == (15, 0, SENTENCES[15])
    nothing = {"timestamps": TIMES[:0], "values": VALUES[:0]}
    assert offended("crossings", {**nothing, "limit": limit}) == (15, 0, SENTENCES[15])


@pytest.mark.parametrize("name", ["prepared", "remaining"])
@pytest.mark.parametrize("rollup", ["avg", "default"])
def test_slices_for_readings_are_as_long_as_the_series_with_its_marks(name, rollup):
    marked = {"values": np.array([STALE, 1.0, STALE, STALE]), "rollup": rollup}
    assert offended("run", {**marked, name: 3}) == (13, 0, SENTENCES[13])
    assert offended("run", {**marked, "work": 7}) == (14, 0, SENTENCES[14])


@pytest.mark.parametrize("name, length", [("timestamps", 5), ("values", 5), ("timestamps", 0), ("values", 0)])
def test_either_slice_of_a_merge_may_be_too_short(name, length):
    assert offended("merge", {name: length}) == (18, 0, SENTENCES[18])


@pytest.mark.parametrize("rollup", ["default", "stale_samples"])
@pytest.mark.parametrize("pre", STEPS[1:])
def test_rollups_that_see_marks_take_no_step(rollup, pre):
    for call in ("run", "settled_run"):
        assert offended(call, {"rollup": rollup, "pre": pre}) == (19, 0, SENTENCES[19])
        assert refused_by(through_the_package, call, rollup=rollup, pre=pre) == (19, 0, SENTENCES[19])


@pytest.mark.parametrize("place", range(4))
def test_marks_are_refused_by_all_calls_but_the_runs(place):
    values = VALUES.copy()
    values[place] = STALE
    for call in ("prepare", "crossings"):
        assert offended(call, {"values": values}) == (5, place, SENTENCES[5])
    for name in ("first_values", "second_values"):
        assert offended("merge", {name: values}) == (5, place, SENTENCES[5])
    for call in ("run", "settled_run"):
        through_the_package(call, values=values)


OTHER_WORDS = [0xFFF0000000000002, 0x7FF8000000000002, 0x7FF0000000000001, 0x7FF0000000000003]


@pytest.mark.parametrize("word", OTHER_WORDS)
def test_every_other_nan_is_refused_by_runs(word):
    values = VALUES.copy()
    values.view(np.uint64)[1:3] = 0x7FF0000000000002, word
    for call, rollup in itertools.product(("run", "settled_run"), ("avg", "default", "stale_samples")):
        assert offended(call, {"values": values, "rollup": rollup}) == (5, 2, SENTENCES[5])


NAMED = [("prepare", "pre"), *itertools.product(("run", "settled_run"), ("pre", "rollup"))]


@pytest.mark.parametrize("call, name", NAMED)
def test_a_name_of_no_step_and_of_no_rollup_is_a_value_error_before_the_call(call, name, monkeypatch):
    monkeypatch.setitem(lent.CORE, call, None)
    for through in WAYS:
        with pytest.raises(ValueError, match=f"^{name}: expected .*, found 'last'"):
            through(call, **{name: "last"})


def test_a_number_of_no_step_is_refused_before_all_else(monkeypatch):
    monkeypatch.setattr(lent, "step_number", lambda name: len(STEPS))
    assert offended("run", {"values": VALUES[1:]}) == (28, 0, SENTENCES[28])


@pytest.mark.parametrize("refused", [Refused(3, 2), Refused(4, 5, NOT_RISING), Refused(17), Refused(5)])
def test_a_refusal_survives_pickling_and_copying(refused):
    for again in (pickle.loads(pickle.dumps(refused)), copy.copy(refused), copy.deepcopy(refused)):
        assert type(again) is Refused
        assert (vars(again), str(again)) == (vars(refused), str(refused))


@pytest.mark.parametrize(
    "refused, text",
    [
        (Refused(1), "refusal 1: times and values differ in length"),
        (Refused(3), "refusal 3 at reading 0: the time lies outside ±2^50 milliseconds"),
        (Refused(4, 5, NOT_RISING), "refusal 4 at reading 5: the time is not above the one before"),
        (Refused(5, 2), "refusal 5 at reading 2: the value is NaN or infinite"),
        (Refused(14), "refusal 14: the work slice is under twice the series"),
    ],
)
def test_a_refusal_says_its_number_its_reading_and_its_sentence(refused, text):
    assert str(refused) == text
    assert refused.args == (refused.number, refused.index, refused.sentence)


def of_rust(function):
    """What a function of the Rust library says of each refusal, by its name there."""
    text = (ROOT / "host/harzoulin/src/refusal.rs").read_text("utf-8")
    body = text.split(f"pub fn {function}(self)")[1].split("\n    }\n")[0]
    arms = re.findall(r"((?:Refusal::\w+(?:\(_\))?(?: \| )?)+) => \{?\s*(\d+|\"[^\"]*\")", body)
    return {name: said for names, said in arms for name in re.findall(r"Refusal::(\w+)", names)}


def test_sentences_are_those_of_the_rust_library():
    numbers, found = of_rust("number"), of_rust("sentence")
    sentences = {name: re.sub(r"\\\n\s*", "", said).strip('"') for name, said in found.items()}
    assert sentences.pop("NotRising") == NOT_RISING == refused_by(through_the_package, "merge", **FALLING)[2]
    assert {int(numbers[name]): sentence for name, sentence in sentences.items()} == SENTENCES
    assert list(SENTENCES) == [*range(1, 20), 28]
