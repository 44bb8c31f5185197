"""What arrays the calls take, convert and turn down, and what becomes of their memory."""

import itertools
import re
import warnings
from types import SimpleNamespace

import numpy as np
import pytest
from samples import (
    GRID,
    READ,
    READ_ARRAYS,
    ROOM,
    TIMES,
    VALUES,
    WAYS,
    WRITTEN,
    WRITTEN_ARRAYS,
    in_bytes,
    sevens,
    through_lent,
    untouched,
)

import harzoulin
from harzoulin import Converted, Workspace, lent
from harzoulin.arrays import Handed, readable, slices

each_way = pytest.mark.parametrize("through", WAYS)
each_call = pytest.mark.parametrize("call", READ)
each_read = pytest.mark.parametrize("call, name", READ_ARRAYS)
each_written = pytest.mark.parametrize("call, name", WRITTEN_ARRAYS)


class Own(np.ndarray):
    """A class of arrays of somebody's own."""


def unaligned(array):
    """The same numbers one byte off their place."""
    room = np.zeros(array.nbytes + 1, np.uint8)[1:]
    room[:] = np.frombuffer(array.tobytes(), np.uint8)
    return room.view(array.dtype)


def frozen(array):
    """A copy that is read-only."""
    array = array.copy()
    array.flags.writeable = False
    return array


def mapped(array, path, mode="r"):
    """The same in a file that is mapped into memory."""
    np.save(f"{path}.npy", array)
    return np.load(f"{path}.npy", mmap_mode=mode)


def converted(call):
    """The answer of a call and the one warning that it gives, that it has converted an array."""
    with warnings.catch_warnings(record=True) as said:
        warnings.simplefilter("always")
        answer = call()
    assert [warning.category for warning in said] == [Converted]
    return answer, said[0]


# Other layouts of the same numbers, with what the warning says of them.
LAYOUTS = {
    "strided": lambda array: np.repeat(array, 3)[::3],
    "reversed": lambda array: array[::-1].copy()[::-1],
    "column": lambda array: np.stack([array, array], 1)[:, 0],
    "unaligned": unaligned,
    "swapped": lambda array: array.astype(array.dtype.newbyteorder()),
    "strided_subclass": lambda array: np.repeat(array, 2)[::2].view(Own),
    "record": lambda array: np.rec.fromarrays([array, array], names="a,b").a,
}


@each_way
@each_read
@pytest.mark.parametrize("layout", LAYOUTS)
def test_other_layouts_are_converted_with_a_warning(through, call, name, layout):
    array = LAYOUTS[layout](READ[call][name])
    before = array.tobytes()
    answer, warning = converted(lambda: through(call, **{name: array}))
    begins = f"{name}: a copy is handed over as contiguous {READ[call][name].dtype}, since the array is "
    assert str(warning.message).startswith(begins)
    assert answer == through(call)
    assert array.tobytes() == before


NARROWER = {
    "int64": ["i2", "u2", "i4", "u4", ">i4"],
    "float64": ["f2", "f4", ">f4", "i1", "u1", "i2", "u2", "i4", "u4"],
}


def with_types(types):
    """Call, parameter and type for each of the types that are listed by those of the parameters."""
    found = [(*read, kind) for read in READ_ARRAYS for kind in types[READ[read[0]][read[1]].dtype.name]]
    return pytest.mark.parametrize("call, name, kind", found)


@each_way
@with_types(NARROWER)
def test_narrower_numbers_are_converted_with_a_warning(through, call, name, kind):
    array = READ[call][name].astype(kind)
    answer, warning = converted(lambda: through(call, **{name: array}))
    assert str(warning.message).endswith(f"since the array is {array.dtype}")
    assert answer == through(call)


# Calls of which each stands on a line of its own.
FLOATS = VALUES.astype(np.float32)
WORKSPACE = Workspace()
LINES = [
    lambda: harzoulin.run(TIMES, FLOATS, rollup="avg", **GRID),
    lambda: harzoulin.settled_run(TIMES, FLOATS, rollup="avg", window=1, reach=1, **GRID),
    lambda: harzoulin.prepare(TIMES, FLOATS, pre="none"),
    lambda: harzoulin.settle(TIMES.astype(np.int32), **GRID),
    lambda: harzoulin.remaining(TIMES.astype(np.int32), VALUES, rollup="avg"),
    lambda: harzoulin.remaining(TIMES, FLOATS, rollup="avg"),
    lambda: harzoulin.crossings(TIMES, FLOATS, limit=1.0),
    lambda: harzoulin.nearest(TIMES.astype(np.int32), 0),
    lambda: harzoulin.merge(TIMES, FLOATS, TIMES, VALUES),
    lambda: WORKSPACE.run(TIMES, FLOATS, rollup="avg", **GRID),
    lambda: WORKSPACE.settled_run(TIMES, FLOATS, rollup="avg", window=1, reach=1, **GRID),
    lambda: WORKSPACE.prepare(TIMES, FLOATS, pre="none"),
    lambda: lent.prepare(TIMES, FLOATS, pre="none", **sevens("prepare")),
    lambda: lent.run(TIMES, FLOATS, rollup="avg", **GRID, **sevens("run")),
    lambda: lent.nearest(TIMES.astype(np.int32), 0),
]


@pytest.mark.parametrize("call", LINES, ids=range(len(LINES)))
def test_the_warning_names_the_line_of_the_caller(call):
    _, warning = converted(call)
    assert (warning.filename, warning.lineno) == (__file__, call.__code__.co_firstlineno)


OTHER_TYPES = ["u8", "?", "O", "c16", "U8", "g", "M8[ms]", "m8[ms]", "V8"]
NOT_EXACT = {"int64": ["f8", "f4", "f2", *OTHER_TYPES], "float64": ["i8", ">i8", *OTHER_TYPES]}


@each_way
@with_types(NOT_EXACT)
def test_numbers_that_might_change_are_type_errors(through, call, name, kind):
    array = np.zeros(4, kind)
    expected = f"{name}: expected {READ[call][name].dtype}, found {array.dtype}"
    with pytest.raises(TypeError, match=f"^{re.escape(expected)}$"):
        through(call, **{name: array})


# What is no array of one dimension, with the error and what it says.
NO_ARRAYS = {
    "list": (list, TypeError, "found list"),
    "none": (lambda array: None, TypeError, "found (NoneType|ndarray alone)"),
    "number": (lambda array: 5, TypeError, "found int"),
    "memory": (memoryview, TypeError, "found memoryview"),
    "masked": (np.ma.array, TypeError, "expected an array without a mask"),
    "matrix": (np.matrix, ValueError, "expected one dimension, found 2"),
    "no_dimension": (lambda array: array[:1].reshape(()), ValueError, "expected one dimension, found 0"),
    "square": (lambda array: array.reshape(2, -1), ValueError, "expected one dimension, found 2"),
    "fortran": (lambda array: np.asfortranarray(array.reshape(2, -1)), ValueError, "found 2"),
}


@pytest.mark.filterwarnings("ignore::PendingDeprecationWarning")
@each_way
@each_read
@pytest.mark.parametrize("kind", NO_ARRAYS)
def test_what_is_no_array_of_one_dimension_is_an_error(through, call, name, kind):
    other, error, says = NO_ARRAYS[kind]
    with pytest.raises(error, match=says):
        through(call, **{name: other(READ[call][name])})


# What a call cannot write to, with the error and what it says.
NOT_TO_WRITE = {
    "frozen": (frozen, ValueError, "found a read-only one"),
    "strided": (LAYOUTS["strided"], ValueError, "expected a contiguous array"),
    "reversed": (LAYOUTS["reversed"], ValueError, "expected a contiguous array"),
    "unaligned": (unaligned, ValueError, "expected a contiguous array"),
    "swapped": (LAYOUTS["swapped"], TypeError, "found >"),
    "narrow": (lambda array: array.astype(np.float32), TypeError, "found float32"),
    "truth": (lambda array: array.astype(bool), TypeError, "found bool"),
    "other": (lambda array: array.view("M8[ms]"), TypeError, "found datetime64"),
    "list": (list, TypeError, "found list"),
    "none": (lambda array: None, TypeError, "found NoneType"),
    "masked": (np.ma.array, TypeError, "expected an array without a mask"),
    "no_dimension": (lambda array: array[:1].reshape(()), ValueError, "expected one dimension"),
    "row": (lambda array: array[None], ValueError, "expected one dimension"),
}


@each_written
@pytest.mark.parametrize("kind", NOT_TO_WRITE)
def test_what_cannot_be_written_to_as_it_is_is_an_error(call, name, kind):
    other, error, says = NOT_TO_WRITE[kind]
    slices = sevens(call)
    room = {**slices, name: other(slices[name])}
    with pytest.raises(error, match=f"^{name}: .*{says}"):
        getattr(lent, call)(**{**READ[call], **room})
    assert untouched(slices)


@each_written
def test_the_other_type_of_eight_bytes_is_not_written_to(call, name):
    slices = sevens(call)
    for kind in {np.int64, np.uint64, np.float64} - {slices[name].dtype.type}:
        expected = f"^{name}: expected {slices[name].dtype}, found {np.dtype(kind)}$"
        with pytest.raises(TypeError, match=expected):
            getattr(lent, call)(**{**READ[call], **slices, name: slices[name].view(kind)})
    assert untouched(slices)


def of_one_block(*arrays):
    """Arrays of the same lengths in one block of memory, of which each begins with the last entry of the one
    before it."""
    block = np.full(sum(map(len, arrays)), 7)
    first = 0
    for array in arrays:
        part = block[first : first + len(array)].view(array.dtype)
        part[:] = array
        yield part
        first += len(array) - 1


BOTH = [(call, name, read) for call, name in WRITTEN_ARRAYS for of, read in READ_ARRAYS if of == call]


@pytest.mark.parametrize("call, name, read", BOTH)
def test_what_is_written_overlaps_nothing_that_is_read(call, name, read):
    slices = sevens(call)
    both = of_one_block(READ[call][read], slices[name]), of_one_block(slices[name], READ[call][read])
    for (first, second), names in zip(both, [(read, name), (name, read)]):
        with pytest.raises(ValueError, match=f"^{name} overlaps {read}: "):
            getattr(lent, call)(**{**READ[call], **slices, names[0]: first, names[1]: second})


PAIRS_WRITTEN = [(call, *pair) for call in WRITTEN for pair in itertools.permutations(WRITTEN[call], 2)]


@pytest.mark.parametrize("call, name, other", PAIRS_WRITTEN)
def test_what_is_written_overlaps_nothing_else_that_is_written(call, name, other):
    slices = sevens(call)
    slices[name], slices[other] = of_one_block(slices[name], slices[other])
    before = in_bytes(tuple(slices.values()))
    with pytest.raises(ValueError, match=f"({name} overlaps {other}|{other} overlaps {name}): "):
        getattr(lent, call)(**{**READ[call], **slices})
    assert in_bytes(tuple(slices.values())) == before


def test_one_array_is_not_written_twice_nor_read_and_written():
    room = sevens("run")
    with pytest.raises(ValueError, match="^prepared overlaps work: "):
        lent.run(**{**READ["run"], **room, "prepared": room["work"]})
    with pytest.raises(ValueError, match="^prepared overlaps values: "):
        lent.prepare(TIMES, room["work"][:4], pre="none", prepared=room["work"][:4])
    # A copy is read where the array is no slice, but what is written overlaps the array all the same.
    with pytest.raises(ValueError, match="^prepared overlaps values: "), pytest.warns(Converted):
        lent.prepare(TIMES, room["work"][:8:2], pre="none", prepared=room["work"][4:])
    # Neighbours are apart, and what is read may overlap.
    lent.prepare(TIMES, room["work"][:4], pre="none", prepared=room["work"][4:])
    both = np.zeros(4, np.int64)
    assert harzoulin.prepare(both, both.view(np.float64), pre="none").tolist() == [0.0] * 4


@each_way
@each_call
@pytest.mark.parametrize("kind", ["frozen", "subclass", "mapped"])
def test_arrays_are_read_where_they_are(through, call, kind, monkeypatch, tmp_path):
    others = {
        "frozen": lambda name, array: frozen(array),
        "subclass": lambda name, array: array.view(Own),
        "mapped": lambda name, array: mapped(array, tmp_path / name),
    }
    expected, handed, core = through(call), [], lent.CORE[call]
    arrays = {name: others[kind](name, READ[call][name]) for of, name in READ_ARRAYS if of == call}
    monkeypatch.setitem(lent.CORE, call, lambda *arguments: handed.extend(arguments) or core(*arguments))
    with warnings.catch_warnings():
        warnings.simplefilter("error")
        assert through(call, **arrays) == expected
    read = (Handed(name, array, array) for name, array in arrays.items())
    assert handed[: 2 * len(arrays)] == list(slices(read))


@each_written
def test_slices_are_written_where_they_are(call, name, tmp_path):
    slices = {other: array.view(Own) for other, array in sevens(call).items()}
    slices[name] = mapped(slices[name], tmp_path / name, "r+")
    _, expected = through_lent(call)
    getattr(lent, call)(**READ[call], **slices)
    assert [array.tobytes() for array in slices.values()] == expected
    assert not untouched({name: slices[name]})


@each_way
@each_call
def test_no_call_changes_what_it_reads(through, call):
    arrays = {name: READ[call][name].copy() for of, name in READ_ARRAYS if of == call}
    through(call, **arrays)
    assert in_bytes(tuple(arrays.values())) == in_bytes(tuple(READ[call][name] for name in arrays))


def test_a_readable_array_is_the_array_itself():
    assert readable("values", VALUES, np.float64) is VALUES
    assert readable("timestamps", TIMES[1:3].view(np.int64), "<i8").base is TIMES
    changed, _ = converted(lambda: readable("values", VALUES[::-1].view(Own), np.float64))
    assert type(changed) is np.ndarray and changed.tolist() == VALUES[::-1].tolist()


NOTHING = {"empty": np.zeros(0), "part": np.zeros(9)[4:4], "strided": np.zeros(9)[9::2]}


@each_way
@each_call
@pytest.mark.parametrize("kind", [*NOTHING, "mapped"])
def test_a_series_without_readings_is_accepted(through, call, kind, tmp_path):
    arrays = {}
    for name in (name for of, name in READ_ARRAYS if of == call):
        nothing = mapped(np.zeros(0), tmp_path / name) if kind == "mapped" else NOTHING[kind]
        arrays[name] = nothing.view(READ[call][name].dtype)
    answer = through(call, **arrays)
    if call == "nearest":
        assert (answer[0] if through is through_lent else answer) is None
    if call in ("crossings", "merge") and through is through_lent:
        assert answer == (0, [array.tobytes() for array in sevens(call).values()])


def test_no_slice_without_entries_has_a_null_pointer():
    for empty in (np.zeros(0), SimpleNamespace(size=0, __array_interface__={"data": (0, False)})):
        pointer, length = slices([Handed("values", empty, empty)])
        assert pointer % 8 == 0 and (pointer != 0, length) == (True, 0)


def test_slices_without_entries_are_enough_for_no_reading():
    nothing = {name: np.zeros(0, kind) for name, (kind, _) in ROOM.items()}
    output = np.full(1, 7.0)
    at = {"start": 5, "end": 5, "step": 1}
    count = lent.run(TIMES[:0], VALUES[:0], rollup="absent", **at, **{**nothing, "output": output})
    assert (count, output.tolist()) == (0, [1.0])
    lent.prepare(TIMES[:0], VALUES[:0], pre="delta", prepared=nothing["prepared"])
    assert lent.crossings(TIMES[:2], VALUES[:2], 9.0, indexes=np.zeros(0, np.uint64)) == 0
