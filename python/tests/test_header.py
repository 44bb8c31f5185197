"""The package goes by the numbers and the parameters of include/harzoulin.h, and by the names of the Rust
library."""

import ctypes
import re
import struct
from ctypes import POINTER
from dataclasses import fields

import pytest
from samples import ROOT

import harzoulin
from harzoulin import ROLLUPS, STALE, STEPS, Rollup, Settings, SettledSettings, exported, names
from harzoulin.names import PARAMETERS, SEE_MARKS
from harzoulin.refusal import SENTENCES

HEADER = (ROOT / "include/harzoulin.h").read_text("utf-8")
RUST = ROOT / "host/harzoulin/src"
TYPES = {
    "bool": ctypes.c_bool,
    "double": ctypes.c_double,
    "int64_t": ctypes.c_int64,
    "size_t": ctypes.c_size_t,
    "uint32_t": ctypes.c_uint32,
    "uint64_t": ctypes.c_uint64,
}


def constants(enum):
    """The constants of an enum of the header by what they begin with."""
    lines = HEADER.split(f"\nenum {enum} {{\n")[1].split("};\n")[0]
    return {name: int(number) for name, number in re.findall(r"HARZOULIN_(\w+) = (\d+)", lines)}


def without(prefix, found):
    """The names without what all begin with, in lower case, by their numbers."""
    assert all(name.startswith(prefix) for name in found)
    return {number: name[len(prefix) :].lower() for name, number in found.items()}


def parameters():
    """Type, star and name of each parameter of each function of the header."""
    declared = re.findall(r"^uint64_t harzoulin_(\w+)\(([^)]*)\);", HEADER, re.M)
    parameter = re.compile(r"(?:const )?(\w+) (\*?)(\w+)$")
    return {
        name: [parameter.match(" ".join(text.split())).groups() for text in inside.split(",")]
        for name, inside in declared
    }


def in_ctypes(declared):
    """The types of parameters: the pointer of a slice, which a length follows, is one to anything."""
    lengths = {name for kind, _, name in declared if kind == "size_t"}
    for kind, star, name in declared:
        if star and f"{name}_len" in lengths:
            yield ctypes.c_void_p
        else:
            yield POINTER(TYPES[kind]) if star else TYPES[kind]


def test_functions_have_the_parameters_of_the_header():
    declared = parameters()
    assert len(declared) == 7
    assert exported.FUNCTIONS == {name: list(in_ctypes(declared[name])) for name in declared}


def test_the_loaded_functions_have_these_types():
    assert exported.CORE.keys() == exported.FUNCTIONS.keys()
    for name, function in exported.CORE.items():
        assert list(function.argtypes) == exported.FUNCTIONS[name]
        assert function.restype is ctypes.c_uint64


@pytest.mark.parametrize(
    "call, settings", [("settle", Settings), ("run", Settings), ("settled_run", SettledSettings)]
)
def test_settings_stand_in_the_order_of_the_header(call, settings):
    declared = [name for _, star, name in parameters()[call] if not star]
    first = declared.index("start")
    expected = [field.name for field in fields(settings)]
    assert declared[first : first + len(expected)] == expected


def test_settings_are_handed_over_in_the_order_of_their_fields():
    given = {"start": 1, "end": 2, "step": 3, "window": 4}
    limits = {"lookback_delta": 7, "min_staleness_interval": 8, "max_points_per_series": 9}
    flags = {"is_default_rollup": False, "may_adjust_window": True}
    settings = Settings(samples_scanned_per_call=10, **limits, **flags, **given)
    assert list(settings.numbers()) == [1, 2, 3, 4, True, False, 7, 8, 9, 10]
    settled = SettledSettings(samples_scanned_per_call=6, reach=5, **given)
    assert list(settled.numbers()) == [1, 2, 3, 4, 5, 6]
    assert list(settings.over([]).part(1, 1).numbers())[:4] == [4, 4, 3, 4]


def test_steps_have_the_numbers_of_the_header():
    assert dict(enumerate(STEPS)) == without("STEP_", constants("harzoulin_step"))
    assert [names.step_number(name) for name in STEPS] == list(range(6))


def test_rollups_have_the_numbers_of_the_header():
    assert dict(enumerate(ROLLUPS)) == without("ROLLUP_", constants("harzoulin_rollup"))
    rollups = [Rollup(name, (0.5,) * len(PARAMETERS.get(name, ()))) for name in ROLLUPS]
    assert [rollup.choice[0] for rollup in rollups] == list(range(50))


def test_a_parameter_that_a_rollup_does_not_have_is_0():
    rollups = Rollup("avg"), Rollup("quantile", (0.9,)), Rollup("holt_winters", (0.5, 0.1))
    assert [rollup.choice[1:] for rollup in rollups] == [(0.0, 0.0), (0.9, 0.0), (0.5, 0.1)]


def test_refusals_have_the_numbers_of_the_header():
    found = constants("harzoulin_refusal")
    assert found.pop("ACCEPTED") == 0
    assert list(SENTENCES) == list(without("REFUSED_", found))


def test_the_mark_is_that_of_the_header():
    word = int(re.search(r"#define HARZOULIN_STALE UINT64_C\((\w+)\)", HEADER)[1], 16)
    assert struct.pack("<d", STALE) == struct.pack("<Q", word)
    for other in (word | 1 << 63, word | 1 << 51, word - 1, word + 1, word - 2, 0):
        assert not harzoulin.is_stale(struct.unpack("<d", struct.pack("<Q", other))[0])
    assert harzoulin.is_stale(STALE)


def test_the_most_readings_are_those_of_the_rust_library():
    number = re.search(r"pub const MOST: usize = ([\d_]+);", (RUST / "lib.rs").read_text("utf-8"))[1]
    assert harzoulin.MOST == int(number)


def rust_table():
    """Name, variant and parameters of each row of the Rust library's table of rollups."""
    text = (RUST / "rollup.rs").read_text("utf-8").split("\nrollups! {\n")[1]
    rows = re.findall(r'^    "(\w+)" (\w+?)(?:\(([^)]*)\))? ', text, re.M)
    return {name: (variant, tuple(inside.split(", ")) if inside else ()) for name, variant, inside in rows}


def test_rollups_and_their_parameters_are_those_of_the_rust_library():
    table = rust_table()
    assert tuple(table) == ROLLUPS
    assert PARAMETERS == {name: listed for name, (_, listed) in table.items() if listed}


def test_rollups_that_see_marks_are_those_of_the_rust_library():
    text = (RUST / "rollup.rs").read_text("utf-8")
    body = text.split("pub fn sees_marks(self)")[1].split("}")[0]
    seeing = re.findall(r"Rollup::(\w+)", body)
    found = [variant for name, (variant, _) in rust_table().items() if name in SEE_MARKS]
    assert len(seeing) == 2 and found == seeing


@pytest.mark.parametrize(
    "given, rollup",
    [
        ("avg", Rollup("avg")),
        (" quantile( 0.9 ) ", Rollup("quantile", (0.9,))),
        ("holt_winters(0.5, 1)", Rollup("holt_winters", (0.5, 1.0))),
        (("quantile", -0.0), Rollup("quantile", (-0.0,))),
        (("avg",), Rollup("avg")),
        (Rollup("predict_linear", (60.0,)), Rollup("predict_linear", (60.0,))),
    ],
)
def test_a_rollup_is_known_by_its_name_and_its_parameters(given, rollup):
    found = Rollup.of(given)
    assert (found.name, repr(found.parameters)) == (rollup.name, repr(rollup.parameters))
    assert Rollup.of(str(found)) == rollup


@pytest.mark.parametrize(
    "given, error",
    [
        ("", ValueError),
        ("Avg", ValueError),
        ("avg(1)", ValueError),
        ("quantile", ValueError),
        ("quantile(0.5, 0.5)", ValueError),
        ("quantile(half)", ValueError),
        ("avg()", ValueError),
        ("quantile(0.9,)", ValueError),
        (("quantile", "0.9"), TypeError),
        (("holt_winters", 0.5), ValueError),
        ((), TypeError),
        (45, TypeError),
        (None, TypeError),
    ],
)
def test_what_is_no_rollup_is_an_error(given, error):
    with pytest.raises(error, match="^rollup: expected "):
        Rollup.of(given)
