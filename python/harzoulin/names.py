"""Preparing steps and rollups by their names, in the order of the numbers that the core knows them by."""

import re
from dataclasses import dataclass
from numbers import Real

STEPS = ("none", "resets", "delta", "deriv", "intervals", "resets_once")

ROLLUPS = (
    "avg", "min", "max", "mad", "median", "tmin", "tmax", "tfirst", "tlast", "tlast_change",
    "sum", "sum2", "rate_over_sum", "range", "absent", "present", "count", "stddev", "stdvar",
    "increase_pure", "lifetime", "lag", "scrape_interval", "changes", "changes_prometheus",
    "increases", "resets", "mode_over_time", "ascent_over_time", "descent_over_time",
    "zscore_over_time", "first", "default", "distinct", "deriv_slow", "deriv_fast", "ideriv",
    "delta", "delta_prometheus", "idelta", "open", "close", "high", "low", "integrate", "quantile",
    "predict_linear", "holt_winters", "until_next", "stale_samples",
)  # fmt: skip

# The parameters of the rollups that have some.
PARAMETERS = {
    "quantile": ("phi",),
    "predict_linear": ("seconds",),
    "holt_winters": ("smoothing", "trend"),
}

# The rollups that see staleness marks.
SEE_MARKS = ("default", "stale_samples")

_CALLED = re.compile(r"\s*(\w+)\s*(?:\((.+)\)\s*)?", re.ASCII)


def step_number(name):
    """The number of a preparing step."""
    if not isinstance(name, str):
        raise TypeError(f"pre: expected the name of a step, found {type(name).__name__}")
    if name not in STEPS:
        raise ValueError(f"pre: expected one of {', '.join(STEPS)}, found {name!r}")
    return STEPS.index(name)


@dataclass(frozen=True)
class Rollup:
    """A rollup with its parameters."""

    name: str
    parameters: tuple = ()

    def __post_init__(self):
        if self.name not in ROLLUPS:
            raise ValueError(f"rollup: expected the name of one, such as avg, found {self.name!r}")
        expected = PARAMETERS.get(self.name, ())
        if len(self.parameters) != len(expected):
            form = f"{self.name}({', '.join(expected)})" if expected else f"{self.name} without parameters"
            raise ValueError(f"rollup: expected {form}, found {len(self.parameters)} parameters")
        if not all(isinstance(parameter, Real) for parameter in self.parameters):
            raise TypeError(f"rollup: expected numbers as parameters, found {self.parameters}")
        object.__setattr__(self, "parameters", tuple(map(float, self.parameters)))

    @staticmethod
    def of(given):
        """From a name as `avg`, a text as `quantile(0.9)`, or a pair as `("quantile", 0.9)`."""
        if isinstance(given, Rollup):
            return given
        if isinstance(given, str):
            return Rollup(*_split(given))
        if isinstance(given, tuple) and given and isinstance(given[0], str):
            return Rollup(given[0], given[1:])
        raise TypeError(f"rollup: expected the name of one, found {type(given).__name__}")

    @property
    def choice(self):
        """The number by which the core knows it, and two parameters, 0 where there is none."""
        return ROLLUPS.index(self.name), *(*self.parameters, 0.0, 0.0)[:2]

    @property
    def sees_marks(self):
        """Whether it sees staleness marks. For all others they are taken out of the series before."""
        return self.name in SEE_MARKS

    def __str__(self):
        return f"{self.name}({', '.join(map(repr, self.parameters))})" if self.parameters else self.name


def _split(text):
    """The name and the parameters of a text."""
    found = _CALLED.fullmatch(text)
    if not found:
        raise ValueError(f"rollup: expected the name of one, such as avg, found {text!r}")
    name, inside = found.groups()
    try:
        return name, tuple(map(float, inside.split(","))) if inside else ()
    except ValueError:
        raise ValueError(f"rollup: expected numbers as parameters, found {text!r}") from None
