"""Why a call was turned away."""

# The rows of docs/REFUSALS.md.
SENTENCES = {
    1: "times and values differ in length",
    2: "the series has over 16,777,216 readings",
    3: "the time lies outside ±2^50 milliseconds",
    4: "the time is below the one before",
    5: "the value is NaN or infinite",
    6: "the step lies outside 1 to 2^50 milliseconds",
    7: "start or end lies outside ±2^50 milliseconds, or start is after end",
    8: "the window lies outside 0 to 2^50 milliseconds, or, in a settled run, it or the reach outside"
    " 1 to 2^52",
    9: "lookback delta, staleness interval or point limit lies outside 0 to 2^50, or the per-call"
    " number is over 65,535",
    10: "the grid has more output times than the point limit allows",
    11: "the grid has over 16,777,216 output times",
    12: "the output is shorter than the grid",
    13: "the prepared slice, or in a run that for the remaining times, is shorter than the series",
    14: "the work slice is under twice the series",
    15: "the limit of the crossings is NaN or infinite",
    16: "the index slice is shorter than the number of crossings",
    17: "a time has values of different bits in the two series",
    18: "a result slice is shorter than the merged series",
    19: "default or stale_samples is asked for with a preparing step other than none",
    28: "the number names no step or rollup",
}
_NOT_RISING = "the time is not above the one before"


class Refused(Exception):
    """The core turned a call away: nothing was written.

    `number` is that of the row of the table of refusals, `index` the first offending reading, counted
    from 0, for 3 to 5 and 0 for all others, `sentence` what the row says.
    """

    def __init__(self, number, index=0, sentence=None):
        self.number, self.index = number, index
        self.sentence = sentence or SENTENCES[number]
        super().__init__(number, index, self.sentence)

    def __str__(self):
        place = f" at reading {self.index}" if self.number in (3, 4, 5) else ""
        return f"refusal {self.number}{place}: {self.sentence}"


def accepted(number, index):
    """Raises the refusal of a number that is not 0."""
    if number:
        raise Refused(number, index)


def accepted_merge(number, index):
    """The same of merge, whose row 4 asks for times that rise strictly."""
    if number:
        raise Refused(number, index, _NOT_RISING if number == 4 else None)
