//! Why a call was turned away.

use std::error::Error;
use std::fmt;

/// A refusal: the rows of the table of refusals, with the index of the first offending reading
/// where there is one, in its own series. A refused call has written nothing.
#[derive(Clone, Copy, Debug, PartialEq, Eq)]
pub enum Refusal {
    /// 1: times and values differ in length.
    Lengths,
    /// 2: more readings than [`MOST`](crate::MOST), in a series or in a merged one.
    Readings,
    /// 3: a time outside ±2^50. Of [`nearest`](crate::nearest) index 0 may also stand for the time
    /// that is asked for.
    Time(usize),
    /// 4: a time below the one before.
    Order(usize),
    /// 4, of a merge: a time not above the one before.
    NotRising(usize),
    /// 5: a value NaN or infinite. A run takes [`STALE`](crate::STALE), which all other calls refuse.
    Value(usize),
    /// 6: the step of the grid outside 1 to 2^50.
    Step,
    /// 7: start or end outside ±2^50, or start after end.
    Span,
    /// 8: the window outside 0 to 2^50; in a settled run, window or reach outside 1 to 2^52.
    Window,
    /// 9: a limit outside 0 to 2^50, or the per-call number over 65,535.
    Limits,
    /// 10: more output times than the point limit allows.
    Points,
    /// 11: more output times than [`MOST`](crate::MOST).
    Grid,
    /// 12: the output shorter than the grid.
    Output,
    /// 13: the prepared slice shorter than the series; in a run, that or the one for the remaining
    /// times.
    Prepared,
    /// 14: the work slice under twice the series.
    Work,
    /// 15: the limit of crossings NaN or infinite.
    CrossingLimit,
    /// 16: the index slice shorter than the number of crossings.
    Indexes,
    /// 17: a time with values of different bits in the two series of a merge.
    Conflict,
    /// 18: a result slice shorter than the merged series.
    Merged,
    /// 19: [`Rollup::Default`](crate::Rollup::Default) or
    /// [`Rollup::StaleSamples`](crate::Rollup::StaleSamples) with a preparing step other than none.
    StepOfMarks,
    /// 28: a number that names no step or rollup.
    Choice,
}

impl Refusal {
    /// The refusal of a number and an index that an exported function other than merge gave, if there
    /// is one.
    pub fn of(number: u64, index: u64) -> Option<Refusal> {
        let index = index as usize;
        Some(match number {
            1 => Refusal::Lengths,
            2 => Refusal::Readings,
            3 => Refusal::Time(index),
            4 => Refusal::Order(index),
            5 => Refusal::Value(index),
            6 => Refusal::Step,
            7 => Refusal::Span,
            8 => Refusal::Window,
            9 => Refusal::Limits,
            10 => Refusal::Points,
            11 => Refusal::Grid,
            12 => Refusal::Output,
            13 => Refusal::Prepared,
            14 => Refusal::Work,
            15 => Refusal::CrossingLimit,
            16 => Refusal::Indexes,
            17 => Refusal::Conflict,
            18 => Refusal::Merged,
            19 => Refusal::StepOfMarks,
            28 => Refusal::Choice,
            _ => return None,
        })
    }

    /// The same of merge, whose row 4 wants times that rise strictly.
    pub fn of_merge(number: u64, index: u64) -> Option<Refusal> {
        match number {
            4 => Some(Refusal::NotRising(index as usize)),
            _ => Refusal::of(number, index),
        }
    }

    /// Its number in the table.
    pub fn number(self) -> u32 {
        match self {
            Refusal::Lengths => 1,
            Refusal::Readings => 2,
            Refusal::Time(_) => 3,
            Refusal::Order(_) | Refusal::NotRising(_) => 4,
            Refusal::Value(_) => 5,
            Refusal::Step => 6,
            Refusal::Span => 7,
            Refusal::Window => 8,
            Refusal::Limits => 9,
            Refusal::Points => 10,
            Refusal::Grid => 11,
            Refusal::Output => 12,
            Refusal::Prepared => 13,
            Refusal::Work => 14,
            Refusal::CrossingLimit => 15,
            Refusal::Indexes => 16,
            Refusal::Conflict => 17,
            Refusal::Merged => 18,
            Refusal::StepOfMarks => 19,
            Refusal::Choice => 28,
        }
    }

    /// The first offending reading for 3 to 5, else 0.
    pub fn index(self) -> usize {
        self.reading().unwrap_or(0)
    }

    /// The first offending reading, if the refusal is of one.
    pub fn reading(self) -> Option<usize> {
        match self {
            Refusal::Time(index)
            | Refusal::Order(index)
            | Refusal::NotRising(index)
            | Refusal::Value(index) => Some(index),
            _ => None,
        }
    }

    /// What the row says.
    pub fn sentence(self) -> &'static str {
        match self {
            Refusal::Lengths => "times and values differ in length",
            Refusal::Readings => "the series has over 16,777,216 readings",
            Refusal::Time(_) => "the time lies outside ±2^50 milliseconds",
            Refusal::Order(_) => "the time is below the one before",
            Refusal::NotRising(_) => "the time is not above the one before",
            Refusal::Value(_) => "the value is NaN or infinite",
            Refusal::Step => "the step lies outside 1 to 2^50 milliseconds",
            Refusal::Span => "start or end lies outside ±2^50 milliseconds, or start is after end",
            Refusal::Window => {
                "the window lies outside 0 to 2^50 milliseconds, or, in a settled run, it or the \
                 reach outside 1 to 2^52"
            }
            Refusal::Limits => {
                "lookback delta, staleness interval or point limit lies outside 0 to 2^50, \
                 or the per-call number is over 65,535"
            }
            Refusal::Points => "the grid has more output times than the point limit allows",
            Refusal::Grid => "the grid has over 16,777,216 output times",
            Refusal::Output => "the output is shorter than the grid",
            Refusal::Prepared => {
                "the prepared slice, or in a run that for the remaining times, is shorter than the \
                 series"
            }
            Refusal::Work => "the work slice is under twice the series",
            Refusal::CrossingLimit => "the limit of the crossings is NaN or infinite",
            Refusal::Indexes => "the index slice is shorter than the number of crossings",
            Refusal::Conflict => "a time has values of different bits in the two series",
            Refusal::Merged => "a result slice is shorter than the merged series",
            Refusal::StepOfMarks => {
                "default or stale_samples is asked for with a preparing step other than none"
            }
            Refusal::Choice => "the number names no step or rollup",
        }
    }
}

impl fmt::Display for Refusal {
    fn fmt(&self, f: &mut fmt::Formatter) -> fmt::Result {
        write!(f, "refusal {}", self.number())?;
        if let Some(index) = self.reading() {
            write!(f, " at reading {index}")?;
        }
        write!(f, ": {}", self.sentence())
    }
}

impl Error for Refusal {}
