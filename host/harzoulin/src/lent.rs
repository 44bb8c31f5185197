//! The calls as the core has them, on slices that the caller lends. Here, and nowhere else, the
//! exported functions are called, by `unsafe`.
//!
//! What those functions ask of a caller is that each slice is a pointer to that many entries, that
//! what a call writes overlaps nothing else of it, and that each single place to be written can be. A
//! `&` or `&mut` slice and a `&mut` to a local variable are all of this. An `f64` has the size and
//! the alignment of the `u64` that is its pattern, and every pattern is an `f64`.

use crate::exported::*;
use crate::{Refusal, Rollup, Settings, Settled, SettledSettings, Step};

/// The slices that a run is lent. On success the first entries of `output` are the figures, those of
/// `remaining` the times of the readings that the figures are made of, as many of `prepared` their
/// prepared values, and twice as many of `work` are 0.0. What lies past them is as it was.
#[derive(Debug)]
pub struct Slices<'a> {
    /// At least one entry for each output time.
    pub output: &'a mut [f64],
    /// At least one entry for each reading, marks too.
    pub prepared: &'a mut [f64],
    /// At least one entry for each reading, marks too.
    pub remaining: &'a mut [i64],
    /// At least two entries for each reading, marks too.
    pub work: &'a mut [f64],
}

type Crossing = (Slice<*mut Output>, Slice<*mut Prepared>, Slice<*mut Remaining>, Slice<*mut Work>);

impl Slices<'_> {
    fn crossing(&mut self) -> Crossing {
        (
            Output::of(self.output),
            Prepared::of(self.prepared),
            Remaining::of(self.remaining),
            Work::of(self.work),
        )
    }
}

/// The window, the reach and the number of output times of a run on these times. It sees no values:
/// where some are marks, it is handed the [`remaining`](crate::remaining) times.
pub fn settle(timestamps: &[i64], settings: &Settings) -> Result<Settled, Refusal> {
    let s = settings;
    let (mut window, mut reach, mut points, mut index) = (0, 0, 0, 0);
    let times = Times::of(timestamps);
    // Safe: the one slice is only read, and the places are variables.
    let number = unsafe {
        ask!(
            harzoulin_settle,
            [times],
            [
                s.start,
                s.end,
                s.step,
                s.window,
                s.may_adjust_window,
                s.is_default_rollup,
                s.lookback_delta,
                s.min_staleness_interval,
                s.max_points_per_series,
                s.samples_scanned_per_call,
            ],
            [],
            [window, reach, points, index]
        )
    };
    accepted(number, index)?;
    Ok(Settled { window, reach, points: points as usize })
}

/// Writes the values after a preparing step to the first entries of `prepared`. A mark is refused, as
/// any NaN.
pub fn prepare(
    timestamps: &[i64],
    values: &[f64],
    pre: Step,
    prepared: &mut [f64],
) -> Result<(), Refusal> {
    let mut index = 0;
    let (times, values) = (Times::of(timestamps), Values::of(values));
    let prepared = Prepared::of(prepared);
    // Safe: `prepared` is borrowed for writing, so it overlaps neither of the others.
    let number =
        unsafe { ask!(harzoulin_prepare, [times, values], [pre as u32], [prepared], [index]) };
    accepted(number, index)
}

/// Writes one figure for each output time and gives the count. Values may be [`STALE`](crate::STALE).
pub fn run(
    timestamps: &[i64],
    values: &[f64],
    pre: Step,
    rollup: Rollup,
    settings: &Settings,
    slices: &mut Slices,
) -> Result<u64, Refusal> {
    let (s, (first, second)) = (settings, rollup.parameters());
    let (mut count, mut index) = (0, 0);
    let (times, values) = (Times::of(timestamps), Values::of(values));
    let (output, prepared, remaining, work) = slices.crossing();
    // Safe: the lent slices are borrowed for writing, so none overlaps another of the call.
    let number = unsafe {
        ask!(
            harzoulin_run,
            [times, values],
            [
                pre as u32,
                rollup.number(),
                first,
                second,
                s.start,
                s.end,
                s.step,
                s.window,
                s.may_adjust_window,
                s.is_default_rollup,
                s.lookback_delta,
                s.min_staleness_interval,
                s.max_points_per_series,
                s.samples_scanned_per_call,
            ],
            [output, prepared, remaining, work],
            [count, index]
        )
    };
    accepted(number, index).map(|()| count)
}

/// As [`run`], with window and reach given, settled on the times that the rollup sees.
pub fn settled_run(
    timestamps: &[i64],
    values: &[f64],
    pre: Step,
    rollup: Rollup,
    settings: &SettledSettings,
    slices: &mut Slices,
) -> Result<u64, Refusal> {
    let (s, (first, second)) = (settings, rollup.parameters());
    let (mut count, mut index) = (0, 0);
    let (times, values) = (Times::of(timestamps), Values::of(values));
    let (output, prepared, remaining, work) = slices.crossing();
    // Safe: as for `run`.
    let number = unsafe {
        ask!(
            harzoulin_settled_run,
            [times, values],
            [
                pre as u32,
                rollup.number(),
                first,
                second,
                s.start,
                s.end,
                s.step,
                s.window,
                s.reach,
                s.samples_scanned_per_call,
            ],
            [output, prepared, remaining, work],
            [count, index]
        )
    };
    accepted(number, index).map(|()| count)
}

/// Writes the index of each reading that lies on the other side of a limit from the one before it to
/// the first entries of `indexes`, in order, and gives how many there are. Below is less than the
/// limit, above is all else. A mark is refused, as any NaN.
pub fn crossings(
    timestamps: &[i64],
    values: &[f64],
    limit: f64,
    indexes: &mut [u64],
) -> Result<usize, Refusal> {
    let (mut count, mut index) = (0, 0);
    let (times, values) = (Times::of(timestamps), Values::of(values));
    let indexes = Indexes::of(indexes);
    // Safe: `indexes` is borrowed for writing, so it overlaps neither of the others.
    let number =
        unsafe { ask!(harzoulin_crossings, [times, values], [limit], [indexes], [count, index]) };
    accepted(number, index).map(|()| count as usize)
}

/// The index of the reading that is nearest to a time, the lower one of two that are as near; none
/// only for a series without readings.
///
/// [`Refusal::Time`] with index 0 is of the time that is asked for, unless the first reading's own
/// lies outside.
///
/// ```
/// assert_eq!(harzoulin::nearest(&[0, 60_000, 120_000], 90_000), Ok(Some(1)));
/// assert_eq!(harzoulin::nearest(&[], 90_000), Ok(None));
/// ```
pub fn nearest(timestamps: &[i64], time: i64) -> Result<Option<usize>, Refusal> {
    let (mut found, mut nearest, mut index) = (0, 0, 0);
    let times = Times::of(timestamps);
    // Safe: the one slice is only read, and the places are variables.
    let number = unsafe { ask!(harzoulin_nearest, [times], [time], [], [found, nearest, index]) };
    accepted(number, index).map(|()| (found == 1).then_some(nearest as usize))
}

/// Writes the readings that are in at least one of two series, those in both once, to the first
/// entries of `timestamps` and `values`, by their times, and gives how many there are. A mark is
/// refused, as any NaN.
///
/// The first series is looked at before the second, and both before the result: a refusal of 1 to 5
/// is of the first if that, merged with an empty one, is refused so, too.
pub fn merge(
    first_timestamps: &[i64],
    first_values: &[f64],
    second_timestamps: &[i64],
    second_values: &[f64],
    timestamps: &mut [i64],
    values: &mut [f64],
) -> Result<usize, Refusal> {
    let (mut length, mut index) = (0, 0);
    let (first, first_values) = (Times::of(first_timestamps), Values::of(first_values));
    let (second, second_values) =
        (SecondTimes::of(second_timestamps), SecondValues::of(second_values));
    let (times, values) = (MergedTimes::of(timestamps), MergedValues::of(values));
    // Safe: the result's slices are borrowed for writing, so neither overlaps another of the call.
    let number = unsafe {
        ask!(
            harzoulin_merge,
            [first, first_values, second, second_values],
            [],
            [times, values],
            [length, index]
        )
    };
    of_merge(number, index).map(|()| length as usize)
}

/// Nothing for number 0, else the refusal.
fn accepted(number: u64, index: u64) -> Result<(), Refusal> {
    answered(number, Refusal::of(number, index))
}

/// The same of merge.
fn of_merge(number: u64, index: u64) -> Result<(), Refusal> {
    answered(number, Refusal::of_merge(number, index))
}

fn answered(number: u64, refusal: Option<Refusal>) -> Result<(), Refusal> {
    match number {
        0 => Ok(()),
        _ => Err(refusal.expect("the core refuses by the numbers of its table")),
    }
}
