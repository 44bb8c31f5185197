//! The staleness mark, which Prometheus writes as the value of a series that went away.

use std::borrow::Cow;

use crate::Rollup;

/// The staleness mark. [`Rollup::Default`] and [`Rollup::StaleSamples`] see the marks of a series; for
/// all other rollups they are taken out with their times, before anything is settled.
///
/// It is one NaN among many, so it equals nothing, itself least of all: [`is_stale`] tells it by its
/// bits. Arithmetic may change them, and so may a move where that makes a signalling NaN a quiet one,
/// as the x87 unit does. A mark belongs in memory, or in a `u64` as its bits, until it is handed on.
///
/// ```
/// use harzoulin::{Rollup, STALE, Settings, Step, Workspace, is_stale};
///
/// let (timestamps, values) = ([0, 60_000, 120_000], [10.0, 12.0, STALE]);
/// let settings = Settings { start: 120_000, end: 120_000, step: 180_000, ..Settings::default() };
/// let mut workspace = Workspace::new();
/// let mut figure = |rollup| -> Result<f64, harzoulin::Refusal> {
///     Ok(workspace.run(&timestamps, &values, Step::None, rollup, &settings)?.values[0])
/// };
/// assert!(is_stale(figure(Rollup::Default)?));
/// assert_eq!(figure(Rollup::StaleSamples)?, 1.0);
/// assert_eq!(figure(Rollup::Max)?, 12.0);
/// # Ok::<(), harzoulin::Refusal>(())
/// ```
pub const STALE: f64 = f64::from_bits(BITS);

const BITS: u64 = 0x7ff0_0000_0000_0002;

/// Whether a value is the staleness mark, to the bit: with another sign, or with the bit that makes a
/// NaN quiet, it is a NaN as any other.
///
/// ```
/// assert!(harzoulin::is_stale(harzoulin::STALE));
/// assert!(harzoulin::STALE != harzoulin::STALE && !harzoulin::is_stale(f64::NAN));
/// ```
pub fn is_stale(value: f64) -> bool {
    value.to_bits() == BITS
}

/// The times of the readings that the figures of a rollup are made of: all of them, or those of the
/// readings that are no marks. They are what [`settle`](crate::settle) is handed, which sees no values.
/// There are as many values as times.
///
/// ```
/// use harzoulin::{Rollup, STALE, remaining};
///
/// let (timestamps, values) = ([0, 60_000, 120_000], [10.0, STALE, 2.0]);
/// assert_eq!(*remaining(&timestamps, &values, Rollup::Avg), [0, 120_000]);
/// assert_eq!(*remaining(&timestamps, &values, Rollup::Default), timestamps);
/// ```
pub fn remaining<'a>(timestamps: &'a [i64], values: &[f64], rollup: Rollup) -> Cow<'a, [i64]> {
    let count = remaining_count(values, rollup);
    if count == values.len() {
        return timestamps.into();
    }
    let readings = timestamps.iter().zip(values).filter(|(_, value)| !is_stale(**value));
    let mut times = Vec::with_capacity(count);
    times.extend(readings.map(|(time, _)| *time));
    times.into()
}

/// How many they are.
pub(crate) fn remaining_count(values: &[f64], rollup: Rollup) -> usize {
    match rollup.sees_marks() {
        true => values.len(),
        false => values.iter().filter(|value| !is_stale(**value)).count(),
    }
}
