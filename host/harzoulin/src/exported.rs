//! The exported functions, as include/harzoulin.h declares them. compare/ takes this file in as well.
//!
//! A slice crosses as a pointer and a length. What it is lent as is a part of the pointer's type, so
//! that two slices that are swapped do not compile, though in memory they are alike.

/// Lent as the times of a series.
pub enum Times {}
/// Lent as the values of a series.
pub enum Values {}
/// Lent as the output.
pub enum Output {}
/// Lent as the prepared slice.
pub enum Prepared {}
/// Lent for the remaining times.
pub enum Remaining {}
/// Lent as the work slice.
pub enum Work {}
/// Lent for the indexes of crossings.
pub enum Indexes {}
/// Lent as the times of the second series of a merge.
pub enum SecondTimes {}
/// Lent as the values of the second series of a merge.
pub enum SecondValues {}
/// Lent for the times of a merged series.
pub enum MergedTimes {}
/// Lent for the values of a merged series.
pub enum MergedValues {}

/// A slice as it crosses.
pub struct Slice<P> {
    pub pointer: P,
    pub length: usize,
}

/// What values are held as: an `f64`, or the `u64` that is its pattern.
pub trait Pattern {}
impl Pattern for f64 {}
impl Pattern for u64 {}

impl Times {
    pub fn of(slice: &[i64]) -> Slice<*const Times> {
        Slice { length: slice.len(), pointer: slice.as_ptr().cast() }
    }
}

impl Values {
    pub fn of(slice: &[impl Pattern]) -> Slice<*const Values> {
        Slice { length: slice.len(), pointer: slice.as_ptr().cast() }
    }
}

impl Output {
    pub fn of(slice: &mut [impl Pattern]) -> Slice<*mut Output> {
        Slice { length: slice.len(), pointer: slice.as_mut_ptr().cast() }
    }
}

impl Prepared {
    pub fn of(slice: &mut [impl Pattern]) -> Slice<*mut Prepared> {
        Slice { length: slice.len(), pointer: slice.as_mut_ptr().cast() }
    }
}

impl Remaining {
    pub fn of(slice: &mut [i64]) -> Slice<*mut Remaining> {
        Slice { length: slice.len(), pointer: slice.as_mut_ptr().cast() }
    }
}

impl Work {
    pub fn of(slice: &mut [impl Pattern]) -> Slice<*mut Work> {
        Slice { length: slice.len(), pointer: slice.as_mut_ptr().cast() }
    }
}

impl Indexes {
    pub fn of(slice: &mut [u64]) -> Slice<*mut Indexes> {
        Slice { length: slice.len(), pointer: slice.as_mut_ptr().cast() }
    }
}

impl SecondTimes {
    pub fn of(slice: &[i64]) -> Slice<*const SecondTimes> {
        Slice { length: slice.len(), pointer: slice.as_ptr().cast() }
    }
}

impl SecondValues {
    pub fn of(slice: &[impl Pattern]) -> Slice<*const SecondValues> {
        Slice { length: slice.len(), pointer: slice.as_ptr().cast() }
    }
}

impl MergedTimes {
    pub fn of(slice: &mut [i64]) -> Slice<*mut MergedTimes> {
        Slice { length: slice.len(), pointer: slice.as_mut_ptr().cast() }
    }
}

impl MergedValues {
    pub fn of(slice: &mut [impl Pattern]) -> Slice<*mut MergedValues> {
        Slice { length: slice.len(), pointer: slice.as_mut_ptr().cast() }
    }
}

// Safe to declare: tests/header.rs holds the parameters to the proved source and to the header.
unsafe extern "C" {
    pub fn harzoulin_prepare(
        timestamps: *const Times,
        timestamps_len: usize,
        values: *const Values,
        values_len: usize,
        pre: u32,
        prepared: *mut Prepared,
        prepared_len: usize,
        index: &mut u64,
    ) -> u64;

    pub fn harzoulin_settle(
        timestamps: *const Times,
        timestamps_len: usize,
        start: i64,
        end: i64,
        step: i64,
        window: i64,
        may_adjust_window: bool,
        is_default_rollup: bool,
        lookback_delta: i64,
        min_staleness_interval: i64,
        max_points_per_series: i64,
        samples_scanned_per_call: u64,
        settled_window: &mut i64,
        reach: &mut i64,
        points: &mut u64,
        index: &mut u64,
    ) -> u64;

    pub fn harzoulin_run(
        timestamps: *const Times,
        timestamps_len: usize,
        values: *const Values,
        values_len: usize,
        pre: u32,
        rollup: u32,
        first: f64,
        second: f64,
        start: i64,
        end: i64,
        step: i64,
        window: i64,
        may_adjust_window: bool,
        is_default_rollup: bool,
        lookback_delta: i64,
        min_staleness_interval: i64,
        max_points_per_series: i64,
        samples_scanned_per_call: u64,
        dst_values: *mut Output,
        dst_values_len: usize,
        prepared: *mut Prepared,
        prepared_len: usize,
        remaining: *mut Remaining,
        remaining_len: usize,
        work: *mut Work,
        work_len: usize,
        count: &mut u64,
        index: &mut u64,
    ) -> u64;

    pub fn harzoulin_settled_run(
        timestamps: *const Times,
        timestamps_len: usize,
        values: *const Values,
        values_len: usize,
        pre: u32,
        rollup: u32,
        first: f64,
        second: f64,
        start: i64,
        end: i64,
        step: i64,
        window: i64,
        reach: i64,
        samples_scanned_per_call: u64,
        dst_values: *mut Output,
        dst_values_len: usize,
        prepared: *mut Prepared,
        prepared_len: usize,
        remaining: *mut Remaining,
        remaining_len: usize,
        work: *mut Work,
        work_len: usize,
        count: &mut u64,
        index: &mut u64,
    ) -> u64;

    pub fn harzoulin_crossings(
        timestamps: *const Times,
        timestamps_len: usize,
        values: *const Values,
        values_len: usize,
        limit: f64,
        indexes: *mut Indexes,
        indexes_len: usize,
        count: &mut u64,
        index: &mut u64,
    ) -> u64;

    pub fn harzoulin_nearest(
        timestamps: *const Times,
        timestamps_len: usize,
        time: i64,
        found: &mut u64,
        nearest: &mut u64,
        index: &mut u64,
    ) -> u64;

    pub fn harzoulin_merge(
        first_timestamps: *const Times,
        first_timestamps_len: usize,
        first_values: *const Values,
        first_values_len: usize,
        second_timestamps: *const SecondTimes,
        second_timestamps_len: usize,
        second_values: *const SecondValues,
        second_values_len: usize,
        timestamps: *mut MergedTimes,
        timestamps_len: usize,
        values: *mut MergedValues,
        values_len: usize,
        length: &mut u64,
        index: &mut u64,
    ) -> u64;
}

/// Calls an exported function: each has the slices that it reads, then numbers, then the slices and
/// the single places that it writes.
macro_rules! ask {
    (
        $function:ident,
        [$($read:ident),*],
        [$($number:expr),* $(,)?],
        [$($written:ident),*],
        [$($place:expr),*]
    ) => {
        $function(
            $($read.pointer, $read.length,)*
            $($number,)*
            $($written.pointer, $written.length,)*
            $(&mut $place),*
        )
    };
}

pub(crate) use ask;
