//! Calls of the port. The build script says which of the exported functions the archive has; the
//! others are not called.

#![allow(unused, unreachable_code)]

#[path = "../../host/harzoulin/src/exported.rs"]
mod exported;

use crate::call::{Call, Case, Outcome};
use exported::*;
use original::exposed::Settings;

/// Whether the archive has the call.
pub fn has(call: Call) -> bool {
    match call {
        Call::Prepare => cfg!(port_prepare),
        Call::Settle => cfg!(port_settle),
        Call::Run => cfg!(port_run),
        Call::SettledRun => cfg!(port_settled_run),
        Call::Crossings => cfg!(port_crossings),
        Call::Nearest => cfg!(port_nearest),
        Call::Merge => cfg!(port_merge),
    }
}

/// The outcome of a call that the archive has.
pub fn outcome(call: Call, case: &Case) -> Outcome {
    let mut o = Outcome::before(case);
    let Case { timestamps, values, pre, limit, time, .. } = case;
    o.number = match call {
        Call::Prepare => prepare(timestamps, values, *pre, &mut o.prepared, &mut o.index),
        Call::Settle => settle(timestamps, &case.settings, &mut o),
        Call::Run => run(case, &mut o),
        Call::SettledRun => settled_run(case, &mut o),
        Call::Crossings => {
            let indexes = &mut o.indexes[..case.lent];
            crossings(timestamps, values, *limit, indexes, &mut o.count, &mut o.index)
        }
        Call::Nearest => nearest(timestamps, *time, &mut o.found, &mut o.nearest, &mut o.index),
        Call::Merge => {
            let times = &mut o.merged_timestamps[..case.lent_times];
            let values = &mut o.merged_values[..case.lent_values];
            merge(case.series(), times, values, &mut o.length, &mut o.index)
        }
    };
    o
}

pub fn prepare(
    timestamps: &[i64],
    values: &[u64],
    pre: u32,
    prepared: &mut [u64],
    index: &mut u64,
) -> u64 {
    let (times, values) = (Times::of(timestamps), Values::of(values));
    let prepared = Prepared::of(prepared);
    #[cfg(port_prepare)]
    return unsafe { ask!(harzoulin_prepare, [times, values], [pre], [prepared], [*index]) };
    panic!("the archive does not have harzoulin_prepare")
}

pub fn settle(timestamps: &[i64], s: &Settings, o: &mut Outcome) -> u64 {
    let times = Times::of(timestamps);
    #[cfg(port_settle)]
    return unsafe {
        ask!(
            harzoulin_settle,
            [times],
            [
                s.start,
                s.end,
                s.step,
                s.window,
                s.may_adjust_window,
                s.is_default_rollup,
                s.lookback_delta,
                s.min_staleness_interval,
                s.max_points_per_series,
                s.samples_scanned_per_call,
            ],
            [],
            [o.window, o.reach, o.points, o.index]
        )
    };
    panic!("the archive does not have harzoulin_settle")
}

pub fn run(case: &Case, o: &mut Outcome) -> u64 {
    let s = &case.settings;
    let (times, values) = (Times::of(&case.timestamps), Values::of(&case.values));
    let (output, prepared) = (Output::of(&mut o.dst_values), Prepared::of(&mut o.prepared));
    let (remaining, work) = (Remaining::of(&mut o.remaining), Work::of(&mut o.work));
    #[cfg(port_run)]
    return unsafe {
        ask!(
            harzoulin_run,
            [times, values],
            [
                case.pre,
                case.rollup,
                case.first,
                case.second,
                s.start,
                s.end,
                s.step,
                s.window,
                s.may_adjust_window,
                s.is_default_rollup,
                s.lookback_delta,
                s.min_staleness_interval,
                s.max_points_per_series,
                s.samples_scanned_per_call,
            ],
            [output, prepared, remaining, work],
            [o.count, o.index]
        )
    };
    panic!("the archive does not have harzoulin_run")
}

fn settled_run(case: &Case, o: &mut Outcome) -> u64 {
    let s = &case.settings;
    let (times, values) = (Times::of(&case.timestamps), Values::of(&case.values));
    let (output, prepared) = (Output::of(&mut o.dst_values), Prepared::of(&mut o.prepared));
    let (remaining, work) = (Remaining::of(&mut o.remaining), Work::of(&mut o.work));
    #[cfg(port_settled_run)]
    return unsafe {
        ask!(
            harzoulin_settled_run,
            [times, values],
            [
                case.pre,
                case.rollup,
                case.first,
                case.second,
                s.start,
                s.end,
                s.step,
                s.window,
                case.reach,
                s.samples_scanned_per_call,
            ],
            [output, prepared, remaining, work],
            [o.count, o.index]
        )
    };
    panic!("the archive does not have harzoulin_settled_run")
}

pub fn crossings(
    timestamps: &[i64],
    values: &[impl Pattern],
    limit: f64,
    indexes: &mut [u64],
    count: &mut u64,
    index: &mut u64,
) -> u64 {
    let (times, values) = (Times::of(timestamps), Values::of(values));
    let indexes = Indexes::of(indexes);
    #[cfg(port_crossings)]
    return unsafe {
        ask!(harzoulin_crossings, [times, values], [limit], [indexes], [*count, *index])
    };
    panic!("the archive does not have harzoulin_crossings")
}

pub fn nearest(
    timestamps: &[i64],
    time: i64,
    found: &mut u64,
    nearest: &mut u64,
    index: &mut u64,
) -> u64 {
    let times = Times::of(timestamps);
    #[cfg(port_nearest)]
    return unsafe { ask!(harzoulin_nearest, [times], [time], [], [*found, *nearest, *index]) };
    panic!("the archive does not have harzoulin_nearest")
}

pub fn merge(
    [first, second]: [(&[i64], &[impl Pattern]); 2],
    timestamps: &mut [i64],
    values: &mut [impl Pattern],
    length: &mut u64,
    index: &mut u64,
) -> u64 {
    let (first_times, first_values) = (Times::of(first.0), Values::of(first.1));
    let (second_times, second_values) = (SecondTimes::of(second.0), SecondValues::of(second.1));
    let (times, values) = (MergedTimes::of(timestamps), MergedValues::of(values));
    #[cfg(port_merge)]
    return unsafe {
        ask!(
            harzoulin_merge,
            [first_times, first_values, second_times, second_values],
            [],
            [times, values],
            [*length, *index]
        )
    };
    panic!("the archive does not have harzoulin_merge")
}
