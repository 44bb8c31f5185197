//! Calls: accepted ones with slices of exact or greater length, and such calls spoiled so that one
//! row of docs/REFUSALS.md, or two, or the end of a range, comes into play.

use original::exposed::Settings;

use super::series::TIME_LIMIT;
use super::{crossings, equal_times, floats, marks, merge, nearest, series, settings, until_next};
use crate::call::{Call, Case, UNSET};
use crate::judge::{self, ROLLUPS, SEE_MARKS, STEPS};
use crate::rng::Rng;
use crate::rows;

pub(super) const MOST: i64 = rows::MOST as i64;

/// A call; the rollup is drawn where none is given.
pub fn case(rng: &mut Rng, call: Call, rollup: Option<u32>) -> Case {
    match call {
        Call::Crossings => crossings::case(rng),
        Call::Nearest => nearest::case(rng),
        Call::Merge => merge::case(rng),
        _ => of_the_rust(rng, call, rollup),
    }
}

/// A call that the Rust judges, but for the step and the rollup that it does not have.
fn of_the_rust(rng: &mut Rng, call: Call, rollup: Option<u32>) -> Case {
    let mut case = accepted(rng, call, rollup);
    spoils(rng, call, &mut case);
    // What is drawn for other rows stays as it is.
    match call {
        Call::Run | Call::SettledRun => marks::spoil(&mut rng.aside(), &mut case, rollup),
        _ => marks::refused(&mut rng.aside(), &mut case.values),
    }
    case
}

/// A run whose times rise, or one that is spoiled. It has no marks but where row 5 was to be broken.
pub fn rising_run(rng: &mut Rng) -> Case {
    let n = series::length(rng);
    let mut case = of_readings(rng, (false, n), Call::Run, None);
    spoils(rng, Call::Run, &mut case);
    case
}

/// A call that the Rust judges and that is accepted. Half of them have equal times. A run of until_next may go to the
/// limits, and any run may have marks.
pub fn accepted(rng: &mut Rng, call: Call, rollup: Option<u32>) -> Case {
    let readings = equal_times::half(rng);
    let mut case = of_readings(rng, readings, call, rollup);
    if rows::runs(call) {
        marks::in_run(&mut rng.aside(), call, &mut case, rollup);
    }
    case
}

/// Such a call, with equal times or times that rise, of so many readings.
fn of_readings(rng: &mut Rng, (equal, n): (bool, usize), call: Call, rollup: Option<u32>) -> Case {
    let step = rng.below(STEPS.len() as u64) as usize;
    let (timestamps, values) = series::for_step(rng, step, n);
    let most = rng.pick(&[1, 2, 3, 10, 40]);
    let settings = settings::settings(rng, &timestamps, most);
    let drawn = rng.below(ROLLUPS.len() as u64) as u32;
    let rollup = rollup.unwrap_or(drawn);
    // Row 19 would refuse another step.
    let no_step = rows::runs(call) && SEE_MARKS.contains(&(rollup as usize));
    let mut case = Case {
        timestamps,
        values: values.iter().map(|v| v.to_bits()).collect(),
        pre: if no_step { 0 } else { step as u32 },
        rollup,
        first: floats::parameter(rng),
        second: floats::parameter(rng),
        settings,
        ..Case::default()
    };
    let settled_run = call == Call::SettledRun;
    if rows::runs(call) && ROLLUPS[case.rollup as usize] == "until_next" {
        // What is drawn for the other rollups stays as it is.
        until_next::to_the_limits(&mut rng.aside(), &mut case);
    }
    if settled_run {
        settled(rng, &mut case);
    }
    if equal {
        let given = settled_run.then_some((case.settings.window, case.reach));
        equal_times::in_call(rng, &mut case, given);
    }
    let points = rows::points(&case) as usize;
    case.dst_values = slice(rng, points);
    case.prepared = slice(rng, n);
    case.remaining = slice(&mut rng.aside(), n).into_iter().map(|bits| bits as i64).collect();
    case.work = slice(rng, 2 * n);
    case
}

/// As many readings as are allowed, and one more, one case at a time: each takes hundreds of megabytes.
pub fn longest(call: Call) -> Box<dyn Iterator<Item = Case>> {
    match call {
        Call::Crossings => Box::new(crossings::longest()),
        Call::Nearest => Box::new(nearest::longest()),
        Call::Merge => Box::new(merge::longest()),
        _ => Box::new(longest_of_the_rust()),
    }
}

/// With no slice lent.
fn longest_of_the_rust() -> impl Iterator<Item = Case> {
    [MOST, MOST + 1].into_iter().map(|n| Case {
        timestamps: (0..n).collect(),
        values: vec![0; n as usize],
        pre: 1,
        rollup: 0,
        first: 0.5,
        second: 0.5,
        settings: Settings { step: 1, window: 1, ..Settings::default() },
        reach: 1,
        ..Case::default()
    })
}

/// The average of a series under settings, with slices one entry longer than is asked.
pub fn average((timestamps, values): &(Vec<i64>, Vec<f64>), settings: Settings) -> Case {
    let readings = timestamps.len();
    let mut case = Case {
        timestamps: timestamps.clone(),
        values: values.iter().map(|v| v.to_bits()).collect(),
        pre: 0,
        rollup: 0,
        first: 0.5,
        second: 0.5,
        settings,
        reach: 300_000,
        prepared: vec![UNSET; readings + 1],
        remaining: vec![UNSET as i64; readings + 1],
        work: vec![UNSET; 2 * readings + 1],
        ..Case::default()
    };
    case.dst_values = vec![UNSET; rows::points(&case) as usize + 1];
    case
}

/// The same, with the slices that the calls of crossings and merge fill besides: what any call may be handed.
pub fn for_any_call(series: &(Vec<i64>, Vec<f64>), settings: Settings) -> Case {
    let n = series.0.len();
    Case {
        limit: 1.5,
        indexes: vec![UNSET; n],
        lent: n,
        merged_timestamps: vec![UNSET as i64; n],
        merged_values: vec![UNSET; n],
        lent_times: n,
        lent_values: n,
        ..average(series, settings)
    }
}

/// The window and reach that a run would settle, or any others.
fn settled(rng: &mut Rng, case: &mut Case) {
    let (window, reach) = judge::settle(&case.settings, &case.timestamps);
    let any = [1, 2, 1000, 1 << 51, 1 << 52, rng.between(1, 1 << 52), rng.between(1, 100_000)];
    case.settings.window = if rng.once_in(3) { rng.pick(&any) } else { window };
    case.reach = if rng.once_in(3) { rng.pick(&any) } else { reach };
}

/// A slice filled with rubbish, of this length or a little longer.
pub fn slice(rng: &mut Rng, length: usize) -> Vec<u64> {
    let longer = rng.pick(&[0, 0, 1, 7]);
    (0..length + longer).map(|_| rng.bits()).collect()
}

/// Mostly nothing; once or twice a row is broken.
fn spoils(rng: &mut Rng, call: Call, case: &mut Case) {
    let spoils = rng.pick(&[0, 0, 0, 1, 1, 2]);
    for _ in 0..spoils {
        spoil(rng, call, case);
    }
}

/// Breaks a row, or goes to the end of a range that it still accepts. Rows that the call does not
/// read are broken too: it must not mind.
fn spoil(rng: &mut Rng, call: Call, case: &mut Case) {
    let n = case.timestamps.len() as u64;
    let place = rng.below(n.max(1)) as usize;
    let s = &mut case.settings;
    match rng.below(15) {
        1 if rng.once_in(2) => case.values.push(0),
        1 => case.values.truncate(place),
        3 if n > 0 => case.timestamps[place] = outside(rng, -TIME_LIMIT, TIME_LIMIT),
        4 if place > 0 => case.timestamps[place] = not_above(rng, case.timestamps[place - 1]),
        5 if n > 0 && place < case.values.len() => case.values[place] = not_finite(rng),
        6 => s.step = outside(rng, 1, TIME_LIMIT),
        7 => bounds(rng, s),
        8 if call == Call::SettledRun && rng.once_in(2) => case.reach = outside(rng, 1, 1 << 52),
        8 if call == Call::SettledRun => s.window = outside(rng, 1, 1 << 52),
        8 => s.window = outside(rng, 0, TIME_LIMIT),
        9 => limits(rng, s),
        10 if s.step > 0 => {
            let scanned = s.end.saturating_sub(s.start) / s.step.saturating_add(1);
            s.max_points_per_series = scanned - rng.between(0, 1);
        }
        11 => (s.start, s.end, s.step) = (-1, rng.pick(&[MOST - 2, MOST - 1, TIME_LIMIT]), 1),
        12 => case.dst_values.truncate(case.dst_values.len().saturating_sub(1)),
        13 => case.prepared.truncate(n.saturating_sub(1) as usize),
        14 => case.work.truncate((2 * n).saturating_sub(1) as usize),
        0 if rng.once_in(2) => case.pre = rng.pick(&[6, 7, u32::MAX]),
        0 => case.rollup = rng.pick(&[50, 51, u32::MAX]),
        _ => {}
    }
}

/// The place of a reading, 0 where there is none.
pub(super) fn place(rng: &mut Rng, timestamps: &[i64]) -> usize {
    rng.below(timestamps.len().max(1) as u64) as usize
}

/// Breaks row 1, 3, 4 or 5 of a series, by a number from 0 to 3, or goes to the end of a range that is
/// still accepted. A value too many is this one.
pub(super) fn spoil_series(
    rng: &mut Rng,
    row: u64,
    place: usize,
    (timestamps, values): (&mut Vec<i64>, &mut Vec<u64>),
    more: u64,
) {
    match row {
        0 => match rng.below(3) {
            0 => values.push(more),
            1 => values.truncate(place),
            _ => timestamps.truncate(place),
        },
        1 if !timestamps.is_empty() => timestamps[place] = outside(rng, -TIME_LIMIT, TIME_LIMIT),
        2 if place > 0 => timestamps[place] = not_above(rng, timestamps[place - 1]),
        3 if place < values.len() => values[place] = not_finite(rng),
        _ => {}
    }
}

/// An end of the range, the number beyond it, or one far outside.
pub(super) fn outside(rng: &mut Rng, low: i64, high: i64) -> i64 {
    rng.pick(&[low, high, low - 1, low - 1, high + 1, high + 1, i64::MIN, i64::MAX])
}

/// As late as this time, which merge alone refuses, or earlier.
pub(super) fn not_above(rng: &mut Rng, time: i64) -> i64 {
    time.saturating_sub(rng.pick(&[0, 0, 1, 1000]))
}

/// An infinity or a NaN.
pub(super) fn not_finite(rng: &mut Rng) -> u64 {
    let infinities = [f64::INFINITY.to_bits(), f64::NEG_INFINITY.to_bits()];
    rng.pick(&[&floats::NANS[..], &infinities].concat())
}

fn bounds(rng: &mut Rng, s: &mut Settings) {
    match rng.below(4) {
        0 => s.start = outside(rng, -TIME_LIMIT, TIME_LIMIT),
        1 => s.end = outside(rng, -TIME_LIMIT, TIME_LIMIT),
        2 => s.start = s.end.saturating_add(1),
        _ => s.end = s.start,
    }
}

fn limits(rng: &mut Rng, s: &mut Settings) {
    match rng.below(4) {
        0 => s.lookback_delta = outside(rng, 0, TIME_LIMIT),
        1 => s.min_staleness_interval = outside(rng, 0, TIME_LIMIT),
        2 => s.max_points_per_series = outside(rng, 0, TIME_LIMIT),
        _ => s.samples_scanned_per_call = rng.pick(&[65_535, 65_536, u64::MAX]),
    }
}
