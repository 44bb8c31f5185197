//! Staleness marks in generated calls. Two in five of the runs have some: the first reading, the last, one or several
//! anywhere, every tenth, all; among readings with one time; at an output time and where its window and its reach
//! begin. A fifth of these runs, and those that draw one anyway, ask a rollup that sees marks. Beside marks stand
//! patterns that are none. Some runs have slices with room for the remaining readings alone, or a step that row 19
//! refuses. The calls that refuse marks get some, too.

use super::series::TIME_LIMIT;
use crate::call::{Call, Case};
use crate::judge::{self, SEE_MARKS, STEPS};
use crate::model::MARK;
use crate::oracle;
use crate::rng::Rng;

/// What is refused beside marks: the mark with the quiet bit, with the other sign, with both; the patterns beside
/// it; the NaN that answers have, with either sign; infinities.
pub const LIKE_MARKS: [u64; 9] = [
    0x7ff8000000000002,
    0xfff0000000000002,
    0xfff8000000000002,
    0x7ff0000000000001,
    0x7ff0000000000003,
    0x7ff8000000000000,
    0xfff8000000000000,
    f64::INFINITY.to_bits(),
    f64::NEG_INFINITY.to_bits(),
];

/// Marks in an accepted run, which stays one. Unless a rollup is given, some runs come to ask one that sees them.
pub fn in_run(rng: &mut Rng, call: Call, case: &mut Case, given: Option<u32>) {
    if case.values.is_empty() || rng.below(5) > 1 {
        return;
    }
    if given.is_none() && rng.once_in(5) {
        (case.rollup, case.pre) = (rng.pick(&SEE_MARKS) as u32, 0);
    }
    put(rng, call, case);
}

/// Marks in the series of a run, which has readings.
pub fn put(rng: &mut Rng, call: Call, case: &mut Case) {
    for _ in 0..rng.pick(&[1, 1, 1, 2, 3]) {
        match rng.below(4) {
            0 => at_an_edge(rng, call, case),
            1 => at_one_time(rng, case),
            _ => anywhere(rng, &mut case.values),
        }
    }
}

/// Marks by places alone.
pub fn anywhere(rng: &mut Rng, values: &mut [u64]) {
    let n = values.len();
    let any = rng.below(n as u64) as usize;
    match rng.below(12) {
        0 => values[0] = MARK,
        1 => values[n - 1] = MARK,
        2 => values[any] = MARK,
        3 => values.fill(MARK),
        4 => values[..=any].fill(MARK),
        5 => values[any..].fill(MARK),
        6 | 7 => {
            let last = rng.between(any as i64, n as i64 - 1) as usize;
            values[any..=last].fill(MARK)
        }
        8 => values.iter_mut().skip(any % 10).step_by(10).for_each(|value| *value = MARK),
        9 => values.iter_mut().skip(any % 2).step_by(2).for_each(|value| *value = MARK),
        10 => {
            values.fill(MARK);
            values[any] = 1f64.to_bits();
        }
        _ => values.iter_mut().filter(|_| rng.once_in(3)).for_each(|value| *value = MARK),
    }
}

/// Marks among readings with one time, where some have one: the first of them, the last, all, all but one of these, or
/// any.
fn at_one_time(rng: &mut Rng, case: &mut Case) {
    let Case { timestamps, values, .. } = case;
    let repeats = |pair: &&[i64]| pair[0] == pair[1];
    let shared: Vec<i64> = timestamps.windows(2).filter(repeats).map(|pair| pair[0]).collect();
    if shared.is_empty() {
        return anywhere(rng, values);
    }
    let time = rng.pick(&shared);
    let from = timestamps.partition_point(|other| *other < time);
    let together = timestamps.iter().filter(|other| **other == time).count();
    let values = &mut values[from..from + together];
    match rng.below(6) {
        0 => values[0] = MARK,
        1 => values[together - 1] = MARK,
        2 => values.fill(MARK),
        3 => values[1..].fill(MARK),
        4 => values[..together - 1].fill(MARK),
        _ => anywhere(rng, values),
    }
}

/// A mark at an output time, where its window begins or where its reach begins, or a millisecond after one of these.
/// The first reading that is as late moves there, or the last one, so that the times still do not fall.
fn at_an_edge(rng: &mut Rng, call: Call, case: &mut Case) {
    let (window, reach) = match call {
        Call::SettledRun => (case.settings.window, case.reach),
        _ => judge::settle(&case.settings, &oracle::readings(case).0),
    };
    let s = &case.settings;
    let last = (s.end - s.start) / s.step;
    let any = rng.between(0, last);
    let output = s.start + s.step * rng.pick(&[0, last, any]);
    let edge = rng.pick(&[output, output - window, output - window - reach]);
    let edge = (edge + rng.pick(&[0, 0, 0, 1])).clamp(-TIME_LIMIT, TIME_LIMIT);
    let before = case.timestamps.iter().filter(|time| **time < edge).count();
    let place = before.min(case.timestamps.len() - 1);
    (case.timestamps[place], case.values[place]) = (edge, MARK);
}

/// Now and then a run gets patterns that are no marks, or offends one of the rows 12, 13, 14 and 19, or two of them.
/// The rollup stays where it is given.
pub fn spoil(rng: &mut Rng, case: &mut Case, given: Option<u32>) {
    match rng.below(16) {
        0 => (0..rng.pick(&[1, 1, 2])).for_each(|_| put_one(rng, &mut case.values, &LIKE_MARKS)),
        1 | 2 => (0..rng.pick(&[1, 2])).for_each(|_| offend(rng, case, given)),
        _ => {}
    }
}

/// Now and then a series of a call that refuses marks gets some.
pub fn refused(rng: &mut Rng, values: &mut [u64]) {
    if rng.once_in(32) {
        (0..rng.pick(&[1, 1, 3])).for_each(|_| put_one(rng, values, &[MARK]));
    }
}

fn put_one(rng: &mut Rng, values: &mut [u64], of: &[u64]) {
    if !values.is_empty() {
        let place = rng.below(values.len() as u64) as usize;
        values[place] = rng.pick(of);
    }
}

/// Offends row 12, row 13 by either slice, row 14 or row 19.
fn offend(rng: &mut Rng, case: &mut Case, given: Option<u32>) {
    let n = case.timestamps.len();
    let left = oracle::readings(case).0.len().min(n);
    // One entry too few, or room for the remaining readings.
    let room = rng.pick(&[n.saturating_sub(1), left]);
    match rng.below(5) {
        0 => case.dst_values.truncate(case.dst_values.len().saturating_sub(1)),
        1 => case.prepared.truncate(room),
        2 => case.remaining.truncate(room),
        3 => case.work.truncate(rng.pick(&[(2 * n).saturating_sub(1), 2 * left])),
        _ => {
            let rollup = given.unwrap_or(rng.pick(&SEE_MARKS) as u32);
            if SEE_MARKS.contains(&(rollup as usize)) {
                let pre = rng.between(1, STEPS.len() as i64 - 1) as u32;
                (case.rollup, case.pre) = (rollup, pre);
            }
        }
    }
}
