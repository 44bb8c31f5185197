//! Calls of crossings: limits at the values and beside them, series that go to and fro over the limit, half of them
//! with equal times, index slices of every length that matters, and rows that are offended by one, two and three.

use super::cases::{not_finite, place, spoil_series, MOST};
use super::{equal_times, floats, marks};
use crate::call::{Case, UNSET};
use crate::model;
use crate::rng::Rng;

pub fn case(rng: &mut Rng) -> Case {
    let timestamps = equal_times::times(rng);
    let n = timestamps.len();
    let values = floats::run(rng, n);
    let limit = limit(rng, &values);
    let values = if rng.once_in(3) { around(rng, limit, n) } else { values };
    let values = values.iter().map(|v| v.to_bits()).collect();
    let mut case = Case { timestamps, values, limit, ..Case::default() };
    for _ in 0..rng.pick(&[0, 0, 0, 1, 1, 2, 2, 3]) {
        spoil(rng, &mut case);
    }
    marks::refused(&mut rng.aside(), &mut case.values);
    lend(rng, &mut case);
    case
}

/// A value of the series, the number just above or below one, a number between two, a corner of the
/// format, a small integer, or any.
fn limit(rng: &mut Rng, values: &[f64]) -> f64 {
    const CORNERS: [f64; 8] =
        [0.0, -0.0, 5e-324, -5e-324, f64::MIN_POSITIVE, -f64::MIN_POSITIVE, f64::MAX, f64::MIN];
    let mut value = || if values.is_empty() { 0.0 } else { rng.pick(values) };
    let (one, other) = (value(), value());
    match rng.below(8) {
        0 | 1 => one,
        2 => one.next_up(),
        3 => one.next_down(),
        4 => one / 2.0 + other / 2.0,
        5 => rng.pick(&CORNERS),
        6 => rng.between(-3, 3) as f64,
        _ => floats::finite(rng),
    }
}

/// Finite values at the limit and just beside it, and zeros of both signs, each kept for a while.
fn around(rng: &mut Rng, limit: f64, n: usize) -> Vec<f64> {
    let near = [limit, limit, limit.next_up(), limit.next_down(), -limit, 0.0, -0.0]
        .map(|value| value.clamp(f64::MIN, f64::MAX));
    let change_in = rng.pick(&[1, 3, 20]);
    let mut value = limit.clamp(f64::MIN, f64::MAX);
    let mut next = || {
        value = if rng.once_in(change_in) { rng.pick(&near) } else { value };
        value
    };
    (0..n).map(|_| next()).collect()
}

/// Breaks one of the rows 1, 3, 4, 5 and 15, or goes to the end of a range that is still accepted.
fn spoil(rng: &mut Rng, case: &mut Case) {
    let place = place(rng, &case.timestamps);
    let limit = case.limit.to_bits();
    match rng.below(5) {
        4 => case.limit = f64::from_bits(not_finite(rng)),
        row => {
            let [series, _] = case.series_mut();
            spoil_series(rng, row, place, series, limit)
        }
    }
}

/// An index slice of just the right length, longer, one short or shorter, down to none, before a few
/// words that are not lent; all filled with rubbish. A limit that is not finite has no crossings among
/// finite values, so that rows 15 and 16 are offended together only where 5 is as well.
fn lend(rng: &mut Rng, case: &mut Case) {
    let count = model::count(&case.values, case.limit) as usize;
    case.lent = match rng.below(12) {
        0 | 1 => count.saturating_sub(1),
        2 => rng.below(count as u64 + 1) as usize,
        3 => 0,
        4 | 5 => count + 1,
        6 => count + 7,
        7 => case.values.len() + 1,
        _ => count,
    };
    case.indexes = (0..case.lent + 3).map(|_| rng.bits()).collect();
}

/// As many readings as are allowed, with as many crossings as they can have, and one more reading: with
/// room for all indexes and without, with times or values too many, and with other rows offended.
pub fn longest() -> impl Iterator<Item = Case> {
    let edits: [fn(&mut Case); 8] = [
        |_| {},
        |c| c.lent -= 1,
        |c| c.timestamps.push(MOST),
        |c| c.values.push(0),
        one_more,
        |c| {
            one_more(c);
            c.lent = 0;
        },
        |c| {
            one_more(c);
            c.limit = f64::NAN;
        },
        |c| {
            one_more(c);
            c.timestamps[0] = i64::MIN;
            c.timestamps[2] = 1;
            c.values[0] = f64::INFINITY.to_bits();
        },
    ];
    edits.into_iter().map(|edit| {
        let mut case = to_and_fro();
        edit(&mut case);
        case
    })
}

/// Every reading after the first crosses the limit.
fn to_and_fro() -> Case {
    let crossings = MOST as usize - 1;
    Case {
        timestamps: (0..MOST).collect(),
        values: (0..MOST).map(|i| ((i % 2) as f64).to_bits()).collect(),
        limit: 1.0,
        indexes: vec![UNSET; crossings + 3],
        lent: crossings,
        ..Case::default()
    }
}

/// One reading more, which does not cross.
fn one_more(case: &mut Case) {
    case.timestamps.push(MOST);
    case.values.push(1f64.to_bits());
}
