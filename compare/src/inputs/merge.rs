//! Calls of merge: logs that lie apart, interleave, are equal, lie within one another or share a part; times with two
//! values; result slices of every length that matters; rows that either series offends, the 4th in half of them by equal
//! times.

use super::cases::{place, spoil_series, MOST};
use super::{equal_times, floats, marks, series};
use crate::call::{Case, UNSET};
use crate::model;
use crate::rng::Rng;

pub fn case(rng: &mut Rng) -> Case {
    let mut case = logs(rng);
    if rng.once_in(4) {
        conflicts(rng, &mut case);
    }
    for _ in 0..rng.pick(&[0, 0, 0, 0, 1, 1, 2, 3]) {
        let [first, second] = case.series_mut();
        let series = if rng.once_in(2) { first } else { second };
        let (row, place) = (rng.below(4), place(rng, series.0));
        spoil_series(rng, row, place, series, 0);
    }
    if rng.once_in(2) {
        let [(first, _), (second, _)] = case.series_mut();
        let of_first = second.len() < 2 || first.len() > 1 && rng.once_in(2);
        let timestamps = if of_first { first } else { second };
        if !timestamps.is_empty() {
            equal_times::once(rng, timestamps);
        }
    }
    let mut aside = rng.aside();
    let [(_, first), (_, second)] = case.series_mut();
    let values = if aside.once_in(2) { first } else { second };
    marks::refused(&mut aside, values);
    lend(rng, &mut case);
    case
}

/// Whether a probe's reading is in the first log, and whether it is in the second, by its place and
/// by a place that is drawn once.
type Share = fn(&mut Rng, usize, usize) -> (bool, bool);

const SHARES: [Share; 12] = [
    // Apart, either one first.
    |_, place, cut| either(place < cut),
    |_, place, cut| either(place >= cut),
    // Interleaved: alternating, at random, in stretches.
    |_, place, cut| either(place % 2 == cut % 2),
    |rng, _, _| either(rng.once_in(2)),
    |_, place, cut| either(place / (cut + 1) % 2 == 0),
    // Equal.
    |_, _, _| (true, true),
    // One within the other, by readings here and there or by one stretch.
    |rng, _, _| (true, rng.once_in(3)),
    |rng, _, _| (rng.once_in(3), true),
    |_, place, cut| (true, place >= cut),
    |_, place, cut| (place < cut, true),
    // A third shared, and most.
    |rng, _, _| rng.pick(&[(true, true), (true, false), (false, true)]),
    |rng, _, _| (!rng.once_in(10), !rng.once_in(10)),
];

fn either(first: bool) -> (bool, bool) {
    (first, !first)
}

/// Two logs of one probe, of which one or both may be empty. A reading in both has one value.
fn logs(rng: &mut Rng) -> Case {
    let n = series::length(rng);
    let (mut timestamps, values) = series::series(rng, n);
    series::to_the_limits(rng, &mut timestamps);
    let share = rng.pick(&SHARES);
    let cut = rng.below(n as u64 + 1) as usize;
    let mut case = Case::default();
    for (place, (time, value)) in timestamps.into_iter().zip(values).enumerate() {
        let (first, second) = share(rng, place, cut);
        for ((times, values), has) in case.series_mut().into_iter().zip([first, second]) {
            times.extend(has.then_some(time));
            values.extend(has.then_some(value.to_bits()));
        }
    }
    case
}

/// Gives two values to the first time that is in both logs, the last, any one, any stretch or all.
fn conflicts(rng: &mut Rng, case: &mut Case) {
    let in_second = |time| case.second_timestamps.binary_search(time).ok();
    let places = case.timestamps.iter().enumerate();
    let shared: Vec<_> = places.filter_map(|(i, time)| Some((i, in_second(time)?))).collect();
    let last = shared.len().saturating_sub(1);
    let any = rng.below(last as u64 + 1) as usize;
    let some = rng.pick(&[0..=0, last..=last, any..=any, 0..=any, any..=last, 0..=last]);
    for (i, j) in shared.get(some).unwrap_or_default() {
        conflict(rng, &mut case.values[*i], &mut case.second_values[*j]);
    }
}

/// Two values that differ in the sign of a zero, in the sign, in the last bit, or at random.
fn conflict(rng: &mut Rng, one: &mut u64, other: &mut u64) {
    const SIGN: u64 = 1 << 63;
    let zero = rng.pick(&[0, SIGN]);
    match rng.below(5) {
        0 | 1 => (*one, *other) = (zero, zero ^ SIGN),
        2 => *other = *one ^ SIGN,
        3 => *other = *one ^ 1,
        _ => *other = floats::finite(rng).to_bits(),
    }
}

/// Slices of just the right length, longer, or one of them or both shorter, down to none, before a few
/// words that are not lent; all filled with rubbish.
fn lend(rng: &mut Rng, case: &mut Case) {
    let length = model::merged(case.series()).0.len();
    let (short, all) = (length.saturating_sub(1), case.readings());
    let any = rng.below(length as u64 + 1) as usize;
    (case.lent_times, case.lent_values) = match rng.below(20) {
        0 => (short, length),
        1 => (length, short),
        2 => (short, short),
        3 => (any, length + 1),
        4 => (length + 1, any),
        5 => (0, 0),
        6 | 7 => (length + 1, length),
        8 | 9 => (length, length + 7),
        10 | 11 => (all.max(length), all.max(length) + 1),
        _ => (length, length),
    };
    case.merged_timestamps = (0..case.lent_times + 3).map(|_| rng.bits() as i64).collect();
    case.merged_values = (0..case.lent_values + 3).map(|_| rng.bits()).collect();
}

/// As many readings as are allowed in the first log, with two of them in the second; with one more in
/// either log, in the second alone, and there beside a conflict and slices that are too short.
pub fn longest() -> impl Iterator<Item = Case> {
    let edits: [fn(&mut Case); 5] = [
        |_| {},
        |c| {
            c.timestamps.push(MOST);
            c.values.push(0);
        },
        |c| {
            c.second_timestamps = (0..=MOST).collect();
            c.second_values = vec![0; MOST as usize + 1];
        },
        |c| c.second_timestamps[1] = MOST,
        |c| {
            (c.second_timestamps[1], c.second_values[0]) = (MOST, 1);
            c.lent_times = 0;
        },
    ];
    edits.into_iter().map(|edit| {
        let mut case = of_times(0..MOST, [7, MOST - 1].into_iter());
        edit(&mut case);
        case
    })
}

/// Logs with readings at these times, whose values are the times, and result slices for as many as are
/// allowed.
pub fn of_times(first: impl Iterator<Item = i64>, second: impl Iterator<Item = i64>) -> Case {
    let values = |times: &[i64]| times.iter().map(|time| (*time as f64).to_bits()).collect();
    let (timestamps, second_timestamps): (Vec<i64>, Vec<i64>) = (first.collect(), second.collect());
    let lent = MOST as usize;
    Case {
        values: values(&timestamps),
        second_values: values(&second_timestamps),
        timestamps,
        second_timestamps,
        merged_timestamps: vec![UNSET as i64; lent + 3],
        merged_values: vec![UNSET; lent + 3],
        lent_times: lent,
        lent_values: lent,
        ..Case::default()
    }
}
