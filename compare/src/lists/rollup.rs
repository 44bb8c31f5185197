//! Every rollup on window records: half of them as `do_internal` makes them, half made by hand; at the end such with
//! equal times, as the window rule makes them and made by hand.

use std::sync::{Arc, Mutex};

use original::exposed::{self, Record, Rollup};

use crate::inputs::series::{self, TIME_LIMIT};
use crate::inputs::{equal_times, floats, settings};
use crate::judge::{self, ROLLUPS};
use crate::model;
use crate::rng::Rng;
use crate::window::Window;
use crate::words::{all_bits, bits, times, List};

pub const CASES: &str = "first, second (the parameters), prev_value, prev_timestamp, \
    real_prev_value, real_next_value, has_next (0 or 1), next_timestamp (0 if none), curr_timestamp, \
    window, n, n times, n values, a word whose bit k says that a departure was applied to rollup k, \
    then the answers of rollups 0 to 49";

pub fn make(rng: &mut Rng, list: &mut List) {
    for _ in 0..700 {
        let (values, timestamps, record, next) = own(rng);
        put(rng, list, &Record { values: &values, timestamps: &timestamps, ..record }, next);
    }
    for _ in 0..700 {
        let n = floats::short(rng);
        let (values, timestamps) = (floats::window(rng, n), series::times(rng, n));
        by_hand(rng, list, values, timestamps);
    }
    for _ in 0..150 {
        by_the_rule(rng, list);
    }
    for _ in 0..150 {
        let n = floats::short(rng).max(2);
        let (values, mut timestamps) = (floats::window(rng, n), series::times(rng, n));
        equal_times::anywhere(rng, &mut timestamps);
        by_hand(rng, list, values, timestamps);
    }
}

fn put(rng: &mut Rng, list: &mut List, record: &Record, next: Option<i64>) {
    let (first, second) = (floats::parameter(rng), floats::parameter(rng));
    let judged = (0..ROLLUPS.len()).map(|k| judge::rollup(k, first, second, record, next));
    let (answers, departed): (Vec<f64>, Vec<bool>) = judged.unzip();
    let mut words = vec![bits(first), bits(second)];
    words.extend([bits(record.prev_value), record.prev_timestamp as u64]);
    words.extend([bits(record.real_prev_value), bits(record.real_next_value)]);
    words.extend([next.is_some() as u64, next.unwrap_or(0) as u64]);
    words.extend([record.curr_timestamp as u64, record.window as u64]);
    words.push(record.values.len() as u64);
    words.extend(times(record.timestamps));
    words.extend(all_bits(record.values));
    words.push(super::mask(&departed));
    words.extend(all_bits(&answers));
    list.case(&words);
}

/// A record's values and times, the rest of it, and the first time after its output time.
type Parts = (Vec<f64>, Vec<i64>, Record<'static>, Option<i64>);

/// A record that `do_internal` makes of a series prepared by one of the Rust's five steps.
fn own(rng: &mut Rng) -> Parts {
    let n = rng.between(0, 12) as usize;
    let (timestamps, mut values) = series::series(rng, n);
    judge::prepare(rng.below(5) as usize, &timestamps, &mut values);
    let s = settings::settings(rng, &timestamps, 4);
    let seen = Arc::new(Mutex::new(vec![]));
    let records = seen.clone();
    let reader = Rollup::of(move |r: &Record| {
        let rest = Record { values: &[], timestamps: &[], ..*r };
        records.lock().unwrap().push((r.values.to_vec(), r.timestamps.to_vec(), rest));
        0.0
    });
    exposed::run(&s, reader, &values, &timestamps).unwrap();
    let records = seen.lock().unwrap();
    let (in_window, their_times, rest) = rng.pick(&records);
    let next = model::next(&timestamps, rest.curr_timestamp);
    (in_window, their_times, rest, next)
}

/// A record of a series with equal times at the edges of its windows.
fn by_the_rule(rng: &mut Rng, list: &mut List) {
    let n = rng.between(2, 20) as usize;
    let (mut timestamps, mut values) = series::series(rng, n);
    let s = settings::settings(rng, &timestamps, 4);
    equal_times::at_edges(rng, &mut timestamps, &s, None);
    judge::prepare(rng.below(5) as usize, &timestamps, &mut values);
    let (window, reach) = judge::settle(&s, &timestamps);
    let time = s.start + s.step * rng.between(0, (s.end - s.start) / s.step);
    let window = Window::at(time, window, reach, &timestamps, &values);
    put(rng, list, &window.record(), model::next(&timestamps, time));
}

/// A record whose parts are chosen one by one: readings in the window, a predecessor or none.
fn by_hand(rng: &mut Rng, list: &mut List, mut values: Vec<f64>, timestamps: Vec<i64>) {
    let n = values.len();
    if n == 1 && rng.once_in(8) {
        values[0] = f64::NAN;
    }
    let (first, last) = match timestamps[..] {
        [] => (0, 0),
        _ => (timestamps[0], timestamps[n - 1]),
    };
    let curr_timestamp = last + rng.pick(&[0, 0, 1, 1000, 12_345]);
    let start = first - rng.pick(&[1, 2, 1000, 60_000]);
    let near = start - rng.pick(&[0, 0, 1, 999, 5000]);
    let prev_value = neighbour(rng, &values);
    let real_prev_value = if prev_value.is_nan() { neighbour(rng, &values) } else { prev_value };
    let record = Record {
        prev_value,
        prev_timestamp: near,
        values: &values,
        timestamps: &timestamps,
        real_prev_value,
        real_next_value: neighbour(rng, &values),
        curr_timestamp,
        window: curr_timestamp - start,
    };
    let next = next(rng, curr_timestamp);
    put(rng, list, &record, next);
}

/// The first time after the output time: none, one a little later, 0 where that is later, or one as
/// far as two times can lie apart, or less far.
fn next(rng: &mut Rng, time: i64) -> Option<i64> {
    const FAR: i64 = 2 * TIME_LIMIT;
    match rng.below(7) {
        0 | 1 => None,
        2 | 3 => Some(time + rng.pick(&[1, 999, 1000, 12_345])),
        4 if time < 0 => Some(0),
        5 => Some(time + FAR),
        _ => Some(time + rng.between(1, FAR)),
    }
}

/// The value of a reading outside the window: none, one that stands in it, or another.
fn neighbour(rng: &mut Rng, values: &[f64]) -> f64 {
    match rng.below(5) {
        0 | 1 => f64::NAN,
        2 if !values.is_empty() => rng.pick(values),
        3 => rng.pick(&[0.0, -0.0, 1.0, f64::INFINITY]),
        _ => floats::finite(rng),
    }
}
