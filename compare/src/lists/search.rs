//! The hinted search, the estimate of the interval, the reach of an estimate, and the grid; at the end search and
//! estimate on equal times.

use original::exposed;

use crate::inputs::series::{self, TIME_LIMIT};
use crate::inputs::{equal_times, settings};
use crate::rng::Rng;
use crate::words::{times, List};

pub const CASES: &str = "op 0: n, n times, target, hint, the first index with a later time; \
    op 1: n, n times, get_scrape_interval; op 2: interval, get_max_prev_interval; \
    op 3: start, end, step, length g of get_timestamps, its g times or, where g is above 64, its \
    first and its last; op 4: rollup, rollup_samples_scanned_per_call";

/// How many times of a grid a case holds; of more it holds the first and the last.
const WHOLE: usize = 64;

/// The most output times that a call may ask for.
const MOST: i64 = 16_777_216;

pub fn make(rng: &mut Rng, list: &mut List) {
    for _ in 0..2500 {
        seek(rng, list);
    }
    for _ in 0..1000 {
        let n = rng.pick(&[0, 1, 2, 3, 4, 5, 6, 8, 10, 12, 20, 21, 22, 25]);
        estimate(list, &series::times(rng, n));
    }
    for _ in 0..2000 {
        let interval = interval(rng);
        list.case(&[2, interval as u64, exposed::max_prev_interval(interval) as u64]);
    }
    grids(rng, list);
    for rollup in 0..exposed::ROLLUPS.len() {
        list.case(&[4, rollup as u64, exposed::samples_scanned_per_call(rollup) as u64]);
    }
    for _ in 0..700 {
        seek_among_equals(rng, list);
    }
    for _ in 0..250 {
        let n = rng.between(2, 25) as usize;
        let mut timestamps = series::times(rng, n);
        equal_times::anywhere(rng, &mut timestamps);
        estimate(list, &timestamps);
    }
}

/// Times on both sides of the 16 from which the Rust searches by halves; any hint.
fn seek(rng: &mut Rng, list: &mut List) {
    let n = rng.pick(&[0, 1, 2, 5, 9, 14, 15, 16, 17, 18, 20, 24, 33]);
    let timestamps = series::times(rng, n);
    let near = if n == 0 { 0 } else { rng.pick(&timestamps) };
    let target = near + rng.pick(&[0, 0, 1, -1, 500, -500, TIME_LIMIT, -TIME_LIMIT]);
    let hint = rng.below(n as u64 + 5);
    let found = exposed::seek(&timestamps, target, hint as usize);
    put_seek(list, &timestamps, target, hint, found);
}

/// Where times are equal the first index with a later time is the number of those that are not later. The Rust looks
/// for the millisecond after the target, and may stop at any of several readings there.
fn seek_among_equals(rng: &mut Rng, list: &mut List) {
    let n = rng.pick(&[2, 5, 15, 16, 17, 18, 20, 24, 33, 33]);
    let mut timestamps = series::times(rng, n);
    equal_times::anywhere(rng, &mut timestamps);
    let (first, pairs) = (timestamps[0], timestamps.windows(2));
    let equal = pairs.filter(|pair| pair[0] == pair[1] && pair[1] > first).map(|pair| pair[1]);
    let equal = [&equal.collect::<Vec<_>>()[..], &[first]].concat();
    let target = rng.pick(&equal) + rng.pick(&[0, 1, 500, -1, -1, -1, -1]);
    let hint = if rng.once_in(2) { 0 } else { rng.below(n as u64 + 5) };
    let found = timestamps.iter().filter(|time| **time <= target).count();
    put_seek(list, &timestamps, target, hint, found);
}

fn put_seek(list: &mut List, timestamps: &[i64], target: i64, hint: u64, found: usize) {
    let n = timestamps.len() as u64;
    let asked = vec![target as u64, hint, found as u64];
    list.case(&[vec![0, n], times(timestamps), asked].concat());
}

fn estimate(list: &mut List, timestamps: &[i64]) {
    let estimate = exposed::scrape_interval(timestamps) as u64;
    list.case(&[vec![1, timestamps.len() as u64], times(timestamps), vec![estimate]].concat());
}

/// Grids near readings, grids of any bounds, and those at the ends of the ranges.
fn grids(rng: &mut Rng, list: &mut List) {
    for points in [vec![12; 1420], vec![64; 300]].concat() {
        let at = series::times(rng, 3);
        let s = settings::settings(rng, &at, points);
        grid(list, s.start, s.end, s.step);
    }
    for most in [vec![8; 100], vec![64; 50], vec![66; 50], vec![10_000; 60]].concat() {
        let (start, end, step) = span(rng, most);
        grid(list, start, end, step);
    }
    for start in [-TIME_LIMIT, 1 - TIME_LIMIT, -1, 0, 1, TIME_LIMIT - 1, TIME_LIMIT] {
        grid(list, start, start, 1);
        grid(list, start, start, TIME_LIMIT);
        grid(list, start, TIME_LIMIT, TIME_LIMIT);
    }
    for points in [WHOLE as i64 - 1, WHOLE as i64, WHOLE as i64 + 1, MOST] {
        grid(list, -1, points - 2, 1);
        grid(list, TIME_LIMIT - 7 * points + 1, TIME_LIMIT, 7);
    }
}

fn grid(list: &mut List, start: i64, end: i64, step: i64) {
    let grid = exposed::get_timestamps(start, end, step, 0).unwrap();
    let listed = match grid.len() {
        0..=WHOLE => grid.clone(),
        _ => vec![grid[0], grid[grid.len() - 1]],
    };
    let mut words = vec![3, start as u64, end as u64, step as u64, grid.len() as u64];
    words.extend(times(&listed));
    list.case(&words);
}

/// A start, an end and a step with at most so many times: any start, steps of every size.
fn span(rng: &mut Rng, most: i64) -> (i64, i64, i64) {
    let start = rng.between(-TIME_LIMIT, TIME_LIMIT);
    let step = 1 + (rng.bits() >> rng.between(14, 63)) as i64;
    let points = rng.between(most / 2, most).min((TIME_LIMIT - start) / step + 1);
    let end = start + (points - 1) * step + rng.between(0, step - 1);
    (start, end.min(TIME_LIMIT), step)
}

fn interval(rng: &mut Rng) -> i64 {
    match rng.below(4) {
        0 => rng.pick(&[2000, 4000, 8000, 16_000, 32_000]) + rng.between(-3, 3),
        1 => rng.between(1, 40_000),
        2 => 1 + (rng.bits() >> rng.between(13, 62)) as i64,
        _ => 2 * TIME_LIMIT - rng.between(0, 20),
    }
}
