//! Series that are accepted: times within ±2^50 that rise, finite values.

use super::floats;
use crate::judge::STEPS;
use crate::rng::Rng;

pub const TIME_LIMIT: i64 = 1 << 50;

/// How many readings: mostly a few, now and then some thousands.
pub fn length(rng: &mut Rng) -> usize {
    match rng.below(200) {
        0 => rng.between(1000, 4000) as usize,
        1..=10 => rng.between(40, 130) as usize,
        11..=120 => rng.between(0, 12) as usize,
        _ => rng.between(0, 40) as usize,
    }
}

/// n times: an interval with jitter and gaps, from a start that may stand at either limit.
pub fn times(rng: &mut Rng, n: usize) -> Vec<i64> {
    let interval = interval(rng);
    let jitter = rng.pick(&[0, 0, 1, interval / 10, interval / 2]);
    let gap_in = rng.pick(&[3, 10, 1000000]);
    let mut steps: Vec<i64> = (0..n).map(|_| step(rng, interval, jitter, gap_in)).collect();
    if steps.iter().map(|s| *s as i128).sum::<i128>() > TIME_LIMIT as i128 {
        steps = vec![interval.min(1000); n];
    }
    let span: i64 = steps.iter().skip(1).sum();
    let mut time = match rng.below(8) {
        0 => -TIME_LIMIT,
        1 => TIME_LIMIT - span,
        2 => rng.between(-5000, 5000),
        3 => rng.between(-TIME_LIMIT, TIME_LIMIT - span),
        4 => -span / 2,
        5 => 0,
        _ => 1_700_000_000_000 + rng.between(0, 60_000),
    };
    let mut timestamps = vec![];
    for (i, step) in steps.iter().enumerate() {
        time += if i == 0 { 0 } else { *step };
        timestamps.push(time);
    }
    timestamps
}

fn interval(rng: &mut Rng) -> i64 {
    const USUAL: [i64; 14] =
        [1, 5, 1000, 1999, 2000, 2001, 4000, 4001, 8000, 15_000, 16_001, 32_000, 60_000, 300_000];
    match rng.below(5) {
        0 => rng.between(1, 40_000),
        1 => 1 << rng.below(41),
        _ => rng.pick(&USUAL),
    }
}

fn step(rng: &mut Rng, interval: i64, jitter: i64, gap_in: u64) -> i64 {
    let wait = interval + rng.between(-jitter, jitter);
    let gap = if rng.once_in(gap_in) { interval * rng.between(1, 30) } else { 0 };
    (wait + gap).max(1)
}

/// Times and values of one length.
pub fn series(rng: &mut Rng, n: usize) -> (Vec<i64>, Vec<f64>) {
    (times(rng, n), floats::run(rng, n))
}

/// Now and then the first time moves to the lower limit, the last one to the upper, or both.
pub fn to_the_limits(rng: &mut Rng, timestamps: &mut [i64]) {
    match (rng.below(8), timestamps) {
        (0, [first, ..]) => *first = -TIME_LIMIT,
        (1, [.., last]) => *last = TIME_LIMIT,
        (2, [first, .., last]) => (*first, *last) = (-TIME_LIMIT, TIME_LIMIT),
        _ => {}
    }
}

/// A series for a preparing step: half of those for a counter step are counters that restart.
pub fn for_step(rng: &mut Rng, step: usize, n: usize) -> (Vec<i64>, Vec<f64>) {
    match STEPS[step] {
        "resets" | "resets_once" if rng.once_in(2) => (times(rng, n), floats::restarts(rng, n)),
        _ => series(rng, n),
    }
}

/// The kinds of series that times are taken on, by name.
pub const KINDS: [(&str, fn(usize) -> (Vec<i64>, Vec<f64>)); 3] =
    [("a counter", counter), ("a climate probe", probe), ("values in no order", scattered)];

/// A counter with restarts: nearly every window stands in order.
pub fn counter(readings: usize) -> (Vec<i64>, Vec<f64>) {
    let mut count = 0.0;
    minutely(1, readings, |rng| {
        count = if rng.once_in(20_000) { 0.0 } else { count + rng.between(0, 40) as f64 };
        count
    })
}

/// Hundredths of a degree: a walk with noise.
fn probe(readings: usize) -> (Vec<i64>, Vec<f64>) {
    let mut level = 2_000;
    minutely(1, readings, |rng| {
        level += rng.between(-5, 5);
        (level + rng.between(-20, 20)) as f64 / 100.0
    })
}

/// Values from 0 to 1, each drawn by itself.
fn scattered(readings: usize) -> (Vec<i64>, Vec<f64>) {
    minutely(1, readings, Rng::unit)
}

/// The times of readings once a minute, with jitter and gaps.
pub fn minutes(seed: u64, readings: usize) -> Vec<i64> {
    minutely(seed, readings, |_| 0.0).0
}

/// Readings once a minute, with jitter and gaps.
fn minutely(
    seed: u64,
    readings: usize,
    mut value: impl FnMut(&mut Rng) -> f64,
) -> (Vec<i64>, Vec<f64>) {
    let mut rng = Rng::new(seed);
    let mut time = 0;
    let pairs = (0..readings).map(|_| {
        time += 60_000 + rng.between(-500, 500);
        time += if rng.once_in(10_000) { 3_600_000 } else { 0 };
        (time, value(&mut rng))
    });
    pairs.unzip()
}
