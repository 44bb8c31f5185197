//! Grids on, between and beyond the readings, with windows and caps, all accepted.

use original::exposed::Settings;

use super::series::TIME_LIMIT;
use crate::rng::Rng;

/// The typical distance of two readings.
fn interval(timestamps: &[i64]) -> i64 {
    match timestamps {
        [first, .., last] => ((last - first) / (timestamps.len() as i64 - 1)).max(1),
        _ => 1000,
    }
}

/// Settings for these readings with at most `points` output times.
pub fn settings(rng: &mut Rng, timestamps: &[i64], points: i64) -> Settings {
    let interval = interval(timestamps);
    let step =
        rng.pick(&[interval, interval, interval / 2, interval * 2 + 1, interval / 3 + 1, 1, 1000]);
    let step = step.clamp(1, TIME_LIMIT);
    let start = start(rng, timestamps, interval).clamp(-TIME_LIMIT, TIME_LIMIT);
    let points = rng.between(1, points).min((TIME_LIMIT - start) / step + 1);
    let end = start + (points - 1) * step + rng.pick(&[0, 0, (step - 1) / 2, step - 1]);
    let mut settings = Settings {
        start,
        end: end.min(TIME_LIMIT),
        step,
        window: window(rng, interval),
        may_adjust_window: rng.once_in(2),
        is_default_rollup: rng.once_in(2),
        lookback_delta: cap(rng, interval),
        min_staleness_interval: cap(rng, interval),
        max_points_per_series: 0,
        samples_scanned_per_call: rng.pick(&[0, 0, 1, 2, 65_535]),
    };
    if rng.once_in(4) {
        let scanned = (settings.end - settings.start) / (step + 1);
        settings.max_points_per_series = scanned.max(1) + rng.pick(&[0, 0, 1, 1000]);
    }
    settings
}

fn start(rng: &mut Rng, timestamps: &[i64], interval: i64) -> i64 {
    let near = if timestamps.is_empty() { 0 } else { rng.pick(timestamps) };
    match rng.below(8) {
        0 => near - interval * 3,
        1 => near + 1,
        2 => near - 1,
        3 => timestamps.last().map_or(0, |last| last + rng.between(0, 2) * interval),
        4 => -TIME_LIMIT,
        5 => near + rng.between(-interval, interval),
        _ => near,
    }
}

/// 0 half of the time; else a part or some multiples of the interval, or the limit.
fn window(rng: &mut Rng, interval: i64) -> i64 {
    match rng.below(10) {
        0..=4 => 0,
        5 => interval,
        6 => rng.between(1, 12) * (interval / 2 + 1),
        7 => rng.pick(&[1, 2, 1000, 300_000]),
        8 => rng.between(1, 5) * interval + rng.between(-1, 1),
        _ => TIME_LIMIT,
    }
    .clamp(0, TIME_LIMIT)
}

fn cap(rng: &mut Rng, interval: i64) -> i64 {
    match rng.below(10) {
        0..=4 => 0,
        5 => interval,
        6 => rng.between(1, 20) * (interval / 4 + 1),
        7 => rng.pick(&[1, 1000, 300_000]),
        8 => rng.between(0, 400_000),
        _ => TIME_LIMIT,
    }
    .clamp(0, TIME_LIMIT)
}
