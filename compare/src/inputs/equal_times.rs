//! Equal times in series that rise: runs of 2 to 50 of them. They are put where windows end and begin, since the
//! predecessor, the window and the next reading are told apart there, and a millisecond later, since the time of
//! which the Rust's search by halves takes any one is the one after the time that it is asked for.

use original::exposed::Settings;

use super::series::{self, TIME_LIMIT};
use crate::call::Case;
use crate::judge::{self, ROLLUPS};
use crate::rng::Rng;

/// Whether a generated series has equal times, as half of them have, and how many readings.
pub fn half(rng: &mut Rng) -> (bool, usize) {
    match rng.once_in(2) {
        true => (true, length(rng)),
        false => (false, series::length(rng)),
    }
}

/// Mostly as many readings as the Rust searches by halves, from 16 on.
fn length(rng: &mut Rng) -> usize {
    match rng.below(200) {
        0 => rng.between(1000, 4000) as usize,
        1..=10 => rng.between(61, 200) as usize,
        11..=50 => rng.between(2, 15) as usize,
        _ => rng.between(16, 60) as usize,
    }
}

/// The times of a series, in half of which some are equal.
pub fn times(rng: &mut Rng) -> Vec<i64> {
    let (equal, n) = half(rng);
    let mut timestamps = series::times(rng, n);
    if equal {
        anywhere(rng, &mut timestamps);
    }
    timestamps
}

/// Equal times anywhere: several runs or one, or all times.
pub fn anywhere(rng: &mut Rng, timestamps: &mut [i64]) {
    put(rng, timestamps, own);
}

/// Equal times where the windows of these output times end and begin, or anywhere. The window and the reach are the
/// given ones or, where none are, settled for the times as they stand.
pub fn at_edges(
    rng: &mut Rng,
    timestamps: &mut [i64],
    settings: &Settings,
    given: Option<(i64, i64)>,
) {
    put(rng, timestamps, |rng, timestamps| match rng.below(4) {
        0 => own(rng, timestamps),
        _ => {
            let settled = given.unwrap_or_else(|| judge::settle(settings, timestamps));
            edge(rng, settings, settled)
        }
    });
}

/// Equal times in the series of a call that the Rust judges, with the window and the reach that are given to it, if
/// any. Of the rollups delta alone reads the next reading's value, and only beside the series' first reading: it gets
/// such windows half of the time.
pub fn in_call(rng: &mut Rng, case: &mut Case, given: Option<(i64, i64)>) {
    let Case { timestamps, settings, rollup, .. } = case;
    if ROLLUPS[*rollup as usize] == "delta" && timestamps.len() > 2 && rng.once_in(2) {
        after_the_first(rng, timestamps, settings)
    } else {
        at_edges(rng, timestamps, settings, given)
    }
}

/// The first output time goes to the first reading, and those after that come to have one time.
fn after_the_first(rng: &mut Rng, timestamps: &mut [i64], settings: &mut Settings) {
    let span = settings.end - settings.start;
    settings.start = timestamps[0].min(TIME_LIMIT - span);
    settings.end = settings.start + span;
    let (last, time) = (size(rng).min(timestamps.len() - 1), timestamps[1]);
    timestamps[1..=last].fill(time);
}

/// One run of equal times, at the first place, at the last or at any.
pub fn once(rng: &mut Rng, timestamps: &mut [i64]) {
    let (time, size) = (own(rng, timestamps), size(rng));
    gather(rng, timestamps, time, size);
}

/// A run of equal times at a time that is drawn, or several, each at its own; now and then of all times, or after each
/// reading has got a few follow-ups under its time.
fn put(rng: &mut Rng, timestamps: &mut [i64], time: impl Fn(&mut Rng, &[i64]) -> i64) {
    match rng.below(8) {
        0 => return timestamps.fill(time(rng, timestamps)),
        1 | 2 => {
            let together = rng.pick(&[2, 2, 3, 5]);
            timestamps.chunks_mut(together).for_each(|chunk| chunk.fill(chunk[0]));
        }
        _ => {}
    }
    for _ in 0..rng.pick(&[1, 1, 2, 2, 3, 5]) {
        let (time, size) = (time(rng, timestamps), size(rng));
        gather(rng, timestamps, time, size);
    }
}

fn size(rng: &mut Rng) -> usize {
    match rng.below(3) {
        0 => 2,
        1 => rng.between(3, 9) as usize,
        _ => rng.between(10, 50) as usize,
    }
}

/// The first time, the last, or that of any reading.
fn own(rng: &mut Rng, timestamps: &[i64]) -> i64 {
    match rng.below(4) {
        0 => timestamps[0],
        1 => timestamps[timestamps.len() - 1],
        _ => rng.pick(timestamps),
    }
}

/// An output time or where its window begins, the millisecond after either, or where its reach begins or just after.
fn edge(rng: &mut Rng, s: &Settings, (window, reach): (i64, i64)) -> i64 {
    let last = (s.end - s.start) / s.step;
    let any = rng.between(0, last);
    let output = s.start + s.step * rng.pick(&[0, 0, last, any]);
    let (start, far) = (output - window, output - window - reach);
    let edges = [output, output + 1, output + 1, start, start + 1, start + 1, far, far + 1];
    rng.pick(&edges).clamp(-TIME_LIMIT, TIME_LIMIT)
}

/// Gives so many neighbours this time, or all readings if there are fewer. The time lies between that of the reading
/// before them and that of the one behind, so that the times still do not fall.
fn gather(rng: &mut Rng, timestamps: &mut [i64], time: i64, size: usize) {
    let n = timestamps.len();
    let size = size.min(n);
    let before = timestamps.iter().filter(|other| **other < time).count();
    let (least, most) = (before.saturating_sub(size), before.min(n - size));
    let from = rng.between(least as i64, most as i64) as usize;
    timestamps[from..from + size].fill(time);
}
