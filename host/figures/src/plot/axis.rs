//! Axes: where a value or a time lies, and the marks at round ones.

use crate::time::{self, DAY, Form, HOUR, Stamp};

/// From values or times to places along a line of the picture.
pub struct Axis {
    low: f64,
    high: f64,
    from: f64,
    to: f64,
}

impl Axis {
    /// The axis that has `low` at `from` and `high` at `to`; a little of both sides where the two
    /// are next to one another.
    pub fn new(low: f64, high: f64, from: f64, to: f64) -> Axis {
        let apart = high / 5.0 - low / 5.0 > f64::MIN_POSITIVE;
        let around = if apart { 0.0 } else { (low.abs() * 0.1).max(0.5) };
        let (low, high) = ((low - around).max(f64::MIN), (high + around).min(f64::MAX));
        Axis { low, high, from, to }
    }

    /// The place, to a tenth. Halves keep the difference of two large numbers finite.
    pub fn place(&self, number: f64) -> f64 {
        let share = (number / 2.0 - self.low / 2.0) / (self.high / 2.0 - self.low / 2.0);
        ((self.from + share * (self.to - self.from)) * 10.0).round() / 10.0
    }

    /// Round numbers along the axis, some five, with their text.
    pub fn marks(&self) -> Vec<(f64, String)> {
        let rough = self.high / 5.0 - self.low / 5.0;
        let ten = 10f64.powf(rough.log10().floor());
        let step = [1.0, 2.0, 5.0, 10.0].map(|n| n * ten).into_iter().find(|s| *s >= rough);
        let step = step.unwrap_or(10.0 * ten);
        let largest = self.high.abs().max(self.low.abs());
        let digits = (-step.log10().floor()).max(0.0) as usize;
        let large = largest >= 1e7 || digits > 6;
        let places = (largest.log10().floor() - step.log10().floor()).max(0.0) as usize;
        let first = (self.low / step).ceil() as i64;
        let marks = (first..=first + 10).map(|n| n as f64 * step).take_while(|n| *n <= self.high);
        let text = |n: f64| match large {
            true if n == 0.0 => "0".into(),
            true => format!("{n:.places$e}"),
            false => format!("{n:.digits$}"),
        };
        marks.map(|n| (self.place(n), text(n))).collect()
    }
}

/// The lengths between marks of times, up to some days.
#[rustfmt::skip]
const STEPS: [i64; 32] = {
    const S: i64 = 1000;
    const M: i64 = 60 * S;
    [
        1, 2, 5, 10, 20, 50, 100, 200, 500, S, 2 * S, 5 * S, 10 * S, 15 * S, 30 * S, M, 2 * M, 5 * M,
        10 * M, 15 * M, 30 * M, HOUR, 2 * HOUR, 3 * HOUR, 6 * HOUR, 12 * HOUR, DAY, 2 * DAY, 3 * DAY,
        4 * DAY, 7 * DAY, 14 * DAY,
    ]
};

/// Round times from one time to another, about so many, with their text.
pub fn times(low: i64, high: i64, count: i64) -> Vec<(i64, String)> {
    let rough = (high - low) / count;
    match STEPS.into_iter().find(|step| *step >= rough) {
        Some(step) => {
            // Days are counted from a Monday, so that weeks begin on one.
            let first = low + (step - (low - 4 * DAY).rem_euclid(step)) % step;
            (first..=high).step_by(step as usize).map(|time| (time, text(time, step))).collect()
        }
        None => months(low, high, rough),
    }
}

/// The part of a time that tells it from its neighbours.
fn text(time: i64, step: i64) -> String {
    let whole = Stamp(time, Form::Rfc3339).to_string();
    let (date, clock) = whole.trim_end_matches('Z').split_once('T').unwrap_or((&whole, ""));
    match step {
        _ if step >= DAY || clock == "00:00:00" => date.into(),
        _ if step >= 60_000 => clock.get(..5).unwrap_or(clock).into(),
        _ => clock.into(),
    }
}

/// The first days of months, of every third month, of years or of every few years.
fn months(low: i64, high: i64, rough: i64) -> Vec<(i64, String)> {
    let steps = [1, 2, 3, 6, 12, 24, 60, 120, 240, 600, 1200, 6000, 12_000, 60_000, 120_000];
    let step = steps.into_iter().find(|months| months * 30 * DAY >= rough).unwrap_or(600_000);
    let (year, month, _) = time::date(low.div_euclid(DAY));
    let first = (12 * year + month - 1).div_euclid(step) * step;
    let mut marks = vec![];
    for month in (first..).step_by(step as usize) {
        let (year, month) = (month.div_euclid(12), month.rem_euclid(12) + 1);
        let time = time::days(year, month, 1) * DAY;
        if time > high {
            break;
        }
        if time >= low {
            let text = if step < 12 { format!("{year}-{month:02}") } else { year.to_string() };
            marks.push((time, text));
        }
    }
    marks
}
