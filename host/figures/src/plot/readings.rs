//! The readings that a picture has a line through: those that are no staleness marks. Where marks stand
//! the series went away, and the line is broken.

use std::borrow::Cow;

use harzoulin::{Rollup, is_stale, remaining};

use crate::series::Series;

/// The readings, and where the series went away.
pub struct Readings<'a> {
    pub times: Cow<'a, [i64]>,
    pub values: Cow<'a, [f64]>,
    /// For each run of marks, before which of the readings it stands, and its first time.
    away: Vec<(usize, i64)>,
}

impl<'a> Readings<'a> {
    pub fn of(series: &'a Series) -> Readings<'a> {
        let none = Rollup::Count;
        let times = remaining(&series.times, &series.values, none);
        Readings { times, values: series.seen(none), away: away(series) }
    }

    /// Whether the series was away between a reading and the next.
    pub fn was_away(&self, place: usize) -> bool {
        self.away.binary_search_by_key(&(place + 1), |(before, _)| *before).is_ok()
    }

    /// The times from one to another at which the series went away.
    pub fn away(&self, low: i64, high: i64) -> impl Iterator<Item = i64> {
        let times = self.away.iter().map(|(_, time)| *time);
        times.filter(move |time| (low..=high).contains(time))
    }
}

/// The runs of marks.
fn away(series: &Series) -> Vec<(usize, i64)> {
    let mut runs: Vec<(usize, i64)> = vec![];
    let mut before = 0;
    for (time, value) in series.times.iter().zip(&series.values) {
        if !is_stale(*value) {
            before += 1;
        } else if runs.last().is_none_or(|(place, _)| *place < before) {
            runs.push((before, *time));
        }
    }
    runs
}
