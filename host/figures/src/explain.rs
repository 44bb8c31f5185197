//! One figure's window: the predecessor, the readings in it, the neighbours and the answer.

use std::fmt::Write;
use std::ops::Range;

use harzoulin::{Settings, SettledSettings, Workspace, is_stale, remaining, settle};

use crate::answer::sum;
use crate::failure::Failure;
use crate::options::Options;
use crate::refused::{refused, refused_run};
use crate::series::Series;
use crate::text::visible;
use crate::time::{Stamp, format_duration};
use crate::write::Number;

/// So many readings of a window are shown from each end.
const SHOWN: usize = 10;

/// What is to be said of the figure at a time.
pub fn text(series: &Series, options: &Options, at: i64) -> Result<String, Failure> {
    let settings = options.settings(series)?;
    let (Series { times, values, .. }, rollup) = (series, options.rollups[0]);
    // All times first, so that a refusal names a reading of the series.
    let settled = settle(times, &settings)
        .and_then(|_| settle(&remaining(times, values, rollup), &settings))
        .map_err(|refusal| refused(series, &settings, refusal))?;
    let only = SettledSettings { start: at, end: at, ..settings.settled(settled) };
    let mut workspace = Workspace::new();
    let run = workspace.settled_run(times, values, options.pre, rollup, &only);
    let (settings, asked) = (Settings { start: at, end: at, ..settings }, (options.pre, rollup));
    let run = run.map_err(|refusal| refused_run(series, &settings, asked, refusal))?;
    let (times, prepared, answer) = (run.timestamps, run.prepared, run.values[0]);
    let values = &series.seen(rollup);
    Ok(Figure { series, options, at, settled: only, times, values, prepared, answer }.text())
}

/// A figure with what it is made of.
struct Figure<'a> {
    series: &'a Series,
    options: &'a Options,
    at: i64,
    settled: SettledSettings,
    /// The readings that the rollup sees.
    times: &'a [i64],
    values: &'a [f64],
    prepared: &'a [f64],
    answer: f64,
}

impl Figure<'_> {
    fn text(&self) -> String {
        let (options, settled) = (self.options, self.settled);
        let left = self.at - settled.window;
        let limit = left - settled.reach;
        let inside = |end| self.times.partition_point(|time| *time <= end);
        let (taken_out, seen) = self.marks(left);
        let Range { start, end } = inside(left)..inside(self.at);
        let [left, limit, at] = [left, limit, self.at].map(|time| self.stamp(time));
        let length = format_duration(settled.window);
        let mut out = String::new();
        let mut line = |name: &str, text: &str| writeln!(out, "{name:13}{text}").expect("a string");
        line("series", &visible(self.series.name.as_deref().unwrap_or(self.series.file())));
        line("figure", &format!("{} at {at}, prepared by {}", options.rollups[0], options.pre));
        line("window", &format!("{length}, after {left}, up to {at}"));
        line("reach", &format!("{}, back to {limit}", format_duration(settled.reach)));
        taken_out.iter().for_each(|text| line("marks", text));
        line("before", &start.checked_sub(1).map_or("none".into(), |place| self.reading(place)));
        line("predecessor", &self.predecessor(start, limit.0));
        line("in window", &sum(end - start, seen));
        self.inside(start..end).iter().for_each(|text| line("", text));
        line("after", &self.after(end));
        let answer = Number(self.answer, None);
        line("answer", &format!("{answer}  bits {:#018x}", self.answer.to_bits()));
        out
    }

    /// What is said of marks that were taken out, if any, and how many the window has if they were not.
    fn marks(&self, left: i64) -> (Option<String>, usize) {
        let Series { times, values, .. } = self.series;
        let marks = times.iter().zip(values).filter(|(_, value)| is_stale(**value));
        let marks: Vec<i64> = marks.map(|(time, _)| *time).collect();
        let inside = marks.iter().filter(|time| **time > left && **time <= self.at).count();
        match self.options.rollups[0].sees_marks() {
            true => (None, inside),
            false if marks.is_empty() => (None, 0),
            false => (Some(format!("{} taken out, {inside} in the window", marks.len())), 0),
        }
    }

    fn stamp(&self, time: i64) -> Stamp {
        Stamp(time, self.options.common.form(self.series))
    }

    /// A reading, with what its value was before it was prepared.
    fn reading(&self, place: usize) -> String {
        let time = self.stamp(self.times[place]);
        let [value, prepared] = [self.values, self.prepared].map(|list| list[place]);
        let shown = Number(prepared, None);
        match value.to_bits() == prepared.to_bits() {
            true => format!("{time}  {shown}"),
            false => format!("{time}  {shown} from {}", Number(value, None)),
        }
    }

    /// The predecessor of a window that begins with a reading, or why there is none.
    fn predecessor(&self, start: usize, limit: i64) -> String {
        let times = self.times;
        match start.checked_sub(1) {
            None => "none".into(),
            Some(_) if start == times.len() => "none: no reading after the window's start".into(),
            Some(place) if times[place] <= limit => "none: out of reach".into(),
            Some(place) => self.reading(place),
        }
    }

    /// The reading at the place behind a window, and how long after the output time it stands.
    fn after(&self, place: usize) -> String {
        let Some(time) = self.times.get(place) else { return "none".into() };
        let wait = format_duration(time - self.at);
        format!("{}, {wait} after the output time", self.reading(place))
    }

    /// The readings of a window, the middle of a long one left out.
    fn inside(&self, places: Range<usize>) -> Vec<String> {
        let count = places.len();
        if count <= 2 * SHOWN {
            return places.map(|place| self.reading(place)).collect();
        }
        let first = places.clone().take(SHOWN).map(|place| self.reading(place));
        let last = places.skip(count - SHOWN).map(|place| self.reading(place));
        let more = format!("and {} more", count - 2 * SHOWN);
        first.chain([more]).chain(last).collect()
    }
}
