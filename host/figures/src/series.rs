//! A series as it was read, with what is needed to speak of it.

use std::borrow::Cow;
use std::path::Path;

use harzoulin::{Rollup, is_stale};

use crate::text::excerpt;
use crate::time::{DAY, Form};

/// The readings of one name.
#[derive(Debug)]
pub struct Series {
    /// What it is called: its name, or else its file's.
    pub title: String,
    /// The name, where the file has a column of names.
    pub name: Option<String>,
    /// How the first time was written.
    pub form: Form,
    /// The times in milliseconds.
    pub times: Vec<i64>,
    /// The values.
    pub values: Vec<f64>,
    /// Where the readings stand, file after file.
    sources: Vec<Source>,
}

/// A file, the first reading that is from it and the lines of its readings.
#[derive(Debug)]
struct Source {
    file: String,
    first: usize,
    lines: Lines,
}

impl Series {
    /// A series without readings.
    pub fn new(file: &str, name: Option<String>, form: Form) -> Series {
        let stem = || Path::new(file).file_stem().and_then(|stem| stem.to_str()).unwrap_or(file);
        let title = name.clone().unwrap_or_else(|| stem().into());
        let sources = vec![Source { file: file.into(), first: 0, lines: Lines::default() }];
        Series { title, name, form, times: vec![], values: vec![], sources }
    }

    /// Takes a reading of the last file in.
    pub fn push(&mut self, line: usize, time: i64, value: f64) {
        let source = self.sources.last_mut().expect("a series has a file");
        source.lines.push(self.times.len() - source.first, line);
        self.times.push(time);
        self.values.push(value);
    }

    /// Takes in what the next file has of the series.
    pub fn append(&mut self, next: Series) {
        let before = self.times.len();
        self.times.extend(next.times);
        self.values.extend(next.values);
        let moved = |source: Source| Source { first: source.first + before, ..source };
        self.sources.extend(next.sources.into_iter().map(moved));
    }

    /// How many of its readings are staleness marks.
    pub fn marks(&self) -> usize {
        self.values.iter().filter(|value| is_stale(**value)).count()
    }

    /// The values that a rollup sees: all, or those that are no marks.
    pub fn seen(&self, rollup: Rollup) -> Cow<'_, [f64]> {
        match rollup.sees_marks() || self.marks() == 0 {
            true => (&self.values).into(),
            false => self.values.iter().copied().filter(|value| !is_stale(*value)).collect(),
        }
    }

    /// The file that it begins in.
    pub fn file(&self) -> &str {
        &self.sources[0].file
    }

    /// Whether its times, written in milliseconds, lie in January 1970, as those do that are seconds.
    pub fn may_be_seconds(&self) -> bool {
        let inside = |time: &i64| (0..31 * DAY).contains(time);
        let ends = self.times.first().zip(self.times.last());
        self.form == Form::Millis && ends.is_some_and(|(a, b)| inside(a) && inside(b))
    }

    /// The file and the line of a reading.
    pub fn place(&self, reading: usize) -> String {
        let sources = self.sources.partition_point(|source| source.first <= reading);
        let source = &self.sources[sources - 1];
        format!("{}:{}", source.file, source.lines.of(reading - source.first))
    }
}

/// A note where times of series may be seconds.
pub fn seconds(all: &[Series]) -> Option<String> {
    let found: Vec<&Series> = all.iter().filter(|series| series.may_be_seconds()).collect();
    let first = first_of(&found)?;
    Some(format!(
        "{first}: all times lie in January 1970: are they seconds? Times are milliseconds"
    ))
}

/// The file and the name of the first of several series, and how many there are besides.
pub fn first_of(found: &[&Series]) -> Option<String> {
    let first = found.first()?;
    let name = first.name.as_ref().map(|name| format!(": series {}", excerpt(name)));
    let more = if found.len() > 1 { format!(" and {} more", found.len() - 1) } else { "".into() };
    Some(format!("{}{}{more}", first.file(), name.unwrap_or_default()))
}

/// The line of each reading, as runs of readings on consecutive lines: the first reading of each
/// run and its line.
#[derive(Debug, Default)]
struct Lines(Vec<(usize, usize)>);

impl Lines {
    /// Notes the line of the next reading.
    fn push(&mut self, reading: usize, line: usize) {
        match self.0.last() {
            Some((first, start)) if line - start == reading - first => {}
            _ => self.0.push((reading, line)),
        }
    }

    fn of(&self, reading: usize) -> usize {
        let runs = self.0.partition_point(|(first, _)| *first <= reading);
        let (first, start) = self.0[runs - 1];
        start + reading - first
    }
}
