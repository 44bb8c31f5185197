//! The part of a picture that belongs to a series and a rollup.

use harzoulin::{Rollup, Step, Unit, is_stale};

use super::canvas::{Canvas, TIMES, TITLE, shown};
use super::curve::SINGLE;
use super::panel::{Panel, ends};
use super::readings::Readings;
use crate::answer::{Answer, Windows};
use crate::options::Options;
use crate::time::format_duration;

/// The heights of the two panels, and of what lies between.
const READINGS: f64 = 170.0;
const BETWEEN: f64 = 16.0;
const FIGURES: f64 = 130.0;
pub const HEIGHT: f64 = TITLE + READINGS + BETWEEN + FIGURES + TIMES;

/// The part of the usual number of readings that a window has to have to be drawn as a full one.
const FULL: f64 = 0.75;

/// The part, as it is drawn.
pub struct Part<'a> {
    /// The readings, and the figures below them.
    pub canvas: Canvas<'a>,
    pub answer: &'a Answer,
    options: &'a Options,
    rollup: Rollup,
    pub figures: &'a [f64],
    /// A window of fewer readings is a thin one.
    full: f64,
}

impl<'a> Part<'a> {
    /// The times shown are those of the readings and the grid, or of the grid that was asked for.
    pub fn new(answer: &'a Answer, options: &'a Options, rollup: usize, top: f64) -> Part<'a> {
        let (start, end) = (answer.settings.start, answer.settings.end);
        let times = &answer.series.times;
        let low = match options.start {
            Some(_) => start - answer.windows(options.rollups[rollup]).settled.window,
            None => times.first().map_or(start, |first| start.min(*first)),
        };
        let high = match options.end {
            Some(_) => end,
            None => times.last().map_or(end, |last| end.max(*last)),
        };
        let (rollup, figures) = (options.rollups[rollup], &answer.figures[rollup]);
        let Windows { settled, behind } = answer.windows(rollup);
        let readings = Readings::of(&answer.series);
        let shown = shown(&readings.times, low, high);
        let drawn = [&readings.values, &answer.corrected[..]].map(|list| list.get(shown.clone()));
        let drawn = drawn.into_iter().flatten().filter(|list| !list.is_empty()).map(ends);
        let drawn: Vec<f64> = drawn.flat_map(|(low, high)| [low, high]).collect();
        let above = Panel::of_numbers(top + TITLE, READINGS, &drawn);
        let below = match rollup.about().unit {
            Unit::Unix => Panel::of_times,
            _ => Panel::of_numbers,
        };
        let below = below(above.bottom + BETWEEN, FIGURES, figures);
        let canvas = Canvas::new(readings, settled.reach, (low, high), vec![above, below]);
        let full = FULL * usual(behind);
        Part { canvas, answer, options, rollup, figures, full }
    }

    /// Whether a figure is of far fewer readings than the others.
    pub fn is_thin(&self, place: usize) -> bool {
        f64::from(self.answer.windows(self.rollup).behind[place]) < self.full
    }

    /// The length of its windows.
    pub fn window(&self) -> i64 {
        self.answer.windows(self.rollup).settled.window
    }

    pub fn draw(mut self) -> String {
        let unit = &self.options.common.unit;
        self.canvas.title(&self.title());
        self.canvas.gaps();
        self.canvas.times(&self.legend());
        self.away();
        self.canvas.frame_readings(unit);
        self.corrected();
        self.canvas.readings();
        let label = match unit_of(self.options.pre, self.rollup, unit) {
            unit if unit.is_empty() => self.rollup.to_string(),
            unit => format!("{}, {unit}", self.rollup),
        };
        self.canvas.frame(1, &label);
        self.figures();
        self.canvas.svg
    }

    /// Where the series went away, and what is said of it below the rest of the legend.
    fn away(&mut self) {
        let mut legend = vec![];
        if self.canvas.away() {
            legend.push("dotted: a staleness mark, the series went away");
        }
        if self.figures.iter().any(|figure| is_stale(*figure)) {
            legend.push("purple tick at the bottom: the figure is a mark");
        }
        if !legend.is_empty() {
            let (x, y) = (self.canvas.left, self.canvas.panels[1].bottom + 46.0);
            self.canvas.text(x, y, "class=\"note\"", &legend.join("; "));
        }
    }

    /// The counter as it goes on over its restarts, if it is drawn. It never falls, so that what is said
    /// of it has room at the left above.
    fn corrected(&mut self) {
        if !self.answer.corrected.is_empty() {
            let line = self.canvas.along("corrected", &self.answer.corrected);
            self.canvas.put(format_args!("{line}"));
            let (x, y) = (self.canvas.left + 8.0, self.canvas.panels[0].top + 18.0);
            self.canvas.text(x, y, "class=\"note\"", "pale: the restarts added back");
        }
    }

    /// The series, the rollup and the step that prepares its values, the window and the grid.
    fn title(&self) -> String {
        let pre = match self.options.pre {
            Step::None => String::new(),
            pre => format!(" after {pre}"),
        };
        format!(
            "{}: {}{pre} of windows of {}, one every {}",
            self.answer.name(),
            self.rollup,
            format_duration(self.window()),
            format_duration(self.answer.settings.step)
        )
    }

    fn legend(&self) -> String {
        let legend = match self.figures.len() {
            0..=SINGLE => {
                "bar: a figure along its window, dashed if of few readings; dot: its output time; "
            }
            _ => "line: the figures, pale if of few readings; ",
        };
        format!("{legend}tick at the bottom: no figure")
    }
}

/// The median of how many readings the windows have that have any.
fn usual(behind: &[u32]) -> f64 {
    let mut counts: Vec<u32> = behind.iter().copied().filter(|count| *count > 0).collect();
    let middle = counts.len() / 2;
    if counts.is_empty() { 0.0 } else { f64::from(*counts.select_nth_unstable(middle).1) }
}

/// The unit of the figures, from that of the values.
fn unit_of(pre: Step, rollup: Rollup, unit: &str) -> String {
    let unit = match pre {
        Step::Deriv if !unit.is_empty() => format!("{unit}/s"),
        Step::Intervals => "s".into(),
        _ => unit.into(),
    };
    match rollup.about().unit {
        Unit::Seconds => "s".into(),
        Unit::Unix => "UTC".into(),
        Unit::Number => String::new(),
        _ if unit.is_empty() => unit,
        Unit::Value => unit,
        Unit::Squared => format!("({unit})²"),
        Unit::PerSecond => format!("{unit}/s"),
        Unit::TimesSeconds => format!("{unit}·s"),
    }
}
