//! Lines inside the panels, and the readings and their gaps.

use std::fmt::Write;
use std::ops::Range;

use super::axis::Axis;
use super::canvas::{Canvas, RIGHT, shown};

/// Up to so many readings or figures are drawn one by one.
pub const SINGLE: usize = 400;

impl Canvas<'_> {
    /// Where the next reading is missing for long: the ends of the gap. One that is narrower than a
    /// column of the picture cannot be seen, so that there are never more than there are columns.
    fn gap(&self, place: usize) -> Option<(f64, f64)> {
        let times = &self.readings.times;
        let (time, next) = (times[place], times[place + 1]);
        if next - time <= self.silence {
            return None;
        }
        let (from, to) = (self.inside(time), self.inside(next));
        (((to - from) * 10.0).round() >= 10.0).then_some((from, to))
    }

    /// Whether the series went away between a reading and the next. Between two that share a column of
    /// the picture it cannot be seen.
    fn was_away(&self, place: usize) -> bool {
        let column = |place: usize| self.x.place(self.readings.times[place] as f64).floor();
        self.readings.was_away(place) && column(place) != column(place + 1)
    }

    /// The place of a time, inside the frame.
    pub fn inside(&self, time: i64) -> f64 {
        self.x.place(time as f64).clamp(self.left, RIGHT)
    }

    /// Shades the gaps between readings, also with one that is not shown.
    pub fn gaps(&mut self) {
        let (times, panels) = (&self.readings.times, self.heights());
        let (shown, last) = (shown(times, self.low, self.high), times.len().saturating_sub(1));
        for place in shown.start.saturating_sub(1)..shown.end.min(last) {
            let Some((from, to)) = self.gap(place) else { continue };
            let width = ((to - from) * 10.0).round() / 10.0;
            for (top, bottom) in &panels {
                let height = bottom - top;
                self.put(format_args!(
                    "<rect class=\"gap\" x=\"{from}\" y=\"{top}\" width=\"{width}\" height=\"{height}\"/>"
                ));
            }
            if width > 30.0 {
                let attributes = "text-anchor=\"middle\" class=\"note\"";
                self.text((from + to) / 2.0, panels[0].0 + 16.0, attributes, "gap");
            }
        }
    }

    /// A line through all panels where the series went away; one of those that share a column of the
    /// picture. Says whether there are any.
    pub fn away(&mut self) -> bool {
        let times = self.readings.away(self.low, self.high);
        let mut places: Vec<f64> = times.map(|time| self.x.place(time as f64)).collect();
        places.dedup_by_key(|x| x.floor());
        let heights = self.heights();
        let lines = |x: &f64| -> String {
            heights.iter().map(|(top, bottom)| format!("M{x} {top}V{bottom}")).collect()
        };
        let path: String = places.iter().map(lines).collect();
        if !path.is_empty() {
            self.put(format_args!("<path class=\"away\" d=\"{path}\"/>"));
        }
        !path.is_empty()
    }

    /// A line through the readings. Few readings have a dot each.
    pub fn readings(&mut self) {
        let line = self.along("line", &self.readings.values);
        self.put(format_args!("{line}"));
        let shown = shown(&self.readings.times, self.low, self.high);
        let single = shown.len() <= SINGLE;
        for place in shown.filter(|_| single) {
            let x = self.x.place(self.readings.times[place] as f64);
            let y = self.panels[0].y.place(self.readings.values[place]);
            self.put(format_args!("<circle class=\"dot\" cx=\"{x}\" cy=\"{y}\" r=\"1.8\"/>"));
        }
    }

    /// A line among the readings through a number for each of them, broken at gaps and where the
    /// series went away.
    pub fn along(&self, class: &str, numbers: &[f64]) -> String {
        let times = &self.readings.times;
        let breaks = |place| self.gap(place).is_some() || self.was_away(place);
        let shown = shown(times, self.low, self.high);
        let path = self.path(&self.panels[0].y, shown, |place| times[place], numbers, breaks);
        format!("<path class=\"{class}\" d=\"{path}\"/>")
    }

    /// A line through numbers, broken after some; of those that share a column of the picture the
    /// first, the least, the greatest and the last are drawn.
    pub fn path(
        &self,
        y: &Axis,
        places: Range<usize>,
        time: impl Fn(usize) -> i64,
        numbers: &[f64],
        breaks: impl Fn(usize) -> bool,
    ) -> String {
        let x = |place| self.x.place(time(place) as f64);
        let mut path = String::new();
        let mut column: Vec<usize> = vec![];
        let mut letter = 'M';
        for place in places.clone() {
            column.push(place);
            let ends = place + 1 == places.end || breaks(place);
            if !ends && x(place + 1).floor() == x(place).floor() {
                continue;
            }
            for chosen in outline(&column, numbers) {
                let (x, y) = (x(chosen), y.place(numbers[chosen]));
                write!(path, "{letter}{x} {y}").expect("a string");
                letter = 'L';
            }
            column.clear();
            if ends && letter == 'L' {
                // A stretch of one number is a dot: a line of no length with round ends.
                path += "h0";
                letter = 'M';
            }
        }
        path
    }
}

/// Of the numbers of a column the first, the least, the greatest and the last, in order.
fn outline(column: &[usize], numbers: &[f64]) -> Vec<usize> {
    let finite = || column.iter().filter(|place| numbers[**place].is_finite());
    let by_number = |a: &&usize, b: &&usize| numbers[**a].total_cmp(&numbers[**b]);
    let ends = [finite().next(), finite().next_back()];
    let extremes = [finite().min_by(by_number), finite().max_by(by_number)];
    let mut chosen: Vec<usize> = ends.into_iter().chain(extremes).flatten().copied().collect();
    chosen.sort_unstable();
    chosen.dedup();
    chosen
}
