//! What the parts of a picture are drawn on: panels above one another, with the times under them and
//! the readings of a series in the first.

use std::fmt::Write;
use std::ops::Range;

use super::axis::{self, Axis};
use super::panel::Panel;
use super::readings::Readings;
use crate::text::visible;

/// The frames end here, and begin here or where the longest mark has room.
pub const RIGHT: f64 = 960.0;
const LEFT: f64 = 90.0;
/// The room of the label beside a panel, of a letter, and between a mark and the frame.
const LABEL: f64 = 24.0;
const LETTER: f64 = 7.0;
const SPACE: f64 = 6.0;
/// The heights of the title above the panels and of the times under them.
pub const TITLE: f64 = 34.0;
pub const TIMES: f64 = 50.0;
/// From the title to the first panel.
const RAISED: f64 = 12.0;

/// A part of a picture as far as it is drawn.
pub struct Canvas<'a> {
    pub readings: Readings<'a>,
    /// Two readings that are further apart have a gap between them.
    pub silence: i64,
    /// The first and the last time that are shown.
    pub low: i64,
    pub high: i64,
    /// The readings are in the first.
    pub panels: Vec<Panel>,
    /// Where the frames begin, and from times to places.
    pub left: f64,
    pub x: Axis,
    pub svg: String,
}

impl<'a> Canvas<'a> {
    /// Nothing drawn yet. Readings that are apart by more than twice the reach have a gap between them.
    pub fn new(
        readings: Readings<'a>,
        reach: i64,
        span: (i64, i64),
        panels: Vec<Panel>,
    ) -> Canvas<'a> {
        let (low, high) = span;
        let longest = panels.iter().map(Panel::longest).max().unwrap_or(0);
        let left = LEFT.max(LABEL + LETTER * longest as f64 + SPACE);
        let x = Axis::new(low as f64, high as f64, left, RIGHT);
        Canvas { readings, silence: 2 * reach, low, high, panels, left, x, svg: String::new() }
    }

    pub fn put(&mut self, element: std::fmt::Arguments) {
        self.svg.write_fmt(element).and_then(|()| self.svg.write_char('\n')).expect("a string");
    }

    pub fn text(&mut self, x: f64, y: f64, attributes: &str, text: &str) {
        let text = visible(text).replace('&', "&amp;").replace('<', "&lt;").replace('>', "&gt;");
        self.put(format_args!("<text x=\"{x}\" y=\"{y}\" {attributes}>{text}</text>"));
    }

    pub fn title(&mut self, text: &str) {
        self.text(self.left, self.panels[0].top - RAISED, "class=\"title\"", text);
    }

    /// The frame of the panel of the readings, whose values have a unit, perhaps.
    pub fn frame_readings(&mut self, unit: &str) {
        let label = if unit.is_empty() { "readings".into() } else { format!("readings, {unit}") };
        self.frame(0, &label);
    }

    /// The frame of a panel with its marks and its label.
    pub fn frame(&mut self, panel: usize, label: &str) {
        let left = self.left;
        let Panel { top, bottom, ref marks, .. } = self.panels[panel];
        for (place, text) in marks.clone() {
            self.put(format_args!("<path class=\"mark\" d=\"M{left} {place}H{RIGHT}\"/>"));
            self.text(left - SPACE, place + 4.0, "text-anchor=\"end\"", &text);
        }
        let (width, height) = (RIGHT - left, bottom - top);
        self.put(format_args!(
            "<rect class=\"frame\" x=\"{left}\" y=\"{top}\" width=\"{width}\" height=\"{height}\"/>"
        ));
        let middle = (top + bottom) / 2.0;
        let turned = format!("text-anchor=\"middle\" transform=\"rotate(-90 16 {middle})\"");
        self.text(16.0, middle, &turned, label);
    }

    /// Round times: lines through all panels, and their text below, beside what is said of the marks.
    pub fn times(&mut self, legend: &str) {
        let panels = self.heights();
        let bottom = panels.last().map_or(0.0, |(_, bottom)| *bottom);
        for (time, text) in axis::times(self.low, self.high, 8) {
            let x = self.x.place(time as f64);
            for (top, bottom) in &panels {
                self.put(format_args!("<path class=\"mark\" d=\"M{x} {top}V{bottom}\"/>"));
            }
            self.text(x, bottom + 16.0, "text-anchor=\"middle\"", &text);
        }
        self.text(RIGHT, bottom + 32.0, "text-anchor=\"end\" class=\"note\"", "time, UTC");
        self.text(self.left, bottom + 32.0, "class=\"note\"", legend);
    }

    /// The top and the bottom of each panel.
    pub fn heights(&self) -> Vec<(f64, f64)> {
        self.panels.iter().map(|panel| (panel.top, panel.bottom)).collect()
    }
}

/// The readings from one time to another.
pub fn shown(times: &[i64], low: i64, high: i64) -> Range<usize> {
    let first = times.partition_point(|time| *time < low);
    first..times.partition_point(|time| *time <= high)
}
