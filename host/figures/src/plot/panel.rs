//! A panel: a frame, and from numbers to heights in it.

use super::axis::{self, Axis};

/// Between the outermost marks and the frame.
const MARGIN: f64 = 8.0;
/// Half of what is shown around a lone time, in seconds.
const AROUND: f64 = 1800.0;
/// So many times stand beside a panel, or a few more.
const TIMES: i64 = 5;

/// A frame from top to bottom, with the axis of its numbers and the marks along it.
pub struct Panel {
    pub top: f64,
    pub bottom: f64,
    pub y: Axis,
    pub marks: Vec<(f64, String)>,
}

impl Panel {
    /// A panel that shows all numbers that are finite.
    pub fn of_numbers(top: f64, height: f64, numbers: &[f64]) -> Panel {
        let (low, high) = ends(numbers);
        let bottom = top + height;
        let y = Axis::new(low, high, bottom - MARGIN, top + MARGIN);
        Panel { top, bottom, marks: y.marks(), y }
    }

    /// A panel whose numbers are seconds since 1970, with the times beside it.
    pub fn of_times(top: f64, height: f64, seconds: &[f64]) -> Panel {
        let (low, high) = ends(seconds);
        let (low, high) =
            if high - low < 1.0 { (low - AROUND, high + AROUND) } else { (low, high) };
        let bottom = top + height;
        let y = Axis::new(low, high, bottom - MARGIN, top + MARGIN);
        let times = axis::times((low * 1000.0) as i64, (high * 1000.0) as i64, TIMES);
        let mark = |(time, text)| (y.place(time as f64 / 1000.0), text);
        Panel { top, bottom, marks: times.into_iter().map(mark).collect(), y }
    }

    /// The letters of the longest mark.
    pub fn longest(&self) -> usize {
        self.marks.iter().map(|(_, text)| text.len()).max().unwrap_or(0)
    }
}

/// The least and the greatest number that is finite; 0 and 1 where there is none.
pub fn ends(numbers: &[f64]) -> (f64, f64) {
    let finite = numbers.iter().copied().filter(|number| number.is_finite());
    let (low, high) = finite.fold((f64::MAX, f64::MIN), |(l, h), n| (l.min(n), h.max(n)));
    if low <= high { (low, high) } else { (0.0, 1.0) }
}
