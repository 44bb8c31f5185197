//! The part of a picture that belongs to a series and a limit.

use harzoulin::{Settings, settle};

use super::canvas::{Canvas, RIGHT, TIMES, TITLE};
use super::panel::{Panel, ends};
use super::readings::Readings;
use crate::crossings::Crossed;
use crate::options::Common;
use crate::write::Number;

const READINGS: f64 = 220.0;
pub const HEIGHT: f64 = TITLE + READINGS + TIMES;

/// What is drawn in no other picture. The label can be read over a line.
pub const STYLE: &str = ".limit{stroke:#c62828;stroke-width:1.2;stroke-dasharray:6 4}\
.label{fill:#c62828;stroke:#fff;stroke-width:3;paint-order:stroke}\
.up,.down{fill:#c62828;stroke:#c62828;stroke-linejoin:round}.down{fill:#fff}";

const LEGEND: &str = "dashed: the limit; triangle on it: a crossing, up to the limit or above, or down \
                      below it";
/// Between the limit's line and its label, and the room that a label above it needs.
const SPACE: f64 = 6.0;
const LINE: f64 = 12.0;

/// The readings, the limit and a mark on it at the time of each crossing.
pub fn draw(crossed: &Crossed, common: &Common, top: f64) -> String {
    let (series, limit) = (&crossed.series, crossed.limit);
    let span = series.times.first().copied().zip(series.times.last().copied());
    let (low, high) = span.map_or((limit, limit), |_| ends(&series.values));
    let panel = Panel::of_numbers(top + TITLE, READINGS, &[low, high, limit]);
    let (reach, shown) = (reach(&series.times), span.unwrap_or((0, 0)));
    let mut canvas = Canvas::new(Readings::of(series), reach, shown, vec![panel]);
    canvas.title(&format!("{}: {}", series.title, with_unit(crossed.sum(), &common.unit)));
    canvas.gaps();
    match span {
        Some(_) => canvas.times(LEGEND),
        None => canvas.text(canvas.left, top + HEIGHT - 30.0, "class=\"note\"", "no readings"),
    }
    canvas.frame_readings(&common.unit);
    canvas.readings();
    let (left, height) = (canvas.left, canvas.panels[0].y.place(limit));
    canvas.put(format_args!("<path class=\"limit\" d=\"M{left} {height}H{RIGHT}\"/>"));
    marks(&mut canvas, crossed, height);
    let label = with_unit(format!("limit {}", Number(limit, None)), &common.unit);
    let above = height - SPACE - LINE > canvas.panels[0].top;
    let place = if above { height - SPACE } else { height + SPACE + LINE };
    canvas.text(RIGHT - SPACE, place, "text-anchor=\"end\" class=\"label\"", &label);
    canvas.svg
}

/// A mark for each crossing; of those up, and of those down, that share a column of the picture one.
fn marks(canvas: &mut Canvas, crossed: &Crossed, height: f64) {
    let mut last = [None; 2];
    for index in &crossed.indexes {
        let x = canvas.x.place(crossed.series.times[*index] as f64);
        let (up, column) = (crossed.is_up(*index), Some(x.floor()));
        if last[usize::from(up)] != column {
            last[usize::from(up)] = column;
            let (class, tip) = if up { ("up", "-4 -7") } else { ("down", "-4 7") };
            canvas.put(format_args!("<path class=\"{class}\" d=\"M{x} {height}m-4 0h8l{tip}z\"/>"));
        }
    }
}

fn with_unit(text: String, unit: &str) -> String {
    if unit.is_empty() { text } else { format!("{text} {unit}") }
}

/// The reach that the core settles for a grid without limits, as in pictures of figures.
fn reach(times: &[i64]) -> i64 {
    let settled = settle(times, &Settings::default());
    settled.expect("the series is accepted, and one output time").reach
}
