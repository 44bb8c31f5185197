//! Figures as a table of text.

use std::io::{self, Write};

use super::Number;
use crate::answer::Answer;
use crate::columns::READINGS;
use crate::options::Options;
use crate::text::visible;
use crate::time::{Stamp, format_duration};

/// A table of a series: a line about it, a header, and under it the times, the figures and how many
/// readings each figure is of.
pub fn table(answer: &Answer, options: &Options, out: &mut impl Write) -> io::Result<()> {
    let form = options.common.form(&answer.series);
    let stamp = |place| Stamp(answer.time(place), form).to_string();
    let mut columns = vec![left("time", (0..answer.points()).map(stamp).collect())];
    for (rollup, figures) in options.rollups.iter().zip(&answer.figures) {
        let number = |figure: &f64| Number(*figure, options.common.decimals).to_string();
        columns.push(right(&rollup.to_string(), figures.iter().map(number).collect()));
    }
    columns.push(right(READINGS, answer.behind().iter().map(u32::to_string).collect()));
    let lengths: Vec<String> = answer.lengths().map(format_duration).collect();
    writeln!(
        out,
        "{}: {}, prepared by {}, windows of {}",
        visible(answer.name()),
        answer.sum(),
        options.pre,
        lengths.join(" and, where marks are seen, "),
    )?;
    lines(&columns, out)?;
    writeln!(out)
}

/// A column under its header, each cell as wide as the widest, with its text at the left.
pub fn left(header: &str, cells: Vec<String>) -> Vec<String> {
    column(header, cells, |cell, width| format!("{cell:width$}"))
}

/// The same with the text at the right.
pub fn right(header: &str, cells: Vec<String>) -> Vec<String> {
    column(header, cells, |cell, width| format!("{cell:>width$}"))
}

fn column(header: &str, cells: Vec<String>, fill: fn(&str, usize) -> String) -> Vec<String> {
    let cells = || [header].into_iter().chain(cells.iter().map(String::as_str));
    let width = cells().map(|cell| cell.chars().count()).max().unwrap_or(0);
    cells().map(|cell| fill(cell, width)).collect()
}

/// The lines of columns beside one another.
pub fn lines(columns: &[Vec<String>], out: &mut impl Write) -> io::Result<()> {
    for row in 0..columns.first().map_or(0, Vec::len) {
        let cells: Vec<&str> = columns.iter().map(|column| column[row].as_str()).collect();
        writeln!(out, "{}", cells.join("  "))?;
    }
    Ok(())
}
