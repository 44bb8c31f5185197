//! What is found in series, as rows of fields: in CSV, in JSON and in a table of text. The first field
//! of a row is the name of its series.

use std::fmt;
use std::io::{self, Write};

use super::Number;
use super::json::{number, quoted, time};
use super::table::{left, lines, right};
use crate::fields::written;
use crate::text::visible;
use crate::time::{Stamp, format_duration};

/// A field of a row, displayed as CSV has it.
pub enum Field<'a> {
    Name(&'a str),
    /// A reading's, counted from 0 as the core counts.
    Index(usize),
    Time(Stamp),
    Value(Number),
    Word(&'static str),
    /// In milliseconds; for people in its units.
    Length(i64),
    /// There is none.
    Nothing,
}

impl fmt::Display for Field<'_> {
    fn fmt(&self, f: &mut fmt::Formatter) -> fmt::Result {
        match self {
            Field::Name(name) => f.write_str(&written(name)),
            Field::Index(index) => index.fmt(f),
            Field::Time(stamp) => stamp.fmt(f),
            Field::Value(number) => number.fmt(f),
            Field::Word(word) => f.write_str(word),
            Field::Length(millis) => millis.fmt(f),
            Field::Nothing => Ok(()),
        }
    }
}

impl Field<'_> {
    fn json(&self) -> String {
        match self {
            Field::Name(text) | Field::Word(text) => quoted(text),
            Field::Time(Stamp(millis, form)) => time(*millis, *form),
            Field::Value(Number(value, decimals)) => number(*value, *decimals),
            Field::Nothing => "null".into(),
            Field::Index(_) | Field::Length(_) => self.to_string(),
        }
    }

    fn text(&self) -> String {
        match self {
            Field::Name(name) => visible(name),
            Field::Length(millis) => format_duration(*millis),
            Field::Nothing => "none".into(),
            _ => self.to_string(),
        }
    }
}

/// A header and a line for each row, without names if these are not wanted.
pub fn csv<'a, const N: usize>(
    headers: [&str; N],
    named: bool,
    rows: impl Iterator<Item = [Field<'a>; N]>,
    out: &mut impl Write,
) -> io::Result<()> {
    let first = usize::from(!named);
    writeln!(out, "{}", headers[first..].join(","))?;
    for row in rows {
        write!(out, "{}", row[first])?;
        for field in &row[first + 1..] {
            write!(out, ",{field}")?;
        }
        writeln!(out)?;
    }
    Ok(())
}

/// An object for each row, on a line.
pub fn json<'a, const N: usize>(
    headers: [&str; N],
    rows: impl Iterator<Item = [Field<'a>; N]>,
    out: &mut impl Write,
) -> io::Result<()> {
    for row in rows {
        for (place, (header, field)) in headers.iter().zip(&row).enumerate() {
            let begin = if place == 0 { '{' } else { ',' };
            write!(out, "{begin}\"{header}\":{}", field.json())?;
        }
        writeln!(out, "}}")?;
    }
    Ok(())
}

/// A header and the rows under it, aligned, without names if these are not wanted.
pub fn table<'a, const N: usize>(
    headers: [&str; N],
    named: bool,
    rows: impl Iterator<Item = [Field<'a>; N]>,
    out: &mut impl Write,
) -> io::Result<()> {
    let mut columns = headers.map(|_| vec![]);
    for row in rows {
        for (column, field) in columns.iter_mut().zip(row) {
            column.push(field.text());
        }
    }
    let aligned = headers.into_iter().zip(columns).enumerate();
    let aligned = aligned.map(|(place, (header, cells))| match place {
        0 => left(header, cells),
        _ => right(header, cells),
    });
    lines(&aligned.skip(usize::from(!named)).collect::<Vec<_>>(), out)
}
