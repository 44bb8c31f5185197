//! Readings as they are read: in CSV that reads back to them, and in bytes for programs.

use std::io::{self, Write};

use super::Number;
use super::json::quoted;
use super::rows::{self, Field};
use crate::columns::READINGS;
use crate::series::Series;
use crate::time::{Form, Stamp};

/// The readings of a series, with the name that stands before them and the form of their times.
pub struct Readings<'a> {
    pub name: &'a str,
    pub form: Form,
    pub times: &'a [i64],
    pub values: &'a [f64],
}

const HEADERS: [&str; 3] = ["name", "time", "value"];

/// A header and a line for each reading, without names if these are not wanted.
pub fn csv<'a>(
    named: bool,
    all: impl Iterator<Item = Readings<'a>>,
    out: &mut impl Write,
) -> io::Result<()> {
    rows::csv(HEADERS, named, all.flat_map(Readings::rows), out)
}

impl<'a> Readings<'a> {
    /// Values are written to the last bit, since they are to be read again.
    fn rows(self) -> impl Iterator<Item = [Field<'a>; 3]> {
        let Readings { name, form, times, values } = self;
        times.iter().zip(values).map(move |(time, value)| {
            let (time, value) = (Stamp(*time, form), Number(*value, None));
            [Field::Name(name), Field::Time(time), Field::Value(value)]
        })
    }
}

/// For each series a line of JSON with its name and how many readings follow: all times, then the bits
/// of all values, eight bytes each, the lowest first. The name is the one in the file, or null: a
/// program knows what its files are called.
pub fn raw(all: &[Series], out: &mut impl Write) -> io::Result<()> {
    for series in all {
        let name = series.name.as_deref().map_or("null".into(), quoted);
        writeln!(out, "{{\"name\":{name},\"{READINGS}\":{}}}", series.times.len())?;
        for time in &series.times {
            out.write_all(&time.to_le_bytes())?;
        }
        for value in &series.values {
            out.write_all(&value.to_bits().to_le_bytes())?;
        }
    }
    Ok(())
}
