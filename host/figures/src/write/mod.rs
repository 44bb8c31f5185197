//! Figures, what is found in series, and their readings: as CSV, as JSON, as tables of text or as
//! bytes.

mod csv;
mod json;
pub mod readings;
pub mod rows;
mod table;

use std::fmt;
use std::io;

use harzoulin::is_stale;

use crate::answer::Answer;
use crate::failure::Failure;
use crate::fields::MARK;
use crate::files::Files;
use crate::options::{Common, Format, Options};
use crate::output::{Out, output};
use crate::say::say;
use crate::series::Series;
pub use table::table;

/// Writes the figures where the options say.
pub fn figures(answers: &[Answer], options: &Options, files: &mut Files) -> Result<(), Failure> {
    write(&options.common, files, |out| match options.common.format {
        Format::Csv => csv::all(answers, options, out),
        Format::Json => json::all(answers, options, out),
        Format::Text => answers.iter().try_for_each(|answer| table(answer, options, out)),
    })
}

/// Writes to the file of the output, or else to standard output.
pub fn write(
    common: &Common,
    files: &mut Files,
    fill: impl FnOnce(&mut Out) -> io::Result<()>,
) -> Result<(), Failure> {
    match &common.output {
        Some(path) => files.write(path, fill),
        None => output(fill),
    }
}

/// Writes the only output of a task, and then says what a person should know.
pub fn with_notes(
    common: &Common,
    notes: &[String],
    fill: impl FnOnce(&mut Out) -> io::Result<()>,
) -> Result<(), Failure> {
    let mut files = Files::default();
    write(common, &mut files, fill)?;
    files.put()?;
    notes.iter().for_each(say);
    Ok(())
}

/// Whether names stand before what CSV has: where there are several series, or a file has them.
pub fn is_named<'a>(mut all: impl ExactSizeIterator<Item = &'a Series>) -> bool {
    all.len() > 1 || all.any(|series| series.name.is_some())
}

/// A number with so many digits after the point, or else as the shortest text that reads back to the
/// same bits: std's, with an exponent for what is very large or very small. A staleness mark is its
/// word.
pub struct Number(pub f64, pub Option<usize>);

impl fmt::Display for Number {
    fn fmt(&self, f: &mut fmt::Formatter) -> fmt::Result {
        let Number(number, decimals) = *self;
        let (small, large) = (number.abs() < 1e-6 && number != 0.0, number.abs() >= 1e21);
        match decimals {
            _ if is_stale(number) => f.write_str(MARK),
            _ if !number.is_finite() => write!(f, "{number}"),
            Some(digits) if large => write!(f, "{number:.digits$e}"),
            Some(digits) => write!(f, "{number:.digits$}"),
            None if large || small => write!(f, "{number:e}"),
            None => write!(f, "{number}"),
        }
    }
}

#[cfg(test)]
mod tests {
    use harzoulin::STALE;

    use super::*;

    #[test]
    fn a_number_reads_back_to_the_same_bits() {
        let mut bits: u64 = 1;
        for _ in 0..100_000 {
            bits = bits.wrapping_mul(6_364_136_223_846_793_005).wrapping_add(1);
            let number = f64::from_bits(bits);
            if !number.is_nan() {
                let text = Number(number, None).to_string();
                assert_eq!(text.parse().map(f64::to_bits), Ok(bits), "{text}");
            }
        }
        let texts = [0.0, -0.0, 0.1, 1e21, 1e-7, 123456.0, f64::NAN, f64::INFINITY, STALE]
            .map(|number| Number(number, None).to_string());
        assert_eq!(texts, ["0", "-0", "0.1", "1e21", "1e-7", "123456", "NaN", "inf", "stale"]);
    }
}
