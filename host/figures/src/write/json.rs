//! Figures as JSON: an object a line, one for each output time.

use std::fmt::Write as _;
use std::io::{self, Write};

use harzoulin::is_stale;

use super::Number;
use crate::answer::Answer;
use crate::columns::READINGS;
use crate::fields::MARK;
use crate::options::Options;
use crate::text::is_hidden;
use crate::time::{Form, Stamp};

/// The name, the time, each figure under the name of its rollup, and how many readings it is of.
pub fn all(answers: &[Answer], options: &Options, out: &mut impl Write) -> io::Result<()> {
    let keys: Vec<String> = options.rollups.iter().map(|r| quoted(&r.to_string())).collect();
    for answer in answers {
        let name = quoted(answer.name());
        let form = options.common.form(&answer.series);
        for place in 0..answer.points() {
            write!(out, "{{\"name\":{name},\"time\":{}", time(answer.time(place), form))?;
            for (key, figures) in keys.iter().zip(&answer.figures) {
                write!(out, ",{key}:{}", number(figures[place], options.common.decimals))?;
            }
            writeln!(out, ",\"{READINGS}\":{}}}", answer.behind()[place])?;
        }
    }
    Ok(())
}

/// Milliseconds are a number, all else is a text.
pub fn time(millis: i64, form: Form) -> String {
    let text = Stamp(millis, form).to_string();
    if text.bytes().all(|byte| byte == b'-' || byte.is_ascii_digit()) {
        text
    } else {
        quoted(&text)
    }
}

/// No figure is null, and a staleness mark the word for it. JSON has no infinity, but numbers that are
/// read as one.
pub fn number(figure: f64, decimals: Option<usize>) -> String {
    match figure {
        _ if is_stale(figure) => quoted(MARK),
        _ if figure.is_nan() => "null".into(),
        f64::INFINITY => "1e999".into(),
        f64::NEG_INFINITY => "-1e999".into(),
        _ => Number(figure, decimals).to_string(),
    }
}

/// A text of JSON, with escapes also for what cannot be seen.
pub fn quoted(text: &str) -> String {
    let mut json = String::from("\"");
    for letter in text.chars() {
        match letter {
            '"' | '\\' => json.extend(['\\', letter]),
            _ if is_hidden(letter) => {
                let mut units = [0; 2];
                for unit in letter.encode_utf16(&mut units) {
                    write!(json, "\\u{unit:04x}").expect("a string");
                }
            }
            _ => json.push(letter),
        }
    }
    json + "\""
}
