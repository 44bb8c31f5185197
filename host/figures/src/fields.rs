//! The fields of a line of CSV, as they are read and as they are written: what is written reads back.

use std::borrow::Cow;

use harzoulin::STALE;

/// The fields of a line. Blanks around a field are no part of it; what stands in quotes is kept as it
/// is, and two quotes in it are one.
pub fn split(line: &str) -> Result<Vec<Cow<'_, str>>, String> {
    let mut fields = vec![];
    let mut rest = line;
    loop {
        let start = rest.trim_ascii_start();
        let after = match start.strip_prefix('"') {
            None => {
                let end = start.find(',').unwrap_or(start.len());
                fields.push(Cow::Borrowed(start[..end].trim_ascii_end()));
                &start[end..]
            }
            Some(inside) => {
                let (field, after) = inside_quotes(inside)?;
                fields.push(Cow::Owned(field));
                after.trim_ascii_start()
            }
        };
        match after.strip_prefix(',') {
            Some(next) => rest = next,
            None if after.is_empty() => return Ok(fields),
            None => return Err("expected a comma after the closing quote".into()),
        }
    }
}

/// What stands before the closing quote, and what after it.
fn inside_quotes(text: &str) -> Result<(String, &str), String> {
    let mut field = String::new();
    let mut rest = text;
    loop {
        let (part, after) = rest.split_once('"').ok_or("expected a closing quote")?;
        field += part;
        let Some(next) = after.strip_prefix('"') else { return Ok((field, after)) };
        field.push('"');
        rest = next;
    }
}

/// The word for the staleness mark as a value.
pub const MARK: &str = "stale";

/// The value of a field, or what was expected.
pub fn value(text: &str) -> Result<f64, &'static str> {
    match text.parse() {
        Ok(number) => Ok(number),
        Err(_) if text == MARK => Ok(STALE),
        Err(_) if text.eq_ignore_ascii_case(MARK) => {
            Err("expected a number as value, or stale in lower case")
        }
        Err(_) => Err("expected a number as value"),
    }
}

/// A field as it is written: in quotes where it would be read as another without.
pub fn written(text: &str) -> Cow<'_, str> {
    let bare = text.trim_ascii() == text && !text.starts_with('#');
    match bare && !text.contains([',', '"', '\r', '\n']) {
        true => text.into(),
        false => format!("\"{}\"", text.replace('"', "\"\"")).into(),
    }
}
