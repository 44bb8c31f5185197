//! Plain lines, of which most files are made, read in one go: fields without blanks and quotes. What
//! is not plain is left to the full reader, which has all the rules and messages.

use crate::columns::Columns;
use crate::time;

/// A plain line.
pub struct Line<'a> {
    pub name: Option<&'a str>,
    pub time: i64,
    pub value: f64,
    /// Its bytes, with its end.
    pub length: usize,
}

/// The plain line that a buffer begins with.
pub fn line<'a>(buffer: &'a [u8], columns: &Columns) -> Option<Line<'a>> {
    let mut row = [&buffer[..0]; 3];
    let (mut count, mut length) = (0, 0);
    while count == 0 || buffer[length - 1] != b'\n' {
        let rest = &buffer[length..];
        let end = rest.iter().position(|byte| matches!(byte, b',' | b'\n'))?;
        *row.get_mut(count)? = &rest[..end];
        count += 1;
        length += end + 1;
    }
    let last = &mut row[count - 1];
    *last = last.strip_suffix(b"\r").unwrap_or(last);
    if count != columns.count {
        return None;
    }
    let text = |place: usize| str::from_utf8(row[place]).ok();
    let name = match columns.name {
        Some(place) => Some(text(place)?),
        None => None,
    };
    // A name that begins a comment or a quote, or that has blanks around it, is not what it looks
    // like.
    if name.is_some_and(|name| name.trim_ascii() != name || name.starts_with(['#', '"'])) {
        return None;
    }
    let (time, _) = time::parse(text(columns.time)?).ok()?;
    let value: f64 = text(columns.value)?.parse().ok()?;
    (!value.is_nan()).then_some(Line { name, time, value, length })
}
