//! Readings from CSV: a time and a value a line, and perhaps a name. A header, blank lines and
//! comments from `#` on are let through. A header may give the columns in any order; without one
//! they are time, value or name, time, value. The value `stale` is a staleness mark.

use std::borrow::Cow;
use std::collections::HashMap;
use std::fs::File;
use std::io::{self, BufRead, BufReader, Read};

use harzoulin::{MOST, Refusal, is_stale};

use crate::columns::{Chosen, Columns};
use crate::failure::Failure;
use crate::fields::{split, value};
use crate::plain;
use crate::progress::Progress;
use crate::series::Series;
use crate::text::excerpt;
use crate::time::{self, Form};

/// The most bytes of a line, without its end.
const LINE: u64 = 65_536;

/// What a file holds.
#[derive(Debug)]
pub struct Input {
    /// The series, in the order in which they begin; one without readings where there is none.
    pub series: Vec<Series>,
    /// What a person should know of how they were read.
    pub notes: Vec<String>,
}

/// What a file holds, `-` for standard input.
pub fn file(path: &str, chosen: &Chosen, progress: &Progress) -> Result<Input, Failure> {
    if path == "-" {
        return csv("standard input", io::stdin().lock(), chosen, progress);
    }
    let input = File::open(path).map_err(|error| Failure::file(path, error))?;
    csv(path, input, chosen, progress)
}

/// What a text holds.
pub fn csv(
    name: &str,
    input: impl Read,
    chosen: &Chosen,
    progress: &Progress,
) -> Result<Input, Failure> {
    let mut input = BufReader::with_capacity(1 << 20, input);
    let mut reader = Reader::new(name, chosen);
    let mut bytes = vec![];
    for line in 1.. {
        let filled = input.fill_buf();
        if matches!(filled, Ok([])) {
            break;
        }
        // A plain line is read where it stands. An error in filling the buffer is met again.
        if let Some(length) = reader.plain(line, filled.unwrap_or_default()) {
            input.consume(length);
        } else {
            bytes.clear();
            match input.by_ref().take(LINE + 1).read_until(b'\n', &mut bytes) {
                Ok(0) => break,
                Ok(length) if length as u64 > LINE && !bytes.ends_with(b"\n") => {
                    Err("expected a line of at most 65,536 bytes".into())
                }
                Ok(_) => reader.line(line, &bytes),
                Err(error) => return Err(Failure::file(name, error)),
            }
            .map_err(|expected| Failure::Input(format!("{name}:{line}: {expected}")))?;
        }
        if line % 65_536 == 0 {
            progress.read(65_536);
        }
    }
    Ok(reader.input())
}

struct Reader<'a> {
    file: &'a str,
    chosen: &'a Chosen,
    columns: Option<Columns>,
    all: Vec<Series>,
    places: HashMap<String, usize>,
    last: usize,
    /// The lines of figures that have none.
    without: usize,
}

impl<'a> Reader<'a> {
    fn new(file: &'a str, chosen: &'a Chosen) -> Reader<'a> {
        let (all, places) = (vec![], HashMap::new());
        Reader { file, chosen, columns: None, all, places, last: 0, without: 0 }
    }

    /// Takes in the line that a buffer begins with, if it is a plain one of a series that is known,
    /// and gives its length.
    fn plain(&mut self, line: usize, buffer: &[u8]) -> Option<usize> {
        let buffer = &buffer[..buffer.len().min(LINE as usize + 1)];
        let plain = plain::line(buffer, self.columns.as_ref()?)?;
        let place = self.known(plain.name).filter(|place| self.all[*place].times.len() < MOST)?;
        self.last = place;
        self.all[place].push(line, plain.time, plain.value);
        Some(plain.length)
    }

    /// Takes a line in, or says what was expected of it.
    fn line(&mut self, line: usize, bytes: &[u8]) -> Result<(), String> {
        let bytes = match line {
            1 => bytes.strip_prefix("\u{feff}".as_bytes()).unwrap_or(bytes),
            _ => bytes,
        };
        let bytes = bytes.trim_ascii();
        if bytes.is_empty() {
            return Ok(());
        }
        if bytes[0] == b'#' {
            return self.comment(bytes);
        }
        let text = str::from_utf8(bytes).map_err(|_| "expected UTF-8 text")?;
        let fields = split(text)?;
        if self.columns.is_none() && self.header(&fields)? {
            return Ok(());
        }
        self.row(line, &fields)
    }

    /// An error where a comment may be a reading of a series whose name begins with `#`.
    fn comment(&self, bytes: &[u8]) -> Result<(), String> {
        let fields = str::from_utf8(bytes).ok().and_then(|text| split(text).ok());
        let Some(fields) = fields else {
            return Ok(());
        };
        let usual = Columns::usual(fields.len());
        match self.columns.as_ref().or(usual.as_ref()) {
            Some(columns)
                if columns.name == Some(0)
                    && columns.count == fields.len()
                    && reading(&fields, columns).is_ok() =>
            {
                Err("expected a comment or a reading, found what may be either: a name that begins \
                     with # stands in quotes"
                    .into())
            }
            _ => Ok(()),
        }
    }

    /// Takes the columns from the first line, and says whether it is a header.
    fn header(&mut self, fields: &[Cow<str>]) -> Result<bool, String> {
        let named = Columns::named(fields, self.chosen)?;
        let is_header = named.is_some();
        self.columns = Some(named.or_else(|| Columns::usual(fields.len())).ok_or_else(|| {
            format!(
                "expected two fields, time and value, or three with a name before them, separated \
                 by commas, found {}",
                fields.len()
            )
        })?);
        Ok(is_header)
    }

    /// Takes a reading in.
    fn row(&mut self, line: usize, fields: &[Cow<str>]) -> Result<(), String> {
        let columns = self.columns.as_ref().expect("the first line gave them");
        if fields.len() != columns.count {
            return Err(columns.expected(fields.len()));
        }
        let (time, form, value) =
            reading(fields, columns).map_err(|expected| {
                match Columns::named(fields, self.chosen) {
                    Ok(Some(_)) => "expected a reading, found a header".into(),
                    _ => expected,
                }
            })?;
        if columns.figures && value.is_nan() && !is_stale(value) {
            self.without += 1;
            return Ok(());
        }
        let place = self.place(columns.name.map(|column| &*fields[column]), form)?;
        if self.all[place].times.len() == MOST {
            return Err(Refusal::Readings.to_string());
        }
        self.all[place].push(line, time, value);
        Ok(())
    }

    /// The index of the series of a name, which is a new one if need be.
    fn place(&mut self, name: Option<&str>, form: Form) -> Result<usize, String> {
        if name == Some("") {
            return Err("expected a name, found none".into());
        }
        self.last = self.known(name).unwrap_or_else(|| {
            self.all.push(Series::new(self.file, name.map(String::from), form));
            self.places.insert(name.unwrap_or_default().into(), self.all.len() - 1);
            self.all.len() - 1
        });
        Ok(self.last)
    }

    /// The index of the series of a name, if there is one. Most often it is the last.
    fn known(&self, name: Option<&str>) -> Option<usize> {
        let last = self.all.get(self.last)?;
        let is_last = last.name.as_deref() == name;
        if is_last { Some(self.last) } else { self.places.get(name?).copied() }
    }

    fn input(mut self) -> Input {
        if self.all.is_empty() {
            self.all.push(Series::new(self.file, None, Form::Rfc3339));
        }
        let mut notes = vec![];
        let unused = self.columns.map_or(vec![], |columns| columns.unused);
        if !unused.is_empty() {
            let names: Vec<String> = unused.iter().map(|name| excerpt(name)).collect();
            notes.push(format!("{}: columns that are not used: {}", self.file, names.join(", ")));
        }
        if self.without > 0 {
            let count = self.without;
            notes.push(format!("{}: lines without a figure (NaN), left out: {count}", self.file));
        }
        Input { series: self.all, notes }
    }
}

/// The time with its form and the value of a line, or what was expected.
fn reading(fields: &[Cow<str>], columns: &Columns) -> Result<(i64, Form, f64), String> {
    let [time, text] = [columns.time, columns.value].map(|place| fields[place].trim_ascii());
    let found = |text: &str| format!("found \"{}\"", excerpt(text));
    let (millis, form) =
        time::parse(time).map_err(|expected| format!("{expected}, {}", found(time)))?;
    let number = value(text).map_err(|expected| format!("{expected}, {}", found(text)))?;
    Ok((millis, form, number))
}

#[cfg(test)]
mod tests {
    use super::*;

    /// A text that comes a byte at a time, so that no line stands in the buffer as a whole.
    struct Bytes<'a>(&'a [u8]);

    impl Read for Bytes<'_> {
        fn read(&mut self, buffer: &mut [u8]) -> io::Result<usize> {
            let length = self.0.len().min(1);
            self.0.read(&mut buffer[..length])
        }
    }

    const NAMES: [&str; 15] = [
        "a",
        "a",
        "a",
        "b",
        " a ",
        "a ",
        "\"a\"",
        "\"a \"",
        "\"a\r\"",
        "a\r",
        "\"\"\"a\"",
        "\"a",
        "#a",
        "#a",
        "\"#a\"",
    ];
    const TIMES: [&str; 12] = [
        "5",
        "60000",
        "60001",
        "-5",
        "+7",
        " 8",
        "\"9\"",
        "2026-01-01",
        "2026-01-01T00:00:00Z",
        "99999999999999999999",
        "000000000000000000001",
        "",
    ];
    const VALUES: [&str; 14] = [
        "1", "20.5", "-0", "0.1", ".5", "5.", "1e5", "NaN", "\"3\"", "4 ", "-", "1,1", "stale",
        "Stale",
    ];
    const ENDS: [&str; 8] = ["\n", "\n", "\n", "\r\n", " \n", "\n\n", "\n#\n", "\r\r\n"];

    /// One of the texts, one time in so many any of them, else one of the first two.
    fn pick(seed: &mut u64, texts: &[&str], usual: u64) -> String {
        *seed = seed.wrapping_mul(6_364_136_223_846_793_005).wrapping_add(1);
        let random = *seed >> 33;
        let count = if random.is_multiple_of(usual) { texts.len() } else { 2 };
        texts[random as usize / 64 % count].to_string()
    }

    /// Some lines, most of them plain.
    fn text(seed: &mut u64) -> String {
        let named = pick(seed, &["", "named"], 1) == "named";
        let mut text = match named {
            true => pick(seed, &["name,time,value\n", "", "value,time,name\n"], 2),
            false => pick(seed, &["time,value\n", "", "time,avg\n"], 2),
        };
        let turned = text.starts_with("value");
        for _ in 0..4 {
            let (name, time) = (pick(seed, &NAMES, 3), pick(seed, &TIMES, 4));
            let (value, end) = (pick(seed, &VALUES, 4), pick(seed, &ENDS, 3));
            text += &match (named, turned) {
                (true, true) => format!("{value},{time},{name}{end}"),
                (true, false) => format!("{name},{time},{value}{end}"),
                (false, _) => format!("{time},{value}{end}"),
            };
        }
        text
    }

    /// What is read as a plain line is what the full reader makes of it.
    #[test]
    fn plain_lines_are_read_as_all_others() {
        let (mut seed, mut accepted) = (1, 0);
        let (chosen, progress) = (Chosen::default(), Progress::default());
        for _ in 0..30_000 {
            let text = text(&mut seed);
            let all = csv("text", text.as_bytes(), &chosen, &progress);
            let full = csv("text", Bytes(text.as_bytes()), &chosen, &progress);
            assert_eq!(format!("{all:?}"), format!("{full:?}"), "{text}");
            accepted += usize::from(all.is_ok());
        }
        assert!(accepted > 3_000, "{accepted}");
    }
}
