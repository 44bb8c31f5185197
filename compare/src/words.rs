//! The format of the fixed lists: a line beginning with `#`, then words of 16 hexadecimal digits,
//! each followed by one byte, a space or, after the last word of a case, a newline. So word k is
//! at 17 × k bytes after the first line.

use std::fmt::Write;

/// The pattern that every NaN is written as.
pub const NAN: u64 = 0x7ff8000000000000;

/// The bits of a value; any NaN is the one pattern.
pub fn bits(x: f64) -> u64 {
    if x.is_nan() {
        NAN
    } else {
        x.to_bits()
    }
}

pub fn all_bits(values: &[f64]) -> Vec<u64> {
    values.iter().map(|x| bits(*x)).collect()
}

/// Two's complement.
pub fn times(timestamps: &[i64]) -> Vec<u64> {
    timestamps.iter().map(|t| *t as u64).collect()
}

pub struct List {
    pub text: String,
    pub cases: usize,
}

impl List {
    pub fn new(note: &str) -> List {
        List { text: format!("# {note}\n"), cases: 0 }
    }

    pub fn case(&mut self, words: &[u64]) {
        for (i, word) in words.iter().enumerate() {
            let end = if i + 1 == words.len() { '\n' } else { ' ' };
            write!(self.text, "{word:016x}{end}").unwrap();
        }
        self.cases += 1;
    }
}
