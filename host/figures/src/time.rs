//! Times as text: milliseconds since 1970, or RFC 3339 in UTC. Days are counted by the Gregorian
//! calendar with years that begin on 1 March, so that a leap day is the last of its year.

use std::fmt;

/// How a time is written.
#[derive(Clone, Copy, Debug, PartialEq, Eq)]
pub enum Form {
    /// As 1767225600000.
    Millis,
    /// As 2026-01-01T00:00:00Z.
    Rfc3339,
}

const SECOND: i64 = 1000;
const MINUTE: i64 = 60 * SECOND;
/// An hour in milliseconds.
pub const HOUR: i64 = 60 * MINUTE;
/// A day in milliseconds.
pub const DAY: i64 = 24 * HOUR;

/// The time in milliseconds and its form, or what was expected.
pub fn parse(text: &str) -> Result<(i64, Form), &'static str> {
    if let Ok(millis) = text.parse() {
        return Ok((millis, Form::Millis));
    }
    let digits = text.strip_prefix(['-', '+']).unwrap_or(text);
    if !digits.is_empty() && digits.bytes().all(|b| b.is_ascii_digit()) {
        return Err("expected milliseconds of at most 64 bits");
    }
    Ok((rfc3339(text.as_bytes())?, Form::Rfc3339))
}

fn rfc3339(text: &[u8]) -> Result<i64, &'static str> {
    const SHAPE: &str = "expected a time: milliseconds, or as 2026-01-31T12:00:00Z";
    let (date, clock) = text.split_at_checked(10).ok_or(SHAPE)?;
    let [y0, y1, y2, y3, b'-', m0, m1, b'-', d0, d1] = *date else { return Err(SHAPE) };
    let year = number(&[y0, y1, y2, y3]).ok_or(SHAPE)?;
    let month = number(&[m0, m1]).ok_or(SHAPE)?;
    let day = number(&[d0, d1]).ok_or(SHAPE)?;
    if !(1..=12).contains(&month) {
        return Err("expected a month from 01 to 12");
    }
    if day < 1 || day > days_of(year, month) {
        return Err("expected a day of that month");
    }
    let midnight = days(year, month, day) * DAY;
    if clock.is_empty() {
        return Ok(midnight);
    }
    let (hours, rest) = clock.split_at_checked(9).ok_or(SHAPE)?;
    let [b'T' | b't' | b' ', h0, h1, b':', m0, m1, b':', s0, s1] = *hours else {
        return Err(SHAPE);
    };
    let hour = number(&[h0, h1]).ok_or(SHAPE)?;
    let minute = number(&[m0, m1]).ok_or(SHAPE)?;
    let second = number(&[s0, s1]).ok_or(SHAPE)?;
    if hour > 23 || minute > 59 || second > 59 {
        return Err("expected a time of day up to 23:59:59");
    }
    Ok(midnight + hour * HOUR + minute * MINUTE + second * SECOND + fraction(rest)?)
}

/// The milliseconds of what follows the seconds: a fraction, if there is one, and the mark of UTC.
fn fraction(text: &[u8]) -> Result<i64, &'static str> {
    let zone = text.iter().position(|b| *b != b'.' && !b.is_ascii_digit()).unwrap_or(text.len());
    let (fraction, zone) = text.split_at(zone);
    if !matches!(zone, b"Z" | b"z" | b"+00:00" | b"-00:00") {
        return Err("expected UTC: a time that ends in Z");
    }
    let digits = match fraction {
        [] => return Ok(0),
        [b'.', digits @ ..] if !digits.is_empty() => digits,
        _ => return Err("expected digits after the point of the seconds"),
    };
    let (millis, finer) = digits.split_at(digits.len().min(3));
    if finer.iter().any(|b| *b != b'0') {
        return Err("expected at most three digits of a second");
    }
    let tens = [100, 10, 1][millis.len() - 1];
    number(millis).map(|n| n * tens).ok_or("expected digits after the point of the seconds")
}

fn number(digits: &[u8]) -> Option<i64> {
    digits.iter().try_fold(0, |n, b| b.is_ascii_digit().then(|| n * 10 + i64::from(b - b'0')))
}

fn days_of(year: i64, month: i64) -> i64 {
    let leap = year % 4 == 0 && (year % 100 != 0 || year % 400 == 0);
    match month {
        2 => 28 + i64::from(leap),
        4 | 6 | 9 | 11 => 30,
        _ => 31,
    }
}

/// The number of a day, 0 for 1 January 1970.
pub fn days(year: i64, month: i64, day: i64) -> i64 {
    let year = if month < 3 { year - 1 } else { year };
    let months = (month + 9) % 12;
    let in_year = (153 * months + 2) / 5 + day - 1;
    365 * year + year.div_euclid(4) - year.div_euclid(100) + year.div_euclid(400) + in_year
        - 719_468
}

/// Year, month and day of the number of a day.
pub fn date(day: i64) -> (i64, i64, i64) {
    let day = day + 719_468;
    let era = day.div_euclid(146_097);
    let in_era = day.rem_euclid(146_097);
    let year = (in_era - in_era / 1460 + in_era / 36_524 - in_era / 146_096) / 365;
    let in_year = in_era - (365 * year + year / 4 - year / 100);
    let months = (5 * in_year + 2) / 153;
    let day = in_year - (153 * months + 2) / 5 + 1;
    let month = (months + 2) % 12 + 1;
    (year + 400 * era + i64::from(month < 3), month, day)
}

/// A time to be written. A year of more or fewer than four digits is written in milliseconds.
#[derive(Clone, Copy, Debug)]
pub struct Stamp(pub i64, pub Form);

impl fmt::Display for Stamp {
    fn fmt(&self, f: &mut fmt::Formatter) -> fmt::Result {
        let Stamp(millis, form) = *self;
        if form == Form::Millis {
            return millis.fmt(f);
        }
        let (year, month, day) = date(millis.div_euclid(DAY));
        if !(0..=9999).contains(&year) {
            return millis.fmt(f);
        }
        let in_day = millis.rem_euclid(DAY);
        let (hour, minute, second) = (in_day / HOUR, in_day / MINUTE % 60, in_day / SECOND % 60);
        write!(f, "{year:04}-{month:02}-{day:02}T{hour:02}:{minute:02}:{second:02}")?;
        match in_day % SECOND {
            0 => f.write_str("Z"),
            rest => write!(f, ".{rest:03}Z"),
        }
    }
}

/// The units of a duration, longest first.
const UNITS: [(&str, i64); 6] =
    [("w", 7 * DAY), ("d", DAY), ("h", HOUR), ("m", MINUTE), ("s", SECOND), ("ms", 1)];

/// The milliseconds of a duration such as 1d, 1h30m or 250ms.
pub fn parse_duration(text: &str) -> Result<i64, &'static str> {
    const SHAPE: &str = "expected a duration, such as 1d, 1h30m, 5m, 30s or 250ms";
    let mut total: i64 = 0;
    let mut rest = text;
    while !rest.is_empty() {
        let (number, after) = rest.split_at(rest.find(|c: char| !c.is_ascii_digit()).ok_or(SHAPE)?);
        let end = after.find(|c: char| c.is_ascii_digit()).unwrap_or(after.len());
        let (unit, next) = after.split_at(end);
        let number: i64 = number.parse().map_err(|_| SHAPE)?;
        let (_, length) = UNITS.iter().find(|(name, _)| *name == unit).ok_or(SHAPE)?;
        let part = number.checked_mul(*length).ok_or("expected a shorter duration")?;
        total = total.checked_add(part).ok_or("expected a shorter duration")?;
        rest = next;
    }
    if text.is_empty() { Err(SHAPE) } else { Ok(total) }
}

/// The duration in its units, as 1d12h.
pub fn format_duration(millis: i64) -> String {
    let mut rest = millis;
    let mut text = String::new();
    for (name, length) in &UNITS[1..] {
        if rest >= *length {
            text += &format!("{}{name}", rest / length);
            rest %= length;
        }
    }
    if text.is_empty() { "0s".into() } else { text }
}

#[cfg(test)]
mod tests {
    use super::*;

    #[test]
    fn a_time_reads_back() {
        let (first, last) = (parse("0000-01-01").unwrap().0, parse("9999-12-31").unwrap().0);
        for millis in (first..=last).step_by((DAY + 12_345_678) as usize) {
            let text = Stamp(millis, Form::Rfc3339).to_string();
            assert_eq!(parse(&text), Ok((millis, Form::Rfc3339)), "{text}");
        }
        assert_eq!(parse("2026-11-15T00:00:00.250Z").unwrap().0, 1_794_700_800_250);
        assert_eq!(parse("1970-01-01 00:00:00.500000+00:00"), Ok((500, Form::Rfc3339)));
        assert_eq!(Stamp(253_402_300_800_000, Form::Rfc3339).to_string(), "253402300800000");
    }

    #[test]
    fn a_duration_reads_back() {
        for text in ["1d", "1d12h", "5m", "1m30s", "250ms", "1s1ms", "0s", "14d"] {
            assert_eq!(format_duration(parse_duration(text).unwrap()), text);
        }
        for text in ["", "5", "m", "5x", "-5m", "1.5h", "9999999999999999d"] {
            assert!(parse_duration(text).is_err(), "{text}");
        }
    }
}
