//! Malformed CSV: each kind has its message, with the line and what was expected, and no output.

mod common;

use common::{Outcome, figures};

#[track_caller]
fn refused(input: impl AsRef<[u8]>, message: &str) {
    let outcome = figures("--rollup avg --step 1m -", input.as_ref());
    let errors = format!("figures: standard input:{message}\n");
    assert_eq!(outcome, Outcome { status: 1, output: String::new(), errors });
}

#[test]
fn values() {
    refused("0,abc\n", "1: expected a number as value, found \"abc\"");
    refused("0,1\n60000,\n", "2: expected a number as value, found \"\"");
    refused("0,0x10\n", "1: expected a number as value, found \"0x10\"");
    refused("0,1 2\n", "1: expected a number as value, found \"1 2\"");
    refused("0,NaN\n", "1: refusal 5 at reading 1: the value is NaN or infinite: NaN");
    refused("0,1\n1,-inf\n", "2: refusal 5 at reading 2: the value is NaN or infinite: -inf");
    refused("0,1\n1,1e999\n", "2: refusal 5 at reading 2: the value is NaN or infinite: inf");
}

#[test]
fn times() {
    let shape = "expected a time: milliseconds, or as 2026-01-31T12:00:00Z";
    refused(",1\n", &format!("1: {shape}, found \"\""));
    refused("# none\n\nyesterday,1\n", &format!("3: {shape}, found \"yesterday\""));
    refused("1.5,1\n", &format!("1: {shape}, found \"1.5\""));
    refused(
        "2026-01-01T12:00Z,1\n",
        "1: expected a time: milliseconds, or as 2026-01-31T12:00:00Z, found \"2026-01-01T12:00Z\"",
    );
    refused("2026-13-01,1\n", "1: expected a month from 01 to 12, found \"2026-13-01\"");
    refused("2025-02-29,1\n", "1: expected a day of that month, found \"2025-02-29\"");
    refused(
        "2026-01-01T24:00:00Z,1\n",
        "1: expected a time of day up to 23:59:59, found \"2026-01-01T24:00:00Z\"",
    );
    refused(
        "2026-01-01T12:00:00+01:00,1\n",
        "1: expected UTC: a time that ends in Z, found \"2026-01-01T12:00:00+01:00\"",
    );
    refused(
        "2026-01-01T12:00:00.0005Z,1\n",
        "1: expected at most three digits of a second, found \"2026-01-01T12:00:00.0005Z\"",
    );
    refused(
        "2026-01-01T12:00:00.Z,1\n",
        "1: expected digits after the point of the seconds, found \"2026-01-01T12:00:00.Z\"",
    );
    refused(
        "9223372036854775808,1\n",
        "1: expected milliseconds of at most 64 bits, found \"9223372036854775808\"",
    );
    refused(
        "0,1\n1125899906842625,1\n",
        "2: refusal 3 at reading 2: the time lies outside ±2^50 milliseconds: 1125899906842625",
    );
    let order = "at reading 2: the time is below the one before";
    refused("time,value\n5,1\n4,1\n", &format!("3: refusal 4 {order}: 4 after 5"));
    refused("5,1\n\n# a comment\n4,1\n", &format!("4: refusal 4 {order}: 4 after 5"));
    refused("a,5,1\nb,1,1\nb,2,1\na,4,1\n", &format!("4: series a: refusal 4 {order}: 4 after 5"));
}

#[test]
fn fields() {
    let fields = "expected two fields, time and value, or three with a name before them, \
                  separated by commas";
    refused("5\n", &format!("1: {fields}, found 1"));
    refused("0;1\n", &format!("1: {fields}, found 1"));
    refused("a,b,0,1\n", &format!("1: {fields}, found 4"));
    refused("0,1\n1\n", "2: expected 2 fields, time and value, found 1");
    refused("0,1\n1,1,5\n", "2: expected 2 fields, time and value, found 3");
    refused("a,0,1\n1,2\n", "2: expected 3 fields, name, time and value, found 2");
    refused("a,0,1\n,1,2\n", "2: expected a name, found none");
    refused("\"a,0,1\n", "1: expected a closing quote");
    refused("\"a\"b,0,1\n", "1: expected a comma after the closing quote");
    refused(b"0,1\n\xff\xfe,1\n", "2: expected UTF-8 text");
}

#[test]
fn headers() {
    let header = "expected a header with time and value, and perhaps name";
    let choose = "choose columns by --time-column, --value-column or --name-column";
    refused("time,celsius\n", &format!("1: {header}"));
    refused("time,value,unit\n", &format!("1: {header}, found unit besides: {choose}"));
    refused("time,value,readings\n", &format!("1: {header}, found readings besides: {choose}"));
    refused("time,value,name,unit\n", &format!("1: {header}, found unit besides: {choose}"));
    refused(
        "time,Timestamp,value\n",
        "1: expected one column of times, found time and Timestamp: choose one by --time-column",
    );
    let again = "expected a reading, found a header";
    refused("time,value\n0,1\ntime,value\n", &format!("3: {again}"));
    refused("0,1\n\nTime,Value\n", &format!("3: {again}"));
    refused("name,time,value\na,0,1\nname,time,avg\n", &format!("3: {again}"));
}

#[test]
fn no_reading() {
    for input in ["", "time,value\n", "# nothing\n\n"] {
        let outcome = figures("--rollup avg --step 1m -", input.as_bytes());
        let errors = "figures: standard input: expected a reading, or --start and --end\n";
        assert_eq!((outcome.status, outcome.errors.as_str()), (1, errors));
    }
    let outcome = figures("--rollup absent --step 1m --start 0 --end 0 --times ms -", b"");
    assert_eq!(outcome.output, "time,absent\n0,1\n");
}
