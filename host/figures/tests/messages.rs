//! Messages that tell people what to do: the numbers that met a refusal, and times that look like
//! seconds.

mod common;

use common::figures;

#[track_caller]
fn refused(line: &str, input: &str, message: &str) {
    let outcome = figures(line, input.as_bytes());
    let errors = format!("figures: standard input{message}\n");
    assert_eq!((outcome.status, outcome.errors), (1, errors));
}

const READINGS: &str = "0,1\n60000,2\n";

/// Readings are counted from one, as lines are.
#[test]
fn refusals_of_readings() {
    let of = |input: &str, message: &str| refused("--rollup avg --step 1m -", input, message);
    of(
        "time,value\n5,1\n5,2\n4,3\n",
        ":4: refusal 4 at reading 3: the time is below the one before: 4 after 5",
    );
    of(
        "2026-01-02,1\n2026-01-01,2\n",
        ":2: refusal 4 at reading 2: the time is below the one before: 2026-01-01T00:00:00Z \
         after 2026-01-02T00:00:00Z",
    );
    of(
        "1125899906842625,1\n",
        ":1: refusal 3 at reading 1: the time lies outside ±2^50 milliseconds: 1125899906842625",
    );
    of("0,-inf\n", ":1: refusal 5 at reading 1: the value is NaN or infinite: -inf");
}

#[test]
fn refusals_of_settings() {
    let of = |options: &str, message: &str| {
        refused(&format!("--rollup avg {options} -"), READINGS, &format!(": {message}"));
    };
    of("--step 0s", "refusal 6: the step lies outside 1 to 2^50 milliseconds: 0");
    let span = "refusal 7: start or end lies outside ±2^50 milliseconds, or start is after end";
    of("--step 1m --start 120000", &format!("{span}: start 120000, end 60000"));
    of(
        "--step 1m --start 1970-01-01 --end 9999999999999999",
        &format!("{span}: start 0, end 9999999999999999"),
    );
    of(
        "--step 1m --window 99999999d",
        "refusal 8: the window lies outside 0 to 2^50 milliseconds: 8639999913600000",
    );
    for name in ["lookback", "staleness"] {
        let range = "lies outside 0 to 2^50 milliseconds: 8639999913600000";
        of(&format!("--step 1m --{name} 99999999d"), &format!("refusal 9: the {name} {range}"));
    }
    of(
        "--step 1m --max-points 1125899906842625",
        "refusal 9: the point limit lies outside 0 to 2^50: 1125899906842625",
    );
    of("--step 1m --max-points -1", "refusal 9: the point limit lies outside 0 to 2^50: -1");
    of(
        "--step 1m --per-call 65536 --stats",
        "refusal 9: the per-call number is over 65,535: 65536",
    );
    of(
        "--step 1ms --max-points 5",
        "refusal 10: the grid has more output times than the point limit allows: 60001, limit 5",
    );
    of(
        "--step 1ms --start 0 --end 16777216",
        "refusal 11: the grid has over 16,777,216 output times: 16777217",
    );
}

#[test]
fn refusals_of_explain() {
    let line = "explain --rollup avg --step 1m --at 1125899906842625 -";
    let message = ": refusal 7: start or end lies outside ±2^50 milliseconds, or start is after end: \
                   start 1125899906842625, end 1125899906842625";
    refused(line, READINGS, message);
}

/// Those of the readings go before that of the limit.
#[test]
fn refusals_of_crossings() {
    let of = |limit: &str, input: &str, message: &str| {
        refused(&format!("crossings --limit {limit} -"), input, message);
    };
    of(
        "nan",
        "time,value\n5,1\n4,NaN\n",
        ":3: refusal 4 at reading 2: the time is below the one before: 4 after 5",
    );
    of("nan", "0,1\n1,inf\n", ":2: refusal 5 at reading 2: the value is NaN or infinite: inf");
    let sentence = "refusal 15: the limit of the crossings is NaN or infinite";
    for (limit, number) in [("NaN", "NaN"), ("-inf", "-inf"), ("1e999", "inf")] {
        of(limit, READINGS, &format!(": {sentence}: {number}"));
    }
    of("inf", "a,0,1\n", &format!(": series a: {sentence}: inf"));
}

/// The asked time is told from a reading's own, and looked at before the order of the readings.
#[test]
fn refusals_of_nearest() {
    let of = |at: &str, input: &str, message: &str| {
        refused(&format!("nearest --at {at} -"), input, message);
    };
    let asked = "refusal 3: the asked time lies outside ±2^50 milliseconds";
    for at in ["1125899906842625", "-1125899906842625", "9223372036854775807"] {
        let message = format!(": {asked}: {at}");
        of(at, READINGS, &message);
        of(at, "", &message);
        of(at, "5,1\n4,1\n", &message);
        of(at, "a,0,1\n", &format!(": series a{message}"));
    }
    for at in ["0", "1125899906842625"] {
        for (input, place) in [("1125899906842625,1\n", 1), ("0,1\n1125899906842625,1\n", 2)] {
            let own = "the time lies outside ±2^50 milliseconds: 1125899906842625";
            of(at, input, &format!(":{place}: refusal 3 at reading {place}: {own}"));
        }
    }
    of(
        "0",
        "5,1\n4,1\n",
        ":2: refusal 4 at reading 2: the time is below the one before: 4 after 5",
    );
}

#[test]
fn rollups_of_other_names() {
    let errors = |line: &str| figures(line, READINGS.as_bytes()).errors;
    assert_eq!(
        errors("--rollup aveg --step 1m -"),
        "figures: --rollup: expected a rollup, perhaps avg, found \"aveg\"; see figures --help\n"
    );
    let outcome = figures("--rollup avg_over_time --step 1m -", READINGS.as_bytes());
    assert_eq!(outcome.output, "time,avg\n0,1\n60000,2\n");
}

/// Seconds since 1970, taken for milliseconds, lie in January 1970.
#[test]
fn seconds_taken_for_milliseconds() {
    let errors = |input: &str| {
        let outcome = figures("--rollup count --step 1d -", input.as_bytes());
        assert_eq!(outcome.status, 0, "{outcome:?}");
        outcome.errors
    };
    let warning = "all times lie in January 1970: are they seconds? Times are milliseconds";
    let lone = format!("figures: standard input: {warning}\n");
    assert_eq!(errors("1772409600,1\n1772409660,2\n"), lone);
    assert_eq!(errors("0,1\n"), lone);
    assert_eq!(errors("2678399999,1\n"), lone);
    let named = format!("figures: standard input: series b: {warning}\n");
    assert_eq!(errors("a,2678400000,1\nb,1772409600,1\n"), named);
    let several = format!("figures: standard input: series a and 2 more: {warning}\n");
    assert_eq!(errors("a,5,1\nb,1772409600,1\nc,7,1\nd,1772409600000,1\n"), several);
    for input in ["2678400000,1\n", "-1,1\n5,1\n", "1000,1\n2678400000,1\n", "1970-01-05,1\n"] {
        assert_eq!(errors(input), "", "{input}");
    }
}
