//! Each refusal as a typed error, with its number, its index and its sentence.

use harzoulin::lent::{self, Slices};
use harzoulin::{MOST, Refusal, Rollup, Settings, SettledSettings, Step, Workspace, settle};

const TIMES: [i64; 4] = [0, 1000, 2000, 3000];
const VALUES: [f64; 4] = [1.0, 2.0, 3.0, 4.0];
const SETTINGS: Settings = Settings {
    start: 0,
    end: 10,
    step: 1,
    window: 0,
    may_adjust_window: false,
    is_default_rollup: false,
    lookback_delta: 0,
    min_staleness_interval: 0,
    max_points_per_series: 0,
    samples_scanned_per_call: 0,
};

/// The refusal of a run, which has to be refused in the same way as often as it is tried.
fn run(times: &[i64], values: &[f64], settings: Settings) -> Refusal {
    let mut workspace = Workspace::new();
    let mut refused =
        || workspace.run(times, values, Step::None, Rollup::Avg, &settings).unwrap_err();
    assert_eq!(refused(), refused());
    refused()
}

#[track_caller]
fn expect(refusal: Refusal, number: u32, index: usize, text: &str) {
    assert_eq!((refusal.number(), refusal.index()), (number, index));
    assert_eq!(refusal.to_string(), text);
}

#[test]
fn of_the_series() {
    let lengths = run(&TIMES, &VALUES[1..], SETTINGS);
    expect(lengths, 1, 0, "refusal 1: times and values differ in length");

    let many = vec![0; MOST + 1];
    let readings = run(&many, &vec![0.0; MOST + 1], SETTINGS);
    expect(readings, 2, 0, "refusal 2: the series has over 16,777,216 readings");

    let time = run(&[0, 5, 1 << 51, 3], &VALUES, SETTINGS);
    let text = "refusal 3 at reading 2: the time lies outside ±2^50 milliseconds";
    expect(time, 3, 2, text);

    let order = run(&[0, 5, 5, 3], &VALUES, SETTINGS);
    expect(order, 4, 3, "refusal 4 at reading 3: the time is below the one before");

    for bad in [f64::NAN, f64::INFINITY, f64::NEG_INFINITY] {
        let value = run(&TIMES, &[1.0, 2.0, 3.0, bad], SETTINGS);
        expect(value, 5, 3, "refusal 5 at reading 3: the value is NaN or infinite");
    }
}

#[test]
fn of_the_settings() {
    let refused = |settings| run(&TIMES, &VALUES, settings);
    for step in [0, -1, i64::MIN, i64::MAX] {
        assert_eq!(refused(Settings { step, ..SETTINGS }), Refusal::Step);
    }
    for (start, end) in [(1, 0), (i64::MIN, i64::MAX), (i64::MAX, i64::MIN), (0, 1 << 51)] {
        assert_eq!(refused(Settings { start, end, ..SETTINGS }), Refusal::Span);
    }
    assert_eq!(refused(Settings { window: -1, ..SETTINGS }), Refusal::Window);
    assert_eq!(refused(Settings { lookback_delta: -1, ..SETTINGS }), Refusal::Limits);
    assert_eq!(refused(Settings { min_staleness_interval: -1, ..SETTINGS }), Refusal::Limits);
    assert_eq!(refused(Settings { samples_scanned_per_call: 65_536, ..SETTINGS }), Refusal::Limits);
    assert_eq!(refused(Settings { max_points_per_series: 4, ..SETTINGS }), Refusal::Points);
    assert_eq!(refused(Settings { end: MOST as i64, ..SETTINGS }), Refusal::Grid);
    expect(Refusal::Grid, 11, 0, "refusal 11: the grid has over 16,777,216 output times");
}

#[test]
fn of_settle_and_of_a_settled_run() {
    assert_eq!(settle(&[0, -1], &SETTINGS), Err(Refusal::Order(1)));
    assert_eq!(settle(&[], &Settings { step: 0, ..SETTINGS }), Err(Refusal::Step));
    let settled = SettledSettings {
        start: 0,
        end: 10,
        step: 1,
        window: 0,
        reach: 1,
        samples_scanned_per_call: 0,
    };
    let mut workspace = Workspace::new();
    let run = workspace.settled_run(&TIMES, &VALUES, Step::None, Rollup::Avg, &settled);
    assert_eq!(run, Err(Refusal::Window));
    let settled = SettledSettings { window: 1 << 52, ..settled };
    assert!(workspace.settled_run(&TIMES, &VALUES, Step::None, Rollup::Avg, &settled).is_ok());
}

/// The refusals of lent slices, which a workspace never meets. The slices are left as they were.
#[test]
fn of_slices() {
    let rows = [
        ([10, 4, 4, 8], Err(Refusal::Output)),
        ([11, 3, 4, 8], Err(Refusal::Prepared)),
        ([11, 4, 3, 8], Err(Refusal::Prepared)),
        ([11, 4, 4, 7], Err(Refusal::Work)),
        ([11, 4, 4, 8], Ok(5)),
    ];
    for ([output, prepared, remaining, work], answer) in rows {
        let [mut output, mut prepared, mut work] =
            [output, prepared, work].map(|length| vec![7.0; length]);
        let mut remaining = vec![7; remaining];
        let mut slices = Slices {
            output: &mut output,
            prepared: &mut prepared,
            remaining: &mut remaining,
            work: &mut work,
        };
        let run = lent::run(&TIMES, &VALUES, Step::None, Rollup::Avg, &SETTINGS, &mut slices);
        assert_eq!(run, answer);
        let untouched = [&output, &prepared, &work].map(|slice| slice.iter().all(|v| *v == 7.0));
        assert_eq!(untouched, [answer.is_err(); 3]);
        assert_eq!(remaining.iter().all(|time| *time == 7), answer.is_err());
    }
    let refused = lent::prepare(&TIMES, &VALUES, Step::Delta, &mut [0.0; 3]);
    assert_eq!(refused, Err(Refusal::Prepared));
    expect(Refusal::Work, 14, 0, "refusal 14: the work slice is under twice the series");
    let text = "refusal 13: the prepared slice, or in a run that for the remaining times, is shorter \
                than the series";
    expect(Refusal::Prepared, 13, 0, text);
}

/// The longest grid that is accepted, and no reading at all.
#[test]
fn the_ends_are_accepted() {
    let mut workspace = Workspace::new();
    let settings = Settings { end: MOST as i64 - 1, ..SETTINGS };
    let figures = workspace.run(&[], &[], Step::None, Rollup::Absent, &settings).unwrap();
    assert_eq!(figures.values.len(), MOST);
    assert!(figures.values.iter().all(|figure| *figure == 1.0));
}
