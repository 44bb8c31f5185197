//! The numbers that were stated of the Rust before it was ported, asked of the Rust.

mod helpers;

use compare::judge;
use helpers::*;
use original::exposed::*;

/// A window with no reading beside it.
fn lone<'a>(values: &'a [f64], timestamps: &'a [i64], time: i64, window: i64) -> Record<'a> {
    Record {
        prev_value: NAN,
        prev_timestamp: time - window - 5000,
        values,
        timestamps,
        real_prev_value: NAN,
        real_next_value: NAN,
        curr_timestamp: time,
        window,
    }
}

/// A rollup's own answer on values a second apart, the last at the output time, after `prev_value`.
fn on_values(name: &str, prev_value: f64, values: &[f64]) -> f64 {
    let timestamps: Vec<i64> = (1..=values.len() as i64).map(|k| 1000 * k).collect();
    let time = 1000 * values.len() as i64;
    let record = Record { prev_value, prev_timestamp: 0, ..lone(values, &timestamps, time, time) };
    rollup(name, 0.5, 0.5).eval(&record)
}

fn prepared(step: &str, timestamps: &[i64], values: &[f64]) -> Vec<f64> {
    let mut values = values.to_vec();
    let step = judge::STEPS.iter().position(|name| *name == step).unwrap();
    judge::prepare(step, timestamps, &mut values);
    values
}

#[test]
fn quantile_corners() {
    same(quantile(0.5, &[1.0, 2.0]), 1.5);
    same(quantile(0.5, &[]), NAN);
    same(quantile(NAN, &[1.0]), NAN);
    same(quantile(-1e-300, &[1.0]), -INF);
    same(quantile(1.0000000000000002, &[1.0]), INF);
    same(quantile(-0.0, &[3.0, 1.0]), 1.0);
    same(quantile(1.0, &[3.0, NAN, 1.0]), 3.0);
    same(quantile(0.5, &[1.0, 2.0, INF]), NAN);
    same(median(&[-1.0, -0.0, 5.0]), 0.0);
}

#[test]
fn deviation_corners() {
    same(stdvar(&[]), NAN);
    same(stdvar(&[7.0]), 0.0);
    same(stddev(&[1.0, 3.0]), 1.0);
    same(stdvar(&[-f64::MAX, f64::MAX]), -INF);
    same(on_values("zscore_over_time", NAN, &[0.1, 0.1, 0.1]), -INF);
}

#[test]
fn mode_corners() {
    same(mode_no_nans(7.0, &mut [1.0]), 7.0);
    same(mode_no_nans(2.0, &mut [1.0, 1.0, 2.0, 2.0]), 1.0);
    same(mode_no_nans(NAN, &mut [0.0, -0.0]), -0.0);
}

#[test]
fn regression_corners() {
    assert_eq!(linear_regression(&[2.0, 2.0], &[0, 1000], 1000), (2.0, 0.0));
    // The denominator is half of 1e-6, then twice 1e-6.
    assert_eq!(linear_regression(&[1.0, 2.0], &[0, 1], 1).1, 0.0);
    assert!(linear_regression(&[1.0, 2.0], &[0, 2], 2).1 > 499.0);
}

#[test]
fn steps() {
    all_same(&prepared("delta", &[], &[5.0, 7.0, 4.0]), &[2.0, -3.0, -3.0]);
    all_same(&prepared("delta", &[], &[5.0]), &[0.0]);
    all_same(&prepared("deriv", &[0, 2000, 3000], &[1.0, 5.0, 2.0]), &[2.0, -3.0, -3.0]);
    all_same(&prepared("intervals", &[1500, 2999, 4000], &[0.0; 3]), &[1.0, 1.0, 2.0]);
    all_same(&prepared("intervals", &[1500], &[0.0]), &[NAN]);
}

#[test]
fn counter_resets() {
    let resets = |values: &[f64]| prepared("resets", &[], values);
    all_same(&resets(&[10.0, 2.0, 3.0]), &[10.0, 12.0, 25.0]);
    all_same(&resets(&[80.0, 71.0]), &[80.0, 80.0]);
    all_same(&resets(&[80.0, 70.0]), &[80.0, 150.0]);
    all_same(&resets(&[-0.0]), &[0.0]);
    all_same(&resets(&[-5.0, -6.0, 10.0]), &[-5.0, -5.0, 5.0]);
    all_same(&resets(&[-1e308, -1.5e308, -1.7e308, 5.0]), &[-1e308; 4]);
}

#[test]
fn delta_of_one_value() {
    same(on_values("delta", NAN, &[5.0]), 5.0);
    same(on_values("delta", NAN, &[10.0]), 0.0);
}

#[test]
fn candlestick() {
    let (values, timestamps) = ([5.0, 6.0, 7.0], [1000, 2000, 3000]);
    same(rollup("close", 0.0, 0.0).eval(&lone(&values, &timestamps, 3000, 3000)), 5.0);
}

#[test]
fn holt_winters() {
    let lone = lone(&[1.0], &[1000], 1000, 1000);
    let empty = Record { prev_value: 4.0, values: &[], timestamps: &[], ..lone.clone() };
    same(rollup("holt_winters", 7.0, 7.0).eval(&empty), 4.0);
    same(rollup("holt_winters", 7.0, 0.5).eval(&lone), NAN);
    assert!(judge::caught(|| rollup("holt_winters", 0.5, 0.5).eval(&lone)).is_none());
    assert!(judge::caught(|| rollup("holt_winters", NAN, NAN).eval(&lone)).is_none());
    // A NaN factor passes the test of its range; one smoothing step does not use the trend's.
    let after = Record { prev_value: 3.0, ..lone };
    same(rollup("holt_winters", 0.5, NAN).eval(&after), 1.0);
}

#[test]
fn zeros() {
    same(on_values("max", NAN, &[0.0, -0.0]), -0.0);
    same(on_values("min", NAN, &[0.0, -0.0]), 0.0);
    same(on_values("sum", NAN, &[-0.0, -0.0]), 0.0);
    same(on_values("avg", NAN, &[-0.0, -0.0]), -0.0);
    same(on_values("rate_over_sum", NAN, &[-0.0]), -0.0);
}

#[test]
fn tolerance() {
    let changes = |values: &[f64]| on_values("changes_prometheus", NAN, values);
    let above = |exponent: i32| 1.0 + 2f64.powi(exponent);
    same(changes(&[1.0, above(-40)]), 0.0);
    same(changes(&[1.0, above(-39)]), 1.0);
    // Two tolerated steps: the compared value has not moved, so the second counts.
    same(changes(&[1.0, above(-40), 1.0 + 2.0 * 2f64.powi(-40)]), 1.0);
    same(changes(&[0.0, -0.0]), 0.0);
    same(changes(&[INF, INF]), 0.0);
    same(changes(&[999999999999.0, 1e12]), 1.0);
    same(on_values("increases", NAN, &[1.0, 1.0 - 2f64.powi(-41), above(-40)]), 1.0);
}

#[test]
fn estimate_and_reach() {
    assert_eq!(scrape_interval(&[]), 300_000);
    assert_eq!(scrape_interval(&[5]), 300_000);
    assert_eq!(scrape_interval(&[0, 1000, 3000]), 1600);
    assert_eq!(scrape_interval(&[0, 5, 10, 15, 20, 30, 40, 50]), 7);
    assert_eq!(max_prev_interval(300_000), 337_500);
    let reaches = [
        (1600, 8000),
        (2000, 10_000),
        (2001, 6003),
        (4000, 12_000),
        (4001, 8002),
        (8000, 16_000),
        (8001, 12_001),
        (16_000, 24_000),
        (16_001, 20_001),
        (32_000, 40_000),
        (32_001, 36_001),
    ];
    for (estimate, reach) in reaches {
        assert_eq!(max_prev_interval(estimate), reach);
    }
}

/// Settings with one output time per second.
fn every_second(start: i64, end: i64) -> Settings {
    Settings { start, end, step: 1000, ..Settings::default() }
}

#[test]
fn settling() {
    let times = [0, 1000, 3000];
    let settle = |s: &Settings| judge::settle(s, &times);
    let plain = every_second(0, 0);
    assert_eq!(judge::settle(&plain, &[]), (1000, 337_500));
    assert_eq!(settle(&plain), (1000, 8000));
    assert_eq!(
        settle(&Settings { window: 7, may_adjust_window: true, ..plain.clone() }),
        (7, 8000)
    );
    let adjusting = Settings { may_adjust_window: true, ..plain.clone() };
    assert_eq!(settle(&adjusting), (8000, 8000));
    let capped = Settings { lookback_delta: 3000, ..adjusting.clone() };
    assert_eq!(settle(&capped), (3000, 3000));
    let raised = Settings { min_staleness_interval: 5000, ..capped };
    assert_eq!(settle(&raised), (5000, 5000));
    assert_eq!(settle(&Settings { is_default_rollup: true, ..raised }), (3000, 5000));
    let small = Settings { lookback_delta: 500, is_default_rollup: true, ..plain };
    assert_eq!(settle(&small), (500, 500));
}

#[test]
fn windows_and_count() {
    let (times, values) = ([1000, 2000, 3000], [1.0, 2.0, 3.0]);
    let run_of = |s: &Settings, name| run(s, rollup(name, 0.0, 0.0), &values, &times).unwrap();
    let s = Settings { window: 1000, ..every_second(2000, 4000) };
    all_same(&run_of(&s, "sum").0, &[2.0, 3.0, NAN]);
    all_same(&run_of(&s, "count").0, &[1.0, 1.0, NAN]);
    same(run_of(&s, "lag").0[2], NAN);
    assert_eq!(run_of(&s, "sum").1, 5);
    let per_call = Settings { samples_scanned_per_call: 2, ..every_second(2000, 3000) };
    assert_eq!(run_of(&per_call, "sum").1, 7);
    assert_eq!(run(&every_second(5, 5), rollup("absent", 0.0, 0.0), &[], &[]), Ok((vec![1.0], 0)));
}

#[test]
fn point_limit() {
    assert_eq!(get_timestamps(0, 10, 1, 5).unwrap().len(), 11);
    assert!(get_timestamps(0, 10, 1, 4).is_err());
    assert_eq!(get_timestamps(0, 9, 4, 0).unwrap(), [0, 4, 8]);
}
