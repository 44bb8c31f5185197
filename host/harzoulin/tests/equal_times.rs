//! Readings of one time: a drive sends a reading and its follow-up in one millisecond.

use harzoulin::{Refusal, Rollup, Settings, Step, Workspace, crossings, merge, nearest, settle};

const TIMES: [i64; 4] = [1000, 2000, 2000, 3000];
const VALUES: [f64; 4] = [1.0, 2.0, 3.0, 4.0];

/// The bits of the figures over windows of a second.
#[track_caller]
fn figures(times: &[i64], values: &[f64], rollup: Rollup) -> Vec<u64> {
    let settings = Settings { start: 1000, end: 3000, step: 1000, ..Settings::default() };
    let mut workspace = Workspace::new();
    let run = workspace.run(times, values, Step::None, rollup, &settings).unwrap();
    let figures = bits(run.values);
    let settled = settings.settled(settle(times, &settings).unwrap());
    let again = workspace.settled_run(times, values, Step::None, rollup, &settled).unwrap();
    assert_eq!(bits(again.values), figures);
    figures
}

fn bits(figures: &[f64]) -> Vec<u64> {
    figures.iter().map(|figure| figure.to_bits()).collect()
}

/// A window holds all readings of a time or none. Their order is kept: the last of them is the
/// predecessor of what follows, the first is the next reading of what is before.
#[test]
fn the_window() {
    let of = |rollup| figures(&TIMES, &VALUES, rollup);
    assert_eq!(of(Rollup::Count), bits(&[1.0, 2.0, 1.0]));
    assert_eq!(of(Rollup::First), bits(&[1.0, 2.0, 4.0]));
    assert_eq!(of(Rollup::Default), bits(&[1.0, 3.0, 4.0]));
    assert_eq!(of(Rollup::Idelta), bits(&[1.0, 1.0, 1.0]));
    assert_eq!(of(Rollup::DeltaPrometheus)[1], f64::to_bits(1.0));
    assert_eq!(of(Rollup::UntilNext), bits(&[1.0, 1.0, f64::NAN]));
}

#[test]
fn all_of_one_time() {
    for readings in [2, 16, 17, 50, 1000] {
        let (times, values) = (vec![2000; readings], vec![0.5; readings]);
        let counts = figures(&times, &values, Rollup::Count);
        assert_eq!(counts, bits(&[f64::NAN, readings as f64, f64::NAN]));
        for time in [0, 2000, 4000] {
            assert_eq!(nearest(&times, time), Ok(Some(0)));
        }
    }
}

/// Binary64 decides.
#[test]
fn over_no_seconds() {
    for ([first, last], slope) in [
        ([1.0, 3.0], f64::INFINITY.to_bits()),
        ([3.0, 1.0], f64::NEG_INFINITY.to_bits()),
        ([2.0, 2.0], 0x7ff8_0000_0000_0000),
    ] {
        let slopes = figures(&[1000, 1000], &[first, last], Rollup::DerivFast);
        assert_eq!(slopes[0], slope);
        let slopes = figures(&[1000, 1000], &[first, last], Rollup::Ideriv);
        assert_eq!(slopes[0], 0);
    }
    let prepared =
        Workspace::new().prepare(&[0, 0, 1000], &[1.0, 5.0, 3.0], Step::Deriv).unwrap().to_vec();
    assert_eq!(prepared, [0.0, 2.0, 2.0]);
}

#[test]
fn the_other_calls() {
    assert_eq!(crossings(&TIMES, &VALUES, 3.0), Ok(vec![2]));
    for (time, index) in [(1499, 0), (1500, 0), (1501, 1), (2000, 1), (2500, 1), (2501, 3)] {
        assert_eq!(nearest(&TIMES, time), Ok(Some(index)), "{time}");
    }
    let rising = Refusal::NotRising(2);
    assert_eq!(rising.to_string(), "refusal 4 at reading 2: the time is not above the one before");
    assert_eq!(merge(&TIMES, &VALUES, &[], &[]), Err(rising));
    assert_eq!(merge(&[], &[], &TIMES, &VALUES), Err(rising));
}
