//! Crossings, nearest, merge, the step that counts a restart once and the wait for the next reading: what the
//! requests state of them, asked of the model; and whether the generated calls reach what they are to reach.

use std::collections::{BTreeMap, BTreeSet};

use compare::call::{Call, Case, Outcome, UNSET};
use compare::inputs::{cases, merge};
use compare::judge::{ROLLUPS, STEPS};
use compare::rng::Rng;
use compare::words::{all_bits, NAN};
use compare::{model, oracle, plain, rows};
use original::exposed::{self, remove_counter_resets, Settings};

const TIME_LIMIT: i64 = 1 << 50;

/// The number of the step that counts a restart once.
const ONCE: u32 = 5;

/// The number of the rollup that gives the wait for the next reading.
const UNTIL_NEXT: u32 = 48;

const RUNS: [Call; 2] = [Call::Run, Call::SettledRun];

fn crossings(values: &[f64], limit: f64, lent: usize) -> Outcome {
    let case = Case {
        timestamps: (0..values.len() as i64).collect(),
        values: values.iter().map(|v| v.to_bits()).collect(),
        limit,
        indexes: vec![UNSET; lent],
        lent,
        ..Case::default()
    };
    oracle::outcome(Call::Crossings, &case)
}

fn nearest(timestamps: &[i64], time: i64) -> Outcome {
    let case = Case { timestamps: timestamps.to_vec(), time, ..Case::default() };
    oracle::outcome(Call::Nearest, &case)
}

/// Accepted, with these indexes at the slice's front and nothing behind them.
fn lists(values: &[f64], limit: f64, stated: &[u64]) {
    let outcome = crossings(values, limit, stated.len() + 1);
    let count = stated.len() as u64;
    assert_eq!((outcome.number, outcome.index, outcome.count), (0, 0, count));
    assert_eq!(outcome.indexes, [stated, &[UNSET]].concat());
}

/// Refused, with nothing written.
fn refuses(outcome: Outcome, number: u64, index: u64) {
    assert_eq!((outcome.number, outcome.index), (number, index));
    let places = [outcome.count, outcome.found, outcome.nearest, outcome.length];
    assert_eq!(places, [UNSET; 4]);
    let mut entries = outcome.indexes.iter().chain(&outcome.merged_values);
    assert!(entries.all(|entry| *entry == UNSET));
    assert!(outcome.merged_timestamps.iter().all(|time| *time == UNSET as i64));
}

#[test]
fn sides_of_a_limit() {
    lists(&[1.0, 2.0, 3.0], 2.0, &[1]);
    lists(&[3.0, 2.0, 1.0], 2.0, &[2]);
    lists(&[1.0, 2.0, 1.0, 1.0, 5.0], 2.0, &[1, 2, 4]);
    lists(&[2.0, 2.0, 2.0], 2.0, &[]);
    lists(&[2f64.next_down(), 2.0, 2f64.next_up()], 2.0, &[1]);
    lists(&[f64::MIN, f64::MAX], f64::MAX, &[1]);
    lists(&[7.0], 7.0, &[]);
    lists(&[], 7.0, &[]);
}

#[test]
fn zeros_are_one_value() {
    for limit in [0.0, -0.0] {
        lists(&[-0.0, 0.0, -0.0], limit, &[]);
        lists(&[-5e-324, -0.0, 5e-324], limit, &[1]);
    }
}

#[test]
fn refused_crossings() {
    let values = [1.0, 2.0, 1.0];
    for limit in [f64::NAN, -f64::NAN, f64::INFINITY, f64::NEG_INFINITY] {
        refuses(crossings(&values, limit, 3), 15, 0);
        refuses(crossings(&[], limit, 0), 15, 0);
        refuses(crossings(&[1.0, f64::NAN], limit, 3), 5, 1);
    }
    refuses(crossings(&values, 2.0, 1), 16, 0);
    refuses(crossings(&values, 2.0, 0), 16, 0);
    assert_eq!(crossings(&values, 2.0, 2).number, 0);
}

/// Accepted, with this reading.
fn finds(timestamps: &[i64], time: i64, stated: u64) {
    let outcome = nearest(timestamps, time);
    assert_eq!((outcome.number, outcome.index), (0, 0));
    assert_eq!((outcome.found, outcome.nearest), (1, stated));
}

#[test]
fn least_distance() {
    let times = [0, 10, 20, 31];
    for (time, stated) in [(-7, 0), (4, 0), (5, 0), (6, 1), (10, 1), (15, 1), (16, 2), (25, 2)] {
        finds(&times, time, stated);
    }
    for (time, stated) in [(26, 3), (31, 3), (TIME_LIMIT, 3), (-TIME_LIMIT, 0)] {
        finds(&times, time, stated);
    }
    finds(&[-TIME_LIMIT, TIME_LIMIT], 0, 0);
    finds(&[-TIME_LIMIT, TIME_LIMIT], 1, 1);
    finds(&[5], -TIME_LIMIT, 0);
}

#[test]
fn none_for_an_empty_series() {
    let outcome = nearest(&[], TIME_LIMIT);
    assert_eq!((outcome.number, outcome.index), (0, 0));
    assert_eq!((outcome.found, outcome.nearest), (0, 0));
}

#[test]
fn refused_nearest() {
    let outside = TIME_LIMIT + 1;
    for time in [outside, -outside, i64::MIN, i64::MAX] {
        refuses(nearest(&[], time), 3, 0);
        refuses(nearest(&[0, 1], time), 3, 0);
        refuses(nearest(&[1, 0], time), 3, 0);
        refuses(nearest(&[1, 0, outside], time), 3, 2);
    }
    refuses(nearest(&[0, 2, 1], 0), 4, 2);
    refuses(nearest(&[1, 0, -outside], 0), 3, 2);
}

#[test]
fn one_loop_finds_what_two_find() {
    let mut rng = Rng::new(1);
    for _ in 0..20_000 {
        let case = cases::case(&mut rng, Call::Nearest, None);
        let times = &case.timestamps[..case.timestamps.len().min(model::LONG)];
        assert_eq!(model::first_least(times, case.time), model::unbeaten(times, case.time));
    }
}

fn floats(bits: &[u64]) -> Vec<f64> {
    bits.iter().map(|bits| f64::from_bits(*bits)).collect()
}

/// What bench times the port beside is the same call.
#[test]
fn plain_loops_give_the_same() {
    let mut rng = Rng::new(1);
    for _ in 0..20_000 {
        let case = cases::case(&mut rng, Call::Crossings, None);
        let values = floats(&case.values);
        let mut indexes = case.indexes.clone();
        let lent = &mut indexes[..case.lent];
        let plain = plain::crossings(&case.timestamps, &values, case.limit, lent);
        let outcome = oracle::outcome(Call::Crossings, &case);
        let stated = (outcome.number, outcome.index);
        assert_eq!(plain, if stated == (0, 0) { Ok(outcome.count) } else { Err(stated) });
        assert_eq!(indexes, outcome.indexes);

        let case = cases::case(&mut rng, Call::Nearest, None);
        let plain = plain::nearest(&case.timestamps, case.time);
        let outcome = oracle::outcome(Call::Nearest, &case);
        let nearest = (outcome.found == 1).then_some(outcome.nearest);
        let stated = (outcome.number, outcome.index);
        assert_eq!(plain, if stated == (0, 0) { Ok(nearest) } else { Err(stated) });
    }
    for _ in 0..20_000 {
        let case = cases::case(&mut rng, Call::Merge, None);
        let [first, second] = [&case.values, &case.second_values].map(|bits| floats(bits));
        let (mut times, mut values) = (case.merged_timestamps.clone(), floats(&case.merged_values));
        let plain = plain::merge(
            (&case.timestamps, &first),
            (&case.second_timestamps, &second),
            &mut times[..case.lent_times],
            &mut values[..case.lent_values],
        );
        let outcome = oracle::outcome(Call::Merge, &case);
        let stated = (outcome.number, outcome.index);
        assert_eq!(plain, if stated == (0, 0) { Ok(outcome.length) } else { Err(stated) });
        assert_eq!(times, outcome.merged_timestamps);
        assert!(values.iter().map(|v| v.to_bits()).eq(outcome.merged_values));
    }
    for (case, outputs) in waiting(Call::Run) {
        let plain: Vec<f64> =
            outputs.iter().map(|time| plain::until_next(&case.timestamps, *time)).collect();
        assert_eq!(all_bits(&plain), all_bits(&model::until_next(&case.timestamps, &outputs)));
    }
}

/// The pairs of rows that generated calls offend, each call alone with these two.
fn pairs(call: Call) -> BTreeSet<[u64; 2]> {
    let mut rng = Rng::new(1);
    let offended = (0..50_000)
        .filter_map(|_| offended(call, &cases::case(&mut rng, call, None)).try_into().ok());
    offended.collect()
}

/// Added to a row of the second series of a merge.
const SECOND: u64 = 100;

/// The rows that a call offends, sorted.
fn offended(call: Call, case: &Case) -> Vec<u64> {
    let alone = Case { second_timestamps: vec![], second_values: vec![], ..case.clone() };
    let first = rows::offences(call, &alone).filter(|(number, _)| *number <= 5).count();
    let numbers = rows::offences(call, case).map(|(number, _)| number).enumerate();
    let of_second = |i, number| call == Call::Merge && i >= first && number <= 5;
    let numbers = numbers.map(|(i, number)| number + SECOND * of_second(i, number) as u64);
    let mut numbers: Vec<u64> = numbers.collect();
    numbers.sort();
    numbers
}

/// All pairs of these rows.
fn every_two(rows: &[u64]) -> BTreeSet<[u64; 2]> {
    let pairs = rows.iter().flat_map(|one| rows.iter().map(|other| [*one, *other]));
    pairs.filter(|pair| pair[0] < pair[1]).collect()
}

/// Row 2 is offended by stated calls; 15 and 16 cannot be together.
#[test]
fn every_two_rows_are_offended() {
    let mut stated = every_two(&[1, 3, 4, 5, 15, 16]);
    stated.remove(&[15, 16]);
    assert_eq!(pairs(Call::Crossings), stated);
    assert_eq!(pairs(Call::Nearest), [[3, 4]].into());
    let of_second = [1, 3, 4, 5].map(|number| SECOND + number);
    let stated = every_two(&[&[1, 3, 4, 5, 17, 18], &of_second[..]].concat());
    assert_eq!(pairs(Call::Merge), stated);
}

/// Generated calls that are accepted.
fn accepted(call: Call, rollup: Option<u32>) -> Vec<Case> {
    let mut rng = Rng::new(1);
    let cases = (0..20_000).map(|_| cases::case(&mut rng, call, rollup));
    cases.filter(|case| rows::refusal(call, case).is_none()).collect()
}

#[test]
fn ties_and_corners_are_asked() {
    let accepted = accepted(Call::Nearest, None);
    let tie = |case: &Case| {
        let distance = |t: &i64| t.abs_diff(case.time);
        let least = case.timestamps.iter().map(distance).min();
        let nearest = case.timestamps.iter().filter(|t| Some(distance(t)) == least);
        nearest.collect::<BTreeSet<_>>().len() == 2
    };
    let many = |is: &dyn Fn(&Case) -> bool| accepted.iter().filter(|c| is(c)).count() > 100;
    assert!(many(&tie) && many(&|c| c.timestamps.contains(&c.time)));
    assert!(many(&|c| c.timestamps.is_empty()) && many(&|c| c.timestamps.len() == 1));
    assert!(many(&|c| c.time == TIME_LIMIT) && many(&|c| c.time == -TIME_LIMIT));
    assert!(many(&|c| c.timestamps.first() > Some(&c.time)));
    assert!(many(&|c| c.timestamps.last().is_some_and(|last| *last < c.time)));
}

#[test]
fn limits_at_values_are_asked() {
    let accepted = accepted(Call::Crossings, None);
    let many = |is: &dyn Fn(&Case) -> bool| accepted.iter().filter(|c| is(c)).count() > 100;
    let any = |case: &Case, is: fn(f64, f64) -> bool| {
        case.values.iter().any(|bits| is(f64::from_bits(*bits), case.limit))
    };
    assert!(many(&|c| any(c, |value, limit| value == limit)));
    assert!(many(&|c| any(c, |value, limit| value.next_up() == limit)));
    assert!(many(&|c| any(c, |value, limit| value.next_down() == limit)));
    assert!(many(&|c| any(c, |v, limit| v == limit && v.to_bits() != limit.to_bits())));
    assert!(many(&|c| c.limit.is_subnormal()) && many(&|c| c.limit.abs() == f64::MAX));
    let count = |c: &Case| model::count(&c.values, c.limit);
    assert!(many(&|c| count(c) > 10) && many(&|c| count(c) > 0 && c.lent as u64 == count(c)));
}

/// Prepare by a step, with room for one value more.
fn prepare(values: &[f64], pre: u32) -> Outcome {
    let case = Case {
        timestamps: (0..values.len() as i64).collect(),
        values: values.iter().map(|v| v.to_bits()).collect(),
        pre,
        prepared: vec![UNSET; values.len() + 1],
        ..Case::default()
    };
    oracle::outcome(Call::Prepare, &case)
}

/// The step accepts the values, with these outputs at the slice's front and nothing behind them.
fn gives(values: &[f64], stated: &[f64]) {
    let outcome = prepare(values, ONCE);
    assert_eq!((outcome.number, outcome.index), (0, 0));
    assert_eq!(outcome.prepared, [all_bits(stated), vec![UNSET]].concat());
}

#[test]
fn the_step_has_the_last_number() {
    assert_eq!((STEPS[ONCE as usize], STEPS.len()), ("resets_once", 6));
    let refused = prepare(&[10.0, 2.0], ONCE + 1);
    assert_eq!((refused.number, refused.index), (28, 0));
    assert_eq!(refused.prepared, [UNSET; 3]);
}

#[test]
fn a_restart_is_counted_once() {
    gives(&[10.0, 2.0, 3.0], &[10.0, 12.0, 13.0]);
    gives(&[10.0, 0.0, -0.0, 3.0], &[10.0, 10.0, 10.0, 13.0]);
    gives(&[5.0, 5.0, 9.0], &[5.0, 5.0, 9.0]);
    gives(&[-5.0, -5.0, 0.0], &[-5.0, -5.0, 0.0]);
}

#[test]
fn the_first_value_is_added_to() {
    gives(&[], &[]);
    gives(&[7.5], &[7.5]);
    gives(&[-0.0], &[0.0]);
    gives(&[-0.0, -0.0, 0.0], &[0.0, 0.0, 0.0]);
    gives(&[-5e-324, -0.0], &[-5e-324, 0.0]);
    gives(&[f64::MIN, f64::MAX], &[f64::MIN, f64::MAX]);
}

/// By the fall where eight times the fall is less than the value before, else by that value.
#[test]
fn both_rules_of_growth() {
    gives(&[80.0, 71.0], &[80.0, 80.0]);
    gives(&[80.0, 70f64.next_up()], &[80.0, 80.0]);
    gives(&[80.0, 70.0], &[80.0, 150.0]);
    gives(&[80.0, 70f64.next_down()], &[80.0, 70f64.next_down() + 80.0]);
    gives(&[80.0, 69.0], &[80.0, 149.0]);
    // From below zero no fall is a part.
    gives(&[-100.0, -101.0, 0.0], &[-100.0; 3]);
    // Eight times a fall is exact among subnormals; an eighth of a value is not.
    let units = |n: u64| f64::from_bits(n);
    gives(&[units(20), units(18)], &[units(20), units(20)]);
    gives(&[units(16), units(14)], &[units(16), units(30)]);
    gives(&[units(8), units(7)], &[units(8), units(15)]);
    // Eight times the fall overflows, then the fall itself.
    let half = f64::MAX / 2.0;
    gives(&[half, half - half / 2.0], &[half, half + half / 2.0]);
    gives(&[f64::MAX, f64::MIN, 1.0], &[f64::MAX; 3]);
}

#[test]
fn restarts_add_up() {
    gives(&[10.0, 2.0, 3.0, 1.0, 4.0, 0.0, 5.0], &[10.0, 12.0, 13.0, 14.0, 17.0, 17.0, 22.0]);
    gives(&[9.0, 8.0, 7.0, 6.0], &[9.0, 9.0, 16.0, 22.0]);
    gives(&[100.0, 95.0, 94.0], &[100.0; 3]);
    gives(&[80.0, 71.0, 5.0], &[80.0, 80.0, 85.0]);
    // From 8 to 6 is more than an eighth of the raw value, though less than one of the output.
    gives(&[80.0, 0.0, 8.0, 6.0], &[80.0, 80.0, 88.0, 94.0]);
    gives(&[-1.0, -2.0, -3.0, 10.0], &[-1.0, -1.0, -1.0, 7.0]);
}

#[test]
fn lifted_to_the_output_before() {
    gives(&[10.0, -2.0, 3.0], &[10.0, 10.0, 13.0]);
    gives(&[10.0, 2.0, -1.0, 4.0], &[10.0, 12.0, 12.0, 16.0]);
    gives(&[-5.0, -6.0, 10.0], &[-5.0, -5.0, 5.0]);
    gives(&[-5.0, -6.0, -20.0, -7.0, 12.0], &[-5.0, -5.0, -5.0, -5.0, 1.0]);
    // The sum of 1.7 and its correction rounds to below 11.
    gives(&[9.2, 1.8, 1.7], &[9.2, 11.0, 11.0]);
}

/// A correction that is infinite stays so, whatever the counter does.
#[test]
fn the_correction_overflows() {
    let (most, inf) = (f64::MAX, f64::INFINITY);
    gives(&[most, 0.0, 1.0, most, 0.0, -most], &[most, most, most, inf, inf, inf]);
    gives(&[1.5e308, 1e308, 0.5e308, -1.5e308], &[1.5e308, inf, inf, inf]);
    gives(&[-1e308, -1.5e308, -1.7e308, 1.5e308, 0.0, 1.5e308, 0.0, 1.5e308], &[-1e308; 8]);
}

/// Generated values for the step.
fn counters() -> Vec<Vec<f64>> {
    let mut rng = Rng::new(1);
    let cases = (0..60_000).map(|_| cases::accepted(&mut rng, Call::Prepare, None));
    let values = cases.filter(|case| case.pre == ONCE).map(|case| case.values);
    values.map(|values| values.into_iter().map(f64::from_bits).collect()).collect()
}

fn once(values: &[f64]) -> Vec<f64> {
    let mut values = values.to_vec();
    model::resets_once(&mut values);
    values
}

/// The ported step, as the Rust has it.
fn ported(values: &[f64]) -> Vec<f64> {
    let mut values = values.to_vec();
    remove_counter_resets(&mut values);
    values
}

#[test]
fn the_ported_step_where_nothing_falls() {
    for mut values in counters() {
        values.sort_by(f64::total_cmp);
        assert_eq!(all_bits(&once(&values)), all_bits(&ported(&values)));
    }
}

/// At the first fall the corrected value before is still the raw one.
#[test]
fn the_ported_step_up_to_the_first_fall() {
    for mut values in counters() {
        let before = values.windows(2).position(|pair| pair[1] < pair[0]);
        values.truncate(before.map_or(values.len(), |before| before + 2));
        assert_eq!(all_bits(&once(&values)), all_bits(&ported(&values)));
    }
}

/// How much the correction grows from one raw value to the next.
fn growth(p: f64, v: f64) -> f64 {
    if v >= p {
        0.0
    } else if 8.0 * (p - v) < p {
        p - v
    } else {
        p
    }
}

/// The correction at each value.
fn corrections(values: &[f64]) -> Vec<f64> {
    let mut corrections = vec![0.0; values.len()];
    for i in 1..values.len() {
        corrections[i] = corrections[i - 1] + growth(values[i - 1], values[i]);
    }
    corrections
}

/// Each value with its correction, before any is lifted.
fn sums(values: &[f64]) -> Vec<f64> {
    values.iter().zip(corrections(values)).map(|(v, correction)| v + correction).collect()
}

#[test]
fn each_output_is_the_greatest_sum_so_far() {
    for values in counters() {
        let mut greatest = f64::NEG_INFINITY;
        for (output, sum) in once(&values).iter().zip(sums(&values)) {
            greatest = greatest.max(sum);
            assert_eq!(output.to_bits(), greatest.to_bits());
        }
    }
}

fn by_an_eighth(p: f64, v: f64) -> bool {
    p > 0.0 && 8.0 * (p - v) == p
}

#[test]
fn restarts_of_every_kind_are_asked() {
    let counters = counters();
    let many = |is: &dyn Fn(&[f64]) -> bool| counters.iter().filter(|c| is(c)).count() > 100;
    let pairs = |values: &[f64], is: fn(f64, f64) -> bool| {
        values.windows(2).filter(|pair| is(pair[0], pair[1])).count()
    };
    let pair = |is| many(&|values| pairs(values, is) > 0);
    assert!(many(&|values| values.is_empty()) && many(&|values| values.len() == 1));
    // To zeros of both signs, and from one to the other.
    assert!(pair(|p, v| p > 0.0 && v.to_bits() == 0.0f64.to_bits()));
    assert!(pair(|p, v| p > 0.0 && v.to_bits() == (-0.0f64).to_bits()));
    assert!(pair(|p, v| p == v && p.to_bits() != v.to_bits()));
    assert!(many(&|values| values.first().is_some_and(|v| v.to_bits() == (-0.0f64).to_bits())));
    // By an eighth, by just less, by just more, by clearly less and more.
    assert!(pair(by_an_eighth) && pair(|p, v| p.is_subnormal() && by_an_eighth(p, v)));
    assert!(pair(|p, v| by_an_eighth(p, v.next_down())));
    assert!(pair(|p, v| by_an_eighth(p, v.next_up())));
    assert!(pair(|p, v| v < p && 10.0 * (p - v) < p));
    assert!(pair(|p, v| 0.0 < v && v < p && 5.0 * (p - v) > p));
    // Jumps, restarts upon restarts, falls below zero, falls among subnormals.
    assert!(pair(|p, v| p > 0.0 && v > 1000.0 * p));
    assert!(many(&|values| pairs(values, |p, v| p > 0.0 && v < p) > 5));
    assert!(pair(|p, v| v < p && p < 0.0) && pair(|p, v| p > 0.0 && v < 0.0));
    assert!(pair(|p, v| p.is_subnormal() && v < p));
    // Differences and corrections that overflow.
    assert!(pair(|p, v| v - p == f64::NEG_INFINITY));
    for infinity in [f64::INFINITY, f64::NEG_INFINITY] {
        assert!(many(&|values| corrections(values).last() == Some(&infinity)));
    }
    // Sums that fall: below zero, and by rounding alone.
    let falls = |values: &[f64], from: f64| {
        let sums = sums(values);
        (1..sums.len()).any(|i| sums[i] < sums[i - 1] && values[i].min(values[i - 1]) >= from)
    };
    assert!(many(&|values| falls(values, f64::MIN)) && many(&|values| falls(values, 0.0)));
}

/// A run of until_next over a series, with slices one entry longer than is asked.
fn until_next(call: Call, timestamps: &[i64], settings: Settings) -> Outcome {
    let series = (timestamps.to_vec(), vec![7.5; timestamps.len()]);
    oracle::outcome(call, &Case { rollup: UNTIL_NEXT, ..cases::average(&series, settings) })
}

/// Settings with these output times and this window.
fn grid(start: i64, end: i64, step: i64, window: i64) -> Settings {
    Settings { start, end, step, window, ..Settings::default() }
}

/// Both runs accept the series and give this wait at the output time, with nothing behind it, whatever
/// the window; and so do both forms of the model.
fn wait(timestamps: &[i64], time: i64, stated: f64) {
    let stated = all_bits(&[stated])[0];
    for call in RUNS {
        for window in [1, 1000, 2500, TIME_LIMIT] {
            let outcome = until_next(call, timestamps, grid(time, time, 1000, window));
            assert_eq!((outcome.number, outcome.index), (0, 0));
            assert_eq!(outcome.dst_values, [stated, UNSET]);
        }
    }
    for form in [model::filtered, model::side_by_side] {
        let next = form(timestamps, &[time])[0];
        assert_eq!(all_bits(&[model::wait(time, next)]), [stated]);
    }
}

#[test]
fn the_rollups_have_their_numbers() {
    assert_eq!((ROLLUPS[UNTIL_NEXT as usize], ROLLUPS.len()), ("until_next", 50));
    assert_eq!(ROLLUPS[..48], exposed::ROLLUPS.map(|(name, _)| name));
    let series = (vec![1000], vec![1.0]);
    let settings = grid(0, 0, 1, 1);
    let case = Case { rollup: ROLLUPS.len() as u32, ..cases::average(&series, settings) };
    for call in RUNS {
        let refused = oracle::outcome(call, &case);
        assert_eq!((refused.number, refused.index, refused.count), (28, 0, UNSET));
        assert_eq!(refused.dst_values, [UNSET; 2]);
    }
}

#[test]
fn seconds_until_the_next_reading() {
    let times = [1000, 2000, 3000];
    for (time, stated) in [(500, 0.5), (999, 0.001), (1000, 1.0), (1001, 0.999), (1999, 0.001)] {
        wait(&times, time, stated);
    }
    for (time, stated) in [(-TIME_LIMIT, 1125899906843.624), (2000, 1.0), (2999, 0.001)] {
        wait(&times, time, stated);
    }
    // Nine times the double of 0.001 is another double than 0.009.
    wait(&[9], 0, 0.009);
}

#[test]
fn none_without_a_reading_after() {
    for time in [3000, 3001, 4000, TIME_LIMIT] {
        wait(&[1000, 2000, 3000], time, f64::NAN);
    }
    for time in [-TIME_LIMIT, -1, 0, 1, TIME_LIMIT] {
        wait(&[], time, f64::NAN);
    }
    wait(&[5], 4, 0.001);
    wait(&[5], 5, f64::NAN);
    let outcome = until_next(Call::Run, &[5], grid(5, 5, 1, 1));
    assert_eq!(outcome.dst_values[0], NAN);
}

#[test]
fn waits_at_the_limits() {
    let ends = [-TIME_LIMIT, TIME_LIMIT];
    let all = (1i64 << 51) as f64;
    wait(&ends, -TIME_LIMIT, all / 1000.0);
    wait(&ends, 1 - TIME_LIMIT, (all - 1.0) / 1000.0);
    wait(&ends, TIME_LIMIT - 1, 0.001);
    wait(&ends, TIME_LIMIT, f64::NAN);
    wait(&ends[..1], -TIME_LIMIT, f64::NAN);
    wait(&ends[1..], -TIME_LIMIT, all / 1000.0);
}

#[test]
fn zero_is_a_time() {
    wait(&[0], -1, 0.001);
    wait(&[0], 0, f64::NAN);
    wait(&[-5, 0, 5], -5, 0.005);
    wait(&[-5, 0, 5], -2, 0.002);
    wait(&[-5, 0, 5], 0, 0.005);
}

/// Answers, count and slices of runs with several output times.
#[test]
fn runs_of_waits() {
    let times = [1000, 2000, 3000];
    let none = f64::NAN;
    for call in RUNS {
        let every_half = until_next(call, &times, grid(500, 3999, 500, 1000));
        assert_eq!((every_half.number, every_half.index), (0, 0));
        let stated = all_bits(&[0.5, 1.0, 0.5, 1.0, 0.5, none, none]);
        assert_eq!(every_half.dst_values, [stated, vec![UNSET]].concat());
        // Three samples; no reading in the first window, one in each but the last.
        assert_eq!(every_half.count, 3 + 6);
        assert_eq!(every_half.prepared, [all_bits(&[7.5; 3]), vec![UNSET]].concat());
        assert_eq!(every_half.work, [vec![0; 6], vec![UNSET]].concat());

        let per_call = Settings { samples_scanned_per_call: 2, ..grid(500, 3999, 500, 1000) };
        assert_eq!(until_next(call, &times, per_call).count, 3 + 7 * 2);
        let leaps = until_next(call, &times, grid(-4000, 4000, 4000, 1));
        assert_eq!(leaps.dst_values, [all_bits(&[5.0, 1.0, none]), vec![UNSET]].concat());
        assert_eq!(leaps.count, 3);
        let empty = until_next(call, &[], grid(0, 1, 1, 1));
        assert_eq!((empty.dst_values, empty.count), (vec![NAN, NAN, UNSET], 0));
    }
}

/// Generated runs that ask until_next and are accepted, on the readings that are no marks, with their output times.
fn waiting(call: Call) -> Vec<(Case, Vec<i64>)> {
    let cases = accepted(call, Some(UNTIL_NEXT)).into_iter();
    let short = cases.filter(|case| rows::points(case) <= 1000);
    let outputs = |case: &Case| {
        let Settings { start, end, step, .. } = case.settings;
        (start..=end).step_by(step as usize).collect()
    };
    let without_marks = |case: Case| {
        let (timestamps, values) = oracle::readings(&case);
        Case { timestamps, values, ..case }
    };
    short.map(without_marks).map(|case| (case.clone(), outputs(&case))).collect()
}

/// The count and the prepared values are those of any other rollup, and no value is looked at.
#[test]
fn only_times_matter() {
    for call in RUNS {
        for (case, outputs) in waiting(call) {
            let outcome = oracle::outcome(call, &case);
            let stated = all_bits(&model::until_next(&case.timestamps, &outputs));
            assert_eq!(outcome.dst_values[..outputs.len()], stated);
            assert_eq!(outcome.dst_values[outputs.len()..], case.dst_values[outputs.len()..]);
            let average = oracle::outcome(call, &Case { rollup: 0, ..case.clone() });
            assert_eq!((outcome.number, outcome.count), (0, average.count));
            assert_eq!((&outcome.prepared, &outcome.work), (&average.prepared, &average.work));
            let zeros = vec![0; case.values.len()];
            let other = oracle::outcome(call, &Case { values: zeros, pre: 0, ..case });
            assert_eq!(outcome.dst_values, other.dst_values);
        }
    }
}

#[test]
fn one_loop_finds_what_filters_find() {
    for (case, outputs) in waiting(Call::Run) {
        let filtered = model::filtered(&case.timestamps, &outputs);
        assert_eq!(model::side_by_side(&case.timestamps, &outputs), filtered);
    }
    // So many that the model takes the one loop.
    let (times, outputs): (Vec<i64>, Vec<i64>) = (0..2000).map(|k| (3 * k, 5 * k - 2000)).unzip();
    assert!(times.len() * outputs.len() > model::MANY);
    let filtered = model::filtered(&times, &outputs).into_iter().zip(&outputs);
    let waits: Vec<f64> = filtered.map(|(next, time)| model::wait(*time, next)).collect();
    assert_eq!(all_bits(&model::until_next(&times, &outputs)), all_bits(&waits));
}

/// All that is generated with a given rollup asks it, but for the numbers that name none.
#[test]
fn a_given_rollup_is_asked() {
    for rollup in [0, 32, UNTIL_NEXT, 49] {
        let mut rng = Rng::new(1);
        let asked = (0..20_000).map(|_| cases::case(&mut rng, Call::Run, Some(rollup)).rollup);
        let asked: BTreeSet<u32> = asked.collect();
        assert_eq!(asked, [rollup, 50, 51, u32::MAX].into());
    }
    let mut rng = Rng::new(1);
    let drawn = (0..20_000).map(|_| cases::accepted(&mut rng, Call::Run, None).rollup);
    assert_eq!(drawn.collect::<BTreeSet<u32>>(), (0..50).collect());
}

#[test]
fn output_times_of_every_kind_are_asked() {
    for call in RUNS {
        let waiting = waiting(call);
        let many = |is: &dyn Fn(&[i64], i64) -> bool| {
            let asks = |(case, outputs): &&(Case, Vec<i64>)| {
                outputs.iter().any(|time| is(&case.timestamps, *time))
            };
            waiting.iter().filter(asks).count() > 100
        };
        let first = |times: &[i64]| times.first().copied();
        let last = |times: &[i64]| times.last().copied();
        let amid = |times: &[i64], t: i64| first(times) < Some(t) && Some(t) < last(times);
        // Before, on, between and after the readings.
        assert!(many(&|times, t| first(times).is_some_and(|first| t < first)));
        assert!(many(&|times, t| first(times) == Some(t)));
        assert!(many(&|times, t| amid(times, t) && times.contains(&t)));
        assert!(many(&|times, t| amid(times, t) && !times.contains(&t)));
        assert!(many(&|times, t| amid(times, t) && times.contains(&(t + 1))));
        assert!(many(&|times, t| amid(times, t) && times.contains(&(t - 1))));
        assert!(many(&|times, t| last(times) == Some(t)));
        assert!(many(&|times, t| last(times).is_some_and(|last| t > last)));
        assert!(many(&|times, _| times.is_empty()));
        // At the limits, with readings there and elsewhere.
        let (low, high) = (-TIME_LIMIT, TIME_LIMIT);
        assert!(many(&|times, t| t == low && first(times) == Some(low)));
        assert!(many(&|times, t| t == low && first(times).is_some_and(|first| first > low)));
        assert!(many(&|times, t| t == high && last(times) == Some(high)));
        assert!(many(&|times, t| t == high && last(times).is_some_and(|last| last < high)));
        assert!(many(&|times, t| t == high - 1 && last(times) == Some(high)));
        // A next time of 0, and waits of half of all time and more.
        assert!(many(&|times, t| model::next(times, t) == Some(0)));
        assert!(many(&|times, t| model::wait(t, model::next(times, t)) >= high as f64 / 1e3));
        // A next reading whose prepared value is NaN.
        let nan = |(case, outputs): &&(Case, Vec<i64>)| {
            let values = oracle::prepared(case.pre, &case.timestamps, &case.values);
            outputs.iter().any(|time| {
                let next = case.timestamps.iter().position(|reading| reading > time);
                next.is_some_and(|next| values[next].is_nan())
            })
        };
        assert!(waiting.iter().filter(nan).count() > 10);
    }
}

type Readings<'a> = &'a [(i64, f64)];

/// A merge of two logs into slices of these lengths, before a word each that is not lent.
fn merge_case(first: Readings, second: Readings, lent_times: usize, lent_values: usize) -> Case {
    let mut case = Case {
        merged_timestamps: vec![UNSET as i64; lent_times + 1],
        merged_values: vec![UNSET; lent_values + 1],
        lent_times,
        lent_values,
        ..Case::default()
    };
    for ((timestamps, values), readings) in case.series_mut().into_iter().zip([first, second]) {
        (*timestamps, *values) = readings.iter().map(|(t, v)| (*t, v.to_bits())).unzip();
    }
    case
}

/// Merged into slices with room for so many readings.
fn merged(first: Readings, second: Readings, room: usize) -> Outcome {
    oracle::outcome(Call::Merge, &merge_case(first, second, room, room))
}

/// Accepted in either order, with these readings at the slices' fronts and nothing behind them.
fn merges(first: Readings, second: Readings, stated: Readings) {
    for (first, second) in [(first, second), (second, first)] {
        let outcome = merged(first, second, stated.len() + 1);
        let length = stated.len() as u64;
        assert_eq!((outcome.number, outcome.index, outcome.length), (0, 0, length));
        let room = merge_case(stated, &[], 1, 1);
        let times = [room.timestamps, room.merged_timestamps].concat();
        let values = [room.values, room.merged_values].concat();
        assert_eq!((outcome.merged_timestamps, outcome.merged_values), (times, values));
    }
}

#[test]
fn one_series_from_two() {
    let (a, b, c, d) = ((-7, 1.5), (0, -0.0), (1, 0.0), (TIME_LIMIT, 1.5));
    merges(&[a, b], &[c, d], &[a, b, c, d]);
    merges(&[a, c], &[b, d], &[a, b, c, d]);
    merges(&[a, d], &[b, c], &[a, b, c, d]);
    merges(&[a, b, c], &[b, c, d], &[a, b, c, d]);
    merges(&[a, b, c, d], &[c], &[a, b, c, d]);
    merges(&[a, b, c, d], &[a, d], &[a, b, c, d]);
    merges(&[(-TIME_LIMIT, 5e-324)], &[d], &[(-TIME_LIMIT, 5e-324), d]);
}

#[test]
fn with_itself_and_with_none() {
    let log = [(-TIME_LIMIT, -0.0), (3, 0.0), (4, -5e-324), (TIME_LIMIT, f64::MAX)];
    for length in 0..=log.len() {
        merges(&log[..length], &log[..length], &log[..length]);
        merges(&log[..length], &[], &log[..length]);
    }
}

/// Those of the first series, then those of the second, each by its lowest number and with the index in
/// its own series; then those of both.
#[test]
fn refused_merges() {
    let outside = (TIME_LIMIT + 1, 0.0);
    let refused = |first: Readings, second: Readings, number, index| {
        refuses(merged(first, second, 9), number, index);
        refuses(merged(first, second, 0), number, index);
    };
    let log = [(0, 1.0), (5, 2.0), (9, 3.0)];
    // The times of the second are not compared with those of the first.
    assert_eq!(merged(&log, &[(-5, 0.0)], 9).number, 0);
    refused(&log, &[(0, 1.0), (1, 1.0), outside], 3, 2);
    refused(&[(0, 1.0), outside], &log, 3, 1);
    refused(&log, &[(2, 1.0), (2, 1.0)], 4, 1);
    refused(&[(2, 1.0), (3, 1.0), (2, 1.0)], &log, 4, 2);
    refused(&log, &[(2, f64::NAN)], 5, 0);
    refused(&[(2, 1.0), (3, f64::NEG_INFINITY)], &log, 5, 1);
    // A higher number of the first before a lower of the second, but not within one series.
    refused(&[(2, 1.0), (3, f64::INFINITY)], &[outside], 5, 1);
    refused(&[(2, 1.0), (2, 1.0)], &[outside], 4, 1);
    refused(&log, &[(4, f64::NAN), (4, 0.0), outside], 3, 2);
    refused(&log, &[(4, 1.0), (6, f64::NAN), (6, 0.0)], 4, 2);
    // Before those of both, though the logs conflict.
    refused(&log, &[(0, 2.0), (1, f64::NAN)], 5, 1);
    for series in [0, 1] {
        let mut case = merge_case(&log, &[(0, 2.0)], 9, 9);
        case.series_mut()[series].1.push(0);
        refuses(oracle::outcome(Call::Merge, &case), 1, 0);
    }
}

#[test]
fn one_time_with_two_values() {
    let log = [(0, 1.0), (5, 0.0), (9, 3.0)];
    for conflict in [(0, 1f64.next_up()), (5, -0.0), (5, 5e-324), (9, -3.0)] {
        for room in [0, 2, 3, 9] {
            refuses(merged(&log, &[conflict], room), 17, 0);
            refuses(merged(&[conflict], &log, room), 17, 0);
        }
    }
    refuses(merged(&log, &log.map(|(time, value)| (time, -value)), 9), 17, 0);
    // The same value at another time is no conflict, nor is another value.
    merges(&log[..1], &[(1, 1.0), (2, 2.0)], &[(0, 1.0), (1, 1.0), (2, 2.0)]);
}

#[test]
fn either_slice_is_too_short() {
    let (first, second) = ([(0, 1.0), (5, 2.0)], [(5, 2.0), (9, 3.0)]);
    let number = |times, values| {
        oracle::outcome(Call::Merge, &merge_case(&first, &second, times, values)).number
    };
    assert_eq!([number(3, 3), number(4, 3), number(3, 4)], [0; 3]);
    for (times, values) in [(2, 3), (3, 2), (2, 2), (0, 9), (9, 0), (0, 0)] {
        let case = merge_case(&first, &second, times, values);
        refuses(oracle::outcome(Call::Merge, &case), 18, 0);
    }
}

/// Of the distinct times, not of the readings; before 17 and 18.
#[test]
fn as_many_times_as_are_allowed() {
    let most = rows::MOST as i64;
    let mut case = merge::of_times(0..most, [0, most - 1].into_iter());
    let outcome = oracle::outcome(Call::Merge, &case);
    assert_eq!((outcome.number, outcome.index, outcome.length), (0, 0, rows::MOST));
    assert!(outcome.merged_timestamps.into_iter().take(most as usize).eq(0..most));
    case.second_timestamps[1] = most;
    refuses(oracle::outcome(Call::Merge, &case), 2, 0);
    (case.second_values[0], case.lent_times) = (1, 0);
    refuses(oracle::outcome(Call::Merge, &case), 2, 0);
    case.second_timestamps[1] = 1;
    refuses(oracle::outcome(Call::Merge, &case), 17, 0);
}

type Log = BTreeSet<(i64, u64)>;

/// The readings of the two logs.
fn logs(case: &Case) -> [Log; 2] {
    case.series().map(|(times, values)| times.iter().copied().zip(values.iter().copied()).collect())
}

/// The result rises, has the readings of either log and no others, and is a series that each call
/// accepts; what stands behind it is left alone.
#[test]
fn the_result_is_a_series_of_both() {
    for case in accepted(Call::Merge, None) {
        let outcome = oracle::outcome(Call::Merge, &case);
        let n = outcome.length as usize;
        let (timestamps, rest) = outcome.merged_timestamps.split_at(n);
        let (values, other_rest) = outcome.merged_values.split_at(n);
        assert!(timestamps.windows(2).all(|pair| pair[0] < pair[1]));
        assert_eq!(rest, &case.merged_timestamps[n..]);
        assert_eq!(other_rest, &case.merged_values[n..]);
        let series =
            Case { timestamps: timestamps.to_vec(), values: values.to_vec(), ..Case::default() };
        let [first, second] = logs(&case);
        let [result, _] = logs(&series);
        assert_eq!(result, &first | &second);
        assert_eq!(result.len(), n);
        for (_, call) in Call::ALL {
            assert!(rows::offences(call, &series).next().is_none_or(|(number, _)| number > 5));
        }
    }
}

#[test]
fn the_order_of_the_logs_does_not_matter() {
    let mut rng = Rng::new(1);
    for _ in 0..20_000 {
        let case = cases::case(&mut rng, Call::Merge, None);
        let one = oracle::outcome(Call::Merge, &case);
        let swapped = Case {
            timestamps: case.second_timestamps,
            values: case.second_values,
            second_timestamps: case.timestamps,
            second_values: case.values,
            ..case
        };
        let other = oracle::outcome(Call::Merge, &swapped);
        if [0, 17, 18].contains(&one.number) {
            assert_eq!(one.against(&other), [""; 0]);
        }
        assert_eq!(one.number == 0, other.number == 0);
    }
}

/// How often the result goes over from one log to the other, where no reading is in both.
fn changes(one: &Log, other: &Log) -> usize {
    let all: Vec<_> = (one | other).into_iter().collect();
    all.windows(2).filter(|pair| one.contains(&pair[0]) != one.contains(&pair[1])).count()
}

#[test]
fn logs_of_every_kind_are_asked() {
    let accepted: Vec<_> = accepted(Call::Merge, None).iter().map(logs).collect();
    let many = |is: &dyn Fn(&Log, &Log) -> bool| {
        [[0, 1], [1, 0]].iter().all(|[one, other]| {
            accepted.iter().filter(|logs| is(&logs[*one], &logs[*other])).count() > 100
        })
    };
    assert!(many(&|one, other| one.is_empty() && other.is_empty()));
    assert!(many(&|one, other| one.is_empty() && other.len() > 2));
    let long = |is: fn(&Log, &Log) -> bool| {
        many(&|one, other| one.len() > 2 && other.len() > 2 && is(one, other))
    };
    assert!(long(|one, other| one.last() < other.first()));
    // Interleaved: alternating, and with some readings of one in a row.
    assert!(long(|one, other| changes(one, other) == one.len() + other.len() - 1));
    assert!(long(|one, other| {
        let changes = changes(one, other);
        one.is_disjoint(other) && 1 < changes && changes < one.len() + other.len() - 1
    }));
    assert!(long(|one, other| one == other));
    assert!(long(|one, other| one.is_subset(other) && one.len() < other.len()));
    assert!(long(|one, other| {
        let shared = (one & other).len();
        0 < shared && shared < one.len().min(other.len())
    }));
    // Shared zeros of either sign and subnormals, and readings at the limits, shared or not.
    let any = |is: fn(i64, f64) -> bool| {
        many(&|one, other| (one & other).iter().any(|(t, v)| is(*t, f64::from_bits(*v))))
            && many(&|one, other| (one - other).iter().any(|(t, v)| is(*t, f64::from_bits(*v))))
    };
    assert!(any(|_, value| value.to_bits() == 0) && any(|_, value| value.to_bits() == 1 << 63));
    assert!(any(|_, value| value.is_subnormal()));
    assert!(any(|time, _| time == TIME_LIMIT) && any(|time, _| time == -TIME_LIMIT));
}

/// The values of each time that is in both logs.
fn shared(case: &Case) -> Vec<[u64; 2]> {
    let [first, second] = logs(case).map(BTreeMap::from_iter);
    first.iter().filter_map(|(time, value)| Some([*value, *second.get(time)?])).collect()
}

#[test]
fn conflicts_of_every_kind_are_asked() {
    let mut rng = Rng::new(1);
    // Half of them are refused for equal times.
    let cases = (0..60_000).map(|_| cases::case(&mut rng, Call::Merge, None));
    let refused: Vec<_> = cases
        .filter(|case| rows::refusal(Call::Merge, case) == Some((17, 0)))
        .map(|case| shared(&case))
        .collect();
    let many = |is: &dyn Fn(&[[u64; 2]]) -> bool| refused.iter().filter(|s| is(s)).count() > 100;
    let conflict = |values: &&[u64; 2]| values[0] != values[1];
    let conflicts = |shared: &[[u64; 2]]| shared.iter().filter(conflict).count();
    let one = |shared: &[[u64; 2]], values: Option<&[u64; 2]>| {
        shared.len() > 2 && conflicts(shared) == 1 && values.is_some_and(|v| conflict(&v))
    };
    assert!(many(&|shared| one(shared, shared.first())));
    assert!(many(&|shared| one(shared, shared.last())));
    assert!(many(&|shared| one(shared, shared[1..].iter().rev().skip(1).find(conflict))));
    assert!(many(&|shared| 1 < conflicts(shared) && conflicts(shared) < shared.len()));
    assert!(many(&|shared| shared.len() > 2 && conflicts(shared) == shared.len()));
    // In the sign of a zero alone, either way; in any sign; in the last bit.
    let only = |is: fn(&[u64; 2]) -> bool| {
        many(&|shared| conflicts(shared) == 1 && shared.iter().filter(conflict).all(is))
    };
    assert!(only(|values| *values == [0, 1 << 63]) && only(|values| *values == [1 << 63, 0]));
    assert!(only(|[one, other]| one ^ other == 1 << 63 && one << 1 != 0));
    assert!(only(|[one, other]| one ^ other == 1));
}

/// Exact slices, longer ones, and those of which one is too short or both are, by one and by more.
#[test]
fn slices_of_every_length_are_asked() {
    let mut rng = Rng::new(1);
    let cases = (0..20_000).map(|_| cases::case(&mut rng, Call::Merge, None));
    let beside = |case: Case| {
        let refused = rows::refusal(Call::Merge, &case);
        let length = model::merged(case.series()).0.len() as i64;
        let lent = [case.lent_times, case.lent_values].map(|lent| lent as i64 - length);
        refused.is_none_or(|refusal| refusal == (18, 0)).then_some(lent)
    };
    let lent: Vec<[i64; 2]> = cases.filter_map(beside).collect();
    let many = |is: fn(i64, i64) -> bool| lent.iter().filter(|l| is(l[0], l[1])).count() > 100;
    for (times, values) in [(0, 0), (-1, 0), (0, -1), (-1, -1), (1, 0), (0, 7)] {
        assert!(lent.iter().filter(|lent| **lent == [times, values]).count() > 100);
    }
    assert!(many(|times, values| times > 0 && values > 0));
    assert!(many(|times, values| times < -1 && values > 0));
    assert!(many(|times, values| times > 0 && values < -1));
    assert!(many(|times, values| times < -1 && values < -1));
}
