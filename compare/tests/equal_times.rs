//! Readings with equal times: what the request states of them, and what the Rust makes of them; where the Rust's
//! search stops elsewhere than the window rule has it; and whether the generated calls reach what they are to reach.

mod helpers;

use std::collections::BTreeMap;

use compare::call::{Call, Case, Outcome, UNSET};
use compare::inputs::cases;
use compare::judge::{self, Asked, ROLLUPS, STEPS};
use compare::rng::Rng;
use compare::window::{repeats, Window};
use compare::words::{all_bits, bits};
use compare::{model, oracle, rows};
use helpers::*;
use original::exposed::{self, Settings};

const RUNS: [Call; 2] = [Call::Run, Call::SettledRun];

/// What any call may be handed: values 1, 2, 3 and so on, one output time, and room for all that is written.
fn case_of(timestamps: &[i64]) -> Case {
    let values = (1..=timestamps.len()).map(|k| k as f64).collect();
    let settings = Settings { step: 1, window: 1, ..Settings::default() };
    Case { reach: 1, ..cases::for_any_call(&(timestamps.to_vec(), values), settings) }
}

/// The number and the index that a call is refused with, 0 and 0 where it is accepted.
fn refusal(call: Call, case: &Case) -> (u64, u64) {
    let outcome = oracle::outcome(call, case);
    (outcome.number, outcome.index)
}

#[test]
fn equal_times_are_accepted() {
    for (_, call) in Call::ALL.into_iter().filter(|(_, call)| *call != Call::Merge) {
        for times in
            [&[5, 5][..], &[5, 5, 5], &[4, 5, 5], &[4, 4, 5], &[4, 4, 5, 5], &[-1, 0, 0, 7]]
        {
            assert_eq!(refusal(call, &case_of(times)), (0, 0));
        }
        let limit = 1 << 50;
        assert_eq!(refusal(call, &case_of(&[-limit, -limit, limit, limit])), (0, 0));
    }
}

/// The index is that of the first time below the one before, not of one that is as late.
#[test]
fn a_time_below_is_refused() {
    for (_, call) in Call::ALL.into_iter().filter(|(_, call)| *call != Call::Merge) {
        for (times, index) in [
            (&[5, 4][..], 1),
            (&[5, 5, 4], 2),
            (&[5, 5, 5, 4, 4, 3], 3),
            (&[5, 4, 4, 5], 1),
            (&[5, 6, 6, 5, 6], 3),
        ] {
            assert_eq!(refusal(call, &case_of(times)), (4, index));
        }
    }
}

/// The index is that of the first time not above the one before, in its own series.
#[test]
fn merge_wants_times_that_rise() {
    let stated = [
        (&[5, 5][..], 1),
        (&[5, 5, 5], 1),
        (&[4, 5, 5, 5], 2),
        (&[4, 5, 6, 6], 3),
        (&[4, 5, 5, 4], 2),
        (&[5, 4, 4], 1),
    ];
    for (times, index) in stated {
        let first = case_of(times);
        assert_eq!(refusal(Call::Merge, &first), (4, index));
        let second = Case {
            timestamps: vec![0, 1],
            values: vec![0; 2],
            second_timestamps: first.timestamps.clone(),
            second_values: first.values.clone(),
            ..first.clone()
        };
        assert_eq!(refusal(Call::Merge, &second), (4, index));
    }
    let rising = Case { lent_times: 3, ..case_of(&[4, 5, 6]) };
    assert_eq!(refusal(Call::Merge, &rising), (0, 0));
}

/// Readings with two equal times at either edge of a window from 10 to 20, and a millisecond after either edge.
const TIMES: [i64; 12] = [0, 10, 10, 11, 11, 15, 20, 20, 20, 21, 21, 30];
const VALUES: [f64; 12] = [0.5, 1.0, 2.0, 3.0, 4.0, 5.0, 6.0, 7.0, 8.0, 9.0, 10.0, 11.0];

fn window_at(time: i64, window: i64, reach: i64) -> Window {
    Window::at(time, window, reach, &TIMES, &VALUES)
}

#[test]
fn a_window_with_equal_times_at_its_edges() {
    let window = window_at(20, 10, 100);
    let record = window.record();
    assert_eq!(record.timestamps, [11, 11, 15, 20, 20, 20]);
    assert_eq!(record.values, [3.0, 4.0, 5.0, 6.0, 7.0, 8.0]);
    // The last of those at 10, the first of those at 21.
    assert_eq!((record.prev_value, record.prev_timestamp), (2.0, 10));
    assert_eq!((record.real_prev_value, record.real_next_value), (2.0, 9.0));
    assert_eq!((record.curr_timestamp, record.window), (20, 10));
}

#[test]
fn a_predecessor_that_is_not_used() {
    // At the reach's edge it is not used, a millisecond later it is. The real one ignores the reach.
    for (reach, used) in [(1, 2.0), (0, NAN)] {
        let window = window_at(20, 10, reach);
        same(window.record().prev_value, used);
        assert_eq!(window.record().prev_timestamp, 10);
        assert_eq!(window.record().real_prev_value, 2.0);
    }
    let window = window_at(20, 9, 1);
    same(window.record().prev_value, 4.0);
    // No reading is later than where the window begins, whether its own time is equal or earlier.
    for time in [40, 41] {
        let window = window_at(time, 10, 100);
        let record = window.record();
        assert_eq!(record.timestamps, []);
        same(record.prev_value, NAN);
        assert_eq!(record.prev_timestamp, time - 110);
        same(record.real_prev_value, 11.0);
        same(record.real_next_value, NAN);
    }
}

#[test]
fn all_times_equal() {
    let at = |time| Window::at(time, 10, 100, &[5; 3], &[1.0, 2.0, 3.0]);
    for time in [5, 14] {
        let window = at(time);
        let record = window.record();
        assert_eq!(record.values, [1.0, 2.0, 3.0]);
        same(record.prev_value, NAN);
        assert_eq!(record.prev_timestamp, time - 110);
        all_same(&[record.real_prev_value, record.real_next_value], &[NAN, NAN]);
    }
    all_same(&[at(4).record().real_prev_value, at(4).record().real_next_value], &[NAN, 1.0]);
    all_same(&[at(15).record().real_prev_value, at(15).record().real_next_value], &[3.0, NAN]);
    assert!(at(4).record().values.is_empty() && at(15).record().values.is_empty());
}

/// A run of a rollup over readings a window of which ends at each output time, after no step.
fn run_of(call: Call, name: &str, times: &[i64], values: &[f64], settings: Settings) -> Outcome {
    let rollup = ROLLUPS.iter().position(|other| *other == name).unwrap() as u32;
    let series = (times.to_vec(), values.to_vec());
    let outcome = oracle::outcome(call, &Case { rollup, ..cases::average(&series, settings) });
    assert_eq!((outcome.number, outcome.index), (0, 0));
    outcome
}

/// Both runs give these answers at the output times from 10 to 30.
fn at_10_20_30(name: &str, stated: [f64; 3]) {
    for call in RUNS {
        let settings = Settings { start: 10, end: 30, step: 10, window: 10, ..Settings::default() };
        let outcome = run_of(call, name, &TIMES, &VALUES, settings);
        assert_eq!(outcome.dst_values[..3], all_bits(&stated), "{name}");
    }
}

#[test]
fn runs_over_equal_times() {
    at_10_20_30("count", [2.0, 6.0, 3.0]);
    at_10_20_30("sum", [3.0, 33.0, 30.0]);
    at_10_20_30("first", [1.0, 3.0, 9.0]);
    at_10_20_30("default", [2.0, 8.0, 11.0]);
    at_10_20_30("tfirst", [0.010, 0.011, 0.021]);
    at_10_20_30("tlast", [0.010, 0.020, 0.030]);
    at_10_20_30("idelta", [1.0, 1.0, 1.0]);
    at_10_20_30("until_next", [0.001, 0.001, NAN]);
    // From the predecessor, the last at where the window begins, to the last in it.
    at_10_20_30("delta", [1.5, 6.0, 3.0]);
    at_10_20_30("deriv_fast", [1.5 / 0.01, 6.0 / 0.01, 3.0 / 0.01]);
}

#[test]
fn the_count_of_equal_times() {
    for call in RUNS {
        let settings = Settings { start: 10, end: 30, step: 10, window: 10, ..Settings::default() };
        let per_call = Settings { samples_scanned_per_call: 5, ..settings.clone() };
        assert_eq!(run_of(call, "avg", &TIMES, &VALUES, settings).count, 12 + 2 + 6 + 3);
        assert_eq!(run_of(call, "avg", &TIMES, &VALUES, per_call).count, 12 + 3 * 5);
    }
}

/// The answer at the output time 20 over the last 10 milliseconds.
fn at_20(name: &str, times: &[i64], values: &[f64]) -> f64 {
    let settings = Settings { start: 20, end: 20, step: 1, window: 10, ..Settings::default() };
    f64::from_bits(run_of(Call::Run, name, times, values, settings).dst_values[0])
}

#[test]
fn a_division_by_no_time() {
    for (values, stated) in [([1.0, 5.0], INF), ([5.0, 1.0], -INF), ([5.0, 5.0], NAN)] {
        same(at_20("deriv_fast", &[15, 15], &values), stated);
        // The Rust has an answer of its own for a window whose readings have one time.
        same(at_20("ideriv", &[15, 15], &values), 0.0);
    }
    // So has it for the slope through readings at one time.
    same(at_20("deriv_slow", &[15, 15], &[1.0, 5.0]), 0.0);
    same(at_20("scrape_interval", &[15, 15], &[1.0, 5.0]), 0.0);
    same(at_20("lifetime", &[15, 15], &[1.0, 5.0]), 0.0);
    same(at_20("integrate", &[15, 15], &[1.0, 5.0]), 5.0 * 0.005);
}

/// From the last reading before those of the last time, or from the predecessor.
#[test]
fn ideriv_over_equal_times() {
    same(at_20("ideriv", &[13, 15, 15, 15], &[1.0, 5.0, 6.0, 9.0]), 8.0 / 0.002);
    same(at_20("ideriv", &[13, 13, 15], &[1.0, 5.0, 6.0]), 1.0 / 0.002);
    same(at_20("ideriv", &[9, 10, 10, 15, 15], &[0.0, 1.0, 2.0, 6.0, 9.0]), 7.0 / 0.005);
}

fn prepared(step: &str, times: &[i64], values: &[f64]) -> Vec<f64> {
    let pre = STEPS.iter().position(|name| *name == step).unwrap() as u32;
    let values = values.iter().map(|v| v.to_bits()).collect();
    let outcome = oracle::outcome(Call::Prepare, &Case { pre, values, ..case_of(times) });
    assert_eq!((outcome.number, outcome.index), (0, 0));
    outcome.prepared.into_iter().take(times.len()).map(f64::from_bits).collect()
}

/// A reading with the time of the one before it gets the figure before, and the next one is compared with the first
/// of that time.
#[test]
fn deriv_over_equal_times() {
    let deriv = |times: &[i64], values: &[f64]| prepared("deriv", times, values);
    all_same(&deriv(&[0, 0], &[1.0, 5.0]), &[0.0, 0.0]);
    all_same(&deriv(&[0, 0, 1000], &[1.0, 5.0, 9.0]), &[0.0, 8.0, 8.0]);
    all_same(&deriv(&[0, 1000, 1000, 2000], &[1.0, 5.0, 9.0, 2.0]), &[4.0, 4.0, -3.0, -3.0]);
    all_same(&deriv(&[0, 1000, 1000], &[1.0, 5.0, 9.0]), &[4.0, 4.0, 4.0]);
}

#[test]
fn other_steps_over_equal_times() {
    let (times, values) = ([0, 1000, 1000, 2000], [1.0, 5.0, 3.0, 4.0]);
    all_same(&prepared("none", &times, &values), &values);
    all_same(&prepared("delta", &times, &values), &[4.0, -2.0, 1.0, 1.0]);
    all_same(&prepared("intervals", &times, &values), &[1.0, 1.0, 0.0, 1.0]);
    all_same(&prepared("resets", &times, &values), &[1.0, 5.0, 8.0, 17.0]);
    all_same(&prepared("resets_once", &times, &values), &[1.0, 5.0, 8.0, 9.0]);
}

/// Intervals of 0 count in the estimate; an estimate of 0 is that of no readings.
#[test]
fn estimates_over_equal_times() {
    assert_eq!(exposed::scrape_interval(&[5, 5]), 300_000);
    assert_eq!(exposed::scrape_interval(&[0, 0, 1000]), 600);
    let adjusting = Settings { step: 1, may_adjust_window: true, ..Settings::default() };
    assert_eq!(judge::settle(&adjusting, &[5, 5]), (337_500, 337_500));
    assert_eq!(judge::settle(&adjusting, &[0, 0, 1000]), (3000, 3000));
}

/// The first in order of those that are as near.
#[test]
fn nearest_of_equal_times() {
    let times = [5, 5, 9, 9, 9];
    for (time, stated) in [(0, 0), (5, 0), (6, 0), (7, 0), (8, 2), (9, 2), (100, 2)] {
        let outcome = oracle::outcome(Call::Nearest, &Case { time, ..case_of(&times) });
        assert_eq!((outcome.number, outcome.found, outcome.nearest), (0, 1, stated));
        assert_eq!(model::first_least(&times, time), Some(stated as usize));
    }
}

#[test]
fn crossings_at_one_time() {
    let outcome = oracle::outcome(Call::Crossings, &case_of(&[7; 3]));
    assert_eq!((outcome.number, outcome.count), (0, 1));
    assert_eq!(outcome.indexes, [1, UNSET, UNSET]);
}

/// The first index with a later time.
fn first_later(times: &[i64], target: i64) -> usize {
    times.iter().filter(|time| **time <= target).count()
}

/// Series of so many readings at times from 0 to 3 that do not fall.
fn series_of(n: usize) -> Vec<Vec<i64>> {
    let mut all = vec![vec![]];
    for _ in 0..n {
        let longer = all.into_iter().flat_map(|times: Vec<i64>| {
            let last = times.last().copied().unwrap_or(0);
            (last..=3).map(move |time| [&times[..], &[time]].concat())
        });
        all = longer.collect();
    }
    all
}

/// Below 16 readings the Rust's search looks at each.
#[test]
fn a_short_search_finds_the_first() {
    for n in 0..16 {
        for times in series_of(n) {
            for target in -1..=3 {
                let stated = first_later(&times, target);
                assert!((0..n + 4).all(|hint| exposed::seek(&times, target, hint) == stated));
            }
        }
    }
}

/// The smallest departures of the Rust's search: of 16 readings the last two have the time after the one that is asked
/// about. The search by halves looks for just that time, and `binary_search` may stop at either of the two. The one of
/// rustc 1.95 stops at the last, so that the first comes to lie before: in a window that ends before both, or not in
/// one that begins with both.
#[test]
fn a_search_by_halves_stops_at_any() {
    let times: Vec<i64> = (1..=15).chain([15]).collect();
    assert_eq!((exposed::seek(&times, 14, 0), first_later(&times, 14)), (15, 14));
    for (time, window, own, stated) in [(14, 14, 15, 14), (15, 1, 1, 2)] {
        let settings = Settings { start: time, end: time, step: 1, window, ..Settings::default() };
        let count = || rollup("count", 0.0, 0.0);
        let rust = exposed::run(&settings, count(), &[0.0; 16], &times).unwrap();
        assert_eq!(rust, (vec![own as f64], 16 + own));
        let outcome = run_of(Call::Run, "count", &times, &[0.0; 16], settings.clone());
        assert_eq!((outcome.dst_values[0], outcome.count), (bits(stated as f64), 16 + stated));
        // With 15 readings the Rust has it so, too.
        let rust = exposed::run(&settings, count(), &[0.0; 15], &times[1..]).unwrap();
        assert_eq!(rust, (vec![stated.min(13) as f64], 15 + stated.min(13)));
    }
}

/// The Rust's search finds the first index with a later time or, of several readings a millisecond later, any.
#[test]
fn a_search_stops_at_the_first_or_among_equals() {
    let mut rng = Rng::new(1);
    for _ in 0..20_000 {
        let case = cases::case(&mut rng, Call::Nearest, None);
        let times = case.timestamps;
        if case.time > 1 << 50 || times.windows(2).any(|pair| pair[1] < pair[0]) {
            continue;
        }
        let hint = rng.below(times.len() as u64 + 5) as usize;
        let (found, stated) =
            (exposed::seek(&times, case.time, hint), first_later(&times, case.time));
        let next = times.iter().filter(|time| **time == case.time + 1).count();
        assert!(found == stated || next > 1 && stated <= found && found < stated + next);
    }
}

/// Generated calls.
fn generated(call: Call) -> impl Iterator<Item = Case> {
    let mut rng = Rng::new(1);
    (0..20_000).map(move |_| cases::case(&mut rng, call, None))
}

/// Those that are accepted.
fn accepted(call: Call) -> impl Iterator<Item = Case> {
    generated(call).filter(move |case| rows::refusal(call, case).is_none())
}

/// Where no times are equal the window rule and the Rust are one judge.
#[test]
fn the_rule_is_the_rust_where_times_rise() {
    judge::quiet();
    for case in accepted(Call::Run).filter(|case| !repeats(&case.timestamps)) {
        let (timestamps, values) = oracle::readings(&case);
        let values = oracle::prepared(case.pre, &timestamps, &values);
        let Case { settings, first, second, .. } = case;
        let asked = Asked {
            settings: &settings,
            number: case.rollup as usize,
            first,
            second,
            values: &values,
            timestamps: &timestamps,
        };
        assert_eq!(judge::by_the_rule(asked), judge::by_the_rust(asked));
    }
}

#[test]
fn half_of_the_calls_have_equal_times() {
    for (_, call) in Call::ALL {
        let repeats = generated(call).filter(|case| case.series().iter().any(|s| repeats(s.0)));
        assert!((9_000..11_500).contains(&repeats.count()));
    }
}

/// How many readings have each time that several have.
fn shared(times: &[i64]) -> BTreeMap<i64, usize> {
    let mut readings = BTreeMap::new();
    times.iter().for_each(|time| *readings.entry(*time).or_insert(0) += 1);
    readings.retain(|_, readings| *readings > 1);
    readings
}

#[test]
fn equal_times_of_every_kind_are_asked() {
    for (_, call) in Call::ALL.into_iter().filter(|(_, call)| *call != Call::Merge) {
        let all: Vec<Vec<i64>> = accepted(call).map(|case| case.timestamps).collect();
        let many = |is: &dyn Fn(&[i64], &BTreeMap<i64, usize>) -> bool| {
            let asks = all.iter().filter(|times| repeats(times) && is(times, &shared(times)));
            asks.count() > 100
        };
        let size = |is: fn(&usize) -> bool| many(&|_, shared| shared.values().any(is));
        assert!(size(|n| *n == 2) && size(|n| *n == 3) && size(|n| *n > 15) && size(|n| *n > 40));
        assert!(many(&|times, shared| shared.contains_key(&times[0]) && shared.len() == 1));
        assert!(many(&|times, _| times[0] == times[times.len() - 1]));
        assert!(many(&|times, shared| times[0] != times[times.len() - 1]
            && shared.contains_key(&times[times.len() - 1])));
        assert!(many(&|times, shared| !shared.contains_key(&times[0])
            && !shared.contains_key(&times[times.len() - 1])));
        assert!(many(&|_, shared| shared.len() > 1) && many(&|_, shared| shared.len() > 3));
        assert!(many(&|times, _| times.len() < 10) && many(&|times, _| times.len() > 60));
        assert!(many(&|times, _| times[0] == -(1 << 50) && times[1] == times[0]));
        assert!(many(&|times, _| times.ends_with(&[1 << 50; 2])));
    }
}

/// At an output time, where its window and its reach begin, and a millisecond after each, also where the Rust's search
/// goes by halves.
#[test]
fn equal_times_at_every_edge_are_asked() {
    for call in RUNS {
        let cases: Vec<Case> = accepted(call).filter(|case| repeats(&case.timestamps)).collect();
        let edges: [fn(i64, i64, i64) -> i64; 6] = [
            |t, _, _| t,
            |t, _, _| t + 1,
            |t, window, _| t - window,
            |t, window, _| t - window + 1,
            |t, window, reach| t - window - reach,
            |t, window, reach| t - window - reach + 1,
        ];
        for edge in edges {
            let at = |case: &&Case| {
                let (window, reach) = match call {
                    Call::Run => judge::settle(&case.settings, &case.timestamps),
                    _ => (case.settings.window, case.reach),
                };
                let Settings { start, end, step, .. } = case.settings;
                let shared = shared(&case.timestamps);
                let mut grid = (start..=end).step_by(step as usize);
                case.timestamps.len() > 15
                    && grid.any(|t| shared.contains_key(&edge(t, window, reach)))
            };
            assert!(cases.iter().filter(at).count() > 300);
        }
    }
}

/// That a merge is refused for an equal time, at the second place, at the last and between them, in either log.
#[test]
fn equal_times_of_every_kind_are_refused() {
    let refused = generated(Call::Merge).filter_map(|case| {
        let (number, index) = rows::refusal(Call::Merge, &case)?;
        let of_first = rows::refusal(
            Call::Merge,
            &Case { second_timestamps: vec![], second_values: vec![], ..case.clone() },
        );
        let which = if of_first == Some((number, index)) { 0 } else { 1 };
        (number == 4).then(|| (which, case.series()[which].0.to_vec(), index as usize))
    });
    let mut kinds = [[0; 4]; 2];
    for (which, times, index) in refused {
        let equal = times[index] == times[index - 1];
        let last = index + 1 == times.len();
        let found = [equal && index == 1, equal && last, equal && index > 1 && !last, !equal];
        kinds[which].iter_mut().zip(found).for_each(|(kind, is)| *kind += is as u64);
    }
    assert!(kinds.as_flattened().iter().all(|kind| *kind > 50), "{kinds:?}");
}

/// That the nearest are several at one time, and that they are as near as others, one or several.
#[test]
fn nearest_of_several_are_asked() {
    let mut kinds = [0; 4];
    for case in accepted(Call::Nearest).filter(|case| repeats(&case.timestamps)) {
        let shared = shared(&case.timestamps);
        let found = case.timestamps[model::nearest(&case.timestamps, case.time).unwrap()];
        let other = 2 * case.time - found;
        let tie = found < other && case.timestamps.contains(&other);
        let [first, second] = [found, other].map(|time| shared.contains_key(&time));
        let is = [first && !tie, first && tie, tie && second, first && tie && second];
        kinds.iter_mut().zip(is).for_each(|(kind, is)| *kind += is as u64);
    }
    assert!(kinds.iter().all(|kind| *kind > 50), "{kinds:?}");
}
