//! Whole runs: each series and grid with every rollup; then runs that are refused, and both of series with equal times
//! and of series with staleness marks.

use original::exposed::Settings;

use super::{mask, setting_words};
use crate::call::{Call, Case, Series};
use crate::inputs::{cases, equal_times, floats, marks, series, settings};
use crate::judge::{Asked, Run, ROLLUPS, SEE_MARKS};
use crate::model::{self, MARK};
use crate::rng::Rng;
use crate::words::{all_bits, bits, times, List};
use crate::{judge, oracle, rows};

pub const CASES: &str = "step, first, second (the parameters), n, n times, n values, start, end, \
    step, window, may_adjust_window, is_default_rollup, lookback_delta, min_staleness_interval, \
    max_points_per_series, samples_scanned_per_call, then the settled window, the reach, the count \
    and g of the runs on the remaining readings, the same four of the runs that see staleness marks \
    (rollups 32 and 49), a word whose bit k says that a departure was applied to rollup k, and for \
    each of rollups 0 to 49 its answers, as many as its own g; where a g is 0 the run is refused, and \
    the number and the index of the refusal stand for window and reach: for the runs that see marks \
    after a step, and where no place for an answer is lent for all";

/// The rows of docs/REFUSALS.md that a run is refused by here. The others are about slices whose lengths
/// are not in the list.
const REFUSALS: std::ops::RangeInclusive<u64> = 3..=12;

pub fn make(rng: &mut Rng, list: &mut List) {
    for case in 0..450 {
        let (step, n) = (case % judge::STEPS.len(), rng.between(0, 14) as usize);
        let (timestamps, values) = series::for_step(rng, step, n);
        accepted(rng, list, step, &timestamps, &values, 7);
    }
    for case in 0..30 {
        let (step, n) = (case % judge::STEPS.len(), rng.between(16, 40) as usize);
        let (timestamps, values) = series::for_step(rng, step, n);
        accepted(rng, list, step, &timestamps, &values, 12);
    }
    // Windows of zeros, where the departures of a rollup come into play.
    for _ in 0..10 {
        let n = rng.between(2, 9) as usize;
        let timestamps = series::times(rng, n);
        let values: Vec<f64> = (0..n).map(|_| rng.pick(&[0.0, -0.0, -0.0, -1.0])).collect();
        accepted(rng, list, 0, &timestamps, &values, 5);
    }
    for number in REFUSALS {
        for _ in 0..8 {
            refused(rng, list, number);
        }
    }
    for case in 0..60 {
        let steps = judge::STEPS.len();
        equal(rng, list, case % steps, case / steps % 2 == 0);
    }
    for _ in 0..8 {
        falling(rng, list);
    }
    // Half of them after no step, where the rollups that see marks are accepted.
    for case in 0..72 {
        let step = if case % 2 == 0 { 0 } else { 1 + case / 2 % (judge::STEPS.len() - 1) };
        marked(rng, list, step, case < 12);
    }
    for pattern in marks::LIKE_MARKS {
        beside_marks(rng, list, |case, place| case.values[place] = pattern);
    }
    for _ in 0..3 {
        beside_marks(rng, list, |case, place| case.timestamps[place] = -(1 << 50) - 1);
        beside_marks(rng, list, |case, place| case.timestamps[place] -= 1 << 49);
        beside_marks(rng, list, |_, _| {});
    }
}

fn accepted(
    rng: &mut Rng,
    list: &mut List,
    step: usize,
    timestamps: &[i64],
    values: &[f64],
    points: i64,
) {
    let parameters = (floats::parameter(rng), floats::parameter(rng));
    let s = settings::settings(rng, timestamps, points);
    put(list, step, parameters, (timestamps, &all_bits(values)), &s);
}

/// A run over equal times at the edges of its windows; where that is asked for, one in which the Rust goes by halves for
/// the first output time, and may stop at any of several readings.
fn equal(rng: &mut Rng, list: &mut List, step: usize, by_halves: bool) {
    loop {
        let n = if rng.once_in(4) { rng.between(2, 15) } else { rng.between(16, 40) };
        let (mut timestamps, values) = series::for_step(rng, step, n as usize);
        let parameters = (floats::parameter(rng), floats::parameter(rng));
        let s = settings::settings(rng, &timestamps, 7);
        equal_times::at_edges(rng, &mut timestamps, &s, None);
        if !by_halves || leaves_open(&timestamps, s.start) {
            return put(list, step, parameters, (&timestamps, &all_bits(&values)), &s);
        }
    }
}

/// Whether a search by halves for the first time after this one may stop at several.
fn leaves_open(timestamps: &[i64], time: i64) -> bool {
    let after = timestamps.iter().filter(|other| **other == time + 1).count();
    timestamps.len() > 15 && timestamps[2] <= time && after > 1
}

/// A run on a series with marks, or on marks alone. In some the times are equal, and in some the marks stand where the
/// windows of rollups that see them end and begin.
fn marked(rng: &mut Rng, list: &mut List, step: usize, only_marks: bool) {
    let n = rng.between(2, 40) as usize;
    let (mut timestamps, values) = series::for_step(rng, step, n);
    let parameters = (floats::parameter(rng), floats::parameter(rng));
    let settings = settings::settings(rng, &timestamps, 7);
    if rng.once_in(3) {
        equal_times::at_edges(rng, &mut timestamps, &settings, None);
    }
    let rollup = if step == 0 { SEE_MARKS[0] as u32 } else { 0 };
    let values = all_bits(&values);
    let mut case = Case { timestamps, values, rollup, settings, ..Case::default() };
    match only_marks {
        true => case.values.fill(MARK),
        false => marks::put(rng, Call::Run, &mut case),
    }
    put(list, step, parameters, case.series()[0], &case.settings);
}

fn put(
    list: &mut List,
    step: usize,
    (first, second): (f64, f64),
    (timestamps, values): Series,
    s: &Settings,
) {
    let all = (timestamps.to_vec(), values.to_vec());
    let remaining = model::remaining((timestamps, values));
    let run = |number: usize| {
        let sees_marks = SEE_MARKS.contains(&number);
        if sees_marks && step > 0 {
            return Run::default();
        }
        let (timestamps, values) = if sees_marks { &all } else { &remaining };
        let values = &oracle::prepared(step as u32, timestamps, values);
        judge::run(Asked { settings: s, number, first, second, values, timestamps })
    };
    let runs: Vec<Run> = (0..ROLLUPS.len()).map(run).collect();
    let accepted = |timestamps: &[i64], run: &Run| {
        let (window, reach) = judge::settle(s, timestamps);
        [window as u64, reach as u64, run.count, run.answers.len() as u64]
    };

    let mut words = given(step as u64, first, second, timestamps, values, s);
    words.extend(accepted(&remaining.0, &runs[0]));
    words.extend(match step {
        0 => accepted(timestamps, &runs[SEE_MARKS[0]]),
        _ => [19, 0, 0, 0],
    });
    let departed: Vec<bool> = runs.iter().map(|run| run.departed.contains(&true)).collect();
    words.push(mask(&departed));
    words.extend(runs.into_iter().flat_map(|run| run.answers));
    list.case(&words);
}

/// A run of a few readings that is refused with this number, whatever the rollup.
fn refused(rng: &mut Rng, list: &mut List, number: u64) {
    loop {
        let mut case = Case { dst_values: vec![], ..cases::rising_run(rng) };
        part(&mut case.timestamps);
        let few = case.timestamps.len() <= 14 && case.timestamps.len() == case.values.len();
        match rows::refusal(Call::Run, &case) {
            Some((found, index)) if found == number && few => {
                return put_refused(list, &case, number, index);
            }
            _ => {}
        }
    }
}

/// Equal times are accepted: here the second of two comes to be a millisecond earlier.
fn part(timestamps: &mut [i64]) {
    for i in 1..timestamps.len() {
        if timestamps[i] == timestamps[i - 1] {
            timestamps[i] = timestamps[i].saturating_sub(1);
        }
    }
}

/// A run over equal times that is refused, since one time falls.
fn falling(rng: &mut Rng, list: &mut List) {
    let n = rng.between(3, 14);
    let (mut timestamps, values) = series::series(rng, n as usize);
    let settings = settings::settings(rng, &timestamps, 7);
    equal_times::anywhere(rng, &mut timestamps);
    let place = rng.between(1, n - 1) as usize;
    timestamps[place] = timestamps[place - 1] - rng.pick(&[1, 1000]);
    let case = Case { timestamps, values: all_bits(&values), settings, ..Case::default() };
    let (number, index) = rows::refusal(Call::Run, &case).unwrap();
    put_refused(list, &case, number, index);
}

/// A run that is refused on a series with marks, which stand at the place of the edit and before it.
fn beside_marks(rng: &mut Rng, list: &mut List, edit: impl Fn(&mut Case, usize)) {
    let n = rng.between(3, 14);
    let (timestamps, values) = series::series(rng, n as usize);
    let settings = settings::settings(rng, &timestamps, 7);
    let values = all_bits(&values);
    let mut case = Case { timestamps, values, settings, ..Case::default() };
    marks::anywhere(rng, &mut case.values);
    let place = rng.between(1, n - 1) as usize;
    case.values[place - 1..=place].fill(MARK);
    edit(&mut case, place);
    let (number, index) = rows::refusal(Call::Run, &case).unwrap();
    put_refused(list, &case, number, index);
}

/// A run that is refused, with no place for an answer lent.
fn put_refused(list: &mut List, case: &Case, number: u64, index: u64) {
    let (pre, times) = (case.pre as u64, &case.timestamps);
    let given = given(pre, case.first, case.second, times, &case.values, &case.settings);
    let refused = [number, index, 0, 0];
    list.case(&[&given[..], &refused, &refused, &[0]].concat());
}

/// The words of what a run is given.
fn given(
    step: u64,
    first: f64,
    second: f64,
    timestamps: &[i64],
    values: &[u64],
    s: &Settings,
) -> Vec<u64> {
    let mut words = vec![step, bits(first), bits(second), timestamps.len() as u64];
    words.extend(times(timestamps));
    words.extend(values);
    words.extend(setting_words(s));
    words
}
