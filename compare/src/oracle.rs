//! The outcome of a call as the Rust, or the model, and docs/REFUSALS.md have it.

use crate::call::{Call, Case, Outcome};
use crate::judge::{self, Asked, Run};
use crate::words::all_bits;
use crate::{model, rows, window};

pub fn outcome(call: Call, case: &Case) -> Outcome {
    let mut outcome = Outcome::before(case);
    if let Some((number, index)) = rows::refusal(call, case) {
        return Outcome { number, index, ..outcome };
    }
    outcome.index = 0;
    match call {
        Call::Prepare => {
            let values = prepared(case.pre, &case.timestamps, &case.values);
            write(&mut outcome.prepared, &all_bits(&values))
        }
        Call::Settle => {
            (outcome.window, outcome.reach) = judge::settle(&case.settings, &case.timestamps);
            outcome.points = rows::points(case);
        }
        Call::Run | Call::SettledRun => run(call, case, &mut outcome),
        Call::Crossings => {
            outcome.count = model::count(&case.values, case.limit);
            write(&mut outcome.indexes, &model::crossings(&case.values, case.limit));
        }
        Call::Nearest => {
            let nearest = model::nearest(&case.timestamps, case.time);
            (outcome.found, outcome.nearest) = nearest.map_or((0, 0), |i| (1, i as u64));
        }
        Call::Merge => {
            let (times, values): (Vec<_>, Vec<_>) =
                model::merged(case.series()).0.into_iter().unzip();
            outcome.length = times.len() as u64;
            write(&mut outcome.merged_timestamps, &times);
            write(&mut outcome.merged_values, &values);
        }
    }
    outcome
}

fn run(call: Call, case: &Case, outcome: &mut Outcome) {
    let (timestamps, values) = readings(case);
    let prepared = prepared(case.pre, &timestamps, &values);
    let run = run_by(judge::run, call, case, &timestamps, &prepared);
    outcome.count = run.count;
    write(&mut outcome.dst_values, &run.answers);
    // After no step the prepared values have the readings' own bits, marks included.
    write(&mut outcome.prepared, &if case.pre == 0 { values } else { all_bits(&prepared) });
    write(&mut outcome.remaining, &timestamps);
    write(&mut outcome.work, &vec![0; 2 * prepared.len()]);
}

/// The run as it is judged, or as the Rust has it, on times and prepared values.
fn run_by(
    judge: fn(Asked) -> Run,
    call: Call,
    case: &Case,
    timestamps: &[i64],
    values: &[f64],
) -> Run {
    let settings = match call {
        Call::SettledRun => judge::settled(&case.settings, case.settings.window, case.reach),
        _ => case.settings.clone(),
    };
    judge(Asked {
        settings: &settings,
        number: case.rollup as usize,
        first: case.first,
        second: case.second,
        values,
        timestamps,
    })
}

/// Whether the Rust's own run has the answers and the count of this outcome, where it is an accepted run on readings
/// with equal times, which the window rule judges.
pub fn as_the_rust(call: Call, case: &Case, outcome: &Outcome) -> Option<bool> {
    if !rows::runs(call) || outcome.number != 0 {
        return None;
    }
    let (timestamps, values) = readings(case);
    if !window::repeats(&timestamps) {
        return None;
    }
    let values = prepared(case.pre, &timestamps, &values);
    let run = run_by(judge::by_the_rust, call, case, &timestamps, &values);
    Some(run.count == outcome.count && outcome.dst_values.starts_with(&run.answers))
}

/// The readings that a run is made on: the remaining ones, for a rollup that sees marks all.
pub fn readings(case: &Case) -> (Vec<i64>, Vec<u64>) {
    match judge::SEE_MARKS.contains(&(case.rollup as usize)) {
        true => (case.timestamps.clone(), case.values.clone()),
        false => model::remaining(case.series()[0]),
    }
}

/// The values after a step.
pub fn prepared(pre: u32, timestamps: &[i64], values: &[u64]) -> Vec<f64> {
    let mut values: Vec<f64> = values.iter().map(|b| f64::from_bits(*b)).collect();
    judge::prepare(pre as usize, timestamps, &mut values);
    values
}

fn write<T: Copy>(slice: &mut [T], first: &[T]) {
    slice[..first.len()].copy_from_slice(first)
}
