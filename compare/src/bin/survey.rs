//! `survey [--cases N] [--seed S]` asks the Rust alone, on N accepted runs and settled runs: whether
//! it does what `rules` and `window` write out, where a departure of a rollup applies, and whether it panics elsewhere.
//! Where the step is not the Rust's, its rollups are asked on the model's values. Where two times are equal the Rust's
//! record may be another one than the window rule's, and is not held to it: the Rust's settling, reset step and count
//! are held to the rules, and its rollups are asked on the window rule's record. Staleness marks are taken out of the
//! series first; on all of it, marks included, the records and the two rollups that see marks are surveyed once more,
//! where no step prepares the values. It needs no port.

use std::collections::BTreeMap;
use std::process::exit;
use std::sync::{Arc, Mutex};

use compare::arguments::number;
use compare::call::{Call, Case};
use compare::inputs::cases;
use compare::judge::{ROLLUPS, SEE_MARKS};
use compare::rng::Rng;
use compare::window::{self, Window};
use compare::words::{all_bits, bits};
use compare::{judge, model, oracle, rules};
use original::exposed::{self, Record, Rollup};

#[derive(Default)]
struct Tally {
    records: u64,
    records_of_all: u64,
    departures: BTreeMap<&'static str, u64>,
    disagreements: u64,
}

fn main() {
    judge::quiet();
    let words: Vec<String> = std::env::args().skip(1).collect();
    let options = (number(&words, "--cases", 10_000), number(&words, "--seed", 1));
    let (Some(cases), Some(seed)) = options else {
        eprintln!("survey [--cases N] [--seed S]");
        exit(2)
    };
    let mut rng = Rng::new(seed);
    let mut tally = Tally::default();
    for _ in 0..cases {
        let call = rng.pick(&[Call::Run, Call::SettledRun]);
        let mut case = cases::accepted(&mut rng, call, None);
        if call == Call::SettledRun {
            case.settings = judge::settled(&case.settings, case.settings.window, case.reach);
        }
        survey(&case, &mut tally);
    }
    println!(
        "{cases} accepted calls from seed {seed}, {} records with {} rollups each",
        tally.records,
        of_the_rust().len()
    );
    println!("{} records of all readings, marks included, with two each", tally.records_of_all);
    println!("records to which a departure applies: {:?}", tally.departures);
    println!("{cases} cases, {} disagreements with the rules", tally.disagreements);
    exit((tally.disagreements > 0) as i32)
}

/// The numbers of the rollups that the Rust has.
fn of_the_rust() -> Vec<usize> {
    (0..ROLLUPS.len()).filter(|number| ROLLUPS[*number] != "until_next").collect()
}

fn survey(case: &Case, tally: &mut Tally) {
    let (timestamps, values) = model::remaining(case.series()[0]);
    let raw: Vec<f64> = values.iter().map(|b| f64::from_bits(*b)).collect();
    let prepared = oracle::prepared(case.pre, &timestamps, &values);
    let resets =
        judge::STEPS[case.pre as usize] != "resets" || same(&rules::resets(&raw), &prepared);
    tally.hold("the reset step", case, resets);
    tally.records += records(case, &timestamps, &prepared, &of_the_rust(), tally);
    if case.pre == 0 {
        let all: Vec<f64> = case.values.iter().map(|b| f64::from_bits(*b)).collect();
        tally.records_of_all += records(case, &case.timestamps, &all, &SEE_MARKS, tally);
    }
}

/// Settling, count and records on these readings, and the rollups on each record; how many records there are.
fn records(
    case: &Case,
    timestamps: &[i64],
    values: &[f64],
    rollups: &[usize],
    tally: &mut Tally,
) -> u64 {
    let settings = &case.settings;
    let (window, reach) = rules::settle(settings, timestamps);
    tally.hold("settling", case, judge::settle(settings, timestamps) == (window, reach));

    let seen = Arc::new(Mutex::new(vec![]));
    let records = seen.clone();
    let reader = Rollup::of(move |record| {
        records.lock().unwrap().push((words(record), record.values.len()));
        0.0
    });
    let (_, count) = exposed::run(settings, reader, values, timestamps).unwrap();
    let seen = seen.lock().unwrap();
    let sizes = seen.iter().map(|(_, size)| *size);
    let per_call = settings.samples_scanned_per_call;
    tally.hold("the count", case, count == rules::count(values.len(), per_call, sizes));
    let repeats = window::repeats(timestamps);
    for (k, (seen, _)) in seen.iter().enumerate() {
        let time = settings.start + k as i64 * settings.step;
        let window = Window::at(time, window, reach, timestamps, values);
        let record = window.record();
        tally.hold("the record", case, repeats || words(&record) == *seen);
        rollups.iter().for_each(|number| rollup(*number, case, &record, tally));
    }
    seen.len() as u64
}

/// A rollup of the Rust on a record: a panic that is no departure is a disagreement.
fn rollup(number: usize, case: &Case, record: &Record, tally: &mut Tally) {
    let name = ROLLUPS[number];
    let judged = judge::caught(|| judge::rollup(number, case.first, case.second, record, None));
    tally.hold(name, case, judged.is_some());
    let Some((answer, departs)) = judged else { return };
    if departs {
        *tally.departures.entry(name).or_insert(0) += 1;
    }
    let stated = match name {
        "avg" => rules::sum(record.values) / record.values.len() as f64,
        "rate_over_sum" if !record.values.is_empty() => {
            rules::sum(record.values) / (record.window as f64 / 1e3)
        }
        "high" => rules::high(record),
        "default" => record.values.last().copied().unwrap_or(f64::NAN),
        "stale_samples" => rules::stale_samples(record),
        _ => answer,
    };
    let [answer, stated] = [answer, stated].map(|answer| judge::answer_bits(number, answer));
    tally.hold(name, case, answer == stated);
}

impl Tally {
    /// Counts a disagreement, and prints the first.
    fn hold(&mut self, what: &str, case: &Case, holds: bool) {
        if !holds && self.disagreements == 0 {
            println!("the first disagreement, in {what}:\n{case}");
        }
        self.disagreements += !holds as u64;
    }
}

fn same(a: &[f64], b: &[f64]) -> bool {
    all_bits(a) == all_bits(b)
}

/// All of a record as words, with the bits of marks.
fn words(record: &Record) -> Vec<u64> {
    let bits = |value: f64| match value.to_bits() {
        mark if model::is_mark(mark) => mark,
        _ => bits(value),
    };
    let mut words = vec![bits(record.prev_value), record.prev_timestamp as u64];
    words.extend([bits(record.real_prev_value), bits(record.real_next_value)]);
    words.extend([record.curr_timestamp as u64, record.window as u64]);
    words.extend(record.timestamps.iter().map(|t| *t as u64));
    words.extend(record.values.iter().map(|value| bits(*value)));
    words
}
