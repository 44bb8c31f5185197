//! Times of the port beside the Rust, in milliseconds, best of several; build it with `--profile
//! timed`. A table for each kind of series. `fair` is the Rust's time, charged with the work of the
//! port's call that the Rust does not do, over the port's time: above 1 the port is ahead. For the step
//! that the Rust does not have, the column `Rust` has the model's plain loop; for the rollup, `do_internal`
//! with a plain closure, which searches the next reading by `partition_point` on the series' times.
//! `bench prepare [READINGS]`: each preparing step beside a copy and the Rust's pre-function, which is
//! charged with the port's checks of the series.
//! `bench run [READINGS]`: the port's run of each rollup beside the Rust's `do_internal`, over a few
//! long windows and over many short ones. The Rust is charged with checks, copies and clearing.
//! `bench marks [READINGS]`: the port's run of each rollup on a series in which every tenth reading is a
//! staleness mark, and `ratio`, its time over that of the same run on the series without marks.
//! `bench growth [READINGS]`: nanoseconds a reading of some runs, from 10,000 readings up to so many.
//! `bench crossings [READINGS]`, `bench nearest [READINGS]`: the port's call beside the plain loops of
//! `plain`, which check the same rows. `ratio` is the port's time over the Rust's.
//! `bench merge [READINGS]`: the same for two logs of up to so many readings.
//! `bench settle`: nanoseconds of settle on the series of a panel, and of its parts.

mod marks;
mod merge;
mod settle;

use std::process::exit;
use std::sync::Arc;
use std::time::Instant;

use compare::call::{Call, Case, Outcome, UNSET};
use compare::inputs::cases::average;
use compare::inputs::series::{counter, KINDS};
use compare::judge::{self, ROLLUPS, STEPS};
use compare::{plain, port};
use original::exposed::{self, Rollup, Settings};

const ROUNDS: usize = 7;
const DAY: i64 = 86_400_000;

/// Output times and the window: a few long windows, many short ones.
const WINDOWS: [(i64, i64); 2] = [(1_000, DAY), (200_000, 1_800_000)];

fn main() {
    let words: Vec<String> = std::env::args().skip(1).collect();
    let readings = match words.get(1).map(|word| word.parse()) {
        None => None,
        Some(Ok(n)) => Some(n),
        Some(Err(_)) => usage(),
    };
    match words.first().map(String::as_str) {
        Some("prepare") if port::has(Call::Prepare) => prepare(readings.unwrap_or(15_800_000)),
        Some("run") if port::has(Call::Run) => run(readings.unwrap_or(1_000_000)),
        Some("marks") if port::has(Call::Run) => marks::marks(readings.unwrap_or(1_000_000)),
        Some("settle") if port::has(Call::Settle) => settle::settle(),
        Some("growth") if port::has(Call::Run) => growth(readings.unwrap_or(16_000_000)),
        Some("crossings") if port::has(Call::Crossings) => {
            crossings(readings.unwrap_or(15_800_000))
        }
        Some("nearest") if port::has(Call::Nearest) => nearest(readings.unwrap_or(15_800_000)),
        Some("merge") if port::has(Call::Merge) => merge::merge(readings.unwrap_or(8_000_000)),
        _ => usage(),
    }
}

/// A table's line: the port's time, the Rust's where it does not panic, and the time of the work that
/// the Rust is charged with, taken beside them and as often.
struct Line {
    name: String,
    port: f64,
    rust: Option<f64>,
    charge: f64,
}

impl Line {
    /// The Rust's time with the charge, over the port's.
    fn fair(&self) -> Option<f64> {
        self.rust.map(|rust| (rust + self.charge) / self.port)
    }

    fn cells(&self) -> String {
        let or = |cell: Option<f64>, none: &str| {
            cell.map_or(none.to_string(), |time| format!("{time:.2}"))
        };
        format!("{:.2} | {} | {} |", self.port, or(self.rust, "panics"), or(self.fair(), ""))
    }
}

/// The sum of the lines that have both times.
fn all(lines: &[Line]) -> Line {
    let sum = |of: fn(&Line) -> f64| lines.iter().filter(|line| line.rust.is_some()).map(of).sum();
    Line {
        name: "all".to_string(),
        port: sum(|line| line.port),
        rust: Some(sum(|line| line.rust.unwrap())),
        charge: sum(|line| line.charge),
    }
}

/// A table: a line for each name, with the times of each call.
fn table(title: &str, readings: usize, first: &str, calls: &[Vec<Line>]) {
    println!("{readings} readings, {title}, best of {ROUNDS}\n");
    println!("| {first} |{}", " port | Rust | fair |".repeat(calls.len()));
    println!("|---|{}", "---|---|---|".repeat(calls.len()));
    for (i, line) in calls[0].iter().enumerate() {
        let cells: Vec<_> = calls.iter().map(|lines| lines[i].cells()).collect();
        println!("| {} | {}", line.name, cells.join(" "));
    }
    let sums: Vec<_> = calls.iter().map(|lines| all(lines).cells()).collect();
    println!("| all | {}\n", sums.join(" "));
    for lines in calls {
        let fair = || lines.iter().filter_map(Line::fair);
        let ahead = fair().filter(|ratio| *ratio >= 1.0).count();
        let charge = all(lines).charge / fair().count() as f64;
        println!("charged {charge:.2} ms a line; ahead on {ahead} of {}", fair().count());
    }
    println!();
}

fn prepare(readings: usize) {
    for (title, make) in KINDS {
        let (timestamps, values) = make(readings);
        let patterns: Vec<u64> = values.iter().map(|v| v.to_bits()).collect();
        let (mut prepared, mut copy) = (vec![1; readings], vec![1.0; readings]);
        let mut port = |step: usize, room: usize, answer: u64| {
            best(|| {
                ms(|| {
                    let (mut index, slice) = (1, &mut prepared[..room]);
                    let number =
                        port::prepare(&timestamps, &patterns, step as u32, slice, &mut index);
                    assert_eq!((number, index), (answer, 0));
                })
            })
        };
        let line = |(step, name): (usize, &&str)| {
            // A prepared slice that is too short is refused after the checks.
            let charge = port(0, readings - 1, 13);
            let rust = best(|| {
                ms(|| {
                    copy.copy_from_slice(&values);
                    judge::prepare(step, &timestamps, &mut copy);
                })
            });
            Line { name: name.to_string(), port: port(step, readings, 0), rust: Some(rust), charge }
        };
        table(title, readings, "step", &[STEPS.iter().enumerate().map(line).collect()]);
    }
}

fn run(readings: usize) {
    judge::quiet();
    for (title, make) in KINDS {
        let series = make(readings);
        let calls = WINDOWS.map(|windows| runs(over(&series, windows), &series.1));
        table(title, readings, "rollup", &calls);
    }
}

/// A run over all of a series, with so many output times and such a window.
fn over(series: &(Vec<i64>, Vec<f64>), (outputs, window): (i64, i64)) -> Case {
    let (start, last) = (series.0[0], series.0[series.0.len() - 1]);
    let step = (last - start) / outputs;
    let end = start + step * (outputs - 1);
    average(series, Settings { start, end, step, window, ..Settings::default() })
}

/// The times of each rollup, and of avg after each step.
fn runs(mut case: Case, values: &[f64]) -> Vec<Line> {
    let mut outcome = Outcome::before(&case);
    let fixed = fixed(&case);
    let times = Arc::from(&case.timestamps[..]);
    let mut lines = vec![];
    for (number, name) in ROLLUPS.iter().enumerate() {
        case.rollup = number as u32;
        let charge = port_ms(&fixed, &mut outcome);
        let port = port_ms(&case, &mut outcome);
        let rust = || rust(&case, values, &times);
        let rust = judge::caught(rust).map(|_| best(|| ms(rust)));
        lines.push(Line { name: name.to_string(), port, rust, charge });
    }
    case.rollup = 0;
    // The charge has a copy, so that the one which a pre-function changes is not timed.
    let mut copy = values.to_vec();
    for (pre, name) in STEPS.iter().enumerate().skip(1) {
        case.pre = pre as u32;
        let charge = port_ms(&fixed, &mut outcome);
        let port = port_ms(&case, &mut outcome);
        let rust = best(|| {
            copy.copy_from_slice(values);
            ms(|| {
                judge::prepare(pre, &case.timestamps, &mut copy);
                rust(&case, &copy, &times)
            })
        });
        lines.push(Line { name: format!("avg after {name}"), port, rust: Some(rust), charge });
    }
    lines
}

/// What the port does besides figures and the Rust does not: the checks of the series, the copies into
/// the prepared slice and the slice for the remaining times, and the clearing of the work slice. It is
/// a run that counts the readings of one window.
fn fixed(case: &Case) -> Case {
    let rollup = ROLLUPS.iter().position(|name| *name == "count").unwrap() as u32;
    let settings = Settings { end: case.settings.start, ..case.settings.clone() };
    Case { rollup, settings, ..case.clone() }
}

fn growth(most: usize) {
    const SIZES: [usize; 5] = [10_000, 100_000, 1_000_000, 10_000_000, 16_000_000];
    const SOME: [&str; 6] = ["count", "avg", "median", "stddev", "mode_over_time", "deriv_slow"];
    println!(
        "nanoseconds a reading of the port's run, an output and a window a day, best of {ROUNDS}"
    );
    println!("{:>9} {}", "readings", SOME.map(|name| format!("{name:>14}")).join(" "));
    for readings in SIZES.into_iter().filter(|size| *size <= most) {
        let series = counter(readings);
        let (start, end) = (series.0[0], series.0[readings - 1]);
        let settings = Settings { start, end, step: DAY, window: DAY, ..Settings::default() };
        let mut case = average(&series, settings);
        let mut outcome = Outcome::before(&case);
        let times = SOME.map(|name| {
            case.rollup = ROLLUPS.iter().position(|other| *other == name).unwrap() as u32;
            let nanos = port_ms(&case, &mut outcome) * 1e6 / readings as f64;
            format!("{nanos:>14.2}")
        });
        println!("{readings:>9} {}", times.join(" "));
    }
}

/// On each series a limit with about half of the readings below it, and one near the greatest value.
fn crossings(readings: usize) {
    let ranks =
        [("the median", readings / 2), ("near the top", readings - 1 - readings / 1_000_000)];
    head(&format!("{readings} readings"), "series | limit | crossings");
    for (title, make) in KINDS {
        let (timestamps, values) = make(readings);
        let (mut ours, mut theirs) = (vec![UNSET; readings], vec![UNSET; readings]);
        for (name, rank) in ranks {
            let limit = *values.clone().select_nth_unstable_by(rank, f64::total_cmp).1;
            let (mut number, mut count, mut index, mut plainly) = (1, 0, 1, Err((1, 0)));
            let times = both(
                || {
                    let (slice, count) = (&mut ours, &mut count);
                    number = port::crossings(&timestamps, &values, limit, slice, count, &mut index);
                },
                || plainly = plain::crossings(&timestamps, &values, limit, &mut theirs),
            );
            assert_eq!((number, index, Ok(count)), (0, 0, plainly));
            assert!(ours == theirs);
            line(&format!("{title} | {name} | {count}"), times);
        }
    }
}

/// A time before all readings, one between them and one behind them.
fn nearest(readings: usize) {
    let (timestamps, _) = counter(readings);
    let (first, last) = (timestamps[0], timestamps[readings - 1]);
    head(&format!("{readings} readings"), "asked time | nearest");
    let asked = [("before all", first - 1), ("amid", (first + last) / 2), ("behind all", last + 1)];
    for (name, time) in asked {
        let (mut number, mut found, mut nearest, mut index) = (1, 0, 0, 1);
        let mut plainly = Err((1, 0));
        let times = both(
            || number = port::nearest(&timestamps, time, &mut found, &mut nearest, &mut index),
            || plainly = plain::nearest(&timestamps, time),
        );
        assert_eq!((number, found, index, Ok(Some(nearest))), (0, 1, 0, plainly));
        line(&format!("{name} | {nearest}"), times);
    }
}

/// The head of a table with the port's time beside the plain loops'.
fn head(readings: &str, columns: &str) {
    println!("{readings}, milliseconds a call, best of {ROUNDS}\n");
    println!("| {columns} | port | Rust | ratio |");
    println!("|{}", "---|".repeat(columns.split('|').count() + 3));
}

fn line(cells: &str, (port, rust): (f64, f64)) {
    println!("| {cells} | {port:.2} | {rust:.2} | {:.2} |", port / rust);
}

/// The best times of two calls that take turns.
fn both(mut port: impl FnMut(), mut rust: impl FnMut()) -> (f64, f64) {
    let mut times = (f64::INFINITY, f64::INFINITY);
    for _ in 0..ROUNDS {
        times = (times.0.min(ms(&mut port)), times.1.min(ms(&mut rust)));
    }
    times
}

/// The best time of the port's run, which is accepted.
fn port_ms(case: &Case, outcome: &mut Outcome) -> f64 {
    best(|| ms(|| assert_eq!(port::run(case, outcome), 0)))
}

/// `do_internal` on prepared values. The rollup that the Rust does not have is handed the series' times.
fn rust(case: &Case, values: &[f64], times: &Arc<[i64]>) -> (Vec<f64>, u64) {
    let number = case.rollup as usize;
    let rollup = match ROLLUPS[number] {
        "until_next" => {
            let times = times.clone();
            Rollup::of(move |record| plain::until_next(&times, record.curr_timestamp))
        }
        _ => Rollup::new(number, case.first, case.second),
    };
    exposed::run(&case.settings, rollup, values, &case.timestamps).unwrap()
}

/// The milliseconds that something takes, what it gives being dropped.
fn ms<T>(something: impl FnOnce() -> T) -> f64 {
    let start = Instant::now();
    drop(something());
    start.elapsed().as_secs_f64() * 1e3
}

fn best(mut round: impl FnMut() -> f64) -> f64 {
    (0..ROUNDS).map(|_| round()).fold(f64::INFINITY, f64::min)
}

fn usage() -> ! {
    eprintln!(
        "bench prepare|run|marks|growth|crossings|nearest|merge [READINGS] or bench settle, with an \
         archive that has the call"
    );
    exit(2)
}
