//! `sizes` calls the port with long series and grids: thirty years of a reading a minute under each
//! rollup, as many readings and output times as are accepted, and one more, as many readings with staleness marks and
//! with equal times, and two logs that have as many times together, and one more. What is accepted is held to the Rust,
//! the window rule or the model, what is refused to the number of docs/REFUSALS.md.

use std::ops::Range;
use std::process::exit;

use compare::call::{Call, Case, UNSET};
use compare::inputs::cases::average;
use compare::inputs::merge::of_times;
use compare::inputs::series::counter;
use compare::judge::{self, ROLLUPS, STEPS};
use compare::model::MARK;
use compare::{cuts, oracle, port, rows};
use original::exposed::Settings;

const YEARS: usize = 15_800_000;
const MOST: usize = rows::MOST as usize;
const DAY: i64 = 86_400_000;

/// The rollups that work on a copy of the window, and so need the work slice to its end.
const ON_A_COPY: [&str; 5] = ["mad", "median", "mode_over_time", "distinct", "quantile"];

/// Series with equal times: the time of a reading by its place, and a step of the grid.
const EQUAL: [(&str, fn(i64) -> i64, i64); 2] = [
    ("all times equal", |_| 0, 1),
    ("two readings at each time", |place| place / 2 * 60_000, 60_000 << 21),
];

/// Series with staleness marks, by a reading's place.
const MARKED: [(&str, fn(usize) -> bool); 2] =
    [("every tenth reading a mark", |place| place % 10 == 0), ("all readings marks", |_| true)];

/// Rollups that are asked of these: one for which the marks are taken out, and the two that see them.
const OF_MARKS: [&str; 3] = ["avg", "default", "stale_samples"];

/// Rollups that divide by how far times lie apart.
const OVER_TIME: [&str; 2] = ["deriv_fast", "ideriv"];

/// Merges of long logs, each with its number.
const MERGES: [(&str, u64, fn() -> Case); 10] = [
    ("no time shared", 2, || of_times(every_other(0), every_other(1))),
    ("one time shared", 2, || of_times(times(0, MOST), times(MOST - 1, MOST))),
    ("all times shared", 0, equal),
    ("most times shared", 0, || of_times(times(0, MOST - 9), times(9, MOST - 9))),
    ("most times shared, the second log first", 0, || {
        of_times(times(9, MOST - 9), times(0, MOST - 9))
    }),
    ("one time more", 2, one_more),
    ("one time more, a conflict", 2, || conflict(one_more())),
    ("one time more, no slices", 2, || without_slices(one_more())),
    ("all times shared, a conflict, no slices", 17, || without_slices(conflict(equal()))),
    ("all times shared, values one short", 18, || Case { lent_values: MOST - 1, ..equal() }),
];

/// So many times, from one on.
fn times(from: usize, readings: usize) -> Range<i64> {
    from as i64..(from + readings) as i64
}

/// As many times as are accepted, every other from one on.
fn every_other(from: usize) -> impl Iterator<Item = i64> {
    times(from, 2 * MOST).step_by(2)
}

fn equal() -> Case {
    of_times(times(0, MOST), times(0, MOST))
}

/// One time more than is accepted, though either log has fewer.
fn one_more() -> Case {
    of_times(times(0, MOST - 9), times(9, MOST - 8))
}

/// The last time of the first log has another value there.
fn conflict(mut case: Case) -> Case {
    *case.values.last_mut().unwrap() = 1;
    case
}

fn without_slices(case: Case) -> Case {
    Case { lent_times: 0, lent_values: 0, ..case }
}

fn main() {
    judge::quiet();
    if !Call::ALL.iter().all(|(_, call)| port::has(*call)) {
        eprintln!("sizes needs an archive with all calls: write it by `tools/archive`");
        exit(2)
    }
    let mut tally = Tally::default();
    years(&mut tally);
    for (readings, number) in [(MOST, 0), (MOST + 1, 2)] {
        let series = for_all_calls(&counter(readings), minutes(1000));
        for (name, call) in Call::ALL {
            tally.call(call, &series, number, name);
        }
    }
    for (what, is_mark) in MARKED {
        for (readings, number) in [(MOST, 0), (MOST + 1, 2)] {
            marks(&mut tally, what, is_mark, average(&counter(readings), minutes(1000)), number);
        }
        marks(&mut tally, what, is_mark, average(&counter(1000), minutes(MOST)), 0);
    }
    for (what, time, step) in EQUAL {
        equal_times(&mut tally, what, time, step);
    }
    for (outputs, number) in [(MOST, 0), (MOST + 1, 11)] {
        let grid = average(&counter(1000), minutes(outputs));
        for call in cuts::CALLS {
            let (name, _) = Call::ALL.into_iter().find(|(_, other)| *other == call).unwrap();
            tally.call(call, &grid, number, name);
        }
    }
    tally.call(Call::Run, &average(&counter(MOST), minutes(MOST)), 0, "run");
    for (what, number, case) in MERGES {
        tally.call(Call::Merge, &case(), number, what);
    }
    println!("{} calls, {} disagreements", tally.calls, tally.bad);
    exit((tally.bad > 0) as i32)
}

/// Thirty years under each rollup and after each step, and in one window.
fn years(tally: &mut Tally) {
    let years = counter(YEARS);
    let mut days = average(&years, Settings { step: DAY, window: DAY, ..Settings::default() });
    days.settings.end = *years.0.last().unwrap();
    days.dst_values = vec![UNSET; rows::points(&days) as usize + 1];
    for (number, name) in ROLLUPS.iter().enumerate() {
        days.rollup = number as u32;
        tally.call(Call::Run, &days, 0, name);
    }
    days.rollup = 0;
    for (pre, name) in STEPS.iter().enumerate().skip(1) {
        days.pre = pre as u32;
        tally.call(Call::Run, &days, 0, &format!("avg after {name}"));
    }
    let end = days.settings.end;
    days.settings = Settings { start: end, end, step: DAY, window: 1 << 50, ..days.settings };
    days.pre = 0;
    for (number, name) in ROLLUPS.iter().enumerate() {
        if ON_A_COPY.contains(name) {
            days.rollup = number as u32;
            tally.call(Call::Run, &days, 0, &format!("{name} of the whole series"));
        }
    }
}

/// What any call of a series is handed.
fn for_all_calls(series: &(Vec<i64>, Vec<f64>), settings: Settings) -> Case {
    let lent = series.0.len();
    Case {
        limit: 200_000.0,
        indexes: vec![UNSET; lent],
        lent,
        time: 1 << 40,
        merged_timestamps: vec![UNSET as i64; lent],
        merged_values: vec![UNSET; lent],
        lent_times: lent,
        lent_values: lent,
        ..average(series, settings)
    }
}

/// All calls of a series with equal times, which merge alone refuses, and the run under some rollups. The output times
/// are few, since the window rule goes through all readings for each, and the next reading is a millisecond after.
fn equal_times(tally: &mut Tally, what: &str, time: fn(i64) -> i64, step: i64) {
    let (_, values) = counter(MOST);
    let timestamps = (0..MOST as i64).map(time).collect();
    let grid = Settings { start: -1, end: 3 * step - 1, step, window: step, ..Settings::default() };
    let mut series = for_all_calls(&(timestamps, values), grid);
    for (name, call) in Call::ALL {
        let number = if call == Call::Merge { 4 } else { 0 };
        tally.call(call, &series, number, &format!("{name}, {what}"));
    }
    for (number, name) in ROLLUPS.iter().enumerate() {
        if OVER_TIME.contains(name) {
            series.rollup = number as u32;
            tally.call(Call::Run, &series, 0, &format!("{name}, {what}"));
        }
    }
}

/// Both runs of a series with marks.
fn marks(tally: &mut Tally, what: &str, is_mark: fn(usize) -> bool, mut case: Case, number: u64) {
    let places = case.values.iter_mut().enumerate();
    places.filter(|(place, _)| is_mark(*place)).for_each(|(_, value)| *value = MARK);
    for (rollup, name) in ROLLUPS.iter().enumerate() {
        if OF_MARKS.contains(name) {
            case.rollup = rollup as u32;
            tally.call(Call::Run, &case, number, &format!("{name}, {what}"));
            tally.call(Call::SettledRun, &case, number, &format!("{name} settled, {what}"));
        }
    }
}

/// So many output times, a minute apart, with windows of an hour.
fn minutes(outputs: usize) -> Settings {
    let end = (outputs as i64 - 1) * 60_000;
    Settings { end, step: 60_000, window: 3_600_000, ..Settings::default() }
}

#[derive(Default)]
struct Tally {
    calls: u64,
    bad: u64,
}

impl Tally {
    /// Makes a call, which must be accepted (0) or refused with this number, as the judge and the
    /// table have it.
    fn call(&mut self, call: Call, case: &Case, number: u64, what: &str) {
        let ours = port::outcome(call, case);
        let theirs = oracle::outcome(call, case);
        let mut lines = ours.against(&theirs);
        if ours.number != number {
            lines.push(format!("number: port {}, table {number}", ours.number));
        }
        let found = match (&lines[..], number) {
            ([], 0) => "accepted, as the judge answers".to_string(),
            ([], _) => format!("refused {number}, nothing written"),
            _ => lines.join("; "),
        };
        let readings = case.timestamps.len();
        let size = match call {
            Call::Merge => format!("{readings} and {} readings", case.second_timestamps.len()),
            _ => format!("{readings} readings, {} outputs", rows::points(case)),
        };
        println!("{size}, {what}: {found}");
        self.calls += 1;
        self.bad += !lines.is_empty() as u64;
    }
}
