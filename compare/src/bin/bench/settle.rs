//! Settle as a panel calls it: each of its series once a round, with a day's readings or a week's.
//! A call that a row refuses ends there: what the parts of a call take is told from calls that go
//! further and further.

use std::hint::black_box;
use std::time::Instant;

use compare::call::{Case, Outcome};
use compare::inputs::series::minutes;
use compare::{plain, port};
use original::exposed::Settings;

const SERIES: u64 = 212;
const SIZES: [usize; 2] = [1_500, 10_080];

/// Of short series, where a nanosecond counts, there are more rounds.
const ROUNDS: usize = 1_000;
const SHORT_ROUNDS: usize = 50_000;

/// Nanoseconds a call: of those that rows 6, 9 and 11 refuse, of accepted ones, and of the plain Rust's.
struct Times {
    row_6: f64,
    row_9: f64,
    row_11: f64,
    accepted: f64,
    rust: f64,
}

/// What does not hang on the number of readings is taken from short series: beside a pass over
/// thousands of times it would not show. The estimate looks at 21 readings; a lone one has its
/// estimate without a look.
pub fn settle() {
    let (lone, few, whole) = (times(1), times(21), SIZES.map(times));
    let reach = lone.accepted - lone.row_11;
    let estimate = few.accepted - few.row_11 - reach;
    println!("{SERIES} series a round, nanoseconds a call, best of {ROUNDS} rounds\n");
    println!("| |{}", SIZES.map(|size| format!(" {size} readings | share |")).join(""));
    println!("|---|{}", "---|---|".repeat(SIZES.len()));
    let line = |name: &str, part: &dyn Fn(&Times) -> f64| {
        let cell = |whole| format!(" {:.1} | {:.3} |", part(whole), part(whole) / whole.accepted);
        println!("| {name} |{}", whole.each_ref().map(cell).join(""));
    };
    line("rows 2 to 4", &|whole| whole.row_6);
    line("rows 6 to 9", &|_| lone.row_9 - lone.row_6);
    line("grid", &|_| lone.row_11 - lone.row_9);
    line("estimate", &|_| estimate);
    line("reach, window and answer", &|_| reach);
    line("settle", &|whole| whole.accepted);
    line("the Rust with the same rows", &|whole| whole.rust);
}

/// The best of the rounds. All calls of a size are made on the same series.
fn times(readings: usize) -> Times {
    let series: Vec<_> = (0..SERIES).map(|seed| minutes(seed, readings)).collect();
    let week = Settings { end: 604_800_000, step: 60_000, ..Settings::default() };
    let calls = [
        (6, Settings { step: 0, ..week.clone() }),
        (9, Settings { samples_scanned_per_call: 65_536, ..week.clone() }),
        // The distance is below 2^32, as in an accepted call: a longer one takes a longer division.
        (11, Settings { end: 4_000_000_000, step: 100, ..week.clone() }),
        (0, week.clone()),
    ];
    let mut outcome = Outcome::before(&Case::default());
    let mut best = [f64::INFINITY; 5];
    for _ in 0..if readings < SIZES[0] { SHORT_ROUNDS } else { ROUNDS } {
        for (i, (number, settings)) in calls.iter().enumerate() {
            let call =
                |times: &[i64]| assert_eq!(port::settle(times, settings, &mut outcome), *number);
            best[i] = best[i].min(a_call(&series, call));
        }
        let call = |times: &[i64]| assert!(black_box(plain::settle(times, &week)).is_ok());
        best[4] = best[4].min(a_call(&series, call));
    }
    for times in &series {
        port::settle(times, &week, &mut outcome);
        let port = (outcome.window, outcome.reach, outcome.points);
        assert_eq!(plain::settle(times, &week), Ok(port));
    }
    let [row_6, row_9, row_11, accepted, rust] = best;
    Times { row_6, row_9, row_11, accepted, rust }
}

/// The nanoseconds that a call takes, over one on each series.
fn a_call(series: &[Vec<i64>], mut call: impl FnMut(&[i64])) -> f64 {
    let start = Instant::now();
    series.iter().for_each(|times| call(times));
    start.elapsed().as_secs_f64() * 1e9 / series.len() as f64
}
