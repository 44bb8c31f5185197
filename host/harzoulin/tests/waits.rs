//! The seconds from an output time to the first reading after it.

use harzoulin::{Rollup, Settings, SettledSettings, Step, Workspace, settle};

const NAN: u64 = 0x7ff8_0000_0000_0000;

/// The end of the range that times may lie in.
const END: i64 = 1 << 50;

fn bits(figures: &[f64]) -> Vec<u64> {
    figures.iter().map(|figure| figure.to_bits()).collect()
}

/// The bits of the wait at a time, which no window and no step moves, in a run or in a settled run.
#[track_caller]
fn wait(times: &[i64], at: i64) -> u64 {
    let values: Vec<f64> = (0..times.len()).map(|reading| 5.5 - reading as f64).collect();
    let mut workspace = Workspace::new();
    let mut waits = vec![];
    for window in [1, 700, 1000, END] {
        let settings = Settings { start: at, end: at, step: 1, window, ..Settings::default() };
        let settled = settings.settled(settle(times, &settings).unwrap());
        let settled = [settled, SettledSettings { reach: 1, ..settled }];
        for pre in Step::ALL {
            let run = workspace.run(times, &values, pre, Rollup::UntilNext, &settings).unwrap();
            waits.extend(bits(run.values));
            for settings in &settled {
                let run = workspace.settled_run(times, &values, pre, Rollup::UntilNext, settings);
                waits.extend(bits(run.unwrap().values));
            }
        }
    }
    assert_eq!(waits, vec![waits[0]; 4 * Step::ALL.len() * 3]);
    waits[0]
}

/// A reading at the output time is not after it.
#[test]
fn of_each_output_time() {
    let times = [1000, 2000, 3000];
    for (at, seconds) in
        [(-1000, 2.0), (500, 0.5), (999, 0.001), (1000, 1.0), (1999, 0.001), (2000, 1.0)]
    {
        assert_eq!(wait(&times, at), f64::to_bits(seconds), "{at}");
    }
    assert_eq!(wait(&times, 2999), f64::to_bits(0.001));
    assert_eq!([3000, 3001, 4000, END].map(|at| wait(&times, at)), [NAN; 4]);
}

#[test]
fn over_a_grid() {
    let (times, values) = ([1000, 2000, 3000], [3.0, -1.0, 0.25]);
    let settings = Settings { start: 0, end: 4000, step: 500, ..Settings::default() };
    let mut workspace = Workspace::new();
    let run = workspace.run(&times, &values, Step::None, Rollup::UntilNext, &settings).unwrap();
    let seconds = [1.0, 0.5, 1.0, 0.5, 1.0, 0.5].map(f64::to_bits);
    assert_eq!(bits(run.values), [&seconds[..], &[NAN; 3]].concat());
    // The readings, and those in the windows.
    assert_eq!(run.count, 3 + 3);
}

#[test]
fn without_readings() {
    assert_eq!([-END, 0, END].map(|at| wait(&[], at)), [NAN; 3]);
}

#[test]
fn at_the_ends_of_time() {
    assert_eq!(wait(&[-END, END], -END), f64::to_bits(2_251_799_813_685.248));
    assert_eq!(wait(&[-END, END], 0), f64::to_bits(1_125_899_906_842.624));
    assert_eq!(wait(&[-END, END], END - 1), f64::to_bits(0.001));
    assert_eq!(wait(&[-END, END], END), NAN);
    assert_eq!(wait(&[-END], -END), NAN);
    assert_eq!(wait(&[-END + 1], -END), f64::to_bits(0.001));
}

/// The seconds are the lag's: those from one time to another are the same for both.
#[test]
fn as_the_lag_has_seconds() {
    let mut workspace = Workspace::new();
    for length in (1..3000).chain((4..=51).flat_map(|k| [(1 << k) - 1, 1 << k])) {
        let (from, to) = (length / 2 - length, length / 2);
        let settings = Settings { start: to, end: to, window: END, ..Settings::default() };
        let settled = SettledSettings {
            window: 1 << 52,
            ..settings.settled(settle(&[from], &settings).unwrap())
        };
        let lag = workspace.settled_run(&[from], &[1.0], Step::None, Rollup::Lag, &settled);
        let lag = bits(lag.unwrap().values);
        assert_eq!(lag, [f64::to_bits(length as f64 / 1000.0)], "{length}");
        let settled = SettledSettings { start: from, end: from, ..settled };
        let next = workspace.settled_run(&[to], &[1.0], Step::None, Rollup::UntilNext, &settled);
        assert_eq!(bits(next.unwrap().values), lag, "{length}");
    }
}
