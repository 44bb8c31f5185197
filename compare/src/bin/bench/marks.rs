//! Runs on a series with staleness marks beside the same runs on the series without: every tenth value is
//! a mark there.

use compare::call::{Case, Outcome};
use compare::inputs::series::KINDS;
use compare::judge::{ROLLUPS, STEPS};
use compare::model::MARK;
use compare::port;

use super::{ms, over, ROUNDS, WINDOWS};

/// The place of a mark in every so many readings.
const APART: usize = 10;

/// The ratio that no run should be above.
const BAR: f64 = 1.3;

/// The times with marks and without.
type Times = (f64, f64);

pub fn marks(readings: usize) {
    for (title, make) in KINDS {
        let series = make(readings);
        let columns = WINDOWS.map(|windows| runs(over(&series, windows)));
        table(title, readings, &columns);
    }
}

/// The names of the runs: each rollup, and avg after each step.
fn names() -> Vec<String> {
    let steps = STEPS[1..].iter().map(|step| format!("avg after {step}"));
    ROLLUPS.iter().map(|rollup| rollup.to_string()).chain(steps).collect()
}

/// The times of each of these.
fn runs(case: Case) -> Vec<Times> {
    let rollups = (0..ROLLUPS.len()).map(|rollup| (0, rollup as u32));
    let steps = (1..STEPS.len()).map(|pre| (pre as u32, 0));
    let mut outcome = Outcome::before(&case);
    let mut marked = case.clone();
    marked.values.iter_mut().step_by(APART).for_each(|value| *value = MARK);
    let mut times = |(pre, rollup)| {
        let asked = [&marked, &case].map(|case| Case { pre, rollup, ..case.clone() });
        in_turn(&asked, &mut outcome)
    };
    rollups.chain(steps).map(&mut times).collect()
}

/// The best times of two runs that take turns on the same slices.
fn in_turn(cases: &[Case; 2], outcome: &mut Outcome) -> Times {
    let mut best = [f64::INFINITY; 2];
    for _ in 0..ROUNDS {
        for (best, case) in best.iter_mut().zip(cases) {
            *best = best.min(ms(|| assert_eq!(port::run(case, outcome), 0)));
        }
    }
    best.into()
}

fn table(title: &str, readings: usize, columns: &[Vec<Times>]) {
    println!("{readings} readings, {title}, every tenth a mark, milliseconds, best of {ROUNDS}\n");
    println!("| rollup |{}", " marks | without | ratio |".repeat(columns.len()));
    println!("|---|{}", "---|---|---|".repeat(columns.len()));
    for (i, name) in names().iter().enumerate() {
        let cell = |column: &Vec<Times>| {
            let (marks, without) = column[i];
            format!(" {marks:.2} | {without:.2} | {:.2} |", marks / without)
        };
        println!("| {name} |{}", columns.iter().map(cell).collect::<String>());
    }
    println!();
    for column in columns {
        let ratios: Vec<f64> = column.iter().map(|(marks, without)| marks / without).collect();
        let mean = (ratios.iter().map(|ratio| ratio.ln()).sum::<f64>() / ratios.len() as f64).exp();
        let worst = (0..ratios.len()).max_by(|i, j| ratios[*i].total_cmp(&ratios[*j])).unwrap();
        let above = ratios.iter().filter(|ratio| **ratio > BAR).count();
        println!(
            "geometric mean {mean:.2}; the worst {:.2}, {}; above {BAR}: {above} of {}",
            ratios[worst],
            names()[worst],
            ratios.len()
        );
    }
    println!();
}
