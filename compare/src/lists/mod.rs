//! The fixed lists, each made from a seed.

mod ieee;
mod math;
mod prepare;
mod rollup;
mod run;
mod search;
mod settle;
mod sort;

use original::exposed::Settings;

use crate::rng::Rng;
use crate::words::List;

/// A list: its name, what a case holds, and how the cases are made.
pub struct Maker {
    pub name: &'static str,
    pub cases: &'static str,
    pub make: fn(&mut Rng, &mut List),
}

pub const MAKERS: [Maker; 9] = [
    Maker { name: "ieee", cases: ieee::CASES, make: ieee::make },
    Maker { name: "math", cases: math::CASES, make: math::make },
    Maker { name: "sort", cases: sort::CASES, make: sort::make },
    Maker { name: "regression", cases: math::REGRESSION_CASES, make: math::make_regression },
    Maker { name: "prepare", cases: prepare::CASES, make: prepare::make },
    Maker { name: "search", cases: search::CASES, make: search::make },
    Maker { name: "settle", cases: settle::CASES, make: settle::make },
    Maker { name: "rollup", cases: rollup::CASES, make: rollup::make },
    Maker { name: "run", cases: run::CASES, make: run::make },
];

/// The text of a list, or nothing if the name names none.
pub fn text(name: &str, seed: u64) -> Option<List> {
    let maker = MAKERS.iter().find(|maker| maker.name == name)?;
    let note = format!("{name}: {}. Made by `vectors {name} {seed}` of compare/.", maker.cases);
    let mut list = List::new(&note);
    (maker.make)(&mut Rng::new(seed), &mut list);
    Some(list)
}

/// The settings in the order of the exported functions.
fn setting_words(s: &Settings) -> Vec<u64> {
    let (adjust, default) = (s.may_adjust_window as i64, s.is_default_rollup as i64);
    let numbers = [s.start, s.end, s.step, s.window, adjust, default];
    let limits = [s.lookback_delta, s.min_staleness_interval, s.max_points_per_series];
    let words = numbers.iter().chain(&limits).map(|number| *number as u64);
    words.chain([s.samples_scanned_per_call]).collect()
}

/// Bit k is flag k.
fn mask(flags: &[bool]) -> u64 {
    flags.iter().enumerate().map(|(k, flag)| (*flag as u64) << k).sum()
}
