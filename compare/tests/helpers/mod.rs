//! What the tests share: a rollup by its name, and equality of bits.

use original::exposed::{Rollup, ROLLUPS};

pub const NAN: f64 = f64::NAN;
pub const INF: f64 = f64::INFINITY;

pub fn rollup(name: &str, first: f64, second: f64) -> Rollup {
    Rollup::new(ROLLUPS.iter().position(|(own, _)| *own == name).unwrap(), first, second)
}

/// The same bits, or both a NaN.
pub fn same(answer: f64, stated: f64) {
    let nan = answer.is_nan() && stated.is_nan();
    assert!(nan || answer.to_bits() == stated.to_bits(), "{answer:?}, stated {stated:?}");
}

pub fn all_same(answers: &[f64], stated: &[f64]) {
    assert_eq!(answers.len(), stated.len());
    answers.iter().zip(stated).for_each(|(answer, stated)| same(*answer, *stated));
}
