//! The sorts of common/math.rs: by `partial_cmp`, where the zeros are equal, and by `total_cmp`.

use std::cmp::Ordering;

use original::exposed;

use crate::inputs::floats;
use crate::rng::Rng;
use crate::words::{all_bits, List};

pub const CASES: &str = "op, n, n values, the n values sorted; op 8 by partial_cmp, equals in the \
    order they had, 9 by total_cmp";

/// How many kinds of values there are.
const KINDS: usize = 10;

pub fn make(rng: &mut Rng, list: &mut List) {
    for op in [8, 9] {
        for case in 0..2500 {
            let values = values(rng, op, case % KINDS);
            let mut sorted = values.clone();
            sort(op, &mut sorted);
            let n = values.len() as u64;
            list.case(&[vec![op, n], all_bits(&values), all_bits(&sorted)].concat());
        }
    }
}

/// The order that quantiles are sorted by, and the one that `mode_no_nans` sorts what it is lent by.
fn sort(op: u64, values: &mut [f64]) {
    match op {
        8 => values.sort_by(|a, b| a.partial_cmp(b).unwrap_or(Ordering::Less)),
        _ => {
            exposed::mode_no_nans(f64::NAN, values);
        }
    }
}

/// Values of one kind. Only `total_cmp` is handed NaN: the callers of the other leave it out.
fn values(rng: &mut Rng, op: u64, kind: usize) -> Vec<f64> {
    let n = floats::short(rng);
    match kind {
        0 => vec![floats::finite(rng); n],
        1 => some(rng, n, &[0.0, -0.0]),
        2 => some(rng, n, &[0.0, -0.0, 0.0, -0.0, 1.0, -1.0, 5e-324, -5e-324]),
        3 => some(rng, n, &[f64::INFINITY, f64::NEG_INFINITY, f64::MAX, f64::MIN, 0.0, -0.0]),
        4 => (0..n).map(|_| f64::from_bits(rng.bits() & 0x800fffffffffffff)).collect(),
        5 => in_order(rng, op, n, false),
        6 => in_order(rng, op, n, true),
        7 => (0..n).map(|_| corner(rng)).collect(),
        8 => {
            // The Rust sorts up to 20 values by insertion.
            let n = rng.between(19, 48) as usize;
            some(rng, n, &[-2.0, -1.0, -0.0, 0.0, 1.0, 2.0])
        }
        _ => with_nan(rng, op, n),
    }
}

fn some(rng: &mut Rng, n: usize, of: &[f64]) -> Vec<f64> {
    (0..n).map(|_| rng.pick(of)).collect()
}

/// Sorted values or, reversed, falling ones; once in four times with two of them swapped.
fn in_order(rng: &mut Rng, op: u64, n: usize, reversed: bool) -> Vec<f64> {
    let mut values = floats::window(rng, n);
    sort(op, &mut values);
    if reversed {
        values.reverse();
    }
    if n > 0 && rng.once_in(4) {
        values.swap(rng.below(n as u64) as usize, rng.below(n as u64) as usize);
    }
    values
}

/// A corner of binary64 that is no NaN.
fn corner(rng: &mut Rng) -> f64 {
    loop {
        let value = f64::from_bits(rng.pick(&floats::corners()));
        if !value.is_nan() {
            return value;
        }
    }
}

fn with_nan(rng: &mut Rng, op: u64, n: usize) -> Vec<f64> {
    let mut values = floats::window(rng, n);
    if op == 9 && n > 0 {
        for _ in 0..rng.between(1, 2) {
            values[rng.below(n as u64) as usize] = f64::NAN;
        }
    }
    values
}
