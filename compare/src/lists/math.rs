//! The functions of common/math.rs, in two lists.

use original::exposed;

use crate::inputs::{floats, series};
use crate::rng::Rng;
use crate::words::{all_bits, bits, times, List};

pub const CASES: &str = "op, n, n values, parameter, result; op 0 quantile (phi), 1 median, 2 mad, \
    3 stdvar, 4 stddev, 5 mode_no_nans (predecessor), 7 are_const_values (0 or 1); only 0 and 5 have \
    a parameter";

pub const REGRESSION_CASES: &str =
    "op 6, n, n values, intercept time, n times, results v and k of \
    linear_regression";

pub fn make(rng: &mut Rng, list: &mut List) {
    for op in [0, 1, 2, 3, 4, 5, 7] {
        for _ in 0..2000 {
            let n = floats::short(rng);
            let mut values = floats::window(rng, n);
            if op != 5 && n > 0 && rng.once_in(20) {
                values[rng.below(n as u64) as usize] = f64::NAN;
            }
            put(rng, list, op, &mut values);
        }
    }
}

fn put(rng: &mut Rng, list: &mut List, op: u64, values: &mut [f64]) {
    let mut words = vec![op, values.len() as u64];
    words.extend(all_bits(values));
    match op {
        0 => {
            let phi = floats::parameter(rng);
            words.extend([bits(phi), bits(exposed::quantile(phi, values))]);
        }
        1 => words.push(bits(exposed::median(values))),
        2 => words.push(bits(exposed::mad(values))),
        3 => words.push(bits(exposed::stdvar(values))),
        4 => words.push(bits(exposed::stddev(values))),
        5 => {
            let prev_value = predecessor(rng, values);
            words.extend([bits(prev_value), bits(exposed::mode_no_nans(prev_value, values))]);
        }
        _ => words.push(exposed::are_const_values(values) as u64),
    }
    list.case(&words);
}

/// None, one of the values, or another.
fn predecessor(rng: &mut Rng, values: &[f64]) -> f64 {
    match rng.below(3) {
        0 => f64::NAN,
        1 if !values.is_empty() => rng.pick(values),
        _ => floats::finite(rng),
    }
}

pub fn make_regression(rng: &mut Rng, list: &mut List) {
    for _ in 0..4000 {
        let n = floats::short(rng);
        let (values, timestamps) = (floats::window(rng, n), series::times(rng, n));
        let last = timestamps.last().copied().unwrap_or(0);
        let later = rng.between(0, 100_000);
        let intercept = last + rng.pick(&[0, 0, 1, 1000, later, -500]);
        let (v, k) = exposed::linear_regression(&values, &timestamps, intercept);
        let mut words = [vec![6, n as u64], all_bits(&values), vec![intercept as u64]].concat();
        words.extend(times(&timestamps));
        words.extend([bits(v), bits(k)]);
        list.case(&words);
    }
}
