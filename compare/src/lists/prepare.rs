//! The preparing steps on accepted series, at the end on such with equal times.

use crate::inputs::{equal_times, floats, series};
use crate::judge;
use crate::rng::Rng;
use crate::words::{all_bits, times, List};

pub const CASES: &str =
    "step, n, n times, n values, the n prepared values; step 0 none, 1 resets, \
    2 delta, 3 deriv, 4 intervals, 5 resets_once";

pub fn make(rng: &mut Rng, list: &mut List) {
    for step in 0..judge::STEPS.len() {
        for _ in 0..1600 {
            // Step none moves nothing: very short series say so.
            let n = if step == 0 { rng.below(3) as usize } else { floats::short(rng).min(14) };
            let (timestamps, values) = series::for_step(rng, step, n);
            put(list, step, &timestamps, &values);
        }
    }
    for step in 0..judge::STEPS.len() {
        for _ in 0..100 {
            let n = if step == 0 { 2 } else { rng.between(2, 14) as usize };
            let (mut timestamps, values) = series::for_step(rng, step, n);
            equal_times::anywhere(rng, &mut timestamps);
            put(list, step, &timestamps, &values);
        }
    }
}

fn put(list: &mut List, step: usize, timestamps: &[i64], values: &[f64]) {
    let mut prepared = values.to_vec();
    judge::prepare(step, timestamps, &mut prepared);
    let mut words = vec![step as u64, values.len() as u64];
    words.extend(times(timestamps));
    words.extend(all_bits(values));
    words.extend(all_bits(&prepared));
    list.case(&words);
}
