//! The window, the reach and the size of the grid that a call settles; at the end of series with equal times.

use original::exposed;

use super::setting_words;
use crate::inputs::{equal_times, series, settings};
use crate::judge;
use crate::rng::Rng;
use crate::words::{times, List};

pub const CASES: &str = "n, n times, start, end, step, window, may_adjust_window, \
    is_default_rollup, lookback_delta, min_staleness_interval, max_points_per_series, \
    samples_scanned_per_call, then the settled window, the reach and the number of output times";

pub fn make(rng: &mut Rng, list: &mut List) {
    for _ in 0..4000 {
        let n = rng.below(26) as usize;
        let timestamps = series::times(rng, n);
        put(rng, list, &timestamps);
    }
    for _ in 0..600 {
        let n = rng.between(2, 25) as usize;
        let mut timestamps = series::times(rng, n);
        equal_times::anywhere(rng, &mut timestamps);
        put(rng, list, &timestamps);
    }
}

fn put(rng: &mut Rng, list: &mut List, timestamps: &[i64]) {
    let s = settings::settings(rng, timestamps, 40);
    let (window, reach) = judge::settle(&s, timestamps);
    let points = exposed::get_timestamps(s.start, s.end, s.step, 0).unwrap().len();
    let given = [vec![timestamps.len() as u64], times(timestamps), setting_words(&s)].concat();
    list.case(&[given, vec![window as u64, reach as u64, points as u64]].concat());
}
