//! rollup_config.rs as it stands, included so that its private functions can be named here.

include!("../../../docs/src/runtime/src/functions/rollup/rollup_config.rs");

pub(super) mod private {
    //! The private functions of rollup_config.rs that are compared.

    use super::{RollupFunction, Timestamp};

    pub fn intervals(values: &mut [f64], timestamps: &[i64]) {
        super::calc_sample_intervals_pre_fn(values, timestamps)
    }

    pub fn seek(timestamps: &[Timestamp], seek_timestamp: Timestamp, n_hint: usize) -> usize {
        super::seek_first_timestamp_idx_after(timestamps, seek_timestamp, n_hint)
    }

    pub fn scrape_interval(timestamps: &[Timestamp]) -> i64 {
        super::get_scrape_interval(timestamps)
    }

    pub fn max_prev_interval(scrape_interval: i64) -> i64 {
        super::get_max_prev_interval(scrape_interval)
    }

    pub fn samples_scanned_per_call(function: RollupFunction) -> usize {
        super::rollup_samples_scanned_per_call(function)
    }
}
