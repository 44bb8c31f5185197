//! The functions of the sources that are compared, made public: each is a call and nothing else.

use std::sync::Arc;

use metricsql_parser::functions::RollupFunction;

use super::rollup_config::{private, RollupConfig, FN_CLOSE, FN_HIGH, FN_LOW, FN_OPEN};
use super::{delta, deriv, get_rollup_function_handler, rollup_fns, RollupFuncArg, RollupHandler};
use crate::common::math;
use crate::execution;
use crate::QueryValue;

pub use crate::common::math::{is_stale_nan, STALE_NAN_BITS};
pub use private::{intervals, max_prev_interval, scrape_interval, seek};

pub fn quantile(phi: f64, values: &[f64]) -> f64 {
    math::quantile(phi, values)
}

pub fn median(values: &[f64]) -> f64 {
    math::median(values)
}

pub fn mad(values: &[f64]) -> f64 {
    math::mad(values)
}

pub fn stdvar(values: &[f64]) -> f64 {
    math::stdvar(values)
}

pub fn stddev(values: &[f64]) -> f64 {
    math::stddev(values)
}

pub fn mode_no_nans(prev_value: f64, values: &mut [f64]) -> f64 {
    math::mode_no_nans(prev_value, values)
}

pub fn linear_regression(values: &[f64], timestamps: &[i64], intercept_time: i64) -> (f64, f64) {
    math::linear_regression(values, timestamps, intercept_time)
}

pub fn are_const_values(values: &[f64]) -> bool {
    math::are_const_values(values)
}

pub fn remove_counter_resets(values: &mut [f64]) {
    rollup_fns::remove_counter_resets(values)
}

pub fn delta_values(values: &mut [f64]) {
    delta::delta_values(values)
}

pub fn deriv_values(values: &mut [f64], timestamps: &[i64]) {
    deriv::deriv_values(values, timestamps)
}

/// The grid, or the message of the error.
pub fn get_timestamps(start: i64, end: i64, step: i64, limit: usize) -> Result<Vec<i64>, String> {
    execution::get_timestamps(start, end, step, limit).map_err(|e| e.to_string())
}

/// The rollups in the order of their numbers, from 0 on.
pub const ROLLUPS: [(&str, RollupFunction); 48] = {
    use RollupFunction::*;
    [
        ("avg", AvgOverTime),
        ("min", MinOverTime),
        ("max", MaxOverTime),
        ("mad", MadOverTime),
        ("median", MedianOverTime),
        ("tmin", TMinOverTime),
        ("tmax", TMaxOverTime),
        ("tfirst", TFirstOverTime),
        ("tlast", TLastOverTime),
        ("tlast_change", TLastChangeOverTime),
        ("sum", SumOverTime),
        ("sum2", Sum2OverTime),
        ("rate_over_sum", RateOverSum),
        ("range", RangeOverTime),
        ("absent", AbsentOverTime),
        ("present", PresentOverTime),
        ("count", CountOverTime),
        ("stddev", StddevOverTime),
        ("stdvar", StdvarOverTime),
        ("increase_pure", IncreasePure),
        ("lifetime", Lifetime),
        ("lag", Lag),
        ("scrape_interval", ScrapeInterval),
        ("changes", Changes),
        ("changes_prometheus", ChangesPrometheus),
        ("increases", IncreasesOverTime),
        ("resets", Resets),
        ("mode_over_time", ModeOverTime),
        ("ascent_over_time", AscentOverTime),
        ("descent_over_time", DescentOverTime),
        ("zscore_over_time", ZScoreOverTime),
        ("first", FirstOverTime),
        ("default", DefaultRollup),
        ("distinct", DistinctOverTime),
        ("deriv_slow", Deriv),
        ("deriv_fast", DerivFast),
        ("ideriv", IDeriv),
        ("delta", Delta),
        ("delta_prometheus", DeltaPrometheus),
        ("idelta", IDelta),
        ("open", RollupCandlestick),
        ("close", RollupCandlestick),
        ("high", RollupCandlestick),
        ("low", RollupCandlestick),
        ("integrate", Integrate),
        ("quantile", QuantileOverTime),
        ("predict_linear", PredictLinear),
        ("holt_winters", HoltWinters),
    ]
};

/// The number of `rollup_stale_samples`. The one between it and those above names none of the sources.
pub const STALE_SAMPLES: usize = 49;

/// A rollup's name and function by its number.
fn named(rollup: usize) -> (&'static str, RollupFunction) {
    match rollup {
        STALE_SAMPLES => ("stale_samples", RollupFunction::StaleSamplesOverTime),
        _ => ROLLUPS[rollup],
    }
}

/// The per-call number of a rollup, from `rollup_samples_scanned_per_call`.
pub fn samples_scanned_per_call(rollup: usize) -> usize {
    private::samples_scanned_per_call(named(rollup).1)
}

/// A rollup with its parameters, as the sources make it.
pub struct Rollup(RollupHandler);

impl Rollup {
    /// `first` is phi, seconds or the smoothing factor, `second` the trend factor.
    pub fn new(rollup: usize, first: f64, second: f64) -> Rollup {
        let (name, function) = named(rollup);
        let first_place = if name == "quantile" { 0 } else { 1 };
        let mut args = vec![QueryValue::Scalar(f64::NAN); first_place];
        args.extend([QueryValue::Scalar(first), QueryValue::Scalar(second)]);
        Rollup(match name {
            "open" => FN_OPEN,
            "close" => FN_CLOSE,
            "high" => FN_HIGH,
            "low" => FN_LOW,
            _ => get_rollup_function_handler(function, &args).unwrap(),
        })
    }

    /// A rollup that is any function of the record.
    pub fn of(eval: impl Fn(&Record) -> f64 + Clone + Send + Sync + 'static) -> Rollup {
        Rollup(RollupHandler::General(Box::new(move |rfa: &RollupFuncArg| {
            eval(&Record::from(rfa))
        })))
    }

    pub fn eval(&self, record: &Record) -> f64 {
        self.0.eval(&RollupFuncArg::from(record))
    }
}

/// `RollupFuncArg` without `idx` and `tsm`.
#[derive(Clone, Debug)]
pub struct Record<'a> {
    pub prev_value: f64,
    pub prev_timestamp: i64,
    pub values: &'a [f64],
    pub timestamps: &'a [i64],
    pub real_prev_value: f64,
    pub real_next_value: f64,
    pub curr_timestamp: i64,
    pub window: i64,
}

impl<'a> From<&RollupFuncArg<'a>> for Record<'a> {
    fn from(rfa: &RollupFuncArg<'a>) -> Self {
        Record {
            prev_value: rfa.prev_value,
            prev_timestamp: rfa.prev_timestamp,
            values: rfa.values,
            timestamps: rfa.timestamps,
            real_prev_value: rfa.real_prev_value,
            real_next_value: rfa.real_next_value,
            curr_timestamp: rfa.curr_timestamp,
            window: rfa.window,
        }
    }
}

impl<'a> From<&Record<'a>> for RollupFuncArg<'a> {
    fn from(record: &Record<'a>) -> Self {
        RollupFuncArg {
            prev_value: record.prev_value,
            prev_timestamp: record.prev_timestamp,
            values: record.values,
            timestamps: record.timestamps,
            real_prev_value: record.real_prev_value,
            real_next_value: record.real_next_value,
            curr_timestamp: record.curr_timestamp,
            window: record.window,
            idx: 0,
            tsm: None,
        }
    }
}

/// The settings of `RollupConfig`.
#[derive(Clone, Debug, Default)]
pub struct Settings {
    pub start: i64,
    pub end: i64,
    pub step: i64,
    pub window: i64,
    pub may_adjust_window: bool,
    pub is_default_rollup: bool,
    pub lookback_delta: i64,
    pub min_staleness_interval: i64,
    pub max_points_per_series: i64,
    pub samples_scanned_per_call: u64,
}

/// `do_internal` after `ensure_timestamps`, with an empty `dst_values` and no `tsm` (`exec` is that
/// call): the answers and the count, or the message of the error.
pub fn run(
    settings: &Settings,
    rollup: Rollup,
    values: &[f64],
    timestamps: &[i64],
) -> Result<(Vec<f64>, u64), String> {
    let mut config = RollupConfig {
        tag_value: String::new(),
        handler: rollup.0,
        start: settings.start,
        end: settings.end,
        step: settings.step,
        window: settings.window,
        may_adjust_window: settings.may_adjust_window,
        timestamps: Arc::new(vec![]),
        lookback_delta: settings.lookback_delta,
        is_default_rollup: settings.is_default_rollup,
        max_points_per_series: settings.max_points_per_series as usize,
        min_staleness_interval: settings.min_staleness_interval as usize,
        samples_scanned_per_call: settings.samples_scanned_per_call as usize,
    };
    config.ensure_timestamps().map_err(|e| e.to_string())?;
    let mut answers = vec![];
    let count = config.exec(&mut answers, values, timestamps).map_err(|e| e.to_string())?;
    Ok((answers, count))
}
