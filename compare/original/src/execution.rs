//! Upstream's `execution`.

pub(crate) use crate::missing::context;

#[path = "../../../docs/src/runtime/src/execution/eval.rs"]
mod eval;

pub(crate) use eval::{
    eval_number, get_timestamps, validate_max_points_per_timeseries, EvalConfig,
};
