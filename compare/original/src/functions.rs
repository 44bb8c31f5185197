//! Upstream's `functions`.

pub(crate) use crate::missing::{single_timeseries as types, utils};

#[path = "../../../docs/src/runtime/src/functions/arg_parse.rs"]
pub(crate) mod arg_parse;

#[path = "rollup.rs"]
pub(crate) mod rollup;
