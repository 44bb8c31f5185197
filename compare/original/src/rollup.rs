//! Upstream's `functions::rollup`.

pub(crate) use crate::missing::rollups::{
    counts, duration_over_time, hoeffding_bound, outlier_iqr,
};

#[path = "../../../docs/src/runtime/src/functions/rollup/candlestick.rs"]
mod candlestick;
#[path = "../../../docs/src/runtime/src/functions/rollup/delta.rs"]
mod delta;
#[path = "../../../docs/src/runtime/src/functions/rollup/deriv.rs"]
mod deriv;
#[path = "../../../docs/src/runtime/src/functions/rollup/holt_winters.rs"]
mod holt_winters;
#[path = "../../../docs/src/runtime/src/functions/rollup/integrate.rs"]
mod integrate;
#[path = "../../../docs/src/runtime/src/functions/rollup/quantiles.rs"]
mod quantiles;
#[path = "../../../docs/src/runtime/src/functions/rollup/rollup_fns.rs"]
mod rollup_fns;
#[path = "../../../docs/src/runtime/src/functions/rollup/timeseries_map.rs"]
mod timeseries_map;
#[path = "../../../docs/src/runtime/src/functions/rollup/types.rs"]
mod types;

#[path = "exposed.rs"]
pub mod exposed;
#[path = "rollup_config.rs"]
mod rollup_config;

pub(crate) use rollup_fns::{get_rollup_func_by_name, get_rollup_function_handler};
pub(crate) use timeseries_map::TimeSeriesMap;
pub(crate) use types::{
    RollupFunc, RollupFuncArg, RollupHandler, RollupHandlerFloatArg, RollupHandlerVecArg,
};
