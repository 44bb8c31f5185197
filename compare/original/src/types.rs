//! Upstream's `types`.

#[path = "../../../docs/src/runtime/src/types/query_value.rs"]
mod query_value;

#[path = "../../../docs/src/runtime/src/types/traits.rs"]
mod traits;

pub(crate) use crate::missing::series::{get_timeseries, MetricName, Timeseries};
pub(crate) use query_value::QueryValue;
pub(crate) use traits::{Timestamp, TimestampTrait};
