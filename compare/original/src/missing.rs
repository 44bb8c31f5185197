//! What the sources name of files that docs/src does not have. Types carry names, labels and
//! settings; functions that would compute something are not answered, and nothing here is reached
//! in the comparison.

pub(crate) mod context {
    pub struct Context {
        pub config: SessionConfig,
    }

    pub struct SessionConfig {
        pub disable_cache: bool,
        pub max_points_subquery_per_timeseries: usize,
        pub no_stale_markers: bool,
        pub max_lookback: Lookback,
        pub max_unique_timeseries: usize,
    }

    pub struct Lookback;

    impl Lookback {
        pub fn num_milliseconds(&self) -> i64 {
            unimplemented!("execution/context.rs")
        }
    }
}

pub(crate) mod format {
    pub fn format_number(_: &mut std::fmt::Formatter, _: f64) -> std::fmt::Result {
        unimplemented!("common/format.rs")
    }
}

pub(crate) mod histogram {
    #[derive(Debug, Clone)]
    pub struct Histogram;

    pub struct NonZeroBucket {
        pub vm_range: &'static str,
        pub count: u64,
    }

    impl Histogram {
        pub fn new() -> Self {
            Histogram
        }

        pub fn update(&mut self, _: f64) {
            unimplemented!("histogram")
        }

        pub fn reset(&mut self) {
            unimplemented!("histogram")
        }

        pub fn non_zero_buckets(&self) -> std::vec::IntoIter<NonZeroBucket> {
            unimplemented!("histogram")
        }
    }
}

pub(crate) mod provider {
    #[derive(Debug, Clone, Copy, Default)]
    pub struct Deadline;
}

pub(crate) mod rollups {
    //! Rollups outside the 48, whose files are missing.

    macro_rules! missing_factories {
        ($module:ident: $($name:ident),+) => {
            pub(crate) mod $module {
                use crate::functions::rollup::RollupHandler;
                use crate::{QueryValue, RuntimeResult};

                $(pub fn $name(_: &[QueryValue]) -> RuntimeResult<RollupHandler> {
                    unimplemented!(stringify!($name))
                })+
            }
        };
    }

    missing_factories!(counts: new_rollup_count_values, new_rollup_sum_eq, new_rollup_sum_gt,
        new_rollup_sum_le, new_rollup_count_eq, new_rollup_count_gt, new_rollup_count_le,
        new_rollup_count_ne, new_rollup_share_eq, new_rollup_share_gt, new_rollup_share_le);
    missing_factories!(duration_over_time: new_rollup_duration_over_time);
    missing_factories!(hoeffding_bound:
        new_rollup_hoeffding_bound_lower, new_rollup_hoeffding_bound_upper);

    pub(crate) mod outlier_iqr {
        use crate::functions::rollup::RollupFuncArg;

        pub fn rollup_outlier_iqr(_: &RollupFuncArg) -> f64 {
            unimplemented!("rollup/outlier_iqr.rs")
        }
    }
}

pub(crate) mod series {
    //! A series with its name and labels, of types/.

    use std::sync::Arc;

    #[derive(Debug, Clone, Default, PartialEq)]
    pub struct MetricName {
        pub metric_group: String,
    }

    impl MetricName {
        pub fn copy_from(&mut self, other: &MetricName) {
            self.metric_group = other.metric_group.clone()
        }

        pub fn reset_metric_group(&mut self) {
            self.metric_group.clear()
        }

        pub fn set_tag(&mut self, _: &str, _: &str) {
            unimplemented!("types/metric_name.rs")
        }
    }

    #[derive(Debug, Clone, Default, PartialEq)]
    pub struct Timeseries {
        pub metric_name: MetricName,
        pub values: Vec<f64>,
        pub timestamps: Arc<Vec<i64>>,
    }

    impl Timeseries {
        pub fn with_shared_timestamps(timestamps: &Arc<Vec<i64>>, values: &[f64]) -> Self {
            Timeseries {
                metric_name: MetricName::default(),
                values: values.to_vec(),
                timestamps: Arc::clone(timestamps),
            }
        }
    }

    pub fn get_timeseries() -> Timeseries {
        Timeseries::default()
    }
}

pub(crate) mod single_timeseries {
    use crate::{RuntimeResult, Timeseries};

    pub fn get_single_timeseries(_: &[Timeseries]) -> RuntimeResult<&Timeseries> {
        unimplemented!("functions/types.rs")
    }
}

pub(crate) mod utils {
    pub fn float_to_int_bounded(_: f64) -> i64 {
        unimplemented!("functions/utils.rs")
    }
}
