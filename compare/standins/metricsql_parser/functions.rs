//! The names of the rollup functions, as `get_rollup_function_factory` lists them.

#[derive(Debug, Clone, Copy, PartialEq, Eq)]
pub enum RollupFunction {
    AbsentOverTime,
    AggrOverTime,
    AscentOverTime,
    AvgOverTime,
    Changes,
    ChangesPrometheus,
    CountEqOverTime,
    CountGtOverTime,
    CountLeOverTime,
    CountNeOverTime,
    CountOverTime,
    CountValuesOverTime,
    DecreasesOverTime,
    DefaultRollup,
    Delta,
    DeltaPrometheus,
    Deriv,
    DerivFast,
    DescentOverTime,
    DistinctOverTime,
    DurationOverTime,
    FirstOverTime,
    GeomeanOverTime,
    HistogramOverTime,
    HoeffdingBoundLower,
    HoeffdingBoundUpper,
    HoltWinters,
    IDelta,
    IDeriv,
    Increase,
    IncreasePrometheus,
    IncreasePure,
    IncreasesOverTime,
    Integrate,
    IRate,
    IQROverTime,
    Lag,
    LastOverTime,
    Lifetime,
    MadOverTime,
    MaxOverTime,
    MedianOverTime,
    MinOverTime,
    ModeOverTime,
    OutlierIQROverTime,
    PredictLinear,
    PresentOverTime,
    QuantileOverTime,
    QuantilesOverTime,
    RangeOverTime,
    Rate,
    RateOverSum,
    Resets,
    Rollup,
    RollupCandlestick,
    RollupDelta,
    RollupDeriv,
    RollupIncrease,
    RollupRate,
    RollupScrapeInterval,
    ScrapeInterval,
    ShareEqOverTime,
    ShareGtOverTime,
    ShareLeOverTime,
    StaleSamplesOverTime,
    StddevOverTime,
    StdvarOverTime,
    SumOverTime,
    SumEqOverTime,
    SumGtOverTime,
    SumLeOverTime,
    Sum2OverTime,
    TFirstOverTime,
    Timestamp,
    TimestampWithName,
    TLastChangeOverTime,
    TLastOverTime,
    TMaxOverTime,
    TMinOverTime,
    ZScoreOverTime,
}

impl RollupFunction {
    pub fn name(&self) -> &'static str {
        unimplemented!("metricsql_parser")
    }

    pub fn keep_metric_name(&self) -> bool {
        unimplemented!("metricsql_parser")
    }

    pub fn should_remove_counter_resets(&self) -> bool {
        unimplemented!("metricsql_parser")
    }

    pub fn is_aggregate_function(&self) -> bool {
        unimplemented!("metricsql_parser")
    }
}

pub fn can_adjust_window(_: RollupFunction) -> bool {
    unimplemented!("metricsql_parser")
}

pub enum BuiltinFunction {
    Rollup(RollupFunction),
    Other,
}

pub struct FunctionMeta {
    pub function: BuiltinFunction,
}

impl FunctionMeta {
    pub fn lookup(_: &str) -> Option<Self> {
        unimplemented!("metricsql_parser")
    }
}
