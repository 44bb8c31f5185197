//! Expressions of the query language, as far as rollup_config.rs takes them apart.

use std::fmt;

use crate::functions::RollupFunction;

#[derive(Debug)]
pub enum Expr {
    Function(FunctionExpr),
    Aggregation(AggregationExpr),
    StringLiteral(String),
}

impl Expr {
    pub fn variant_name(&self) -> &'static str {
        unimplemented!("metricsql_parser")
    }
}

impl fmt::Display for Expr {
    fn fmt(&self, f: &mut fmt::Formatter) -> fmt::Result {
        write!(f, "{self:?}")
    }
}

#[derive(Debug)]
pub struct FunctionExpr {
    pub args: Vec<Expr>,
}

impl FunctionExpr {
    pub fn name(&self) -> &str {
        unimplemented!("metricsql_parser")
    }

    pub fn is_rollup_function(&self, _: RollupFunction) -> bool {
        unimplemented!("metricsql_parser")
    }
}

#[derive(Debug)]
pub struct AggregationExpr {
    pub args: Vec<Expr>,
}

pub struct DurationExpr;

impl DurationExpr {
    pub fn value(&self, _step: i64) -> i64 {
        unimplemented!("metricsql_parser")
    }
}
