//! Stand-in for `metricsql_parser`: the enums and types that the sources name. What the sources
//! would ask of a query is never asked in the comparison and is not answered here.

pub mod ast;
pub mod functions;

pub mod common {
    use std::fmt;

    #[derive(Debug, Clone, Copy, PartialEq)]
    pub enum ValueType {
        RangeVector,
        InstantVector,
        Scalar,
        String,
    }

    impl fmt::Display for ValueType {
        fn fmt(&self, f: &mut fmt::Formatter) -> fmt::Result {
            write!(f, "{self:?}")
        }
    }

    pub trait Value {
        fn value_type(&self) -> ValueType;
    }
}

pub mod label {
    #[derive(Debug, Clone)]
    pub struct Matchers;
}

pub mod parser {
    #[derive(Debug, Clone, PartialEq)]
    pub struct ParseError;
}

pub mod prelude {
    pub use crate::functions::{BuiltinFunction, FunctionMeta};
}
