//! The Rust that is ported, built from docs/src as it stands.
//!
//! The modules have upstream's names and places, so that the sources find each other. What docs/src
//! does not have is in `missing`, or is a crate of standins/. `exposed` makes the functions that are
//! compared public; the sources themselves are not edited.

#![allow(warnings)]

#[macro_use]
extern crate tinyvec;

mod common;
mod execution;
mod functions;
mod missing;
mod types;

#[path = "../../../docs/src/runtime/src/runtime_error.rs"]
mod runtime_error;

pub use functions::rollup::exposed;

pub(crate) use missing::{histogram, provider};
pub(crate) use runtime_error::{RuntimeError, RuntimeResult};
pub(crate) use types::{MetricName, QueryValue, Timeseries, Timestamp, TimestampTrait};
