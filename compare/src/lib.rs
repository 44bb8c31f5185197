//! The Rust as the judge of the port: what it answers, generated inputs, the fixed lists for the
//! gate, and the comparison with the exported functions. Of what the Rust does not have, the judge is
//! a model, of runs over equal times and of those that see staleness marks the window rule.

pub mod arguments;
pub mod call;
pub mod cuts;
pub mod inputs;
pub mod judge;
pub mod lists;
pub mod model;
pub mod oracle;
pub mod plain;
pub mod port;
pub mod rng;
pub mod rows;
pub mod rules;
pub mod shrink;
pub mod window;
pub mod words;
