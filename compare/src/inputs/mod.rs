//! Generated inputs: values with the corners of binary64, series of readings, grids and settings.

pub mod cases;
pub mod crossings;
pub mod equal_times;
pub mod floats;
pub mod marks;
pub mod merge;
pub mod nearest;
pub mod reaches;
pub mod series;
pub mod settings;
pub mod until_next;
