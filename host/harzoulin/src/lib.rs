//! Rollup figures of a series of readings: one number for each time of a grid, worked out by the
//! proved core of Harzoulin.
//!
//! A series is two slices, times in milliseconds and values. A [`Step`] prepares the values, a
//! [`Rollup`] makes one figure of the readings of each window, and [`Settings`] give the grid and
//! the window. A [`Workspace`] owns the memory that a run needs and is used again for the next.
//! [`crossings`] and [`nearest`] find readings: where the values go over a limit or back under it, and
//! the one next to a time. [`merge`] makes one series of two logs. A run takes [`STALE`] as a value, the
//! staleness mark of a series that went away.
//!
//! ```
//! use harzoulin::{Rollup, Settings, Step, Workspace};
//!
//! let timestamps = [0, 60_000, 120_000, 180_000];
//! let values = [10.0, 12.0, 2.0, 3.0];
//! let settings = Settings { start: 120_000, end: 180_000, step: 60_000, ..Settings::default() };
//! let mut workspace = Workspace::new();
//! let figures = workspace.run(&timestamps, &values, Step::None, Rollup::Delta, &settings)?;
//! assert_eq!(figures.values, [-10.0, 1.0]);
//! # Ok::<(), harzoulin::Refusal>(())
//! ```

mod crossings;
mod exported;
pub mod lent;
mod marks;
mod merge;
mod refusal;
mod rollup;
mod settings;
mod shared;
mod step;
mod workspace;

pub use crossings::crossings;
pub use lent::{nearest, settle};
pub use marks::{STALE, is_stale, remaining};
pub use merge::merge;
pub use refusal::Refusal;
pub use rollup::{About, Group, ROLLUPS, Rollup, Unit, UnknownRollup};
pub use settings::{Settings, Settled, SettledSettings};
pub use step::{Step, UnknownStep};
pub use workspace::{Figures, Workspace};

/// The most readings of a series, and the most output times of a grid.
pub const MOST: usize = 16_777_216;
