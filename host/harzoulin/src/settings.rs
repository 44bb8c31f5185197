//! What a run is told beside its series: the grid, the window and the limits.

/// The settings of a run. All times and lengths are milliseconds; 0 leaves a limit out.
#[derive(Clone, Copy, Debug, PartialEq)]
pub struct Settings {
    /// The first output time.
    pub start: i64,
    /// No output time is past this one.
    pub end: i64,
    /// From one output time to the next.
    pub step: i64,
    /// A figure at t is of the readings after t − window, up to t. 0 stands for the step.
    pub window: i64,
    /// Raises a window of 0 to the reach, so that it covers two readings.
    pub may_adjust_window: bool,
    /// Caps a window of 0 by the lookback delta.
    pub is_default_rollup: bool,
    /// The longest reach.
    pub lookback_delta: i64,
    /// The shortest reach; it goes before the lookback delta.
    pub min_staleness_interval: i64,
    /// The most output times.
    pub max_points_per_series: i64,
    /// What an output time adds to the count; 0 stands for the readings in its window.
    pub samples_scanned_per_call: u64,
}

impl Default for Settings {
    /// One output time, 0, and windows of five minutes; no limits.
    fn default() -> Settings {
        Settings {
            start: 0,
            end: 0,
            step: 300_000,
            window: 0,
            may_adjust_window: false,
            is_default_rollup: false,
            lookback_delta: 0,
            min_staleness_interval: 0,
            max_points_per_series: 0,
            samples_scanned_per_call: 0,
        }
    }
}

impl Settings {
    /// The same grid with the window and the reach that were settled.
    pub fn settled(&self, settled: Settled) -> SettledSettings {
        SettledSettings {
            start: self.start,
            end: self.end,
            step: self.step,
            window: settled.window,
            reach: settled.reach,
            samples_scanned_per_call: self.samples_scanned_per_call,
        }
    }
}

/// What settling gives.
#[derive(Clone, Copy, Debug, PartialEq)]
pub struct Settled {
    /// The window in force.
    pub window: i64,
    /// How far before a window its predecessor may stand.
    pub reach: i64,
    /// The number of output times.
    pub points: usize,
}

/// The settings of a settled run: window and reach are given.
#[derive(Clone, Copy, Debug, PartialEq)]
pub struct SettledSettings {
    /// The first output time.
    pub start: i64,
    /// No output time is past this one.
    pub end: i64,
    /// From one output time to the next.
    pub step: i64,
    /// The window.
    pub window: i64,
    /// How far before a window its predecessor may stand.
    pub reach: i64,
    /// What an output time adds to the count; 0 stands for the readings in its window.
    pub samples_scanned_per_call: u64,
}

/// The number of output times of a grid that rows 6, 7 and 11 accept.
pub(crate) fn points(start: i64, end: i64, step: i64) -> usize {
    ((end - start) / step + 1) as usize
}
