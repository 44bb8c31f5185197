//! The options of a run.

use harzoulin::{Rollup, Settings, Step};

use crate::columns::Chosen;
use crate::failure::Failure;
use crate::series::Series;
use crate::time::Form;

/// How figures are written.
#[derive(Clone, Copy, Debug, Default, PartialEq, Eq)]
pub enum Format {
    /// A line for each figure.
    #[default]
    Csv,
    /// A table for each series.
    Text,
    /// An object for each output time, on a line.
    Json,
}

/// How readings are written.
#[derive(Clone, Copy, Debug, Default, PartialEq, Eq)]
pub enum ReadingsFormat {
    /// A line for each reading.
    #[default]
    Csv,
    /// The bytes of times and values, for programs.
    Raw,
}

/// What all that read files are told: the files, and how what comes of them is shown.
#[derive(Clone, Debug)]
pub struct Common {
    pub files: Vec<String>,
    pub chosen: Chosen,
    pub format: Format,
    /// Digits after the point; else the shortest text that reads back to the same bits.
    pub decimals: Option<usize>,
    pub times: Option<Form>,
    pub output: Option<String>,
    pub plot: Option<String>,
    pub unit: String,
    pub jobs: usize,
}

impl Common {
    /// How the times of a series are written.
    pub fn form(&self, series: &Series) -> Form {
        self.times.unwrap_or(series.form)
    }
}

/// The options of a run.
#[derive(Clone, Debug)]
pub struct Options {
    pub common: Common,
    pub pre: Step,
    pub rollups: Vec<Rollup>,
    pub start: Option<i64>,
    pub end: Option<i64>,
    /// The settings but for start and end.
    pub settings: Settings,
    /// A figure of fewer readings is left out.
    pub min_readings: u32,
    /// Whether CSV has how many readings stand behind each figure.
    pub readings: bool,
    pub stats: bool,
}

impl Options {
    /// Whether the readings behind each figure are counted.
    pub fn counts_readings(&self) -> bool {
        let shown = self.common.plot.is_some() || self.common.format != Format::Csv;
        self.readings || self.min_readings > 0 || shown
    }

    /// Whether a picture has the prepared values beside the readings: those of a counter whose restarts
    /// are added back once are of the same unit, and go on where the readings fall.
    pub fn draws_corrected(&self) -> bool {
        self.common.plot.is_some() && self.pre == Step::ResetsOnce
    }

    /// The settings for a series: its own grid where none is given.
    pub fn settings(&self, series: &Series) -> Result<Settings, Failure> {
        let whole = |time: Option<&i64>| {
            let (time, step) = (*time?, self.settings.step.max(1));
            Some(time.saturating_add((step - time.rem_euclid(step)) % step))
        };
        let start = self.start.or_else(|| whole(series.times.first()));
        let end = self.end.or_else(|| whole(series.times.last()));
        let (Some(start), Some(end)) = (start, end) else {
            let message = "expected a reading, or --start and --end";
            return Err(Failure::Input(format!("{}: {message}", series.file())));
        };
        Ok(Settings { start, end, ..self.settings })
    }
}
