//! What all files hold, each by itself and together.

use std::time::{Duration, Instant};

use crate::failure::Failure;
use crate::jobs::in_order;
use crate::joined::joined;
use crate::options::Common;
use crate::progress::Progress;
use crate::read::{self, Input};
use crate::series::{self, Series};

/// The series of all files.
#[derive(Debug)]
pub struct Inputs {
    /// Each with a title that no other has.
    pub series: Vec<Series>,
    /// What a person should know of how they were read.
    pub notes: Vec<String>,
    /// The time that reading took, summed over the files.
    pub reading: Duration,
}

impl Inputs {
    /// Reads the files, and joins what they have of one name.
    pub fn read(common: &Common, progress: &Progress) -> Result<Inputs, Failure> {
        let (mut all, mut notes, mut reading) = (vec![], vec![], Duration::ZERO);
        for (input, time) in files(common, progress)? {
            all.push(input.series);
            notes.extend(input.notes);
            reading += time;
        }
        let series = joined(all)?;
        notes.extend(series::seconds(&series));
        Ok(Inputs { series, notes, reading })
    }
}

/// Reads the files, which the jobs share: what each holds, and the time that reading it took.
pub fn files(common: &Common, progress: &Progress) -> Result<Vec<(Input, Duration)>, Failure> {
    let files = common.files.iter().collect();
    in_order(common.jobs, files, |_, _, file: &String| {
        let begin = Instant::now();
        let input = read::file(file, &common.chosen, progress)?;
        Ok((input, begin.elapsed()))
    })
}
