//! The readings of files, as all tasks but merge hand them to the core, which is not asked.

use std::io::{self, Write};

use crate::failure::Failure;
use crate::inputs::Inputs;
use crate::options::{Common, ReadingsFormat};
use crate::places;
use crate::progress::Progress;
use crate::series::Series;
use crate::write::readings::{Readings, csv, raw};
use crate::write::{self, is_named};

/// Writes the readings of all series.
pub fn run(common: &Common, format: ReadingsFormat) -> Result<(), Failure> {
    places::distinct(common)?;
    let read = |progress: &Progress| Inputs::read(common, progress);
    let Inputs { series, notes, .. } = Progress::default().shown(read)?;
    write::with_notes(common, &notes, |out| match format {
        ReadingsFormat::Csv => all(&series, common, out),
        ReadingsFormat::Raw => raw(&series, out),
    })
}

/// Where there are several series, those without a name have their titles: they stay apart.
fn all(series: &[Series], common: &Common, out: &mut impl Write) -> io::Result<()> {
    let readings = series.iter().map(|series| Readings {
        name: &series.title,
        form: common.form(series),
        times: &series.times,
        values: &series.values,
    });
    csv(is_named(series.iter()), readings, out)
}
