//! When series go over a limit, and back under it.

use std::io::{self, Write};

use harzoulin::crossings;

use crate::failure::Failure;
use crate::files::Files;
use crate::inputs::Inputs;
use crate::jobs::in_order;
use crate::options::{Common, Format};
use crate::progress::Progress;
use crate::refused::refused_limit;
use crate::say::say;
use crate::series::Series;
use crate::text::visible;
use crate::time::Stamp;
use crate::write::rows::{self, Field};
use crate::write::{self, Number, is_named};
use crate::{places, plot};

/// The crossings of one series.
pub struct Crossed {
    pub series: Series,
    pub limit: f64,
    /// The readings that lie on the other side of the limit from the ones before.
    pub indexes: Vec<usize>,
}

/// Writes the crossings of all series, and draws them if that is asked for.
pub fn run(common: &Common, limit: f64) -> Result<(), Failure> {
    places::distinct(common)?;
    let (found, notes) = Progress::default().shown(|progress| {
        let Inputs { series, notes, .. } = Inputs::read(common, progress)?;
        plot::fits(common, series.len(), "series")?;
        let found = in_order(common.jobs, series, |_, _, series| Crossed::new(series, limit))?;
        Ok((found, notes))
    })?;
    let mut files = Files::default();
    if let Some(path) = &common.plot {
        plot::crossings(path, &found, common, &mut files)?;
    }
    write::write(common, &mut files, |out| all(&found, common, out))?;
    files.put()?;
    notes.iter().for_each(say);
    Ok(())
}

const HEADERS: [&str; 6] = ["name", "index", "time", "before", "value", "direction"];

fn all(found: &[Crossed], common: &Common, out: &mut impl Write) -> io::Result<()> {
    let rows = || found.iter().flat_map(|crossed| crossed.rows(common));
    match common.format {
        Format::Csv => {
            let named = is_named(found.iter().map(|crossed| &crossed.series));
            rows::csv(HEADERS, named, rows(), out)
        }
        Format::Json => rows::json(HEADERS, rows(), out),
        Format::Text => found.iter().try_for_each(|crossed| {
            let (title, readings) = (visible(&crossed.series.title), crossed.series.times.len());
            writeln!(out, "{title}: {readings} readings, {}", crossed.sum())?;
            rows::table(HEADERS, false, crossed.rows(common), out)?;
            writeln!(out)
        }),
    }
}

impl Crossed {
    fn new(series: Series, limit: f64) -> Result<Crossed, Failure> {
        let indexes = crossings(&series.times, &series.values, limit);
        let indexes = indexes.map_err(|refusal| refused_limit(&series, limit, refusal))?;
        Ok(Crossed { series, limit, indexes })
    }

    /// Whether a crossing is from below the limit.
    pub fn is_up(&self, index: usize) -> bool {
        self.series.values[index] >= self.limit
    }

    /// How many there are, and of what limit.
    pub fn sum(&self) -> String {
        let count = self.indexes.len();
        let plural = if count == 1 { "" } else { "s" };
        format!("{count} crossing{plural} of {}", Number(self.limit, None))
    }

    fn rows(&self, common: &Common) -> impl Iterator<Item = [Field<'_>; 6]> {
        let (form, decimals) = (common.form(&self.series), common.decimals);
        let value = move |index: usize| Field::Value(Number(self.series.values[index], decimals));
        self.indexes.iter().map(move |index| {
            [
                Field::Name(&self.series.title),
                Field::Index(*index),
                Field::Time(Stamp(self.series.times[*index], form)),
                value(index - 1),
                value(*index),
                Field::Word(if self.is_up(*index) { "up" } else { "down" }),
            ]
        })
    }
}
