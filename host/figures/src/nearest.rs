//! The reading of each series that is nearest to a time.

use std::io::{self, Write};

use harzoulin::nearest;

use crate::failure::Failure;
use crate::inputs::Inputs;
use crate::options::{Common, Format};
use crate::places;
use crate::progress::Progress;
use crate::refused::refused_time;
use crate::series::Series;
use crate::time::Stamp;
use crate::write::rows::{self, Field};
use crate::write::{self, Number, is_named};

/// Writes the nearest reading of each series.
pub fn run(common: &Common, asked: Stamp) -> Result<(), Failure> {
    places::distinct(common)?;
    let read = |progress: &Progress| Inputs::read(common, progress);
    let Inputs { series, notes, .. } = Progress::default().shown(read)?;
    let found = series.iter().map(|series| {
        let found = nearest(&series.times, asked.0);
        found.map_err(|refusal| refused_time(series, asked, refusal))
    });
    let found = found.collect::<Result<Vec<_>, _>>()?;
    let found: Vec<_> = series.iter().zip(found).collect();
    write::with_notes(common, &notes, |out| all(&found, asked, common, out))
}

const HEADERS: [&str; 5] = ["name", "index", "time", "value", "distance"];

/// A row for each series, which has nothing where there is no reading.
fn all(
    found: &[(&Series, Option<usize>)],
    asked: Stamp,
    common: &Common,
    out: &mut impl Write,
) -> io::Result<()> {
    let rows = found.iter().map(|(series, index)| row(series, *index, asked.0, common));
    match common.format {
        Format::Csv => {
            rows::csv(HEADERS, is_named(found.iter().map(|(series, _)| *series)), rows, out)
        }
        Format::Json => rows::json(HEADERS, rows, out),
        Format::Text => {
            let Stamp(at, form) = asked;
            writeln!(out, "nearest to {}", Stamp(at, common.times.unwrap_or(form)))?;
            rows::table(HEADERS, true, rows, out)?;
            writeln!(out)
        }
    }
}

fn row<'a>(
    series: &'a Series,
    index: Option<usize>,
    asked: i64,
    common: &Common,
) -> [Field<'a>; 5] {
    let name = Field::Name(&series.title);
    let Some(index) = index else {
        return [name, Field::Nothing, Field::Nothing, Field::Nothing, Field::Nothing];
    };
    let time = series.times[index];
    [
        name,
        Field::Index(index),
        Field::Time(Stamp(time, common.form(series))),
        Field::Value(Number(series.values[index], common.decimals)),
        Field::Length((time - asked).abs()),
    ]
}
