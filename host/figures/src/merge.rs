//! One series from two logs, for each name that the two files have.

use std::collections::HashMap;
use std::io::{self, Write};

use harzoulin::merge;

use crate::failure::Failure;
use crate::inputs;
use crate::jobs::in_order;
use crate::options::Common;
use crate::places;
use crate::progress::Progress;
use crate::refused::refused_merge;
use crate::series::{self, Series};
use crate::time::Form;
use crate::write;
use crate::write::readings::{Readings, csv};

/// The series of two logs.
struct Merged {
    name: Option<String>,
    form: Form,
    times: Vec<i64>,
    values: Vec<f64>,
}

/// Writes the series of two files, those of one name merged.
pub fn run(common: &Common) -> Result<(), Failure> {
    places::distinct(common)?;
    let (merged, notes) = Progress::default().shown(|progress| {
        let (mut logs, mut notes) = (vec![], vec![]);
        for (log, _) in inputs::files(common, progress)? {
            notes.extend(log.notes);
            notes.extend(series::seconds(&log.series));
            logs.push(log.series);
        }
        let [first, second] = logs.try_into().expect("the command line has two files");
        let pairs = paired(first, second)?;
        let merged = in_order(common.jobs, pairs, |_, _, (one, other)| Merged::new(one, other))?;
        Ok((merged, notes))
    })?;
    write::with_notes(common, &notes, |out| all(&merged, common, out))
}

/// The two series of each name, in the order in which they begin; one of them is without readings
/// where a file has none of that name.
fn paired(
    mut first: Vec<Series>,
    mut second: Vec<Series>,
) -> Result<Vec<(Series, Series)>, Failure> {
    take_name(&mut first, &second)?;
    take_name(&mut second, &first)?;
    let empty = |series: &Series| Series::new(series.file(), series.name.clone(), series.form);
    let mut pairs: Vec<(Series, Series)> = vec![];
    let mut places: HashMap<Option<String>, usize> = HashMap::new();
    for series in first {
        places.insert(series.name.clone(), pairs.len());
        let other = empty(&series);
        pairs.push((series, other));
    }
    for series in second {
        match places.get(&series.name) {
            Some(place) => pairs[*place].1 = series,
            None => pairs.push((empty(&series), series)),
        }
    }
    Ok(pairs)
}

/// A file without names takes the name of the other's only series. Among several it could be any,
/// unless it has no readings.
fn take_name(file: &mut [Series], other: &[Series]) -> Result<(), Failure> {
    let [own @ Series { name: None, .. }] = file else { return Ok(()) };
    if other.len() > 1 && !own.times.is_empty() {
        let (file, other, count) = (own.file(), other[0].file(), other.len());
        let message = format!("{file}: expected names, since {other} has {count} series");
        return Err(Failure::Input(message));
    }
    own.name = other[0].name.clone();
    Ok(())
}

fn all(merged: &[Merged], common: &Common, out: &mut impl Write) -> io::Result<()> {
    let named = merged.iter().any(|series| series.name.is_some());
    csv(named, merged.iter().map(|series| series.readings(common)), out)
}

impl Merged {
    fn new(first: Series, second: Series) -> Result<Merged, Failure> {
        let merged = merge(&first.times, &first.values, &second.times, &second.values);
        let (times, values) = merged.map_err(|refusal| refused_merge(&first, &second, refusal))?;
        let form = if first.times.is_empty() { second.form } else { first.form };
        Ok(Merged { name: first.name, form, times, values })
    }

    fn readings(&self, common: &Common) -> Readings<'_> {
        let name = self.name.as_deref().unwrap_or_default();
        let form = common.times.unwrap_or(self.form);
        Readings { name, form, times: &self.times, values: &self.values }
    }
}
