//! Figures as CSV.

use std::io::{self, Write};

use super::{Number, is_named};
use crate::answer::Answer;
use crate::columns::READINGS;
use crate::fields::written;
use crate::options::Options;
use crate::time::Stamp;

/// A header and a line for each output time.
pub fn all(answers: &[Answer], options: &Options, out: &mut impl Write) -> io::Result<()> {
    let named = is_named(answers.iter().map(|answer| &answer.series));
    write!(out, "{}time", if named { "name," } else { "" })?;
    for rollup in &options.rollups {
        write!(out, ",{}", written(&rollup.to_string()))?;
    }
    if options.readings {
        write!(out, ",{READINGS}")?;
    }
    writeln!(out)?;
    for answer in answers {
        let form = options.common.form(&answer.series);
        let name = if named { written(answer.name()) + "," } else { "".into() };
        for place in 0..answer.points() {
            write!(out, "{name}{}", Stamp(answer.time(place), form))?;
            for figures in &answer.figures {
                write!(out, ",{}", Number(figures[place], options.common.decimals))?;
            }
            if options.readings {
                write!(out, ",{}", answer.behind()[place])?;
            }
            writeln!(out)?;
        }
    }
    Ok(())
}
