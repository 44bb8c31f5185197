//! The series that ship with the command: a table of each and one picture of all.

use std::io::Write;

use harzoulin::Workspace;

use crate::answer::Answer;
use crate::arguments::{self, Command};
use crate::failure::Failure;
use crate::files::Files;
use crate::options::Options;
use crate::progress::Progress;
use crate::{output, plot, read, write};

/// The text of each series, the options that work its figures out, and the unit of its values.
const SERIES: [(&[u8], &str, &str); 3] = [
    (
        include_bytes!("../../../data/drive.csv"),
        "--pre resets_once --rollup increase_pure --step 7d --start 2026-03-09 --times rfc3339 --format text data/drive.csv",
        "m",
    ),
    (
        include_bytes!("../../../data/cartridge.csv"),
        "--quantile 0.9 --step 30d --times rfc3339 --decimals 1 --format text data/cartridge.csv",
        "errors",
    ),
    (
        include_bytes!("../../../data/climate.csv"),
        "--rollup avg --step 1d --decimals 2 --format text data/climate.csv",
        "°C",
    ),
];

/// Writes the tables to standard output, each under the line that a person can type for it, and the
/// picture to a file.
pub fn run(picture: &str) -> Result<(), Failure> {
    let series: Result<Vec<_>, _> =
        SERIES.into_iter().map(|(text, line, unit)| answers(text, line, unit, picture)).collect();
    let series = series?;
    let drawn: Vec<_> = series.iter().map(|(answers, options)| (&answers[..], options)).collect();
    let mut files = Files::default();
    plot::write(picture, &drawn, &mut files)?;
    output::output(|out| {
        for ((answers, options), (_, line, _)) in series.iter().zip(SERIES) {
            writeln!(out, "$ host/run {line}")?;
            answers.iter().try_for_each(|answer| write::table(answer, options, out))?;
        }
        writeln!(out, "The picture is {picture}.")
    })?;
    files.put()
}

fn answers(
    text: &[u8],
    line: &str,
    unit: &str,
    picture: &str,
) -> Result<(Vec<Answer>, Options), Failure> {
    let arguments = line.split_whitespace().map(String::from);
    let Command::Figures(mut options) = arguments::parse(arguments)? else {
        unreachable!("the line names files and options only")
    };
    (options.common.unit, options.common.plot) = (unit.into(), Some(picture.into()));
    let progress = Progress::default();
    let common = &options.common;
    let input = read::csv(&common.files[0], text, &common.chosen, &progress)?;
    let mut workspace = Workspace::new();
    let answers = |series| Answer::new(&mut workspace, 1, series, &options, &progress);
    let answers = input.series.into_iter().map(answers);
    Ok((answers.collect::<Result<_, _>>()?, options))
}
