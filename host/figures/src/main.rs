//! The command `figures`: figures from files of readings.

mod answer;
mod arguments;
mod closed;
mod columns;
mod crossings;
mod demo;
mod ended;
mod explain;
mod failure;
mod fields;
mod files;
mod given;
mod inputs;
mod jobs;
mod joined;
mod list;
mod merge;
mod nearest;
mod options;
mod output;
mod places;
mod plain;
mod plot;
mod progress;
mod read;
mod readings;
mod refused;
mod rollups;
mod say;
mod series;
mod text;
mod time;
mod write;

use std::env;
use std::process::ExitCode;
use std::time::{Duration, Instant};

use answer::Answer;
use arguments::{Command, HELP};
use failure::Failure;
use files::Files;
use inputs::Inputs;
use options::Options;
use progress::Progress;
use say::{put, say};
use text::excerpt;

fn main() -> ExitCode {
    let arguments: Result<Vec<String>, _> =
        env::args_os().skip(1).map(|argument| argument.into_string()).collect();
    let command = match arguments {
        Ok(arguments) => arguments::parse(arguments.into_iter()),
        Err(other) => {
            let found = excerpt(&other.to_string_lossy());
            Err(Failure::Usage(format!("expected UTF-8 text, found {found}")))
        }
    };
    match command.and_then(run) {
        Ok(()) => ExitCode::SUCCESS,
        Err(failure) => {
            say(&failure);
            failure.status()
        }
    }
}

fn run(command: Command) -> Result<(), Failure> {
    match command {
        Command::Figures(options) => figures(&options),
        Command::Explain(options, at) => explain(&options, at),
        Command::Crossings(common, limit) => crossings::run(&common, limit),
        Command::Nearest(common, asked) => nearest::run(&common, asked),
        Command::Merge(common) => merge::run(&common),
        Command::Readings(common, format) => readings::run(&common, format),
        Command::List => output::text(&list::text()),
        Command::Demo(plot) => demo::run(&plot),
        Command::Help => output::text(HELP),
        Command::Version => output::text(concat!("figures ", env!("CARGO_PKG_VERSION"), "\n")),
    }
}

fn figures(options: &Options) -> Result<(), Failure> {
    places::distinct(&options.common)?;
    let (answers, notes, reading) = Progress::default().shown(|progress| {
        let Inputs { series, notes, reading } = Inputs::read(&options.common, progress)?;
        let parts = series.len() * options.rollups.len();
        plot::fits(&options.common, parts, "series and rollups")?;
        Ok((answer::all(series, options, progress)?, notes, reading))
    })?;
    let begin = Instant::now();
    let mut files = Files::default();
    if let Some(path) = &options.common.plot {
        plot::write(path, &[(&answers, options)], &mut files)?;
    }
    write::figures(&answers, options, &mut files)?;
    files.put()?;
    notes.iter().for_each(say);
    answer::taken_out(&answers, &options.rollups).iter().for_each(say);
    if options.stats {
        stats(&answers, reading, begin.elapsed());
    }
    Ok(())
}

fn explain(options: &Options, at: i64) -> Result<(), Failure> {
    let Inputs { series, notes, .. } = Inputs::read(&options.common, &Progress::default())?;
    let texts = series.iter().map(|series| explain::text(series, options, at));
    output::text(&texts.collect::<Result<Vec<_>, _>>()?.join("\n"))?;
    notes.iter().for_each(say);
    Ok(())
}

/// Sizes and times on standard error; with several jobs, times are summed over them.
fn stats(answers: &[Answer], reading: Duration, writing: Duration) {
    let readings = answers.iter().map(|answer| answer.readings).sum();
    let readings = answer::sum(readings, answers.iter().map(|answer| answer.marks).sum());
    let figures: usize = answers.iter().flat_map(|a| &a.figures).map(Vec::len).sum();
    let count: u64 = answers.iter().map(|answer| answer.count).sum();
    let jobs = answers.iter().map(|answer| answer.jobs).max().unwrap_or(1);
    let core: Duration = answers.iter().map(|answer| answer.core).sum();
    let [reading, core, writing] = [reading, core, writing].map(|time| time.as_secs_f64());
    put(&format!(
        "{} series, {readings}, {figures} figures, {count} scanned\n\
         reading {reading:.3} s, core {core:.3} s, writing {writing:.3} s, up to {jobs} jobs for a \
         series\n",
        answers.len()
    ));
}
