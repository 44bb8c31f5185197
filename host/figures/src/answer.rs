//! The figures of a series, and of many.

use std::num::NonZero;
use std::time::{Duration, Instant};

use harzoulin::{Refusal, Rollup, Settings, Settled, Step, Workspace, remaining, settle};

use crate::failure::Failure;
use crate::jobs::in_order;
use crate::options::Options;
use crate::progress::Progress;
use crate::refused::{refused, refused_run};
use crate::series::{Series, first_of};

/// The windows over all readings, or over those that are no marks.
#[derive(Debug)]
pub struct Windows {
    /// The window and the reach in force.
    pub settled: Settled,
    /// How many of the readings are in the window of each output time, where that is asked for.
    pub behind: Vec<u32>,
}

/// The figures of one series.
#[derive(Debug)]
pub struct Answer {
    /// The series; without its readings where no picture is drawn.
    pub series: Series,
    /// The counter with its restarts added back, where it is drawn beside the readings that are no
    /// marks.
    pub corrected: Vec<f64>,
    /// How many readings it has.
    pub readings: usize,
    /// How many of them are staleness marks.
    pub marks: usize,
    /// The settings, with its grid.
    pub settings: Settings,
    /// The windows of the rollups that see no marks, and of those that do, where there are such.
    windows: [Option<Windows>; 2],
    /// For each rollup, one figure for each output time.
    pub figures: Vec<Vec<f64>>,
    /// The count of scanned readings.
    pub count: u64,
    /// How many jobs shared a run.
    pub jobs: usize,
    /// The time that the core took.
    pub core: Duration,
}

impl Answer {
    /// The figures of a series, with so many jobs to share.
    pub fn new(
        workspace: &mut Workspace,
        jobs: usize,
        series: Series,
        options: &Options,
        progress: &Progress,
    ) -> Result<Answer, Failure> {
        let settings = options.settings(&series)?;
        let begin = Instant::now();
        let refused = |refusal| refused(&series, &settings, refusal);
        let whole = settle(&series.times, &settings).map_err(refused)?;
        progress.expect(options.rollups.len() * whole.points);
        let worth = worth(series.times.len(), span(&series.times), whole);
        let shared = (worth > 1).then_some(worth.min(jobs)).and_then(NonZero::new);
        let (marks, mut windows) = (series.marks(), [None, None]);
        let mut run = Run { series: &series, settings, shared, workspace };
        let (mut figures, mut count) = (vec![], 0);
        for rollup in &options.rollups {
            let asked = (options.pre, *rollup);
            let refused = |refusal| refused_run(&series, &settings, asked, refusal);
            let (mut list, more) = run.figures(asked, progress).map_err(refused)?;
            count += more;
            let place = sees(marks, *rollup);
            let own: &mut Option<Windows> = &mut windows[place];
            if own.is_none() {
                *own = Some(run.windows(EACH[place], options).map_err(refused)?);
            }
            let behind = own.as_ref().map_or(&[][..], |windows| &windows.behind);
            leave_out(&mut list, behind, options.min_readings);
            figures.push(list);
        }
        let mut corrected = vec![];
        if options.draws_corrected() {
            corrected = run.prepared(options.pre).map_err(refused)?;
        }
        let (core, readings) = (begin.elapsed(), series.times.len());
        let jobs = shared.map_or(1, NonZero::get);
        Ok(Answer {
            series,
            corrected,
            readings,
            marks,
            settings,
            windows,
            figures,
            count,
            jobs,
            core,
        })
    }

    /// The windows of a rollup.
    pub fn windows(&self, rollup: Rollup) -> &Windows {
        let own = &self.windows[sees(self.marks, rollup)];
        own.as_ref().expect("those of each rollup are settled")
    }

    /// How many readings are in the windows: those that are no marks, unless all rollups see marks.
    pub fn behind(&self) -> &[u32] {
        self.windows.iter().flatten().next().map_or(&[], |windows| &windows.behind)
    }

    /// The lengths of the windows: those of rollups that see marks may be longer or shorter.
    pub fn lengths(&self) -> impl Iterator<Item = i64> {
        let lengths = self.windows.iter().flatten().map(|windows| windows.settled.window);
        let mut last = None;
        lengths.filter(move |length| last.replace(*length) != Some(*length))
    }

    /// How many output times there are.
    pub fn points(&self) -> usize {
        self.figures.first().map_or(0, Vec::len)
    }

    /// The output time of a figure.
    pub fn time(&self, place: usize) -> i64 {
        self.settings.start + place as i64 * self.settings.step
    }

    /// What the series is called.
    pub fn name(&self) -> &str {
        &self.series.title
    }

    /// How many readings it has, and how many of these are marks, if any.
    pub fn sum(&self) -> String {
        sum(self.readings, self.marks)
    }
}

/// How many readings there are, and how many of these are marks, if any.
pub fn sum(readings: usize, marks: usize) -> String {
    match marks {
        0 => format!("{readings} readings"),
        _ => format!("{readings} readings, {marks} of them staleness marks"),
    }
}

/// A note where marks were taken out of series, since not all rollups see them.
pub fn taken_out(answers: &[Answer], rollups: &[Rollup]) -> Option<String> {
    let found = answers.iter().filter(|answer| answer.marks > 0);
    let found: Vec<&Series> = found.map(|answer| &answer.series).collect();
    let first = first_of(&found).filter(|_| !rollups.iter().all(|rollup| rollup.sees_marks()))?;
    let count: usize = answers.iter().map(|answer| answer.marks).sum();
    Some(format!("{first}: staleness marks, which default and stale_samples alone see: {count}"))
}

/// A rollup that sees no marks, and one that does.
const EACH: [Rollup; 2] = [Rollup::Count, Rollup::StaleSamples];

/// The place of a rollup's windows. Without marks all rollups see the same.
fn sees(marks: usize, rollup: Rollup) -> usize {
    usize::from(marks > 0 && rollup.sees_marks())
}

/// Readings that a job scans at the least, beside so many passes over the series: less would not
/// pay for its pass and its memory.
const SCANNED: f64 = 1e7;
const PASSES: f64 = 16.0;

/// The runs of one series.
struct Run<'a> {
    series: &'a Series,
    settings: Settings,
    /// The jobs of a run that is worth sharing; also one job then tells how far it has come.
    shared: Option<NonZero<usize>>,
    workspace: &'a mut Workspace,
}

impl Run<'_> {
    /// The figures of a rollup and the count.
    fn figures(
        &mut self,
        (pre, rollup): (Step, Rollup),
        progress: &Progress,
    ) -> Result<(Vec<f64>, u64), Refusal> {
        let (times, values) = (&self.series.times, &self.series.values);
        let run = match self.shared {
            Some(jobs) => {
                let (settings, done) = (&self.settings, |more| progress.worked_out(more));
                self.workspace.run_shared(times, values, pre, rollup, settings, jobs, &done)?
            }
            None => {
                let run = self.workspace.run(times, values, pre, rollup, &self.settings)?;
                progress.worked_out(run.values.len());
                run
            }
        };
        Ok((run.values.to_vec(), run.count))
    }

    /// The values after a step, of the readings that are no marks.
    fn prepared(&mut self, pre: Step) -> Result<Vec<f64>, Refusal> {
        let (times, values) = (&self.series.times, &self.series.values);
        let one = Settings { end: self.settings.start, ..self.settings };
        let run = self.workspace.run(times, values, pre, Rollup::Count, &one)?;
        Ok(run.prepared.to_vec())
    }

    /// The windows of the rollups that see what one of them sees.
    fn windows(&mut self, rollup: Rollup, options: &Options) -> Result<Windows, Refusal> {
        let times = remaining(&self.series.times, &self.series.values, rollup);
        let settled = settle(&times, &self.settings)?;
        let mut behind = vec![];
        if options.counts_readings() {
            behind = self.counts(Rollup::Count, settled)?;
            if rollup.sees_marks() {
                let marks = self.counts(Rollup::StaleSamples, settled)?;
                behind.iter_mut().zip(marks).for_each(|(count, marks)| *count += marks);
            }
        }
        Ok(Windows { settled, behind })
    }

    /// How many readings, or marks, are in the window of each output time, by the core's own count. That
    /// of an empty window is NaN, which is 0 as a whole number.
    fn counts(&mut self, rollup: Rollup, settled: Settled) -> Result<Vec<u32>, Refusal> {
        let (times, values) = (&self.series.times, &self.series.values);
        let same = self.settings.settled(settled);
        let run = self.workspace.settled_run(times, values, Step::None, rollup, &same)?;
        Ok(run.values.iter().map(|count| *count as u32).collect())
    }
}

/// How many jobs are worth their while, going by how many readings the windows have if they are
/// spread evenly over the span of the series.
fn worth(readings: usize, span: i64, settled: Settled) -> usize {
    let (readings, points) = (readings as f64, settled.points as f64);
    let share = (settled.window as f64 / span as f64).min(1.0);
    1 + (readings * share * points / (SCANNED + PASSES * readings)) as usize
}

/// From the first time to the last.
fn span(times: &[i64]) -> i64 {
    times.last().zip(times.first()).map_or(0, |(last, first)| last - first)
}

/// Puts NaN where a figure is of fewer readings than are asked for.
fn leave_out(figures: &mut [f64], behind: &[u32], least: u32) {
    for (figure, behind) in figures.iter_mut().zip(behind) {
        if *behind < least {
            *figure = f64::NAN;
        }
    }
}

/// The figures of every series. The jobs share the series, and a long one where there are jobs left.
pub fn all(
    series: Vec<Series>,
    options: &Options,
    progress: &Progress,
) -> Result<Vec<Answer>, Failure> {
    in_order(options.common.jobs, series, |workspace, jobs, series| {
        let mut answer = Answer::new(workspace, jobs, series, options, progress)?;
        if options.common.plot.is_none() {
            (answer.series.times, answer.series.values) = (vec![], vec![]);
        }
        Ok(answer)
    })
}
