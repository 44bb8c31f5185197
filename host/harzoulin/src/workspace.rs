//! The memory that calls are lent, kept from one call to the next.

use std::collections::TryReserveError;
use std::num::NonZero;

use crate::marks::{remaining, remaining_count};
use crate::settings::points;
use crate::shared::Shared;
use crate::{Refusal, Rollup, Settings, SettledSettings, Step, lent};

/// Owns the lent slices. They grow to what the longest series and grid needed, so that a workspace
/// used for thousands of series of one length allocates once. A call that is refused for its series
/// or its settings leaves them as they are.
#[derive(Clone, Debug, Default)]
pub struct Workspace {
    output: Vec<f64>,
    room: Room,
    /// For the threads beside the caller's own.
    others: Vec<Room>,
}

/// The answer of a run.
#[derive(Clone, Copy, Debug, PartialEq)]
pub struct Figures<'a> {
    /// One figure for each output time.
    pub values: &'a [f64],
    /// The times of the readings that figures are made of: all for a rollup that sees marks, for the
    /// others those that are no marks.
    pub timestamps: &'a [i64],
    /// The values of those readings after the preparing step, as many.
    pub prepared: &'a [f64],
    /// How many those readings are, and for each output time how many were scanned.
    pub count: u64,
}

impl Workspace {
    /// A workspace that owns nothing yet.
    pub fn new() -> Workspace {
        Workspace::default()
    }

    /// The bytes that it owns.
    pub fn bytes(&self) -> usize {
        let rooms = self.others.iter().chain([&self.room]);
        self.output.capacity() * size_of::<f64>() + rooms.map(Room::bytes).sum::<usize>()
    }

    /// The values after a preparing step. A [`STALE`](crate::STALE) among the values is refused, as any
    /// NaN: a run, which takes them, has the prepared values of the readings that remain.
    pub fn prepare(
        &mut self,
        timestamps: &[i64],
        values: &[f64],
        pre: Step,
    ) -> Result<&[f64], Refusal> {
        let prepared = &mut self.room.prepared;
        let mut answer = lent::prepare(timestamps, values, pre, prepared);
        if answer == Err(Refusal::Prepared) {
            grow(prepared, timestamps.len());
            answer = lent::prepare(timestamps, values, pre, prepared);
        }
        answer.map(|()| &self.room.prepared[..timestamps.len()])
    }

    /// One figure for each output time of the settings' grid. Values may be [`STALE`](crate::STALE).
    ///
    /// ```
    /// use harzoulin::{Rollup, STALE, Settings, Step, Workspace};
    ///
    /// let (timestamps, values) = ([0, 60_000, 120_000], [10.0, STALE, 12.0]);
    /// let settings = Settings { start: 120_000, end: 120_000, ..Settings::default() };
    /// let mut workspace = Workspace::new();
    /// let run = workspace.run(&timestamps, &values, Step::Delta, Rollup::Max, &settings)?;
    /// assert_eq!((run.values, run.count), (&[2.0][..], 4));
    /// assert_eq!((run.timestamps, run.prepared), (&[0, 120_000][..], &[2.0, 2.0][..]));
    /// # Ok::<(), harzoulin::Refusal>(())
    /// ```
    pub fn run(
        &mut self,
        timestamps: &[i64],
        values: &[f64],
        pre: Step,
        rollup: Rollup,
        settings: &Settings,
    ) -> Result<Figures<'_>, Refusal> {
        let points = || points(settings.start, settings.end, settings.step);
        self.lend(values, (pre, rollup), points, |slices| {
            lent::run(timestamps, values, pre, rollup, settings, slices)
        })
    }

    /// As [`run`](Workspace::run), with window and reach given, settled on the times that the rollup sees:
    /// [`remaining`](crate::remaining).
    pub fn settled_run(
        &mut self,
        timestamps: &[i64],
        values: &[f64],
        pre: Step,
        rollup: Rollup,
        settings: &SettledSettings,
    ) -> Result<Figures<'_>, Refusal> {
        let points = || points(settings.start, settings.end, settings.step);
        self.lend(values, (pre, rollup), points, |slices| {
            lent::settled_run(timestamps, values, pre, rollup, settings, slices)
        })
    }

    /// As [`run`](Workspace::run), bit for bit, worked out by so many threads, the caller's own
    /// among them: the grid is cut into stretches of about half a second of work.
    ///
    /// `done` is told, from any of the threads, how many more output times are worked out; over an
    /// accepted run they add up to its grid. Each thread needs a prepared, a remaining and a work slice,
    /// 32 bytes a reading. One that cannot start, or cannot have them, leaves its part to the others.
    ///
    /// ```
    /// # use std::num::NonZero;
    /// # use std::sync::atomic::{AtomicUsize, Ordering::Relaxed};
    /// # use harzoulin::{Rollup, Settings, Step, Workspace};
    /// # let (timestamps, values) = ([0, 60_000, 120_000], [10.0, 12.0, 2.0]);
    /// # let settings = Settings { end: 120_000, step: 60_000, ..Settings::default() };
    /// let (jobs, progress) = (NonZero::new(2).unwrap(), AtomicUsize::new(0));
    /// let done = |more| {
    ///     progress.fetch_add(more, Relaxed);
    /// };
    /// let (step, rollup) = (Step::None, Rollup::Max);
    /// let mut workspace = Workspace::new();
    /// let run = workspace.run_shared(&timestamps, &values, step, rollup, &settings, jobs, &done)?;
    /// assert_eq!((run.values, run.count), (&[10.0, 12.0, 2.0][..], 6));
    /// assert_eq!(progress.into_inner(), 3);
    /// # Ok::<(), harzoulin::Refusal>(())
    /// ```
    #[expect(clippy::too_many_arguments, reason = "those of a run, and two for the threads")]
    pub fn run_shared(
        &mut self,
        timestamps: &[i64],
        values: &[f64],
        pre: Step,
        rollup: Rollup,
        settings: &Settings,
        jobs: NonZero<usize>,
        done: &(dyn Fn(usize) + Sync),
    ) -> Result<Figures<'_>, Refusal> {
        // Lent no slices, a run is refused for these only if its series and settings are accepted.
        let (output, prepared) = (&mut [], &mut []);
        let nothing = &mut lent::Slices { output, prepared, remaining: &mut [], work: &mut [] };
        match lent::run(timestamps, values, pre, rollup, settings, nothing) {
            Ok(_) | Err(Refusal::Output) => step_of_marks(pre, rollup)?,
            Err(refusal) => return Err(refusal),
        }
        let settled = lent::settle(&remaining(timestamps, values, rollup), settings)?;
        let (readings, points) = (timestamps.len(), settled.points);
        let threads = jobs.get().min(points);
        grow(&mut self.output, points);
        self.room.grow(readings);
        let output = &mut self.output[..points];
        let settings = settings.settled(settled);
        let shared =
            Shared::new((timestamps, values), pre, rollup, settings, output, threads, done);
        let count = shared.count(&mut self.room, &mut self.others)?;
        Ok(self.figures(remaining_count(values, rollup), points, count))
    }

    /// What a call gives on the slices as they are, or on longer ones if it refuses these as too
    /// short.
    fn lend(
        &mut self,
        values: &[f64],
        (pre, rollup): (Step, Rollup),
        points: impl Fn() -> usize,
        call: impl Fn(&mut lent::Slices) -> Result<u64, Refusal>,
    ) -> Result<Figures<'_>, Refusal> {
        let count = match call(&mut self.room.slices(&mut self.output)) {
            Err(Refusal::Output | Refusal::Prepared | Refusal::Work) => {
                step_of_marks(pre, rollup)?;
                grow(&mut self.output, points());
                self.room.grow(values.len());
                call(&mut self.room.slices(&mut self.output))?
            }
            answer => answer?,
        };
        Ok(self.figures(remaining_count(values, rollup), points(), count))
    }

    /// The first entries of the slices.
    fn figures(&self, remaining: usize, points: usize, count: u64) -> Figures<'_> {
        let (values, room) = (&self.output[..points], &self.room);
        let (timestamps, prepared) = (&room.remaining[..remaining], &room.prepared[..remaining]);
        Figures { values, timestamps, prepared, count }
    }
}

/// The refusal that comes after those of slices that are too short, met before they grow.
fn step_of_marks(pre: Step, rollup: Rollup) -> Result<(), Refusal> {
    match rollup.sees_marks() && pre != Step::None {
        true => Err(Refusal::StepOfMarks),
        false => Ok(()),
    }
}

/// What a thread writes beside the output.
#[derive(Clone, Debug, Default)]
pub(crate) struct Room {
    prepared: Vec<f64>,
    remaining: Vec<i64>,
    work: Vec<f64>,
}

impl Room {
    fn bytes(&self) -> usize {
        let entries = self.prepared.capacity() + self.work.capacity();
        entries * size_of::<f64>() + self.remaining.capacity() * size_of::<i64>()
    }

    /// With an output, all that a run is lent.
    pub(crate) fn slices<'a>(&'a mut self, output: &'a mut [f64]) -> lent::Slices<'a> {
        let Room { prepared, remaining, work } = self;
        lent::Slices { output, prepared, remaining, work }
    }

    /// Grows to what a series of so many readings needs.
    fn grow(&mut self, readings: usize) {
        grow(&mut self.prepared, readings);
        grow(&mut self.remaining, readings);
        grow(&mut self.work, 2 * readings);
    }

    /// Grows, if there is the memory.
    pub(crate) fn try_grow(&mut self, readings: usize) -> Result<(), TryReserveError> {
        self.prepared.try_reserve(readings.saturating_sub(self.prepared.len()))?;
        self.remaining.try_reserve(readings.saturating_sub(self.remaining.len()))?;
        self.work.try_reserve((2 * readings).saturating_sub(self.work.len()))?;
        self.grow(readings);
        Ok(())
    }
}

/// Grows a vector that has fewer entries.
fn grow<T: Clone + Default>(vector: &mut Vec<T>, length: usize) {
    if vector.len() < length {
        vector.resize(length, T::default());
    }
}
