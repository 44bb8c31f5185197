//! One run shared among threads. Its grid is cut into stretches, and each thread takes the next one
//! until none is left: a settled run over it, with the window and the reach of the whole.
//!
//! That the answers joined are those of the whole run is proved for every cut (`Rejoined` of
//! crates/claims/specs/Cut.antt), so neither the lengths of the stretches nor the order in which
//! they are worked out can be seen in the figures. Each stretch counts all readings that remain of the
//! series, which the whole run counts once.

use std::panic::resume_unwind;
use std::sync::Mutex;
use std::thread;
use std::time::{Duration, Instant};

use crate::marks::remaining_count;
use crate::workspace::Room;
use crate::{Refusal, Rollup, SettledSettings, Step, lent};

/// The work of a stretch: long beside a pass over the longest series, which each stretch begins
/// with, and short enough to show how far a run has come.
const STRETCH: Duration = Duration::from_millis(500);

/// A thread's first stretch is this part of its share of the grid, to see how long it takes.
const FIRST: usize = 64;

/// Parts of a share. A later stretch has up to a half of what is left for each thread, since it may
/// turn out to be longer than the last, but need not be shorter than an eighth of the whole share.
const LARGE: usize = 2;
const SMALL: usize = 8;

/// A run with all that its threads share.
pub(crate) struct Shared<'a> {
    series: (&'a [i64], &'a [f64]),
    /// How many of its readings the figures are made of.
    remaining: u64,
    pre: Step,
    rollup: Rollup,
    settings: SettledSettings,
    /// What no thread has taken yet.
    rest: Mutex<Stretch<'a>>,
    threads: usize,
    /// The output times of a thread, if all get as many.
    share: usize,
    done: &'a (dyn Fn(usize) + Sync),
}

/// A part of the grid: its first output time, and the output for as many as it has.
struct Stretch<'a> {
    start: i64,
    output: &'a mut [f64],
}

impl<'a> Shared<'a> {
    /// A run of which nothing is worked out. The output has one entry for each output time.
    pub(crate) fn new(
        series: (&'a [i64], &'a [f64]),
        pre: Step,
        rollup: Rollup,
        settings: SettledSettings,
        output: &'a mut [f64],
        threads: usize,
        done: &'a (dyn Fn(usize) + Sync),
    ) -> Shared<'a> {
        let share = output.len().div_ceil(threads);
        let rest = Mutex::new(Stretch { start: settings.start, output });
        let remaining = remaining_count(series.1, rollup) as u64;
        Shared { series, remaining, pre, rollup, settings, rest, threads, share, done }
    }

    /// Works all of it out, on this thread and the others, and gives the count of the whole run.
    /// This thread's first stretch is taken before any other can take it, so that the remaining times
    /// and their prepared values are in its room. The rooms of the others are taken from a store and
    /// put back.
    pub(crate) fn count(&self, own: &mut Room, store: &mut Vec<Room>) -> Result<u64, Refusal> {
        let stretch = self.take_first();
        let scanned = thread::scope(|scope| {
            let started = (1..self.threads).map_while(|_| {
                let room = store.pop().unwrap_or_default();
                thread::Builder::new().spawn_scoped(scope, || self.work_in(room)).ok()
            });
            let started: Vec<_> = started.collect();
            let own = self.work(own, stretch);
            started.into_iter().fold(own, |sum, thread| {
                let (room, scanned) = thread.join().unwrap_or_else(|panic| resume_unwind(panic));
                store.push(room);
                Ok(sum? + scanned?)
            })
        })?;
        Ok(self.remaining + scanned)
    }

    /// Works stretches out in a room and gives it back, with what was scanned. Without the memory
    /// for it none is taken.
    fn work_in(&self, mut room: Room) -> (Room, Result<u64, Refusal>) {
        let scanned = match room.try_grow(self.series.0.len()) {
            Ok(()) => self.work(&mut room, self.take_first()),
            Err(_) => Ok(0),
        };
        (room, scanned)
    }

    /// The first stretch of a thread.
    fn take_first(&self) -> Option<Stretch<'a>> {
        self.take(self.share.div_ceil(FIRST))
    }

    /// The next stretch, of so many output times if as many may be taken.
    fn take(&self, points: usize) -> Option<Stretch<'a>> {
        let mut rest = self.rest.lock().expect("nothing panics under this lock");
        let output = std::mem::take(&mut rest.output);
        let large = output.len() / self.threads / LARGE;
        let most = large.max(self.share.div_ceil(SMALL)).min(output.len());
        let (taken, left) = output.split_at_mut(points.min(most));
        let start = rest.start;
        rest.start += taken.len() as i64 * self.settings.step;
        rest.output = left;
        (!taken.is_empty()).then_some(Stretch { start, output: taken })
    }

    /// Works out a stretch, and then the next ones, until none is left. Gives what was scanned for
    /// their output times.
    fn work(&self, room: &mut Room, stretch: Option<Stretch>) -> Result<u64, Refusal> {
        let mut scanned = 0;
        let mut next = stretch;
        while let Some(stretch) = next {
            let (points, begin) = (stretch.output.len(), Instant::now());
            scanned += self.scanned(room, stretch)?;
            (self.done)(points);
            next = self.take(next_length(points, begin.elapsed()));
        }
        Ok(scanned)
    }

    /// Writes the figures of a stretch and gives what was scanned for its output times: its count
    /// without the readings that remain of the series.
    fn scanned(&self, room: &mut Room, stretch: Stretch) -> Result<u64, Refusal> {
        let (start, points) = (stretch.start, stretch.output.len());
        let end = start + (points as i64 - 1) * self.settings.step;
        let settings = SettledSettings { start, end, ..self.settings };
        let (times, values) = self.series;
        let slices = &mut room.slices(stretch.output);
        let count = lent::settled_run(times, values, self.pre, self.rollup, &settings, slices)?;
        Ok(count - self.remaining)
    }
}

/// The length of a thread's next stretch, going by the time that its last one took.
fn next_length(points: usize, took: Duration) -> usize {
    let length = points as f64 * (STRETCH.as_secs_f64() / took.as_secs_f64());
    (length as usize).max(1)
}
