//! A run shared among threads gives the bytes, the count and the refusals of the run that it is.

use std::collections::HashSet;
use std::num::NonZero;
use std::process::Command;
use std::sync::atomic::{AtomicUsize, Ordering::Relaxed};
use std::sync::{Condvar, Mutex};
use std::time::Duration;
use std::{env, thread};

use harzoulin::{Figures, MOST, ROLLUPS, Refusal, Rollup, Settings, Step, Workspace};

const JOBS: [usize; 4] = [1, 2, 3, 7];

/// All of an answer, to the bit: the figures, the remaining times, the prepared values and the count.
type Bits = Result<(Vec<u64>, Vec<i64>, Vec<u64>, u64), Refusal>;

fn bits(figures: Result<Figures, Refusal>) -> Bits {
    let list = |numbers: &[f64]| numbers.iter().map(|number| number.to_bits()).collect();
    figures.map(|run| (list(run.values), run.timestamps.to_vec(), list(run.prepared), run.count))
}

/// What a run is handed.
#[derive(Clone, Debug)]
struct Call {
    times: Vec<i64>,
    values: Vec<f64>,
    pre: Step,
    rollup: Rollup,
    settings: Settings,
}

impl Call {
    fn whole(&self, workspace: &mut Workspace) -> Bits {
        bits(workspace.run(&self.times, &self.values, self.pre, self.rollup, &self.settings))
    }

    /// The answer of so many jobs, and how many output times were told to be worked out.
    fn shared(&self, workspace: &mut Workspace, jobs: usize) -> (Bits, usize) {
        let told = AtomicUsize::new(0);
        let done = |more| {
            told.fetch_add(more, Relaxed);
        };
        let Call { times, values, pre, rollup, settings } = self;
        let jobs = NonZero::new(jobs).unwrap();
        let run = workspace.run_shared(times, values, *pre, *rollup, settings, jobs, &done);
        (bits(run), told.load(Relaxed))
    }

    #[track_caller]
    fn same_for_every_number_of_jobs(&self, workspace: &mut Workspace) {
        let whole = self.whole(workspace);
        let points = whole.as_ref().map_or(0, |(figures, ..)| figures.len());
        for jobs in JOBS {
            let shared = self.shared(workspace, jobs);
            assert!(shared == (whole.clone(), points), "{jobs} jobs, {self:?}");
        }
    }
}

/// Readings about a minute apart with a gap, restarts and equal values, and a grid that begins
/// before them and ends after.
fn call(readings: i64) -> Call {
    let times = (0..readings).map(|k| k * 60_000 + k * k % 977 + k / 100 * 3_600_000).collect();
    let values = (0..readings).map(|k| (k * 7919 % 1009 % 40) as f64 - 4.5).collect();
    let settings = Settings {
        start: -500_000,
        end: readings * 75_000,
        step: 120_000,
        window: 600_000,
        ..Settings::default()
    };
    Call { times, values, pre: Step::None, rollup: Rollup::Median, settings }
}

/// The steps that a rollup takes.
fn steps(rollup: Rollup) -> impl Iterator<Item = Step> {
    Step::ALL.into_iter().filter(move |pre| *pre == Step::None || !rollup.sees_marks())
}

#[test]
fn every_rollup_and_step() {
    let mut workspace = Workspace::new();
    let mut call = call(300);
    for (number, about) in ROLLUPS.iter().enumerate() {
        call.rollup = match about.parameters.len() {
            0 => about.name.parse().unwrap(),
            1 => format!("{}(0.3)", about.name).parse().unwrap(),
            _ => format!("{}(0.3, 0.6)", about.name).parse().unwrap(),
        };
        for pre in steps(call.rollup) {
            call.pre = pre;
            call.settings.samples_scanned_per_call = number as u64 % 3;
            assert!(call.whole(&mut workspace).is_ok(), "{about}");
            call.same_for_every_number_of_jobs(&mut workspace);
        }
    }
}

/// Of readings of one time every window holds all or none, in whichever job it is.
#[test]
fn equal_times() {
    let mut workspace = Workspace::new();
    let mut call = call(300);
    for run in [2, 7, 50, 300] {
        for place in (0..300).filter(|place| place % run != 0) {
            call.times[place] = call.times[place - 1];
        }
        for rollup in [Rollup::Count, Rollup::Ideriv, Rollup::Default, Rollup::UntilNext] {
            call.rollup = rollup;
            assert!(call.whole(&mut workspace).is_ok());
            call.same_for_every_number_of_jobs(&mut workspace);
        }
    }
}

/// Windows and grids of all kinds: of a window that is settled, of one output time, of as many as
/// jobs and one fewer, and of a step that does not meet the end.
#[test]
fn every_grid() {
    let mut workspace = Workspace::new();
    let whole = call(300);
    for points in [1, 2, 3, 6, 7, 8, 150] {
        for window in [0, 1, 90_000, 1 << 50] {
            let mut call = whole.clone();
            call.settings.window = window;
            call.settings.may_adjust_window = points % 2 == 0;
            call.settings.end = call.settings.start + points * call.settings.step - 1;
            call.same_for_every_number_of_jobs(&mut workspace);
        }
    }
}

#[test]
fn an_empty_series() {
    let mut call = call(0);
    call.settings.end = 100_000_000;
    for rollup in [Rollup::Absent, Rollup::Avg, Rollup::Median] {
        call.rollup = rollup;
        call.same_for_every_number_of_jobs(&mut Workspace::new());
    }
}

/// Refused as the run is, without a word of progress and without memory.
#[test]
fn refusals() {
    let good = call(50);
    let with = |change: &dyn Fn(&mut Call)| {
        let mut call = good.clone();
        change(&mut call);
        call
    };
    let calls = [
        (1, with(&|call| call.values.truncate(49))),
        (2, with(&|call| (call.times, call.values) = (vec![0; MOST + 1], vec![0.0; MOST + 1]))),
        (3, with(&|call| call.times[49] = 1 << 51)),
        (4, with(&|call| call.times[7] = call.times[6] - 1)),
        (5, with(&|call| (call.values[31], call.settings.step) = (f64::NAN, 0))),
        (5, with(&|call| call.values[31] = f64::INFINITY)),
        (6, with(&|call| call.settings.step = 0)),
        (7, with(&|call| (call.settings.start, call.settings.end) = (i64::MIN, i64::MAX))),
        (8, with(&|call| call.settings.window = -1)),
        (9, with(&|call| call.settings.samples_scanned_per_call = 65_536)),
        (10, with(&|call| call.settings.max_points_per_series = 1)),
        (11, with(&|call| (call.settings.end, call.settings.step) = (MOST as i64, 1))),
        (19, with(&|call| (call.rollup, call.pre) = (Rollup::Default, Step::Delta))),
    ];
    for (number, call) in calls {
        let mut workspace = Workspace::new();
        let whole = call.whole(&mut workspace);
        assert_eq!(whole.as_ref().map_err(|refusal| refusal.number()), Err(number));
        call.same_for_every_number_of_jobs(&mut workspace);
        assert_eq!(workspace.bytes(), 0, "{number}");
    }
}

/// Each thread has its own prepared, remaining and work slice, and they are kept for the next run.
#[test]
fn memory() {
    let call = call(1000);
    let mut workspace = Workspace::new();
    let (answer, points) = call.shared(&mut workspace, 3);
    let bytes = workspace.bytes();
    assert_eq!(bytes, 8 * (points + 3 * 4 * 1000));
    assert_eq!(call.shared(&mut workspace, 2), (answer, points));
    assert_eq!(workspace.bytes(), bytes);
}

/// A thread that has worked out a stretch waits until three have.
#[test]
fn threads_share_the_work() {
    let (met, all) = (Mutex::new(HashSet::new()), Condvar::new());
    let done = |_| {
        let mut met = met.lock().unwrap();
        met.insert(thread::current().id());
        all.notify_all();
        let wait = Duration::from_secs(20);
        let (_met, wait) = all.wait_timeout_while(met, wait, |met| met.len() < 3).unwrap();
        assert!(!wait.timed_out());
    };
    let Call { times, values, pre, rollup, settings } = &call(300);
    let (mut workspace, jobs) = (Workspace::new(), NonZero::new(3).unwrap());
    workspace.run_shared(times, values, *pre, *rollup, settings, jobs, &done).unwrap();
}

/// Runs a test of this file again, in a shell that has done something before.
fn again(name: &str, before: &str) {
    let line = format!("{before}; AGAIN=1 exec \"$0\" --test-threads=1 --exact {name}");
    let program = env::current_exe().unwrap();
    let run = Command::new("sh").arg("-c").arg(line).arg(program).output().unwrap();
    let text = String::from_utf8_lossy(&run.stdout);
    assert!(run.status.success() && text.contains("1 passed"), "{text}\n{run:?}");
}

/// In a process where no thread can have the stack that is asked for.
#[test]
fn threads_that_cannot_start() {
    if env::var_os("AGAIN").is_none() {
        return again("threads_that_cannot_start", "export RUST_MIN_STACK=70368744177664");
    }
    assert!(thread::Builder::new().spawn(|| ()).is_err());
    call(300).same_for_every_number_of_jobs(&mut Workspace::new());
}

/// In a process that has memory for some of the jobs: each needs 64 megabytes.
#[test]
fn threads_that_cannot_have_their_memory() {
    if env::var_os("AGAIN").is_none() {
        return again("threads_that_cannot_have_their_memory", "ulimit -v 250000");
    }
    let mut call = call(2_000_000);
    call.settings.step = 1_000_000_000;
    call.same_for_every_number_of_jobs(&mut Workspace::new());
}
