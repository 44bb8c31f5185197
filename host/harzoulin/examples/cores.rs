//! What a second job gains: medians over 30 days, each hour, of a reading a minute, by `run` and by
//! `run_shared` on one job and on two. The readings may be fewer than two million:
//! `cargo run --release --example cores 200000`.

use std::env;
use std::num::NonZero;
use std::time::Instant;

use harzoulin::{Figures, Refusal, Rollup, Settings, Step, Workspace};

const MINUTE: i64 = 60_000;

/// The figures' bits and the count of a run, and the seconds that it took.
fn timed<'a>(
    run: impl FnOnce() -> Result<Figures<'a>, Refusal>,
) -> Result<((Vec<u64>, u64), f64), Refusal> {
    let begin = Instant::now();
    let run = run()?;
    let seconds = begin.elapsed().as_secs_f64();
    Ok(((run.values.iter().map(|figure| figure.to_bits()).collect(), run.count), seconds))
}

fn main() -> Result<(), Refusal> {
    let readings = env::args().nth(1).map_or(2_000_000, |text| text.parse().expect("a number"));
    let times: Vec<i64> = (0..readings).map(|reading| reading * MINUTE).collect();
    let values: Vec<f64> = (0..readings).map(|r| (r * 7919 % 100_003) as f64 / 64.0).collect();
    let settings = Settings {
        end: readings * MINUTE,
        step: 60 * MINUTE,
        window: 30 * 24 * 60 * MINUTE,
        ..Settings::default()
    };
    let (pre, rollup) = (Step::None, Rollup::Median);
    let mut workspace = Workspace::new();
    let (whole, alone) = timed(|| workspace.run(&times, &values, pre, rollup, &settings))?;
    println!("{} figures, run: {alone:.2} s", whole.0.len());
    for jobs in [1, 2] {
        let jobs = NonZero::new(jobs).expect("a job or more");
        let (shared, seconds) =
            timed(|| workspace.run_shared(&times, &values, pre, rollup, &settings, jobs, &|_| ()))?;
        assert!(shared == whole, "{jobs} jobs give what a run gives");
        println!("run_shared, {jobs} jobs: {seconds:.2} s, {:.2} times as fast", alone / seconds);
    }
    Ok(())
}
