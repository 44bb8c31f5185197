//! One long series is shared among the jobs, and what comes of it does not depend on their number.

mod common;

use common::{Folder, figures_in};

/// Readings about a minute apart, in one file of one series.
fn long(folder: &Folder, readings: i64) {
    let line = |k: i64| format!("{},{}\n", k * 60_000 + k * k % 977, k * 7919 % 1009 % 40 - 4);
    folder.write("long.csv", &(0..readings).map(line).collect::<String>());
}

/// The output, and how many jobs a series had at the most.
fn run(folder: &Folder, line: &str) -> (String, String) {
    let outcome = figures_in(folder.path(), &format!("{line} --stats long.csv"), b"");
    assert_eq!(outcome.status, 0, "{outcome:?}");
    let jobs = outcome.errors.lines().find_map(|line| line.split_once(" jobs for a series"));
    let (_, jobs) = jobs.unwrap().0.rsplit_once(' ').unwrap();
    (outcome.output, jobs.into())
}

#[test]
fn every_number_of_jobs_gives_the_same_bytes() {
    let folder = Folder::new("sharing");
    long(&folder, 6000);
    for (rollup, pre) in [
        ("median", "none"),
        ("stddev", "delta"),
        ("quantile(0.3)", "deriv"),
        ("changes", "resets"),
        ("avg", "intervals"),
        ("increase_pure", "resets_once"),
    ] {
        let of = |jobs: u32| {
            let settings = format!("--step 1m --window 3d --start 0 --pre {pre} --readings");
            run(&folder, &format!("--rollup {rollup} {settings} --jobs {jobs}"))
        };
        let (one, alone) = of(1);
        assert_eq!(alone, "1");
        for jobs in [2, 3, 7] {
            assert_eq!(of(jobs), (one.clone(), jobs.min(3).to_string()), "{rollup}");
        }
    }
}

/// A run that is little more than a pass over the readings is not shared: each job would make the
/// pass again, in memory of its own.
#[test]
fn a_light_run_is_not_shared() {
    let folder = Folder::new("light");
    long(&folder, 6000);
    assert_eq!(run(&folder, "--rollup median --step 1h --jobs 7").1, "1");
    assert_eq!(run(&folder, "--rollup median --step 1m --window 1h --jobs 7").1, "1");
}
