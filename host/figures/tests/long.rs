//! Thirty years of a reading a minute: 15.8 million readings, read, settled, run and written
//! within the memory that one series needs. With `--nocapture` it prints how long that took beside
//! the core alone, and what a second job gains where windows overlap:
//! `cargo test --offline --release --test long -- --ignored --nocapture --test-threads=1`.

mod common;

use std::fs::File;
use std::io::{BufWriter, Write};
use std::process::Command;
use std::time::Instant;

use harzoulin::{MOST, Rollup, Settings, Step, Workspace};

const READINGS: i64 = 15_800_000;

/// Kilobytes of address space: the readings, the prepared values, the remaining times, the work slice
/// and the figures are 8 bytes × (2 + 1 + 1 + 2 + 1) a reading; growing vectors may hold half as much
/// again.
const MEMORY: u64 = 1_500_000;

const MINUTE: i64 = 60_000;
const DAY: i64 = 1440 * MINUTE;

fn reading(place: i64) -> (i64, f64) {
    (788_918_400_000 + place * MINUTE, (place * 7919 % 100_003) as f64 / 64.0)
}

/// Writes so many readings to long.csv.
fn write(folder: &common::Folder, readings: i64) {
    log(folder, "long.csv", (0..readings).map(reading));
}

/// Writes readings to a file.
fn log(folder: &common::Folder, name: &str, readings: impl Iterator<Item = (i64, f64)>) {
    let mut file = BufWriter::new(File::create(folder.path().join(name)).unwrap());
    for (time, value) in readings {
        writeln!(file, "{time},{value}").unwrap();
    }
    file.flush().unwrap();
}

/// The seconds and the sizes and times of a run that writes out.csv.
fn run(folder: &common::Folder, options: &str) -> (f64, String) {
    bounded(folder, &format!("{options} --stats"), MEMORY)
}

/// The seconds and standard error of a command that writes out.csv in so many kilobytes.
fn bounded(folder: &common::Folder, options: &str, memory: u64) -> (f64, String) {
    let line = format!(
        "ulimit -v {memory}; exec {} {options} --output out.csv long.csv",
        env!("CARGO_BIN_EXE_figures")
    );
    let begin = Instant::now();
    let run = Command::new("sh").args(["-c", &line]).current_dir(folder.path()).output().unwrap();
    let seconds = begin.elapsed().as_secs_f64();
    let stats = String::from_utf8(run.stderr).unwrap();
    assert!(run.status.success(), "{stats}");
    (seconds, stats)
}

#[test]
#[ignore = "takes some seconds and half a gigabyte of disk"]
fn thirty_years() {
    let folder = common::Folder::new("long");
    write(&folder, READINGS);
    for (name, step, figures) in [("1d", DAY, READINGS / 1440 + 2), ("1m", MINUTE, READINGS)] {
        for jobs in [1, 2] {
            let line = format!("--rollup avg --step {name} --jobs {jobs}");
            let (seconds, stats) = run(&folder, &line);
            assert!(stats.starts_with(&format!("1 series, {READINGS} readings, ")), "{stats}");
            let lines = folder.read("out.csv").lines().count() as i64;
            assert!((lines - 1 - figures).abs() <= 1, "{lines}");
            let rate = READINGS as f64 / seconds / 1e6;
            println!("{line}: {seconds:.2} s, {rate:.1} million readings a second\n{stats}");
        }
        println!("harzoulin_run alone, in memory at hand: {:.3} s\n", core(step));
    }
}

/// A mark in place of every thousandth reading: the times that remain are copied to be settled on.
#[test]
#[ignore = "takes some seconds and half a gigabyte of disk"]
fn thirty_years_with_marks() {
    let folder = common::Folder::new("marks");
    let mut file = BufWriter::new(File::create(folder.path().join("long.csv")).unwrap());
    for (place, (time, value)) in (0..READINGS).map(|place| (place, reading(place))) {
        match place % 1000 {
            999 => writeln!(file, "{time},stale").unwrap(),
            _ => writeln!(file, "{time},{value}").unwrap(),
        }
    }
    file.flush().unwrap();
    let line = "--rollup stale_samples --rollup avg --step 1d --readings --jobs 2";
    let (seconds, stats) = run(&folder, line);
    let marks = READINGS / 1000;
    let sum = format!("1 series, {READINGS} readings, {marks} of them staleness marks, ");
    assert!(stats.contains(&sum), "{stats}");
    let text = folder.read("out.csv");
    let counted = text.lines().skip(1).map(|line| line.split(',').nth(1).unwrap());
    let counted: f64 = counted.map(|count| count.parse::<f64>().unwrap()).sum();
    assert_eq!(counted, marks as f64);
    println!("{line}: {seconds:.2} s\n{stats}");
}

/// Crossings need no more memory than the readings, where they are few, and the picture is small.
#[test]
#[ignore = "takes some seconds and half a gigabyte of disk"]
fn crossings_of_thirty_years() {
    let folder = common::Folder::new("crossed");
    write(&folder, READINGS);
    let values: Vec<f64> = (0..READINGS).map(|place| reading(place).1).collect();
    for limit in [1562.0, 780.0] {
        let line = format!("crossings --limit {limit} --plot out.svg");
        let (seconds, said) = bounded(&folder, &line, MEMORY / 2);
        let crossed = values.windows(2).filter(|pair| (pair[0] < limit) != (pair[1] < limit));
        assert_eq!(folder.read("out.csv").lines().count(), 1 + crossed.count());
        assert_eq!((said.as_str(), folder.read("out.svg").len() < 200_000), ("", true));
        println!("{line}: {seconds:.2} s");
    }
    let (seconds, _) = bounded(&folder, "nearest --at 2010-05-05T01:02:03Z", MEMORY / 2);
    assert!(folder.read("out.csv").ends_with("\n8068382,1273021320000,4.84375,3000\n"));
    println!("nearest: {seconds:.2} s");
}

/// Two logs that share every other time, with as many times together as a series may have, and with
/// one more, which is said before the values that differ.
#[test]
#[ignore = "takes some seconds and a gigabyte of disk"]
fn two_logs() {
    let folder = common::Folder::new("logs");
    let logs = |times: i64, apart: f64| {
        let but = |left_out| (0..times).filter(move |place| place % 4 != left_out).map(reading);
        log(&folder, "long.csv", but(1));
        log(&folder, "other.csv", but(3).map(|(time, value)| (time, value + apart)));
    };
    logs(MOST as i64, 0.0);
    let (seconds, said) = bounded(&folder, "merge other.csv", MEMORY);
    println!("merge: {seconds:.2} s");
    logs(MOST as i64 + 1, 1.0);
    let outcome = common::figures_in(folder.path(), "merge long.csv other.csv", b"");
    let errors = "figures: long.csv: refusal 2: merged with other.csv, the series has over \
                  16,777,216 readings: 16777217\n";
    assert_eq!((outcome.status, outcome.errors.as_str()), (1, errors));
    write(&folder, MOST as i64);
    let both = folder.read("out.csv");
    assert_eq!(said, "");
    assert!(both.strip_prefix("time,value\n") == Some(&folder.read("long.csv")));
}

#[test]
#[ignore = "takes a minute"]
fn medians_by_one_job_and_by_two() {
    let folder = common::Folder::new("medians");
    write(&folder, 2_000_000);
    let [one, two] = [1, 2].map(|jobs| {
        let options = format!("--rollup median --window 30d --step 1h --jobs {jobs}");
        let (seconds, stats) = run(&folder, &options);
        println!("medians of 30 days, --jobs {jobs}: {seconds:.2} s\n{stats}");
        folder.read("out.csv")
    });
    assert!(one == two);
}

/// The best time of three that the core takes for the same figures, in seconds.
fn core(step: i64) -> f64 {
    let (times, values): (Vec<i64>, Vec<f64>) = (0..READINGS).map(reading).unzip();
    let up = |time: i64| (time + step - 1) / step * step;
    let (start, end) = (up(times[0]), up(times[times.len() - 1]));
    let settings = Settings { start, end, step, ..Settings::default() };
    let mut workspace = Workspace::new();
    let mut run = || {
        let begin = Instant::now();
        workspace.run(&times, &values, Step::None, Rollup::Avg, &settings).unwrap();
        begin.elapsed().as_secs_f64()
    };
    (0..4).map(|_| run()).skip(1).fold(f64::INFINITY, f64::min)
}
