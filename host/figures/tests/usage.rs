//! Command lines that are not understood: status 2 and a message.

mod common;

use common::{Outcome, figures};

#[track_caller]
fn refused(arguments: &str, message: &str) {
    let errors = format!("figures: {message}; see figures --help\n");
    assert_eq!(figures(arguments, b"0,1\n"), Outcome { status: 2, output: String::new(), errors });
}

#[test]
fn messages() {
    refused("", "expected a file, or - for standard input");
    refused("--rollup avg --step 1m", "expected a file, or - for standard input");
    refused("--rollup avg --step 1m - -", "expected - once");
    refused("--step 1m -", "expected --rollup NAME");
    refused("--rollup avg -", "expected --step or --window");
    refused("--rollup avg --step", "--step: expected a value");
    refused("--rollup avg --speed 1m -", "--speed is no option");
    refused("--rollup avg --stats=1 -", "--stats is no option");
    refused(
        "--rollup mean --step 1m -",
        "--rollup: expected a rollup, perhaps avg, found \"mean\"",
    );
    refused(
        "--rollup quantile --step 1m -",
        "--rollup: expected quantile(phi) with numbers, found \"quantile\"",
    );
    refused(
        "--quantile high --step 1m -",
        "--quantile: expected quantile(phi) with numbers, found \"high\"",
    );
    refused(
        "--rollup avg --quantile 0.5 --step 1m -",
        "expected --rollup quantile(0.5) beside other rollups, found --quantile",
    );
    refused(
        "--rollup avg --step 5 -",
        "--step: expected a duration, such as 1d, 1h30m, 5m, 30s or 250ms, found \"5\"",
    );
    refused(
        "--rollup avg --step 1m --start x -",
        "--start: expected a time: milliseconds, or as 2026-01-31T12:00:00Z, found \"x\"",
    );
    refused(
        "--rollup avg --step 1m --jobs 0 -",
        "--jobs: expected a whole number from 1 on, found \"0\"",
    );
    refused(
        "--rollup avg --step 1m --format xml -",
        "--format: expected csv, text or json, found \"xml\"",
    );
    refused("--rollup avg --step 1m --at 0 -", "--at means nothing without explain or nearest");
    refused("--rollup avg --step 1m --limit 0 -", "--limit means nothing without crossings");
    refused("explain --rollup avg --step 1m -", "expected --at TIME for explain");
    refused("list --step 1m", "figures list takes no --step");
    refused("demo file.csv", "figures demo takes no file.csv");
}

#[test]
fn messages_of_crossings_and_nearest() {
    refused("crossings -", "expected --limit NUMBER for crossings");
    refused("crossings --limit 40", "expected a file, or - for standard input");
    refused("crossings --limit 40 - -", "expected - once");
    refused("crossings --limit forty -", "--limit: expected a number, found \"forty\"");
    refused("crossings --limit 4,5 -", "--limit: expected a number, found \"4,5\"");
    refused("crossings --limit 40 --limit 41 -", "--limit is given twice");
    refused("nearest -", "expected --at TIME for nearest");
    refused("nearest --at 0", "expected a file, or - for standard input");
    refused(
        "nearest --at noon -",
        "--at: expected a time: milliseconds, or as 2026-01-31T12:00:00Z, found \"noon\"",
    );
}

/// Two files, and what is written is CSV to the last bit.
#[test]
fn messages_of_merge() {
    for (files, count) in [("", 0), ("-", 1), ("a.csv - b.csv", 3)] {
        let message = format!("expected two files for merge, found {count}");
        refused(&format!("merge {files}"), &message);
    }
    refused("merge - -", "expected - once");
    for option in [
        "--format csv",
        "--decimals 2",
        "--plot p.svg",
        "--unit m",
        "--at 0",
        "--limit 40",
        "--rollup avg",
        "--step 1m",
        "--start 0",
        "--readings",
        "--stats",
    ] {
        let name = option.split(' ').next().unwrap();
        refused(&format!("merge {option} - b.csv"), &format!("figures merge takes no {name}"));
    }
}

/// What means nothing where it stands may have been meant otherwise.
#[test]
fn options_that_mean_nothing() {
    let line = "--rollup avg --step 1m";
    for option in ["--step 1m", "--pre none", "--stats --stats", "--output a --output b"] {
        let name = option.split(' ').next().unwrap();
        refused(&format!("{line} --pre none {option} -"), &format!("{name} is given twice"));
    }
    refused(&format!("{line} --rollup max --rollup avg -"), "--rollup avg is given twice");
    refused(&format!("{line} --rollup avg_over_time -"), "--rollup avg is given twice");
    refused(
        "--quantile 0.5 --predict-linear 60 --step 1m -",
        "expected one of --quantile and --predict-linear",
    );
    refused(
        "--rollup holt_winters --holt-winters 0.5,0.1 --quantile 0.5 --step 1m -",
        "expected one of --quantile and --holt-winters",
    );
    refused(
        "--rollup quantile --rollup avg --quantile 0.5 --step 1m -",
        "expected --rollup quantile(0.5) beside other rollups, found --quantile",
    );
    for (option, without) in
        [("--unit m", "--plot"), ("--per-call 1", "--stats"), ("--default-rollup", "--lookback")]
    {
        let name = option.split(' ').next().unwrap();
        refused(&format!("{line} {option} -"), &format!("{name} means nothing without {without}"));
    }
    for option in ["--adjust-window", "--default-rollup --lookback 1m"] {
        let name = option.split(' ').next().unwrap();
        refused(
            &format!("{line} --window 1m {option} -"),
            &format!("{name} means nothing with --window"),
        );
    }
    for format in ["text", "json"] {
        refused(
            &format!("{line} --format {format} --readings -"),
            &format!("--readings means nothing with --format {format}, which has them"),
        );
    }
    refused(&format!("{line} --plot - -"), "--plot: expected a file, found \"-\"");
    refused(
        &format!("{line} --decimals 21 -"),
        "--decimals: expected a whole number up to 20, found \"21\"",
    );
    for option in [
        "--plot p.svg",
        "--output o.csv",
        "--format text",
        "--decimals 2",
        "--jobs 2",
        "--stats",
        "--readings",
        "--min-readings 2",
        "--unit m",
        "--per-call 1",
    ] {
        let name = option.split(' ').next().unwrap();
        let line = format!("explain {line} --at 0 {option} -");
        refused(&line, &format!("figures explain takes no {name}"));
    }
    refused(&format!("explain {line} --rollup max --at 0 -"), "figures explain takes one rollup");
}

/// Neither crossings nor readings, the nearest or all, have a window, a grid or a rollup.
#[test]
fn options_of_figures() {
    for option in [
        "--rollup avg",
        "--quantile 0.5",
        "--pre none",
        "--step 1m",
        "--window 1m",
        "--start 0",
        "--end 0",
        "--lookback 1m",
        "--adjust-window",
        "--max-points 5",
        "--min-readings 2",
        "--readings",
        "--stats",
    ] {
        let name = option.split(' ').next().unwrap();
        let message = |task: &str| format!("figures {task} takes no {name}");
        refused(&format!("crossings --limit 40 {option} -"), &message("crossings"));
        refused(&format!("nearest --at 0 {option} -"), &message("nearest"));
        refused(&format!("readings {option} -"), &message("readings"));
    }
    refused("crossings --limit 40 --at 0 -", "figures crossings takes no --at");
    refused("crossings --limit 40 --unit m -", "--unit means nothing without --plot");
    refused("crossings --limit 40 --plot - -", "--plot: expected a file, found \"-\"");
    for option in ["--limit 40", "--plot p.svg", "--unit m"] {
        let name = option.split(' ').next().unwrap();
        refused(&format!("nearest --at 0 {option} -"), &format!("figures nearest takes no {name}"));
    }
}

#[test]
fn help_and_version() {
    for arguments in ["--help", "list -h", "--version"] {
        let outcome = figures(arguments, b"");
        assert_eq!((outcome.status, outcome.errors.as_str()), (0, ""));
        assert!(outcome.output.starts_with("Figures") || outcome.output.starts_with("figures"));
    }
}
