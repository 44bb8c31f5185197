//! Input that has no end, or is far too long, is refused in a few words.

mod common;

use std::process::{Command, Stdio};

use common::figures;

/// The command in so many kilobytes of address space, on an input that never ends.
fn endless(input: &str, memory: u32) -> (Option<i32>, String) {
    let command = env!("CARGO_BIN_EXE_figures");
    let line = format!("ulimit -v {memory}; {input} exec {command} --rollup avg --step 1m -");
    let mut shell = Command::new("sh");
    let run = shell.args(["-c", &line]).stdin(Stdio::null()).output().unwrap();
    (run.status.code(), String::from_utf8(run.stderr).unwrap())
}

const TOO_LONG: &str = "expected a line of at most 65,536 bytes";

#[test]
fn a_line_without_end() {
    let (status, errors) = endless("< /dev/zero", 200_000);
    assert_eq!((status, errors), (Some(1), format!("figures: standard input:1: {TOO_LONG}\n")));
}

#[test]
fn a_line_is_bounded() {
    let line = |length: usize| format!("0,1\n60000,{}\n", "1".repeat(length - 6));
    let run =
        |length| figures("--rollup avg --step 1m --start 0 --end 0 -", line(length).as_bytes());
    let infinite = run(65_536);
    assert!(infinite.errors.starts_with("figures: standard input:2: refusal 5"), "{infinite:?}");
    for length in [65_537, 65_538, 3_000_000] {
        assert_eq!(run(length).errors, format!("figures: standard input:2: {TOO_LONG}\n"));
    }
    let comment = format!("# {}\n0,1\n", "long ".repeat(14_000));
    let refused = figures("--rollup avg --step 1m -", comment.as_bytes());
    assert_eq!(refused.errors, format!("figures: standard input:1: {TOO_LONG}\n"));
}

#[test]
fn a_series_without_end() {
    let (status, errors) = endless("yes 0,1 |", 1_000_000);
    let message = "figures: standard input:16777217: refusal 2: the series has over 16,777,216 \
                   readings\n";
    assert_eq!((status, errors.as_str()), (Some(1), message));
}

#[test]
fn a_field_is_not_repeated_whole() {
    let long = "x".repeat(60_000);
    let short = "x".repeat(32) + "…";
    let errors = |line: &str, input: String| figures(line, input.as_bytes()).errors;
    let line = "--rollup avg --step 1m -";
    let number =
        format!("figures: standard input:1: expected a number as value, found \"{short}\"\n");
    assert_eq!(errors(line, format!("0,{long}\n")), number);
    for input in [
        format!("{long},1\n"),
        format!("\"{long}\",0,1\n\"{long}\",0,1\n"),
        format!("time,value,{long}\n"),
        format!("time,avg,\"quantile({}1)\"\n", "0".repeat(60_000)),
    ] {
        let errors = errors(line, input);
        assert!(!errors.is_empty() && errors.len() < 300, "{errors}");
    }
    let options = ["--start", "--pre", "--format", "--jobs", "--value-column", "--min-readings"];
    let lines = options.map(|option| format!("{line} {option} {long}"));
    let others = [
        format!("--rollup {long} --step 1m -"),
        format!("--rollup avg --step {long} -"),
        format!("crossings --limit {long} -"),
        format!("nearest --at {long} -"),
    ];
    for line in lines.into_iter().chain(others) {
        let errors = errors(&line, "time,value\n0,1\n".into());
        assert!(errors.contains(&short) && errors.len() < 300, "{errors}");
    }
    let errors = errors(&format!("{line} --{long}"), String::new());
    assert!(errors.len() < 300, "{errors}");
}
