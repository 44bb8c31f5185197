//! Threads that cannot start, and standard streams that are full or closed: no panic, and either a
//! message or a status.

mod common;

use std::process::Command;

use common::Folder;

/// Status, standard output and standard error of a shell's line, in which `figures` is the command
/// with a rollup and a step.
fn shell(folder: &Folder, line: &str) -> (Option<i32>, String, String) {
    folder.write("in.csv", "2026-01-01T00:00:00Z,1\n2026-01-01T00:01:00Z,2\n");
    let figures = format!("{} --rollup avg --step 1m", env!("CARGO_BIN_EXE_figures"));
    let mut shell = Command::new("bash");
    shell.arg("-c").arg(line.replace("figures", &figures)).current_dir(folder.path());
    let run = shell.output().unwrap();
    let text = |bytes| String::from_utf8(bytes).unwrap();
    (run.status.code(), text(run.stdout), text(run.stderr))
}

const TABLE: &str = "time,avg\n2026-01-01T00:00:00Z,1\n2026-01-01T00:01:00Z,2\n";

/// No thread can have the stack that is asked for.
#[test]
fn threads_that_cannot_start() {
    let folder = Folder::new("threads");
    for files in ["in.csv", "in.csv copy.csv"] {
        let line = format!("cp in.csv copy.csv; figures --jobs 4 {files}");
        let usual = shell(&folder, &line);
        assert_eq!((usual.0, usual.2.as_str()), (Some(0), ""));
        assert_eq!(shell(&folder, &format!("export RUST_MIN_STACK=70368744177664; {line}")), usual);
    }
    // The thread that shows progress on a terminal.
    let (status, output, _) = shell(
        &folder,
        "export RUST_MIN_STACK=70368744177664; script -qec 'figures in.csv > out.csv' /dev/null; \
         s=$?; cat out.csv; exit $s",
    );
    assert_eq!((status, output.as_str()), (Some(0), TABLE));
}

#[test]
fn a_full_standard_error() {
    let folder = Folder::new("errors");
    let silent = |status, output: &str| (Some(status), output.to_string(), String::new());
    assert_eq!(shell(&folder, "figures in.csv 2> /dev/full"), silent(0, TABLE));
    assert_eq!(shell(&folder, "figures --stats in.csv 2> /dev/full"), silent(0, TABLE));
    assert_eq!(shell(&folder, "figures missing.csv 2> /dev/full"), silent(1, ""));
    assert_eq!(shell(&folder, "figures --bad 2> /dev/full"), silent(2, ""));
    assert_eq!(shell(&folder, "figures --stats in.csv 2>&-"), silent(0, TABLE));
}

#[test]
fn a_standard_output_that_takes_nothing() {
    let folder = Folder::new("output");
    let message =
        |text: &str| (Some(1), String::new(), format!("figures: standard output: {text}\n"));
    let full = message("No space left on device (os error 28)");
    assert_eq!(shell(&folder, "figures in.csv > /dev/full"), full);
    let closed = message("Bad file descriptor (os error 9)");
    assert_eq!(shell(&folder, "figures in.csv >&-"), closed);
    assert_eq!(shell(&folder, "figures --help >&-"), closed);
    let to_a_file = "figures --output out.csv in.csv >&-; s=$?; cat out.csv; exit $s";
    assert_eq!(shell(&folder, to_a_file), (Some(0), TABLE.into(), String::new()));
    let nowhere = (Some(0), String::new(), String::new());
    assert_eq!(shell(&folder, "figures in.csv > /dev/null"), nowhere);
    assert_eq!(shell(&folder, "figures in.csv 1<> /dev/null"), nowhere);
}

/// Nobody reading on is no failure: the reader has what it wanted.
#[test]
fn a_reader_that_leaves() {
    let folder = Folder::new("leaves");
    let line = "figures --start 0 --end 600000000 --max-points 0 in.csv | head -n 1; \
                exit ${PIPESTATUS[0]}";
    assert_eq!(shell(&folder, line), (Some(0), "time,avg\n".into(), String::new()));
}

#[test]
fn a_closed_standard_input() {
    let folder = Folder::new("input");
    let message = "figures: standard input: expected a reading, or --start and --end\n";
    assert_eq!(shell(&folder, "figures - <&-"), (Some(1), String::new(), message.into()));
}
