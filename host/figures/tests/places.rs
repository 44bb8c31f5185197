//! No file is both read and written, and no two outputs are one file, however they are named.

mod common;

use std::fs::{self, File};
use std::os::unix::fs::symlink;
use std::process::{Command, Stdio};

use common::{Folder, figures_in};

const READINGS: &str = "0,1\n60000,2\n";

fn folder(name: &str) -> Folder {
    let folder = Folder::new(name);
    folder.write("in.csv", READINGS);
    fs::create_dir(folder.path().join("sub")).unwrap();
    folder
}

#[track_caller]
fn refused(folder: &Folder, line: &str, message: &str) {
    let before = folder.names();
    let outcome = figures_in(folder.path(), &format!("--rollup avg --step 1m {line}"), b"");
    let errors = format!("figures: {message}; see figures --help\n");
    assert_eq!((outcome.status, outcome.errors), (2, errors));
    assert_eq!(folder.read("in.csv"), READINGS);
    assert_eq!(folder.names(), before);
}

#[test]
fn an_input_is_not_written() {
    let folder = folder("inputs");
    fs::hard_link(folder.path().join("in.csv"), folder.path().join("hard.csv")).unwrap();
    symlink("../in.csv", folder.path().join("sub/soft.csv")).unwrap();
    for option in ["--output", "--plot"] {
        for name in ["in.csv", "./in.csv", "sub/../in.csv", "hard.csv", "sub/soft.csv"] {
            let message = format!("{option} {name} is the file in.csv, which is read");
            refused(&folder, &format!("{option} {name} in.csv"), &message);
            refused(&folder, &format!("{option} {name} missing.csv in.csv"), &message);
        }
    }
    refused(
        &folder,
        "--output in.csv sub/soft.csv",
        "--output in.csv is the file sub/soft.csv, which is read",
    );
}

#[test]
fn two_outputs_are_two_files() {
    let folder = folder("outputs");
    folder.write("there", "before");
    fs::hard_link(folder.path().join("there"), folder.path().join("hard")).unwrap();
    symlink("../new", folder.path().join("sub/soft")).unwrap();
    for (output, plot) in [
        ("there", "there"),
        ("there", "hard"),
        ("new", "new"),
        ("new", "./sub/../new"),
        ("new", "sub/soft"),
        ("sub/soft", "new"),
    ] {
        refused(
            &folder,
            &format!("--output {output} --plot {plot} in.csv"),
            &format!("--output {output} and --plot {plot} are one file"),
        );
    }
    let line = "--rollup avg --step 1m --output /dev/null --plot /dev/null in.csv";
    assert_eq!(figures_in(folder.path(), line, b"").status, 0);
}

/// Standard input and standard output are files, too, where a shell made them so.
#[test]
fn redirected() {
    let folder = folder("redirected");
    let path = |name: &str| folder.path().join(name);
    let run = |arguments: &str, output: Stdio| {
        let mut command = Command::new(env!("CARGO_BIN_EXE_figures"));
        command.args(["--rollup", "avg", "--step", "1m"]).args(arguments.split(' '));
        let command = command.current_dir(folder.path()).stdin(File::open(path("in.csv")).unwrap());
        let run = command.stdout(output).output().unwrap();
        assert_eq!(folder.read("in.csv"), READINGS);
        (run.status.code(), String::from_utf8(run.stderr).unwrap())
    };
    let append = |name: &str| File::options().append(true).create(true).open(path(name)).unwrap();
    let refused = |(status, errors): (Option<i32>, String), message: &str| {
        let errors_then = format!("figures: {message}; see figures --help\n");
        assert_eq!((status, errors), (Some(2), errors_then));
    };
    refused(
        run("--output in.csv -", Stdio::piped()),
        "--output in.csv is the file standard input, which is read",
    );
    refused(
        run("-", append("in.csv").into()),
        "standard output is the file standard input, which is read",
    );
    refused(
        run("--plot out.csv -", append("out.csv").into()),
        "standard output and --plot out.csv are one file",
    );
    assert_eq!(run("--output other.csv --plot p.svg -", append("out.csv").into()).0, Some(0));
}
