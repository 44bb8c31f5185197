//! Several files, and files with other columns.

mod common;

use std::fs;

use common::{Folder, Outcome, figures, figures_in};

const DAY: &str = "--rollup sum --step 1d";

fn run(folder: &Folder, line: &str) -> Outcome {
    figures_in(folder.path(), &format!("{DAY} {line}"), b"")
}

#[test]
fn files_of_one_series_are_one_series() {
    let folder = Folder::new("one");
    folder.write("may.csv", "name,time,value\na,2026-05-01,1\nb,2026-05-01,5\na,2026-05-02,2\n");
    folder.write("june.csv", "time,value,name\n2026-05-03,3,a\n2026-05-03,7,c\n");
    folder.write("late.csv", "# overlaps\na,2026-05-01T23:00:00Z,3\n");
    let text = "name,time,sum\na,2026-05-01T00:00:00Z,1\na,2026-05-02T00:00:00Z,2\n\
                a,2026-05-03T00:00:00Z,3\nb,2026-05-01T00:00:00Z,5\nc,2026-05-03T00:00:00Z,7\n";
    for jobs in [1, 2, 5] {
        assert_eq!(run(&folder, &format!("--jobs {jobs} may.csv june.csv")).output, text);
    }
    let refused = |files: &str, message: &str| {
        let errors = format!("figures: {message}\n");
        assert_eq!(run(&folder, files), Outcome { status: 1, output: String::new(), errors });
    };
    let order = "refusal 4 at reading 3: the time is below the one before";
    refused(
        "may.csv late.csv",
        &format!("late.csv:2: series a: {order}: 2026-05-01T23:00:00Z after 2026-05-02T00:00:00Z"),
    );
    let order = "refusal 4 at reading 2: the time is below the one before";
    refused(
        "june.csv may.csv",
        &format!("may.csv:2: series a: {order}: 2026-05-01T00:00:00Z after 2026-05-03T00:00:00Z"),
    );
}

/// Explained as one series, too.
#[test]
fn a_window_over_two_files() {
    let folder = Folder::new("window");
    folder.write("one.csv", "a,2026-05-01,1\n");
    folder.write("two.csv", "a,2026-05-02,2\n");
    let line = "explain --at 2026-05-02 --rollup sum --step 2d one.csv two.csv";
    let text = figures_in(folder.path(), line, b"").output;
    assert!(
        text.contains("in window    2 readings\n") && text.contains("answer       3 "),
        "{text}"
    );
}

#[test]
fn files_of_one_stem_have_their_folders() {
    let folder = Folder::new("stems");
    for path in ["x", "y", "a/x", "b/x", "a/c/x", "b/c/x"] {
        let file = folder.path().join(path).with_extension("csv");
        fs::create_dir_all(file.parent().unwrap()).unwrap();
        fs::write(file, "2026-05-01,1\n").unwrap();
    }
    let titles = |files: &str| {
        let outcome = run(&folder, files);
        assert_eq!((outcome.status, outcome.errors.as_str()), (0, ""));
        let names = outcome.output.lines().skip(1).map(|line| line.split(',').next().unwrap());
        names.collect::<Vec<_>>().join(" ")
    };
    assert_eq!(titles("a/x.csv b/x.csv y.csv"), "a/x b/x y");
    assert_eq!(titles("x.csv b/x.csv"), "x b/x");
    assert_eq!(titles("a/c/x.csv b/c/x.csv b/x.csv"), "a/c/x b/c/x b/x");
    assert_eq!(titles("./a/../a/x.csv b/x.csv"), "a/x b/x");
    folder.write("named.csv", "x,2026-05-01,1\n");
    for (files, message) in [
        ("x.csv x.csv", "x.csv: expected another name than x, which x.csv has"),
        ("x.csv ./x.csv", "./x.csv: expected another name than x, which x.csv has"),
        ("x.csv named.csv", "named.csv: expected another name than x, which x.csv has"),
    ] {
        let errors = format!("figures: {message}\n");
        assert_eq!(run(&folder, files), Outcome { status: 1, output: String::new(), errors });
    }
}

/// A line feed in a name cannot be read back.
#[test]
fn a_file_name_with_a_line_feed() {
    let folder = Folder::new("feed");
    for name in ["a\nb.csv", "c.csv"] {
        folder.write(name, "2026-05-01,1\n");
    }
    let run = std::process::Command::new(env!("CARGO_BIN_EXE_figures"))
        .args(["--rollup", "sum", "--step", "1d", "a\nb.csv", "c.csv"])
        .current_dir(folder.path())
        .output();
    let run = run.unwrap();
    let errors = "figures: a\\nb.csv: expected a name without a line feed\n";
    assert_eq!((run.status.code(), str::from_utf8(&run.stderr).unwrap()), (Some(1), errors));
}

const WIDE: &str = "probe,taken,celsius,humidity,time\n\
                    118,2026-05-01,16.5,40,x\n119,2026-05-01,17,41,x\n118,2026-05-02,\"16\",42,x\n";

#[test]
fn columns_are_chosen_by_their_names() {
    let run = |columns: &str| figures(&format!("{DAY} {columns} -"), WIDE.as_bytes());
    let outcome = run("--time-column taken --value-column celsius --name-column probe");
    let text = "name,time,sum\n118,2026-05-01T00:00:00Z,16.5\n118,2026-05-02T00:00:00Z,16\n\
                119,2026-05-01T00:00:00Z,17\n";
    assert_eq!(outcome.output, text);
    let note = "figures: standard input: columns that are not used: humidity, time\n";
    assert_eq!(outcome.errors, note);

    let refused = |columns: &str, message: &str| {
        let errors = format!("figures: standard input:{message}\n");
        assert_eq!(run(columns), Outcome { status: 1, output: String::new(), errors });
    };
    refused("--time-column taken --value-column C", "1: expected a header with a column C");
    refused("--time-column taken", "1: expected a header with time and value, and perhaps name");
    refused(
        "--time-column taken --value-column taken",
        "1: expected a column each for times, values and names",
    );
    refused(
        "--value-column celsius",
        "2: expected a time: milliseconds, or as 2026-01-31T12:00:00Z, found \"x\"",
    );
    let twice = figures(&format!("{DAY} --value-column v -"), b"time,v,v\n0,1,2\n");
    assert_eq!(twice.errors, "figures: standard input:1: expected one column v, found 2\n");
    let bare = figures(&format!("{DAY} --value-column v -"), b"0,1\n");
    assert_eq!(bare.errors, "figures: standard input:1: expected a header with a column v\n");
}

/// Of several figures of an earlier run, one.
#[test]
fn one_of_several_figures_is_chosen() {
    let input =
        b"time,avg,max,readings\n2026-05-01,1,2,9\n2026-05-02,NaN,NaN,0\n2026-05-03,5,6,9\n";
    let outcome = figures(&format!("{DAY} --value-column max -"), input);
    let text =
        "time,sum\n2026-05-01T00:00:00Z,2\n2026-05-02T00:00:00Z,NaN\n2026-05-03T00:00:00Z,6\n";
    assert_eq!(outcome.output, text);
    let notes = "figures: standard input: columns that are not used: avg, readings\n\
                 figures: standard input: lines without a figure (NaN), left out: 1\n";
    assert_eq!(outcome.errors, notes);
}
