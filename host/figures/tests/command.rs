//! What the command gives for input that is accepted.

mod common;

use common::{Folder, SECONDS, data, figures, figures_in};

/// Accepted without a word on standard error, but for the times.
#[track_caller]
fn output(arguments: &str, input: &str) -> String {
    let outcome = figures(arguments, input.as_bytes());
    assert_eq!(outcome.status, 0);
    assert!(["", SECONDS].contains(&outcome.errors.as_str()), "{}", outcome.errors);
    outcome.output
}

#[test]
fn the_layouts_of_readings() {
    let plain = output("--rollup avg --step 1m -", "0,1\n60000,2\n90000,4\n");
    assert_eq!(plain, "time,avg\n0,1\n60000,2\n120000,4\n");
    let dressed = "\u{feff}# about\r\n\r\nValue , Timestamp\r\n 1 , 0\r\n2,60000\r\n4,\"90000\"";
    assert_eq!(output("--rollup avg --step 1m -", dressed), plain);
    let dates = "1970-01-01T00:00:00Z,1\n1970-01-01 00:01:00z,2\n1970-01-01t00:01:30.000+00:00,4\n";
    let text = output("--rollup avg --step 1m -", dates);
    assert!(text.starts_with("time,avg\n1970-01-01T00:00:00Z,1\n"));
    assert_eq!(output("--rollup avg --step 1m --times ms -", dates), plain);
}

#[test]
fn several_series() {
    let names = "\"b,1\",0,1\na,0,5\n\"b,1\",60000,2\na,60000,7\n";
    let text = figures("--rollup max --step 1m -", names.as_bytes()).output;
    assert_eq!(text, "name,time,max\n\"b,1\",0,1\n\"b,1\",60000,2\na,0,5\na,60000,7\n");

    let folder = Folder::new("several");
    folder.write("x.csv", "0,1\n");
    folder.write("y.csv", "0,2\n");
    let run = |arguments| figures_in(folder.path(), arguments, b"");
    assert_eq!(run("--rollup sum --step 1m x.csv y.csv").output, "name,time,sum\nx,0,1\ny,0,2\n");
    let twice = run("--rollup sum --step 1m x.csv x.csv");
    assert_eq!(twice.errors, "figures: x.csv: expected another name than x, which x.csv has\n");
}

#[test]
fn rollups_with_parameters() {
    let input = "0,1\n60000,2\n";
    let by_name = output("--rollup quantile(0.5) --window 2m -", input);
    assert_eq!(by_name, "time,quantile(0.5)\n0,1\n120000,2\n");
    assert_eq!(output("--quantile 0.5 --window 2m -", input), by_name);
    assert_eq!(output("--rollup quantile --quantile=0.5 --window 2m -", input), by_name);
    let two = output("--holt-winters 0.5,0.1 --step 2m --start 60000 --end 60000 -", input);
    assert_eq!(two, "time,\"holt_winters(0.5, 0.1)\"\n60000,2\n");
}

/// A counter's growth is right across a restart, from 10 to 2 and from 9 to 3, where each is corrected
/// once. The rises alone miss what was counted up to the first reading after it, and the original's
/// step corrects it at each reading that follows.
#[test]
fn a_counter_that_restarts() {
    let input = "0,8\n60000,10\n120000,2\n180000,3\n240000,9\n300000,3\n360000,4\n";
    let of = |pre: &str, rollup: &str| {
        let line = format!("--pre {pre} --rollup {rollup} --step 3m --start 180000 -");
        let text = output(&line, input);
        let figures = text.lines().skip(1).map(|line| line.split_once(',').unwrap().1.to_string());
        figures.collect::<Vec<String>>()
    };
    assert_eq!(of("resets_once", "max"), ["13", "23"]);
    assert_eq!(of("resets_once", "increase_pure"), ["5", "10"]);
    assert_eq!(of("resets_once", "delta"), ["5", "10"]);
    assert_eq!(of("none", "delta"), ["-5", "1"]);
    assert_eq!(of("none", "ascent_over_time"), ["3", "7"]);
    assert_eq!(of("resets", "max"), ["25", "213"]);
}

/// Forty series in one file and in a file each, by one job and by two.
#[test]
fn two_jobs_give_the_bytes_of_one() {
    let folder = Folder::new("jobs");
    let mut together = String::from("name,time,value\n");
    let mut files = String::new();
    for number in 0..40 {
        let mut readings = String::new();
        for reading in 0..500 + 7 * number {
            let (time, value) = (reading * 60_000, (reading * reading % 997) as f64 / 7.0);
            readings += &format!("{time},{value}\n");
            together += &format!("s{number},{time},{value}\n");
        }
        folder.write(&format!("s{number}.csv"), &readings);
        files += &format!(" s{number}.csv");
    }
    folder.write("together.csv", &together);
    let run = |jobs: usize, files: &str| {
        let line = format!("--rollup stddev --window 1h --step 7m --jobs {jobs} {files}");
        let outcome = figures_in(folder.path(), &line, b"");
        assert_eq!(outcome.status, 0);
        outcome.output
    };
    let one = run(1, "together.csv");
    assert_eq!(
        one.lines().count(),
        1 + (0..40).map(|n| 499 + 7 * n + 6).map(|m| m / 7 + 1).sum::<usize>()
    );
    assert_eq!(run(2, "together.csv"), one);
    assert_eq!(run(1, &files), one);
    assert_eq!(run(2, &files), one);
}

/// A failure is that of the first series that fails, however the jobs are shared.
#[test]
fn two_jobs_fail_as_one() {
    let bad: String = (0..50).map(|n| format!("s{n},0,1\ns{n},{},1\n", n % 9 - 4)).collect();
    let [one, two] = [1, 2]
        .map(|jobs| figures(&format!("--rollup avg --step 1m --jobs {jobs} -"), bad.as_bytes()));
    assert_eq!(
        one.errors,
        "figures: standard input:2: series s0: refusal 4 at reading 2: the time is below the one before: -4 after 0\n"
    );
    assert_eq!(one, two);
}

#[test]
fn a_file_is_written_whole_or_not_at_all() {
    let folder = Folder::new("whole");
    folder.write("good.csv", "0,1\n");
    folder.write("bad.csv", "0,1\n-1,1\n");
    folder.write("out.csv", "before");
    let run = |file: &str| {
        let line = format!("--rollup avg --step 1m --output out.csv --plot p.svg {file}");
        figures_in(folder.path(), &line, b"").status
    };
    assert_eq!(run("bad.csv"), 1);
    assert_eq!(folder.read("out.csv"), "before");
    assert_eq!(folder.names(), ["bad.csv", "good.csv", "out.csv"]);
    assert_eq!(run("good.csv"), 0);
    assert_eq!(folder.read("out.csv"), "time,avg\n0,1\n");
    assert_eq!(folder.names(), ["bad.csv", "good.csv", "out.csv", "p.svg"]);
    std::os::unix::fs::symlink("out.csv", folder.path().join("link.csv")).unwrap();
    let linked = "--rollup sum --step 1m --output link.csv good.csv";
    assert_eq!(figures_in(folder.path(), linked, b"").status, 0);
    assert_eq!(folder.read("out.csv"), "time,sum\n0,1\n");
    let nowhere = figures_in(folder.path(), "--rollup avg --step 1m --output no/o good.csv", b"");
    assert_eq!((nowhere.status, nowhere.output.as_str()), (1, ""));
    assert!(nowhere.errors.starts_with("figures: no/o: "));
}

#[test]
fn refusals_of_settings_name_the_file() {
    let input = b"0,1\n60000,2\n";
    let errors = |line: &str| figures(line, input).errors;
    assert_eq!(
        errors("--rollup avg --step 0s -"),
        "figures: standard input: refusal 6: the step lies outside 1 to 2^50 milliseconds: 0\n"
    );
    assert_eq!(
        errors("--rollup avg --step 1m missing.csv"),
        "figures: missing.csv: No such file or directory (os error 2)\n"
    );
}

#[test]
fn a_table_is_aligned() {
    let input = "2026-01-01T00:00:00Z,1\n2026-01-01T00:01:00Z,12345.5\n";
    let text = output("--rollup max --step 1m --format text -", input);
    let table = "standard input: 2 readings, prepared by none, windows of 1m
time                      max  readings
2026-01-01T00:00:00Z        1         1
2026-01-01T00:01:00Z  12345.5         1

";
    assert_eq!(text, table);
}

#[test]
fn explain_shows_the_window() {
    let input = "1000,1\n2000,2\n3000,4\n4000,8\n";
    let text = output("explain --at 3000 --pre delta --rollup sum --step 1s --window 2s -", input);
    let lines = "series       standard input
figure       sum at 3000, prepared by delta
window       2s, after 1000, up to 3000
reach        5s, back to -4000
before       1000  1
predecessor  1000  1
in window    2 readings
             2000  2
             3000  4
after        4000  4 from 8, 1s after the output time
answer       6  bits 0x4018000000000000
";
    assert_eq!(text, lines);
    let late = output("explain --at 9000 --rollup lag --step 1s -", input);
    assert!(late.contains("predecessor  none: no reading after the window's start\n"));
    assert!(late.contains("after        none\n"));
    assert!(late.ends_with("answer       NaN  bits 0x7ff8000000000000\n"));
}

#[test]
fn list_has_every_rollup() {
    let text = output("list", "");
    assert_eq!(text.lines().filter(|line| line.starts_with("  ")).count(), 50);
}

/// The demo gives what docs/ has of it, and each of its tables is that of the command line above.
#[test]
fn the_demo_writes_tables_and_a_picture() {
    let folder = Folder::new("demo");
    let root = data().join("..");
    let outcome = figures_in(folder.path(), "demo", b"");
    assert_eq!((outcome.status, outcome.errors.as_str()), (0, ""));
    assert_eq!(folder.names(), ["demo.svg"]);
    let stored = |name: &str| std::fs::read_to_string(root.join("docs").join(name)).unwrap();
    assert_eq!(format!("$ host/run demo\n{}", outcome.output), stored("demo.txt"));
    assert_eq!(folder.read("demo.svg"), stored("demo.svg"));
    let lines = outcome.output.lines().filter_map(|line| line.strip_prefix("$ host/run "));
    let lines: Vec<&str> = lines.collect();
    assert_eq!(lines.len(), 3);
    for line in lines {
        let table = figures_in(&root, line, b"");
        assert_eq!(table.status, 0);
        assert!(outcome.output.contains(&table.output), "{line}");
    }
}

/// The demo's picture, wherever it is made, is no change of the repository; that of docs/ is.
#[test]
fn git_does_not_see_the_demo_s_picture() {
    let rules = std::fs::read_to_string(data().join("../.gitignore")).unwrap();
    let rules: Vec<&str> = rules.lines().collect();
    assert!(rules.contains(&"demo.svg") && rules.contains(&"!docs/demo.svg"), "{rules:?}");
}
