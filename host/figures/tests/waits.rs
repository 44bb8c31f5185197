//! The wait from an output time to the next reading, as a figure and as `explain` shows it.

mod common;

use common::{Folder, SECONDS, data, figures, figures_in};

/// Readings with a silence.
const READINGS: &str = "1000,1\n2500,2\n9000,3\n";

fn output(line: &str) -> String {
    let outcome = figures(line, READINGS.as_bytes());
    assert_eq!((outcome.status, outcome.errors.as_str()), (0, SECONDS));
    outcome.output
}

/// Neither the window nor the step matters, and after the last reading there is no figure.
#[test]
fn a_figure_for_each_output_time() {
    let waits = "time,until_next\n1000,1.5\n2000,0.5\n3000,6\n4000,5\n5000,4\n6000,3\n7000,2\n\
                 8000,1\n9000,NaN\n";
    for settings in ["", "--window 1ms", "--window 1d", "--pre delta", "--pre intervals"] {
        assert_eq!(output(&format!("--rollup until_next --step 1s {settings} -")), waits);
    }
    let given = output("--rollup until_next --step 5s --start 0 --end 10000 -");
    assert_eq!(given, "time,until_next\n0,1\n5000,4\n10000,NaN\n");
}

#[test]
fn tables_and_json() {
    let line = "--rollup until_next --rollup lag --step 4s --start 1000";
    let table = "standard input: 3 readings, prepared by none, windows of 4s
time  until_next  lag  readings
1000         1.5    0         1
5000           4  2.5         1
9000         NaN    0         1

";
    assert_eq!(output(&format!("{line} --format text -")), table);
    let objects = r#"{"name":"standard input","time":1000,"until_next":1.5,"lag":0,"readings":1}
{"name":"standard input","time":5000,"until_next":4,"lag":2.5,"readings":1}
{"name":"standard input","time":9000,"until_next":null,"lag":0,"readings":1}
"#;
    assert_eq!(output(&format!("{line} --format json -")), objects);
}

/// The readings that `--min-readings` asks for are those of the window.
#[test]
fn windows_of_few_readings() {
    let line = "--rollup until_next --step 1s --end 5000 --readings";
    let of = |least: &str| output(&format!("{line} {least} -"));
    let all = "time,until_next,readings\n1000,1.5,1\n2000,0.5,0\n3000,6,1\n4000,5,0\n5000,4,0\n";
    assert_eq!(of(""), all);
    let some =
        "time,until_next,readings\n1000,1.5,1\n2000,NaN,0\n3000,6,1\n4000,NaN,0\n5000,NaN,0\n";
    assert_eq!(of("--min-readings 1"), some);
}

#[test]
fn they_are_read_back() {
    let waits = output("--rollup until_next --step 1s -");
    let outcome = figures("--rollup max --step 4s -", waits.as_bytes());
    assert_eq!((outcome.status, outcome.output.as_str()), (0, "time,max\n4000,6\n8000,4\n"));
    let left_out = "figures: standard input: lines without a figure (NaN), left out: 1\n";
    assert!(outcome.errors.contains(left_out), "{}", outcome.errors);
}

#[test]
fn a_picture_has_seconds() {
    let folder = Folder::new("waits");
    folder.write("in.csv", READINGS);
    let line = "--rollup until_next --step 1s --unit m --plot p.svg in.csv";
    assert_eq!(figures_in(folder.path(), line, b"").status, 0);
    let svg = folder.read("p.svg");
    assert!(svg.contains(">until_next, s</text>") && svg.contains(">readings, m</text>"), "{svg}");
}

/// In the series that ships, from each hour on.
#[test]
fn of_a_probe_with_silences() {
    let file = data().join("climate.csv");
    let run = |line: &str| {
        let outcome = figures(&format!("{line} --times ms {}", file.display()), b"");
        assert_eq!((outcome.status, outcome.errors.as_str()), (0, ""));
        let lines = outcome.output.lines().skip(1).map(|line| line.split_once(',').unwrap());
        let pairs = lines.map(|(time, figure)| (time.parse().unwrap(), figure.to_string()));
        pairs.collect::<Vec<(i64, String)>>()
    };
    let counts = run("--rollup count --step 10m");
    let times: Vec<i64> = counts.iter().filter(|(_, n)| n == "1").map(|(time, _)| *time).collect();
    assert_eq!(times.len(), 2556);
    let waits = run("--rollup until_next --step 1h");
    for (at, wait) in &waits {
        let later = times.iter().find(|time| *time > at);
        let seconds = later.map_or("NaN".into(), |time| ((time - at) / 1000).to_string());
        assert_eq!(*wait, seconds, "{at}");
    }
    let count = |seconds: &str| waits.iter().filter(|(_, wait)| wait == seconds).count();
    assert_eq!(["600", "64800", "NaN"].map(count), [426, 1, 1]);
}

/// The line of `explain` that begins with a word.
fn explained(line: &str, word: &str) -> String {
    let text = output(&format!("explain {line} -"));
    let found = text.lines().find(|line| line.split(' ').next() == Some(word));
    found.unwrap().split_once("  ").unwrap().1.trim_start().into()
}

#[test]
fn explain_says_how_long_after_the_output_time() {
    let after = |at: &str| explained(&format!("--at {at} --rollup avg --step 1s"), "after");
    assert_eq!(after("999"), "1000  1, 1ms after the output time");
    assert_eq!(after("1000"), "2500  2, 1s500ms after the output time");
    assert_eq!(after("2500"), "9000  3, 6s500ms after the output time");
    assert_eq!(after("-89999000"), "1000  1, 1d1h after the output time");
    assert_eq!(after("9000"), "none");
    assert_eq!(after("10000"), "none");
}

/// The answer is the wait that stands beside the next reading.
#[test]
fn explain_of_a_wait() {
    let of =
        |at: &str, word: &str| explained(&format!("--at {at} --rollup until_next --step 1s"), word);
    assert_eq!(of("1000", "after"), "2500  2, 1s500ms after the output time");
    assert_eq!(of("1000", "answer"), "1.5  bits 0x3ff8000000000000");
    assert_eq!(of("9000", "after"), "none");
    assert_eq!(of("9000", "answer"), "NaN  bits 0x7ff8000000000000");
}
