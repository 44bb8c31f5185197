//! Staleness marks: how they are read and written, what is said of them, and where they are refused.

mod common;

use common::{Folder, Outcome, SECONDS, data, figures, figures_in, picture};

/// A drive that went away at 3000 and was back at 6000.
const READINGS: &str = "1000,1\n2000,2\n3000,stale\n4000,stale\n6000,5\n7000,4\n";

const SEE: &str = "which default and stale_samples alone see";

/// Accepted, with these notes after that on the times.
#[track_caller]
fn noted(line: &str, input: &str, notes: &str) -> String {
    let outcome = figures(line, input.as_bytes());
    let notes = format!("{SECONDS}{notes}");
    assert_eq!((outcome.status, outcome.errors), (0, notes));
    outcome.output
}

/// Accepted, with a note on how many marks were taken out.
#[track_caller]
fn output(line: &str) -> String {
    let notes = format!("figures: standard input: staleness marks, {SEE}: 2\n");
    noted(line, READINGS, &notes)
}

#[track_caller]
fn refused(line: &str, input: &str, message: &str) {
    let errors = format!("figures: standard input{message}\n");
    let refused = Outcome { status: 1, output: String::new(), errors };
    assert_eq!(figures(line, input.as_bytes()), refused);
}

/// For all rollups but two it is as if the lines of marks were not there.
#[test]
fn they_are_taken_out() {
    let without = READINGS.replace("3000,stale\n4000,stale\n", "");
    for rollup in ["avg", "count", "delta", "lag", "until_next", "changes", "scrape_interval"] {
        for settings in ["--step 1s", "--step 1s --window 3s", "--step 1s --adjust-window"] {
            for pre in ["none", "delta", "resets_once", "intervals"] {
                let line = format!("--rollup {rollup} {settings} --pre {pre} --readings -");
                assert_eq!(output(&line), noted(&line, &without, ""), "{line}");
            }
        }
    }
    let counts = output("--rollup count --step 1s --window 2s -");
    let rows = "1000,1\n2000,2\n3000,1\n4000,NaN\n5000,NaN\n6000,1\n7000,2\n";
    assert_eq!(counts, format!("time,count\n{rows}"));
}

/// The other two see them, and nothing has to be said.
#[test]
fn they_are_seen() {
    let line = "--rollup default --rollup stale_samples --step 1s --window 2s --readings -";
    let text = noted(line, READINGS, "");
    let rows = "1000,1,0,1\n2000,2,0,2\n3000,stale,1,2\n4000,stale,2,2\n5000,stale,1,1\n6000,5,0,1\n\
                7000,4,0,2\n";
    assert_eq!(text, format!("time,default,stale_samples,readings\n{rows}"));
    let other = noted("--rollup stale_samples_over_time --step 1s --window 2s -", READINGS, "");
    assert!(other.starts_with("time,stale_samples\n1000,0\n"), "{other}");
}

/// Beside rollups of the other kind the readings are those that are no marks.
#[test]
fn tables_and_json() {
    let line = "--rollup default --rollup max --step 1s --window 2s --start 3000 --end 6000";
    let table =
        "standard input: 6 readings, 2 of them staleness marks, prepared by none, windows of 2s
time  default  max  readings
3000    stale    2         1
4000    stale  NaN         0
5000    stale  NaN         0
6000        5    5         1

";
    assert_eq!(output(&format!("{line} --format text -")), table);
    let objects = r#"{"name":"standard input","time":3000,"default":"stale","max":2,"readings":1}
{"name":"standard input","time":4000,"default":"stale","max":null,"readings":0}
{"name":"standard input","time":5000,"default":"stale","max":null,"readings":0}
{"name":"standard input","time":6000,"default":5,"max":5,"readings":1}
"#;
    assert_eq!(output(&format!("{line} --format json --decimals 0 -")), objects);
}

/// So many readings a step apart, each a mark but the first of every so many.
fn marks_but(every: i64, count: i64, step: i64) -> String {
    let line = |k: i64| match k % every {
        0 => format!("{},{k}\n", k * step),
        _ => format!("{},stale\n", k * step),
    };
    (0..count).map(line).collect()
}

/// Where a window is settled by the readings, those with marks may settle another.
#[test]
fn two_lengths_of_windows() {
    let input = marks_but(3, 60, 1000);
    let title = |rollups: &str| {
        let line = format!("{rollups} --step 500ms --adjust-window --format text -");
        let text = figures(&line, input.as_bytes()).output;
        text.lines().next().unwrap().rsplit_once("none, ").unwrap().1.to_string()
    };
    let [some, all] = ["--rollup avg", "--rollup default"].map(title);
    assert_ne!(some, all);
    let length = all.strip_prefix("windows of ").unwrap();
    let both = title("--rollup default --rollup avg");
    assert_eq!(both, format!("{some} and, where marks are seen, {length}"));
}

/// For the two that see it a mark is a reading.
#[test]
fn a_window_of_few() {
    let of = |rollup: &str, least: u32| {
        let line = format!("--rollup {rollup} --step 1s --window 2s --min-readings {least} -");
        let text = figures(&line, READINGS.as_bytes()).output;
        let figures = text.lines().skip(1).map(|line| line.split_once(',').unwrap().1);
        figures.collect::<Vec<_>>().join(" ")
    };
    assert_eq!(of("default", 1), "1 2 stale stale stale 5 4");
    assert_eq!(of("default", 2), "NaN 2 stale stale NaN NaN 4");
    assert_eq!(of("stale_samples", 2), "NaN 0 1 2 NaN NaN 0");
    assert_eq!(of("max", 1), "1 2 2 NaN NaN 5 5");
    assert_eq!(of("max", 2), "NaN 2 NaN NaN NaN NaN 5");
}

/// The word stands for the value, also under the name of a rollup, where NaN is no reading.
#[test]
fn they_are_read_back() {
    let text = noted("--rollup default --step 1s -", READINGS, "");
    assert_eq!(
        text,
        "time,default\n1000,1\n2000,2\n3000,stale\n4000,stale\n5000,NaN\n6000,5\n7000,4\n"
    );
    let note = "figures: standard input: lines without a figure (NaN), left out: 1\n";
    let again = figures("--rollup default --step 1s -", text.as_bytes());
    assert_eq!((again.output, again.errors), (text.clone(), format!("{note}{SECONDS}")));
    let counts = figures("--rollup stale_samples --step 10s -", text.as_bytes()).output;
    assert_eq!(counts, "time,stale_samples\n10000,2\n");
    let dressed = "name,value,time\na, stale ,1000\na,\"stale\",2000\r\n";
    let line = "--rollup stale_samples --step 2s -";
    assert_eq!(figures(line, dressed.as_bytes()).output, "name,time,stale_samples\na,2000,2\n");
}

/// No other word is one.
#[test]
fn other_words() {
    let line = "--rollup default --step 1s -";
    for word in ["Stale", "STALE", "staLe"] {
        let hint = "expected a number as value, or stale in lower case";
        refused(line, &format!("0,1\n1,{word}\n"), &format!(":2: {hint}, found \"{word}\""));
    }
    for word in ["stale!", "StaleNaN", "stalenan", "s", "-stale"] {
        let message = format!(":1: expected a number as value, found \"{word}\"");
        refused(line, &format!("0,{word}\n"), &message);
    }
    let value = "refusal 5 at reading 2: the value is NaN or infinite: NaN";
    refused(line, "0,stale\n1,NaN\n", &format!(":2: {value}"));
    // As a time or a name it is what it was.
    let time = "expected a time: milliseconds, or as 2026-01-31T12:00:00Z, found \"stale\"";
    refused(line, "0,1\nstale,1\n", &format!(":2: {time}"));
    let named = figures(line, b"stale,2026-05-01,1\n").output;
    assert_eq!(named, "name,time,default\nstale,2026-05-01T00:00:00Z,1\n");
    // What may be a comment or a reading is refused, as with a number.
    let either = "expected a comment or a reading, found what may be either: a name that begins \
                  with # stands in quotes";
    refused(line, "a,0,1\n#7,1,stale\n", &format!(":2: {either}"));
}

#[test]
fn a_step_is_refused() {
    let sentence = "default or stale_samples is asked for with a preparing step other than none";
    for rollup in ["default", "stale_samples"] {
        for pre in ["resets_once", "delta", "deriv", "intervals", "resets"] {
            let line = format!("--rollup {rollup} --pre {pre} --step 1s -");
            let message = format!("refusal 19: {sentence}: {rollup} after {pre}");
            for input in [READINGS, "1000,1\n"] {
                refused(&line, input, &format!(": {message}"));
            }
            refused(&line, "a,1000,1\n", &format!(": series a: {message}"));
            let line = format!("explain --at 0 --rollup {rollup} --pre {pre} --step 1s -");
            refused(&line, READINGS, &format!(": {message}"));
        }
    }
    let line = "--rollup avg --rollup default --pre delta --step 1s -";
    refused(line, READINGS, &format!(": refusal 19: {sentence}: default after delta"));
    assert_eq!(figures("--rollup default --pre none --step 1s -", b"0,1\n").status, 0);
}

/// A fault behind marks is named by its place among all readings.
#[test]
fn faults_beside_them() {
    for rollup in ["avg", "default"] {
        for line in [
            format!("--rollup {rollup} --step 1s -"),
            format!("explain --at 0 --rollup {rollup} --step 1s -"),
        ] {
            let order = "refusal 4 at reading 4: the time is below the one before: 5 after 6";
            refused(&line, "1,stale\n2,1\n6,stale\n5,1\n", &format!(":4: {order}"));
            refused(&line, "1,stale\n2,1\n6,1\n5,stale\n", &format!(":4: {order}"));
            let value = "refusal 5 at reading 3: the value is NaN or infinite: inf";
            refused(&line, "1,stale\n2,stale\n3,inf\n", &format!(":3: {value}"));
        }
    }
}

#[test]
fn crossings_and_merge_refuse_them() {
    let message = |call: &str| {
        format!(
            "refusal 5 at reading 3: the value is a staleness mark, which cannot be handed to {call}"
        )
    };
    refused("crossings --limit 2 -", READINGS, &format!(":3: {}", message("crossings")));
    let named = READINGS.replace("000,", "000,a,");
    let named = format!("time,name,value\n{named}");
    let text = format!(":4: series a: {}", message("crossings"));
    refused("crossings --limit 2 -", &named, &text);
    let folder = Folder::new("refused");
    folder.write("panel.csv", "1000,1\n2000,2\n");
    folder.write("drive.csv", READINGS);
    for files in ["panel.csv drive.csv", "drive.csv panel.csv"] {
        let outcome = figures_in(folder.path(), &format!("merge {files}"), b"");
        let errors = format!("figures: drive.csv:3: {}\n", message("merge"));
        assert_eq!(outcome, Outcome { status: 1, output: String::new(), errors });
    }
}

/// The nearest reading is found by the times, whatever its value is.
#[test]
fn the_nearest_may_be_one() {
    let of = |line: &str| noted(&format!("nearest {line} -"), READINGS, "");
    assert_eq!(of("--at 3100"), "index,time,value,distance\n2,3000,stale,100\n");
    assert_eq!(of("--at 2100 --decimals 1"), "index,time,value,distance\n1,2000,2.0,100\n");
    let object =
        r#"{"name":"standard input","index":3,"time":4000,"value":"stale","distance":200}"#;
    assert_eq!(of("--at 4200 --format json"), format!("{object}\n"));
    assert!(
        of("--at 4200 --format text").ends_with("standard input      3  4000  stale     200ms\n\n")
    );
}

/// The lines of `explain` from the reach on.
fn explained(line: &str) -> String {
    let text = noted(&format!("explain {line} --step 1s --window 2s -"), READINGS, "");
    let from = text.find("reach").unwrap();
    text[from..].split_once('\n').unwrap().1.to_string()
}

#[test]
fn explain_says_how_many_were_taken_out() {
    let lines = "marks        2 taken out, 1 in the window
before       1000  1
predecessor  1000  1
in window    1 readings
             2000  2
after        6000  5, 3s after the output time
answer       2  bits 0x4000000000000000
";
    assert_eq!(explained("--at 3000 --rollup max"), lines);
    let prepared = explained("--at 7000 --rollup sum --pre delta");
    let lines =
        "in window    2 readings\n             6000  -1 from 5\n             7000  -1 from 4\n";
    assert!(prepared.starts_with("marks        2 taken out, 0 in the window\n"), "{prepared}");
    assert!(prepared.contains(lines), "{prepared}");
    let none = figures("explain --at 1000 --rollup max --step 1s -", b"1000,1\n").output;
    assert!(!none.contains("marks"), "{none}");
}

#[test]
fn explain_shows_those_that_are_seen() {
    let lines = "before       2000  2
predecessor  2000  2
in window    2 readings, 2 of them staleness marks
             3000  stale
             4000  stale
after        6000  5, 2s after the output time
answer       stale  bits 0x7ff0000000000002
";
    assert_eq!(explained("--at 4000 --rollup default"), lines);
    let counted = explained("--at 5000 --rollup stale_samples");
    assert!(
        counted.starts_with("before       3000  stale\npredecessor  3000  stale\n"),
        "{counted}"
    );
    assert!(counted.contains("in window    1 readings, 1 of them staleness marks\n"), "{counted}");
    assert!(counted.ends_with("answer       1  bits 0x3ff0000000000000\n"), "{counted}");
    assert!(explained("--at 2000 --rollup default").contains("after        3000  stale, 1s after"));
}

/// Several series are named as those are whose times may be seconds.
#[test]
fn notes() {
    let input = "a,2026-05-01,1\nb,2026-05-01,stale\nc,2026-05-01,stale\nc,2026-05-02,stale\n";
    let errors = |line: &str, input: &str| figures(line, input.as_bytes()).errors;
    let line = "--rollup max --step 1d -";
    let several =
        format!("figures: standard input: series b and 1 more: staleness marks, {SEE}: 3\n");
    assert_eq!(errors(line, input), several);
    let one = format!("figures: standard input: series b: staleness marks, {SEE}: 1\n");
    assert_eq!(errors(line, &input[..34]), one);
    assert_eq!(errors("--rollup max --rollup default --step 1d -", input), several);
    assert_eq!(errors("--rollup stale_samples --rollup default --step 1d -", input), "");
    let stats = errors("--rollup default --step 1d --stats -", input);
    assert!(
        stats.starts_with("3 series, 4 readings, 3 of them staleness marks, 4 figures, "),
        "{stats}"
    );
}

/// The number of jobs does not show, where windows overlap much and where they do not.
#[test]
fn jobs() {
    let line = |k: i64| match k % 41 {
        0..3 => format!("{},stale\n", k * 60_000 + k * k % 977),
        _ => format!("{},{}\n", k * 60_000 + k * k % 977, k * 7919 % 1009 % 40 - 4),
    };
    let input: String = (0..6000).map(line).collect();
    for rollups in ["--rollup default --rollup median", "--rollup stale_samples --rollup stddev"] {
        for window in ["3d", "5m"] {
            let of = |jobs: u32| {
                let line =
                    format!("{rollups} --step 1m --window {window} --readings --jobs {jobs} -");
                figures(&line, input.as_bytes())
            };
            let one = of(1);
            assert_eq!(one.status, 0);
            assert!([2, 3, 7].map(of).iter().all(|several| *several == one));
        }
    }
}

/// The path of a class.
fn path<'a>(svg: &'a str, class: &str) -> Option<&'a str> {
    let (_, rest) = svg.split_once(&format!("<path class=\"{class}\" d=\""))?;
    Some(rest.split_once('"').unwrap().0)
}

const LEGEND: &str = ">dotted: a staleness mark, the series went away";

/// A line through both panels where marks begin, at which the line of the readings is broken. The
/// readings are along the frame from 90 to 960, one second every 145.
#[test]
fn a_picture_shows_where_a_series_went_away() {
    let svg = picture(READINGS, "--rollup max --step 1s --window 3s --start 4000 --end 7000");
    assert_eq!(path(&svg, "away"), Some("M380 34V204M380 220V350"));
    assert_eq!(path(&svg, "line").unwrap().matches('M').count(), 2);
    assert_eq!(svg.matches("<circle class=\"dot\"").count(), 4);
    assert!(svg.contains(&format!("{LEGEND}</text>")) && path(&svg, "stale").is_none(), "{svg}");
    // The counter goes on over what was taken out, broken where the readings are.
    let svg = picture(READINGS, "--rollup delta --pre resets_once --step 1s");
    assert_eq!(path(&svg, "corrected").unwrap().matches('M').count(), 2);
    let none = picture("1000,1\n2000,2\n", "--rollup max --step 1s");
    assert!(path(&none, "away").is_none() && !none.contains("staleness"), "{none}");
    // One that stands before what is shown.
    let later = picture(READINGS, "--rollup max --step 1s --start 6000");
    assert!(path(&later, "away").is_none() && !later.contains(LEGEND), "{later}");
}

/// First, last, between readings of one time, and nothing else.
#[test]
fn marks_at_the_ends_of_a_picture() {
    let lines = |readings: &str| {
        let svg = picture(readings, "--rollup default --step 1s");
        path(&svg, "away").unwrap().matches('M').count() / 2
    };
    assert_eq!(lines("1000,stale\n2000,1\n9000,stale\n"), 2);
    assert_eq!(lines("1000,stale\n2000,stale\n"), 1);
    assert_eq!(lines("5000,stale\n"), 1);
    assert_eq!(lines("1000,1\n1000,stale\n1000,2\n2000,3\n"), 1);
}

/// The figures of `default` are broken, too, and have a tick where they are marks.
#[test]
fn a_picture_of_figures_that_are_marks() {
    let svg = picture(READINGS, "--rollup default --step 1s");
    assert_eq!(path(&svg, "stale").unwrap().matches('M').count(), 2);
    assert_eq!(path(&svg, "none").unwrap().matches('M').count(), 1);
    assert_eq!(svg.matches("<circle class=\"figure").count(), 4);
    assert!(
        svg.contains(&format!("{LEGEND}; purple tick at the bottom: the figure is a mark</text>"))
    );
    let svg = picture(READINGS, "--rollup default --step 10ms --window 1s");
    assert_eq!(path(&svg, "figures").unwrap().matches('M').count(), 2);
}

/// As many marks as there may be are drawn in as many columns as there are.
#[test]
fn many_marks_are_thinned() {
    let readings = marks_but(2, 100_000, 60_000);
    let svg = picture(&readings, "--rollup max --step 1d");
    assert!(svg.len() < 400_000, "{}", svg.len());
    let lines = path(&svg, "away").unwrap().matches('M').count() / 2;
    assert!((860..=871).contains(&lines), "{lines}");
}

/// The drive that ships was unplugged three times.
#[test]
fn of_a_drive() {
    let text = std::fs::read_to_string(data().join("drive.csv")).unwrap();
    let marks: Vec<&str> = text.lines().filter_map(|line| line.strip_suffix(",stale")).collect();
    assert_eq!(marks.len(), 3);
    let run = |line: &str| {
        let outcome = figures_in(&data(), &format!("{line} drive.csv"), b"");
        assert_eq!(outcome.status, 0, "{outcome:?}");
        outcome.output
    };
    let last = run("--rollup default --step 1h");
    let away = last.lines().filter_map(|line| line.strip_suffix(",stale"));
    assert_eq!(away.collect::<Vec<_>>(), marks);
    let counts = run("--rollup stale_samples --step 70d");
    let counts = counts.lines().skip(1).map(|line| line.split_once(',').unwrap().1);
    let counts = counts.filter_map(|count| count.parse::<f64>().ok().filter(|count| *count > 0.0));
    assert_eq!(counts.sum::<f64>(), 3.0);
}
