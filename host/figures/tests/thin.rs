//! How many readings stand behind a figure: shown, asked for, and drawn.

mod common;

use common::{Folder, data, figures, figures_in};

/// A reading a second for ten seconds, and then one every four.
fn readings() -> String {
    let times = (1..=10).chain([14, 18, 22, 40]);
    times.map(|second| format!("{},{}\n", second * 1000, second % 3)).collect()
}

fn output(line: &str) -> String {
    let outcome = figures(line, readings().as_bytes());
    assert_eq!(outcome.status, 0, "{outcome:?}");
    outcome.output
}

#[test]
fn csv_has_them_on_demand() {
    let text = output("--rollup sum --step 5s --start 5000 --end 40000 --readings -");
    let rows = "5000,6,5\n10000,4,5\n15000,2,1\n20000,0,1\n25000,1,1\n30000,NaN,0\n35000,NaN,0\n\
                40000,1,1\n";
    assert_eq!(text, format!("time,sum,readings\n{rows}"));
    let again = figures("--rollup sum --step 5s -", text.as_bytes());
    assert_eq!(
        again.output,
        "time,sum\n5000,6\n10000,4\n15000,2\n20000,0\n25000,1\n30000,NaN\n35000,NaN\n40000,1\n"
    );
    assert!(
        again.errors.contains("figures: standard input: columns that are not used: readings\n")
    );
}

/// The core counts them, over the window that is in force.
#[test]
fn they_are_the_core_s_own_count() {
    for settings in [
        "--step 5s",
        "--step 1s",
        "--step 3s --window 7s",
        "--step 1s --adjust-window",
        "--step 30s --default-rollup --lookback 2s",
        "--step 5s --pre intervals",
        "--step 5s --per-call 7 --stats",
    ] {
        let counts = output(&format!("--rollup count {settings} -"));
        let shown = output(&format!("--rollup max --readings {settings} -"));
        assert_eq!(counts.lines().count(), shown.lines().count());
        for (counted, row) in counts.lines().zip(shown.lines()).skip(1) {
            let (time, count) = counted.split_once(',').unwrap();
            let count = if count == "NaN" { "0" } else { count };
            assert!(row.starts_with(&format!("{time},")) && row.ends_with(&format!(",{count}")));
        }
    }
}

#[test]
fn a_table_shows_them() {
    let text = output("--rollup sum --step 10s --format text -");
    let table = "standard input: 14 readings, prepared by none, windows of 10s
time   sum  readings
10000   10        10
20000    2         2
30000    1         1
40000    1         1

";
    assert_eq!(text, table);
}

#[test]
fn a_figure_of_few_is_left_out() {
    let line = "--rollup sum --step 5s --start 5000 --end 20000";
    let of = |least: &str| output(&format!("{line} --min-readings {least} -"));
    assert_eq!(of("1"), output(&format!("{line} -")));
    assert_eq!(of("5"), "time,sum\n5000,6\n10000,4\n15000,NaN\n20000,NaN\n");
    assert_eq!(of("6"), "time,sum\n5000,NaN\n10000,NaN\n15000,NaN\n20000,NaN\n");
    let absent = output("--rollup absent --step 5s --start 30000 --end 30000 --min-readings 1 -");
    assert_eq!(absent, "time,absent\n30000,NaN\n");
    for bad in ["0", "-1", "x", "1.5"] {
        let refused = figures(&format!("{line} --min-readings {bad} -"), b"");
        let message = format!(
            "figures: --min-readings: expected a whole number from 1 on, found \"{bad}\"; see \
             figures --help\n"
        );
        assert_eq!((refused.status, refused.errors), (2, message));
    }
}

/// In the series that ships, 36 of 144 readings are not a whole day.
#[test]
fn a_picture_shows_a_thin_window() {
    let folder = Folder::new("thin");
    let file = data().join("climate.csv");
    let drawn = |settings: &str| {
        let line = format!("--rollup avg {settings} --plot p.svg {}", file.display());
        assert_eq!(figures_in(folder.path(), &line, b"").status, 0);
        folder.read("p.svg")
    };
    let count = |svg: &str, class: &str| svg.matches(&format!(" class=\"{class}\"")).count();
    let days = drawn("--step 1d");
    assert_eq!([count(&days, "window"), count(&days, "window thin")], [17, 3]);
    assert_eq!([count(&days, "figure"), count(&days, "figure thin")], [17, 3]);
    let minutes = drawn("--step 10m --window 1d");
    assert_eq!([count(&minutes, "figures"), count(&minutes, "figures thin")], [1, 1]);
    let whole = drawn("--step 1d --start 2026-03-03 --end 2026-03-07");
    assert_eq!([count(&whole, "window"), count(&whole, "window thin")], [5, 0]);
}
