//! Pictures: valid whatever a series is called, with room for long numbers and times as times.

mod common;

use common::{Folder, Outcome, figures_in, picture};

/// The texts of a picture.
fn texts(svg: &str) -> Vec<&str> {
    let texts = svg.split("</text>").filter_map(|part| part.rsplit_once('>'));
    texts.map(|(_, text)| text).collect()
}

#[test]
fn names_are_escaped() {
    let name = "a\u{1}b\u{1b}[31m\u{7f}\u{85}\u{202e}c\u{2066}\u{feff}\u{fffe}\u{ffff}\t<&>é";
    let svg = picture(&format!("{name},2026-05-01,1\n"), "--rollup avg --step 1m");
    let allowed = |c: char| c == '\n' || (c >= ' ' && !('\u{7f}'..='\u{9f}').contains(&c));
    let marks = ['\u{202e}', '\u{2066}', '\u{feff}', '\u{fffe}', '\u{ffff}'];
    assert!(svg.chars().all(|c| allowed(c) && !marks.contains(&c)));
    let title = "a\\u{1}b\\u{1b}[31m\\u{7f}\\u{85}\\u{202e}c\\u{2066}\\u{feff}\\u{fffe}\\u{ffff}\
                 \\t&lt;&amp;&gt;é: avg of windows of 1m, one every 1m";
    assert_eq!(texts(&svg)[0], title);
    let svg = picture("2026-05-01,1\n", "--rollup avg --step 1m --unit <\u{7}\u{202e}>");
    assert!(texts(&svg).contains(&"readings, &lt;\\u{7}\\u{202e}&gt;"));
}

/// The left end of the text that ends at the frame, taken as seven units a letter.
fn left_ends(svg: &str) -> Vec<f64> {
    let marks = svg.lines().filter(|line| line.contains("text-anchor=\"end\">"));
    let place = |line: &str| {
        let (_, rest) = line.split_once("x=\"").unwrap();
        let x: f64 = rest.split_once('"').unwrap().0.parse().unwrap();
        let text = line.trim_end_matches("</text>").rsplit_once('>').unwrap().1;
        x - 7.0 * text.chars().count() as f64
    };
    marks.map(place).collect()
}

#[test]
fn long_numbers_have_room() {
    for (low, high) in [
        ("1234567.000001", "1234567.000002"),
        ("-9999999.5", "9999999.5"),
        ("1.7976931348623157e308", "-1.7976931348623157e308"),
        ("123456789012345", "123456789012346"),
        ("0.0000000001", "0.00000000010001"),
        ("5e-324", "1e-323"),
        ("0", "1e-300"),
        ("1", "2"),
    ] {
        let readings = format!("2026-05-01,{low}\n2026-05-02,{high}\n");
        let ends = left_ends(&picture(&readings, "--rollup max --step 1d"));
        assert!(ends.len() > 3 && ends.iter().all(|end| *end >= 24.0), "{low} {ends:?}");
    }
    // Marks are told apart: no two of a panel have the same text.
    let readings = "2026-05-01,123456789012345\n2026-05-02,123456789012346\n";
    let svg = picture(readings, "--rollup sum --step 1h");
    let marks: Vec<&str> =
        svg.lines().filter(|line| line.contains("text-anchor=\"end\">")).collect();
    let marks = marks.join("\n");
    let mut texts: Vec<&str> = texts(&marks);
    let all = texts.len();
    texts.sort_unstable();
    texts.dedup();
    assert_eq!(texts.len(), all / 2, "{texts:?}");
}

#[test]
fn times_are_times() {
    let readings: String =
        (1..=9).map(|day| format!("2026-05-0{day}T06:00:00Z,{}\n", day * 7 % 5)).collect();
    for rollup in ["tmin", "tmax", "tfirst", "tlast", "tlast_change"] {
        let svg = picture(&readings, &format!("--rollup {rollup} --step 1d --unit m"));
        let texts = texts(&svg);
        let marks = left_ends(&svg).len();
        assert!(texts.contains(&&*format!("{rollup}, UTC")), "{texts:?}");
        assert!(
            !texts.iter().any(|text| text.contains("e9") || text.starts_with("17")),
            "{texts:?}"
        );
        assert!(
            texts.iter().filter(|text| text.starts_with("2026-05-0")).count() >= 7,
            "{texts:?}"
        );
        assert!(marks > 5, "{marks}");
    }
}

#[test]
fn the_preparing_step_is_in_the_title() {
    let readings = "2026-05-01,1\n2026-05-02,3\n";
    let title = |options: &str| texts(&picture(readings, options))[0].to_string();
    assert_eq!(title("--rollup avg --step 1d"), "in: avg of windows of 1d, one every 1d");
    assert_eq!(
        title("--rollup avg --step 1d --pre deriv"),
        "in: avg after deriv of windows of 1d, one every 1d"
    );
}

/// After resets_once the counter goes on over its restart, in the same panel; after no other step is
/// there such a line.
#[test]
fn a_counter_goes_on_over_its_restart() {
    let readings = "2026-05-01,60\n2026-05-02,80\n2026-05-03,20\n2026-05-04,40\n";
    let line = |svg: &str, class: &str| -> Option<Vec<(f64, f64)>> {
        let (_, path) = svg.split_once(&format!("<path class=\"{class}\" d=\"M"))?;
        let points = path.split_once("h0").unwrap().0.split('L');
        let point = |point: &str| {
            let (x, y) = point.split_once(' ').unwrap();
            (x.parse().unwrap(), y.parse().unwrap())
        };
        Some(points.map(point).collect())
    };
    let svg = picture(readings, "--rollup delta --step 1d --pre resets_once");
    let (raw, corrected) = (line(&svg, "line").unwrap(), line(&svg, "corrected").unwrap());
    assert_eq!(raw[..2], corrected[..2]);
    // 60, 80, 100, 120 stand as far apart as 20 and 40.
    let step = raw[2].1 - raw[3].1;
    for pair in corrected.windows(2) {
        assert!((pair[0].1 - pair[1].1 - step).abs() < 0.2, "{corrected:?}");
    }
    assert!(texts(&svg).contains(&"pale: the restarts added back"));
    for pre in ["none", "resets", "delta", "deriv", "intervals"] {
        let svg = picture(readings, &format!("--rollup delta --step 1d --pre {pre}"));
        assert_eq!(line(&svg, "corrected"), None);
        assert!(!texts(&svg).contains(&"pale: the restarts added back"));
    }
}

#[test]
fn a_picture_has_some_dozen_parts_at_most() {
    let folder = Folder::new("dozen");
    let series =
        |count: usize| -> String { (0..count).map(|n| format!("s{n},2026-05-01,1\n")).collect() };
    folder.write("24.csv", &series(24));
    folder.write("25.csv", &series(25));
    let run = |options: &str| {
        let line = format!("--step 1d --plot p.svg --output o.csv {options}");
        figures_in(folder.path(), &line, b"")
    };
    let refused = |options: &str, count: &str| {
        let errors = format!(
            "figures: --plot p.svg: expected at most 24 series and rollups for a picture, found {count}\n"
        );
        assert_eq!(run(options), Outcome { status: 1, output: String::new(), errors });
        assert_eq!(folder.names(), ["24.csv", "25.csv"]);
    };
    refused("--rollup avg 25.csv", "25");
    refused("--rollup avg --rollup max 24.csv", "48");
    assert_eq!(run("--rollup avg 24.csv").status, 0);
}

/// A line of many figures begins with a move, also where the first of them is missing.
#[test]
fn a_line_begins_with_a_move() {
    let readings: String = (0..2).map(|day| format!("2026-05-0{},1\n", 1 + 8 * day)).collect();
    let svg = picture(&readings, "--rollup avg --step 10m --start 2026-04-30");
    let paths = svg.lines().filter_map(|line| line.split_once(" d=\""));
    assert!(paths.clone().any(|(class, _)| class.contains("figures")));
    for (class, path) in paths {
        assert!(path.starts_with(['M', '"']) && !path.contains("h0h0"), "{class} {path}");
    }
}
