//! Pictures of crossings: the readings, the limit and a mark on it at each crossing.

mod common;

use common::{Folder, Outcome, data, figures_in};

/// The picture of readings.
fn picture(readings: &str, options: &str) -> String {
    let folder = Folder::new("limits");
    folder.write("in.csv", readings);
    let line = format!("crossings {options} --plot p.svg --output o.csv in.csv");
    let outcome = figures_in(folder.path(), &line, b"");
    assert_eq!((outcome.status, outcome.errors.as_str()), (0, ""));
    assert_eq!(folder.names(), ["in.csv", "o.csv", "p.svg"]);
    folder.read("p.svg")
}

/// The paths of a class.
fn paths<'a>(svg: &'a str, class: &str) -> Vec<&'a str> {
    let begin = format!("<path class=\"{class}\" d=\"");
    let paths = svg.lines().filter_map(|line| line.strip_prefix(&begin)?.strip_suffix("\"/>"));
    paths.collect()
}

/// The place that a path begins at.
fn place(path: &str) -> (f64, f64) {
    let ends = path[1..].find(|letter: char| letter.is_ascii_alphabetic()).unwrap();
    let (x, y) = path[1..1 + ends].split_once(' ').unwrap();
    (x.parse().unwrap(), y.parse().unwrap())
}

/// Readings of the first days of a month.
fn days(values: &[f64]) -> String {
    values.iter().zip(1..).map(|(value, day)| format!("2026-05-{day:02},{value}\n")).collect()
}

/// The readings are along the frame from 90 to 960, one every 217.5.
#[test]
fn a_mark_stands_on_the_limit_at_each_crossing() {
    let svg = picture(&days(&[39.0, 41.0, 12.0, 12.0, 40.0]), "--limit 40 --unit errors");
    let limit = paths(&svg, "limit");
    assert_eq!(limit.len(), 1);
    let (left, height) = place(limit[0]);
    assert_eq!((left, limit[0].ends_with("H960")), (90.0, true));
    let marks = |class| paths(&svg, class).into_iter().map(place).collect::<Vec<_>>();
    assert_eq!(marks("up"), [(307.5, height), (960.0, height)]);
    assert_eq!(marks("down"), [(525.0, height)]);
    let dots = svg.lines().filter(|line| line.starts_with("<circle class=\"dot\" cx=\"960\""));
    assert_eq!(dots.filter(|line| line.contains(&format!("cy=\"{height}\""))).count(), 1);
    for text in ["in: 3 crossings of 40 errors", "limit 40 errors", "readings, errors"] {
        assert!(svg.contains(&format!(">{text}</text>")), "{text}");
    }
}

/// Also a limit that no reading is near to, and readings of which there are few or none.
#[test]
fn the_limit_is_in_the_frame() {
    for (values, limit) in [
        (&[1.0, 2.0][..], "50"),
        (&[1.0, 2.0], "-50"),
        (&[1.0, 2.0], "1.7976931348623157e308"),
        (&[f64::MIN, f64::MAX], "0"),
        (&[7.0], "7"),
        (&[], "5e-324"),
    ] {
        let svg = picture(&days(values), &format!("--limit {limit}"));
        let (_, height) = place(paths(&svg, "limit")[0]);
        assert!((34.0..=254.0).contains(&height), "{limit} {height}");
        let label = svg.lines().find(|line| line.contains("class=\"label\"")).unwrap();
        let (_, y) = label.split_once(" y=\"").unwrap();
        let y: f64 = y.split_once('"').unwrap().0.parse().unwrap();
        assert!((44.0..=254.0).contains(&y), "{limit} {label}");
        assert!(!svg.contains("NaN") && !svg.contains("inf\""), "{limit}");
        let crossings = usize::from(values.len() == 2 && limit == "0");
        assert_eq!(paths(&svg, "up").len(), crossings);
        assert_eq!(svg.contains(">no readings<"), values.is_empty());
    }
}

/// As many readings and crossings as there may be are drawn in as many columns as there are.
#[test]
fn a_long_series_is_thinned() {
    let minutes = |step: &dyn Fn(i64) -> i64| -> String {
        let readings = (0..300_000).map(|place| (step(place), place % 2));
        readings.map(|(minute, value)| format!("{},{value}\n", minute * 60_000)).collect()
    };
    let even = minutes(&|place| 20_000_000 + place);
    // Readings close to one another at the beginning make all after them far apart.
    let gaps = minutes(&|place| 20_000_000 + place + 10 * (place - 30).max(0));
    for readings in [even, gaps] {
        let svg = picture(&readings, "--limit 1");
        assert!(svg.len() < 200_000, "{}", svg.len());
        for class in ["up", "down"] {
            let marks = paths(&svg, class).len();
            assert!((860..=871).contains(&marks), "{marks}");
        }
    }
}

/// The marks of the series that ships are its crossings, none of which share a column.
#[test]
fn of_a_cartridge() {
    let text = std::fs::read_to_string(data().join("cartridge.csv")).unwrap();
    let svg = picture(&text, "--limit 40");
    let folder = Folder::new("cartridge");
    folder.write("in.csv", &text);
    let found = figures_in(folder.path(), "crossings --limit 40 in.csv", b"").output;
    for class in ["up", "down"] {
        let count = found.lines().filter(|line| line.ends_with(class)).count();
        assert_eq!(paths(&svg, class).len(), count);
        assert!(count > 10, "{found}");
    }
}

#[test]
fn a_picture_has_some_dozen_series_at_most() {
    let folder = Folder::new("parts");
    for count in [24, 25] {
        let series = (0..count).map(|n| format!("s{n},2026-05-01,1\n")).collect::<String>();
        folder.write(&format!("{count}.csv"), &series);
    }
    let run = |file: &str| {
        let line = format!("crossings --limit 1 --plot p.svg --output o.csv {file}");
        figures_in(folder.path(), &line, b"")
    };
    let errors = "figures: --plot p.svg: expected at most 24 series for a picture, found 25\n";
    let refused = Outcome { status: 1, output: String::new(), errors: errors.into() };
    assert_eq!(run("25.csv"), refused);
    assert_eq!(folder.names(), ["24.csv", "25.csv"]);
    assert_eq!(run("24.csv").status, 0);
    assert_eq!(paths(&folder.read("p.svg"), "limit").len(), 24);
}
