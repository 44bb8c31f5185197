//! Crossings of a limit, and the reading that is nearest to a time.

mod common;

use common::{Folder, Outcome, data, figures, figures_in};

const READINGS: &str = "time,value\n2026-05-01,39\n2026-05-02,40\n2026-05-03,41.25\n\
                        2026-05-04,12\n2026-05-05,12\n2026-05-06,40\n";

/// Accepted without a word on standard error.
#[track_caller]
fn output(line: &str, input: &str) -> String {
    let outcome = figures(line, input.as_bytes());
    assert_eq!((outcome.status, outcome.errors.as_str()), (0, ""));
    outcome.output
}

/// What lies at the limit is above it.
#[test]
fn csv() {
    let header = "index,time,before,value,direction\n";
    let text = output("crossings --limit 40 -", READINGS);
    let rows = "1,2026-05-02T00:00:00Z,39,40,up\n3,2026-05-04T00:00:00Z,41.25,12,down\n\
                5,2026-05-06T00:00:00Z,12,40,up\n";
    assert_eq!(text, format!("{header}{rows}"));
    let millis = output("crossings --limit 41 --times ms --decimals 1 -", READINGS);
    let rows = "2,1777766400000,40.0,41.2,up\n3,1777852800000,41.2,12.0,down\n";
    assert_eq!(millis, format!("{header}{rows}"));
    for limit in ["12", "-5", "41.26", "1e300"] {
        assert_eq!(output(&format!("crossings --limit {limit} -"), READINGS), header);
    }
    for empty in ["", "# nothing\n", "time,value\n"] {
        assert_eq!(output("crossings --limit 0 -", empty), header);
    }
}

#[test]
fn json_and_text() {
    let text = output("crossings --limit 41 --format json -", READINGS);
    let up = r#"{"name":"standard input","index":2,"time":"2026-05-03T00:00:00Z","before":40,"value":41.25,"direction":"up"}"#;
    let down = r#"{"name":"standard input","index":3,"time":"2026-05-04T00:00:00Z","before":41.25,"value":12,"direction":"down"}"#;
    assert_eq!(text, format!("{up}\n{down}\n"));
    let text = output("crossings --limit 41 --decimals 2 --format text -", READINGS);
    let table = "standard input: 6 readings, 2 crossings of 41
index                  time  before  value  direction
    2  2026-05-03T00:00:00Z   40.00  41.25         up
    3  2026-05-04T00:00:00Z   41.25  12.00       down

";
    assert_eq!(text, table);
    let few = output("crossings --limit 0.5 --format text -", "a,2026-05-01,0\na,2026-05-02,1\n");
    assert!(few.starts_with("a: 2 readings, 1 crossing of 0.5\nindex "), "{few}");
}

/// Each series has its own crossings, also where it goes on in another file.
#[test]
fn several_files() {
    let folder = Folder::new("crossed");
    folder.write("may.csv", "\"a,1\",2026-05-01,1\nb,2026-05-01,9\n\"a,1\",2026-05-02,2\n");
    folder.write("june.csv", "\"a,1\",2026-06-01,8\nb,2026-06-01,9\n");
    folder.write("c.csv", "2026-05-01,9\n2026-05-02,1\n");
    let run = |line: &str| figures_in(folder.path(), line, b"");
    let text = "name,index,time,before,value,direction\n\"a,1\",2,2026-06-01T00:00:00Z,2,8,up\n\
                c,1,2026-05-02T00:00:00Z,9,1,down\n";
    for jobs in [1, 2, 5] {
        let line = format!("crossings --limit 5 --jobs {jobs} may.csv june.csv c.csv");
        assert_eq!(run(&line), Outcome { status: 0, output: text.into(), errors: "".into() });
    }
    let nearest = "name,index,time,value,distance\n\"a,1\",1,2026-05-02T00:00:00Z,2,172800000\n\
                   b,0,2026-05-01T00:00:00Z,9,259200000\nc,1,2026-05-02T00:00:00Z,1,172800000\n";
    let line = "nearest --at 2026-05-04 --output out.csv may.csv june.csv c.csv";
    assert_eq!(run(line), Outcome { status: 0, output: "".into(), errors: "".into() });
    assert_eq!(folder.read("out.csv"), nearest);
    let missing = run("crossings --limit 5 missing.csv");
    let errors = "figures: missing.csv: No such file or directory (os error 2)\n";
    assert_eq!(missing, Outcome { status: 1, output: "".into(), errors: errors.into() });
    let same = run("crossings --limit 5 --output c.csv c.csv");
    assert_eq!((same.status, folder.read("c.csv").len()), (2, 26));
}

/// Figures are read, and what is written is read where the value's column is chosen.
#[test]
fn in_a_pipe() {
    let days = output("--rollup max --step 2d -", READINGS);
    let text = output("crossings --limit 41 -", &days);
    let rows = "1,2026-05-03T00:00:00Z,39,41.25,up\n2,2026-05-05T00:00:00Z,41.25,12,down\n";
    assert_eq!(text, format!("index,time,before,value,direction\n{rows}"));
    let again = figures("--rollup sum --step 2d --value-column value -", text.as_bytes());
    assert_eq!(again.output, "time,sum\n2026-05-03T00:00:00Z,41.25\n2026-05-05T00:00:00Z,12\n");
    let note = "figures: standard input: columns that are not used: index, before, direction\n";
    assert_eq!(again.errors, note);
}

/// Of the series that ships, as its lines say.
#[test]
fn of_a_cartridge() {
    let text = std::fs::read_to_string(data().join("cartridge.csv")).unwrap();
    let values = text.lines().filter_map(|line| line.rsplit_once(',')?.1.parse().ok());
    let above: Vec<bool> = values.map(|value: f64| value >= 40.0).collect();
    let crossed = (1..above.len()).filter(|place| above[*place] != above[place - 1]);
    let crossed: Vec<String> = crossed.map(|place| place.to_string()).collect();
    let found = figures_in(&data(), "crossings --limit 40 cartridge.csv", b"").output;
    let indexes = found.lines().skip(1).map(|line| line.split(',').nth(1).unwrap());
    assert_eq!(indexes.collect::<Vec<_>>(), crossed);
    assert!(crossed.len() > 20, "{crossed:?}");
}

#[test]
fn the_nearest() {
    let of = |at: &str| {
        let text = output(&format!("nearest --at {at} -"), READINGS);
        text.strip_prefix("index,time,value,distance\n").unwrap().to_string()
    };
    assert_eq!(of("2026-05-03"), "2,2026-05-03T00:00:00Z,41.25,0\n");
    assert_eq!(of("2026-05-03T12:00:00Z"), "2,2026-05-03T00:00:00Z,41.25,43200000\n");
    assert_eq!(of("2026-05-03T12:00:00.001Z"), "3,2026-05-04T00:00:00Z,12,43199999\n");
    assert_eq!(of("0"), "0,2026-05-01T00:00:00Z,39,1777593600000\n");
    assert_eq!(of("2026-05-06T00:00:01Z"), "5,2026-05-06T00:00:00Z,40,1000\n");
    let ends = "-1125899906842624,1\n1125899906842624,2\n";
    let far = output("nearest --at 0 -", ends);
    assert_eq!(far, "index,time,value,distance\n0,-1125899906842624,1,1125899906842624\n");
}

/// A series without readings has a line with nothing in it.
#[test]
fn the_nearest_for_people_and_for_a_panel() {
    let folder = Folder::new("nearest");
    folder.write("a.csv", READINGS);
    folder.write("none.csv", "time,value\n");
    let run = |options: &str| {
        let line = format!("nearest --at 2026-05-03T12:00:00Z {options} a.csv none.csv");
        let outcome = figures_in(folder.path(), &line, b"");
        assert_eq!((outcome.status, outcome.errors.as_str()), (0, ""));
        outcome.output
    };
    let rows = "a,2,2026-05-03T00:00:00Z,41.25,43200000\nnone,,,,\n";
    assert_eq!(run(""), format!("name,index,time,value,distance\n{rows}"));
    let table = "nearest to 2026-05-03T12:00:00Z
name  index                  time  value  distance
a         2  2026-05-03T00:00:00Z  41.25       12h
none   none                  none   none      none

";
    assert_eq!(run("--format text"), table);
    let found = r#"{"name":"a","index":2,"time":1777766400000,"value":41.2,"distance":43200000}"#;
    let none = r#"{"name":"none","index":null,"time":null,"value":null,"distance":null}"#;
    assert_eq!(run("--format json --times ms --decimals 1"), format!("{found}\n{none}\n"));
}
