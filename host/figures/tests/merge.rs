//! One series from two logs.

mod common;

use common::{Folder, Outcome, data, figures, figures_in};

const PANEL: &str = "time,value\n2026-05-01T00:00:00Z,16.5\n2026-05-01T00:10:00Z,16.75\n\
                     2026-05-01T00:20:00Z,-0\n";
const SERVER: &str = "# From the server.\ntime,value\n2026-05-01T00:10:00Z,16.75\n\
                      2026-05-01T00:20:00Z,-0.0\n2026-05-01T00:30:00Z,0.1\n";
const BOTH: &str = "time,value\n2026-05-01T00:00:00Z,16.5\n2026-05-01T00:10:00Z,16.75\n\
                    2026-05-01T00:20:00Z,-0\n2026-05-01T00:30:00Z,0.1\n";

/// A folder with two logs.
fn logs(panel: &str, server: &str) -> Folder {
    let folder = Folder::new("merge");
    folder.write("panel.csv", panel);
    folder.write("server.csv", server);
    folder
}

/// Accepted without a word on standard error.
#[track_caller]
fn output(folder: &Folder, line: &str) -> String {
    let outcome = figures_in(folder.path(), line, b"");
    assert_eq!((outcome.status, outcome.errors.as_str()), (0, ""));
    outcome.output
}

/// What the two logs give.
#[track_caller]
fn merged(panel: &str, server: &str) -> String {
    output(&logs(panel, server), "merge panel.csv server.csv")
}

#[track_caller]
fn refused(panel: &str, server: &str, message: &str) {
    let errors = format!("figures: {message}\n");
    let refused = Outcome { status: 1, output: String::new(), errors };
    let folder = logs(panel, server);
    assert_eq!(figures_in(folder.path(), "merge panel.csv server.csv", b""), refused);
}

#[test]
fn logs_that_overlap() {
    let folder = logs(PANEL, SERVER);
    for jobs in [1, 2, 5] {
        assert_eq!(output(&folder, &format!("merge --jobs {jobs} panel.csv server.csv")), BOTH);
    }
    assert_eq!(output(&folder, "merge server.csv panel.csv"), BOTH);
    assert_eq!(output(&folder, "merge --output both.csv panel.csv server.csv"), "");
    assert_eq!(folder.read("both.csv"), BOTH);
    for files in ["both.csv both.csv", "both.csv panel.csv", "server.csv both.csv"] {
        assert_eq!(output(&folder, &format!("merge {files}")), BOTH);
    }
    let piped = figures_in(folder.path(), "merge panel.csv -", SERVER.as_bytes());
    assert_eq!((piped.status, piped.output.as_str()), (0, BOTH));
}

/// All bits of finite values come back, and times over the whole range.
#[test]
fn what_is_written_is_read_back() {
    let mut bits: u64 = 1;
    let mut random = || {
        bits = bits.wrapping_mul(6_364_136_223_846_793_005).wrapping_add(1);
        f64::from_bits(bits)
    };
    let usual = [0.0, -0.0, 5e-324, f64::MIN, f64::MAX, 0.1 + 0.2];
    let finite = (0..2000).map(|_| random()).filter(|value| value.is_finite());
    let values: Vec<f64> = usual.into_iter().chain(finite).collect();
    let time = |place: i64| place * 1_000_000_000_007 - (1 << 50);
    let line = |(value, place): (&f64, i64)| format!("{},{value:e}\n", time(place));
    let lines: Vec<String> = values.iter().zip(0..).map(line).collect();
    let folder = logs(&lines[..1500].concat(), &lines[700..].concat());
    for form in ["ms", "rfc3339"] {
        let text = output(&folder, &format!("merge --times {form} panel.csv server.csv"));
        let read = text.lines().skip(1).map(|line| line.split_once(',').unwrap().1);
        let read: Vec<u64> = read.map(|text| text.parse::<f64>().unwrap().to_bits()).collect();
        assert_eq!(read, values.iter().map(|value| value.to_bits()).collect::<Vec<_>>());
        folder.write("both.csv", &text);
        // A time that has another value, or is another time, would not merge to as many.
        for files in ["both.csv both.csv", "both.csv panel.csv", "server.csv both.csv"] {
            assert_eq!(output(&folder, &format!("merge --times {form} {files}")), text);
        }
    }
}

/// Cut in two parts that overlap, the series that ship are whole again, without the marks of a drive
/// that went away.
#[test]
fn the_series_that_ship() {
    for name in ["climate.csv", "drive.csv", "cartridge.csv"] {
        let text = std::fs::read_to_string(data().join(name)).unwrap();
        let lines = text.split_inclusive('\n').skip(2);
        let readings: Vec<&str> = lines.filter(|line| !line.contains("stale")).collect();
        let (third, half) = (readings.len() / 3, readings.len() / 2);
        let both = merged(&readings[third..].concat(), &readings[..half].concat());
        assert_eq!(both.lines().count(), 1 + readings.len(), "{name}");
        assert!(both == merged(&readings.concat(), ""), "{name}");
    }
}

/// As the first log has them, unless that has no readings.
#[test]
fn forms_of_times() {
    let (millis, date) = ("1777593600000,1\n", "2026-05-02,2\n");
    let of = |panel: &str, server: &str| merged(panel, server).replace("time,value\n", "");
    assert_eq!(of(millis, date), "1777593600000,1\n1777680000000,2\n");
    assert_eq!(of(date, millis), "2026-05-01T00:00:00Z,1\n2026-05-02T00:00:00Z,2\n");
    for empty in ["", "# nothing\n", "time,value\n"] {
        assert_eq!(of(empty, millis), millis);
        assert_eq!(of(millis, empty), millis);
        assert_eq!(of(empty, empty), "");
    }
}

/// Series of one name are merged, and those of one log stand alone.
#[test]
fn several_series() {
    let panel = "b,2026-05-01,1\n\"a,1\",2026-05-01,2\nb,2026-05-03,3\n";
    let server = "time,value,name\n2026-05-02,4,c\n2026-05-02,5,b\n2026-05-03,3,b\n";
    let text = "name,time,value\nb,2026-05-01T00:00:00Z,1\nb,2026-05-02T00:00:00Z,5\n\
                b,2026-05-03T00:00:00Z,3\n\"a,1\",2026-05-01T00:00:00Z,2\n\
                c,2026-05-02T00:00:00Z,4\n";
    assert_eq!(merged(panel, server), text);
    assert_eq!(merged(text, text), text);
    assert_eq!(merged(text, ""), text);
    assert_eq!(merged("", text), text);
}

/// A log without names is of the other's only series, and of none where there are several.
#[test]
fn a_log_without_names() {
    let (named, unnamed) = ("118,2026-05-01,1\n", "2026-05-02,2\n");
    let text = "name,time,value\n118,2026-05-01T00:00:00Z,1\n118,2026-05-02T00:00:00Z,2\n";
    assert_eq!(merged(named, unnamed), text);
    assert_eq!(merged(unnamed, named), text);
    let two = format!("{named}119,2026-05-01,1\n");
    let message = "expected names, since panel.csv has 2 series";
    refused(&two, unnamed, &format!("server.csv: {message}"));
    let message = "expected names, since server.csv has 2 series";
    refused(unnamed, &two, &format!("panel.csv: {message}"));
}

/// The time and both values, and where they stand.
#[test]
fn a_time_with_two_values() {
    let sentence = "a time has values of different bits in the two series";
    let other = SERVER.replace("16.75", "16.750000000000004");
    refused(
        PANEL,
        &other,
        &format!(
            "panel.csv:3: refusal 17 at reading 2: {sentence}: 2026-05-01T00:10:00Z has 16.75 here \
             and 16.750000000000004 in server.csv:3"
        ),
    );
    let other = SERVER.replace("-0.0", "0");
    refused(
        PANEL,
        &other,
        &format!(
            "panel.csv:4: refusal 17 at reading 3: {sentence}: 2026-05-01T00:20:00Z has -0 here and \
             0 in server.csv:4"
        ),
    );
    // The first of several, in the second of two series.
    refused(
        "a,1,1\nb,1,1\nb,2,2\nb,3,3\n",
        "b,2,7\nb,3,7\n",
        &format!(
            "panel.csv:3: series b: refusal 17 at reading 2: {sentence}: 2 has 2 here and 7 in \
             server.csv:1"
        ),
    );
}

/// Whose reading it is the number and the index do not say.
#[test]
fn a_fault_in_one_of_the_logs() {
    let order = "refusal 4 at reading 2: the time is not above the one before: 5 after 5";
    let value = "refusal 5 at reading 2: the value is NaN or infinite: inf";
    let time = "refusal 3 at reading 2: the time lies outside ±2^50 milliseconds: 1125899906842625";
    for (fault, message) in
        [("5,1\n5,1\n", order), ("5,1\n6,inf\n", value), ("5,1\n1125899906842625,1\n", time)]
    {
        let good = "time,value\n5,9\n6,9\n7,9\n";
        refused(fault, good, &format!("panel.csv:2: {message}"));
        refused(good, fault, &format!("server.csv:2: {message}"));
        refused("", fault, &format!("server.csv:2: {message}"));
        // Both, and a fault of a lower number in the second: the first goes before.
        refused(&format!("\n{fault}"), fault, &format!("panel.csv:3: {message}"));
        refused(fault, "-1125899906842625,inf\n", &format!("panel.csv:2: {message}"));
    }
    refused(
        "a,5,1\nb,5,1\n",
        "b,5,1\nc,6,1\nb,4,1\n",
        "server.csv:3: series b: refusal 4 at reading 2: the time is not above the one before: 4 \
         after 5",
    );
    refused("5,1\n", "5,x\n", "server.csv:1: expected a number as value, found \"x\"");
}

#[test]
fn logs_are_not_written() {
    let folder = logs(PANEL, SERVER);
    let outcome = figures_in(folder.path(), "merge --output server.csv panel.csv server.csv", b"");
    let errors = "figures: --output server.csv is the file server.csv, which is read; see figures \
                  --help\n";
    assert_eq!((outcome.status, outcome.errors.as_str()), (2, errors));
    assert_eq!(folder.read("server.csv"), SERVER);
    let missing = figures("merge - missing.csv", PANEL.as_bytes());
    let errors = "figures: missing.csv: No such file or directory (os error 2)\n";
    assert_eq!(missing, Outcome { status: 1, output: "".into(), errors: errors.into() });
}

/// Columns are chosen, and what should be known of each log is said.
#[test]
fn notes() {
    let folder = logs("time,value,x\n0,1,2\n", "time,value,y\n1777593600000,1,2\n");
    let line = "merge --value-column value panel.csv server.csv";
    let outcome = figures_in(folder.path(), line, b"");
    assert_eq!(outcome.output, "time,value\n0,1\n1777593600000,1\n");
    let notes = "figures: panel.csv: columns that are not used: x\n\
                 figures: panel.csv: all times lie in January 1970: are they seconds? Times are \
                 milliseconds\nfigures: server.csv: columns that are not used: y\n";
    assert_eq!(outcome.errors, notes);
}
