//! What is read, as it is written for the command itself and for programs.

mod common;

use std::fs;
use std::process::{Command, Output};

use common::{Folder, Outcome, SECONDS, data, figures, figures_in};

/// The staleness mark, which no arithmetic may touch.
const MARK: u64 = 0x7ff0_0000_0000_0002;

/// Accepted without a word on standard error.
#[track_caller]
fn output(folder: &Folder, line: &str) -> String {
    let outcome = figures_in(folder.path(), line, b"");
    assert_eq!((outcome.status, outcome.errors.as_str()), (0, ""), "{line}");
    outcome.output
}

/// The bytes for programs.
#[track_caller]
fn raw(folder: &Folder, line: &str) -> Vec<u8> {
    let mut command = Command::new(env!("CARGO_BIN_EXE_figures"));
    command.args(["readings", "--format", "raw"]).args(line.split_whitespace());
    let Output { status, stdout, stderr } = command.current_dir(folder.path()).output().unwrap();
    assert_eq!((status.code(), stderr), (Some(0), vec![]), "{line}");
    stdout
}

/// Times from end to end, some of them falling, and values of all kinds but NaN.
fn of_all_kinds() -> Vec<(i64, u64)> {
    let ends = [-0.0, 0.0, 5e-324, -2.2e-308, f64::MIN, f64::MAX, f64::INFINITY, -f64::INFINITY];
    let mut readings: Vec<(i64, u64)> =
        ends.iter().zip(0..).map(|(value, time)| (time, value.to_bits())).collect();
    readings.extend([(i64::MAX, MARK), (i64::MIN, 1), (253_402_300_800_000, MARK), (-1, 2)]);
    let mut seed: u64 = 5;
    for _ in 0..2000 {
        seed = seed.wrapping_mul(6_364_136_223_846_793_005).wrapping_add(1);
        if !f64::from_bits(seed).is_nan() {
            readings.push((seed as i64 >> 12, seed));
        }
    }
    readings
}

/// What a program is given of one series.
fn bytes_of(name: &str, readings: &[(i64, u64)]) -> Vec<u8> {
    let mut bytes = format!("{{\"name\":{name},\"readings\":{}}}\n", readings.len()).into_bytes();
    readings.iter().for_each(|(time, _)| bytes.extend(time.to_le_bytes()));
    readings.iter().for_each(|(_, value)| bytes.extend(value.to_le_bytes()));
    bytes
}

/// All bits of times and values, also of what the core would refuse.
#[test]
fn what_is_written_is_read_back() {
    let folder = Folder::new("readings");
    let readings = of_all_kinds();
    let line = |(time, bits): &(i64, u64)| match *bits {
        MARK => format!("{time},stale\n"),
        bits => format!("{time},{:e}\n", f64::from_bits(bits)),
    };
    folder.write("in.csv", &readings.iter().map(line).collect::<String>());
    assert!(raw(&folder, "in.csv") == bytes_of("null", &readings));
    for form in ["ms", "rfc3339"] {
        let text = output(&folder, &format!("readings --times {form} in.csv"));
        folder.write("out.csv", &text);
        assert!(raw(&folder, "out.csv") == bytes_of("null", &readings), "{form}");
        assert!(output(&folder, &format!("readings --times {form} out.csv")) == text, "{form}");
    }
    let text = output(&folder, "readings --format csv in.csv");
    assert!(text.starts_with("time,value\n0,-0\n1,0\n2,5e-324\n"), "{text}");
    assert!(text.contains("\n6,inf\n7,-inf\n9223372036854775807,stale\n"), "{text}");
}

/// NaN is a value to the reader alone, and is no reading under the name of a rollup.
#[test]
fn not_a_number() {
    let text = "time,value\n2026-05-01T00:00:00Z,NaN\n2026-05-02T00:00:00Z,1\n";
    let folder = Folder::new("nan");
    folder.write("in.csv", text);
    assert_eq!(output(&folder, "readings in.csv"), text);
    folder.write("in.csv", &text.replace("value", "avg"));
    let left_out = figures_in(folder.path(), "readings in.csv", b"");
    assert_eq!(left_out.output, "time,value\n2026-05-02T00:00:00Z,1\n");
    assert_eq!(left_out.errors, "figures: in.csv: lines without a figure (NaN), left out: 1\n");
}

/// Byte for byte, with the letters of names that JSON escapes.
#[test]
fn bytes_of_two_names() {
    let folder = Folder::new("bytes");
    let time = 0x0102_0304_0506_i64;
    folder.write("in.csv", &format!("b,{time},-0\n\"a \"\"é\u{1}\",-2,stale\nb,{time},0.5\n"));
    let mut bytes = b"{\"name\":\"b\",\"readings\":2}\n".to_vec();
    bytes.extend([6, 5, 4, 3, 2, 1, 0, 0, 6, 5, 4, 3, 2, 1, 0, 0]);
    bytes.extend([0, 0, 0, 0, 0, 0, 0, 0x80, 0, 0, 0, 0, 0, 0, 0xe0, 0x3f]);
    bytes.extend("{\"name\":\"a \\\"é\\u0001\",\"readings\":1}\n".bytes());
    bytes.extend([0xfe, 0xff, 0xff, 0xff, 0xff, 0xff, 0xff, 0xff, 2, 0, 0, 0, 0, 0, 0xf0, 0x7f]);
    assert_eq!(raw(&folder, "in.csv"), bytes);
    assert_eq!(raw(&folder, "--output out in.csv"), []);
    assert_eq!(fs::read(folder.path().join("out")).unwrap(), bytes);
}

/// A header alone, and as many lines of raw as there are series.
#[test]
fn no_readings() {
    let folder = Folder::new("none");
    let line = "{\"name\":null,\"readings\":0}\n";
    for empty in ["", "# nothing\n", "time,value\n", "name,time,value\n", "time,avg\n"] {
        folder.write("in.csv", empty);
        assert_eq!(output(&folder, "readings in.csv"), "time,value\n", "{empty}");
        assert_eq!(raw(&folder, "in.csv"), line.as_bytes(), "{empty}");
    }
    folder.write("a.csv", "a,2026-05-01,1\n");
    let text = output(&folder, "readings in.csv a.csv");
    assert_eq!(text, "name,time,value\na,2026-05-01T00:00:00Z,1\n");
    let may = (1_777_593_600_000, 1f64.to_bits());
    let bytes = [line.into(), bytes_of("\"a\"", &[may])].concat();
    assert_eq!(raw(&folder, "in.csv a.csv"), bytes);
}

/// In the order of the files, also where times fall from one to the next, which the core refuses.
#[test]
fn files_of_one_name_are_joined() {
    let folder = Folder::new("joined");
    folder.write("may.csv", "b,2026-05-02,1\n\"a,1\",2026-05-01,2\nb,2026-05-03,3\n");
    folder.write("june.csv", "time,value,name\n2026-06-01,4,b\n2026-06-01,5,c\n");
    let (b, a, c) = (
        "b,2026-05-02T00:00:00Z,1\nb,2026-05-03T00:00:00Z,3\n",
        "\"a,1\",2026-05-01T00:00:00Z,2\n",
        "c,2026-06-01T00:00:00Z,5\n",
    );
    let june = "b,2026-06-01T00:00:00Z,4\n";
    for jobs in [1, 2, 5] {
        let of = |files: &str| output(&folder, &format!("readings --jobs {jobs} {files}"));
        assert_eq!(of("may.csv june.csv"), format!("name,time,value\n{b}{june}{a}{c}"));
        assert_eq!(of("june.csv may.csv"), format!("name,time,value\n{june}{b}{c}{a}"));
    }
    let refused = figures_in(folder.path(), "--rollup avg --step 1d june.csv may.csv", b"");
    assert_eq!((refused.status, refused.output.as_str()), (1, ""));
    let day = |number: i64| 1_777_593_600_000 + (number - 1) * 86_400_000;
    let reading = |time, value: f64| (time, value.to_bits());
    let joined = [reading(day(2), 1.0), reading(day(3), 3.0), reading(day(32), 4.0)];
    let (other, last) = ([reading(day(1), 2.0)], [reading(day(32), 5.0)]);
    let parts = [bytes_of("\"b\"", &joined), bytes_of("\"a,1\"", &other), bytes_of("\"c\"", &last)];
    assert_eq!(raw(&folder, "may.csv june.csv"), parts.concat());
}

/// They stay apart in CSV, under what the other tasks call them. A program is told no name.
#[test]
fn files_without_names() {
    let folder = Folder::new("unnamed");
    folder.write("x.csv", "2026-05-01,1\n");
    folder.write("y.csv", "1777593600000,2\n");
    let text = output(&folder, "readings x.csv y.csv");
    assert_eq!(text, "name,time,value\nx,2026-05-01T00:00:00Z,1\ny,1777593600000,2\n");
    let of = |value: f64| bytes_of("null", &[(1_777_593_600_000, value.to_bits())]);
    assert_eq!(raw(&folder, "x.csv y.csv"), [of(1.0), of(2.0)].concat());
}

/// As each series has them, or as they are asked for.
#[test]
fn forms_of_times() {
    let folder = Folder::new("forms");
    folder.write("in.csv", "a,2026-05-01,1\nb,1777593600000,2\na,1777593600250,3\n");
    let of = |line: &str| output(&folder, line).replace("name,time,value\n", "");
    let own = "a,2026-05-01T00:00:00Z,1\na,2026-05-01T00:00:00.250Z,3\nb,1777593600000,2\n";
    assert_eq!(of("readings in.csv"), own);
    let millis = "a,1777593600000,1\na,1777593600250,3\nb,1777593600000,2\n";
    assert_eq!(of("readings --times ms in.csv"), millis);
    let dates = own.replace("1777593600000", "2026-05-01T00:00:00Z");
    assert_eq!(of("readings --times rfc3339 in.csv"), dates);
}

#[test]
fn columns_and_notes() {
    let input = b"probe,taken,celsius,time\n118,0,16.5,x\n119,60000,-0.0,x\n118,1,stale,x\n";
    let columns = "--time-column taken --value-column celsius --name-column probe";
    let outcome = figures(&format!("readings {columns} -"), input);
    assert_eq!(outcome.output, "name,time,value\n118,0,16.5\n118,1,stale\n119,60000,-0\n");
    let notes = format!(
        "figures: standard input: columns that are not used: time\n{}",
        SECONDS.replace("input:", "input: series 118 and 1 more:")
    );
    assert_eq!((outcome.status, outcome.errors), (0, notes));
}

/// Where one of the files is not readings, nothing is written of the others.
#[test]
fn all_or_nothing() {
    let folder = Folder::new("whole");
    let (good, bad) = ("2026-05-01,1\n", "2026-05-01,1\n2026-05-02,x\n");
    for (name, text) in [("good.csv", good), ("bad.csv", bad), ("out.csv", "before")] {
        folder.write(name, text);
    }
    let errors = "figures: bad.csv:2: expected a number as value, found \"x\"\n";
    let refused = Outcome { status: 1, output: "".into(), errors: errors.into() };
    for format in ["csv", "raw"] {
        for output in ["-", "out.csv", "new.csv"] {
            let line = format!("readings --format {format} --output {output} good.csv bad.csv");
            assert_eq!(figures_in(folder.path(), &line, b""), refused, "{line}");
        }
    }
    assert_eq!(folder.names(), ["bad.csv", "good.csv", "out.csv"]);
    assert_eq!(folder.read("out.csv"), "before");
    assert_eq!(output(&folder, "readings --output out.csv good.csv"), "");
    assert_eq!(folder.read("out.csv"), "time,value\n2026-05-01T00:00:00Z,1\n");
}

#[test]
fn what_is_read_is_not_written() {
    let folder = Folder::new("input");
    folder.write("in.csv", "2026-05-01,1\n");
    for format in ["csv", "raw"] {
        let line = format!("readings --format {format} --output ./in.csv in.csv");
        let errors = "figures: --output ./in.csv is the file in.csv, which is read; see figures \
                      --help\n";
        let refused = Outcome { status: 2, output: "".into(), errors: errors.into() };
        assert_eq!(figures_in(folder.path(), &line, b""), refused);
    }
    assert_eq!(folder.read("in.csv"), "2026-05-01,1\n");
}

#[track_caller]
fn bad_usage(line: &str, message: &str) {
    let errors = format!("figures: {message}; see figures --help\n");
    let refused = Outcome { status: 2, output: String::new(), errors };
    assert_eq!(figures(&format!("readings {line}"), b"0,1\n"), refused);
}

#[test]
fn usage() {
    bad_usage("", "expected a file, or - for standard input");
    bad_usage("- -", "expected - once");
    for format in ["text", "json", "RAW"] {
        let message = format!("--format: expected csv or raw, found \"{format}\"");
        bad_usage(&format!("--format {format} -"), &message);
    }
    for form in ["ms", "rfc3339"] {
        let message = "--times means nothing with --format raw";
        bad_usage(&format!("--times {form} --format raw -"), message);
    }
    bad_usage("--jobs 0 -", "--jobs: expected a whole number from 1 on, found \"0\"");
    bad_usage("--raw -", "--raw is no option");
    for option in ["--decimals 2", "--at 0", "--limit 40", "--plot p.svg", "--unit m"] {
        let name = option.split(' ').next().unwrap();
        bad_usage(&format!("{option} -"), &format!("figures readings takes no {name}"));
    }
    let other = figures("crossings --limit 0 --format raw -", b"0,1\n");
    let errors =
        "figures: --format: expected csv, text or json, found \"raw\"; see figures --help\n";
    assert_eq!((other.status, other.errors.as_str()), (2, errors));
}

/// Of what is written all tasks make what they make of the files.
#[test]
fn in_a_pipe() {
    let run = |line: &str, input: &str| {
        let outcome = figures_in(&data(), line, input.as_bytes());
        assert_eq!(outcome.status, 0, "{line}: {}", outcome.errors);
        outcome.output
    };
    for files in ["climate.csv", "cartridge.csv", "climate.csv drive.csv cartridge.csv"] {
        for form in ["ms", "rfc3339"] {
            let text = run(&format!("readings --times {form} {files}"), "");
            for task in ["--rollup avg --rollup default --step 1d", "nearest --at 2026-03-18"] {
                let task = format!("{task} --times {form}");
                let figures = run(&format!("{task} {files}"), "");
                assert!(figures.lines().count() > 1, "{figures}");
                assert!(run(&format!("{task} -"), &text) == figures, "{task} {files}");
            }
        }
    }
}
