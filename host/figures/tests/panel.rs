//! For a panel that wants a number: JSON, several rollups at once, and decimals.

mod common;

use common::{Folder, figures, figures_in};

const READINGS: &str =
    "2026-05-01T00:00:00Z,1\n2026-05-01T00:00:30Z,2.25\n2026-05-01T00:03:00Z,10\n";

fn output(line: &str, input: &str) -> String {
    let outcome = figures(&format!("{line} --step 1m -"), input.as_bytes());
    assert_eq!((outcome.status, outcome.errors.as_str()), (0, ""));
    outcome.output
}

#[test]
fn json_is_an_object_a_line() {
    let text = output("--rollup avg --format json", READINGS);
    let lines = r#"{"name":"standard input","time":"2026-05-01T00:00:00Z","avg":1,"readings":1}
{"name":"standard input","time":"2026-05-01T00:01:00Z","avg":2.25,"readings":1}
{"name":"standard input","time":"2026-05-01T00:02:00Z","avg":null,"readings":0}
{"name":"standard input","time":"2026-05-01T00:03:00Z","avg":10,"readings":1}
"#;
    assert_eq!(text, lines);
    let millis =
        output("--rollup quantile(0.5) --format json --times ms --end 2026-05-01", READINGS);
    let line = r#"{"name":"standard input","time":1777593600000,"quantile(0.5)":1,"readings":1}"#;
    assert_eq!(millis, format!("{line}\n"));
}

#[test]
fn json_escapes_names_and_has_a_text_for_every_number() {
    let name = "\"a\"\"b\\\u{1}\t\u{7f}\u{202e}é\"";
    let text = output("--rollup sum --format json", &format!("{name},2026-05-01,1e300\n"));
    let object = r#"{"name":"a\"b\\\u0001\u0009\u007f\u202eé","time":"2026-05-01T00:00:00Z","#;
    assert_eq!(text, format!("{object}\"sum\":1e300,\"readings\":1}}\n"));
    let infinite = output("--rollup sum2 --format json", "2026-05-01,-1e300\n");
    assert!(infinite.contains(r#""sum2":1e999,"#), "{infinite}");
    let infinite = output("--rollup quantile(-1) --format json", "2026-05-01,1\n");
    assert!(infinite.contains(r#""quantile(-1)":-1e999,"#), "{infinite}");
}

/// Each rollup is what it is alone.
#[test]
fn several_rollups_at_once() {
    let rollups = ["avg", "max", "quantile(0.9)", "count", "lag"];
    let column = |text: &str, place: usize| -> Vec<String> {
        text.lines().map(|line| line.split(',').nth(place).unwrap().into()).collect()
    };
    let options: String = rollups.iter().map(|rollup| format!("--rollup {rollup} ")).collect();
    let all = output(&options, READINGS);
    for (place, rollup) in rollups.iter().enumerate() {
        let alone = output(&format!("--rollup {rollup}"), READINGS);
        assert_eq!(column(&all, 0), column(&alone, 0));
        assert_eq!(column(&all, 1 + place), column(&alone, 1));
    }
    let table =
        output("--rollup max --rollup min --format text --end 2026-05-01T00:01:00Z", READINGS);
    let text = "standard input: 3 readings, prepared by none, windows of 1m
time                   max   min  readings
2026-05-01T00:00:00Z     1     1         1
2026-05-01T00:01:00Z  2.25  2.25         1

";
    assert_eq!(table, text);
    let object = output("--rollup max --rollup min --format json --end 2026-05-01", READINGS);
    assert!(object.ends_with(",\"max\":1,\"min\":1,\"readings\":1}\n"), "{object}");
    let few = output("--rollup max --rollup min --min-readings 2 --end 2026-05-01", READINGS);
    assert_eq!(few, "time,max,min\n2026-05-01T00:00:00Z,NaN,NaN\n");
}

#[test]
fn several_rollups_are_drawn() {
    let folder = Folder::new("rollups");
    folder.write("in.csv", READINGS);
    let line = "--rollup max --rollup min --step 1m --plot p.svg --output o.csv in.csv";
    assert_eq!(figures_in(folder.path(), line, b"").status, 0);
    let svg = folder.read("p.svg");
    assert!(svg.contains(">in: max of windows") && svg.contains(">in: min of windows"), "{svg}");
}

#[test]
fn decimals_are_for_people() {
    let input = "2026-05-01,1\n2026-05-01T00:00:20Z,2\n2026-05-01T00:00:40Z,2\n";
    let line = "--rollup avg --start 2026-05-01T00:00:40Z --end 2026-05-01T00:00:40Z";
    let of = |decimals: &str| {
        let text = output(&format!("{line} {decimals}"), input);
        text.lines().nth(1).unwrap().split_once(',').unwrap().1.to_string()
    };
    assert_eq!(of(""), "1.6666666666666667");
    assert_eq!(of("--decimals 2"), "1.67");
    assert_eq!(of("--decimals 0"), "2");
    let text = output("--rollup sum --decimals 1 --format text", "2026-05-01,-2.54e21\n");
    assert!(text.contains("2026-05-01T00:00:00Z  -2.5e21         1\n"), "{text}");
    let object = output("--rollup sum --decimals 3 --format json", "2026-05-01,0.5\n");
    assert!(object.contains("\"sum\":0.500,"), "{object}");
    let empty = output(
        "--rollup sum --decimals 3 --end 2026-05-01T00:00:00Z --start 2026-04-30",
        "2026-05-01,0.5\n",
    );
    assert!(empty.starts_with("time,sum\n2026-04-30T00:00:00Z,NaN\n"));
}
