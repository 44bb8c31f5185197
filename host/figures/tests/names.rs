//! Names: none is lost or changed on the way in, and whatever the command writes it reads back.

mod common;

use common::{Outcome, figures};

const LINE: &str = "--rollup max --step 1m -";

fn max(input: &str) -> String {
    let outcome = figures(LINE, input.as_bytes());
    assert_eq!(outcome.status, 0, "{outcome:?}");
    outcome.output
}

#[track_caller]
fn refused(input: &str, message: &str) {
    let errors = format!("figures: standard input:{message}\n");
    let refused = Outcome { status: 1, output: String::new(), errors };
    assert_eq!(figures(LINE, input.as_bytes()), refused);
}

#[test]
fn a_name_that_begins_as_a_comment_does() {
    let text = "name,time,max\n\"#7\",0,5\n";
    assert_eq!(max("\"#7\",0,5\n"), text);
    assert_eq!(max("time,value,name\n0,5,#7\n"), text);
    let message = "expected a comment or a reading, found what may be either: a name that begins \
                   with # stands in quotes";
    refused("#7,0,5\n", &format!("1: {message}"));
    refused("a,0,5\n # 7 , 60000, 5\n", &format!("2: {message}"));
    refused("name,value,time\na,5,0\n#7,5,60000\n", &format!("3: {message}"));
    // No reading in the columns that the file has.
    let comments = "#7,0,5,6\n# a,b,5\n#7,0,\n#\na,0,5\n#0,5\n";
    assert_eq!(max(comments), "name,time,max\na,0,5\n");
    assert_eq!(max("0,5\n#7,0,5\n#60000,7\n"), "time,max\n0,5\n");
}

#[test]
fn blanks_inside_quotes_are_of_the_name() {
    let two = max("\"A \",0,1\n\"A\",0,2\nA ,60000,3\n\" A\",0,4\n");
    assert_eq!(two, "name,time,max\n\"A \",0,1\nA,0,2\nA,60000,3\n\" A\",0,4\n");
    let apart = "\"\u{a0}A\",0,1\n\u{a0}A,60000,2\nA,0,3\n";
    assert_eq!(max(apart), "name,time,max\n\u{a0}A,0,1\n\u{a0}A,60000,2\nA,0,3\n");
}

#[test]
fn what_is_written_is_read_back() {
    const NAMES: [&str; 16] = [
        "plain",
        "#hash",
        "# hash",
        " before",
        "after ",
        "\ttab\t",
        "a,b",
        "\"",
        "\"\"a\"",
        "a\rb",
        "\r",
        "a\r",
        "time",
        "-",
        "\u{feff}mark",
        "ünïcode \u{202e}turned",
    ];
    let quoted = |name: &str| format!("\"{}\"", name.replace('"', "\"\""));
    let lines = NAMES.iter().zip(0..).map(|(name, n)| format!("{},{n},{n}\n", quoted(name)));
    let text = max(&format!("name,time,value\n{}", lines.collect::<String>()));
    assert_eq!(text.lines().count(), 1 + NAMES.len());
    assert_eq!(max(&text), text);
}

#[test]
fn a_header_of_figures_is_read_back() {
    for rollup in ["avg", "quantile(0.9)", "holt_winters(0.5,0.1)", "count"] {
        let input = "0,1\n60000,2\n120000,3\n";
        let line = format!("--rollup {rollup} --step 1m --start 60000 -");
        let first = figures(&line, input.as_bytes());
        assert_eq!(first.status, 0);
        let second = figures(LINE, first.output.as_bytes());
        assert_eq!(second.status, 0, "{second:?}");
        let body = |text: &str| text.split_once('\n').unwrap().1.to_string();
        assert_eq!(body(&second.output), body(&first.output), "{rollup}");
    }
    let two = "expected one column of values, found avg and max: choose one by --value-column";
    refused("time,avg,max\n0,1,1\n", &format!("1: {two}"));
}

/// NaN under the name of a rollup says that there is no figure. Anywhere else it is refused.
#[test]
fn no_figure_is_no_reading() {
    let outcome = figures(LINE, b"time,avg\n0,1\n60000,NaN\n120000,3\n180000,NaN\n");
    assert_eq!(outcome.output, "time,max\n0,1\n60000,NaN\n120000,3\n");
    assert!(
        outcome
            .errors
            .contains("figures: standard input: lines without a figure (NaN), left out: 2\n"),
        "{}",
        outcome.errors
    );
    let refused = figures(LINE, b"time,value\n0,1\n60000,NaN\n");
    assert_eq!((refused.status, refused.output.as_str()), (1, ""));
    let infinite = figures(LINE, b"time,avg\n0,inf\n");
    assert_eq!(infinite.status, 1);
}
