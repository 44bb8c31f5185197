//! Files with readings of one time, in the order in which they come.

mod common;

use common::{Folder, SECONDS, figures, figures_in};

const READINGS: &str = "1000,1\n2000,2\n2000,3\n3000,4\n";

fn output(line: &str) -> String {
    let outcome = figures(line, READINGS.as_bytes());
    assert_eq!((outcome.status, outcome.errors.as_str()), (0, SECONDS));
    outcome.output
}

#[test]
fn figures_of_all_of_them() {
    let line = "--rollup count --rollup first --rollup default --rollup delta --step 1s -";
    let table = "time,count,first,default,delta\n1000,1,1,1,1\n2000,2,2,3,2\n3000,1,4,4,1\n";
    assert_eq!(output(line), table);
}

/// The last of them is the predecessor, the first the next reading.
#[test]
fn a_window_beside_them() {
    let of = |at: &str| output(&format!("explain --at {at} --rollup sum --step 1s -"));
    for line in ["before       2000  3\n", "predecessor  2000  3\n", "in window    1 readings\n"] {
        assert!(of("3000").contains(line), "{line}");
    }
    assert!(of("1000").contains("after        2000  2, 1s after the output time\n"));
    assert!(of("2000").contains("in window    2 readings\n"));
}

#[test]
fn crossings_and_nearest() {
    let crossed = "index,time,before,value,direction\n2,2000,2,3,up\n";
    assert_eq!(output("crossings --limit 3 -"), crossed);
    let nearest = output("nearest --at 2000 -");
    assert!(nearest.ends_with("\n1,2000,2,0\n"), "{nearest}");
}

#[test]
fn pictures() {
    let folder = Folder::new("equal");
    folder.write("four.csv", READINGS);
    folder.write("one.csv", "5000,1\n5000,3\n5000,2\n");
    for file in ["four.csv", "one.csv"] {
        for line in ["--rollup avg --step 1s", "crossings --limit 2"] {
            let outcome = figures_in(folder.path(), &format!("{line} --plot p.svg {file}"), b"");
            assert_eq!(outcome.status, 0, "{}", outcome.errors);
            let picture = folder.read("p.svg");
            assert!(picture.contains("<path") && !picture.contains("NaN"), "{picture}");
        }
    }
}

/// Of several files of one series, one may begin where the one before it ended.
#[test]
fn files_that_meet() {
    let folder = Folder::new("meet");
    folder.write("may.csv", "a,1000,1\na,2000,2\n");
    folder.write("june.csv", "a,2000,3\na,3000,4\n");
    let line = "--rollup count --step 1s may.csv june.csv";
    let counts = "name,time,count\na,1000,1\na,2000,2\na,3000,1\n";
    assert_eq!(figures_in(folder.path(), line, b"").output, counts);
}
