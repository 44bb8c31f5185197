//! include/harzoulin.h says the numbers and the parameters that this library and the proved source
//! go by.

use std::collections::BTreeSet;
use std::fs;

use harzoulin::{ROLLUPS, Refusal, STALE, Step};

const HEADER: &str = include_str!("../../../include/harzoulin.h");
const EXPORTED: &str = include_str!("../src/exported.rs");
const PROVED: &str = concat!(env!("CARGO_MANIFEST_DIR"), "/../../crates/harzoulin_c/src");
const PAPER: &str = include_str!("../../../docs/ROLLUPS.md");

/// The header's constants of an enum, without what all of them begin with.
fn constants(name: &str, prefix: &str) -> Vec<(String, u64)> {
    let (_, rest) = HEADER.split_once(&format!("\nenum {name} {{\n")).unwrap();
    let (lines, _) = rest.split_once("};\n").unwrap();
    let lines = lines.lines().filter_map(|line| line.trim_end_matches(',').split_once(" = "));
    let constant = |(name, number): (&str, &str)| {
        let name = name.trim().strip_prefix(prefix).unwrap();
        (name.to_lowercase(), number.parse().unwrap())
    };
    lines.map(constant).collect()
}

/// `TlastChange` as `tlast_change`.
fn in_words(name: &str) -> String {
    let words = name.split_inclusive(|_: char| true);
    let words = words.map(|letter| match letter.to_lowercase() {
        lower if lower == letter => lower,
        lower => format!("_{lower}"),
    });
    words.collect::<String>().trim_start_matches('_').to_string()
}

#[test]
fn steps() {
    let steps = Step::ALL.map(|step| (step.name().to_string(), step as u64));
    assert_eq!(constants("harzoulin_step", "HARZOULIN_STEP_"), steps);
}

/// The names are those of docs/ROLLUPS.md, in words.
#[test]
fn rollups() {
    let rollups = ROLLUPS.iter().zip(0..).map(|(about, number)| (about.name.to_string(), number));
    let rollups: Vec<(String, u64)> = rollups.collect();
    assert_eq!(constants("harzoulin_rollup", "HARZOULIN_ROLLUP_"), rollups);
    let row = |line: &'static str| {
        let mut cells = line.split('|').map(|cell| cell.trim().trim_matches('`'));
        let number = cells.nth(1)?.parse().ok()?;
        Some((in_words(cells.next()?), number))
    };
    assert_eq!(PAPER.lines().filter_map(row).collect::<Vec<(String, u64)>>(), rollups);
}

#[test]
fn refusals() {
    let named = |number| {
        let refusal = Refusal::of(number, 0)?;
        assert_eq!(u64::from(refusal.number()), number);
        let name = format!("{refusal:?}").replace("(0)", "");
        Some((format!("refused_{}", in_words(&name)), number))
    };
    let refusals: Vec<(String, u64)> = (0..1000).filter_map(named).collect();
    assert_eq!(refusals.len(), 20);
    let constants = constants("harzoulin_refusal", "HARZOULIN_");
    assert_eq!(constants[0], ("accepted".into(), 0));
    assert_eq!(constants[1..], refusals);
}

#[test]
fn the_mark() {
    let line = format!("#define HARZOULIN_STALE UINT64_C({:#X})", STALE.to_bits());
    assert!(HEADER.lines().any(|found| found == line.replace("0X", "0x")), "{line}");
}

/// The functions of a text by their names, each with its parameters as C declares them.
fn functions(text: &str, begin: &str, end: &str, in_c: fn(&str) -> String) -> BTreeSet<String> {
    let declarations = text.split(begin).skip(1).map(|part| {
        let (name, rest) = part.split_once('(').unwrap();
        let (parameters, _) = rest.split_once(end).unwrap();
        let parameters = parameters.split(',').map(str::trim).filter(|text| !text.is_empty());
        format!("{name}({})", parameters.map(in_c).collect::<Vec<_>>().join(", "))
    });
    declarations.collect()
}

/// A parameter of the header, on one line.
fn of_header(parameter: &str) -> String {
    parameter.split_whitespace().collect::<Vec<_>>().join(" ")
}

/// A parameter of exported.rs or of the proved source, where a slice is one parameter.
fn of_rust(parameter: &str) -> String {
    let (name, kind) = parameter.split_once(": ").unwrap();
    let slice = |kind: &str| format!("{kind} *{name}, size_t {name}_len");
    match kind {
        "&[i64]" => slice("const int64_t"),
        "&[u64]" => slice("const uint64_t"),
        "&mut [i64]" => slice("int64_t"),
        "&mut [u64]" => slice("uint64_t"),
        "&mut [f64]" => slice("double"),
        "*const Times" | "*const SecondTimes" => format!("const int64_t *{name}"),
        "*const Values" | "*const SecondValues" => format!("const uint64_t *{name}"),
        "*mut Output" | "*mut Prepared" | "*mut Indexes" | "*mut MergedValues" | "&mut u64" => {
            format!("uint64_t *{name}")
        }
        "*mut Work" => format!("double *{name}"),
        "*mut Remaining" | "*mut MergedTimes" | "&mut i64" => format!("int64_t *{name}"),
        "usize" => format!("size_t {name}"),
        "bool" => format!("bool {name}"),
        "f64" => format!("double {name}"),
        "i64" | "u32" | "u64" => {
            format!("{}_t {name}", kind.replace('i', "int").replace('u', "uint"))
        }
        other => panic!("{other} is not known in C"),
    }
}

/// The proved source, all of its files.
fn proved() -> String {
    let files = fs::read_dir(PROVED).unwrap().map(|file| file.unwrap().path());
    let sources = files.filter(|file| file.extension().is_some_and(|end| end == "rt"));
    sources.map(|file| fs::read_to_string(file).unwrap()).collect()
}

#[test]
fn parameters() {
    let header = functions(HEADER, "\nuint64_t ", ");", of_header);
    assert_eq!(header.len(), 7);
    let (_, declared) = EXPORTED.split_once("unsafe extern \"C\" {").unwrap();
    assert_eq!(functions(declared, "pub fn ", ") -> u64", of_rust), header);
    assert_eq!(functions(&proved(), "pub extern \"C\" fn ", ") -> u64", of_rust), header);
}
