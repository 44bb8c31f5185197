//! Two slices that are handed to an exported function in each other's place do not compile: rustc is
//! given each call in its right order, and then with each two of its slices swapped.

use std::path::Path;
use std::process::Command;
use std::{env, fs};

/// What rustc says to a call of a function with these slices.
fn compiled(folder: &Path, call: &str) -> Result<(), String> {
    let exported = concat!(env!("CARGO_MANIFEST_DIR"), "/src/exported.rs");
    let source = format!(
        "#![allow(unused)]\n#[path = {exported:?}]\nmod exported;\nuse exported::*;\n\
         pub unsafe fn call(times: &[i64], values: &[f64], output: &mut [f64], prepared: &mut [f64],\n\
         remaining: &mut [i64], work: &mut [f64], indexes: &mut [u64], more: &[i64], others: &[f64],\n\
         merged: &mut [i64], joined: &mut [f64]) -> u64 {{\n\
         let (times, values) = (Times::of(times), Values::of(values));\n\
         let (output, prepared) = (Output::of(output), Prepared::of(prepared));\n\
         let (remaining, work) = (Remaining::of(remaining), Work::of(work));\n\
         let indexes = Indexes::of(indexes);\n\
         let (more, others) = (SecondTimes::of(more), SecondValues::of(others));\n\
         let (merged, joined) = (MergedTimes::of(merged), MergedValues::of(joined));\n\
         let (mut count, mut index) = (0, 0);\n\
         unsafe {{ {call} }}\n}}\n"
    );
    let file = folder.join("call.rs");
    fs::write(&file, source).unwrap();
    let mut rustc = Command::new(env::var_os("RUSTC").unwrap_or("rustc".into()));
    rustc.args(["--edition=2024", "--crate-type=lib", "--emit=metadata", "--out-dir"]);
    let run = rustc.args([folder, &file]).output().unwrap();
    if run.status.success() { Ok(()) } else { Err(String::from_utf8(run.stderr).unwrap()) }
}

/// The function is called with its slices in their order, then with each two swapped.
#[track_caller]
fn swaps_are_refused(function: &str, slices: &[&str], read: usize, numbers: &str, places: &str) {
    let folder = Path::new(env!("CARGO_TARGET_TMPDIR")).join(function);
    fs::create_dir_all(&folder).unwrap();
    let call = |slices: &[&str]| {
        let (read, written) = (slices[..read].join(", "), slices[read..].join(", "));
        let call = format!("ask!({function}, [{read}], [{numbers}], [{written}], [{places}])");
        compiled(&folder, &call)
    };
    assert_eq!(call(slices), Ok(()));
    for second in 0..slices.len() {
        for first in 0..second {
            let mut swapped = slices.to_vec();
            swapped.swap(first, second);
            let errors = call(&swapped).expect_err("two swapped slices compile");
            assert!(errors.contains("error[E0308]: arguments to this function are incorrect"));
            assert_eq!(errors.matches("\nerror").count(), 1, "{errors}");
        }
    }
}

#[test]
fn of_prepare() {
    swaps_are_refused("harzoulin_prepare", &["times", "values", "prepared"], 2, "0", "index");
}

#[test]
fn of_run() {
    let slices = ["times", "values", "output", "prepared", "remaining", "work"];
    let numbers = "0, 0, 0.0, 0.0, 0, 0, 1, 0, false, false, 0, 0, 0, 0";
    swaps_are_refused("harzoulin_run", &slices, 2, numbers, "count, index");
}

#[test]
fn of_settled_run() {
    let slices = ["times", "values", "output", "prepared", "remaining", "work"];
    let numbers = "0, 0, 0.0, 0.0, 0, 0, 1, 1, 1, 0";
    swaps_are_refused("harzoulin_settled_run", &slices, 2, numbers, "count, index");
}

#[test]
fn of_crossings() {
    let slices = ["times", "values", "indexes"];
    swaps_are_refused("harzoulin_crossings", &slices, 2, "0.0", "count, index");
}

/// The second series in the place of the first, too.
#[test]
fn of_merge() {
    let slices = ["times", "values", "more", "others", "merged", "joined"];
    swaps_are_refused("harzoulin_merge", &slices, 4, "", "count, index");
}
