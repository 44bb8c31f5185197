//! HARZOULIN_LIB names the archive that is linked, whatever it is called; where it names none, the
//! build fails at once. The build script is compiled here and asked, and so is host/build.

use std::path::{Path, PathBuf};
use std::process::Command;
use std::{env, fs};

const PACKAGE: &str = env!("CARGO_MANIFEST_DIR");

/// A folder of a test, with nothing in it but the build script's program.
fn folder(name: &str) -> PathBuf {
    let folder = Path::new(env!("CARGO_TARGET_TMPDIR")).join(name);
    let _ = fs::remove_dir_all(&folder);
    fs::create_dir_all(&folder).unwrap();
    let mut rustc = Command::new(env::var_os("RUSTC").unwrap_or("rustc".into()));
    rustc.args(["--edition=2024", "build.rs", "-o"]).arg(folder.join("script"));
    let rustc = rustc.env("CARGO_MANIFEST_DIR", PACKAGE).current_dir(PACKAGE);
    assert!(rustc.status().unwrap().success());
    folder
}

/// The archive that this test is linked with.
fn archive() -> PathBuf {
    let usual = Path::new(PACKAGE).join("../../target/staticlib/libharzoulin.a");
    env::var_os("HARZOULIN_LIB").map_or(usual, PathBuf::from)
}

/// What the build script links in the folder, or its error.
fn linked(folder: &Path, named: &Path) -> Result<Vec<u8>, String> {
    let mut run = Command::new(folder.join("script"));
    let run = run.current_dir(folder).env("OUT_DIR", folder).env("HARZOULIN_LIB", named);
    let output = String::from_utf8(run.output().unwrap().stdout).unwrap();
    match output.lines().find_map(|line| line.strip_prefix("cargo::error=")) {
        Some(error) => Err(error.into()),
        None => {
            let search = format!("cargo::rustc-link-search=native={}", folder.display());
            assert!(output.lines().any(|line| line == search), "{output}");
            assert!(output.contains("cargo::rustc-link-lib=static=harzoulin\n"), "{output}");
            Ok(fs::read(folder.join("libharzoulin.a")).unwrap())
        }
    }
}

/// Whether host/build goes on, and what it says.
fn build(named: &str) -> (bool, String) {
    let mut build = Command::new(Path::new(PACKAGE).join("../build"));
    let run = build.env("HARZOULIN_LIB", named).output().unwrap();
    (run.status.success(), String::from_utf8(run.stderr).unwrap())
}

#[test]
fn an_archive_of_any_name_is_the_one_that_is_linked() {
    let folder = folder("named");
    let mut bytes = fs::read(archive()).unwrap();
    bytes.push(b'\n');
    fs::write(folder.join("libharzoulin.a"), "another one beside it").unwrap();
    let named = folder.join("a core of last week");
    fs::write(&named, &bytes).unwrap();
    assert!(linked(&folder, &named).unwrap() == bytes);
    assert_eq!(build(named.to_str().unwrap()), (true, String::new()));
}

#[test]
fn no_archive_is_an_error_at_once() {
    let folder = folder("unnamed");
    fs::write(folder.join("here.a"), fs::read(archive()).unwrap()).unwrap();
    for name in ["", "here.a"] {
        let error = "HARZOULIN_LIB has to name an archive by its whole path, from / on";
        assert_eq!(linked(&folder, Path::new(name)), Err(error.into()));
        assert_eq!(build(name), (false, format!("{error}\n")));
    }
    let missing = folder.join("missing.a");
    let error = linked(&folder, &missing).unwrap_err();
    assert!(error.starts_with(&format!("no archive at {} (", missing.display())), "{error}");
    let (goes_on, says) = build(missing.to_str().unwrap());
    assert_eq!((goes_on, says), (false, format!("no archive at {}\n", missing.display())));
    assert!(linked(&folder, &folder).unwrap_err().starts_with("no archive at "));
    assert!(!build(folder.to_str().unwrap()).0);
}

/// Each function of exported.rs is looked for.
#[test]
fn an_archive_without_a_function_is_an_error() {
    let folder = folder("short");
    let exported = include_str!("../src/exported.rs").split("pub fn harzoulin_").skip(1);
    let names: Vec<&str> = exported.map(|text| text.split_once('(').unwrap().0).collect();
    assert_eq!(names.len(), 7);
    let named = folder.join("short.a");
    for missing in &names {
        let others = names.iter().filter(|name| *name != missing);
        let others: String = others.map(|name| format!("harzoulin_{name}\0")).collect();
        fs::write(&named, others).unwrap();
        let error = format!("{} has no function harzoulin_{missing}", named.display());
        assert_eq!(linked(&folder, &named), Err(error));
    }
}
