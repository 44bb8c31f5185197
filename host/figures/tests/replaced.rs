//! Outputs that take the place of a file: with its mode and its owner, both or neither, and with
//! nothing left behind.

mod common;

use std::fs::{self, File, Permissions};
use std::io::ErrorKind;
use std::os::unix::fs::{MetadataExt, PermissionsExt, chown, symlink};
use std::os::unix::process::ExitStatusExt;
use std::process::{Child, Command, Stdio};
use std::thread::sleep;
use std::time::{Duration, Instant};

use common::{Folder, figures_in};

const TABLE: &str = "time,avg\n2026-05-01T00:00:00Z,1\n";

fn folder(name: &str) -> Folder {
    let folder = Folder::new(name);
    folder.write("in.csv", "2026-05-01,1\n");
    folder
}

#[track_caller]
fn accepted(folder: &Folder, options: &str) -> String {
    let line = format!("--rollup avg --step 1m {options} in.csv");
    let outcome = figures_in(folder.path(), &line, b"");
    assert_eq!(outcome.status, 0, "{}", outcome.errors);
    outcome.errors
}

#[test]
fn the_mode_stays() {
    let folder = folder("mode");
    for mode in [0o600, 0o640, 0o666, 0o751] {
        for name in ["out.csv", "out.svg"] {
            folder.write(name, "before");
            fs::set_permissions(folder.path().join(name), Permissions::from_mode(mode)).unwrap();
        }
        accepted(&folder, "--output out.csv --plot out.svg");
        for name in ["out.csv", "out.svg"] {
            let found = fs::metadata(folder.path().join(name)).unwrap();
            assert_eq!(found.mode() & 0o7777, mode, "{name}");
        }
        assert_eq!(folder.read("out.csv"), TABLE);
    }
}

/// Only who may give files away can have one of another owner.
#[test]
fn the_owner_stays() {
    let folder = folder("owner");
    folder.write("out.csv", "before");
    let path = folder.path().join("out.csv");
    match chown(&path, Some(4711), Some(4712)) {
        Err(error) if error.kind() == ErrorKind::PermissionDenied => return,
        done => done.unwrap(),
    }
    accepted(&folder, "--output out.csv");
    let found = fs::metadata(&path).unwrap();
    assert_eq!((found.uid(), found.gid(), folder.read("out.csv")), (4711, 4712, TABLE.into()));
}

#[test]
fn a_link_is_followed() {
    let folder = folder("link");
    fs::create_dir(folder.path().join("sub")).unwrap();
    symlink("sub/new.csv", folder.path().join("link.csv")).unwrap();
    symlink("../link.csv", folder.path().join("sub/back.csv")).unwrap();
    for name in ["link.csv", "link.csv", "sub/back.csv"] {
        accepted(&folder, &format!("--output {name}"));
        assert!(folder.path().join(name).is_symlink());
        assert_eq!(folder.read("sub/new.csv"), TABLE);
        fs::write(folder.path().join("sub/new.csv"), "before").unwrap();
    }
}

#[test]
fn both_or_neither() {
    let folder = folder("both");
    fs::create_dir(folder.path().join("sub")).unwrap();
    folder.write("there.csv", "before");
    let names = folder.names();
    for (options, message) in [
        ("--plot p.svg --output no/o.csv", "figures: no/o.csv: "),
        ("--plot no/p.svg --output o.csv", "figures: no/p.svg: "),
        ("--plot p.svg --output sub", "figures: sub: "),
        ("--plot sub --output there.csv", "figures: sub: "),
        ("--plot p.svg --output /dev/full", "figures: /dev/full: "),
    ] {
        let line = format!("--rollup avg --step 1m {options} in.csv");
        let outcome = figures_in(folder.path(), &line, b"");
        assert_eq!(outcome.status, 1, "{options}");
        assert!(outcome.errors.starts_with(message), "{}", outcome.errors);
        assert_eq!((folder.names(), folder.read("there.csv")), (names.clone(), "before".into()));
    }
    let command = env!("CARGO_BIN_EXE_figures");
    let mut full = Command::new(command);
    full.args("--rollup avg --step 1m --plot p.svg in.csv".split(' ')).current_dir(folder.path());
    let full = full.stdout(File::create("/dev/full").unwrap()).output().unwrap();
    assert_eq!((full.status.code(), folder.names()), (Some(1), names));
}

/// A run that writes for some seconds, and has begun to. It ignores no signal, even where the tests
/// are run by a process that does.
fn writing(folder: &Folder) -> Child {
    let line = "--rollup absent --step 1ms --start 0 --end 16777215 --output out.csv in.csv";
    let mut command = Command::new("env");
    command.args(["--default-signal=HUP,INT,TERM", env!("CARGO_BIN_EXE_figures")]);
    let command = command.args(line.split(' ')).current_dir(folder.path());
    let child = command.stdout(Stdio::null()).stderr(Stdio::null()).spawn().unwrap();
    let part = folder.path().join(format!("out.csv.{}.part", child.id()));
    let begin = Instant::now();
    while !part.exists() && begin.elapsed() < Duration::from_secs(60) {
        sleep(Duration::from_millis(2));
    }
    assert!(part.exists());
    child
}

fn end(child: &mut Child, signal: i32) {
    let mut kill = Command::new("kill");
    assert!(kill.args([format!("-{signal}"), child.id().to_string()]).status().unwrap().success());
    assert_eq!(child.wait().unwrap().signal(), Some(signal));
}

#[test]
fn a_signal_leaves_nothing_behind() {
    let folder = folder("signal");
    folder.write("out.csv", "before");
    for signal in [1, 2, 15] {
        end(&mut writing(&folder), signal);
        assert_eq!(folder.names(), ["in.csv", "out.csv"]);
        assert_eq!(folder.read("out.csv"), "before");
    }
}

/// One that cannot be caught leaves a part behind, which the next run names. That of a run that is
/// still at work it does not.
#[test]
fn what_is_left_behind_is_named() {
    let folder = folder("left");
    let mut killed = writing(&folder);
    end(&mut killed, 9);
    let mut other = writing(&folder);
    let errors = accepted(&folder, "--output out.csv");
    let part = format!("out.csv.{}.part", killed.id());
    let message = "is part of an output of a run that was ended, and may be removed";
    assert!(errors.starts_with("figures: ") && errors.ends_with(&format!("{part} {message}\n")));
    assert_eq!(errors.lines().count(), 1, "{errors}");
    assert!(folder.path().join(&part).exists());
    end(&mut other, 15);
    for name in ["other.csv.7.part", "out.csv.x.part", "out.csv..part", "out.csv.7.parts"] {
        folder.write(name, "");
    }
    fs::remove_file(folder.path().join(part)).unwrap();
    assert_eq!(accepted(&folder, "--output out.csv"), "");
}
