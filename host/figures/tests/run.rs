//! host/run says nothing while it builds, unless that fails. It is run with other programs in the
//! place of `rt` and `cargo`, which say something and end as they are told.

mod common;

use std::fs;
use std::os::unix::fs::PermissionsExt;
use std::path::Path;
use std::process::Command;

use common::Folder;

/// Status, standard output and standard error of host/run, where `rt` and `cargo build` end with
/// these statuses.
fn run(rt: u8, build: u8) -> (Option<i32>, String, String) {
    let folder = Folder::new("run");
    let path = |name: &str| folder.path().join(name);
    for name in ["host", "bin", "tools", "crates/harzoulin_c/out"] {
        fs::create_dir_all(path(name)).unwrap();
    }
    let root = Path::new(env!("CARGO_MANIFEST_DIR")).join("../..");
    for name in ["host/run", "host/build", "tools/archive"] {
        fs::copy(root.join(name), path(name)).unwrap();
    }
    folder.write("crates/harzoulin_c/out/libharzoulin_c.a", "");
    folder.write("bin/rt", &format!("#!/bin/sh\necho proving\nexit {rt}\n"));
    let cargo = format!(
        "#!/bin/sh\nif [ $1 = build ]; then echo compiling >&2; exit {build}; fi\n\
         while [ $1 != -- ]; do shift; done\necho \"$@\"\n"
    );
    folder.write("bin/cargo", &cargo);
    for name in ["bin/rt", "bin/cargo"] {
        fs::set_permissions(path(name), fs::Permissions::from_mode(0o755)).unwrap();
    }
    let programs = format!("{}:{}", path("bin").display(), std::env::var("PATH").unwrap());
    let mut command = Command::new(path("host/run"));
    command.args(["--rollup", "avg"]).env("PATH", programs).env_remove("HARZOULIN_LIB");
    let run = command.output().unwrap();
    let text = |bytes| String::from_utf8(bytes).unwrap();
    (run.status.code(), text(run.stdout), text(run.stderr))
}

#[test]
fn quiet_unless_it_fails() {
    assert_eq!(run(0, 0), (Some(0), "-- --rollup avg\n".into(), String::new()));
    assert_eq!(run(3, 0), (Some(1), String::new(), "proving\n".into()));
    assert_eq!(run(0, 3), (Some(1), String::new(), "proving\ncompiling\n".into()));
}
