//! Runs the command.

use std::io::Write;
use std::path::{Path, PathBuf};
use std::process::{Command, Stdio};
use std::sync::atomic::{AtomicUsize, Ordering::Relaxed};
use std::{env, fs, process, thread};

/// What the command left: its exit status, standard output and standard error.
#[derive(Debug, PartialEq)]
pub struct Outcome {
    pub status: i32,
    pub output: String,
    pub errors: String,
}

/// The warning that readings of the first days of 1970 get, on standard input.
#[allow(dead_code)]
pub const SECONDS: &str = "figures: standard input: all times lie in January 1970: are they seconds? \
                           Times are milliseconds\n";

/// Runs the command in a folder, with a text as standard input. Arguments are parted by spaces.
pub fn figures_in(folder: &Path, arguments: &str, input: &[u8]) -> Outcome {
    let mut child = Command::new(env!("CARGO_BIN_EXE_figures"))
        .args(arguments.split_whitespace())
        .current_dir(folder)
        .stdin(Stdio::piped())
        .stdout(Stdio::piped())
        .stderr(Stdio::piped())
        .spawn()
        .unwrap();
    let mut stdin = child.stdin.take().unwrap();
    let result = thread::scope(|scope| {
        // The command may stop before it has read everything.
        scope.spawn(move || stdin.write_all(input));
        child.wait_with_output().unwrap()
    });
    Outcome {
        status: result.status.code().unwrap(),
        output: String::from_utf8(result.stdout).unwrap(),
        errors: String::from_utf8(result.stderr).unwrap(),
    }
}

/// Runs the command on a text as standard input.
#[allow(dead_code)]
pub fn figures(arguments: &str, input: &[u8]) -> Outcome {
    figures_in(&env::temp_dir(), arguments, input)
}

/// The picture of readings, in which every place is a number.
#[allow(dead_code)]
pub fn picture(readings: &str, options: &str) -> String {
    let folder = Folder::new("picture");
    folder.write("in.csv", readings);
    let line = format!("{options} --plot p.svg --output o.csv in.csv");
    let outcome = figures_in(folder.path(), &line, b"");
    assert_eq!(outcome.status, 0, "{}", outcome.errors);
    let svg = folder.read("p.svg");
    assert!(!svg.contains("NaN") && !svg.contains("inf\""), "{svg}");
    svg
}

/// The repository's folder of series.
#[allow(dead_code)]
pub fn data() -> PathBuf {
    Path::new(env!("CARGO_MANIFEST_DIR")).join("../../data")
}

/// A folder of its own, removed at the end.
pub struct Folder(PathBuf);

#[allow(dead_code)]
impl Folder {
    pub fn new(name: &str) -> Folder {
        static FOLDERS: AtomicUsize = AtomicUsize::new(0);
        let (process, number) = (process::id(), FOLDERS.fetch_add(1, Relaxed));
        let path = env::temp_dir().join(format!("figures-{name}-{process}-{number}"));
        fs::create_dir(&path).unwrap();
        Folder(path)
    }

    pub fn path(&self) -> &Path {
        &self.0
    }

    pub fn write(&self, name: &str, text: &str) {
        fs::write(self.0.join(name), text).unwrap()
    }

    pub fn read(&self, name: &str) -> String {
        fs::read_to_string(self.0.join(name)).unwrap()
    }

    /// The names of its files, in order.
    pub fn names(&self) -> Vec<String> {
        let files = fs::read_dir(&self.0).unwrap();
        let mut names: Vec<_> =
            files.map(|file| file.unwrap().file_name().into_string().unwrap()).collect();
        names.sort();
        names
    }
}

impl Drop for Folder {
    fn drop(&mut self) {
        let _ = fs::remove_dir_all(&self.0);
    }
}
