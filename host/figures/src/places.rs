//! The files themselves, however they are named: no output may be a file that is read, nor two
//! outputs one file.

use std::fs::{self, File, Metadata};
use std::io::{self, stdin, stdout};
use std::os::fd::{AsFd, BorrowedFd};
use std::os::unix::fs::MetadataExt;
use std::path::{Path, PathBuf};

use crate::failure::Failure;
use crate::options::Common;

/// A file by itself.
#[derive(PartialEq)]
enum Place {
    /// Its device and its number there.
    There(u64, u64),
    /// Where it will be.
    New(PathBuf),
}

/// An error where writing the outputs would destroy what is read, or one another.
pub fn distinct(common: &Common) -> Result<(), Failure> {
    let figures = match &common.output {
        Some(path) => (format!("--output {path}"), named(path)),
        None => ("standard output".into(), opened(stdout().as_fd())),
    };
    let picture = common.plot.as_ref().map(|path| (format!("--plot {path}"), named(path)));
    let inputs = common.files.iter().map(|file| match file.as_str() {
        "-" => ("standard input", opened(stdin().as_fd())),
        path => (path, named(path)),
    });
    let inputs: Vec<_> = inputs.collect();
    for (output, place) in [&figures].into_iter().chain(&picture) {
        let same = inputs.iter().find(|(_, input)| input.is_some() && input == place);
        if let Some((input, _)) = same {
            return Err(Failure::Usage(format!("{output} is the file {input}, which is read")));
        }
    }
    match picture {
        Some((picture, place)) if place.is_some() && place == figures.1 => {
            Err(Failure::Usage(format!("{} and {picture} are one file", figures.0)))
        }
        _ => Ok(()),
    }
}

/// The file of a name. What is no plain file, such as a device, holds nothing that could be lost.
fn named(path: &str) -> Option<Place> {
    match fs::metadata(path) {
        Ok(found) => there(&found),
        Err(_) => Some(Place::New(resolved(path))),
    }
}

/// The file that is open already.
fn opened(file: BorrowedFd) -> Option<Place> {
    let found = file.try_clone_to_owned().and_then(|file| File::from(file).metadata());
    found.ok().and_then(|found| there(&found))
}

fn there(found: &Metadata) -> Option<Place> {
    found.is_file().then(|| Place::There(found.dev(), found.ino()))
}

/// The path of a file, through all links, also where it is not there yet.
pub fn resolved(path: &str) -> PathBuf {
    let mut place = PathBuf::from(path);
    // More links than this are a circle, which opening the file will report.
    for _ in 0..40 {
        let Ok(target) = fs::read_link(&place) else { break };
        place = place.parent().unwrap_or(Path::new("")).join(target);
    }
    fs::canonicalize(&place).or_else(|_| in_folder(&place)).unwrap_or(place)
}

/// The path of a file that is not there, in a folder that is.
fn in_folder(place: &Path) -> io::Result<PathBuf> {
    let folder = place.parent().filter(|folder| *folder != Path::new(""));
    let folder = fs::canonicalize(folder.unwrap_or(Path::new(".")))?;
    Ok(folder.join(place.file_name().unwrap_or_default()))
}
