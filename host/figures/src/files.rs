//! Files that are written whole or not at all.

use std::ffi::OsString;
use std::fs::{self, File, Metadata, Permissions};
use std::io::{self, Write};
use std::os::unix::fs::{MetadataExt, OpenOptionsExt, PermissionsExt, fchown};
use std::path::{Path, PathBuf};
use std::process;

use crate::ended;
use crate::failure::Failure;
use crate::output::{Out, buffered};
use crate::places::resolved;
use crate::say::say;

/// Files that are written beside their places, and take them together.
#[derive(Default)]
pub struct Files(Vec<Part>);

impl Files {
    /// Writes a file beside its place. What is no plain file, such as a device, is written to as it
    /// stands.
    pub fn write(
        &mut self,
        path: &str,
        fill: impl FnOnce(&mut Out) -> io::Result<()>,
    ) -> Result<(), Failure> {
        let failed = |error| Failure::file(path, error);
        let place = resolved(path);
        let found = fs::metadata(&place).ok();
        if found.as_ref().is_some_and(|found| !found.is_file()) {
            let file = File::options().write(true).open(&place);
            return file.and_then(|file| filled(file, fill)).map_err(failed);
        }
        left_behind(&place);
        let part = Part::new(path, place);
        part.create(found.as_ref()).and_then(|file| filled(file, fill)).map_err(failed)?;
        self.0.push(part);
        Ok(())
    }

    /// Moves all files to their places; where one cannot be moved, all places are as they were.
    pub fn put(self) -> Result<(), Failure> {
        let mut moved: Vec<Moved> = vec![];
        for part in &self.0 {
            match Moved::new(part, self.0.len() > 1) {
                Ok(done) => moved.push(done),
                Err(error) => {
                    moved.into_iter().rev().for_each(Moved::undo);
                    return Err(Failure::file(&part.path, error));
                }
            }
        }
        moved.into_iter().for_each(Moved::forget);
        Ok(())
    }
}

/// A file beside its place, removed unless it is moved there.
struct Part {
    /// The place as it was named, and as it is.
    path: String,
    place: PathBuf,
    file: PathBuf,
    /// Where its name is kept for a signal.
    name: Option<usize>,
}

impl Part {
    fn new(path: &str, place: PathBuf) -> Part {
        let file = beside(&place, &format!(".{}.part", process::id()));
        Part { path: path.into(), name: ended::remove(&file), place, file }
    }

    /// The open file, with the owner and the mode of the one that it will replace.
    fn create(&self, found: Option<&Metadata>) -> io::Result<File> {
        let mut options = File::options();
        options.write(true).create_new(true);
        let Some(found) = found else { return options.open(&self.file) };
        let file = options.mode(0o600).open(&self.file)?;
        let own = file.metadata()?;
        if (own.uid(), own.gid()) != (found.uid(), found.gid()) {
            fchown(&file, Some(found.uid()), Some(found.gid())).map_err(|error| {
                io::Error::new(error.kind(), format!("its owner cannot be kept: {error}"))
            })?;
        }
        file.set_permissions(Permissions::from_mode(found.mode() & 0o7777))?;
        Ok(file)
    }
}

impl Drop for Part {
    fn drop(&mut self) {
        // It may not have been made, or be in its place.
        let _ = fs::remove_file(&self.file);
        if let Some(name) = self.name {
            ended::keep(name);
        }
    }
}

/// A file in its place, and what stood there before, if that was kept.
struct Moved {
    place: PathBuf,
    before: Option<PathBuf>,
}

impl Moved {
    /// Moves a part to its place, and keeps what stands there if that may be needed again.
    fn new(part: &Part, needed: bool) -> io::Result<Moved> {
        let before = beside(&part.place, &format!(".{}.before", process::id()));
        let before = (needed && part.place.exists()).then_some(before);
        if let Some(before) = &before {
            // There are file systems without such links.
            let copied = |_| fs::copy(&part.place, before).map(|_| ());
            fs::hard_link(&part.place, before).or_else(copied)?;
        }
        let moved = Moved { place: part.place.clone(), before };
        match fs::rename(&part.file, &part.place) {
            Ok(()) => Ok(moved),
            Err(error) => {
                moved.forget();
                Err(error)
            }
        }
    }

    /// Puts back what stood there. The failure that led to this is the one to report.
    fn undo(self) {
        let _ = match self.before {
            Some(before) => fs::rename(before, self.place),
            None => fs::remove_file(self.place),
        };
    }

    fn forget(self) {
        if let Some(before) = self.before {
            let _ = fs::remove_file(before);
        }
    }
}

fn beside(place: &Path, end: &str) -> PathBuf {
    let mut name = OsString::from(place);
    name.push(end);
    name.into()
}

/// Names the parts that runs on this place have left behind, which have come to an end since.
fn left_behind(place: &Path) {
    let (Some(folder), Some(name)) = (place.parent(), place.file_name()) else { return };
    let begin = format!("{}.", name.to_string_lossy());
    for entry in fs::read_dir(folder).into_iter().flatten().flatten() {
        let name = entry.file_name().to_string_lossy().into_owned();
        let number = name.strip_prefix(&begin).and_then(|rest| rest.strip_suffix(".part"));
        let process = number.and_then(|number| number.parse::<u32>().ok());
        if process.is_some_and(|process| !Path::new(&format!("/proc/{process}")).exists()) {
            let file = entry.path();
            let file = file.display();
            say(format!("{file} is part of an output of a run that was ended, and may be removed"));
        }
    }
}

fn filled(mut file: File, fill: impl FnOnce(&mut Out) -> io::Result<()>) -> io::Result<()> {
    let mut out = buffered(&mut file);
    fill(&mut out)?;
    out.flush()
}

#[cfg(test)]
mod tests {
    use super::*;

    /// A place that a file cannot take any more leaves the other as it was.
    #[test]
    fn all_take_their_places_or_none() {
        let folder = std::env::temp_dir().join(format!("figures-places-{}", process::id()));
        fs::create_dir(&folder).unwrap();
        let [first, second, third] = ["1", "2", "3"].map(|name| folder.join(name));
        fs::write(&first, "before").unwrap();
        let mut files = Files::default();
        for place in [&first, &second, &third] {
            files.write(place.to_str().unwrap(), |out| out.write_all(b"after")).unwrap();
        }
        fs::create_dir(&third).unwrap();
        let failure = files.put().unwrap_err().to_string();
        assert!(failure.starts_with(&format!("{}: ", third.display())), "{failure}");
        assert_eq!(fs::read_to_string(&first).unwrap(), "before");
        let names = fs::read_dir(&folder).unwrap().map(|entry| entry.unwrap().file_name());
        let mut names: Vec<_> = names.collect();
        names.sort();
        fs::remove_dir_all(&folder).unwrap();
        assert_eq!(names, ["1", "3"]);
    }
}
