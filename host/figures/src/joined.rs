//! The series of all files: what several files have of one name is one series, in their order. A
//! file without names is a series of its own, called as the file is.

use std::collections::HashMap;
use std::path::{Component, Path};

use crate::failure::Failure;
use crate::series::Series;
use crate::text::excerpt;

/// The series of the files, each with a title that no other has.
pub fn joined(files: Vec<Vec<Series>>) -> Result<Vec<Series>, Failure> {
    let mut all: Vec<Series> = vec![];
    let mut places: HashMap<String, usize> = HashMap::new();
    for series in files.into_iter().flatten() {
        match series.name.as_ref().and_then(|name| places.get(name)) {
            Some(place) => all[*place].append(series),
            None => {
                if let Some(name) = &series.name {
                    places.insert(name.clone(), all.len());
                }
                all.push(series);
            }
        }
    }
    if all.len() > 1 {
        add_folders(&mut all);
        told_apart(&all)?;
    }
    Ok(all)
}

/// Of files with one name the titles get their folders, as many as tell them apart.
fn add_folders(all: &mut [Series]) {
    let paths: Vec<Vec<String>> = all.iter().map(|series| parts(series.file())).collect();
    let unnamed = all.iter_mut().zip(&paths).filter(|(series, _)| series.name.is_none());
    let unnamed: Vec<_> = unnamed.collect();
    let mut counts: HashMap<&[String], usize> = HashMap::new();
    for end in unnamed.iter().flat_map(|(_, path)| ends(path)) {
        *counts.entry(end).or_default() += 1;
    }
    for (series, path) in unnamed {
        let own = ends(path).find(|end| counts[end] == 1);
        series.title = own.unwrap_or(path).join("/");
    }
}

/// The last part of a path, the last two, and so on to the whole.
fn ends(path: &[String]) -> impl Iterator<Item = &[String]> {
    (0..path.len()).rev().map(|first| &path[first..])
}

/// The parts of a path, the last without its extension.
fn parts(file: &str) -> Vec<String> {
    let path = Path::new(file).with_extension("");
    let parts = path.components().filter(|part| *part != Component::CurDir);
    parts.map(|part| part.as_os_str().to_string_lossy().into_owned()).collect()
}

/// An error where two series have one title, or where a title cannot be written.
fn told_apart(all: &[Series]) -> Result<(), Failure> {
    let mut files = HashMap::new();
    for series in all {
        let (title, file) = (excerpt(&series.title), series.file());
        if series.title.contains('\n') {
            let message = format!("{file}: expected a name without a line feed");
            return Err(Failure::Input(message));
        }
        if let Some(other) = files.insert(&series.title, file) {
            let message = format!("{file}: expected another name than {title}, which {other} has");
            return Err(Failure::Input(message));
        }
    }
    Ok(())
}
