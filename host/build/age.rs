//! Whether the engine's library is older than what it is built from.
//!
//! `build.rs` uses this, and `tests/library_age.rs` tries it.

use std::fs;
use std::io;
use std::path::{Path, PathBuf};
use std::time::SystemTime;

/// What `host/library` builds the library from: `crates.txt`, and three folders of `engine_c` and
/// of each crate below it.
pub fn sources(root: &Path) -> Result<Vec<PathBuf>, String> {
    let list = root.join("crates.txt");
    let text = fs::read_to_string(&list).map_err(|error| unreadable(&list, &error))?;
    let mut sources = vec![list];
    for name in with_all_below("engine_c", &text) {
        let parts =
            ["src", "specs", "proofs"].map(|part| root.join("crates").join(name).join(part));
        // A library of the kit has no folder here.
        sources.extend(parts.into_iter().filter(|part| part.is_dir()));
    }
    Ok(sources)
}

/// A crate and each library below it, by the lines `NAME: LIBRARY LIBRARY ..` of `crates.txt`. More words may
/// stand before the colon.
fn with_all_below<'a>(name: &'a str, text: &'a str) -> Vec<&'a str> {
    let mut all = vec![name];
    let mut next = 0;
    while let Some(&name) = all.get(next) {
        for library in libraries(name, text) {
            if !all.contains(&library) {
                all.push(library);
            }
        }
        next += 1;
    }
    all
}

fn libraries<'a>(name: &'a str, text: &'a str) -> impl Iterator<Item = &'a str> {
    text.lines()
        .filter_map(|line| line.split('#').next()?.split_once(':'))
        .filter(move |(head, _)| head.split_whitespace().next() == Some(name))
        .flat_map(|(_, rest)| rest.split_whitespace())
}

/// The newest file or folder in or below the sources, if it is newer than the library.
pub fn newer(library: &Path, sources: &[PathBuf]) -> Result<Option<PathBuf>, String> {
    let built = fs::metadata(library)
        .and_then(|metadata| metadata.modified())
        .map_err(|error| unreadable(library, &error))?;
    let mut newest = None;
    for source in sources {
        let last = last_change(source).map_err(|error| unreadable(source, &error))?;
        newest = newest.max(Some(last));
    }
    Ok(newest
        .filter(|(changed, _)| *changed > built)
        .map(|(_, path)| path))
}

/// The last change in or below this path, and where it was. The time of a folder counts: it is that
/// of the last file added or removed.
fn last_change(path: &Path) -> io::Result<(SystemTime, PathBuf)> {
    // Without following links: an editor may keep one that leads nowhere.
    let metadata = fs::symlink_metadata(path)?;
    let mut last = (metadata.modified()?, path.to_path_buf());
    if metadata.is_dir() {
        for entry in fs::read_dir(path)? {
            last = last.max(last_change(&entry?.path())?);
        }
    }
    Ok(last)
}

fn unreadable(path: &Path, error: &io::Error) -> String {
    format!("{} cannot be read: {error}.", path.display())
}
