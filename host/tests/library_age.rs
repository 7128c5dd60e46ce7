//! Whether a library is older than what it is built from: the part of the build script that says so,
//! on a small repository made for it.

#[path = "../build/age.rs"]
mod age;

use std::fs::{self, File};
use std::path::{Path, PathBuf};
use std::time::{Duration, SystemTime};

const LIBRARY: &str = "libengine.a";

/// The root of a small repository, outside this one: `rt` takes every folder below the one that it is run in that has a
/// `crates.txt` for a repository. It is removed at the end.
struct Repository(PathBuf);

impl Drop for Repository {
    fn drop(&mut self) {
        // One that is already gone is as well.
        let _ = fs::remove_dir_all(&self.0);
    }
}

impl Repository {
    /// A repository with a library that is newer than all else.
    fn new(name: &str) -> Repository {
        let own = format!("vandhukril-{}-{name}", std::process::id());
        let repository = Repository(std::env::temp_dir().join(own));
        repository.write(
            "crates.txt",
            "# NAME: what it uses\nlow:\nmiddle: low # not above\nengine: middle kit\nengine_c staticlib: engine\nabove: engine\n",
        );
        for name in ["low", "middle", "engine", "engine_c", "above"] {
            for part in ["src", "specs", "proofs/deep", "must-fail"] {
                repository.write(&format!("crates/{name}/{part}/file"), "");
            }
        }
        repository.write(LIBRARY, "");
        repository.set_time("", 1);
        repository.set_time(LIBRARY, 2);
        repository
    }

    fn write(&self, file: &str, text: &str) {
        let path = self.0.join(file);
        fs::create_dir_all(path.parent().expect("a folder")).expect("the folder is made");
        fs::write(path, text).expect("the file is written");
    }

    fn remove(&self, file: &str) {
        fs::remove_file(self.0.join(file)).expect("the file is there");
    }

    /// Sets the time of a file, or of a folder and all in it, to so many seconds after a fixed one.
    fn set_time(&self, path: &str, seconds: u64) {
        let time = SystemTime::UNIX_EPOCH + Duration::from_secs(1_000_000_000 + seconds);
        set_all(&self.0.join(path), time);
    }

    /// What is newer than the library, from the root on.
    fn newer(&self) -> Option<String> {
        let sources = age::sources(&self.0).expect("crates.txt");
        let newer = age::newer(&self.0.join(LIBRARY), &sources).expect("all is there")?;
        let inner = newer
            .strip_prefix(&self.0)
            .expect("it is in the repository");
        Some(inner.display().to_string())
    }
}

fn set_all(path: &Path, time: SystemTime) {
    if path.is_dir() {
        for entry in fs::read_dir(path).expect("a folder") {
            set_all(&entry.expect("a file").path(), time);
        }
    }
    File::open(path)
        .and_then(|file| file.set_modified(time))
        .expect("the time is set");
}

#[test]
fn a_library_that_nothing_is_newer_than_is_not_too_old() {
    let repository = Repository::new("not_too_old");
    assert_eq!(repository.newer(), None);
    // All of one age.
    repository.set_time("", 1);
    assert_eq!(repository.newer(), None);
}

#[test]
fn every_file_that_it_is_built_from_counts() {
    let repository = Repository::new("every_file");
    let in_crates = ["low", "middle", "engine", "engine_c"]
        .into_iter()
        .flat_map(|name| {
            ["src", "specs", "proofs/deep"].map(|part| format!("crates/{name}/{part}/file"))
        });
    for file in in_crates.chain(["crates.txt".to_string()]) {
        repository.set_time(&file, 3);
        assert_eq!(repository.newer().as_ref(), Some(&file));
        repository.set_time(&file, 1);
    }
    assert_eq!(repository.newer(), None);
}

#[test]
fn of_several_the_newest_is_named() {
    let repository = Repository::new("several");
    repository.set_time("crates/low/src", 3);
    repository.set_time("crates/engine/proofs/deep/file", 4);
    repository.set_time("crates/middle/specs", 3);
    assert_eq!(
        repository.newer().as_deref(),
        Some("crates/engine/proofs/deep/file")
    );
}

#[test]
fn what_it_is_not_built_from_does_not_count() {
    let repository = Repository::new("not_built_from");
    repository.set_time("crates/above", 3);
    repository.set_time("crates/engine/must-fail", 3);
    assert_eq!(repository.newer(), None);
}

#[test]
fn files_added_and_removed_are_noticed() {
    let repository = Repository::new("added");
    repository.write("crates/low/src/added", "");
    assert_eq!(repository.newer().as_deref(), Some("crates/low/src/added"));

    let repository = Repository::new("removed");
    repository.remove("crates/middle/specs/file");
    assert_eq!(repository.newer().as_deref(), Some("crates/middle/specs"));
}

#[test]
fn without_crates_txt_the_file_is_named() {
    let repository = Repository::new("no_list");
    repository.remove("crates.txt");
    let message = age::sources(&repository.0).unwrap_err();
    assert!(message.contains("crates.txt cannot be read"), "{message}");
}

#[test]
fn the_engine_of_this_repository_has_crates_two_steps_below() {
    let root = Path::new(env!("CARGO_MANIFEST_DIR")).join("..");
    let sources = age::sources(&root).expect("crates.txt");
    for part in ["engine/src", "blocking/specs", "timed/proofs"] {
        assert!(sources.contains(&root.join("crates").join(part)), "{part}");
    }
    assert!(!sources.contains(&root.join("crates/busrun/src")));
}
