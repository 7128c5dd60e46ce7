//! Finds the engine's static library, or has it built, and links it.
//!
//! In this order: the folder that `ENGINE_LIBRARY` names (a relative one starts at this package);
//! `target/staticlib` at the repository's root; that folder again, after `host/library`. A
//! library at the repository's root must not be older than what it is built from.

use std::env;
use std::ffi::OsString;
use std::io;
use std::path::{Path, PathBuf};
use std::process::Command;

#[path = "build/age.rs"]
mod age;

const LIBRARY: &str = "libengine.a";

fn main() {
    println!("cargo::rerun-if-changed=build.rs");
    println!("cargo::rerun-if-env-changed=ENGINE_LIBRARY");
    match library_folder() {
        Ok(folder) => {
            println!("cargo::rustc-link-search=native={}", folder.display());
            println!("cargo::rustc-link-lib=static=engine");
        }
        // Such a line fails the build. An exit status would too, but cargo then prints all lines above as well.
        Err(message) => {
            for line in message.lines() {
                println!("cargo::error={line}");
            }
        }
    }
}

fn library_folder() -> Result<PathBuf, String> {
    check_target()?;
    let package = PathBuf::from(variable("CARGO_MANIFEST_DIR")?);
    // Relative paths start at the package, for this script and for cargo. So a copy of the repository that has
    // `target/` in it looks at its own crates.
    let folder = match env::var_os("ENGINE_LIBRARY").filter(|folder| !folder.is_empty()) {
        Some(folder) => named_folder(folder.into())?,
        None => repository_folder(Path::new(".."))?,
    };
    // `join` takes an absolute folder as it is.
    Ok(package.join(folder))
}

/// The library is machine code for one kind of machine. Linking it elsewhere would fail with a message that says less.
fn check_target() -> Result<(), String> {
    let arch = variable("CARGO_CFG_TARGET_ARCH")?;
    let os = variable("CARGO_CFG_TARGET_OS")?;
    if arch == "x86_64" && os == "linux" {
        return Ok(());
    }
    Err(format!(
        "{LIBRARY} is for x86-64 Linux, and the target is {} {}.\n\
         Build for the target x86_64-unknown-linux-gnu.",
        arch.display(),
        os.display()
    ))
}

/// A library that is named is taken as it is.
fn named_folder(folder: PathBuf) -> Result<PathBuf, String> {
    let library = folder.join(LIBRARY);
    println!("cargo::rerun-if-changed={}", library.display());
    if library.is_file() {
        return Ok(folder);
    }
    Err(format!(
        "ENGINE_LIBRARY names {}, which has no {LIBRARY}.\n\
         Name a folder that has it, or unset ENGINE_LIBRARY to use the repository's own.",
        folder.display()
    ))
}

/// The folder of the repository's own library, with a library that is there and not too old.
fn repository_folder(root: &Path) -> Result<PathBuf, String> {
    let folder = root.join("target").join("staticlib");
    let library = folder.join(LIBRARY);
    println!("cargo::rerun-if-changed={}", library.display());
    let sources = age::sources(root).map_err(with_advice)?;
    for source in &sources {
        println!("cargo::rerun-if-changed={}", source.display());
    }
    if !library.is_file() {
        build_library(root, &library)?;
    }
    match age::newer(&library, &sources).map_err(with_advice)? {
        None => Ok(folder),
        Some(source) => Err(format!(
            "target/staticlib/{LIBRARY} is older than the last change to {}.\n\
             Run `host/library` at the repository's root, which proves the engine and builds its library again.",
            source.strip_prefix(root).unwrap_or(&source).display()
        )),
    }
}

fn with_advice(message: String) -> String {
    format!(
        "{message}\n\
         Build within the whole repository, or set ENGINE_LIBRARY to a folder that has {LIBRARY}."
    )
}

fn build_library(root: &Path, library: &Path) -> Result<(), String> {
    let missing = format!("{} is not there", library.display());
    let output = Command::new(root.join("host/library"))
        .output()
        .map_err(|error| not_started(&missing, &error))?;
    if output.status.success() && library.is_file() {
        return Ok(());
    }
    Err(format!(
        "{missing}, and `host/library` did not build it ({}).\n\
         Run it at the repository's root on a machine that has the Rattle kit, and correct what it refuses,\n\
         or set ENGINE_LIBRARY to a folder that has {LIBRARY}. It wrote:\n{}{}",
        output.status,
        String::from_utf8_lossy(&output.stdout),
        String::from_utf8_lossy(&output.stderr)
    ))
}

fn not_started(missing: &str, error: &io::Error) -> String {
    format!(
        "{missing}, and `host/library` could not be started to build it: {error}.\n\
         Run it at the repository's root on a machine that has the Rattle kit,\n\
         or set ENGINE_LIBRARY to a folder that has {LIBRARY}."
    )
}

fn variable(name: &str) -> Result<OsString, String> {
    env::var_os(name)
        .ok_or_else(|| format!("{name} is not set. Run this script through cargo, which sets it."))
}
