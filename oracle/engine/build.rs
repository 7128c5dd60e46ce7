//! Links the proved static library, which `host/library` makes. One that is older than the crates is refused,
//! unless ENGINE_LIBRARY names it.

use std::env;
use std::path::{Path, PathBuf};

#[path = "../../host/build/age.rs"]
mod age;

fn main() {
    println!("cargo::rerun-if-env-changed=ENGINE_LIBRARY");
    match library_folder() {
        Ok(folder) => {
            println!("cargo::rustc-link-search=native={}", folder.display());
            println!("cargo::rustc-link-lib=static=engine");
        }
        Err(why) => {
            println!("cargo::error={why}");
            println!("cargo::error=Run `host/library` at the repository's root, or set ENGINE_LIBRARY to the library's folder.");
        }
    }
}

fn library_folder() -> Result<PathBuf, String> {
    let package = PathBuf::from(env::var("CARGO_MANIFEST_DIR").unwrap());
    // From the package, where this script runs: a copy of the repository then looks at its own crates.
    let repository = Path::new("../..");
    let named = env::var_os("ENGINE_LIBRARY").filter(|folder| !folder.is_empty());
    let folder = repository.join(named.as_deref().unwrap_or("target/staticlib".as_ref()));
    let library = folder.join("libengine.a");
    println!("cargo::rerun-if-changed={}", library.display());
    if !library.exists() {
        return Err(format!(
            "The engine's library {} is not there.",
            library.display()
        ));
    }
    if named.is_none() {
        check_age(repository, &library)?;
    }
    Ok(package.join(folder))
}

fn check_age(repository: &Path, library: &Path) -> Result<(), String> {
    let sources = age::sources(repository)?;
    for source in &sources {
        println!("cargo::rerun-if-changed={}", source.display());
    }
    match age::newer(library, &sources)? {
        None => Ok(()),
        Some(source) => Err(format!(
            "The engine's library is older than the last change to {}.",
            source.display()
        )),
    }
}
