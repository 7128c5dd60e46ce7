//! Copies the original sources, unchanged, beside the stand-ins. Nothing of them is kept in the repository.

use std::path::{Path, PathBuf};
use std::{env, fs, process};

const SOURCES: [&str; 6] = [
    "i2c.rs",
    "i2c/blocking.rs",
    "i2c/common.rs",
    "i2c/hal_1.rs",
    "i2c/hal_02.rs",
    "time.rs",
];

fn main() {
    println!("cargo:rerun-if-env-changed=I2C_SOURCES");
    let here = PathBuf::from(env::var("CARGO_MANIFEST_DIR").unwrap());
    let repository = here.join("../..");
    let folder = match env::var("I2C_SOURCES") {
        Ok(folder) => repository.join(folder),
        Err(_) => repository.join("../shared/docs/src"),
    };
    let out = PathBuf::from(env::var("OUT_DIR").unwrap());
    fs::create_dir_all(out.join("i2c")).unwrap();
    for source in SOURCES {
        copy(&folder.join(source), &out.join(source));
    }
    fs::write(out.join("sources.rs"), "pub mod i2c;\npub mod time;\n").unwrap();
}

fn copy(from: &Path, to: &Path) {
    println!("cargo:rerun-if-changed={}", from.display());
    let Ok(text) = fs::read(from) else {
        eprintln!("The original source {} is not there.", from.display());
        eprintln!(
            "Set I2C_SOURCES to the folder with i2c.rs, i2c/ and time.rs of stm32f1xx-hal 0.11.0"
        );
        eprintln!(
            "(a path from the repository's root, or a whole path; default ../shared/docs/src)."
        );
        process::exit(1);
    };
    fs::write(to, text).unwrap();
}
