//! Cases as files: list.bin and readings.bin, as `busrun` reads them.

use std::path::Path;
use std::{fs, io};

use crate::Case;

pub fn write_case(folder: &Path, case: &Case) -> io::Result<()> {
    let readings: Vec<u8> = case
        .readings
        .iter()
        .flat_map(|word| word.to_le_bytes())
        .collect();
    fs::create_dir_all(folder)?;
    fs::write(folder.join("list.bin"), &case.list)?;
    fs::write(folder.join("readings.bin"), readings)
}
