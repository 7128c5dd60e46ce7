//! Shows a file as a bus list, field by field, and says whether the engine would refuse it, why and
//! where, or what in it is doubtful.
//!
//! `cargo run --offline --example show_list FILE`

use std::process::ExitCode;
use std::{env, fs};

use vandhukril::{explain, show};

/// The received buffer that `busrun` has.
const RECEIVED_LENGTH: usize = 4096;

fn main() -> ExitCode {
    match show_file() {
        Ok(()) => ExitCode::SUCCESS,
        Err(message) => {
            eprintln!("{message}");
            ExitCode::FAILURE
        }
    }
}

fn show_file() -> Result<(), String> {
    let file = env::args_os()
        .nth(1)
        .ok_or("No file was named. Name the file of a bus list: show_list FILE")?;
    let list = fs::read(&file).map_err(|error| {
        let file = file.display();
        format!("{file} cannot be read: {error}. Name the file of a bus list: show_list FILE")
    })?;
    print!("{}", show(&list));
    match explain(&list, RECEIVED_LENGTH) {
        Err(fault) => println!("refused ({}): {fault}", fault.refusal.number()),
        Ok(warnings) => {
            println!("accepted");
            for warning in warnings {
                println!("warning: {warning}");
            }
        }
    }
    Ok(())
}
