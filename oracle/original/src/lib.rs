//! The original Rust I2C driver, compiled unchanged over stand-ins, and run on bus lists; with a model of the ten-bit
//! calls, which it cannot judge.

pub mod afio;
pub mod model;
pub mod pac;
pub mod rcc;

mod drive;
pub use drive::{run, run_with, simulate, speed_words, ten_bit, Counts, Modelled};

/// What the sources require of a peripheral, as in the crate they are from.
pub trait Sealed {}

include!(concat!(env!("OUT_DIR"), "/sources.rs"));
