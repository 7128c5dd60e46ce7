//! Safe Rust over the proved I2C master engine.
//!
//! The engine takes a bus list and readings, performs the bring-up and then the calls of the list in
//! order, and stops after the first call that does not end well. It answers with every register
//! access, the bytes received, and how the run ended. It is written and proved in Rattle, and linked
//! here as a static library. This crate adds no meaning to them: [`run`], the words and the choice of
//! [`speed`], and the words of [`usual`] are the engine's answers with Rust types around them. What a word
//! is on the bus ([`speed::on_bus`]), the word and the frequency of a choice ([`speed::Fastest`]), and which flag
//! an access clears ([`Access::cleared`]), are formulas of this crate.
//!
//! | To do this | use |
//! |---|---|
//! | make a bus list | [`BusList`], with [`Settings`] or [`PollingSettings`] |
//! | give a long transfer in parts | [`LONGEST_OPERATION`] |
//! | run it | [`run`] |
//! | see what the run did | [`accesses`], [`Report`] |
//! | see which error flag an access clears | [`Access::cleared`] |
//! | learn why it did not end well | [`Error`], [`Cause`], [`Refusal`] |
//! | look at a list, right or wrong | [`BusList::from_bytes`], [`explain`], [`show`] |
//! | know the speed words of settings, and what a CCR word is on the bus | [`speed`] |
//! | show all usual speeds | [`usual`] |
//! | choose the fastest speed under a ceiling | [`speed::under`], [`speed::Fastest`], [`speed::NoChoice`] |
//!
//! # Example
//!
//! A write of one byte to address 50 hexadecimal, then a read of two bytes. The readings stand for
//! the bus; here every register always shows CF hexadecimal, that is, every flag the engine waits for.
//!
//! ```
//! use vandhukril::{ACCESS_WORDS, BusList, Hertz, Mode, PollingSettings, accesses};
//!
//! let mut list = BusList::new(PollingSettings {
//!     pclk1: Hertz(36_000_000),
//!     mode: Mode::Standard,
//!     frequency: Hertz(100_000),
//! });
//! list.write(0x50, &[0x2a]).read(0x50, 2);
//!
//! let readings = [0xcf; 100];
//! let mut received = vec![0; list.received_length()];
//! let mut record = [0; 200];
//! let counts = vandhukril::run(&list.to_bytes()?, &readings, &mut received, &mut record)?;
//!
//! assert_eq!(counts.calls, 2);
//! assert_eq!(received[..counts.received], [0xcf, 0xcf]);
//! for access in accesses(&record[..ACCESS_WORDS * counts.accesses]) {
//!     println!("{access}");
//! }
//! # Ok::<(), Box<dyn std::error::Error>>(())
//! ```
//!
//! # Safety
//!
//! Nothing reachable from here is unsafe to call. One small module has all the `unsafe` blocks; it
//! turns borrowed slices, and an array of its own, into the pointers and lengths that the engine takes. The
//! engine keeps no state between calls, so every function here may be called from any thread at any time.

#![deny(unsafe_op_in_unsafe_fn)]

mod engine;
mod error;
mod list;
mod record;
mod run;
mod settings;
pub mod speed;
mod text;
pub mod usual;

pub use error::{Cause, DoesNotFit, Error, NoAcknowledge, Refusal};
pub use list::{
    Address, BusList, Call, Fault, Kind, LONGEST_OPERATION, Operation, Warning, explain, show,
};
pub use record::{ACCESS_WORDS, Access, Direction, ErrorFlag, Register, Report, accesses};
pub use run::{Counts, answer, run};
pub use settings::{Hertz, ListSettings, Micros, Mode, PollingSettings, Settings};
