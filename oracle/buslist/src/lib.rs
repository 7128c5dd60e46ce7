//! The bus list, read and written, and the fastest speed under a ceiling: from documents 01 and 02 alone, with nothing
//! of the engine.

pub mod ceiling;
mod join;
mod plan;
mod refusal;
mod view;

pub use join::{combined, joined, plain_kind};
pub use plan::{Plan, PlannedCall, PlannedOperation};
pub use refusal::{causes, over_another_limit, refusal};
pub use view::{Call, List, Mode, Operation, Settings};

/// The bytes of a header: sixteen 32-bit words.
pub const HEADER: usize = 64;
/// The bytes of a call, and of an operation.
pub const ENTRY: usize = 8;

/// The limits of cause 21.
pub mod limit {
    pub const LIST_BYTES: usize = 32_768;
    pub const CALLS: usize = 256;
    pub const OPERATIONS: usize = 1_024;
    pub const OPERATION_BYTES: usize = 258;
}

/// The highest address of each width, by cause 24.
pub mod highest {
    pub const SEVEN_BIT: u16 = 127;
    pub const TEN_BIT: u16 = 1_023;
}
