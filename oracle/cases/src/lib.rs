//! Cases for comparison: bus lists with readings and buffer lengths, made by seed.

mod combined;
mod damage;
mod feed;
mod files;
mod generate;
mod judge;
mod limits;
mod longest;
mod plans;
mod rng;
mod shrink;
mod sweep;
mod tally;
mod ten;

pub use feed::{Feed, Style};
pub use files::write_case;
pub use generate::{accepted, generate, simulated};
pub use judge::{judge, run_list, Ran};
pub use longest::longest_met;
pub use plans::{plan, scatter};
pub use rng::Rng;
pub use shrink::shrink;
pub use sweep::sweep;
pub use tally::{ended_in, Tally};
pub use ten::{wait_met, why_out};

/// What a run is given.
#[derive(Debug, Clone, PartialEq, Eq)]
pub struct Case {
    pub list: Vec<u8>,
    pub readings: Vec<u32>,
    /// Bytes of the received buffer.
    pub rx: usize,
    /// Words of the record.
    pub record: usize,
}

/// SR1 bits.
pub mod flag {
    use crate::Rng;

    pub const ADDR: u32 = 1 << 1;
    pub const ADD10: u32 = 1 << 3;
    /// SB, ADDR, BTF, ADD10, RXNE and TXE: as a word of any register it ends every wait.
    pub const READY: u32 = 0xCF;
    pub const ARLO: u32 = 1 << 9;
    pub const AF: u32 = 1 << 10;
    /// BERR, ARLO, AF, OVR, PECERR and TIMEOUT.
    pub const ERRORS: [u32; 6] = [1 << 8, ARLO, AF, 1 << 11, 1 << 12, 1 << 14];

    /// An error flag. AF more often, since it has three endings to reach, by where it is met; ARLO too, since a polling
    /// check looks for every other one before it.
    pub fn any_error(rng: &mut Rng) -> u32 {
        match rng.below(100) {
            0..=24 => AF,
            25..=31 => ARLO,
            _ => rng.pick(&ERRORS),
        }
    }
}

/// CR1 bits.
pub const START: u32 = 1 << 8;
pub const STOP: u32 = 1 << 9;

/// The headers that a ten-bit address begins with, when the device is to be written to: F0, F2, F4 and F6 hexadecimal.
pub fn is_header(byte: u32) -> bool {
    byte & !6 == 0xF0
}

/// The seven-bit address, 120 to 123, whose byte is the header of this ten-bit one.
pub fn seven_bit_of(address: u16) -> u16 {
    120 + (address >> 8)
}
