//! An accepted list as it is read: nothing is copied, so that reading costs a run little.

use crate::{ENTRY, HEADER};

#[derive(Debug, Clone, Copy, PartialEq, Eq)]
pub enum Mode {
    Standard,
    Fast2To1,
    Fast16To9,
}

impl Mode {
    pub const ALL: [Mode; 3] = [Mode::Standard, Mode::Fast2To1, Mode::Fast16To9];
}

/// The eight header words from pclk1 to the data timeout: hertz and microseconds.
#[derive(Debug, Clone, Copy, PartialEq, Eq)]
pub struct Settings {
    pub pclk1: u32,
    pub sysclk: u32,
    pub mode: Mode,
    pub frequency: u32,
    pub start_timeout: u32,
    pub start_retries: u8,
    pub address_timeout: u32,
    pub data_timeout: u32,
}

impl Settings {
    /// The settings of document 01's example.
    pub const fn example() -> Settings {
        Settings {
            pclk1: 36_000_000,
            sysclk: 0,
            mode: Mode::Standard,
            frequency: 100_000,
            start_timeout: 0,
            start_retries: 0,
            address_timeout: 0,
            data_timeout: 0,
        }
    }
}

#[derive(Debug, Clone, Copy, PartialEq, Eq)]
pub struct Call {
    pub kind: u8,
    /// The bits of its address, 7 or 10.
    pub width: u8,
    pub address: u16,
    first: usize,
    count: usize,
}

#[derive(Debug, Clone, Copy, PartialEq, Eq)]
pub enum Operation<'a> {
    Write(&'a [u8]),
    Read(usize),
}

impl Call {
    /// A ten-bit call: its address is sent as a header and a low byte.
    pub fn is_ten_bit(&self) -> bool {
        self.width == 10
    }
}

/// A list of the form: one that `refusal` accepts, or refuses for a cause above 20.
#[derive(Clone, Copy)]
pub struct List<'a> {
    bytes: &'a [u8],
}

impl<'a> List<'a> {
    /// The list must be of the form; of any other the answers mean nothing, or panic.
    pub fn accepted(bytes: &'a [u8]) -> List<'a> {
        List { bytes }
    }

    fn half(&self, at: usize) -> usize {
        usize::from(u16::from_le_bytes([self.bytes[at], self.bytes[at + 1]]))
    }

    fn word(&self, at: usize) -> u32 {
        u32::from_le_bytes(self.bytes[at..at + 4].try_into().unwrap())
    }

    fn header(&self, at: usize) -> u32 {
        self.word(4 * at)
    }

    pub fn settings(&self) -> Settings {
        Settings {
            pclk1: self.header(6),
            sysclk: self.header(7),
            mode: Mode::ALL[self.header(8) as usize],
            frequency: self.header(9),
            start_timeout: self.header(10),
            start_retries: self.header(11) as u8,
            address_timeout: self.header(12),
            data_timeout: self.header(13),
        }
    }

    pub fn call_count(&self) -> usize {
        self.header(0) as usize
    }

    pub fn calls(&self) -> impl Iterator<Item = Call> + '_ {
        (0..self.call_count()).map(|k| {
            let at = HEADER + ENTRY * k;
            Call {
                kind: self.bytes[at],
                width: self.bytes[at + 1],
                address: self.half(at + 2) as u16,
                first: self.half(at + 4),
                count: self.half(at + 6),
            }
        })
    }

    pub fn operations(&self, call: &Call) -> impl Iterator<Item = Operation<'a>> + '_ {
        let table = self.header(3) as usize;
        let data = self.header(5) as usize;
        (call.first..call.first + call.count).map(move |j| {
            let at = table + ENTRY * j;
            let length = self.half(at + 2);
            if self.bytes[at] == 1 {
                return Operation::Read(length);
            }
            let from = data + self.word(at + 4) as usize;
            Operation::Write(&self.bytes[from..from + length])
        })
    }
}
