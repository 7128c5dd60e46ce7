//! The polling call as documents 01 and 02 have it, step by step over the stand-in device.
//!
//! The Rust cannot judge a ten-bit call: its write header masks to 0, and it sends both bytes of an address without a
//! wait between them. So a ten-bit call is done by this model. With a seven-bit address the model is the Rust's own
//! call, access for access, and a test of `cases` compares the two.

use device::{code, read_register, write_register};
use embedded_hal::i2c::Operation;

use crate::i2c::{Error, NoAcknowledgeSource};

/// SR1 bits.
pub mod sr1 {
    pub const SB: u16 = 1 << 0;
    pub const ADDR: u16 = 1 << 1;
    pub const BTF: u16 = 1 << 2;
    pub const ADD10: u16 = 1 << 3;
    pub const RXNE: u16 = 1 << 6;
    pub const TXE: u16 = 1 << 7;
    pub const BERR: u16 = 1 << 8;
    pub const ARLO: u16 = 1 << 9;
    pub const AF: u16 = 1 << 10;
    pub const OVR: u16 = 1 << 11;
    pub const PECERR: u16 = 1 << 12;
    pub const TIMEOUT: u16 = 1 << 14;
    /// Every write-zero-to-clear bit: 8 to 12, 14, 15.
    pub const WRITE_ZERO_TO_CLEAR: u16 = 0xDF00;
}

/// SR2 bits.
mod sr2 {
    pub const MSL: u16 = 1 << 0;
    pub const BUSY: u16 = 1 << 1;
}

/// CR1 bits.
pub mod cr1 {
    pub const START: u16 = 1 << 8;
    pub const STOP: u16 = 1 << 9;
    pub const ACK: u16 = 1 << 10;
}

/// What a missing acknowledge is about, where AF is met.
pub use NoAcknowledgeSource::{Address, Data, Unknown};

/// A step of a call: one sentence of document 01.
#[derive(Debug, Clone, Copy, PartialEq, Eq)]
pub enum Step {
    /// Read CR1 until STOP is clear.
    StopClear,
    /// Write SR1 0.
    ClearSr1,
    /// "Set in CR1": these bits on.
    Set(u16),
    /// "ACK off and STOP on in one set."
    AckOffStopOn,
    /// Check until this flag is set.
    Check(u16, NoAcknowledgeSource),
    /// Check, and a second SR1 read, until the second has this flag.
    CheckAndRead(u16, NoAcknowledgeSource),
    /// Plain SR1 reads until this flag is set.
    ReadUntil(u16),
    /// Check and read SR2 until MSL or BUSY.
    CheckMaster,
    /// SR2 reads alone until MSL or BUSY.
    Master,
    /// Write DR.
    Send(u16),
    /// Read SR2.
    ReadSr2,
}

use Step::*;

impl Step {
    fn take(self) -> Result<(), Error> {
        match self {
            StopClear => while read_register(code::READ_CR1) & cr1::STOP != 0 {},
            ClearSr1 => write_register(code::WRITE_SR1, 0),
            Set(on) => alter_cr1(0, on),
            AckOffStopOn => alter_cr1(cr1::ACK, cr1::STOP),
            Check(flag, source) => while check(source)? & flag == 0 {},
            CheckAndRead(flag, source) => loop {
                check(source)?;
                if read_register(code::READ_SR1) & flag != 0 {
                    break;
                }
            },
            ReadUntil(flag) => while read_register(code::READ_SR1) & flag == 0 {},
            CheckMaster => loop {
                check(Unknown)?;
                if is_master() {
                    break;
                }
            },
            Master => while !is_master() {},
            Send(byte) => write_register(code::WRITE_DR, byte),
            ReadSr2 => drop(read_register(code::READ_SR2)),
        }
        Ok(())
    }
}

fn take(steps: &[Step]) -> Result<(), Error> {
    steps.iter().try_for_each(|step| step.take())
}

fn alter_cr1(off: u16, on: u16) {
    let was = read_register(code::READ_CR1);
    write_register(code::WRITE_CR1, was & !off | on);
}

fn is_master() -> bool {
    read_register(code::READ_SR2) & (sr2::MSL | sr2::BUSY) != 0
}

/// The SR1 word, where none of the error flags that end a call is set.
fn check(source: NoAcknowledgeSource) -> Result<u16, Error> {
    let word = read_register(code::READ_SR1);
    let errors = [
        (sr1::TIMEOUT, Error::Timeout),
        (sr1::PECERR, Error::Crc),
        (sr1::OVR, Error::Overrun),
        (sr1::AF, Error::NoAcknowledge(source)),
        (sr1::ARLO, Error::ArbitrationLoss),
    ];
    if let Some((flag, error)) = errors.into_iter().find(|(flag, _)| word & flag != 0) {
        clear(flag);
        return Err(error);
    }
    if word & sr1::BERR != 0 {
        clear(sr1::BERR);
    }
    Ok(word)
}

/// Clears one SR1 flag: every other write-zero-to-clear bit is set.
fn clear(flag: u16) {
    write_register(code::WRITE_SR1, sr1::WRITE_ZERO_TO_CLEAR & !flag);
}

/// How a call addresses its device.
#[derive(Debug, Clone)]
pub struct Prepares {
    /// Before a write that does not follow a write.
    pub write: Vec<Step>,
    /// Before a read that is the first operation.
    pub first_read: Vec<Step>,
    /// Before a read that follows a write.
    pub read_after_write: Vec<Step>,
}

impl Prepares {
    pub fn seven_bit(address: u16) -> Prepares {
        let mut write = start_write().to_vec();
        write.extend([Send(2 * address), Check(sr1::ADDR, Address), ReadSr2]);
        let read = [&start_read()[..], &address_read(2 * address + 1)].concat();
        Prepares {
            write,
            first_read: read.clone(),
            read_after_write: read,
        }
    }

    pub fn ten_bit(address: u16) -> Prepares {
        let (header, low_byte) = (0xF0 | address >> 8 << 1, address & 0xFF);
        let mut write = start_write().to_vec();
        write.extend([
            Send(header),
            Check(sr1::ADD10, Address),
            Send(low_byte),
            Check(sr1::ADDR, Address),
            ReadSr2,
        ]);
        // The device is addressed for a write first: the header for a read names no low byte.
        let mut first_read = write.clone();
        first_read.extend([Set(cr1::START | cr1::ACK), ReadUntil(sr1::SB)]);
        first_read.extend(address_read(header | 1));
        Prepares {
            write,
            first_read,
            read_after_write: [&start_read()[..], &address_read(header | 1)].concat(),
        }
    }
}

/// `prepare_write` up to MSL or BUSY.
fn start_write() -> [Step; 5] {
    let started = Check(sr1::SB, Unknown);
    [StopClear, ClearSr1, Set(cr1::START), started, CheckMaster]
}

/// `prepare_read` up to MSL or BUSY.
fn start_read() -> [Step; 5] {
    let start = Set(cr1::START | cr1::ACK);
    [StopClear, ClearSr1, start, ReadUntil(sr1::SB), Master]
}

/// `prepare_read` from its address byte on.
fn address_read(byte: u16) -> [Step; 3] {
    [Send(byte), CheckAndRead(sr1::ADDR, Address), ReadSr2]
}

/// A polling call of kind 0 to 3 with these operations.
pub fn call(prepares: &Prepares, kind: u8, operations: &mut [Operation<'_>]) -> Result<(), Error> {
    let last = operations.len().saturating_sub(1);
    let mut read_before = None;
    for (at, operation) in operations.iter_mut().enumerate() {
        match operation {
            Operation::Write(bytes) => {
                if read_before != Some(false) {
                    take(&prepares.write)?;
                }
                write(bytes, at == last)?;
            }
            Operation::Read(buffer) => {
                // `read` and `write_read` answer for an empty buffer before they prepare; a transaction does not.
                if kind != 3 && buffer.is_empty() {
                    return Err(Error::Overrun);
                }
                match read_before {
                    None => take(&prepares.first_read)?,
                    Some(false) => take(&prepares.read_after_write)?,
                    Some(true) => {}
                }
                read(buffer, at == last)?;
            }
        }
        read_before = Some(matches!(operation, Operation::Read(_)));
    }
    Ok(())
}

fn write(bytes: &[u8], last: bool) -> Result<(), Error> {
    for &byte in bytes {
        take(&[
            Check(sr1::TXE, Address),
            Send(byte.into()),
            Check(sr1::BTF, Data),
        ])?;
    }
    if last {
        take(&[Set(cr1::STOP), StopClear])?;
    }
    Ok(())
}

fn read(buffer: &mut [u8], last: bool) -> Result<(), Error> {
    if !last {
        return receive(buffer);
    }
    let (last_byte, before) = buffer.split_last_mut().ok_or(Error::Overrun)?;
    receive(before)?;
    take(&[AckOffStopOn])?;
    receive(std::slice::from_mut(last_byte))?;
    take(&[StopClear])
}

fn receive(buffer: &mut [u8]) -> Result<(), Error> {
    for byte in buffer {
        take(&[CheckAndRead(sr1::RXNE, Data)])?;
        *byte = read_register(code::READ_DR) as u8;
    }
    Ok(())
}
