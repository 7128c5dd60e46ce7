//! A bus list as bytes: written from its calls, and read back.

use super::check::{self, Fault};
use super::layout::{self, HEADER, Layout, ROW};
use super::{Address, BusList, Call, Kind, Operation};
use crate::error::DoesNotFit;
use crate::settings::{Hertz, ListSettings, Micros, Mode, Settings};

impl<S: ListSettings> BusList<S> {
    /// The list as bytes, with every count and offset computed.
    ///
    /// # Errors
    ///
    /// Where a number does not fit the field that would hold it.
    pub fn to_bytes(&self) -> Result<Vec<u8>, DoesNotFit> {
        let mut calls = Vec::new();
        let mut operations = Vec::new();
        let mut data: Vec<u8> = Vec::new();
        // The operations before this call.
        let mut first = 0;
        for (place, call) in self.calls.iter().enumerate() {
            let count = call.operations.len();
            calls.extend(call_row(call, place, first, count)?);
            for (inner, operation) in call.operations.iter().enumerate() {
                operations.extend(operation_row(operation, place, inner, data.len())?);
                if let Operation::Write(bytes) = operation {
                    data.extend(bytes);
                }
            }
            first += count;
        }
        let header = self.header(first, data.len()).ok_or(DoesNotFit::Whole)?;
        let mut bytes: Vec<u8> = header.into_iter().flat_map(u32::to_le_bytes).collect();
        bytes.extend(calls);
        bytes.extend(operations);
        bytes.extend(data);
        Ok(bytes)
    }

    /// The sixteen words of the header, if their numbers fit.
    fn header(&self, operations: usize, data: usize) -> Option<[u32; 16]> {
        let calls = self.calls.len();
        let operation_offset = HEADER + ROW * calls;
        let data_offset = operation_offset + ROW * operations;
        let s = self.settings.all();
        Some([
            u32::try_from(calls).ok()?,
            HEADER as u32,
            u32::try_from(operations).ok()?,
            u32::try_from(operation_offset).ok()?,
            u32::try_from(data).ok()?,
            u32::try_from(data_offset).ok()?,
            s.pclk1.0,
            s.sysclk.0,
            s.mode.number(),
            s.frequency.0,
            s.start_timeout.0,
            s.start_retries.into(),
            s.address_timeout.0,
            s.data_timeout.0,
            0,
            0,
        ])
    }
}

impl BusList<Settings> {
    /// Reads a list. Every list of the form is read, whether or not the engine would accept it.
    ///
    /// Its settings are those of the bytes, zeros included: [`explain`](crate::explain) warns of
    /// zeros that do harm.
    ///
    /// # Errors
    ///
    /// Where the bytes are not of the form: the first byte at fault, and what is wrong there.
    ///
    /// ```
    /// use vandhukril::{BusList, Hertz, Mode, PollingSettings};
    ///
    /// let settings = PollingSettings {
    ///     pclk1: Hertz(36_000_000),
    ///     mode: Mode::Standard,
    ///     frequency: Hertz(100_000),
    /// };
    /// let mut bytes = BusList::new(settings).read(0x50, 2).to_bytes()?;
    /// bytes[64] = 9;
    /// let fault = BusList::from_bytes(&bytes).unwrap_err();
    /// assert_eq!((fault.at, fault.what.as_str()), (64, "call 0: kind is 9, but must be 0 to 7"));
    /// # Ok::<(), Box<dyn std::error::Error>>(())
    /// ```
    pub fn from_bytes(bytes: &[u8]) -> Result<Self, Fault> {
        let layout = Layout(bytes);
        check::form(layout)?;
        // In a list of the form `read` meets nothing unknown. What it says otherwise spares a panic.
        read(layout).ok_or_else(|| Fault::form(0, "the list cannot be read".to_string()))
    }
}

fn call_row(
    call: &Call,
    place: usize,
    first: usize,
    count: usize,
) -> Result<[u8; ROW], DoesNotFit> {
    let number = |n| u16::try_from(n).map_err(|_| DoesNotFit::Operations { call: place });
    let (width, address) = match call.address {
        Address::Seven(address) => (7, address),
        Address::Ten(address) => (10, address),
    };
    let [a, b] = address.to_le_bytes();
    let [c, d] = number(first)?.to_le_bytes();
    let [e, f] = number(count)?.to_le_bytes();
    Ok([call.kind.number(), width, a, b, c, d, e, f])
}

fn operation_row(
    operation: &Operation,
    call: usize,
    inner: usize,
    data: usize,
) -> Result<[u8; ROW], DoesNotFit> {
    let (direction, length, offset) = match operation {
        Operation::Write(bytes) => {
            let length = u16::try_from(bytes.len()).map_err(|_| DoesNotFit::Write {
                call,
                operation: inner,
                length: bytes.len(),
            })?;
            (
                0,
                length,
                u32::try_from(data).map_err(|_| DoesNotFit::Whole)?,
            )
        }
        Operation::Read(length) => (1, *length, 0),
    };
    let [a, b] = length.to_le_bytes();
    let [c, d, e, f] = offset.to_le_bytes();
    Ok([direction, 0, a, b, c, d, e, f])
}

fn read(layout: Layout) -> Option<BusList> {
    let settings = Settings {
        pclk1: Hertz(layout.word(layout::PCLK1)),
        sysclk: Hertz(layout.word(layout::SYSCLK)),
        mode: Mode::from_number(layout.word(layout::MODE))?,
        frequency: Hertz(layout.word(layout::FREQUENCY)),
        start_timeout: Micros(layout.word(layout::START_TIMEOUT)),
        start_retries: u8::try_from(layout.word(layout::START_RETRIES)).ok()?,
        address_timeout: Micros(layout.word(layout::ADDRESS_TIMEOUT)),
        data_timeout: Micros(layout.word(layout::DATA_TIMEOUT)),
    };
    let mut operations = layout.operations().map(|row| match row.direction {
        0 => Operation::Write(layout.data(&row).to_vec()),
        _ => Operation::Read(row.length),
    });
    let mut calls = Vec::new();
    for row in layout.calls() {
        calls.push(Call {
            kind: Kind::from_number(row.kind)?,
            address: match row.width {
                7 => Address::Seven(row.address),
                _ => Address::Ten(row.address),
            },
            operations: operations.by_ref().take(row.count.into()).collect(),
        });
    }
    Some(BusList { settings, calls })
}

#[cfg(test)]
mod tests {
    use super::*;
    use crate::settings::PollingSettings;

    fn settings() -> PollingSettings {
        PollingSettings {
            pclk1: Hertz(36_000_000),
            mode: Mode::Standard,
            frequency: Hertz(100_000),
        }
    }

    #[test]
    fn the_example_of_the_paper_byte_for_byte() {
        let bytes = BusList::new(settings()).write(0x50, &[0x2a]).to_bytes();
        let words: [u32; 16] = [
            1, 64, 1, 72, 1, 80, 36_000_000, 0, 0, 100_000, 0, 0, 0, 0, 0, 0,
        ];
        let mut expected: Vec<u8> = words.into_iter().flat_map(u32::to_le_bytes).collect();
        expected.extend([0, 7, 0x50, 0, 0, 0, 1, 0]);
        expected.extend([0, 0, 1, 0, 0, 0, 0, 0]);
        expected.push(0x2a);
        assert_eq!(bytes, Ok(expected));
    }

    #[test]
    fn what_fits_no_field_is_told_with_its_place() {
        let mut list = BusList::new(settings());
        list.read(1, 1)
            .transaction(2, [Operation::Read(0), Operation::Write(vec![0; 65_536])]);
        assert_eq!(
            list.to_bytes(),
            Err(DoesNotFit::Write {
                call: 1,
                operation: 1,
                length: 65_536
            })
        );

        let mut list = BusList::new(settings());
        list.transaction(2, vec![Operation::Read(0); 65_535]);
        assert!(list.to_bytes().is_ok());
        // First operation 65,535 still fits; what comes after it does not.
        list.read(2, 0);
        assert!(list.to_bytes().is_ok());
        list.read(2, 0);
        assert_eq!(list.to_bytes(), Err(DoesNotFit::Operations { call: 2 }));

        let mut list = BusList::new(settings());
        list.transaction(2, vec![Operation::Read(0); 65_536]);
        assert_eq!(list.to_bytes(), Err(DoesNotFit::Operations { call: 0 }));
    }
}
