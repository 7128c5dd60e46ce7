//! Where a bus list keeps what. Past the end of the bytes every field is 0, so that any bytes can be looked at.

/// The bytes of the header.
pub(super) const HEADER: usize = 64;
/// The bytes of a call, and of an operation.
pub(super) const ROW: usize = 8;

// The header's fields by their first byte.
pub(super) const CALLS: usize = 0;
pub(super) const CALL_OFFSET: usize = 4;
pub(super) const OPERATIONS: usize = 8;
pub(super) const OPERATION_OFFSET: usize = 12;
pub(super) const DATA: usize = 16;
pub(super) const DATA_OFFSET: usize = 20;
pub(super) const PCLK1: usize = 24;
pub(super) const SYSCLK: usize = 28;
pub(super) const MODE: usize = 32;
pub(super) const FREQUENCY: usize = 36;
pub(super) const START_TIMEOUT: usize = 40;
pub(super) const START_RETRIES: usize = 44;
pub(super) const ADDRESS_TIMEOUT: usize = 48;
pub(super) const DATA_TIMEOUT: usize = 52;
pub(super) const ZEROS: [usize; 2] = [56, 60];

/// The bytes of a list, right or wrong.
#[derive(Clone, Copy)]
pub(super) struct Layout<'a>(pub &'a [u8]);

/// A call as its eight bytes have it.
pub(super) struct CallRow {
    /// Where in the list it stands.
    pub at: usize,
    pub kind: u8,
    pub width: u8,
    pub address: u16,
    pub first: u16,
    pub count: u16,
}

/// An operation as its eight bytes have it.
pub(super) struct OperationRow {
    /// Where in the list it stands.
    pub at: usize,
    pub direction: u8,
    pub zero: u8,
    pub length: u16,
    pub offset: u32,
}

impl<'a> Layout<'a> {
    pub fn byte(self, at: usize) -> u8 {
        self.0.get(at).copied().unwrap_or(0)
    }

    pub fn half(self, at: usize) -> u16 {
        u16::from_le_bytes([self.byte(at), self.byte(at + 1)])
    }

    pub fn word(self, at: usize) -> u32 {
        u32::from_le_bytes([0, 1, 2, 3].map(|i| self.byte(at + i)))
    }

    /// Where the operations start by the count of calls. 64 bits hold it for every count.
    pub fn operations_start(self) -> u64 {
        HEADER as u64 + ROW as u64 * u64::from(self.word(CALLS))
    }

    /// Where the data starts by both counts.
    pub fn data_start(self) -> u64 {
        self.operations_start() + ROW as u64 * u64::from(self.word(OPERATIONS))
    }

    /// The starts of so many rows from `start` on. Rows that lie past the end of the bytes are left
    /// out, so that a wild count costs no more than the bytes that are there.
    fn rows(self, start: u64, count: u32) -> impl Iterator<Item = usize> {
        let end = self.0.len();
        // A start past all bytes is as good as their end.
        let start = usize::try_from(start).unwrap_or(end);
        (start..end).step_by(ROW).take(count as usize)
    }

    pub fn calls(self) -> impl Iterator<Item = CallRow> {
        self.rows(HEADER as u64, self.word(CALLS))
            .map(move |at| CallRow {
                at,
                kind: self.byte(at),
                width: self.byte(at + 1),
                address: self.half(at + 2),
                first: self.half(at + 4),
                count: self.half(at + 6),
            })
    }

    pub fn operations(self) -> impl Iterator<Item = OperationRow> {
        self.rows(self.operations_start(), self.word(OPERATIONS))
            .map(move |at| self.operation_at(at))
    }

    fn operation_at(self, at: usize) -> OperationRow {
        OperationRow {
            at,
            direction: self.byte(at),
            zero: self.byte(at + 1),
            length: self.half(at + 2),
            offset: self.word(at + 4),
        }
    }

    /// An operation by its number. Past the end of the bytes it is all zeros.
    pub fn operation(self, number: usize) -> OperationRow {
        let start = usize::try_from(self.operations_start()).unwrap_or(self.0.len());
        self.operation_at(start + ROW * number)
    }

    /// The operations of a call.
    pub fn operations_of(self, row: &CallRow) -> impl Iterator<Item = OperationRow> {
        let first = usize::from(row.first);
        (first..first + usize::from(row.count)).map(move |number| self.operation(number))
    }

    /// The bytes of a write, as far as they are there.
    pub fn data(self, row: &OperationRow) -> &'a [u8] {
        let end = self.0.len();
        let place = |n: u64| usize::try_from(n).map_or(end, |n| n.min(end));
        let start = self.data_start() + u64::from(row.offset);
        &self.0[place(start)..place(start + u64::from(row.length))]
    }
}

#[cfg(test)]
mod tests {
    use super::*;

    #[test]
    fn past_the_end_all_is_zero() {
        let layout = Layout(&[1, 2, 3]);
        assert_eq!(layout.word(0), 0x0003_0201);
        assert_eq!(layout.half(2), 3);
        assert_eq!(layout.word(100), 0);
        assert_eq!(layout.calls().count(), 0);
        assert_eq!(layout.operation(usize::from(u16::MAX)).length, 0);
    }

    #[test]
    fn wild_counts_end_with_the_bytes() {
        let bytes = [0xff; 100];
        let layout = Layout(&bytes);
        assert_eq!(layout.calls().count(), 5);
        assert_eq!(layout.operations().count(), 0);
        let row = OperationRow {
            at: 0,
            direction: 0,
            zero: 0,
            length: u16::MAX,
            offset: u32::MAX,
        };
        assert_eq!(layout.data(&row), []);
    }
}
