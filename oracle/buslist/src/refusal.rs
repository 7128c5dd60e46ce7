//! Why a list is refused: causes 20 to 27, in rising order.

use crate::{highest, limit, ENTRY, HEADER};

/// The first cause from 20 on that applies to a list with a received buffer of `rx` bytes, or 0.
pub fn refusal(list: &[u8], rx: usize) -> u32 {
    causes(list, rx).first().copied().unwrap_or(0)
}

/// Every cause from 20 on that applies, in rising order. A list not of the form has no other: nothing else of it
/// can be read.
pub fn causes(list: &[u8], rx: usize) -> Vec<u32> {
    let Some(form) = Form::of(list) else {
        return vec![20];
    };
    let tests = [
        (21, form.over_a_limit(list)),
        (22, frequency_out(form.header[9])),
        (23, form.a_timeout_overflows()),
        (24, form.an_address_out()),
        (25, form.an_empty_blocking_call()),
        (26, (rx as u64) < form.read_together()),
        (27, form.a_write_after_a_read()),
    ];
    let apply = tests.iter().filter(|(_, applies)| *applies);
    apply.map(|(cause, _)| *cause).collect()
}

/// Whether a list of so many bytes, calls and operations is over a limit of cause 21, however short its operations are.
pub fn over_another_limit(bytes: usize, calls: usize, operations: usize) -> bool {
    bytes > limit::LIST_BYTES || calls > limit::CALLS || operations > limit::OPERATIONS
}

/// Cause 22 of a frequency, or of a ceiling.
pub(crate) fn frequency_out(hertz: u64) -> bool {
    !(1..=400_000).contains(&hertz)
}

struct CallEntry {
    kind: u8,
    width: u8,
    address: u64,
    first: u64,
    count: u64,
}

struct OperationEntry {
    direction: u8,
    length: u64,
    offset: u64,
}

/// A list of the form; numbers are wide enough that no sum wraps.
struct Form {
    header: [u64; 16],
    calls: Vec<CallEntry>,
    operations: Vec<OperationEntry>,
}

const WRITE: u8 = 0;
const READ: u8 = 1;

impl Form {
    fn of(list: &[u8]) -> Option<Form> {
        let mut header = [0; 16];
        for (word, bytes) in header.iter_mut().zip(list.get(..HEADER)?.chunks_exact(4)) {
            *word = number(bytes);
        }
        let [calls, call_offset, operations, operation_offset, data, data_offset, ..] = header;
        let [.., mode, _, _, retries, _, _, zero, another_zero] = header;
        let entry = ENTRY as u64;
        let right = call_offset == HEADER as u64
            && operation_offset == call_offset + entry * calls
            && data_offset == operation_offset + entry * operations
            && list.len() as u64 == data_offset + data
            && mode <= 2
            && retries <= 255
            && zero == 0
            && another_zero == 0;
        // The tables are inside the list from here on, so no header can ask for more than its length.
        if !right {
            return None;
        }
        let (calls, operations) =
            list[HEADER..data_offset as usize].split_at(ENTRY * calls as usize);
        let form = Form {
            header,
            calls: calls.chunks_exact(ENTRY).map(call).collect(),
            operations: operations
                .chunks_exact(ENTRY)
                .map(operation)
                .collect::<Option<_>>()?,
        };
        (form.calls_right() && form.operations_right()).then_some(form)
    }

    fn operations_of(&self, call: &CallEntry) -> &[OperationEntry] {
        &self.operations[call.first as usize..(call.first + call.count) as usize]
    }

    fn calls_right(&self) -> bool {
        let mut sum = 0;
        for call in &self.calls {
            let own = call.first..call.first + call.count;
            if call.first != sum || own.end > self.operations.len() as u64 {
                return false;
            }
            let own_operations = self.operations_of(call).iter();
            let directions: Vec<u8> = own_operations.map(|o| o.direction).collect();
            let kind_right = match call.kind {
                0 | 4 => directions == [WRITE],
                1 | 5 => directions == [READ],
                2 | 6 => directions == [WRITE, READ],
                3 | 7 => true,
                _ => false,
            };
            if !kind_right || !(call.width == 7 || call.width == 10) {
                return false;
            }
            sum = own.end;
        }
        sum == self.operations.len() as u64
    }

    fn operations_right(&self) -> bool {
        let mut sum = 0;
        for operation in &self.operations {
            let right = match operation.direction {
                WRITE => operation.offset == sum,
                READ => operation.offset == 0,
                _ => false,
            };
            if !right {
                return false;
            }
            if operation.direction == WRITE {
                sum += operation.length;
            }
        }
        sum == self.header[4]
    }

    fn over_a_limit(&self, list: &[u8]) -> bool {
        let too_long = |o: &OperationEntry| o.length > limit::OPERATION_BYTES as u64;
        over_another_limit(list.len(), self.calls.len(), self.operations.len())
            || self.operations.iter().any(too_long)
    }

    fn a_timeout_overflows(&self) -> bool {
        let sysclk_mhz = self.header[7] / 1_000_000;
        [10, 12, 13]
            .iter()
            .any(|&at| self.header[at] * sysclk_mhz > u64::from(u32::MAX))
    }

    fn an_address_out(&self) -> bool {
        let out = |call: &CallEntry| match call.width {
            // The blocking engine has no ten-bit calls, idle ones among them.
            10 => call.kind >= 4 || call.address > highest::TEN_BIT.into(),
            _ => call.address > highest::SEVEN_BIT.into(),
        };
        self.calls.iter().any(out)
    }

    fn an_empty_blocking_call(&self) -> bool {
        self.calls
            .iter()
            .filter(|call| call.kind == 4 || call.kind == 5)
            .any(|call| self.operations[call.first as usize].length == 0)
    }

    fn read_together(&self) -> u64 {
        self.operations
            .iter()
            .filter(|o| o.direction == READ)
            .map(|o| o.length)
            .sum()
    }

    /// Joining does not change which directions follow each other, so it is left out here.
    fn a_write_after_a_read(&self) -> bool {
        self.calls.iter().filter(|call| call.kind == 7).any(|call| {
            let full = self.operations_of(call).iter().filter(|o| o.length > 0);
            let directions: Vec<u8> = full.map(|o| o.direction).collect();
            directions.windows(2).any(|two| two == [READ, WRITE])
        })
    }
}

fn call(bytes: &[u8]) -> CallEntry {
    CallEntry {
        kind: bytes[0],
        width: bytes[1],
        address: number(&bytes[2..4]),
        first: number(&bytes[4..6]),
        count: number(&bytes[6..8]),
    }
}

/// None where the second byte is not 0.
fn operation(bytes: &[u8]) -> Option<OperationEntry> {
    (bytes[1] == 0).then(|| OperationEntry {
        direction: bytes[0],
        length: number(&bytes[2..4]),
        offset: number(&bytes[4..8]),
    })
}

fn number(bytes: &[u8]) -> u64 {
    bytes
        .iter()
        .rev()
        .fold(0, |high, &low| high << 8 | u64::from(low))
}

#[cfg(test)]
mod tests {
    use super::*;
    use crate::{Plan, PlannedCall, PlannedOperation, Settings};

    /// The list of document 01's example.
    fn example() -> Plan {
        Plan {
            settings: Settings::example(),
            calls: vec![PlannedCall {
                kind: 0,
                width: 7,
                address: 0x50,
                operations: vec![PlannedOperation::Write(vec![0x2A])],
            }],
        }
    }

    fn altered(at: usize, value: u32) -> u32 {
        let mut list = example().bytes();
        list[4 * at..4 * at + 4].copy_from_slice(&value.to_le_bytes());
        refusal(&list, 0)
    }

    #[test]
    fn the_example_is_accepted() {
        assert_eq!(refusal(&example().bytes(), 0), 0);
    }

    #[test]
    fn headers() {
        assert_eq!(refusal(&[], 0), 20);
        assert_eq!(refusal(&example().bytes()[..63], 0), 20);
        assert_eq!(altered(0, u32::MAX), 20);
        assert_eq!(altered(8, 3), 20);
        assert_eq!(altered(11, 255), 0);
        assert_eq!(altered(11, 256), 20);
        assert_eq!(altered(14, 1), 20);
        assert_eq!(altered(9, 0), 22);
        assert_eq!(altered(9, 400_000), 0);
        assert_eq!(altered(9, 400_001), 22);
    }

    #[test]
    fn timeouts() {
        let mut plan = example();
        plan.settings.sysclk = 72_000_000;
        plan.settings.data_timeout = 59_652_323;
        assert_eq!(refusal(&plan.bytes(), 0), 0);
        plan.settings.data_timeout += 1;
        assert_eq!(refusal(&plan.bytes(), 0), 23);
    }

    #[test]
    fn calls() {
        let mut plan = example();
        plan.calls[0].address = 128;
        assert_eq!(refusal(&plan.bytes(), 0), 24);
        plan.calls[0].address = 127;
        plan.calls[0].kind = 4;
        assert_eq!(refusal(&plan.bytes(), 0), 0);
        plan.calls[0].operations = vec![PlannedOperation::Write(vec![])];
        assert_eq!(refusal(&plan.bytes(), 0), 25);
        plan.calls[0].kind = 1;
        assert_eq!(refusal(&plan.bytes(), 0), 20);
        plan.calls[0].operations = vec![PlannedOperation::Read(9)];
        assert_eq!(refusal(&plan.bytes(), 8), 26);
        assert_eq!(refusal(&plan.bytes(), 9), 0);
    }

    /// "An operation of 258 bytes is within the limit and a list with one of 259 is refused, also when it is a read":
    /// in calls of every kind, the first operation of a list or not.
    #[test]
    fn the_longest_operation() {
        let one = PlannedOperation::Write(vec![1]);
        for (length, cause) in [(256, 0), (257, 0), (258, 0), (259, 21), (260, 21)] {
            let write = PlannedOperation::Write(vec![7; length]);
            let read = PlannedOperation::Read(length);
            let calls = [
                (0, vec![write.clone()]),
                (1, vec![read.clone()]),
                (2, vec![write.clone(), PlannedOperation::Read(1)]),
                (2, vec![one.clone(), read.clone()]),
                (3, vec![one.clone(), read.clone(), one.clone()]),
                (3, vec![one.clone(), write.clone()]),
                (4, vec![write.clone()]),
                (5, vec![read.clone()]),
                (6, vec![write.clone(), PlannedOperation::Read(1)]),
                (6, vec![one.clone(), read.clone()]),
                (7, vec![one.clone(), write.clone()]),
                (7, vec![one.clone(), read.clone()]),
            ];
            for (kind, operations) in calls {
                let mut plan = example();
                let call = PlannedCall {
                    kind,
                    operations,
                    ..plan.calls[0].clone()
                };
                plan.calls.push(call);
                let found = refusal(&plan.bytes(), plan.read_together());
                assert_eq!(found, cause, "kind {kind}, {length} bytes");
            }
        }
    }

    /// Cause 24 of one call: seven bits end at 127, ten at 1,023, and no blocking kind has ten.
    #[test]
    fn addresses() {
        let (one, none) = (PlannedOperation::Write(vec![1]), vec![]);
        let both = vec![PlannedOperation::Write(vec![]), PlannedOperation::Read(0)];
        let tests = [
            (0, 7, 127, vec![one.clone()], 0),
            (0, 7, 128, vec![one.clone()], 24),
            (0, 7, 1_023, vec![one.clone()], 24),
            (0, 10, 0, vec![one.clone()], 0),
            (0, 10, 128, vec![one.clone()], 0),
            (2, 10, 1_023, both.clone(), 0),
            (0, 10, 1_024, vec![one.clone()], 24),
            (0, 10, 65_535, vec![one.clone()], 24),
            (3, 10, 1_023, none.clone(), 0),
            (3, 10, 1_024, none.clone(), 24),
            (4, 10, 0x50, vec![one.clone()], 24),
            (5, 10, 0x50, vec![PlannedOperation::Read(1)], 24),
            (6, 10, 0x50, both.clone(), 24),
            (7, 10, 0x50, vec![one], 24),
            (7, 10, 0x50, both, 24),
            (7, 10, 0x50, none, 24),
        ];
        for (kind, width, address, operations, cause) in tests {
            let mut plan = example();
            plan.calls[0] = PlannedCall {
                kind,
                width,
                address,
                operations,
            };
            let call = format!("kind {kind}, {width} bits, address {address}");
            assert_eq!(refusal(&plan.bytes(), 1), cause, "{call}");
        }
    }

    /// The causes of a list with one blocking transaction.
    fn combined(operations: Vec<PlannedOperation>, rx: usize) -> Vec<u32> {
        let mut plan = example();
        plan.calls[0].kind = 7;
        plan.calls[0].operations = operations;
        causes(&plan.bytes(), rx)
    }

    #[test]
    fn kinds() {
        for kind in 0..=255 {
            let mut list = example().bytes();
            list[HEADER] = kind;
            let one_write = matches!(kind, 0 | 3 | 4 | 7);
            let expected = if one_write { 0 } else { 20 };
            assert_eq!(refusal(&list, 0), expected, "kind {kind}");
        }
    }

    /// Cause 27: a read is followed by a write after joining.
    #[test]
    fn blocking_transactions() {
        let read = PlannedOperation::Read;
        let write = |length| PlannedOperation::Write(vec![7; length]);
        let none: [u32; 0] = [];
        assert_eq!(combined(vec![], 0), none);
        assert_eq!(combined(vec![write(0), read(0), write(0)], 0), none);
        assert_eq!(combined(vec![write(1), write(1), read(1)], 1), none);
        assert_eq!(combined(vec![read(0), write(1)], 0), none);
        assert_eq!(combined(vec![read(1), write(0)], 1), none);
        assert_eq!(combined(vec![read(1), write(0), read(1)], 2), none);
        assert_eq!(combined(vec![read(1), write(1)], 1), [27]);
        assert_eq!(combined(vec![read(1), read(0), write(1)], 1), [27]);
        assert_eq!(combined(vec![write(1), read(1), write(1)], 1), [27]);
        assert_eq!(combined(vec![read(1), write(1), read(1)], 2), [27]);
    }

    /// 27 comes last, 26 counts the reads of a blocking transaction, and 25 and the length of 21 are about listed
    /// operations.
    #[test]
    fn blocking_transactions_and_other_causes() {
        let read = PlannedOperation::Read;
        let write = |length| PlannedOperation::Write(vec![7; length]);
        let none: [u32; 0] = [];
        assert_eq!(combined(vec![read(1), write(1)], 0), [26, 27]);
        assert_eq!(combined(vec![read(1), read(2)], 2), [26]);
        assert_eq!(combined(vec![write(0)], 0), none);
        assert_eq!(combined(vec![write(258), write(258)], 0), none);
        assert_eq!(combined(vec![read(258); 255], 65_790), none);
        assert_eq!(combined(vec![read(259), write(1)], 259), [21, 27]);
    }

    /// A write after a read of another call, or of a polling transaction, is no cause.
    #[test]
    fn neighbours_of_blocking_transactions() {
        let call = |kind, operation: PlannedOperation| PlannedCall {
            kind,
            width: 7,
            address: 0x50,
            operations: vec![operation],
        };
        let mut plan = example();
        plan.calls = vec![
            call(7, PlannedOperation::Read(1)),
            call(7, PlannedOperation::Write(vec![1])),
        ];
        assert_eq!(refusal(&plan.bytes(), 1), 0);
        plan.calls = vec![call(3, PlannedOperation::Read(1))];
        plan.calls[0]
            .operations
            .push(PlannedOperation::Write(vec![1]));
        assert_eq!(refusal(&plan.bytes(), 1), 0);
    }
}
