//! Calls with an operation near its limit or over it, lists at their limits, and blocking transactions that are over the
//! limit of an operation once they are joined.

use buslist::PlannedOperation::{self, Read, Write};
use buslist::{limit, Plan, PlannedCall, ENTRY};

use crate::plans::{combined, empty, insert, length, scatter, to_an_address, transaction, write};
use crate::Rng;

/// Puts a long call into a plan: one with an operation near the limit, a page read, or one that is over the limit only
/// once it is joined.
pub fn add_long_call(rng: &mut Rng, plan: &mut Plan) {
    let call = match rng.below(10) {
        0..=6 => {
            let bytes = limit::OPERATION_BYTES - rng.below(2);
            call_with_operation_of(rng, bytes)
        }
        7 | 8 => page_read(rng),
        _ => longer_once_joined(rng),
    };
    // With one call fewer than a list may have there is room for it.
    plan.calls.truncate(limit::CALLS - 1);
    insert(rng, plan, call);
}

/// A call of any kind and width with an operation of so many bytes: alone, or first, last or between others. A write_read
/// may have two.
pub fn call_with_operation_of(rng: &mut Rng, bytes: usize) -> PlannedCall {
    let kind = rng.below(8) as u8;
    let written = match kind {
        0 | 4 => true,
        1 | 5 => false,
        _ => rng.percent(50),
    };
    let long = if written {
        Write(rng.bytes(bytes))
    } else {
        Read(bytes)
    };
    let operations = match kind {
        2 | 6 if rng.percent(25) => vec![Write(rng.bytes(bytes)), Read(bytes)],
        2 | 6 if written => vec![long, Read(length(rng, 1))],
        2 | 6 => vec![write(rng, 0), long],
        3 => {
            let mut operations = transaction(rng);
            operations.insert(rng.below(operations.len() + 1), long);
            operations
        }
        7 => {
            let others = combined(rng);
            in_a_blocking_transaction(rng, others, long)
        }
        _ => vec![long],
    };
    to_an_address(rng, kind, 50, operations)
}

/// Puts an operation among those of a blocking transaction, so that no write comes after a read.
fn in_a_blocking_transaction(
    rng: &mut Rng,
    mut operations: Vec<PlannedOperation>,
    operation: PlannedOperation,
) -> Vec<PlannedOperation> {
    let count = operations.len();
    let full_read = |one: &PlannedOperation| matches!(one, Read(_)) && !one.is_empty();
    let full_write = |one: &PlannedOperation| matches!(one, Write(_)) && !one.is_empty();
    let place = if matches!(operation, Write(_)) {
        let first_read = operations.iter().position(full_read);
        rng.range(0, first_read.unwrap_or(count))
    } else {
        let last_write = operations.iter().rposition(full_write);
        rng.range(last_write.map_or(0, |last| last + 1), count)
    };
    operations.insert(place, operation);
    operations
}

/// What depots do: a memory address of two bytes written, and a page of 256 bytes read.
fn page_read(rng: &mut Rng) -> PlannedCall {
    let kind = rng.pick(&[2, 3, 6, 7]);
    let operations = vec![Write(rng.bytes(2)), Read(256)];
    to_an_address(rng, kind, 50, operations)
}

/// A blocking transaction whose joined write or read is longer than an operation may be: by one byte, two or more.
fn longer_once_joined(rng: &mut Rng) -> PlannedCall {
    let over = match rng.below(3) {
        0 => rng.range(3, limit::OPERATION_BYTES),
        over => over,
    };
    let bytes = limit::OPERATION_BYTES + over;
    let whole = match rng.below(4) {
        0 => vec![Write(rng.bytes(bytes))],
        1 => vec![Read(bytes)],
        2 => vec![Write(rng.bytes(bytes)), Read(length(rng, 1))],
        _ => vec![write(rng, 1), Read(bytes)],
    };
    let parts = scatter(rng, &whole);
    to_an_address(rng, 7, 0, parts)
}

/// Brings a plan to a limit by a call at its end: the most operations, the longest list, or a blocking transaction
/// whose joined read does not fit 16 bits.
pub fn lengthen(rng: &mut Rng, plan: &mut Plan) {
    // Few enough that most of the list is left for the call.
    plan.calls.truncate(rng.pick(&[0, 2, 6]));
    let most = limit::OPERATIONS - plan.operations().count();
    let bytes = limit::LIST_BYTES - plan.bytes().len() - ENTRY;
    let (kind, operations) = match rng.below(12) {
        0 => (3, vec![Read(1); most]),
        1 => (3, writes_filling(rng, bytes)),
        2 => (7, writes_filling(rng, bytes)),
        3 => {
            let mut operations = writes_filling(rng, bytes - ENTRY);
            operations.push(Read(length(rng, 1)));
            (7, operations)
        }
        4..=9 => (7, many_operations(rng, most)),
        _ => {
            // Cut to 16 bits, these would be reads of 0, 1, 2 and 3 bytes, and of the longest.
            let received = 65_536 + rng.pick(&[0, 1, 2, 3, limit::OPERATION_BYTES]);
            (7, scatter(rng, &[Read(received)]))
        }
    };
    plan.calls.push(to_an_address(rng, kind, 50, operations));
}

/// Writes that take so many bytes of a list, their entries among them: each the longest, but for the last ones.
pub fn writes_filling(rng: &mut Rng, bytes: usize) -> Vec<PlannedOperation> {
    let count = bytes.div_ceil(ENTRY + limit::OPERATION_BYTES);
    let mut rest = bytes.saturating_sub(ENTRY * count);
    (0..count)
        .map(|_| {
            let length = rest.min(limit::OPERATION_BYTES);
            rest -= length;
            Write(rng.bytes(length))
        })
        .collect()
}

/// A blocking transaction of so many operations: parts of a write, then parts of a read, empty ones among both.
fn many_operations(rng: &mut Rng, count: usize) -> Vec<PlannedOperation> {
    let written = rng.below(count + 1);
    let part = |at| match rng.below(3) {
        0 => empty(rng),
        length if at < written => Write(rng.bytes(length)),
        length => Read(length),
    };
    (0..count).map(part).collect()
}

#[cfg(test)]
mod tests {
    use std::collections::BTreeSet;

    use super::*;

    /// The place of an operation among so many of a call.
    fn place(at: usize, count: usize) -> &'static str {
        match (at, count - 1) {
            (0, 0) => "alone",
            (0, _) => "first",
            (at, last) if at == last => "last",
            _ => "between",
        }
    }

    /// Alone, first, between others and last, in calls of every kind that has such a place; polling ones of both widths.
    #[test]
    fn long_operations_stand_everywhere() {
        let mut found = BTreeSet::new();
        for case in 0..5_000 {
            let call = call_with_operation_of(&mut Rng::of(5, case), limit::OPERATION_BYTES);
            let count = call.operations.len();
            for (at, one) in call.operations.iter().enumerate() {
                if one.len() == limit::OPERATION_BYTES {
                    let read = matches!(one, Read(_));
                    found.insert((call.kind, call.width, read, place(at, count)));
                }
            }
        }
        let everywhere = ["alone", "between", "first", "last"];
        let mut expected = BTreeSet::new();
        for (width, kind) in [(7, 0), (10, 0), (7, 4)] {
            expected.extend([
                (kind, width, false, "alone"),
                (kind + 1, width, true, "alone"),
                (kind + 2, width, false, "first"),
                (kind + 2, width, true, "last"),
            ]);
            for read in [false, true] {
                expected.extend(everywhere.map(|place| (kind + 3, width, read, place)));
            }
        }
        assert_eq!(found, expected);
    }

    /// Whatever is left of the list, a few bytes over the entry and the longest operation among them.
    #[test]
    fn writes_fill_what_is_left() {
        for bytes in 100..1_000 {
            let writes = writes_filling(&mut Rng::of(5, 0), bytes);
            let taken = writes.iter().map(|write| ENTRY + write.len());
            assert_eq!(taken.sum::<usize>(), bytes);
            let within = |write: &PlannedOperation| write.len() <= limit::OPERATION_BYTES;
            assert!(writes.iter().all(within));
        }
    }
}
