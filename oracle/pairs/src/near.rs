//! Lists that nearly have equal reduced calls: one thing differs.

use buslist::{combined, plain_kind, Plan, PlannedCall, PlannedOperation};
use cases::{seven_bit_of, Rng};

use crate::reduce::is_blocking;

/// Changes one thing in the call at this place, where it has a place for it.
type Change = fn(&mut Rng, &mut Plan, usize) -> Option<()>;

/// Calls that are counted apart.
#[derive(Debug, Clone, Copy, PartialEq, Eq)]
pub enum Class {
    Polling,
    TenBit,
    PlainBlocking,
    BlockingTransaction,
}

use Class::{BlockingTransaction, PlainBlocking, Polling, TenBit};

impl Class {
    pub const ALL: [(&str, Class); 4] = [
        ("polling", Polling),
        ("ten-bit polling", TenBit),
        ("plain blocking", PlainBlocking),
        ("transaction", BlockingTransaction),
    ];

    pub fn of(call: &PlannedCall) -> Class {
        match call.kind {
            0..=3 if call.is_ten_bit() => TenBit,
            0..=3 => Polling,
            4..=6 => PlainBlocking,
            _ => BlockingTransaction,
        }
    }
}

const ANY: &[Class] = &[Polling, TenBit, PlainBlocking, BlockingTransaction];
/// The blocking engine has no ten-bit calls.
const OF_TWO_WIDTHS: &[Class] = &[Polling, TenBit];
const OF_TWO_ENGINES: &[Class] = &[Polling, PlainBlocking, BlockingTransaction];

/// The things that can differ, and in which calls.
pub const MISSES: [(&str, Change, &[Class]); 11] = [
    ("another address", alter_address, ANY),
    ("another high bit of ten", alter_high_bits, &[TenBit]),
    ("the other width", change_width, OF_TWO_WIDTHS),
    ("the other width, bytes alike", disguise, OF_TWO_WIDTHS),
    ("another byte", alter_byte, ANY),
    ("a byte more or less", alter_write, ANY),
    ("a read longer or shorter by one", alter_read, ANY),
    ("a call in two", cut, ANY),
    ("two calls in one", join, ANY),
    ("the other engine", change_engine, OF_TWO_ENGINES),
    ("two calls exchanged", exchange, ANY),
];

/// The plan with that thing changed in the call at this place, where the list is still accepted.
pub fn miss(rng: &mut Rng, plan: &Plan, miss: usize, place: usize) -> Option<Plan> {
    let mut other = plan.clone();
    let (_, change, _) = MISSES[miss];
    change(rng, &mut other, place)?;
    (buslist::refusal(&other.bytes(), other.read_together()) == 0).then_some(other)
}

/// Any bit of seven, or a bit of a ten-bit low byte.
fn alter_address(rng: &mut Rng, plan: &mut Plan, place: usize) -> Option<()> {
    let call = &mut plan.calls[place];
    let bits = if call.is_ten_bit() { 8 } else { 7 };
    call.address ^= 1 << rng.below(bits);
    Some(())
}

/// A bit of a ten-bit header.
fn alter_high_bits(rng: &mut Rng, plan: &mut Plan, place: usize) -> Option<()> {
    let call = &mut plan.calls[place];
    let ten_bit = call.is_ten_bit();
    ten_bit.then(|| call.address ^= 0x100 << rng.below(2))
}

/// The same address in the other width, where both have it.
fn change_width(_: &mut Rng, plan: &mut Plan, place: usize) -> Option<()> {
    let call = &mut plan.calls[place];
    call.width = if call.is_ten_bit() { 7 } else { 10 };
    Some(())
}

/// The other width with the same bytes written to DR: a ten-bit call to the seven-bit address that its header is the
/// byte of, its low byte written first; and back.
fn disguise(rng: &mut Rng, plan: &mut Plan, place: usize) -> Option<()> {
    let call = &mut plan.calls[place];
    if call.is_ten_bit() {
        as_seven_bit(call);
        Some(())
    } else {
        as_ten_bit(rng, call)
    }
}

fn as_seven_bit(call: &mut PlannedCall) {
    let low_byte = call.address as u8;
    call.width = 7;
    call.address = seven_bit_of(call.address);
    match call.operations.first_mut() {
        Some(PlannedOperation::Write(bytes)) => bytes.insert(0, low_byte),
        // A first read sends the header, the low byte and a header again: as a write_read does.
        _ => {
            let write = PlannedOperation::Write(vec![low_byte]);
            call.operations.insert(0, write);
            call.kind = call.kind.max(2);
        }
    }
}

fn as_ten_bit(rng: &mut Rng, call: &mut PlannedCall) -> Option<()> {
    if is_blocking(call) {
        return None;
    }
    let high_bits = (0..4).find(|bits| seven_bit_of(bits << 8) == call.address)?;
    let PlannedOperation::Write(bytes) = call.operations.first_mut()? else {
        return None;
    };
    if bytes.is_empty() {
        return None;
    }
    let low_byte = bytes.remove(0);
    call.width = 10;
    call.address = high_bits << 8 | u16::from(low_byte);
    // What was a write of one byte, then a read, can be a first read.
    let read_next = matches!(call.operations[..], [_, PlannedOperation::Read(_), ..]);
    if call.operations[0].is_empty() && read_next && rng.percent(50) {
        call.operations.remove(0);
        call.kind = if call.kind == 2 { 1 } else { 3 };
    }
    Some(())
}

fn alter_byte(rng: &mut Rng, plan: &mut Plan, place: usize) -> Option<()> {
    let bytes = any_write(rng, &mut plan.calls[place])?;
    let at = rng.below(bytes.len().max(1));
    *bytes.get_mut(at)? ^= 1 << rng.below(8);
    Some(())
}

fn alter_write(rng: &mut Rng, plan: &mut Plan, place: usize) -> Option<()> {
    let bytes = any_write(rng, &mut plan.calls[place])?;
    if rng.percent(50) {
        bytes.push(rng.draw() as u8);
    } else {
        bytes.pop();
    }
    Some(())
}

fn alter_read(rng: &mut Rng, plan: &mut Plan, place: usize) -> Option<()> {
    let length = any_read(rng, &mut plan.calls[place])?;
    *length = if rng.percent(50) {
        *length + 1
    } else {
        length.saturating_sub(1)
    };
    Some(())
}

/// One call as two of its engine, with its operations parted between two of them or inside one.
fn cut(rng: &mut Rng, plan: &mut Plan, place: usize) -> Option<()> {
    let call = &plan.calls[place];
    let at = rng.below(call.operations.len());
    let mut first = call.operations[..at].to_vec();
    let mut second = call.operations[at..].to_vec();
    let parted = second.first_mut()?;
    let bytes = rng.below(parted.len().max(1));
    if bytes > 0 {
        first.push(parted.take(bytes));
    }
    let parts = [with(rng, call, first)?, with(rng, call, second)?];
    plan.calls.splice(place..=place, parts);
    Some(())
}

/// Two neighbours of one engine as one call, to the address of the first.
fn join(rng: &mut Rng, plan: &mut Plan, place: usize) -> Option<()> {
    let (call, next) = (&plan.calls[place], plan.calls.get(place + 1)?);
    if is_blocking(call) != is_blocking(next) {
        return None;
    }
    let operations = [&call.operations[..], &next.operations].concat();
    plan.calls[place] = with(rng, call, operations)?;
    plan.calls.remove(place + 1);
    Some(())
}

fn change_engine(_: &mut Rng, plan: &mut Plan, place: usize) -> Option<()> {
    let kind = &mut plan.calls[place].kind;
    *kind = match kind {
        0 => 4,
        1 => 5,
        2 => 6,
        3 => 7,
        4 => 0,
        5 => 1,
        6 => 2,
        7 => 3,
        _ => return None,
    };
    Some(())
}

fn exchange(_: &mut Rng, plan: &mut Plan, place: usize) -> Option<()> {
    (place + 1 < plan.calls.len()).then(|| plan.calls.swap(place, place + 1))
}

fn any_write<'a>(rng: &mut Rng, call: &'a mut PlannedCall) -> Option<&'a mut Vec<u8>> {
    let mut writes: Vec<_> = call
        .operations
        .iter_mut()
        .filter_map(|operation| match operation {
            PlannedOperation::Write(bytes) => Some(bytes),
            PlannedOperation::Read(_) => None,
        })
        .collect();
    (!writes.is_empty()).then(|| writes.swap_remove(rng.below(writes.len())))
}

fn any_read<'a>(rng: &mut Rng, call: &'a mut PlannedCall) -> Option<&'a mut usize> {
    let mut reads: Vec<_> = call
        .operations
        .iter_mut()
        .filter_map(|operation| match operation {
            PlannedOperation::Write(_) => None,
            PlannedOperation::Read(length) => Some(length),
        })
        .collect();
    (!reads.is_empty()).then(|| reads.swap_remove(rng.below(reads.len())))
}

/// The call with these operations in place of its own. A blocking one is a blocking transaction of them, or the plain
/// call that it comes to.
fn with(
    rng: &mut Rng,
    call: &PlannedCall,
    operations: Vec<PlannedOperation>,
) -> Option<PlannedCall> {
    if operations.is_empty() {
        return None;
    }
    let whole = combined(&operations);
    let (kind, operations) = match plain_kind(&whole) {
        _ if !is_blocking(call) => (3, operations),
        Some(plain) if rng.percent(50) => (plain, whole),
        _ => (7, operations),
    };
    Some(PlannedCall {
        kind,
        operations,
        ..call.clone()
    })
}

#[cfg(test)]
mod tests {
    use std::collections::BTreeSet;

    use PlannedOperation::{Read, Write};

    use super::*;
    use crate::comparable;
    use crate::reduce::reduced;

    /// The kinds of the calls that a change met, and of those that it made of them.
    type Kinds = BTreeSet<(Vec<u8>, Vec<u8>)>;

    fn kinds(plan: &Plan, place: usize, calls: usize) -> Vec<u8> {
        let calls = &plan.calls[place..place + calls];
        calls.iter().map(|call| call.kind).collect()
    }

    #[test]
    fn a_call_in_two_joined_again_is_the_call() {
        let (mut cuts, mut joins) = (Kinds::new(), Kinds::new());
        for case in 0..5_000 {
            let rng = &mut Rng::of(3, case);
            let plan = comparable(rng);
            let place = rng.below(plan.calls.len());
            let mut other = plan.clone();
            if place == plan.calls.len() || cut(rng, &mut other, place).is_none() {
                continue;
            }
            assert_ne!(reduced(&plan), reduced(&other), "case {case}");
            let parts = kinds(&other, place, 2);
            cuts.insert((kinds(&plan, place, 1), parts.clone()));
            join(rng, &mut other, place).expect("parts of one call");
            assert_eq!(reduced(&plan), reduced(&other), "case {case}");
            joins.insert((parts, kinds(&other, place, 1)));
        }
        let forms = [
            (4, [4, 4]),
            (5, [5, 5]),
            (6, [4, 5]),
            (6, [4, 6]),
            (6, [6, 5]),
            (7, [4, 4]),
            (7, [5, 7]),
            (7, [4, 5]),
            (7, [7, 7]),
        ];
        for (kind, parts) in forms {
            assert!(cuts.contains(&(vec![kind], parts.to_vec())), "{parts:?}");
            assert!(joins.contains(&(parts.to_vec(), vec![kind])), "{parts:?}");
        }
    }

    /// The seven-bit write to 120 of 05 and 01 against the ten-bit write to 005 of 01, and the like.
    #[test]
    fn disguises() {
        let call = |kind, width, address, operations: &[PlannedOperation]| PlannedCall {
            kind,
            width,
            address,
            operations: operations.to_vec(),
        };
        let write = |bytes: &[u8]| Write(bytes.to_vec());
        let pairs = [
            (
                call(0, 10, 0x005, &[write(&[1])]),
                call(0, 7, 120, &[write(&[5, 1])]),
            ),
            (
                call(1, 10, 0x2FF, &[Read(2)]),
                call(2, 7, 122, &[write(&[0xFF]), Read(2)]),
            ),
            (
                call(3, 10, 0x300, &[Read(1), write(&[])]),
                call(3, 7, 123, &[write(&[0]), Read(1), write(&[])]),
            ),
        ];
        for (ten_bit, seven_bit) in pairs {
            let mut disguised = ten_bit.clone();
            as_seven_bit(&mut disguised);
            assert_eq!(disguised, seven_bit);
            // One of the two ways back, by chance.
            let back = (0..20).any(|case| {
                let mut disguised = seven_bit.clone();
                as_ten_bit(&mut Rng::of(4, case), &mut disguised);
                disguised == ten_bit
            });
            assert!(back, "{ten_bit:?}");
        }
    }
}
