//! Random plans of lists that are accepted.

use buslist::{highest, limit, Mode, Plan, PlannedCall, PlannedOperation, Settings};

use crate::limits::{add_long_call, lengthen};
use crate::Rng;

/// A plan of a list that is accepted.
pub fn plan(rng: &mut Rng) -> Plan {
    let settings = settings(rng);
    let kinds: &[u8] = match rng.below(20) {
        0..=5 => &[0, 1, 2, 3],
        6 => &[0, 1, 2, 3, 7],
        7 => &[7],
        8..=11 => &[4, 5, 6, 7],
        _ => &[0, 1, 2, 3, 4, 5, 6, 7],
    };
    // Of a hundred polling calls, those to a ten-bit address.
    let ten_bit = rng.pick(&[0, 25, 50, 50, 75, 100]);
    let calls = match rng.below(100) {
        0..=1 => 0,
        2..=15 => 1,
        16..=89 => rng.range(2, 6),
        90..=98 => rng.range(7, 20),
        _ => limit::CALLS,
    };
    let mut plan = Plan {
        settings,
        calls: (0..calls).map(|_| call(rng, kinds, ten_bit)).collect(),
    };
    match rng.below(200) {
        0 => lengthen(rng, &mut plan),
        1..=16 => add_long_call(rng, &mut plan),
        _ => {}
    }
    plan
}

fn settings(rng: &mut Rng) -> Settings {
    let sysclk = match rng.below(8) {
        0 => 0,
        1 => 999_999,
        2 => 1_000_000,
        3 => 8_000_000,
        4 => 72_999_999,
        5 => 72_000_000,
        6 => rng.word(),
        _ => rng.word() % 100_000_000,
    };
    let pclk1 = match rng.below(8) {
        0 => 36_000_000,
        1 => 8_000_000,
        2 => 64_000_000,
        3 => rng.pick(&[0, 999_999, 1_999_999, 2_000_000, 62_999_999, 63_000_000]),
        4 => rng.word(),
        _ => rng.word() % 100_000_000,
    };
    let frequency = match rng.below(6) {
        0 => 100_000,
        1 => 400_000,
        2 => rng.range(1, 20) as u32,
        _ => rng.range(1, 400_000) as u32,
    };
    Settings {
        pclk1,
        sysclk,
        mode: rng.pick(&Mode::ALL),
        frequency,
        start_timeout: timeout(rng, sysclk),
        start_retries: match rng.below(20) {
            0..=2 => 0,
            3..=8 => 1,
            9..=17 => rng.range(2, 4) as u8,
            18 => 10,
            _ => rng.pick(&[254, 255]),
        },
        address_timeout: timeout(rng, sysclk),
        data_timeout: timeout(rng, sysclk),
    }
}

/// A timeout whose cycles fit 32 bits.
fn timeout(rng: &mut Rng, sysclk: u32) -> u32 {
    let most = match sysclk / 1_000_000 {
        0 => u32::MAX,
        mhz => u32::MAX / mhz,
    };
    match rng.below(10) {
        0 => 0,
        1 => most,
        2 => (rng.draw() % (u64::from(most) + 1)) as u32,
        3 | 4 => rng.range(1, 12) as u32,
        _ => rng.range(200, 5_000) as u32,
    }
}

fn call(rng: &mut Rng, kinds: &[u8], ten_bit: usize) -> PlannedCall {
    let kind = rng.pick(kinds);
    // An empty polling read ends the run with Overrun: seldom, so that most runs come further.
    let polling_read = |rng: &mut Rng| match rng.below(40) {
        0 => 0,
        _ => length(rng, 1),
    };
    let operations = match kind {
        0 => vec![write(rng, 0)],
        1 => vec![PlannedOperation::Read(polling_read(rng))],
        2 => vec![write(rng, 0), PlannedOperation::Read(polling_read(rng))],
        3 => transaction(rng),
        4 => vec![write(rng, 1)],
        5 => vec![PlannedOperation::Read(length(rng, 1))],
        6 => vec![write(rng, 0), PlannedOperation::Read(length(rng, 0))],
        _ => combined(rng),
    };
    to_an_address(rng, kind, ten_bit, operations)
}

/// A call of this kind and with these operations, of a hundred polling ones so many to a ten-bit address.
pub fn to_an_address(
    rng: &mut Rng,
    kind: u8,
    ten_bit: usize,
    operations: Vec<PlannedOperation>,
) -> PlannedCall {
    let (width, address) = if kind < 4 && rng.percent(ten_bit) {
        (10, ten_bit_address(rng))
    } else {
        (7, seven_bit_address(rng))
    };
    PlannedCall {
        kind,
        width,
        address,
        operations,
    }
}

/// Those from 78 hexadecimal on have the headers of ten-bit addresses as their address bytes.
fn seven_bit_address(rng: &mut Rng) -> u16 {
    let usual = [0, 1, 0x50, 0x2A, 0x68, 0x3C, 0x48, highest::SEVEN_BIT];
    let headers = [0x78, 0x79, 0x7A, 0x7B];
    if rng.percent(30) {
        rng.pick(&headers)
    } else {
        rng.pick(&usual)
    }
}

/// Often one that is also a seven-bit address, or with an edge in its low byte or its high bits.
fn ten_bit_address(rng: &mut Rng) -> u16 {
    let edges = [0, 0x0FF, 0x100, 0x1FF, 0x200, 0x300, highest::TEN_BIT];
    match rng.below(4) {
        0 => rng.pick(&edges),
        1 => seven_bit_address(rng),
        _ => rng.below(usize::from(highest::TEN_BIT) + 1) as u16,
    }
}

/// The operations of a polling transaction.
pub fn transaction(rng: &mut Rng) -> Vec<PlannedOperation> {
    let count = rng.pick(&[0, 1, 1, 2, 2, 3, 3, 4, 5, 8]);
    let mut operations: Vec<_> = (0..count).map(|_| operation(rng)).collect();
    if let Some(last @ PlannedOperation::Read(0)) = operations.last_mut() {
        if rng.percent(80) {
            *last = PlannedOperation::Read(1);
        }
    }
    operations
}

/// The operations of a blocking transaction that is accepted: a write and a read after it, one of them or neither,
/// scattered.
pub fn combined(rng: &mut Rng) -> Vec<PlannedOperation> {
    let whole = match rng.below(10) {
        0 => vec![],
        1..=3 => vec![write(rng, 1)],
        4..=6 => vec![PlannedOperation::Read(length(rng, 1))],
        _ => vec![write(rng, 1), PlannedOperation::Read(length(rng, 1))],
    };
    scatter(rng, &whole)
}

/// These operations in parts, and empty ones put in anywhere: dropped and joined again, they are the same.
pub fn scatter(rng: &mut Rng, operations: &[PlannedOperation]) -> Vec<PlannedOperation> {
    let mut parts = Vec::new();
    for operation in operations {
        let mut rest = operation.clone();
        let mut cuts: usize = rng.pick(&[0, 0, 1, 1, 2, 3]);
        while cuts > 0 || rest.len() > limit::OPERATION_BYTES {
            let bytes = rng.below(rest.len().min(limit::OPERATION_BYTES) + 1);
            parts.push(rest.take(bytes));
            cuts = cuts.saturating_sub(1);
        }
        parts.push(rest);
    }
    for _ in 0..rng.pick(&[0, 0, 1, 1, 2, 3]) {
        let at = rng.below(parts.len() + 1);
        parts.insert(at, empty(rng));
    }
    parts
}

/// An operation of no bytes.
pub fn empty(rng: &mut Rng) -> PlannedOperation {
    if rng.percent(50) {
        PlannedOperation::Write(vec![])
    } else {
        PlannedOperation::Read(0)
    }
}

fn operation(rng: &mut Rng) -> PlannedOperation {
    if rng.percent(50) {
        write(rng, 0)
    } else {
        PlannedOperation::Read(length(rng, 0))
    }
}

pub fn write(rng: &mut Rng, least: usize) -> PlannedOperation {
    let length = length(rng, least);
    PlannedOperation::Write(rng.bytes(length))
}

pub fn length(rng: &mut Rng, least: usize) -> usize {
    match rng.below(100) {
        0..=79 => rng.range(least, 4),
        80..=97 => rng.range(least, 9),
        _ => rng.range(least, 60),
    }
}

/// Puts a call in any place among those of a plan.
pub fn insert(rng: &mut Rng, plan: &mut Plan, call: PlannedCall) {
    plan.calls.insert(rng.below(plan.calls.len() + 1), call);
}

#[cfg(test)]
mod tests {
    use super::*;

    #[test]
    fn plans_are_accepted_and_reach_the_limits() {
        let mut reached = [false; 10];
        for case in 0..20_000 {
            let plan = plan(&mut Rng::of(2, case));
            let list = plan.bytes();
            let refused = buslist::refusal(&list, plan.read_together());
            assert_eq!(refused, 0, "case {case}");
            let operations: Vec<_> = plan.operations().collect();
            let longest = operations.iter().map(|operation| operation.len()).max();
            reached[0] |= list.len() == limit::LIST_BYTES;
            reached[1] |= plan.calls.len() == limit::CALLS;
            reached[2] |= operations.len() == limit::OPERATIONS;
            reached[3] |= longest == Some(limit::OPERATION_BYTES);
            let to = |width, address| {
                let mut calls = plan.calls.iter();
                calls.any(|call| (call.width, call.address) == (width, address))
            };
            reached[7] |= to(7, highest::SEVEN_BIT);
            reached[8] |= to(10, highest::TEN_BIT);
            for call in plan.calls.iter().filter(|call| call.kind == 7) {
                let whole = buslist::combined(&call.operations);
                let longest = whole.iter().map(|operation| operation.len()).max();
                reached[4] |= call.operations.len() == limit::OPERATIONS;
                reached[5] |= list.len() == limit::LIST_BYTES;
                // Cut to 16 bits it would be a read of one.
                reached[6] |= longest == Some(65_537);
                reached[9] |= longest == Some(limit::OPERATION_BYTES + 1);
            }
        }
        assert_eq!(reached, [true; 10]);
    }
}
