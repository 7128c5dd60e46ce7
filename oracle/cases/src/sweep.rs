//! Cases by system, not by chance: short runs of every kind, cut at every place, with every error flag
//! alone and in pairs at every reading, and with received buffers of every small size.

use buslist::{Plan, PlannedCall, PlannedOperation, Settings};
use device::ENTRY_WORDS;

use crate::{flag, judge, Case, STOP};

/// Every timeout, in microseconds and, at 1 MHz, in cycles.
const LIMIT: u32 = 10;

pub fn sweep() -> impl Iterator<Item = Case> {
    plans().flat_map(|plan| variants(whole(&plan)))
}

fn write(length: u8) -> PlannedOperation {
    PlannedOperation::Write((1..=length).collect())
}

fn plans() -> impl Iterator<Item = Plan> {
    let settings = Settings {
        sysclk: 1_000_000,
        start_timeout: LIMIT,
        start_retries: 2,
        address_timeout: LIMIT,
        data_timeout: LIMIT,
        ..Settings::example()
    };
    let to = |width, address| {
        move |(kind, operations)| PlannedCall {
            kind,
            width,
            address,
            operations,
        }
    };
    let seven_bit = calls()
        .into_iter()
        .chain(combined().map(|whole| (7, whole)));
    let polling = calls().into_iter().filter(|(kind, _)| *kind < 4);
    let ten_bit = polling.chain(ten_bit_shapes());
    let calls = seven_bit.map(to(7, 0x2A)).chain(ten_bit.map(to(10, 0x305)));
    // A second call shows that nothing of the first is carried over.
    calls.map(move |call| Plan {
        settings,
        calls: vec![call, to(7, 0x2A)((5, vec![PlannedOperation::Read(1)]))],
    })
}

/// Neighbours, changes of direction and empty operations beside one that `calls` does not have: a ten-bit call prepares
/// in another way for each.
fn ten_bit_shapes() -> Vec<(u8, Vec<PlannedOperation>)> {
    let read = PlannedOperation::Read;
    vec![
        (2, vec![write(0), read(1)]),
        (2, vec![write(1), read(0)]),
        (3, vec![read(0)]),
        (3, vec![read(1), write(1)]),
        (3, vec![read(0), write(1)]),
        (3, vec![write(0), read(1)]),
        (3, vec![write(1), write(1)]),
        (3, vec![read(1), read(1)]),
        (3, vec![read(1), write(1), read(1)]),
        (3, vec![write(1), read(1), write(1)]),
    ]
}

/// Calls of each kind, but for blocking transactions that are accepted.
fn calls() -> Vec<(u8, Vec<PlannedOperation>)> {
    let read = PlannedOperation::Read;
    vec![
        (0, vec![write(0)]),
        (0, vec![write(2)]),
        (1, vec![read(0)]),
        (1, vec![read(1)]),
        (1, vec![read(2)]),
        (2, vec![write(1), read(2)]),
        (2, vec![write(0), read(0)]),
        (3, vec![]),
        (3, vec![read(1), write(1), write(0), read(0)]),
        (3, vec![write(1), read(1), read(1)]),
        (4, vec![write(1)]),
        (4, vec![write(3)]),
        (5, vec![read(1)]),
        (5, vec![read(2)]),
        (5, vec![read(3)]),
        (5, vec![read(5)]),
        (6, vec![write(0), read(0)]),
        (6, vec![write(1), read(0)]),
        (6, vec![write(0), read(1)]),
        (6, vec![write(2), read(2)]),
        // Refused: 26 for each received buffer that is too short, else 27.
        (7, vec![read(1), write(1)]),
        (7, vec![write(1), read(1), read(0), write(2), read(1)]),
    ]
}

/// Blocking transactions: nothing, joined writes, joined reads for each arm of the Rust's `read`, and both; each as it
/// is, and with an empty operation of each direction in each place.
fn combined() -> impl Iterator<Item = Vec<PlannedOperation>> {
    let read = PlannedOperation::Read;
    let whole = [
        vec![],
        vec![write(1), write(2)],
        vec![read(1)],
        vec![read(1), read(1)],
        vec![read(2), read(1)],
        vec![read(3), read(2)],
        vec![write(2), read(1), read(1)],
        vec![write(2), write(1), read(1)],
    ];
    whole.into_iter().flat_map(move |whole| {
        let places = 0..=whole.len();
        let empties = places.flat_map(move |at| [(at, write(0)), (at, read(0))]);
        let parted = empties.map({
            let whole = whole.clone();
            move |(at, empty)| {
                let mut operations = whole.clone();
                operations.insert(at, empty);
                operations
            }
        });
        std::iter::once(whole).chain(parted)
    })
}

/// A run whose every wait is over at its first poll.
fn whole(plan: &Plan) -> Case {
    let mut case = Case {
        list: plan.bytes(),
        readings: vec![flag::READY; 200],
        rx: plan.read_together(),
        record: 400,
    };
    let ran = judge(&case);
    case.readings.truncate(ran.counts[2] as usize);
    case.record = ENTRY_WORDS * ran.counts[3] as usize;
    case
}

fn variants(case: Case) -> impl Iterator<Item = Case> {
    let mut cases = Vec::new();
    let mut add = |change: &dyn Fn(&mut Case)| {
        let mut changed = case.clone();
        change(&mut changed);
        cases.push(changed);
    };
    for readings in 0..=case.readings.len() {
        add(&|c| c.readings.truncate(readings));
    }
    for record in 0..=case.record + 3 {
        add(&|c| c.record = record);
    }
    for rx in 0..=case.rx + 3 {
        add(&|c| c.rx = rx);
    }
    for at in 0..case.readings.len() {
        let later = |c: &mut Case| {
            c.readings.extend([flag::READY; 60]);
            c.record += 200;
        };
        // Not ready, STOP still there, bits above 16.
        for word in [0, STOP, 0xFFFF_0000, 0xFFFF_0000 | flag::READY] {
            add(&|c| {
                c.readings[at] = word;
                later(c);
            });
            // Then time passes, up to the limit and over it.
            for cycles in LIMIT - 1..=LIMIT + 1 {
                add(&|c| {
                    c.readings[at] = word;
                    c.readings.insert(at + 1, flag::READY + cycles);
                    later(c);
                });
            }
        }
        // The other flag of a ten-bit address in place of the awaited one.
        for missing in [flag::ADD10, flag::ADDR] {
            add(&|c| {
                c.readings[at] &= !missing;
                later(c);
            });
        }
        for (one, first) in flag::ERRORS.iter().enumerate() {
            for second in &flag::ERRORS[one..] {
                add(&|c| {
                    c.readings[at] |= first | second;
                    later(c);
                });
            }
        }
    }
    cases.into_iter()
}
