//! Ten-bit calls access by access, written down from documents 01 and 02.

use buslist::PlannedOperation::{self, Read, Write};
use buslist::{refusal, List, Plan, PlannedCall, Settings};
use device::ENTRY_WORDS;
use original::model::{Prepares, Step};

/// The address of every call here: header F2, low byte 05.
const ADDRESS: u16 = 0x105;

/// `prepare_write` up to MSL or BUSY, the header, ADD10, the low byte, ADDR, SR2.
const PREPARE_WRITE: [u32; 24] = [
    3, 1, 15, 0, 3, 1, 11, 0x101, 1, 1, 1, 1, 2, 3, 16, 0xF2, 1, 8, 16, 0x05, 1, 2, 2, 7,
];
/// What a first read has after that: START and ACK, SB, the header of a read, ADDR in the second of two, SR2.
const SECOND_START: [u32; 14] = [3, 1, 11, 0x501, 1, 1, 16, 0xF3, 1, 0, 1, 2, 2, 3];
/// `prepare_read` with that header in place of its address byte.
const READ_AFTER_WRITE: [u32; 20] = [
    3, 1, 15, 0, 3, 1, 11, 0x501, 1, 1, 2, 3, 16, 0xF3, 1, 0, 1, 2, 2, 3,
];
/// A byte sent: TXE, DR, BTF.
const SENT: [u32; 6] = [1, 0x80, 16, 0x2A, 1, 0x84];
/// A byte received: RXNE in the second of two SR1 reads, DR.
const RECEIVED: [u32; 6] = [1, 0, 1, 0x40, 4, 0x3C];
/// STOP on, and read until it is clear.
const STOP: [u32; 6] = [3, 1, 11, 0x201, 3, 1];
/// A last read of one byte: ACK off and STOP on, the byte, STOP clear.
const LAST_READ: [u32; 12] = [3, 0x401, 11, 0x201, 1, 0, 1, 0x40, 4, 0x3C, 3, 1];

/// The answer and the record of one ten-bit call after the bring-up, with these words for its reads.
fn ran(kind: u8, operations: Vec<PlannedOperation>, readings: &[u32]) -> (u32, Vec<u32>) {
    let plan = Plan {
        settings: Settings::example(),
        calls: vec![PlannedCall {
            kind,
            width: 10,
            address: ADDRESS,
            operations,
        }],
    };
    let list = plan.bytes();
    assert_eq!(refusal(&list, 16), 0);
    let (mut rx, mut record) = ([0; 16], vec![0; 400]);
    let readings = [&[1], readings].concat();
    let counts = original::run(&List::accepted(&list), &readings, &mut rx, &mut record);
    assert_eq!(counts.used, readings.len(), "no reading is left over");
    record.truncate(ENTRY_WORDS * counts.made);
    (counts.answer, record.split_off(ENTRY_WORDS * 5))
}

/// The call answers so and makes just these accesses, on the words that they read.
fn assert_runs(kind: u8, operations: &[PlannedOperation], answer: u32, parts: &[&[u32]]) {
    let expected = parts.concat();
    let read = expected.chunks(ENTRY_WORDS).filter(|access| access[0] <= 5);
    let readings: Vec<u32> = read.map(|access| access[1]).collect();
    let what = format!("kind {kind}, {operations:?}");
    let found = ran(kind, operations.to_vec(), &readings);
    assert_eq!(found, (answer, expected), "{what}");
}

fn byte() -> PlannedOperation {
    Write(vec![0x2A])
}

#[test]
fn writes() {
    assert_runs(0, &[byte()], 0, &[&PREPARE_WRITE, &SENT, &STOP]);
    assert_runs(0, &[Write(vec![])], 0, &[&PREPARE_WRITE, &STOP]);
}

#[test]
fn first_reads() {
    let first_read = [&PREPARE_WRITE[..], &SECOND_START].concat();
    assert_runs(1, &[Read(1)], 0, &[&first_read, &LAST_READ]);
    assert_runs(1, &[Read(2)], 0, &[&first_read, &RECEIVED, &LAST_READ]);
    assert_runs(3, &[Read(1)], 0, &[&first_read, &LAST_READ]);
    // A transaction has no early Overrun.
    assert_runs(3, &[Read(0)], 1, &[&first_read]);
    assert_runs(
        3,
        &[Read(0), byte()],
        0,
        &[&first_read, &PREPARE_WRITE, &SENT, &STOP],
    );
}

#[test]
fn reads_after_writes() {
    let parts = [
        &PREPARE_WRITE[..],
        &SENT,
        &READ_AFTER_WRITE,
        &RECEIVED,
        &LAST_READ,
    ];
    assert_runs(2, &[byte(), Read(2)], 0, &parts);
    assert_runs(3, &[byte(), Read(2)], 0, &parts);
    assert_runs(3, &[byte(), Read(1), Read(1)], 0, &parts);
}

#[test]
fn directions_that_change_again() {
    let first_read = [&PREPARE_WRITE[..], &SECOND_START].concat();
    let wrote = [&PREPARE_WRITE[..], &SENT, &SENT].concat();
    let operations = [Read(1), byte(), byte(), Read(1)];
    let parts = [
        &first_read[..],
        &RECEIVED,
        &wrote,
        &READ_AFTER_WRITE,
        &LAST_READ,
    ];
    assert_runs(3, &operations, 0, &parts);
}

/// An empty read answers before its prepare.
#[test]
fn early_overruns() {
    assert_runs(1, &[Read(0)], 1, &[]);
    assert_runs(2, &[byte(), Read(0)], 1, &[&PREPARE_WRITE, &SENT]);
}

#[test]
fn idle_transactions() {
    assert_runs(3, &[], 0, &[]);
}

/// AF at the wait for ADD10, at that for ADDR of the write part, and at that of the read part.
#[test]
fn no_acknowledge_at_each_wait() {
    let refused = [1, 0x400, 15, 0xDB00];
    let parts = [&PREPARE_WRITE[..16], &refused].concat();
    assert_runs(0, &[byte()], 2, &[&parts]);
    assert_runs(1, &[Read(1)], 2, &[&parts]);
    let parts = [&PREPARE_WRITE[..20], &refused].concat();
    assert_runs(0, &[byte()], 2, &[&parts]);
    assert_runs(1, &[Read(1)], 2, &[&parts]);
    let parts = [&PREPARE_WRITE[..], &SECOND_START[..8], &refused].concat();
    assert_runs(1, &[Read(1)], 2, &[&parts]);
    let parts = [&PREPARE_WRITE[..], &SENT, &READ_AFTER_WRITE[..14], &refused].concat();
    assert_runs(2, &[byte(), Read(1)], 2, &[&parts]);
}

/// ADDR is not ADD10, and ADD10 is not ADDR.
#[test]
fn each_wait_has_its_flag() {
    let prepare = [
        &PREPARE_WRITE[..16],
        &[1, 2],
        &PREPARE_WRITE[16..20],
        &[1, 8],
        &PREPARE_WRITE[20..],
    ];
    assert_runs(0, &[Write(vec![])], 0, &[&prepare.concat(), &STOP]);
}

/// The bytes that these steps write to DR.
fn sent(steps: &[Step]) -> Vec<u16> {
    let byte = |step: &Step| match step {
        Step::Send(byte) => Some(*byte),
        _ => None,
    };
    steps.iter().filter_map(byte).collect()
}

/// The header has the address's two high bits, and the low byte the rest.
#[test]
fn address_bytes() {
    for (address, header, low_byte) in [
        (0, 0xF0, 0),
        (0x0FF, 0xF0, 0xFF),
        (0x100, 0xF2, 0),
        (0x27F, 0xF4, 0x7F),
        (0x3FF, 0xF6, 0xFF),
    ] {
        let prepares = Prepares::ten_bit(address);
        assert_eq!(sent(&prepares.write), [header, low_byte]);
        assert_eq!(sent(&prepares.first_read), [header, low_byte, header + 1]);
        assert_eq!(sent(&prepares.read_after_write), [header + 1]);
    }
}
