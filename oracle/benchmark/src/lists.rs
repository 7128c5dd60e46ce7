//! What is timed: lists whose every call ends well, and lists that are refused.

use buslist::{List, Plan, PlannedCall, PlannedOperation, Settings, HEADER};
use device::ENTRY_WORDS;

/// Bytes of an operation, but for those of pages.
const LENGTH: usize = 16;
/// A reading that ends every wait at its first poll.
const READY: u32 = 0xCF;

pub struct Row {
    pub name: &'static str,
    pub calls: usize,
    pub list: Vec<u8>,
    /// The list for the Rust, which has no blocking transactions: the plain calls that they are done as.
    pub plain: Vec<u8>,
    pub readings: Vec<u32>,
    pub rx: usize,
    pub record: usize,
}

pub fn rows() -> Vec<Row> {
    // What depots do: a memory address of two bytes is written, and a page of 256 read.
    let page = vec![write(2), PlannedOperation::Read(256)];
    let (write, read) = (write(LENGTH), PlannedOperation::Read(LENGTH));
    let both = [[write.clone(), write.clone()], [read.clone(), read.clone()]].concat();
    let kinds = [
        ("polling write", vec![call(0)]),
        ("polling read", vec![call(1)]),
        ("blocking write", vec![call(4)]),
        ("blocking read", vec![call(5)]),
        ("mixed", [2, 4, 3, 5, 0, 6, 1].map(call).to_vec()),
        ("joined write", vec![with(7, vec![write; 4])]),
        ("joined read", vec![with(7, vec![read; 4])]),
        ("joined both", vec![with(7, both)]),
        ("polling page", vec![with(2, page.clone())]),
        ("blocking page", vec![with(6, page)]),
    ];
    of_each_length(&kinds)
}

/// Ten-bit calls. The Rust cannot be raced on them: what they must leave is made by the model.
pub fn ten_bit_rows() -> Vec<Row> {
    let ten_bit = |kind| PlannedCall {
        width: 10,
        address: 0x350,
        ..call(kind)
    };
    of_each_length(&[
        ("ten-bit write", vec![ten_bit(0)]),
        ("ten-bit read", vec![ten_bit(1)]),
        ("ten-bit mixed", [0, 1, 2, 3].map(ten_bit).to_vec()),
    ])
}

fn of_each_length(kinds: &[(&'static str, Vec<PlannedCall>)]) -> Vec<Row> {
    let mut rows = Vec::new();
    for (name, kinds) in kinds {
        for calls in [1, 16, 256] {
            rows.push(row(name, kinds, calls));
        }
    }
    rows
}

fn row(name: &'static str, kinds: &[PlannedCall], calls: usize) -> Row {
    let plan = Plan {
        settings: settings(),
        calls: kinds.iter().cycle().take(calls).cloned().collect(),
    };
    let (list, rx) = (plan.bytes(), plan.read_together());
    let plain = plain(plan).bytes();
    let mut readings = vec![READY; 1 << 18];
    let mut record = vec![0; 1 << 19];
    let counts = original::run(
        &List::accepted(&plain),
        &readings,
        &mut vec![0; rx],
        &mut record,
    );
    readings.truncate(counts.used);
    Row {
        name,
        calls,
        list,
        plain,
        readings,
        rx,
        record: ENTRY_WORDS * counts.made,
    }
}

/// The plan with the plain call in place of each blocking transaction; none of them is idle.
fn plain(mut plan: Plan) -> Plan {
    for call in plan.calls.iter_mut().filter(|call| call.kind == 7) {
        *call = call.plain().expect("not idle");
    }
    plan
}

fn settings() -> Settings {
    Settings {
        sysclk: 72_000_000,
        start_timeout: 1_000,
        start_retries: 10,
        address_timeout: 1_000,
        data_timeout: 1_000,
        ..Settings::example()
    }
}

fn write(length: usize) -> PlannedOperation {
    PlannedOperation::Write((0..length as u8).collect())
}

fn call(kind: u8) -> PlannedCall {
    let (write, read) = (write(LENGTH), PlannedOperation::Read(LENGTH));
    let operations = match kind {
        0 | 4 => vec![write],
        1 | 5 => vec![read],
        3 => vec![write.clone(), write, read],
        _ => vec![write, read],
    };
    with(kind, operations)
}

fn with(kind: u8, operations: Vec<PlannedOperation>) -> PlannedCall {
    PlannedCall {
        kind,
        width: 7,
        address: 0x50,
        operations,
    }
}

/// A list that is refused with a received buffer of so many bytes.
pub struct Hostile {
    pub name: &'static str,
    pub list: Vec<u8>,
    pub rx: usize,
}

/// Lists that are refused, of 64 bytes to 32 KiB.
pub fn hostile() -> Vec<Hostile> {
    let without_room = |(name, list)| Hostile { name, list, rx: 0 };
    let lists = claims().into_iter().chain(wrong_at_the_end());
    let lists = lists.chain(many_operations()).map(without_room);
    lists.chain(writes_after_reads()).collect()
}

type Named = (&'static str, Vec<u8>);

fn claims() -> Vec<Named> {
    let mut lists = Vec::new();
    for size in [64, 256, 1_024, 4_096, 32_768] {
        lists.push(("zeros", vec![0; size]));
        lists.push(("calls 2^32 - 1", claiming(size, u32::MAX, 0)));
        lists.push(("operations 2^32 - 1", claiming(size, 0, u32::MAX)));
    }
    lists
}

fn wrong_at_the_end() -> Vec<Named> {
    let mut lists = Vec::new();
    // All of the form up to the received buffer, which is too short for the last read.
    for calls in [1, 8, 32, 128, 255] {
        let mut plan = Plan {
            settings: settings(),
            calls: vec![call(2); calls],
        };
        lists.push(("received buffer short", plan.bytes()));
        // The last operation is wrong: all before it has been read by then.
        plan.calls[calls - 1].operations[1] = PlannedOperation::Read(1);
        let mut list = plan.bytes();
        let last = HEADER + 8 * calls + 8 * (2 * calls - 1);
        list[last] = 2;
        lists.push(("last direction wrong", list));
    }
    lists
}

/// One transaction of many operations, then a list as long as may be.
fn many_operations() -> [Named; 2] {
    let many = |operation: PlannedOperation, count: usize| {
        let plan = Plan {
            settings: settings(),
            calls: vec![with(3, vec![operation; count])],
        };
        plan.bytes()
    };
    [
        ("1,024 reads", many(PlannedOperation::Read(1), 1_024)),
        (
            "4,087 idle operations",
            many(PlannedOperation::Read(0), 4_087),
        ),
    ]
}

/// Blocking transactions, each looked at to its end, and the last has a write after a read: refused for the last cause
/// of all. The longest list has 32 KiB.
fn writes_after_reads() -> Vec<Hostile> {
    let read = PlannedOperation::Read;
    let list = |calls: usize, length: usize| {
        let good = with(7, vec![write(length), read(0), write(length), read(1)]);
        let mut plan = Plan {
            settings: settings(),
            calls: vec![good; calls],
        };
        plan.calls.push(with(7, vec![read(1), write(40)]));
        Hostile {
            name: "last write after a read",
            list: plan.bytes(),
            rx: plan.read_together(),
        }
    };
    let lengths = [
        (1, LENGTH),
        (8, LENGTH),
        (32, LENGTH),
        (128, LENGTH),
        (255, 44),
    ];
    lengths.map(|(calls, length)| list(calls, length)).into()
}

/// A header that claims so many calls and operations, with offsets right modulo 2^32.
fn claiming(size: usize, calls: u32, operations: u32) -> Vec<u8> {
    let header = HEADER as u32;
    let operation_offset = header.wrapping_add(calls.wrapping_mul(8));
    let data_offset = operation_offset.wrapping_add(operations.wrapping_mul(8));
    let data = (size as u32).wrapping_sub(data_offset);
    let words = [
        calls,
        header,
        operations,
        operation_offset,
        data,
        data_offset,
    ];
    let mut list: Vec<u8> = words.iter().flat_map(|word| word.to_le_bytes()).collect();
    list.resize(size, 0);
    list
}
