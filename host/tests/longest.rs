//! Operations at the limit of 258 bytes, in every kind of call, and longer transfers in parts.

mod common;

use common::{READY, Ran, planned, refusal, run_with, settings};
use vandhukril::Operation::{Read, Write};
use vandhukril::{
    Address, BusList, Direction, Fault, LONGEST_OPERATION, Operation, Refusal, accesses, explain,
};

/// Bytes that tell their places.
fn told(length: usize) -> Vec<u8> {
    (0..length).map(|place| (place % 251) as u8).collect()
}

/// Runs a list to its end, with every wait over at its first look, and holds what is sent and received to its calls.
fn run_to_the_end(list: &BusList) -> Ran {
    let bytes = list.to_bytes().expect("it fits");
    let received = told(list.received_length());
    // A byte takes at most three accesses, and the bytes of a row stand for more than its call or operation takes.
    let most = 3 * (bytes.len() + received.len());
    let run_on = |readings: &[u32]| run_with(&bytes, readings, received.len(), 2 * most);

    let mut readings = vec![READY; most];
    let ready = run_on(&readings);
    let reads = accesses(ready.written().0).filter(|access| access.direction() == Direction::Read);
    let shows = readings.iter_mut().zip(reads);
    let of_dr = shows.filter(|(_, access)| access.code == 4);
    for ((reading, _), &byte) in of_dr.zip(&received) {
        *reading = byte.into();
    }
    let ran = run_on(&readings);

    let name = list
        .calls()
        .last()
        .map(|call| (call.kind(), call.address()));
    assert_eq!(ran.answer(), 0, "{name:?}");
    assert!(
        *ran.received == received[..],
        "{name:?}: every byte in its place"
    );
    let calls = list.calls().iter();
    let sent: Vec<u32> = calls
        .flat_map(|call| planned(call.address(), call.operations()))
        .collect();
    assert!(ran.sent() == sent, "{name:?}: every byte in order");
    ran
}

/// A call for each kind, each width of address and each direction that an operation of this length can have there. In a
/// transaction it stands between two others. All other operations are short.
fn calls_with(length: u16) -> BusList {
    let data = told(length.into());
    let mut list = BusList::new(settings());
    for address in [Address::Seven(0x50), Address::Ten(0x2a5)] {
        list.write(address, &data)
            .read(address, length)
            .write_read(address, &data, 3)
            .write_read(address, &[1], length)
            .transaction(address, [Read(1), Write(data.clone()), Read(2)])
            .transaction(address, [Write(vec![1]), Read(length), Write(vec![2])]);
    }
    list.blocking_write(0x50, &data)
        .blocking_read(0x50, length)
        .blocking_write_read(0x50, &data, 3)
        .blocking_write_read(0x50, &[1], length)
        .blocking_transaction(0x50, [Write(vec![1]), Write(data), Read(1)])
        .blocking_transaction(0x50, [Write(vec![1]), Read(length), Read(2)]);
    list
}

/// Holds a list to its refusal for an operation of this length in its second call. Its first call has one operation.
fn refused(list: &BusList, length: u16) {
    let bytes = list.to_bytes().expect("it fits");
    let room = list.received_length() + 1;
    // That the counts are 0 and the buffers as they were is held for every run.
    let ran = run_with(&bytes, &[READY; 100], room, 100);
    assert_eq!(ran.answer(), 21, "{list}");

    let mut operations = list.calls()[1].operations().iter();
    let place = operations.position(|operation| match operation {
        Write(bytes) => bytes.len() == length.into(),
        Read(bytes) => *bytes == length,
    });
    let number = 1 + place.expect("it has such an operation");
    let fault = Fault {
        refusal: Refusal::Limit,
        at: 64 + 2 * 8 + number * 8 + 2,
        what: format!("call 1: operation {number}: length is {length}, but the limit is 258"),
    };
    assert_eq!(explain(&bytes, room), Err(fault));
}

#[test]
fn the_longest_operation_in_each_kind_of_call() {
    for length in [257, 258, 259, 260] {
        for call in calls_with(length).calls() {
            let mut list = BusList::new(settings());
            list.write(0x51, &[0x2a]).add(call.clone());
            if length > 258 {
                refused(&list, length);
                continue;
            }
            let bytes = list.to_bytes().expect("it fits");
            assert_eq!(
                explain(&bytes, list.received_length()),
                Ok(vec![]),
                "{list}"
            );
            run_to_the_end(&list);
        }
    }
}

/// A transaction of each engine, and of each width, with what `docs/FORMAT.md` has for the shortest runs: the readings
/// and the accesses of a write, of a read and of a write then a read, beside those for each byte.
fn transactions(operations: &[Operation]) -> [(BusList, [[usize; 2]; 3]); 3] {
    let list = || BusList::new(settings());
    let [mut seven, mut ten, mut blocking] = [list(), list(), list()];
    seven.transaction(0x50, operations.to_vec());
    ten.transaction(Address::Ten(0x2a5), operations.to_vec());
    blocking.blocking_transaction(0x50, operations.to_vec());
    [
        (seven, [[9, 13], [9, 13], [16, 23]]),
        (ten, [[10, 15], [15, 22], [17, 25]]),
        (blocking, [[11, 15], [12, 19], [11 + 12 - 3, 15 + 19 - 4]]),
    ]
}

/// A transfer in parts that are as long as they can be: so many bytes written, and then so many read.
fn parts(written: usize, read: usize) -> Vec<Operation> {
    let data = told(written);
    let writes = data
        .chunks(LONGEST_OPERATION)
        .map(|part| Write(part.to_vec()));
    let reads = (0..read)
        .step_by(LONGEST_OPERATION)
        .map(|before| Read(LONGEST_OPERATION.min(read - before) as u16));
    writes.chain(reads).collect()
}

#[test]
fn a_long_transfer_in_parts_runs_as_one() {
    let transfers = [
        [259, 0],
        [31_712, 0],
        [0, 259],
        [0, 65_535],
        [0, 65_536],
        [0, 264_192],
        [600, 600],
    ];
    for [written, read] in transfers {
        for (list, [write, read_alone, both]) in transactions(&parts(written, read)) {
            let beside = match (written, read) {
                (_, 0) => write,
                (0, _) => read_alone,
                _ => both,
            };
            let counts = run_to_the_end(&list).counts();
            assert_eq!(
                [counts.readings, counts.accesses],
                [
                    1 + beside[0] + 2 * written + 3 * read,
                    5 + beside[1] + 3 * written + 3 * read
                ],
                "{written} written, {read} read"
            );
        }
    }
}

/// The longest transfers above are the longest that one call can have: a list has at most 32,768 bytes, and 1,024
/// operations.
#[test]
fn one_byte_more_than_the_longest_transfer() {
    let written = (1..=1024).map(|parts| {
        let left_for_data = 32_768 - 64 - 8 - 8 * parts;
        left_for_data.min(LONGEST_OPERATION * parts)
    });
    assert_eq!(written.max(), Some(31_712));
    assert_eq!(1024 * LONGEST_OPERATION, 264_192);
    let one_more = [
        (parts(31_713, 0), 264_192, Refusal::Limit, 32_768),
        (parts(0, 264_193), 264_193, Refusal::Limit, 8),
        // With a received buffer one byte too short the last read is named.
        (
            parts(0, 264_192),
            264_191,
            Refusal::ReceivedBuffer,
            64 + 8 + 8 * 1023 + 2,
        ),
    ];
    for (operations, room, expected, at) in one_more {
        for (list, _) in transactions(&operations) {
            let bytes = list.to_bytes().expect("it fits");
            assert_eq!(refusal(&bytes, room), Some(expected));
            let fault = explain(&bytes, room).expect_err("it is refused");
            assert_eq!((fault.refusal, fault.at), (expected, at));
        }
    }
}
