//! Blocking transactions (kind 7): what they come to once empty operations are dropped and neighbours joined.

mod common;

use common::{Draw, READY, Ran, as_by_hand, run_with, settings, short_sequences};
use vandhukril::Operation::{Read, Write};
use vandhukril::{BusList, Kind, Operation, Report, Settings, answer};

fn transaction(operations: &[Operation]) -> BusList {
    let mut list = BusList::new(settings());
    list.blocking_transaction(0x50, operations.to_vec());
    list
}

fn run_on(list: &BusList, readings: &[u32], words: usize) -> Ran {
    let bytes = list.to_bytes().expect("it fits");
    run_with(&bytes, readings, list.received_length(), words)
}

/// The operations that are not empty, neighbours of one direction joined.
fn joined(operations: &[Operation]) -> Vec<Operation> {
    let mut all: Vec<Operation> = Vec::new();
    for operation in operations {
        match (all.last_mut(), operation) {
            (_, Read(0)) => (),
            (_, Write(bytes)) if bytes.is_empty() => (),
            (Some(Read(before)), Read(length)) => *before += length,
            (Some(Write(before)), Write(bytes)) => before.extend(bytes),
            _ => all.push(operation.clone()),
        }
    }
    all
}

/// The list that has a blocking write, read or write_read for what is left, or no call for nothing. There is none
/// where a read is followed by a write.
fn plain(left: &[Operation]) -> Option<BusList> {
    let mut list = BusList::new(settings());
    match left {
        [] => (),
        [Write(bytes)] => _ = list.blocking_write(0x50, bytes),
        [Read(length)] => _ = list.blocking_read(0x50, *length),
        [Write(bytes), Read(length)] => _ = list.blocking_write_read(0x50, bytes, *length),
        _ => return None,
    }
    Some(list)
}

/// Readings with every flag set, but now and then one that shows none, or an error flag.
fn drawn_readings(draw: &mut Draw) -> Vec<u32> {
    let reading = |_| match draw.below(40) {
        0..2 => 0,
        2 => READY | 0x100 << draw.below(4),
        _ => READY,
    };
    (0..200).map(reading).collect()
}

#[test]
fn every_short_transaction_is_done_in_its_joined_form() {
    let mut draw = Draw(17);
    let (mut idle, mut done, mut refused, mut stopped) = (0, 0, 0, 0);
    for operations in short_sequences(4) {
        let list = transaction(&operations);
        let left = joined(&operations);
        let Some(plain) = plain(&left) else {
            assert_eq!(run_on(&list, &[READY; 200], 400).answer(), 27, "{list}");
            refused += 1;
            continue;
        };
        for readings in [vec![READY; 200], drawn_readings(&mut draw)] {
            let ran = run_on(&list, &readings, 400);
            let expected = run_on(&plain, &readings, 400);
            assert_eq!(ran.answer(), expected.answer(), "{list}");
            assert_eq!(ran.written(), expected.written(), "{list}");
            // Where nothing is left, the call ends well all the same.
            let calls = expected.counts().calls + usize::from(left.is_empty());
            assert_eq!(ran.counts().calls, calls, "{list}");
            stopped += usize::from(ran.answer() != 0);
        }
        if left.is_empty() {
            idle += 1;
        } else {
            done += 1;
        }
    }
    // Of the 6^n sequences of n operations, 2^n are empty ones only. In 2^n * (2^n + n * 2^(n-1)) no write that is not
    // empty comes after such a read.
    assert_eq!((idle, idle + done), (31, 1 + 6 + 32 + 160 + 768));
    assert_eq!(idle + done + refused, 1 + 6 + 36 + 216 + 1296);
    assert!(stopped > 100, "{stopped} stopped by a drawn flag");
}

/// What `docs/FORMAT.md` has under "A blocking transaction, access by access".
#[test]
fn a_transaction_as_bytes_and_back() {
    let mut list = BusList::new(Settings {
        start_retries: 3,
        ..settings()
    });
    list.blocking_transaction(0x50, [Write(vec![0]), Read(0), Write(vec![0x1f]), Read(1)]);
    let header = [
        1, 64, 4, 72, 2, 104, 36_000_000, 72_000_000, 0, 100_000, 1000, 3, 1000, 1000, 0, 0,
    ];
    let rest: [&[u8]; 6] = [
        &[7, 7, 0x50, 0, 0, 0, 4, 0],
        &[0, 0, 1, 0, 0, 0, 0, 0],
        &[1, 0, 0, 0, 0, 0, 0, 0],
        &[0, 0, 1, 0, 1, 0, 0, 0],
        &[1, 0, 1, 0, 0, 0, 0, 0],
        &[0, 0x1f],
    ];
    let shown = "blocking transaction, address width 7, address 0x50, \
                 first operation 0, operation count 4";
    as_by_hand(&list, header, &rest, shown);
    assert_eq!(list.calls()[0].kind(), Kind::BlockingTransaction);
}

/// Two reads of one byte, with an empty write between them, are the read of two bytes that the C example makes.
#[test]
fn two_reads_of_one_byte_run_as_one_of_two() {
    let mut list = BusList::new(Settings {
        start_retries: 3,
        ..settings()
    });
    list.blocking_transaction(0x50, [Read(1), Write(vec![]), Read(1)]);
    let readings = [
        0, // CR1 in the bring-up
        1, 0xc350, 1, // CR1; CYC; SR1: SB
        1, 0xc620, 2, // SR1; CYC; SR1: ADDR
        1, 2, 3, 0xc01, // CR1; SR1 and SR2; CR1
        0xdfd4, 0, 0xf938, 0x40, 0x1129c, 0x44, // CYC and SR1, until BTF
        0x801, 0x3c, 0xa5, // CR1; DR twice
        0x11300, 0x801, // CYC; CR1: STOP is done
        0x801, 1, // CR1 twice
    ];
    let ran = run_on(&list, &readings, 72);
    let report = Report {
        end: &ran.end,
        received: &ran.received,
        record: &ran.record,
    };
    let example = include_str!("../examples/c/read_two_bytes.stdout");
    let (speed_words, run) = example.split_once('\n').expect("two lines or more");
    assert!(speed_words.starts_with("speed words: "));
    assert_eq!(report.to_string(), run);
}

#[test]
fn an_idle_transaction_needs_no_reading_and_no_record() {
    let mut list = BusList::new(settings());
    list.blocking_transaction(0x50, [])
        .blocking_transaction(0x50, [Read(0), Write(vec![]), Read(0)]);
    // The bring-up has five accesses, one of them a read.
    let ran = run_on(&list, &[0], 10);
    assert_eq!(answer(&ran.end), 0);
    assert_eq!((ran.counts().calls, ran.counts().accesses), (2, 5));
    // And a received buffer of no bytes.
    assert_eq!(list.received_length(), 0);
}
