//! Each cause that refuses a list: the engine's answer, and the place that is named.

mod common;

use common::{refusal, settings};
use vandhukril::Operation::{Read, Write};
use vandhukril::{Address, BusList, Hertz, LONGEST_OPERATION, Micros, Refusal, Settings, explain};

/// A list that is accepted with a received buffer of two bytes.
fn good() -> Vec<u8> {
    let mut list = BusList::new(settings());
    list.write(0x50, &[0x2a]).blocking_read(0x51, 2);
    list.to_bytes().expect("it fits")
}

fn bytes_of(list: &BusList) -> Vec<u8> {
    list.to_bytes().expect("it fits")
}

fn refused(bytes: &[u8], received_length: usize, refusal: Refusal, at: usize, what: &str) {
    assert_eq!(
        common::refusal(bytes, received_length),
        Some(refusal),
        "{what}"
    );
    let fault = explain(bytes, received_length).expect_err("it is refused");
    assert_eq!(
        (fault.refusal, fault.at, fault.what.as_str()),
        (refusal, at, what)
    );
}

fn accepted(bytes: &[u8], received_length: usize) {
    assert_eq!(refusal(bytes, received_length), None);
    assert!(explain(bytes, received_length).is_ok());
}

fn with_settings(settings: Settings) -> Vec<u8> {
    bytes_of(BusList::new(settings).write(0x50, &[0x2a]))
}

/// The good list with one byte set.
fn changed(at: usize, byte: u8) -> Vec<u8> {
    let mut bytes = good();
    bytes[at] = byte;
    bytes
}

/// For the good list: the byte that is set, to what, the place that is named, and what is wrong there.
/// The header, then the calls at 64 and 72 and the operations at 80 and 88.
const WRONG: &str = "\
0 3 12 operation offset is 80, but must be 88 (64 + 8 × calls)
4 63 4 call offset is 63, but must be 64 (the length of the header)
8 3 20 data offset is 96, but must be 104 (64 + 8 × calls + 8 × operations)
12 81 12 operation offset is 81, but must be 80 (64 + 8 × calls)
16 2 97 the list has 97 bytes, but must have 98 (data offset + data bytes)
16 0 96 the list has 97 bytes, but must have 96 (data offset + data bytes)
20 95 20 data offset is 95, but must be 96 (64 + 8 × calls + 8 × operations)
32 3 32 mode is 3, but must be 0 to 2
45 1 44 start retries are 258, but must be 0 to 255
56 1 56 this word is 1, but must be 0
63 1 60 this word is 16777216, but must be 0
64 8 64 call 0: kind is 8, but must be 0 to 7
64 255 64 call 0: kind is 255, but must be 0 to 7
64 1 64 call 0: operation 0 is a write, but a polling read needs a read there
64 2 70 call 0: operation count is 1, but a polling write_read has 2 operations
65 8 65 call 0: address width is 8, but must be 7 or 10
68 1 68 call 0: first operation is 1, but must be 0 (the operations of the calls before it)
70 3 70 call 0: operation count is 3, but the list has only 2 operations left
70 2 70 call 0: operation count is 2, but a polling write has 1 operation
72 4 72 call 1: operation 1 is a read, but a blocking write needs a write there
76 0 76 call 1: first operation is 0, but must be 1 (the operations of the calls before it)
78 2 78 call 1: operation count is 2, but the list has only 1 operation left
80 2 80 operation 0: direction is 2, but must be 0 or 1
81 1 81 operation 0: this byte is 1, but must be 0
82 2 16 the header counts 1 data byte, but all writes together have 2
84 1 84 operation 0: data offset is 1, but must be 0 (the bytes of the writes before it)
92 1 92 operation 1: data offset is 1, but must be 0 (it is a read)
";

#[test]
fn cause_20_in_every_field() {
    accepted(&good(), 2);
    for line in WRONG.lines() {
        let fields: Vec<&str> = line.splitn(4, ' ').collect();
        let number = |field: usize| fields[field].parse::<usize>().expect("a number");
        let bytes = changed(number(0), number(1) as u8);
        refused(&bytes, 2, Refusal::Form, number(2), fields[3]);
    }

    // Both kinds of transaction take the one operation of either call.
    for kind in [3, 7] {
        accepted(&changed(64, kind), 2);
        accepted(&changed(72, kind), 2);
    }

    // Fewer operations in the calls than in the table.
    let mut list = BusList::new(settings());
    list.transaction(1, [Read(0), Read(0)]);
    let mut bytes = bytes_of(&list);
    bytes[70] = 1;
    refused(
        &bytes,
        2,
        Refusal::Form,
        8,
        "the header counts 2 operations, but all calls together have 1",
    );
}

#[test]
fn cause_21_at_each_limit() {
    let limit = |list: &BusList, at, what| {
        refused(&bytes_of(list), 10_000, Refusal::Limit, at, what);
    };
    let mut list = BusList::new(settings());
    for _ in 0..119 {
        list.write(0x50, &[0; LONGEST_OPERATION]);
    }
    // 64 + 119 * (16 + 258) is 98 bytes short of the limit, and a write takes 16 beside its data.
    let mut longer = list.clone();
    list.write(0x50, &[0; 82]);
    assert_eq!(bytes_of(&list).len(), 32_768);
    accepted(&bytes_of(&list), 0);
    longer.write(0x50, &[0; 83]);
    limit(
        &longer,
        32_768,
        "the list has 32769 bytes, but the limit is 32,768",
    );

    let mut list = BusList::new(settings());
    for _ in 0..256 {
        list.transaction(0x50, []);
    }
    accepted(&bytes_of(&list), 0);
    list.transaction(0x50, []);
    limit(&list, 0, "the list has 257 calls, but the limit is 256");

    let mut list = BusList::new(settings());
    list.transaction(0x50, vec![Read(0); 1024]);
    accepted(&bytes_of(&list), 0);
    list.read(0x50, 1);
    limit(
        &list,
        8,
        "the list has 1025 operations, but the limit is 1,024",
    );

    // Of several operations that are too long the first is named. `tests/longest.rs` has each kind of call.
    let mut list = BusList::new(settings());
    list.transaction(0x50, [Read(258), Write(vec![0; 259]), Read(65_535)])
        .blocking_read(0x50, 300);
    limit(
        &list,
        64 + 2 * 8 + 8 + 2,
        "call 0: operation 1: length is 259, but the limit is 258",
    );
}

#[test]
fn cause_22_outside_the_frequencies() {
    let at = |frequency| {
        with_settings(Settings {
            frequency: Hertz(frequency),
            ..settings()
        })
    };
    let frequency = |n| {
        let what = format!("frequency is {n} Hz, but must be 1 to 400,000 Hz");
        refused(&at(n), 0, Refusal::Frequency, 36, &what);
    };
    accepted(&at(1), 0);
    accepted(&at(400_000), 0);
    frequency(0);
    frequency(400_001);
    frequency(u32::MAX);
}

#[test]
fn cause_23_for_each_timeout() {
    type Change = fn(&mut Settings, Micros);
    let with = |change: Change, micros| {
        let mut settings = settings();
        change(&mut settings, Micros(micros));
        with_settings(settings)
    };
    let timeouts: [(&str, usize, Change); 3] = [
        ("start", 40, |settings, timeout| {
            settings.start_timeout = timeout
        }),
        ("address", 48, |settings, timeout| {
            settings.address_timeout = timeout
        }),
        ("data", 52, |settings, timeout| {
            settings.data_timeout = timeout
        }),
    ];
    for (name, at, change) in timeouts {
        // At 72 MHz, the last that passes and the first that does not.
        accepted(&with(change, 59_652_323), 0);
        let what = format!(
            "{name} timeout is 59652324 µs, which is 4294967328 cycles at 72 MHz, \
             but the limit is 4,294,967,295"
        );
        refused(&with(change, 59_652_324), 0, Refusal::Timeout, at, &what);
    }
}

#[test]
fn cause_24_for_each_address() {
    let to =
        |address: Address| bytes_of(BusList::new(settings()).write(1, &[]).write(address, &[1]));
    accepted(&to(0.into()), 0);
    accepted(&to(127.into()), 0);
    for address in [128, 160, 1023, 65_535] {
        let what = format!("call 1: address is {address}, but must be 0 to 127 with a width of 7");
        let bytes = to(Address::Seven(address));
        refused(&bytes, 0, Refusal::Address, 74, &what);
    }
    for address in [0, 127, 128, 256, 1023] {
        accepted(&to(Address::Ten(address)), 0);
    }
    for address in [1024, 1104, 32_768, 65_535] {
        let what =
            format!("call 1: address is {address}, but must be 0 to 1023 with a width of 10");
        let bytes = to(Address::Ten(address));
        refused(&bytes, 0, Refusal::Address, 74, &what);
    }
}

/// Polling calls take a ten-bit address, idle ones too. No blocking call does, and idle ones no more.
#[test]
fn cause_24_for_a_ten_bit_blocking_call() {
    let ten = Address::Ten(0x123);
    let mut list = BusList::new(settings());
    list.write(ten, &[1])
        .read(ten, 1)
        .write_read(ten, &[2], 1)
        .transaction(ten, [])
        .blocking_write(0x23, &[3]);
    accepted(&bytes_of(&list), 2);

    let mut blocking = BusList::new(settings());
    blocking
        .blocking_write(ten, &[1])
        .blocking_read(ten, 1)
        .blocking_write_read(ten, &[1], 1)
        .blocking_write_read(ten, &[], 0)
        .blocking_transaction(ten, [Write(vec![1])])
        .blocking_transaction(ten, [])
        // Its width is named, not its address.
        .blocking_read(Address::Ten(1024), 1);
    for call in blocking.calls() {
        let mut list = BusList::new(settings());
        list.write(ten, &[1]).add(call.clone());
        let what = format!(
            "call 1: address width is 10, but must be 7 in a {}",
            call.kind()
        );
        refused(&bytes_of(&list), 1, Refusal::Address, 73, &what);
    }
}

#[test]
fn a_fault_says_what_to_do() {
    let to_a0 = bytes_of(BusList::new(settings()).write(0xa0, &[1]));
    assert_eq!(
        explain(&to_a0, 0).unwrap_err().to_string(),
        "byte 66: call 0: address is 160, but must be 0 to 127 with a width of 7. \
         Give the call a seven-bit address from 0 to 127, as it is before it is shifted to make \
         room for the direction bit. A polling call may have a ten-bit one, from 0 to 1023."
    );
    let to_split = bytes_of(BusList::new(settings()).write(0x50, &[0; 300]));
    let told = explain(&to_split, 0).unwrap_err().to_string();
    assert_eq!(
        told,
        "byte 74: call 0: operation 0: length is 300, but the limit is 258. \
         Split the list, or the operation: at most 32,768 bytes, 256 calls, 1,024 operations, \
         and 258 bytes in one operation. A transaction of the same engine joins neighbours of one \
         direction, so it takes a longer read or write in parts."
    );
    assert!(include_str!("../README.md").contains(&told));
    assert_eq!(
        explain(&changed(32, 3), 2).unwrap_err().to_string(),
        "byte 32: mode is 3, but must be 0 to 2. \
         Correct the list here, or in the field that this has to agree with."
    );
    let back =
        bytes_of(BusList::new(settings()).blocking_transaction(1, [Read(1), Write(vec![2])]));
    assert_eq!(
        explain(&back, 1).unwrap_err().to_string(),
        "byte 80: call 0: operation 1 is a write after the read of operation 0, \
         but a blocking transaction writes first and then reads. \
         A read followed by a write cannot be done without losing the bus between them. \
         Put the write first, or make two calls."
    );
}

#[test]
fn cause_25_for_each_empty_blocking_call() {
    let mut list = BusList::new(settings());
    list.blocking_write_read(1, &[], 0)
        .write(1, &[])
        .read(1, 0)
        .blocking_transaction(1, [Write(vec![]), Read(0)])
        .blocking_write(1, &[]);
    let write = "call 4: length is 0, but a blocking write needs at least one byte";
    refused(
        &bytes_of(&list),
        0,
        Refusal::EmptyBlocking,
        64 + 5 * 8 + 6 * 8 + 2,
        write,
    );

    let list = bytes_of(BusList::new(settings()).blocking_read(1, 0));
    refused(
        &list,
        0,
        Refusal::EmptyBlocking,
        74,
        "call 0: length is 0, but a blocking read needs at least one byte",
    );
}

#[test]
fn cause_26_for_each_length_too_short() {
    let mut list = BusList::new(settings());
    list.read(1, 3)
        .write(1, &[9])
        .blocking_transaction(1, [Read(0), Read(2)]);
    let bytes = bytes_of(&list);
    for room in 0..3 {
        let what = format!(
            "operation 0: the reads up to this one have 3 bytes, but the received buffer has {room}"
        );
        refused(&bytes, room, Refusal::ReceivedBuffer, 90, &what);
    }
    for room in 3..5 {
        let what = format!(
            "operation 3: the reads up to this one have 5 bytes, but the received buffer has {room}"
        );
        refused(&bytes, room, Refusal::ReceivedBuffer, 114, &what);
    }
    accepted(&bytes, 5);
}

#[test]
fn cause_27_at_each_call() {
    // Before it a call that may do this, an empty write, and a blocking transaction that is right.
    let mut list = BusList::new(settings());
    list.transaction(1, [Read(1), Write(vec![1])])
        .blocking_transaction(2, [Read(1), Write(vec![]), Read(1)])
        .blocking_transaction(3, [Write(vec![2]), Read(1), Read(0), Write(vec![3])]);
    let operations = 64 + 3 * 8;
    refused(
        &bytes_of(&list),
        4,
        Refusal::WriteAfterRead,
        operations + 8 * 8,
        "call 2: operation 8 is a write after the read of operation 6, \
         but a blocking transaction writes first and then reads",
    );
    // With another such call before it, that one is named.
    let mut first = BusList::new(settings());
    first.blocking_transaction(
        3,
        [Read(1), Read(2), Write(vec![4]), Read(1), Write(vec![5])],
    );
    for call in list.calls() {
        first.add(call.clone());
    }
    refused(
        &bytes_of(&first),
        8,
        Refusal::WriteAfterRead,
        64 + 4 * 8 + 2 * 8,
        "call 0: operation 2 is a write after the read of operation 1, \
         but a blocking transaction writes first and then reads",
    );
}

#[test]
fn cause_27_only_for_what_is_left() {
    let of =
        |operations: Vec<_>| bytes_of(BusList::new(settings()).blocking_transaction(1, operations));
    let one = || Write(vec![1]);
    let none = || Write(vec![]);
    accepted(&of(vec![]), 0);
    accepted(&of(vec![Read(0), none()]), 0);
    accepted(&of(vec![Read(0), one()]), 0);
    accepted(&of(vec![Read(1), none()]), 1);
    accepted(&of(vec![Read(1), none(), Read(2)]), 3);
    accepted(
        &of(vec![one(), Read(0), one(), Read(1), none(), Read(1)]),
        2,
    );
    let back = |operations, at| {
        let bytes = of(operations);
        assert_eq!(refusal(&bytes, 9), Some(Refusal::WriteAfterRead));
        let fault = explain(&bytes, 9).expect_err("it is refused");
        assert_eq!((fault.refusal, fault.at), (Refusal::WriteAfterRead, at));
    };
    back(vec![Read(1), one()], 80);
    back(vec![Read(1), none(), one()], 88);
    back(vec![Read(1), Read(0), one()], 88);
    back(vec![one(), Read(1), one(), Read(1)], 88);
}

/// A list with every cause; each is answered when those before it are put right.
#[test]
fn causes_are_answered_in_rising_order() {
    let wrong = Settings {
        frequency: Hertz(0),
        data_timeout: Micros(u32::MAX),
        ..settings()
    };
    let build = |settings, length, address, blocking: &[u8], last| {
        let mut list = BusList::new(settings);
        list.read(1, length)
            .write(address, &[1])
            .blocking_write(1, blocking)
            .blocking_transaction(1, [Read(1), last]);
        bytes_of(&list)
    };
    let back = || Write(vec![2]);
    let right = settings();
    let slow = Settings {
        frequency: Hertz(1),
        ..wrong
    };
    let mut all = build(wrong, 259, 200, &[], back());
    // No kind has this number.
    all[64] = 8;
    let cases = [
        (all, 20),
        (build(wrong, 259, 200, &[], back()), 21),
        (build(wrong, 258, 200, &[], back()), 22),
        (build(slow, 258, 200, &[], back()), 23),
        (build(right, 258, 200, &[], back()), 24),
        (build(right, 258, 100, &[], back()), 25),
        (build(right, 258, 100, &[1], back()), 26),
        (build(right, 5, 100, &[1], back()), 27),
        (build(right, 5, 100, &[1], Read(1)), 0),
    ];
    for (bytes, expected) in cases {
        let answered = refusal(&bytes, 10);
        assert_eq!(answered.map_or(0, Refusal::number), expected);
        let fault = explain(&bytes, 10).err();
        assert_eq!(fault.map(|fault| fault.refusal), answered);
    }
}
