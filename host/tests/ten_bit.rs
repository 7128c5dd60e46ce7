//! Ten-bit addresses in polling calls: what goes out for them, and how their runs differ from seven-bit ones.

mod common;

use common::{READY, Ran, as_by_hand, planned, run_with, settings, short_sequences};
use vandhukril::Operation::{Read, Write};
use vandhukril::{Address, BusList, Hertz, Mode, Operation, PollingSettings, Report};

const AF: u32 = 0x400;

fn run_on(list: &BusList, readings: &[u32]) -> Ran {
    let bytes = list.to_bytes().expect("it fits");
    run_with(&bytes, readings, list.received_length(), 400)
}

/// The run of one transaction, with every wait over at its first look.
fn transaction(address: Address, operations: &[Operation]) -> Ran {
    let mut list = BusList::new(settings());
    list.transaction(address, operations.to_vec());
    run_on(&list, &[READY; 200])
}

/// The header of a ten-bit address, for writing.
fn header(address: u16) -> u32 {
    0xf0 + 2 * u32::from(address >> 8)
}

fn low_byte(address: u16) -> u32 {
    u32::from(address & 0xff)
}

/// What `docs/FORMAT.md` has under "A ten-bit read, access by access".
fn example() -> BusList<PollingSettings> {
    let mut list = BusList::new(PollingSettings {
        pclk1: Hertz(36_000_000),
        mode: Mode::Standard,
        frequency: Hertz(100_000),
    });
    list.read(Address::Ten(0x123), 1);
    list
}

#[test]
fn a_ten_bit_read_as_bytes_and_back() {
    let header = [
        1, 64, 1, 72, 0, 80, 36_000_000, 0, 0, 100_000, 0, 0, 0, 0, 0, 0,
    ];
    let call = [1, 10, 0x23, 0x01, 0, 0, 1, 0];
    let operation = [1, 0, 1, 0, 0, 0, 0, 0];
    let shown =
        "polling read, address width 10, address 0x123, first operation 0, operation count 1";
    as_by_hand(&example(), header, &[&call, &operation], shown);
    assert_eq!(example().calls()[0].address(), Address::Ten(0x123));
}

#[test]
fn the_run_of_the_example() {
    let readings = [
        0, // CR1 in the bring-up
        1, 1, 1, 1, 3, // CR1: no STOP, CR1; SR1: SB, SR1; SR2: MSL and BUSY
        8, // SR1: ADD10
        2, 7, // SR1: ADDR; SR2
        1, 0x80, 1, // CR1; SR1: TXE, then SB
        2, 2, 3, // SR1 twice: ADDR; SR2
        0x401, 0, 0x40, 0x3c, 1, // CR1; SR1 twice: RXNE; DR; CR1: STOP is done
    ];
    let bytes = example().to_bytes().expect("it fits");
    let ran = run_with(&bytes, &readings, 1, 62);
    let report = Report {
        end: &ran.end,
        received: &ran.received,
        record: &ran.record,
    };
    let expected = "w cr2 0024/w trise 0025/w ccr 00b4/r cr1 0000/w cr1 0001/r cr1 0001/w sr1 0000/\
                    r cr1 0001/w cr1 0101/r sr1 0001/r sr1 0001/r sr2 0003/w dr 00f2/r sr1 0008/\
                    w dr 0023/r sr1 0002/r sr2 0007/r cr1 0001/w cr1 0501/r sr1 0080/r sr1 0001/\
                    w dr 00f3/r sr1 0002/r sr1 0002/r sr2 0003/r cr1 0401/w cr1 0201/r sr1 0000/\
                    r sr1 0040/r dr 003c/r cr1 0001/rx 3c/end 0 1 20 31 1/";
    assert_eq!(report.to_string(), expected.replace('/', "\n"));
}

#[test]
fn every_address_goes_out_as_header_and_low_byte() {
    for address in 0..1024 {
        let (ten, first, low) = (Address::Ten(address), header(address), low_byte(address));
        let write = transaction(ten, &[Write(vec![0x2a])]);
        assert_eq!(write.sent(), [first, low, 0x2a]);
        let read = transaction(ten, &[Read(1)]);
        assert_eq!(read.sent(), [first, low, first + 1]);
        let both = transaction(ten, &[Write(vec![0x2a]), Read(1)]);
        assert_eq!(both.sent(), [first, low, 0x2a, first + 1]);
    }
}

/// By how many accesses a transaction at a ten-bit address is longer than the same one at a seven-bit one: 2 where a
/// write is prepared, 9 where the first operation is a read.
fn longer(operations: &[Operation]) -> usize {
    let mut before: Option<&Operation> = None;
    let more = operations
        .iter()
        .map(|operation| match (before.replace(operation), operation) {
            (None | Some(Read(_)), Write(_)) => 2,
            (None, Read(_)) => 9,
            _ => 0,
        });
    more.sum()
}

#[test]
fn every_short_transaction_sends_the_address_at_its_turns() {
    for operations in short_sequences(3) {
        let ten = transaction(Address::Ten(0x2a5), &operations);
        let seven = transaction(Address::Seven(0x25), &operations);
        let sent = planned(Address::Ten(0x2a5), &operations);
        assert_eq!(ten.sent(), sent, "{operations:?}");
        assert_eq!(ten.answer(), seven.answer(), "{operations:?}");
        assert_eq!(ten.received, seven.received, "{operations:?}");
        assert_eq!(
            ten.counts().accesses,
            seven.counts().accesses + longer(&operations),
            "{operations:?}"
        );
    }
}

/// The numbers of the shortest runs in `docs/FORMAT.md`, with the bring-up's 1 and 5.
#[test]
fn the_shortest_runs() {
    let counts = |list: &mut BusList| {
        let ran = run_on(list, &[READY; 200]);
        assert_eq!(ran.answer(), 0);
        (ran.counts().readings - 1, ran.counts().accesses - 5)
    };
    let ten = Address::Ten(0x123);
    for n in 0..5 {
        let bytes = vec![0x5a; n];
        let write = counts(BusList::new(settings()).write(ten, &bytes));
        assert_eq!(write, (2 * n + 10, 3 * n + 15));
        for m in 1..5 {
            let read = counts(BusList::new(settings()).read(ten, m as u16));
            assert_eq!(read, (3 * m + 15, 3 * m + 22));
            let both = counts(BusList::new(settings()).write_read(ten, &bytes, m as u16));
            assert_eq!(both, (2 * n + 3 * m + 17, 3 * n + 3 * m + 25));
        }
    }
}

/// A seven-bit address from 78 hexadecimal on and a header are one byte, and the first byte of a write and a low byte
/// can be one. The records still differ, on the same readings.
#[test]
fn the_same_bytes_to_either_width_leave_different_records() {
    for address in 0..1024_u16 {
        let low = low_byte(address) as u8;
        let seven = transaction(Address::Seven(0x78 + (address >> 8)), &[Write(vec![low])]);
        let ten = transaction(Address::Ten(address), &[Write(vec![])]);
        assert_eq!((seven.answer(), ten.answer()), (0, 0));
        assert_eq!(seven.sent(), ten.sent());
        assert_ne!(seven.written(), ten.written());
    }
}

/// What an AF answers at each reading of a ten-bit read of one byte.
#[test]
fn an_acknowledge_failure_at_every_reading() {
    let mut list = BusList::new(settings());
    list.read(Address::Ten(0x123), 1);
    let answers = [
        0, // CR1 in the bring-up
        0, 0, 4, 4, 0, // CR1 twice; SR1 for SB and for the master; SR2
        2, // SR1 for ADD10
        2, 0, // SR1 for ADDR; SR2
        0, 0, // CR1; a plain read of SR1 for SB
        2, 0, 0, // SR1 twice for ADDR, the first checked; SR2
        0, 3, 0, 0, 0, // CR1; SR1 twice for RXNE, the first checked; DR; CR1
    ];
    for (place, answer) in answers.into_iter().enumerate() {
        let mut readings = [READY; 19];
        readings[place] |= AF;
        let ran = run_on(&list, &readings);
        assert_eq!(ran.answer(), answer, "reading {place}");
        // A check that finds it clears it, and the call ends there.
        let used = if answer == 0 { 19 } else { place + 1 };
        assert_eq!(ran.counts().readings, used, "reading {place}");
    }
}
