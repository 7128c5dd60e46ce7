//! What `explain` warns of, held to what the engine does with such a list.

mod common;

use common::{READY, Ran, every_kind, run_with, settings};
use vandhukril::Operation::{Read, Write};
use vandhukril::{
    Address, BusList, Hertz, ListSettings, Micros, PollingSettings, Settings, Warning, accesses,
    explain,
};

// Codes in a record, and bits of CR1.
const READ_CR1: u32 = 3;
const READ_CYC: u32 = 5;
const WRITE_CR1: u32 = 11;
const START: u32 = 0x100;
const STOP: u32 = 0x200;

fn warnings<S: ListSettings>(list: &BusList<S>) -> Vec<Warning> {
    let bytes = list.to_bytes().expect("it fits");
    explain(&bytes, list.received_length()).expect("it is accepted")
}

fn places<S: ListSettings>(list: &BusList<S>) -> Vec<usize> {
    warnings(list).iter().map(|warning| warning.at).collect()
}

fn texts<S: ListSettings>(list: &BusList<S>) -> Vec<String> {
    warnings(list).iter().map(Warning::to_string).collect()
}

fn run_on<S: ListSettings>(list: &BusList<S>, readings: &[u32]) -> Ran {
    let bytes = list.to_bytes().expect("it fits");
    run_with(&bytes, readings, list.received_length(), 600)
}

/// How often the run sets START.
fn starts(ran: &Ran) -> usize {
    accesses(ran.written().0)
        .filter(|access| access.code == WRITE_CR1 && access.value & START != 0)
        .count()
}

/// Settings with 0 for all that blocking calls use.
fn zeros() -> Settings {
    Settings {
        sysclk: Hertz(0),
        start_timeout: Micros(0),
        start_retries: 0,
        address_timeout: Micros(0),
        data_timeout: Micros(0),
        ..settings()
    }
}

#[test]
fn without_retries_no_start_is_sent() {
    let mut all = BusList::new(settings());
    all.blocking_write(0x50, &[1])
        .blocking_read(0x50, 3)
        .blocking_write_read(0x50, &[1], 2)
        .blocking_write_read(0x50, &[], 1)
        .blocking_write_read(0x50, &[1], 0)
        .blocking_transaction(0x50, [Read(0), Write(vec![1]), Write(vec![2]), Read(2)]);
    for call in all.calls() {
        let mut list = BusList::new(settings());
        list.add(call.clone());
        assert_eq!(warnings(&list), []);
        assert!(starts(&run_on(&list, &[READY; 100])) > 0, "{list}");

        let mut list = BusList::new(Settings {
            start_retries: 0,
            ..settings()
        });
        list.add(call.clone());
        let ran = run_on(&list, &[READY; 100]);
        // The engine goes on as if a START had been sent, and all ends well.
        assert_eq!((ran.answer(), starts(&ran)), (0, 0), "{list}");
        let expected = format!(
            "byte 44: start retries are 0, so call 0 ({}) sends no START and goes on as if it had. \
             Set start retries to 1 or more.",
            call.kind()
        );
        assert_eq!(texts(&list), [expected]);
    }
}

/// Readings with which each wait of the list's run is over at the first look, but for one, which is
/// over at the second. In the meantime the cycle counter stands still.
fn late(list: &BusList, wait: usize) -> Vec<u32> {
    let mut readings = vec![READY; 100];
    let ran = run_on(list, &readings);
    let reads: Vec<u32> = accesses(ran.written().0)
        .map(|access| access.code)
        .filter(|&code| code <= READ_CYC)
        .collect();
    // A timed wait reads the cycle counter, and then looks.
    let (place, look) = (1..)
        .zip(reads.windows(2))
        .filter(|(_, pair)| pair[0] == READ_CYC)
        .map(|(place, pair)| (place, pair[1]))
        .nth(wait)
        .expect("so many waits");
    readings[place] = if look == READ_CR1 { READY | STOP } else { 0 };
    readings
}

/// Whether each of the four waits of a blocking write of one byte, for SB, ADDR, BTF and STOP, times
/// out if it is over at the second look only.
fn times_out(list: &BusList) -> [bool; 4] {
    [0, 1, 2, 3].map(|wait| match run_on(list, &late(list, wait)).answer() {
        0 => false,
        5 => true,
        other => panic!("wait {wait} ends in {other}"),
    })
}

#[test]
fn a_limit_of_0_cycles_waits_for_nothing() {
    type Change = fn(&mut Settings);
    let cases: [(Change, &[usize], [bool; 4]); 6] = [
        (|_| (), &[], [false; 4]),
        (|s| s.sysclk = Hertz(1_000_000), &[], [false; 4]),
        (|s| s.sysclk = Hertz(999_999), &[28], [true; 4]),
        (
            |s| s.start_timeout = Micros(0),
            &[40],
            [true, false, false, false],
        ),
        (
            |s| s.address_timeout = Micros(0),
            &[48],
            [false, true, false, false],
        ),
        (
            |s| s.data_timeout = Micros(0),
            &[52],
            [false, false, true, true],
        ),
    ];
    for (change, at, out) in cases {
        // With one retry, so that no second try follows.
        let mut settings = Settings {
            start_retries: 1,
            ..settings()
        };
        change(&mut settings);
        let mut list = BusList::new(settings);
        list.blocking_write(0x50, &[1]);
        assert_eq!(places(&list), at);
        assert_eq!(times_out(&list), out, "{list}");
    }
}

#[test]
fn each_warning_says_what_is_so_and_what_to_do() {
    let mut list = BusList::new(Settings {
        start_retries: 1,
        ..zeros()
    });
    list.blocking_read(0x50, 1).read(0x50, 0);
    assert_eq!(
        texts(&list),
        [
            "byte 28: sysclk is 0 Hz, less than 1 MHz, so every timeout comes to 0 cycles, and \
             call 0 (blocking read) times out unless every wait is over at the first look. \
             Set sysclk to the clock of the cycle counter, in hertz.",
            "byte 40: start timeout is 0 µs, so each START of call 0 (blocking read) times out \
             unless SB is set at the first look. \
             Set it to the longest time that such a wait may take, in microseconds.",
            "byte 48: address timeout is 0 µs, so call 0 (blocking read) times out unless ADDR is \
             set at the first look. \
             Set it to the longest time that such a wait may take, in microseconds.",
            "byte 52: data timeout is 0 µs, so call 0 (blocking read) times out unless every later \
             wait is over at the first look. \
             Set it to the longest time that such a wait may take, in microseconds.",
            "byte 90: call 1 (polling read) ends in a read of length 0, so the run stops there \
             with Overrun (1). Read at least one byte there, or take the read out.",
        ]
    );
}

#[test]
fn the_first_blocking_call_with_accesses_is_named() {
    let mut list = BusList::new(zeros());
    list.write(0x50, &[1])
        .blocking_write_read(0x50, &[], 0)
        .blocking_transaction(0x50, [])
        .blocking_transaction(0x50, [Write(vec![]), Read(0)])
        .blocking_transaction(0x50, [Read(0), Read(1)])
        .blocking_write(0x50, &[1]);
    // With no retries the start timeout plays no part.
    assert_eq!(places(&list), [28, 44, 48, 52]);
    for warning in warnings(&list) {
        assert!(
            warning.what.contains("call 4 (blocking transaction)"),
            "{warning}"
        );
    }
}

#[test]
fn zeros_do_no_harm_without_blocking_accesses() {
    let full = settings();
    let mut polling = BusList::new(PollingSettings {
        pclk1: full.pclk1,
        mode: full.mode,
        frequency: full.frequency,
    });
    polling
        .write(0x50, &[])
        .write(0x50, &[1])
        .read(0x50, 1)
        .write_read(0x50, &[], 2)
        .transaction(0x50, []);
    assert_eq!(warnings(&polling), []);
    assert_eq!(run_on(&polling, &[READY; 200]).answer(), 0);

    let mut idle = BusList::new(zeros());
    idle.blocking_write_read(0x50, &[], 0)
        .blocking_transaction(0x50, [])
        .blocking_transaction(0x50, [Read(0), Write(vec![]), Read(0)]);
    assert_eq!(warnings(&idle), []);
    let bring_up = run_on(&BusList::new(zeros()), &[READY; 10]);
    assert_eq!(
        run_on(&idle, &[READY; 10]).written(),
        bring_up.written(),
        "an idle call makes no access"
    );

    assert_eq!(warnings(&every_kind()), []);
}

#[test]
fn a_polling_call_that_ends_in_an_empty_read_answers_overrun() {
    // One call each, so that its operations stand from byte 72 on.
    let warned = |operations: Vec<_>| {
        let mut list = BusList::new(settings());
        list.transaction(0x50, operations);
        assert_eq!(
            run_on(&list, &[READY; 100]).answer(),
            u32::from(!places(&list).is_empty())
        );
        places(&list)
    };
    assert_eq!(warned(vec![Read(0)]), [74]);
    assert_eq!(warned(vec![Write(vec![1]), Read(0)]), [82]);
    assert_eq!(warned(vec![Read(2), Read(0)]), [82]);
    assert_eq!(warned(vec![Read(0), Read(2)]), []);
    assert_eq!(warned(vec![Read(0), Write(vec![])]), []);
    assert_eq!(warned(vec![]), []);

    let mut list = BusList::new(settings());
    list.read(0x50, 0);
    assert_eq!(places(&list), [74]);
    assert_eq!(run_on(&list, &[READY; 100]).answer(), 1);

    let mut list = BusList::new(settings());
    list.blocking_write_read(0x50, &[1], 0)
        .blocking_transaction(0x50, [Write(vec![1]), Read(0)])
        .write_read(0x50, &[1], 0);
    assert_eq!(places(&list), [64 + 3 * 8 + 5 * 8 + 2]);
    let ran = run_on(&list, &[READY; 100]);
    assert_eq!((ran.answer(), ran.counts().calls), (1, 2));
}

/// The first byte of a ten-bit address is 11110 in binary, its two high bits, and the direction.
#[test]
fn a_seven_bit_address_that_is_a_header() {
    for address in 0..128 {
        let mut list = BusList::new(settings());
        list.write(address, &[1]);
        let first = run_on(&list, &[READY; 100]).sent()[0];
        let warned = if first & 0xf8 == 0xf0 {
            vec![66]
        } else {
            vec![]
        };
        assert_eq!(places(&list), warned, "{list}");
    }

    let mut list = BusList::new(settings());
    list.blocking_read(0x7b, 1)
        .transaction(0x78, [])
        .blocking_write_read(0x79, &[], 0)
        .write(Address::Ten(0x78), &[1])
        .transaction(0x78, [Read(0)]);
    assert_eq!(
        texts(&list),
        [
            "byte 66: call 0 (blocking read) goes to the seven-bit address 123, but on the bus that \
             is the header of the ten-bit addresses 768 to 1023. \
             For a device with a ten-bit address give that address, with a width of 10, to a polling \
             call.",
            "byte 98: call 4 (polling transaction) goes to the seven-bit address 120, but on the bus \
             that is the header of the ten-bit addresses 0 to 255. \
             For a device with a ten-bit address give that address, with a width of 10, to a polling \
             call.",
            "byte 138: call 4 (polling transaction) ends in a read of length 0, so the run stops \
             there with Overrun (1). Read at least one byte there, or take the read out.",
        ]
    );
}
