//! Lists made, written, read and made again; and bytes that are no list.

mod common;

use common::{Draw, READY, every_kind, refusal, run_with};
use vandhukril::{
    Address, BusList, Hertz, Micros, Mode, Operation, Refusal, Settings, explain, show,
};

fn drawn_settings(draw: &mut Draw) -> Settings {
    // Now and then one that the engine refuses.
    let timeout = |draw: &mut Draw| Micros(draw.next() * [1, 1, 1000][draw.below(3) as usize]);
    Settings {
        pclk1: Hertz(draw.below(72) * 1_000_000 + draw.next()),
        sysclk: Hertz(draw.below(100) * 1_000_000 + draw.next()),
        mode: Mode::ALL[draw.below(3) as usize],
        frequency: Hertz(draw.below(41) * 10_000),
        start_timeout: timeout(draw),
        start_retries: draw.next() as u8,
        address_timeout: timeout(draw),
        data_timeout: timeout(draw),
    }
}

fn drawn_address(draw: &mut Draw) -> Address {
    match draw.below(40) {
        0 => Address::Ten(draw.next() as u16),
        1 => Address::Seven(draw.next() as u16),
        2..6 => Address::Ten(draw.below(1024) as u16),
        _ => Address::Seven(draw.below(128) as u16),
    }
}

fn drawn_bytes(draw: &mut Draw) -> Vec<u8> {
    let length = draw.below(6);
    draw.bytes(length)
}

fn drawn_operation(draw: &mut Draw) -> Operation {
    match draw.below(2) {
        0 => Operation::Write(drawn_bytes(draw)),
        _ => Operation::Read(draw.below(6) as u16),
    }
}

fn drawn_operations(draw: &mut Draw) -> Vec<Operation> {
    (0..draw.below(5)).map(|_| drawn_operation(draw)).collect()
}

fn drawn_list(draw: &mut Draw) -> BusList {
    let mut list = BusList::new(drawn_settings(draw));
    for _ in 0..draw.below(7) {
        let address = drawn_address(draw);
        let bytes = drawn_bytes(draw);
        let length = draw.below(6) as u16;
        match draw.below(8) {
            0 => list.write(address, &bytes),
            1 => list.read(address, length),
            2 => list.write_read(address, &bytes, length),
            3 => list.transaction(address, drawn_operations(draw)),
            4 => list.blocking_write(address, &bytes),
            5 => list.blocking_read(address, length),
            6 => list.blocking_write_read(address, &bytes, length),
            _ => list.blocking_transaction(address, drawn_operations(draw)),
        };
    }
    list
}

/// Holds everything that looks at bytes to the engine's own answer about them. It answers that.
fn look(bytes: &[u8], received_length: usize) -> Option<Refusal> {
    let explained = explain(bytes, received_length);
    let refused = refusal(bytes, received_length);
    let text = show(bytes);
    match explained {
        Ok(warnings) => {
            assert_eq!(refused, None, "{text}");
            assert!(warnings.is_sorted_by_key(|warning| warning.at), "{text}");
            assert!(warnings.iter().all(|warning| warning.at < bytes.len()));
        }
        Err(fault) => {
            assert_eq!(refused, Some(fault.refusal), "{text}");
            // A place in the list, or its end.
            assert!(fault.at <= bytes.len());
        }
    }
    assert_eq!(
        text.matches(" <- ").count(),
        usize::from(refused == Some(Refusal::Form)),
        "{text}"
    );

    match BusList::from_bytes(bytes) {
        // A list of the form is all in its settings and calls: written again it is the same.
        Ok(list) => assert_eq!(list.to_bytes().as_deref(), Ok(bytes)),
        Err(fault) => assert_eq!(fault.refusal, Refusal::Form),
    }
    assert_eq!(
        BusList::from_bytes(bytes).is_err(),
        refused == Some(Refusal::Form)
    );
    refused
}

#[test]
fn drawn_lists_go_round() {
    let mut draw = Draw(7);
    let mut accepted = 0;
    let mut refused = 0;
    let mut after_read = 0;
    for _ in 0..2000 {
        let list = drawn_list(&mut draw);
        let bytes = list.to_bytes().expect("it fits");
        assert_eq!(BusList::from_bytes(&bytes).as_ref(), Ok(&list));
        match look(&bytes, list.received_length()) {
            None => {
                accepted += 1;
                // With every flag set, a run stops at an empty read that is warned of and nowhere else.
                let warnings = explain(&bytes, list.received_length()).expect("it is accepted");
                let operations = 64 + 8 * list.calls().len();
                let in_operations = warnings.iter().any(|warning| warning.at >= operations);
                let ran = run_with(&bytes, &[READY; 1000], list.received_length(), 4000);
                assert_eq!(ran.answer(), u32::from(in_operations), "{list}");
            }
            Some(refusal) => {
                assert!(!matches!(refusal, Refusal::Form | Refusal::ReceivedBuffer));
                refused += 1;
                after_read += usize::from(refusal == Refusal::WriteAfterRead);
            }
        }
    }
    assert!(
        accepted > 500 && refused > 500 && after_read > 20,
        "{accepted} accepted, {refused} refused, {after_read} for a write after a read"
    );
}

#[test]
fn a_list_with_any_byte_changed() {
    let list = every_kind();
    let bytes = list.to_bytes().expect("it fits");
    assert_eq!(look(&bytes, list.received_length()), None);
    for at in 0..bytes.len() {
        for change in [1, 2, 4, 8, 16, 32, 64, 128, 255] {
            let mut changed = bytes.clone();
            changed[at] ^= change;
            look(&changed, list.received_length());
        }
    }
}

#[test]
fn drawn_lists_with_drawn_changes() {
    let mut draw = Draw(11);
    for _ in 0..3000 {
        let list = drawn_list(&mut draw);
        let mut bytes = list.to_bytes().expect("it fits");
        for _ in 0..1 + draw.below(3) {
            let at = draw.below(bytes.len() as u32) as usize;
            bytes[at] = [0, 1, 2, 7, 10, 64, 255, draw.next() as u8][draw.below(8) as usize];
        }
        look(&bytes, list.received_length());
    }
}

#[test]
fn lists_cut_and_lengthened() {
    let bytes = every_kind().to_bytes().expect("it fits");
    for length in 0..bytes.len() {
        assert_eq!(look(&bytes[..length], 100), Some(Refusal::Form));
    }
    let mut longer = bytes.clone();
    longer.push(0);
    assert_eq!(look(&longer, 100), Some(Refusal::Form));
    let fault = explain(&longer, 100).unwrap_err();
    assert_eq!(fault.at, bytes.len());
}

#[test]
fn bytes_that_are_no_list() {
    let mut draw = Draw(13);
    for length in 0..300 {
        for _ in 0..4 {
            look(&draw.bytes(length), 100);
        }
        look(&vec![0; length as usize], 100);
        look(&vec![0xff; length as usize], 100);
    }
}

/// Counts near the largest that a field holds, in lists that are as short as a header allows.
#[test]
fn wild_counts() {
    let header = BusList::new(common::settings())
        .to_bytes()
        .expect("it fits");
    let wild = [
        1,
        0x1fff_fff7,
        0x1fff_fff8,
        0x2000_0000,
        0x7fff_ffff,
        0x8000_0000,
        0xffff_fff8,
        u32::MAX,
    ];
    for calls in wild {
        for operations in wild {
            for data in wild {
                let mut bytes = header.clone();
                let operation_offset = 64 + 8 * u64::from(calls);
                let data_offset = operation_offset + 8 * u64::from(operations);
                // Cut to 32 bits, as a writer that does not look would.
                let fields = [
                    calls,
                    64,
                    operations,
                    operation_offset as u32,
                    data,
                    data_offset as u32,
                ];
                for (at, field) in (0..).step_by(4).zip(fields) {
                    bytes[at..at + 4].copy_from_slice(&field.to_le_bytes());
                }
                assert_eq!(look(&bytes, 100), Some(Refusal::Form));
            }
        }
    }
}
