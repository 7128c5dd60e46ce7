//! What the original Rust does where the engine does something else, each by its smallest input.
//!
//! These are the intended differences. Document 01 gives most of them a cause from 22 on; document 02 gives ten-bit
//! polling calls and blocking transactions a meaning.

use buslist::{refusal, List, Mode, Plan, PlannedCall, PlannedOperation, Settings};
use device::{code, ENTRY_WORDS};
use embedded_hal::i2c::I2c as Bus;
use original::i2c::{Error, I2c};
use original::pac::I2C1;
use original::rcc::Rcc;

/// A reading that ends every wait.
const READY: u32 = 0xCF;

fn plan(kind: u8, address: u16, operation: PlannedOperation) -> Plan {
    Plan {
        settings: Settings::example(),
        calls: vec![PlannedCall {
            kind,
            width: 7,
            address,
            operations: vec![operation],
        }],
    }
}

/// The record of a plan with this cause, on readings that end every wait at once.
fn record_of(plan: Plan, cause: u32) -> Vec<u32> {
    let list = plan.bytes();
    assert_eq!(refusal(&list, 16), cause);
    let mut record = vec![0; 200];
    let counts = original::run(
        &List::accepted(&list),
        &[READY; 100],
        &mut [0; 16],
        &mut record,
    );
    record.truncate(ENTRY_WORDS * counts.made);
    record
}

/// The Rust's own driver, brought up.
fn polling_driver() -> (I2c<I2C1>, Rcc) {
    let mut rcc = Rcc::at(36_000_000, 72_000_000);
    let mode = original::i2c::Mode::standard(original::time::Hz(100_000));
    let i2c = I2c::<I2C1>::new::<0>(I2C1, ((), ()), mode, &mut rcc);
    (i2c, rcc)
}

fn written(record: &[u32], code: u32) -> Vec<u32> {
    let entries = record.chunks_exact(ENTRY_WORDS);
    entries
        .filter(|entry| entry[0] == code)
        .map(|entry| entry[1])
        .collect()
}

#[test]
#[should_panic(expected = "divide by zero")]
fn frequency_0_panics() {
    original::speed_words(36_000_000, Mode::Standard, 0);
}

#[test]
#[should_panic(expected = "mode.get_frequency() <= kHz(400)")]
fn frequency_above_400_khz_panics() {
    original::speed_words(36_000_000, Mode::Fast2To1, 400_001);
}

#[test]
#[should_panic(expected = "index out of bounds")]
fn blocking_write_of_0_panics() {
    record_of(plan(4, 0x50, PlannedOperation::Write(vec![])), 25);
}

/// Where overflow is checked the length less three panics, else the split at the wrapped length.
#[test]
#[should_panic]
fn blocking_read_of_0_panics() {
    record_of(plan(5, 0x50, PlannedOperation::Read(0)), 25);
}

/// Polling writes nine bits to DR, blocking loses the ninth.
#[test]
fn addresses_above_127() {
    let polling = record_of(plan(0, 128, PlannedOperation::Write(vec![])), 24);
    assert_eq!(written(&polling, code::WRITE_DR), [0x100]);
    let blocking = record_of(plan(4, 128, PlannedOperation::Write(vec![1])), 24);
    assert_eq!(written(&blocking, code::WRITE_DR), [0, 1]);
}

/// What the Rust's own ten-bit call to 100 hexadecimal records after the bring-up, with every wait over at its first
/// poll.
fn ten_bit_call(
    call: impl FnOnce(&mut dyn Bus<u16, Error = Error>) -> Result<(), Error>,
) -> Vec<u32> {
    let mut record = vec![0; 100];
    let (ended, usage) = device::run(&[READY; 100], &mut record, || call(&mut polling_driver().0));
    assert_eq!(ended, Ok(Ok(())));
    record.truncate(ENTRY_WORDS * usage.made);
    record.split_off(ENTRY_WORDS * 5)
}

/// A ten-bit write has the header 0 in place of F2, and the low byte at once: no wait for ADD10.
#[test]
fn ten_bit_writes() {
    let start = [
        3, READY, 15, 0, 3, READY, 11, 0x1CF, 1, READY, 1, READY, 2, READY,
    ];
    let addressed = [16, 0, 16, 0, 1, READY, 2, READY];
    let stop = [3, READY, 11, 0x2CF, 3, READY];
    let record = ten_bit_call(|i2c| i2c.write(0x100, &[]));
    assert_eq!(record, [&start[..], &addressed, &stop].concat());
}

/// The start of a ten-bit read in the Rust: `prepare_read` up to MSL or BUSY, where the first read of a call is to
/// begin as a write does.
const START_READ: [u32; 12] = [3, READY, 15, 0, 3, READY, 11, 0x5CF, 1, READY, 2, READY];
/// A second START, which leaves ACK as it was read; SB, the header of a read, ADDR, SR2.
const SECOND_START: [u32; 14] = [
    3, READY, 11, 0x1CF, 1, READY, 16, 0xF3, 1, READY, 1, READY, 2, READY,
];
/// A last byte received.
const LAST_BYTE: [u32; 12] = [3, READY, 11, 0x2CF, 1, READY, 1, READY, 4, READY, 3, READY];

/// A first read has the right header and the low byte at once: no wait for ADD10, none for ADDR and no SR2 read before
/// the second START.
#[test]
fn ten_bit_first_reads() {
    let record = ten_bit_call(|i2c| i2c.read(0x100, &mut [0]));
    let both_bytes = [16, 0xF2, 16, 0];
    let expected = [&START_READ[..], &both_bytes, &SECOND_START, &LAST_BYTE];
    assert_eq!(record, expected.concat());
}

/// A read after a write has a second START right after its first.
#[test]
fn ten_bit_reads_after_writes() {
    let record = ten_bit_call(|i2c| i2c.write_read(0x100, &[], &mut [0]));
    let expected = [&START_READ[..], &SECOND_START, &LAST_BYTE].concat();
    assert!(record.ends_with(&expected));
    // Before that, a write as above, without its STOP.
    assert_eq!(record.len(), 22 + expected.len());
    assert_eq!(written(&record, code::WRITE_DR), [0, 0, 0xF3]);
}

/// One microsecond more than fits: the product panics where overflow is checked, else it wraps, and the wait for
/// ADDR has 32 cycles for the 4,294,967,328 asked for.
#[test]
#[cfg_attr(
    debug_assertions,
    should_panic(expected = "attempt to multiply with overflow")
)]
fn timeouts_overflow() {
    let mut late = plan(4, 0x50, PlannedOperation::Write(vec![1]));
    late.settings.sysclk = 72_000_000;
    late.settings.address_timeout = 59_652_324;
    let list = late.bytes();
    assert_eq!(refusal(&list, 0), 23);
    // CR1 of the bring-up; SR1; the wait: its start, a poll that is not ready, and 32 cycles later.
    let readings = [0, 0, 0, 0, 32];
    let counts = original::run(&List::accepted(&list), &readings, &mut [], &mut [0; 100]);
    assert_eq!((counts.answer, counts.used), (5, 5));
}

/// What kind 7 would be to the Rust: not even a transaction without operations is done.
#[test]
#[should_panic(expected = "not yet implemented")]
fn blocking_transactions_panic() {
    let mut record = [0; 100];
    let _ = device::run(&[READY; 100], &mut record, || {
        let (i2c, rcc) = polling_driver();
        let mut blocking = i2c.blocking(0, 0, 0, 0, &rcc.clocks);
        blocking.transaction_slice(0x50, &mut [])
    });
}
