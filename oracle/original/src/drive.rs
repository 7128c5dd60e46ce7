//! Runs a whole bus list on the original: the bring-up once, then the calls in order.

use buslist::{
    Call, List, Mode as ListedMode, Operation as Listed, PlannedCall, PlannedOperation, Settings,
};
use device::{Cut, Feed, Usage};
use embedded_hal::i2c::{I2c as Bus, Operation};

use crate::i2c::{BlockingI2c, DutyCycle, Error, I2c, Mode, NoAcknowledgeSource};
use crate::model::{self, Prepares};
use crate::pac::I2C1;
use crate::rcc::Rcc;
use crate::time::Hz;

/// What a run returns.
#[derive(Debug, Clone, Copy, PartialEq, Eq)]
pub struct Counts {
    pub answer: u32,
    /// Calls ended well.
    pub calls: usize,
    /// Readings used.
    pub used: usize,
    /// Accesses made.
    pub made: usize,
    /// Bytes received.
    pub received: usize,
}

/// The polling calls that the model does in place of the Rust, and how they address their device.
pub type Modelled<'a> = &'a dyn Fn(&Call) -> Option<Prepares>;

/// Ten-bit calls alone: of these the Rust cannot be the judge.
pub fn ten_bit(call: &Call) -> Option<Prepares> {
    call.is_ten_bit().then(|| Prepares::ten_bit(call.address))
}

/// Runs an accepted list on these readings: ten-bit calls by the model, all others by the Rust.
pub fn run(list: &List, readings: &[u32], rx: &mut [u8], record: &mut [u32]) -> Counts {
    run_with(&ten_bit, list, readings, rx, record)
}

/// The same, with other calls done by the model, or other prepares.
pub fn run_with(
    modelled: Modelled,
    list: &List,
    readings: &[u32],
    rx: &mut [u8],
    record: &mut [u32],
) -> Counts {
    let mut calls = 0;
    let (ended, usage) = device::run(readings, record, || perform(modelled, list, rx, &mut calls));
    counts(ended, calls, usage)
}

/// Runs an accepted list on readings that `feed` makes as they are asked for.
pub fn simulate(list: &List, feed: Box<Feed>, rx: &mut [u8], record: &mut [u32]) -> Counts {
    let mut calls = 0;
    let (ended, usage) = device::simulate(feed, record, || perform(&ten_bit, list, rx, &mut calls));
    counts(ended, calls, usage)
}

/// The words that the bring-up writes to CR2, TRISE and CCR; the frequency is 1 to 400,000.
pub fn speed_words(pclk1: u32, mode: ListedMode, frequency: u32) -> [u32; 3] {
    let mut record = [0; 10];
    let (ended, _) = device::run(&[0], &mut record, || {
        bring_up(mode, frequency, &mut Rcc::at(pclk1, 0));
    });
    ended.expect("a bring-up is five accesses, one of them a read");
    let [_, cr2, _, trise, _, ccr, ..] = record;
    [cr2, trise, ccr]
}

fn counts(ended: Result<Result<(), Error>, Cut>, calls: usize, usage: Usage) -> Counts {
    Counts {
        answer: match ended {
            Ok(Ok(())) => 0,
            Ok(Err(error)) => number(error),
            Err(Cut::Readings) => 9,
            Err(Cut::Record) => 10,
        },
        calls,
        used: usage.used,
        made: usage.made,
        received: usage.received,
    }
}

/// The number of an error among the ways in which a run can end.
fn number(error: Error) -> u32 {
    match error {
        Error::Overrun => 1,
        Error::NoAcknowledge(NoAcknowledgeSource::Address) => 2,
        Error::NoAcknowledge(NoAcknowledgeSource::Data) => 3,
        Error::NoAcknowledge(NoAcknowledgeSource::Unknown) => 4,
        Error::Timeout => 5,
        Error::Bus => 6,
        Error::Crc => 7,
        Error::ArbitrationLoss => 8,
    }
}

fn bring_up(mode: ListedMode, frequency: u32, rcc: &mut Rcc) -> I2c<I2C1> {
    let frequency = Hz(frequency);
    let mode = match mode {
        ListedMode::Standard => Mode::standard(frequency),
        ListedMode::Fast2To1 => Mode::fast(frequency, DutyCycle::Ratio2to1),
        ListedMode::Fast16To9 => Mode::fast(frequency, DutyCycle::Ratio16to9),
    };
    I2c::<I2C1>::new::<0>(I2C1, ((), ()), mode, rcc)
}

/// The blocking driver takes the polling one and never gives it back, and both hold settings alone. So
/// it is a second one over the same device, whose own bring-up goes unseen: a run has one.
fn blocking(settings: &Settings, rcc: &mut Rcc) -> BlockingI2c<I2C1> {
    device::aside(|| bring_up(settings.mode, settings.frequency, rcc)).blocking(
        settings.start_timeout,
        settings.start_retries,
        settings.address_timeout,
        settings.data_timeout,
        &rcc.clocks,
    )
}

/// The two drivers of a run, over one device.
struct Drivers {
    settings: Settings,
    rcc: Rcc,
    polling: I2c<I2C1>,
    /// Made for the first call that needs it.
    blocking: Option<BlockingI2c<I2C1>>,
}

impl Drivers {
    /// With the run's bring-up.
    fn new(settings: Settings) -> Drivers {
        let mut rcc = Rcc::at(settings.pclk1, settings.sysclk);
        Drivers {
            polling: bring_up(settings.mode, settings.frequency, &mut rcc),
            settings,
            rcc,
            blocking: None,
        }
    }

    fn call(
        &mut self,
        kind: u8,
        address: u8,
        operations: &mut [Operation<'_>],
    ) -> Result<(), Error> {
        if kind < 4 {
            return polling_call(&mut self.polling, kind, address, operations);
        }
        let blocking = self
            .blocking
            .get_or_insert_with(|| blocking(&self.settings, &mut self.rcc));
        blocking_call(blocking, kind, address, operations)
    }
}

fn perform(
    modelled: Modelled,
    list: &List,
    rx: &mut [u8],
    ended_well: &mut usize,
) -> Result<(), Error> {
    let mut drivers = Drivers::new(list.settings());
    let mut operations = Vec::new();
    let mut rx = rx;
    for call in list.calls() {
        let address = call.address as u8;
        if call.kind == 7 {
            // The Rust has `todo!()` for blocking transactions: it is given the plain call on joined operations.
            if let Some(plain) = PlannedCall::of(list, &call).plain() {
                let listed = plain.operations.iter().map(PlannedOperation::listed);
                let mut operations: Vec<_> = listed.map(|listed| lend(listed, &mut rx)).collect();
                drivers.call(plain.kind, address, &mut operations)?;
            }
        } else {
            operations.clear();
            operations.extend(list.operations(&call).map(|listed| lend(listed, &mut rx)));
            match modelled(&call) {
                Some(prepares) => model::call(&prepares, call.kind, &mut operations)?,
                None => drivers.call(call.kind, address, &mut operations)?,
            }
        }
        *ended_well += 1;
    }
    Ok(())
}

/// An operation for the Rust; a read takes its bytes off the received buffer.
fn lend<'o, 'r: 'o>(listed: Listed<'o>, rx: &mut &'r mut [u8]) -> Operation<'o> {
    match listed {
        Listed::Write(bytes) => Operation::Write(bytes),
        Listed::Read(length) => {
            let (buffer, rest) = std::mem::take(rx).split_at_mut(length);
            *rx = rest;
            Operation::Read(buffer)
        }
    }
}

fn polling_call(
    i2c: &mut I2c<I2C1>,
    kind: u8,
    address: u8,
    operations: &mut [Operation<'_>],
) -> Result<(), Error> {
    match (kind, &mut *operations) {
        (0, [Operation::Write(bytes)]) => i2c.write(address, bytes),
        (1, [Operation::Read(buffer)]) => i2c.read(address, buffer),
        (2, [Operation::Write(bytes), Operation::Read(buffer)]) => {
            i2c.write_read(address, bytes, buffer)
        }
        (3, _) => Bus::transaction(i2c, address, operations),
        _ => panic!("not the operations of polling kind {kind}"),
    }
}

fn blocking_call(
    i2c: &mut BlockingI2c<I2C1>,
    kind: u8,
    address: u8,
    operations: &mut [Operation<'_>],
) -> Result<(), Error> {
    match (kind, operations) {
        (4, [Operation::Write(bytes)]) => i2c.write(address, bytes),
        (5, [Operation::Read(buffer)]) => i2c.read(address, buffer),
        (6, [Operation::Write(bytes), Operation::Read(buffer)]) => {
            i2c.write_read(address, bytes, buffer)
        }
        _ => panic!("not the operations of blocking kind {kind}"),
    }
}

#[cfg(test)]
mod tests {
    use super::*;
    use buslist::Plan;

    fn list(settings: Settings, kind: u8, operation: PlannedOperation) -> Vec<u8> {
        list_of(settings, kind, vec![operation])
    }

    fn list_of(settings: Settings, kind: u8, operations: Vec<PlannedOperation>) -> Vec<u8> {
        let call = PlannedCall {
            kind,
            width: 7,
            address: 0x50,
            operations,
        };
        Plan {
            settings,
            calls: vec![call],
        }
        .bytes()
    }

    fn answer(list: &[u8], readings: &[u32]) -> (u32, usize) {
        let counts = run(&List::accepted(list), readings, &mut [0; 8], &mut [0; 200]);
        (counts.answer, counts.used)
    }

    /// Document 01's example, P1, access for access.
    #[test]
    fn the_example() {
        let bytes = list(Settings::example(), 0, PlannedOperation::Write(vec![0x2A]));
        let readings = [0, 1, 1, 1, 1, 3, 2, 7, 0x80, 0x84, 1, 1];
        let mut record = [9; 44];
        let counts = run(&List::accepted(&bytes), &readings, &mut [], &mut record);
        let expected = [
            12, 0x24, 14, 0x25, 13, 0xB4, 3, 0, 11, 1, 3, 1, 15, 0, 3, 1, 11, 0x101, 1, 1, 1, 1, 2,
            3, 16, 0xA0, 1, 2, 2, 7, 1, 0x80, 16, 0x2A, 1, 0x84, 3, 1, 11, 0x201, 3, 1, 9, 9,
        ];
        assert_eq!(record, expected);
        let expected = Counts {
            answer: 0,
            calls: 1,
            used: 12,
            made: 21,
            received: 0,
        };
        assert_eq!(counts, expected);
    }

    /// P2 to P5.
    #[test]
    fn speeds() {
        assert_eq!(
            speed_words(36_000_000, ListedMode::Fast2To1, 400_000)[1..],
            [11, 0x801E]
        );
        assert_eq!(
            speed_words(36_000_000, ListedMode::Fast16To9, 400_000)[2],
            0xC003
        );
        assert_eq!(speed_words(2_000_000, ListedMode::Standard, 400_000)[2], 4);
        assert_eq!(
            speed_words(64_000_000, ListedMode::Standard, 100_000)[..2],
            [0, 1]
        );
    }

    /// P8: the wait begins at 4,294,967,290, and now it is 4.
    #[test]
    fn timeouts_wrap() {
        let mut settings = Settings::example();
        settings.sysclk = 1_000_000;
        settings.address_timeout = 10;
        let readings = [0, 0, 4_294_967_290, 0, 4, 0];
        let ten = list(settings, 4, PlannedOperation::Write(vec![1]));
        assert_eq!(answer(&ten, &readings), (5, 5));
        settings.address_timeout = 11;
        let eleven = list(settings, 4, PlannedOperation::Write(vec![1]));
        assert_eq!(answer(&eleven, &readings), (9, 6));
    }

    /// P9: SR1 0C00 hex.
    #[test]
    fn both_flags() {
        let polling = list(Settings::example(), 0, PlannedOperation::Write(vec![1]));
        assert_eq!(answer(&polling, &[0, 0, 0, 0xC00]), (1, 4));
        assert_eq!(cleared(0, 0xC00), 0xD700);
        let blocking = list(Settings::example(), 4, PlannedOperation::Write(vec![1]));
        assert_eq!(answer(&blocking, &[0, 0, 0, 0xC00, 0]), (2, 5));
        assert_eq!(cleared(4, 0xC00), 0xDB00);
    }

    /// The last SR1 write of a run of one write of this kind, whose first check or poll reads this word. Then the readings
    /// end.
    fn cleared(kind: u8, word: u32) -> u32 {
        let bytes = list(Settings::example(), kind, PlannedOperation::Write(vec![1]));
        let mut record = [0; 200];
        let readings = [0, 0, 0, word];
        let counts = run(&List::accepted(&bytes), &readings, &mut [], &mut record);
        let last = device::ENTRY_WORDS * (counts.made - 1);
        assert_eq!(record[last], 15);
        record[last + 1]
    }

    /// C-15, by the Rust: the word that clears each flag keeps the others.
    #[test]
    fn each_flag_is_cleared_alone() {
        for (flag, word) in [
            (0x100, 0xDE00),
            (0x200, 0xDD00),
            (0x400, 0xDB00),
            (0x800, 0xD700),
        ] {
            assert_eq!(cleared(0, flag), word);
            assert_eq!(cleared(4, flag), word);
        }
        assert_eq!(cleared(0, 0x1000), 0xCF00);
        assert_eq!(cleared(0, 0x4000), 0x9F00);
    }

    /// A blocking transaction, access for access as document 01 has write_read: two bytes written, two received.
    #[test]
    fn a_blocking_transaction() {
        // Start: SR1 0, START, timed SB. Then the address, timed ADDR.
        let start = |address| {
            [
                15, 0, 3, 1, 11, 0x101, 5, 0, 1, 0xC7, 1, 0xC7, 16, address, 5, 0, 1, 0xC7,
            ]
        };
        // The first byte; timed TXE and the second; timed BTF, and no closing.
        let written = [
            1, 0xC7, 2, 3, 16, 0x1A, 5, 0, 1, 0xC7, 16, 0x2B, 5, 0, 1, 0xC7,
        ];
        // The arm of two bytes: POS and ACK, ACK off, timed BTF, STOP, both bytes.
        let received = [
            3, 1, 11, 0xC01, 1, 0xC7, 2, 3, 3, 1, 11, 1, 5, 0, 1, 0xC7, 3, 1, 11, 0x201, 4, 0x55,
            4, 0x66,
        ];
        // Timed wait for STOP; POS and ACK off, ACK on.
        let closed = [5, 0, 3, 1, 3, 1, 11, 1, 3, 1, 11, 0x401];
        let expected = [&start(0xA0)[..], &written, &start(0xA1), &received, &closed].concat();
        let mut settings = Settings::example();
        settings.start_retries = 1;
        let (read, write) = (PlannedOperation::Read, PlannedOperation::Write);
        let [one, two, empty] = [&[0x1A][..], &[0x2B], &[]].map(|bytes| write(bytes.to_vec()));
        let operations = vec![one, read(0), two, read(1), empty, read(1)];
        let bytes = list_of(settings, 7, operations);
        let taken = expected.chunks(2).filter(|access| access[0] <= 5);
        let taken: Vec<u32> = taken.map(|access| access[1]).collect();
        // The bring-up reads CR1.
        let readings = [&[1], &taken[..]].concat();
        let (mut rx, mut record) = ([0; 2], [0; 200]);
        let counts = run(&List::accepted(&bytes), &readings, &mut rx, &mut record);
        assert_eq!(
            (counts.answer, counts.calls, counts.used),
            (0, 1, readings.len())
        );
        assert_eq!(record[10..2 * counts.made], expected);
        assert_eq!((counts.received, rx), (2, [0x55, 0x66]));
    }

    /// With nothing left after the empty ones: the bring-up alone, and the call has ended well.
    #[test]
    fn an_idle_blocking_transaction() {
        let empty = vec![PlannedOperation::Write(vec![]), PlannedOperation::Read(0)];
        for operations in [vec![], empty] {
            let bytes = list_of(Settings::example(), 7, operations);
            let counts = run(&List::accepted(&bytes), &[0], &mut [], &mut [0; 10]);
            let expected = Counts {
                answer: 0,
                calls: 1,
                used: 1,
                made: 5,
                received: 0,
            };
            assert_eq!(counts, expected);
        }
    }
}
