//! What several tests share. Each test file uses a part of it.
#![allow(dead_code)]

use vandhukril::{
    ACCESS_WORDS, Address, BusList, Cause, Counts, Error, Hertz, ListSettings, Micros, Mode,
    Operation, Refusal, Settings, accesses, explain, run, show,
};

/// What both buffers are full of before a run, to see what the run leaves as it was.
pub const OLD_BYTE: u8 = 0xa5;
pub const OLD_WORD: u32 = 0xa5a5_a5a5;

/// A reading with every flag that a run waits for, and none that ends or holds up a call.
pub const READY: u32 = 0xcf;

/// A run, with both buffers after it.
#[derive(Clone, Debug, PartialEq, Eq)]
pub struct Ran {
    pub end: Result<Counts, Error>,
    pub received: Box<[u8]>,
    pub record: Box<[u32]>,
}

impl Ran {
    pub fn counts(&self) -> Counts {
        match &self.end {
            Ok(counts) => *counts,
            Err(error) => error.counts,
        }
    }

    pub fn answer(&self) -> u32 {
        vandhukril::answer(&self.end)
    }

    /// The words of the accesses made, and the received bytes.
    pub fn written(&self) -> (&[u32], &[u8]) {
        let counts = self.counts();
        (
            &self.record[..ACCESS_WORDS * counts.accesses],
            &self.received[..counts.received],
        )
    }

    /// What the run writes to DR: address bytes, and bytes of data.
    pub fn sent(&self) -> Vec<u32> {
        accesses(self.written().0)
            .filter(|access| access.code == 16)
            .map(|access| access.value)
            .collect()
    }

    /// Holds the run to what follows from its record alone: the counts, the received bytes, the values
    /// read, and that all else in both buffers is as it was.
    pub fn check(&self, readings: &[u32]) {
        let counts = self.counts();
        let (record, received) = self.written();
        let mut used = readings.iter();
        let mut bytes = received.iter();
        for pair in record.chunks_exact(ACCESS_WORDS) {
            if (1..=5).contains(&pair[0]) {
                let reading = *used.next().expect("a reading for every read");
                let value = if pair[0] == 5 {
                    reading
                } else {
                    reading & 0xffff
                };
                assert_eq!(pair[1], value, "the value recorded is the reading");
            } else {
                assert!((11..=16).contains(&pair[0]), "code {}", pair[0]);
            }
            if pair[0] == 4 {
                assert_eq!(
                    bytes.next(),
                    Some(&(pair[1] as u8)),
                    "the byte received is DR's"
                );
            }
        }
        assert_eq!(bytes.next(), None, "as many bytes as reads of DR");
        assert_eq!(
            readings.len() - used.len(),
            counts.readings,
            "readings used are the reads"
        );
        assert!(
            self.record[record.len()..]
                .iter()
                .all(|&word| word == OLD_WORD)
        );
        assert!(
            self.received[received.len()..]
                .iter()
                .all(|&byte| byte == OLD_BYTE)
        );
        if self.answer() >= 20 {
            assert_eq!(counts, Counts::default());
        }
    }
}

/// Runs a list with buffers of just these lengths. Each has an allocation of its own, so that a tool
/// which watches memory sees an access one past its end.
pub fn run_with(
    list: &[u8],
    readings: &[u32],
    received_length: usize,
    record_length: usize,
) -> Ran {
    let list: Box<[u8]> = list.into();
    let readings: Box<[u32]> = readings.into();
    let mut received = vec![OLD_BYTE; received_length].into_boxed_slice();
    let mut record = vec![OLD_WORD; record_length].into_boxed_slice();
    let end = run(&list, &readings, &mut received, &mut record);
    let ran = Ran {
        end,
        received,
        record,
    };
    ran.check(&readings);
    ran
}

/// The refusal of a list, if it is refused. No record: an accepted list stops before its first access.
pub fn refusal(list: &[u8], received_length: usize) -> Option<Refusal> {
    match run_with(list, &[], received_length, 0).end {
        Err(Error {
            cause: Cause::Refused(refusal),
            ..
        }) => Some(refusal),
        Err(Error {
            cause: Cause::RecordFull,
            ..
        }) => None,
        other => panic!("neither refused nor stopped at its first access: {other:?}"),
    }
}

/// Settings with which every call does what it says.
pub fn settings() -> Settings {
    Settings {
        pclk1: Hertz(36_000_000),
        sysclk: Hertz(72_000_000),
        mode: Mode::Standard,
        frequency: Hertz(100_000),
        start_timeout: Micros(1000),
        start_retries: 2,
        address_timeout: Micros(1000),
        data_timeout: Micros(1000),
    }
}

/// A list with every kind of call and both widths of address, empty operations and idle calls among them.
pub fn every_kind() -> BusList {
    use vandhukril::Operation::{Read, Write};
    let mut list = BusList::new(settings());
    list.write(0x50, &[1, 2])
        .read(0x51, 2)
        .transaction(0x52, [])
        .write_read(0x53, &[3], 1)
        .transaction(
            0x54,
            [
                Write(vec![4]),
                Write(vec![]),
                Write(vec![5]),
                Read(1),
                Read(2),
            ],
        )
        .write(Address::Ten(0x155), &[16])
        .read(Address::Ten(0x256), 2)
        .transaction(Address::Ten(0x3ff), [])
        .write_read(Address::Ten(0), &[17], 1)
        .transaction(Address::Ten(0x78), [Read(1), Write(vec![18]), Read(1)])
        .blocking_write(0x55, &[6, 7, 8])
        .blocking_read(0x56, 1)
        .blocking_read(0x57, 2)
        .blocking_read(0x58, 5)
        .blocking_write_read(0x59, &[], 0)
        .blocking_write_read(0x5a, &[9], 3)
        .blocking_write_read(0x5b, &[], 1)
        .blocking_write_read(0x5c, &[10], 0)
        .blocking_transaction(0x5d, [])
        .blocking_transaction(0x5e, [Write(vec![]), Read(0)])
        .blocking_transaction(0x5f, [Read(0), Write(vec![11]), Write(vec![12, 13])])
        .blocking_transaction(0x60, [Read(2), Write(vec![]), Read(1)])
        .blocking_transaction(
            0x61,
            [Write(vec![14]), Read(0), Write(vec![15]), Read(1), Read(1)],
        );
    list
}

/// Holds a list to bytes written down by hand, there and back: the words of its header, then its rows and its data. Its
/// first call is shown in these words, and nothing in it is doubtful.
pub fn as_by_hand<S: ListSettings>(
    list: &BusList<S>,
    header: [u32; 16],
    rest: &[&[u8]],
    first_call: &str,
) {
    let words = header.into_iter().flat_map(u32::to_le_bytes);
    let bytes: Vec<u8> = words.chain(rest.concat()).collect();
    assert_eq!(list.to_bytes().as_ref(), Ok(&bytes));
    let read = BusList::from_bytes(&bytes).expect("it is of the form");
    assert_eq!(read.calls(), list.calls());
    assert_eq!(read.to_string(), list.to_string());
    assert!(show(&bytes).contains(&format!("\n64: call 0: {first_call}\n")));
    assert_eq!(explain(&bytes, list.received_length()), Ok(vec![]));
}

/// Every sequence of up to so many operations of 0 to 2 bytes. Each byte that is written tells its place.
pub fn short_sequences(longest: u8) -> Vec<Vec<Operation>> {
    use vandhukril::Operation::{Read, Write};
    let mut all = vec![Vec::new()];
    let mut shorter = all.clone();
    for place in 0..longest {
        let bytes = [2 * place + 1, 2 * place + 2];
        let next = (0..3_u8).flat_map(|n| [Write(bytes[..n.into()].to_vec()), Read(n.into())]);
        let next: Vec<Operation> = next.collect();
        let longer = shorter.iter().flat_map(|before| {
            next.iter()
                .map(|last| before.iter().chain([last]).cloned().collect())
        });
        shorter = longer.collect();
        all.extend(shorter.iter().cloned());
    }
    all
}

/// What goes out for operations that are done one after the other in one call: the address at the first one and at each
/// change of direction, and the bytes of the writes.
pub fn planned(address: Address, operations: &[Operation]) -> Vec<u32> {
    let mut sent = Vec::new();
    // Whether the operation before reads.
    let mut before = None;
    for operation in operations {
        let reads = matches!(operation, Operation::Read(_));
        if before != Some(reads) {
            match address {
                Address::Seven(address) => sent.push(2 * address + u16::from(reads)),
                Address::Ten(address) => {
                    let header = 0xf0 + 2 * (address >> 8);
                    // A read after a write has the header alone.
                    if before.is_none() || !reads {
                        sent.extend([header, address & 0xff]);
                    }
                    if reads {
                        sent.push(header + 1);
                    }
                }
            }
        }
        if let Operation::Write(bytes) = operation {
            sent.extend(bytes.iter().map(|&byte| u16::from(byte)));
        }
        before = Some(reads);
    }
    sent.into_iter().map(u32::from).collect()
}

/// Numbers that look drawn, the same on every run.
pub struct Draw(pub u32);

impl Draw {
    pub fn next(&mut self) -> u32 {
        // The low bits of such a generator turn fast; the high ones are used.
        self.0 = self.0.wrapping_mul(1_664_525).wrapping_add(1_013_904_223);
        self.0 >> 16
    }

    /// A number below `end`.
    pub fn below(&mut self, end: u32) -> u32 {
        self.next() % end
    }

    pub fn bytes(&mut self, length: u32) -> Vec<u8> {
        (0..length).map(|_| self.next() as u8).collect()
    }
}
