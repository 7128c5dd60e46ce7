//! Runs with buffers of every size from 0 up: the counts, the beginning that is written, and the rest that is not.

mod common;

use std::thread;

use common::{OLD_BYTE, OLD_WORD, READY, Ran, every_kind, run_with, settings};
use vandhukril::{
    ACCESS_WORDS, Address, BusList, ErrorFlag, Hertz, Micros, Mode, Settings, accesses, run,
};

/// More than the list of every kind needs.
const READINGS: usize = 500;
const WORDS: usize = 1500;

/// A list with readings to run it on.
struct Case {
    name: &'static str,
    list: BusList,
    readings: Vec<u32>,
    /// The answer where nothing is too short.
    answer: u32,
}

fn cases() -> Vec<Case> {
    let mut example = BusList::new(settings());
    example.write(0x50, &[0x2a]);

    let mut not_acknowledged = BusList::new(settings());
    not_acknowledged
        .write(0x50, &[1])
        .read(0x50, 3)
        .write(0x50, &[2]);
    let mut no_data = vec![READY; 60];
    // SR1, where the second byte of the read is waited for: AF.
    no_data[22] = READY | 0x400;

    let mut no_header = BusList::new(settings());
    no_header
        .write(0x50, &[1])
        .read(Address::Ten(0x123), 3)
        .write(0x50, &[2]);
    let mut no_ten_bit_device = vec![READY; 60];
    // SR1, where ADD10 is waited for: AF.
    no_ten_bit_device[17] = READY | 0x400;

    let mut empty_read = BusList::new(settings());
    empty_read
        .write(0x50, &[1])
        .write_read(0x50, &[2], 0)
        .read(0x50, 1);

    // SB never comes; the cycle counter passes the limit of 10 cycles in each try.
    let mut timeout = BusList::new(Settings {
        sysclk: Hertz(1_000_000),
        start_timeout: Micros(10),
        start_retries: 3,
        ..settings()
    });
    timeout.blocking_read(0x50, 1);
    let mut late = vec![0];
    for _ in 0..3 {
        // CR1; CYC, SR1, CYC, SR1, CYC; CR1 in the bring-up after it
        late.extend([1, u32::MAX, 0, 4, 0, 9, 0]);
    }

    let mut too_few = every_kind();
    too_few.read(0x50, 4);
    let case = |name, list, readings, answer| Case {
        name,
        list,
        readings,
        answer,
    };
    vec![
        case(
            "example",
            example,
            vec![0, 1, 1, 1, 1, 3, 2, 7, 0x80, 0x84, 1, 1],
            0,
        ),
        case("no calls", BusList::new(settings()), vec![0x1234_5678], 0),
        case("every kind", every_kind(), vec![READY; READINGS], 0),
        case(
            "every kind, Fast",
            fast(every_kind()),
            vec![0xffff_0000 | READY; READINGS],
            0,
        ),
        case("not acknowledged", not_acknowledged, no_data, 3),
        case("no header", no_header, no_ten_bit_device, 2),
        case("empty read", empty_read, vec![READY; 100], 1),
        case("timeout", timeout, late, 5),
        case("too few readings", too_few, vec![READY; 140], 9),
    ]
}

/// The same calls in Fast mode.
fn fast(list: BusList) -> BusList {
    let mut fast = BusList::new(Settings {
        mode: Mode::Fast16To9,
        frequency: Hertz(400_000),
        ..*list.settings()
    });
    for call in list.calls() {
        fast.add(call.clone());
    }
    fast
}

/// A case run with more of everything than it needs, and what its calls need.
struct Whole {
    bytes: Vec<u8>,
    received_length: usize,
    ran: Ran,
    /// For each call that ended well, the accesses made up to its end.
    ends: Vec<usize>,
}

fn whole(case: &Case) -> Whole {
    let bytes = case.list.to_bytes().expect("it fits");
    let received_length = case.list.received_length();
    let ran = run_with(&bytes, &case.readings, received_length, 2000);
    assert_eq!(ran.answer(), case.answer, "{}", case.name);

    // The list with its first calls only ends where the last of them ends.
    let mut first_calls = BusList::new(*case.list.settings());
    let ends = case.list.calls()[..ran.counts().calls].iter().map(|call| {
        let bytes = first_calls.add(call.clone()).to_bytes().expect("it fits");
        let ran = run_with(&bytes, &case.readings, first_calls.received_length(), 2000);
        assert_eq!(ran.answer(), 0, "{}", case.name);
        ran.counts().accesses
    });
    let ends = ends.collect();
    Whole {
        bytes,
        received_length,
        ran,
        ends,
    }
}

impl Whole {
    /// The answer and the accesses made with so many readings and record words.
    fn expected(&self, readings: usize, words: usize) -> (u32, usize) {
        let mut used = 0;
        let (record, _) = self.ran.written();
        for (made, pair) in record.chunks_exact(ACCESS_WORDS).enumerate() {
            let reads = pair[0] <= 5;
            if words < ACCESS_WORDS * (made + 1) {
                return (10, made);
            }
            if reads && used == readings {
                return (9, made);
            }
            used += usize::from(reads);
        }
        let made = record.len() / ACCESS_WORDS;
        // A whole run that lacked a reading wanted one access more, and the record is tested first.
        if self.ran.answer() == 9 && words < ACCESS_WORDS * (made + 1) {
            return (10, made);
        }
        (self.ran.answer(), made)
    }

    /// Runs with these lengths, and holds the run to a beginning of the whole one.
    fn try_lengths(&self, readings: &[u32], received_length: usize, words: usize) {
        let ran = run_with(&self.bytes, readings, received_length, words);
        if received_length < self.received_length {
            assert_eq!(ran.answer(), 26);
            return;
        }
        let (answer, made) = self.expected(readings.len(), words);
        assert_eq!((ran.answer(), ran.counts().accesses), (answer, made));
        let ended = self.ends.iter().filter(|&&end| end <= made).count();
        assert_eq!(ran.counts().calls, ended);
        let (record, received) = ran.written();
        let (whole_record, whole_received) = self.ran.written();
        assert!(whole_record.starts_with(record));
        assert!(whole_received.starts_with(received));
    }
}

#[test]
fn every_length_of_the_record() {
    for case in cases() {
        let whole = whole(&case);
        for words in 0..ACCESS_WORDS * whole.ran.counts().accesses + 5 {
            whole.try_lengths(&case.readings, whole.received_length, words);
        }
    }
}

#[test]
fn every_length_of_the_received_buffer() {
    for case in cases() {
        let whole = whole(&case);
        for received_length in 0..whole.received_length + 5 {
            whole.try_lengths(&case.readings, received_length, 2000);
        }
    }
}

#[test]
fn every_number_of_readings() {
    for case in cases() {
        let whole = whole(&case);
        for readings in 0..=case.readings.len().min(whole.ran.counts().readings + 3) {
            whole.try_lengths(&case.readings[..readings], whole.received_length, 2000);
        }
    }
}

#[test]
fn every_length_of_both_buffers() {
    for case in cases() {
        let whole = whole(&case);
        let most = (ACCESS_WORDS * whole.ran.counts().accesses + 3).min(60);
        for received_length in 0..whole.received_length + 3 {
            for words in 0..most {
                whole.try_lengths(&case.readings, received_length, words);
            }
        }
    }
}

#[test]
fn every_length_of_the_list() {
    for case in cases() {
        let whole = whole(&case);
        for length in 0..whole.bytes.len() {
            let ran = run_with(
                &whole.bytes[..length],
                &case.readings,
                whole.received_length,
                2000,
            );
            assert_eq!(ran.answer(), 20, "{} cut to {length}", case.name);
        }
    }
}

#[test]
fn slices_from_the_middle_of_larger_buffers() {
    let list = every_kind();
    let bytes = list.to_bytes().expect("it fits");
    let needed = list.received_length();
    let apart = run_with(&bytes, &[READY; READINGS], needed, WORDS);
    let (record, received) = apart.written();
    // Bytes may start at any place; nothing outside the slices may change.
    for shift in 0..16 {
        let shifted: Vec<u8> = vec![0xff; shift].into_iter().chain(bytes.clone()).collect();
        let mut bytes_around = [OLD_BYTE; 100];
        let mut words_around = [OLD_WORD; WORDS];
        let end = run(
            &shifted[shift..],
            &[READY; READINGS],
            &mut bytes_around[shift..shift + needed],
            &mut words_around[shift..shift + record.len()],
        );
        assert_eq!(end, apart.end);
        let mut expected_bytes = [OLD_BYTE; 100];
        expected_bytes[shift..shift + needed].copy_from_slice(received);
        let mut expected_words = [OLD_WORD; WORDS];
        expected_words[shift..shift + record.len()].copy_from_slice(record);
        assert_eq!(bytes_around, expected_bytes);
        assert_eq!(words_around, expected_words);
    }
}

/// The list and the readings are only read, so runs at the same time may share them.
#[test]
fn many_threads_at_once() {
    let list = every_kind();
    let bytes = list.to_bytes().expect("it fits");
    let readings = [READY; READINGS];
    let alone = run_with(&bytes, &readings, list.received_length(), WORDS);
    thread::scope(|scope| {
        for _ in 0..4 {
            scope.spawn(|| {
                for _ in 0..50 {
                    assert_eq!(
                        run_with(&bytes, &readings, list.received_length(), WORDS),
                        alone
                    );
                }
            });
        }
    });
}

#[test]
fn an_error_flag_at_every_reading() {
    let list = every_kind();
    let bytes = list.to_bytes().expect("it fits");
    let received_length = list.received_length();
    let well = run_with(&bytes, &[READY; READINGS], received_length, WORDS);
    assert_eq!(well.answer(), 0);
    let mut seen = [0; 11];
    for place in 0..well.counts().readings {
        for flag in ErrorFlag::ALL {
            let mut readings = [READY; READINGS];
            readings[place] |= flag.bit();
            let ran = run_with(&bytes, &readings, received_length, WORDS);
            seen[ran.answer() as usize] += 1;
            // Up to that reading the run is the one without the flag.
            let (record, _) = ran.written();
            let (well_record, _) = well.written();
            let same = record
                .iter()
                .zip(well_record)
                .take_while(|(a, b)| a == b)
                .count();
            let reads = well_record[..same]
                .chunks_exact(ACCESS_WORDS)
                .filter(|pair| pair[0] <= 5);
            assert!(reads.count() >= place, "reading {place}, flag {flag:?}");
            // SR1 is written 0 before START, or to clear this flag.
            for written in accesses(record).filter(|access| access.code == 15) {
                let cleared = written.cleared();
                assert!(written.value == 0 || cleared == Some(flag), "{written}");
            }
        }
    }
    // ARLO, OVR, the three sources of AF, TIMEOUT, BERR and PECERR each end a run; 0 where a flag plays no part.
    assert!(seen[..9].iter().all(|&runs| runs > 0), "{seen:?}");
}
