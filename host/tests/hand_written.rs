//! The repository's hand-written cases (`crates/refusals/stdin`, `crates/runs/stdin`), through the static library.
//!
//! The formats are told at the top of the programs that run the same files, `crates/cases`, `crates/refusals` and
//! `crates/runs`.

mod common;

use std::fs;
use std::path::Path;

use common::{refusal, run_with};
use vandhukril::{Access, ErrorFlag, accesses, explain};

#[derive(Default)]
struct Case {
    /// The name, and the numbers beside it.
    name: String,
    head: Vec<usize>,
    list: Vec<u8>,
    readings: Vec<u32>,
    accesses: Vec<u32>,
    received: Vec<u8>,
    counts: Vec<u64>,
}

fn number(word: &str) -> Option<u64> {
    match word.strip_prefix("0x") {
        Some(digits) => u64::from_str_radix(digits, 16).ok(),
        None => word.parse().ok(),
    }
}

fn put(case: &mut Case, letter: &str, n: u64) {
    match letter {
        "b" => case.list.push(n as u8),
        "h" => case.list.extend((n as u16).to_le_bytes()),
        "w" => case.list.extend((n as u32).to_le_bytes()),
        "x" => {
            let row = case.list[case.list.len() - 8..].to_vec();
            (0..n).for_each(|_| case.list.extend(&row));
        }
        "z" => case.list.extend(vec![0; n as usize]),
        "r" => case.readings.push(n as u32),
        "a" => case.accesses.push(n as u32),
        "g" => case.received.push(n as u8),
        "c" => case.counts.push(n),
        _ => panic!("{}: no letter {letter}", case.name),
    }
}

/// The cases of a program, whose `=` lines have so many numbers beside the name.
fn cases(program: &str, numbers: usize) -> Vec<Case> {
    let path = Path::new(env!("CARGO_MANIFEST_DIR"))
        .join("../crates")
        .join(program)
        .join("stdin");
    let text = fs::read_to_string(&path).expect("the hand-written cases");
    let mut words = text.lines().flat_map(|line| {
        line.split('#')
            .next()
            .unwrap_or_default()
            .split_whitespace()
    });
    let mut all = Vec::new();
    let mut case = Case::default();
    let mut letter = "";
    while let Some(word) = words.next() {
        if word == "=" {
            case.name = words.next().expect("a name").to_string();
            case.head = (0..numbers)
                .map(|_| words.next().and_then(number).expect("a number") as usize)
                .collect();
        } else if word == "!" {
            all.push(std::mem::take(&mut case));
        } else if let Some(n) = number(word) {
            put(&mut case, letter, n);
        } else {
            letter = word;
        }
    }
    all
}

#[test]
fn every_hand_written_refusal() {
    let all = cases("refusals", 2);
    assert!(all.len() >= 250, "{} cases", all.len());
    for case in all {
        let [cause, room] = case.head[..] else {
            panic!("{}: two numbers beside the name", case.name);
        };
        let refused = refusal(&case.list, room);
        let number = refused.map_or(0, |refusal| refusal.number() as usize);
        assert_eq!(number, cause, "{}", case.name);
        let explained = explain(&case.list, room).err().map(|fault| fault.refusal);
        assert_eq!(explained, refused, "{}", case.name);
    }
}

#[test]
fn every_hand_written_run() {
    let all = cases("runs", 2);
    assert!(all.len() >= 80, "{} cases", all.len());
    for case in all {
        let [room, words] = case.head[..] else {
            panic!("{}: two numbers beside the name", case.name);
        };
        let ran = run_with(&case.list, &case.readings, room, words);
        let counts = ran.counts();
        let numbers = [
            counts.calls,
            counts.readings,
            counts.accesses,
            counts.received,
        ];
        assert_eq!(u64::from(ran.answer()), case.counts[0], "{}", case.name);
        assert_eq!(numbers.map(|n| n as u64), case.counts[1..], "{}", case.name);
        assert_eq!(
            ran.written(),
            (&case.accesses[..], &case.received[..]),
            "{}",
            case.name
        );
    }
}

/// Each of the six words is there, and clears a flag that the SR1 read right before it shows. Any other SR1 write is 0.
#[test]
fn every_clear_of_the_hand_written_runs() {
    let mut cleared = Vec::new();
    for case in cases("runs", 2) {
        let all: Vec<Access> = accesses(&case.accesses).collect();
        for pair in all.windows(2).filter(|pair| pair[1].code == 15) {
            let [before, written] = [pair[0], pair[1]];
            let Some(flag) = written.cleared() else {
                assert_eq!(written.value, 0, "{}", case.name);
                continue;
            };
            assert_eq!(before.code, 1, "{}", case.name);
            assert_ne!(before.value & flag.bit(), 0, "{}", case.name);
            cleared.push(flag);
        }
    }
    for flag in ErrorFlag::ALL {
        assert!(cleared.contains(&flag), "{flag:?} is never cleared");
    }
}
