//! Stores a sample of the oracle's answers, for a program to replay where there is no cargo and no Rust source.
//!
//! `vectors FILE [SEED]`: seed 1 unless told otherwise. The form of the file is in oracle/README.md.

use std::collections::BTreeMap;
use std::process::ExitCode;

use buslist::List;
use cases::{ended_in, generate, judge, longest_met, wait_met, why_out, Case, Ran};

/// Cases of this seed that are looked at.
const LOOKED_AT: u64 = 200_000;
/// The longest case that is kept, in words of the file.
const LONGEST: usize = 600;
/// The longest buffers that the program `replay` has: bytes received, words of the record.
const ROOM: usize = 4_096;
const WORDS: usize = 2_048;
/// Cases kept of each ending: of a call of one kind and width, of a run that ends well, with ten-bit calls or without,
/// of a refusal, and of a call or a refusal with an operation near the limit.
const OF_A_CALL: usize = 4;
const WELL: usize = 40;
const OF_A_REFUSAL: usize = 8;
const OF_A_LENGTH: usize = 1;

fn main() -> ExitCode {
    let mut words = std::env::args().skip(1);
    let Some(file) = words.next() else {
        println!("vectors FILE [SEED]");
        return ExitCode::FAILURE;
    };
    let seed = words
        .next()
        .map_or(1, |word| word.parse().expect("the seed is a number"));

    let mut kept: BTreeMap<(u32, String), usize> = BTreeMap::new();
    let mut stored = Vec::new();
    for number in 0..LOOKED_AT {
        let case = generate(seed, number);
        let ran = judge(&case);
        let vector = vector(&case, &ran);
        if vector.len() > LONGEST || case.rx > ROOM || case.record > WORDS {
            continue;
        }
        let (ending, most) = kept_for(&case, &ran);
        let count = kept.entry((ran.answer(), ending)).or_default();
        if *count < most {
            *count += 1;
            stored.extend(vector);
        }
    }

    for ((answer, ending), count) in &kept {
        println!("answer {answer}{ending}: {count}");
    }
    let bytes: Vec<u8> = stored.iter().flat_map(|word| word.to_le_bytes()).collect();
    let cases: usize = kept.values().sum();
    if let Err(error) = std::fs::write(&file, &bytes) {
        println!("{file} cannot be written: {error}");
        return ExitCode::FAILURE;
    }
    println!("{cases} cases, {} bytes", bytes.len());
    ExitCode::SUCCESS
}

/// What a case is kept for, and how many are: the longest operation that is met, or else where its run ended.
fn kept_for(case: &Case, ran: &Ran) -> (String, usize) {
    if let Some(long) = longest_met(case, ran) {
        return (format!(" with a {long}"), OF_A_LENGTH);
    }
    let most = match ran.answer() {
        0 => WELL,
        1..=10 => OF_A_CALL,
        _ => OF_A_REFUSAL,
    };
    (place(case, ran), most)
}

/// Where a run ended, for the choice of cases: in which call, or what a list has or lacks.
fn place(case: &Case, ran: &Ran) -> String {
    let list = List::accepted(&case.list);
    match ran.answer() {
        0 if list.calls().any(|call| call.is_ten_bit()) => " with ten-bit calls".into(),
        1..=10 => match ended_in(case, ran) {
            Some(call) => {
                let wait = wait_met(ran).filter(|_| call.is_ten_bit() && ran.answer() == 2);
                let at = wait.map_or(String::new(), |wait| format!(" at {wait}"));
                format!(" in a {}-bit call of kind {}{at}", call.width, call.kind)
            }
            None => " in the bring-up".into(),
        },
        24 => format!(", {}", why_out(&case.list).expect("a call is out")),
        _ => String::new(),
    }
}

/// A case and what it must come to, in words.
fn vector(case: &Case, ran: &Ran) -> Vec<u32> {
    let [answer, calls, used, made, received] = ran.counts.map(|count| count as u32);
    let mut vector = vec![
        case.list.len() as u32,
        case.readings.len() as u32,
        case.rx as u32,
        case.record as u32,
        answer,
        calls,
        used,
        made,
        received,
    ];
    vector.extend(packed(&case.list));
    vector.extend(&case.readings);
    vector.extend(ran.made());
    vector.extend(packed(&ran.rx[..received as usize]));
    vector
}

/// Bytes four to a word, low byte first, the last word filled up with zeros.
fn packed(bytes: &[u8]) -> impl Iterator<Item = u32> + '_ {
    bytes.chunks(4).map(|four| {
        let high_to_low = four.iter().rev();
        high_to_low.fold(0, |word, &byte| word << 8 | u32::from(byte))
    })
}
