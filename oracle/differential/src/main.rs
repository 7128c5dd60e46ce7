//! Compares the proved engine with the original Rust, its ten-bit calls with the model, its refusals with the
//! independent reader, and its speeds under a ceiling with a plain search.
//!
//! `differential [CASES] [SEED]`: 100,000 cases of seed 1 unless told otherwise.

mod ceiling;
mod speed;

use std::path::Path;
use std::process::ExitCode;
use std::time::Instant;

use cases::{generate, judge, shrink, sweep, write_case, Case, Ran, Tally};

/// Where a case that differs goes, below the folder that this is run in.
const DIFFERING: &str = "target/differing";

fn main() -> ExitCode {
    let mut numbers = std::env::args().skip(1).map(|word| {
        word.parse::<u64>()
            .unwrap_or_else(|_| panic!("{word} is not a number: differential [CASES] [SEED]"))
    });
    let cases = numbers.next().unwrap_or(100_000);
    let seed = numbers.next().unwrap_or(1);
    let started = Instant::now();

    let mut wrong = match compare_speeds() {
        Ok(shortfalls) => shortfalls,
        Err(difference) => {
            println!("{difference}");
            return ExitCode::FAILURE;
        }
    };

    let mut tally = Tally::default();
    for number in 0..cases {
        let case = generate(seed, number);
        if !agrees(&case, &mut tally) {
            return report(&format!("case {number} of seed {seed}"), &case);
        }
    }
    println!("seed {seed}: no difference\n{tally}");

    let mut swept = Tally::default();
    for (number, case) in sweep().enumerate() {
        if !agrees(&case, &mut swept) {
            return report(&format!("case {number} of the sweep"), &case);
        }
    }
    println!("sweep, every place of short runs: no difference\n{swept}");
    println!("{:.1} seconds", started.elapsed().as_secs_f64());

    wrong.extend(swept.impossible());
    wrong.extend(tally.impossible());
    wrong.extend(tally.shortfalls());
    for line in &wrong {
        println!("{line}");
    }
    if wrong.is_empty() {
        ExitCode::SUCCESS
    } else {
        ExitCode::FAILURE
    }
}

/// What the speeds under a ceiling had too few of, or the first difference: of them, or of the speed words.
fn compare_speeds() -> Result<Vec<String>, String> {
    let words_differ = |difference| format!("speed words differ: {difference}");
    let settings = speed::compare().map_err(words_differ)?;
    let words = speed::compare_table().map_err(words_differ)?;
    println!("speed words: {settings} settings, and {words} words of the table, no difference");
    let tally = ceiling::compare()
        .map_err(|difference| format!("speeds under a ceiling differ: {difference}"))?;
    println!("speeds under a ceiling: {tally}");
    Ok(tally.shortfalls())
}

fn run_engine(case: &Case) -> Ran {
    let mut ran = Ran::before(case);
    ran.counts = engine::run(&case.list, &case.readings, &mut ran.rx, &mut ran.record);
    ran
}

fn agrees(case: &Case, tally: &mut Tally) -> bool {
    let expected = judge(case);
    tally.count(case, &expected);
    run_engine(case) == expected
}

fn report(which: &str, case: &Case) -> ExitCode {
    println!("{which} differs");
    let small = shrink(case, |case| run_engine(case) != judge(case));
    let (expected, found) = (judge(&small), run_engine(&small));
    println!(
        "shrunk: {} bytes of list, {} readings, received buffer {}, record {} words",
        small.list.len(),
        small.readings.len(),
        small.rx,
        small.record
    );
    println!("expected {:?}", expected.counts);
    println!("engine   {:?}", found.counts);
    println!("answer, calls ended well, readings used, accesses made, bytes received");
    let at = expected
        .record
        .iter()
        .zip(&found.record)
        .position(|(a, b)| a != b);
    if let Some(at) = at {
        println!(
            "record word {at}: expected {:x}, engine {:x}",
            expected.record[at], found.record[at]
        );
    }
    let at = expected.rx.iter().zip(&found.rx).position(|(a, b)| a != b);
    if let Some(at) = at {
        println!(
            "received byte {at}: expected {:x}, engine {:x}",
            expected.rx[at], found.rx[at]
        );
    }
    match write_case(Path::new(DIFFERING), &small) {
        Ok(()) => println!("written: {DIFFERING}/list.bin and readings.bin"),
        Err(error) => println!("{DIFFERING} cannot be written: {error}"),
    }
    ExitCode::FAILURE
}
