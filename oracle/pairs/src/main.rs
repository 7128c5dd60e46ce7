//! Demand 3 searched over the original Rust, and over the model of ten-bit calls: pairs of lists with one settings and no
//! idle call.
//!
//! `pairs [PAIRS] [SEED]`: 100,000 of each kind of pair, of seed 1, unless told otherwise.
//!
//! Like pairs have equal reduced calls, and run on equal readings and lengths: all they leave must be equal.
//! Near misses have reduced calls that differ in one thing, and the second runs on the readings of the first's
//! record: they must not both answer 0 with equal records.

mod near;
mod reduce;
mod rewrite;
mod tally;

use std::process::ExitCode;

use buslist::{List, Plan, PlannedOperation};
use cases::{accepted, judge, plan, simulated, write_case, Case, Ran, Rng, Style};

use near::Class;
use reduce::{idle, is_blocking, reduced};
use tally::{Likes, Nears};

fn main() -> ExitCode {
    let mut numbers = std::env::args().skip(1).map(|word| {
        word.parse::<u64>()
            .unwrap_or_else(|_| panic!("{word} is not a number: pairs [PAIRS] [SEED]"))
    });
    let pairs = numbers.next().unwrap_or(100_000);
    let seed = numbers.next().unwrap_or(1);
    if like_pairs(pairs, seed) && near_misses(pairs, seed) {
        ExitCode::SUCCESS
    } else {
        ExitCode::FAILURE
    }
}

/// A plan that demand 3 is about, for both directions: no idle call, no polling call ending in an empty read.
fn comparable(rng: &mut Rng) -> Plan {
    let mut plan = plan(rng);
    plan.calls.retain(|call| {
        let empty_end = matches!(call.operations.last(), Some(PlannedOperation::Read(0)));
        !idle(call) && (is_blocking(call) || !empty_end)
    });
    plan
}

fn like_pairs(pairs: u64, seed: u64) -> bool {
    let mut likes = Likes::default();
    for number in 0..pairs {
        let rng = &mut Rng::of(seed, number);
        let one = comparable(rng);
        let other = rewrite::alike(rng, &one);
        assert!(
            reduced(&one) == reduced(&other),
            "a rewrite keeps the reduced calls"
        );
        let rx = one.read_together();
        let first = accepted(rng, one.bytes(), rx);
        let second = Case {
            list: other.bytes(),
            ..first.clone()
        };
        let ran = judge(&first);
        if ran != judge(&second) {
            println!("pair {number} of seed {seed}: equal reduced calls, unlike runs");
            return keep(&first, &second);
        }
        likes.count(&one, &other, ran.answer());
    }
    println!("{likes}");
    enough(&likes.shortfalls())
}

fn near_misses(pairs: u64, seed: u64) -> bool {
    let mut nears = Nears::default();
    let found = (0..).filter_map(|number| Some((number, near_miss(seed, number)?)));
    for (number, near) in found.take(pairs as usize) {
        let again = judge(&near.second);
        if again.answer() == 0 && again.made() == near.ran.made() {
            println!("near miss {number} of seed {seed}: unlike reduced calls, equal records");
            return keep(&near.first, &near.second);
        }
        nears.count(near.miss, near.class, &near.ran, &again);
    }
    println!("{nears}");
    enough(&nears.shortfalls())
}

struct NearMiss {
    /// What differs, and the class of the call where it does.
    miss: usize,
    class: Class,
    first: Case,
    /// The first's run, which answers 0.
    ran: Ran,
    /// The other list, on the readings of the first.
    second: Case,
}

/// The near miss of this number under this seed, where it comes to one.
fn near_miss(seed: u64, number: u64) -> Option<NearMiss> {
    let rng = &mut Rng::of(!seed, number);
    let one = comparable(rng);
    let miss = rng.below(near::MISSES.len());
    let place = rng.below(one.calls.len());
    let class = Class::of(one.calls.get(place)?);
    let other = near::miss(rng, &one, miss, place)?;
    if other.calls.iter().any(idle) || reduced(&one) == reduced(&other) {
        return None;
    }
    let (first, ran) = ending_well(rng, &one)?;
    let second = Case {
        list: other.bytes(),
        rx: other.read_together(),
        ..first.clone()
    };
    Some(NearMiss {
        miss,
        class,
        first,
        ran,
        second,
    })
}

/// Says what there was too little of.
fn enough(shortfalls: &[String]) -> bool {
    for line in shortfalls {
        println!("too few: {line}");
    }
    shortfalls.is_empty()
}

/// A case of a plan that answers 0, with just the readings that it uses.
fn ending_well(rng: &mut Rng, plan: &Plan) -> Option<(Case, Ran)> {
    let style = Style {
        ready: rng.pick(&[100, 90]),
        errors: 0,
        start_errors: 0,
        jumps: 0,
        spare_bits: false,
        apart: false,
    };
    let list = plan.bytes();
    let rx = plan.read_together();
    let (readings, record) = simulated(rng, &List::accepted(&list), style, rx);
    let case = Case {
        list,
        readings,
        rx,
        record: record.len() + 200,
    };
    let ran = judge(&case);
    (ran.answer() == 0).then_some((case, ran))
}

fn keep(first: &Case, second: &Case) -> bool {
    for (name, case) in [("first", first), ("second", second)] {
        let folder = std::path::Path::new("target/differing").join(name);
        match write_case(&folder, case) {
            Ok(()) => println!("written: {}", folder.display()),
            Err(error) => println!("{} cannot be written: {error}", folder.display()),
        }
    }
    false
}
