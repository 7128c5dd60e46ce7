//! The model of ten-bit calls: with seven-bit addresses it is the Rust, and the comparison notices a wrong prepare.

use buslist::{refusal, Call, List};
use cases::{generate, judge, run_list, sweep, Case};
use original::model::{cr1, sr1, Address, Data, Prepares, Step, Unknown};

/// The accepted cases of a seed that have such a call.
fn cases_with(wanted: fn(&Call) -> bool) -> impl Iterator<Item = Case> {
    (0..20_000)
        .map(|number| generate(1, number))
        .filter(move |case| has(case, wanted))
}

/// Whether a case is accepted, and has such a call.
fn has(case: &Case, wanted: fn(&Call) -> bool) -> bool {
    refusal(&case.list, case.rx) == 0 && List::accepted(&case.list).calls().any(|c| wanted(&c))
}

fn is_seven_bit_polling(call: &Call) -> bool {
    call.kind < 4 && !call.is_ten_bit()
}

/// Polling calls of both widths.
fn by_the_model(call: &Call) -> Option<Prepares> {
    if is_seven_bit_polling(call) {
        Some(Prepares::seven_bit(call.address))
    } else {
        original::ten_bit(call)
    }
}

/// What is not the address is the same for both widths, and this compares it with the Rust.
#[test]
fn seven_bit_calls_of_the_model_are_the_rusts() {
    let mut compared = 0;
    let swept = sweep().filter(|case| has(case, is_seven_bit_polling));
    for case in cases_with(is_seven_bit_polling).chain(swept) {
        compared += 1;
        assert_eq!(run_list(&by_the_model, &case, &case.list), judge(&case));
    }
    println!("compared: {compared} cases");
    assert!(compared > 10_000, "only {compared} cases");
}

/// Changes what a ten-bit prepare does.
type Change = fn(&mut Prepares);

const ADD10: Step = Step::Check(sr1::ADD10, Address);
const ADDR: Step = Step::Check(sr1::ADDR, Address);
const ADDR_OF_READ: Step = Step::CheckAndRead(sr1::ADDR, Address);
/// The second START of a first read, and the START of a read after a write.
const START_AND_ACK: Step = Step::Set(cr1::START | cr1::ACK);
const STARTED: Step = Step::ReadUntil(sr1::SB);

const WRONG: [(&str, Change); 23] = [
    ("ADDR waited for in place of ADD10", |p| {
        each(p, |steps| replace(steps, ADD10, &[ADDR]))
    }),
    ("ADD10 waited for in place of ADDR", |p| {
        each(p, |steps| replace(steps, ADDR, &[ADD10]))
    }),
    ("no wait for ADD10", |p| {
        each(p, |steps| replace(steps, ADD10, &[]))
    }),
    ("the low byte before the wait for ADD10", |p| {
        each(p, |steps| {
            if let Some(at) = steps.iter().position(|step| *step == ADD10) {
                steps.swap(at, at + 1);
            }
        })
    }),
    ("high bits one place off", |p| {
        headers(p, |header| 0xF0 | (header & 6) << 1 | header & 1)
    }),
    ("no high bits", |p| headers(p, |header| header & !6)),
    ("the header 0, as the Rust has it", |p| {
        alter_before(&mut p.write, ADD10, |_| 0)
    }),
    ("a header for a read that ends in 0", |p| {
        headers(p, |header| header & !1)
    }),
    ("a low byte of seven bits", |p| {
        each(p, |steps| alter_before(steps, ADDR, |byte| byte & 0x7F))
    }),
    ("the second START without ACK", |p| {
        let start = Step::Set(cr1::START);
        replace(&mut p.first_read, START_AND_ACK, &[start]);
    }),
    ("no second START", |p| {
        replace(&mut p.first_read, START_AND_ACK, &[]);
        replace(&mut p.first_read, STARTED, &[]);
    }),
    ("an SR1 write before the second START", |p| {
        let steps = [Step::ClearSr1, START_AND_ACK];
        replace(&mut p.first_read, START_AND_ACK, &steps);
    }),
    ("a wait for STOP before the second START", |p| {
        let steps = [Step::StopClear, START_AND_ACK];
        replace(&mut p.first_read, START_AND_ACK, &steps);
    }),
    ("a check for SB after the second START", |p| {
        let check = Step::Check(sr1::SB, Unknown);
        replace(&mut p.first_read, STARTED, &[check]);
    }),
    ("a wait for MSL or BUSY after the second START", |p| {
        replace(&mut p.first_read, STARTED, &[STARTED, Step::Master]);
    }),
    ("no SR2 read before the second START", |p| {
        replace(&mut p.first_read, ADDR, &[]);
        replace(&mut p.first_read, Step::ReadSr2, &[ADDR]);
    }),
    ("one SR1 read in the wait for ADDR of a read", |p| {
        each(p, |steps| replace(steps, ADDR_OF_READ, &[ADDR]))
    }),
    ("a first read without its write part", |p| {
        p.first_read = p.read_after_write.clone();
    }),
    ("a read after a write prepared as a first read", |p| {
        p.read_after_write = p.first_read.clone();
    }),
    ("Unknown for Address at ADD10", |p| {
        let unknown = Step::Check(sr1::ADD10, Unknown);
        each(p, |steps| replace(steps, ADD10, &[unknown]));
    }),
    ("Data for Address at ADDR of the write part", |p| {
        let data = Step::Check(sr1::ADDR, Data);
        each(p, |steps| replace(steps, ADDR, &[data]));
    }),
    ("Data for Address at ADDR of the read part", |p| {
        let data = Step::CheckAndRead(sr1::ADDR, Data);
        each(p, |steps| replace(steps, ADDR_OF_READ, &[data]));
    }),
    (
        "a second START in a read after a write, as the Rust has it",
        |p| {
            let steps = [Step::Master, Step::Set(cr1::START), STARTED];
            replace(&mut p.read_after_write, Step::Master, &steps);
        },
    ),
];

fn each(prepares: &mut Prepares, change: impl Fn(&mut Vec<Step>)) {
    change(&mut prepares.write);
    change(&mut prepares.first_read);
    change(&mut prepares.read_after_write);
}

/// These steps in place of each step of this kind.
fn replace(steps: &mut Vec<Step>, from: Step, to: &[Step]) {
    let altered = steps.iter().flat_map(|step| {
        if *step == from {
            to.to_vec()
        } else {
            vec![*step]
        }
    });
    *steps = altered.collect();
}

/// Alters both headers of each prepare.
fn headers(prepares: &mut Prepares, alter: fn(u16) -> u16) {
    each(prepares, |steps| {
        alter_before(steps, ADD10, alter);
        alter_before(steps, ADDR_OF_READ, alter);
    });
}

/// Alters the byte that is sent right before this wait.
fn alter_before(steps: &mut [Step], wait: Step, alter: fn(u16) -> u16) {
    for at in 1..steps.len() {
        if steps[at] == wait {
            if let Step::Send(byte) = &mut steps[at - 1] {
                *byte = alter(*byte);
            }
        }
    }
}

fn differs(case: &Case, change: Change) -> bool {
    let changed = |call: &Call| {
        let mut prepares = original::ten_bit(call)?;
        change(&mut prepares);
        Some(prepares)
    };
    run_list(&changed, case, &case.list) != judge(case)
}

#[test]
fn wrong_prepares_are_noticed() {
    let cases: Vec<Case> = cases_with(Call::is_ten_bit).collect();
    for (name, change) in WRONG {
        let differing = cases.iter().filter(|case| differs(case, change)).count();
        println!("{name}: {differing} of {} cases", cases.len());
        assert!(differing > 0, "{name}");
    }
}

/// A test that always fails would notice all of them too.
#[test]
fn the_right_prepares_change_nothing() {
    for case in cases_with(Call::is_ten_bit) {
        assert!(!differs(&case, |_| {}), "{case:?}");
    }
}
