//! The comparison notices a wrong joining: each of these, in place of document 02's, changes what some generated case
//! comes to. Document 02's own changes none.

use buslist::PlannedOperation::{self, Read, Write};
use buslist::{combined, limit, plain_kind, refusal, List, Plan, PlannedCall};
use cases::{generate, judge, run_list, Case, Ran};

type Joining = fn(&[PlannedOperation]) -> Vec<PlannedOperation>;

const WRONG: [(&str, Joining); 8] = [
    ("the first part for all of a joined operation", |all| {
        let mut full: Vec<_> = all.iter().filter(|one| !one.is_empty()).cloned().collect();
        full.dedup_by_key(|one| matches!(one, Read(_)));
        full
    }),
    ("what follows an empty operation left out", |all| {
        let full = all.iter().take_while(|one| !one.is_empty());
        combined(&full.cloned().collect::<Vec<_>>())
    }),
    ("the parts of a write in reverse order", |all| {
        let (reads, mut writes): (Vec<_>, Vec<_>) =
            all.iter().cloned().partition(|one| matches!(one, Read(_)));
        writes.reverse();
        combined(&[writes, reads].concat())
    }),
    ("no read after a write", |all| {
        combined(all).into_iter().take(1).collect()
    }),
    ("a write cut to 258 bytes", |all| {
        cut(all, limit::OPERATION_BYTES, usize::MAX)
    }),
    ("a read cut to 258 bytes", |all| {
        cut(all, usize::MAX, limit::OPERATION_BYTES)
    }),
    ("a read cut to 65,535 bytes", |all| {
        cut(all, usize::MAX, 65_535)
    }),
    ("the length of a read cut to 16 bits", |all| {
        let mut whole = combined(all);
        if let Some(Read(length)) = whole.last_mut() {
            *length %= 65_536;
        }
        combined(&whole)
    }),
];

fn cut(all: &[PlannedOperation], written: usize, received: usize) -> Vec<PlannedOperation> {
    let mut whole = combined(all);
    for operation in &mut whole {
        match operation {
            Write(bytes) => bytes.truncate(written),
            Read(length) => *length = received.min(*length),
        }
    }
    whole
}

/// The accepted cases of a seed that have blocking transactions.
fn cases() -> impl Iterator<Item = Case> {
    let combined = |case: &Case| {
        refusal(&case.list, case.rx) == 0
            && List::accepted(&case.list)
                .calls()
                .any(|call| call.kind == 7)
    };
    (0..20_000)
        .map(|number| generate(1, number))
        .filter(combined)
}

/// What the case comes to with this joining: each blocking transaction is the plain call that it makes of it. None
/// where a list has no room for that call.
fn run(case: &Case, joining: Joining) -> Option<Ran> {
    let mut plan = Plan::of(&List::accepted(&case.list));
    for call in plan.calls.iter_mut().filter(|call| call.kind == 7) {
        let operations = joining(&call.operations);
        // A polling transaction without operations is idle too.
        let kind = plain_kind(&operations).unwrap_or(3);
        *call = PlannedCall {
            kind,
            operations,
            ..call.clone()
        };
    }
    let operations = plan.operations();
    if operations.map(PlannedOperation::len).max() > Some(usize::from(u16::MAX)) {
        return None;
    }
    Some(run_list(&original::ten_bit, case, &plan.bytes()))
}

fn differs(case: &Case, joining: Joining) -> bool {
    run(case, joining).is_some_and(|ran| ran != judge(case))
}

#[test]
fn wrong_joinings_are_noticed() {
    for (name, joining) in WRONG {
        assert!(cases().any(|case| differs(&case, joining)), "{name}");
    }
}

#[test]
fn the_right_joining_changes_nothing() {
    for case in cases() {
        assert!(!differs(&case, combined), "{case:?}");
    }
}
