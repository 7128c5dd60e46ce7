//! The comparison notices a wrong limit of one operation: each of these readings, in place of document 02's, changes why
//! some generated list is refused, or whether it is. Document 02's own changes nothing.

use buslist::PlannedOperation::{self, Read, Write};
use buslist::{causes, combined, joined, over_another_limit, List, Plan, PlannedCall};
use cases::{generate, Case};

/// Whether a plan has an operation that is too long.
type Reading = fn(&Plan) -> bool;

const WRONG: [(&str, Reading); 18] = [
    ("no limit at all", |plan| over(65_535, plan)),
    ("260 bytes within the limit", |plan| over(260, plan)),
    ("259 bytes within the limit", |plan| over(259, plan)),
    ("258 bytes over the limit", |plan| over(257, plan)),
    ("257 bytes over the limit", |plan| over(256, plan)),
    ("reads left out", |plan| {
        of(plan, |_, operation| matches!(operation, Write(_)))
    }),
    ("writes left out", |plan| {
        of(plan, |_, operation| matches!(operation, Read(_)))
    }),
    ("polling calls left out", |plan| {
        of(plan, |call, _| call.kind >= 4)
    }),
    ("blocking calls left out", |plan| {
        of(plan, |call, _| call.kind < 4)
    }),
    ("ten-bit calls left out", |plan| {
        of(plan, |call, _| !call.is_ten_bit())
    }),
    ("transactions left out", |plan| {
        of(plan, |call, _| !matches!(call.kind, 3 | 7))
    }),
    ("all but transactions left out", |plan| {
        of(plan, |call, _| matches!(call.kind, 3 | 7))
    }),
    ("the first operation of a list alone", |plan| {
        plan.operations().next().is_some_and(is_long)
    }),
    ("the first operation of each call alone", |plan| {
        let mut calls = plan.calls.iter();
        calls.any(|call| call.operations.first().is_some_and(is_long))
    }),
    ("the last operation of each call alone", |plan| {
        let mut calls = plan.calls.iter();
        calls.any(|call| call.operations.last().is_some_and(is_long))
    }),
    ("the operations of a call together", |plan| {
        let together = |call: &PlannedCall| call.operations.iter().map(|one| one.len()).sum();
        plan.calls
            .iter()
            .map(together)
            .any(|bytes: usize| bytes > 258)
    }),
    ("a polling transaction once it is joined", |plan| {
        once_joined(plan, 3, |operations| joined(operations))
    }),
    ("a blocking transaction once it is joined", |plan| {
        once_joined(plan, 7, combined)
    }),
];

fn over(bytes: usize, plan: &Plan) -> bool {
    plan.operations().any(|operation| operation.len() > bytes)
}

/// Document 02: 258 bytes are within the limit, 259 are not.
fn is_long(operation: &PlannedOperation) -> bool {
    operation.len() > 258
}

/// Whether such an operation of such a call is too long.
fn of(plan: &Plan, looked_at: fn(&PlannedCall, &PlannedOperation) -> bool) -> bool {
    plan.calls.iter().any(|call| {
        let mut operations = call.operations.iter();
        operations.any(|operation| looked_at(call, operation) && is_long(operation))
    })
}

/// The same of all operations, but those of calls of this kind joined first.
fn once_joined(
    plan: &Plan,
    kind: u8,
    join: fn(&[PlannedOperation]) -> Vec<PlannedOperation>,
) -> bool {
    plan.calls.iter().any(|call| {
        if call.kind == kind {
            join(&call.operations).iter().any(is_long)
        } else {
            call.operations.iter().any(is_long)
        }
    })
}

/// A list of the form, and why it is refused.
struct Listed {
    plan: Plan,
    over_another_limit: bool,
    causes: Vec<u32>,
}

impl Listed {
    fn of(case: &Case) -> Option<Listed> {
        let causes = causes(&case.list, case.rx);
        if causes == [20] {
            return None;
        }
        let plan = Plan::of(&List::accepted(&case.list));
        let (calls, operations) = (plan.calls.len(), plan.operations().count());
        Some(Listed {
            over_another_limit: over_another_limit(case.list.len(), calls, operations),
            plan,
            causes,
        })
    }

    /// Whether the first cause is another with this reading.
    fn differs(&self, reading: Reading) -> bool {
        let too_long = self.over_another_limit || reading(&self.plan);
        let others = self.causes.iter().filter(|cause| **cause != 21);
        let first = too_long.then_some(&21).into_iter().chain(others).min();
        first != self.causes.first()
    }
}

fn lists() -> Vec<Listed> {
    let cases = (0..20_000).map(|number| generate(1, number));
    cases.filter_map(|case| Listed::of(&case)).collect()
}

#[test]
fn wrong_limits_are_noticed() {
    let lists = lists();
    for (name, reading) in WRONG {
        let differing = lists.iter().filter(|list| list.differs(reading)).count();
        println!("{name}: {differing} of {} lists", lists.len());
        assert!(differing > 0, "{name}");
    }
}

#[test]
fn the_right_limit_changes_nothing() {
    assert!(!lists()
        .iter()
        .any(|list| list.differs(|plan| over(258, plan))));
}

/// Each higher cause comes beside 21 for the length of an operation, in some list.
#[test]
fn higher_causes_come_beside() {
    let lists = lists();
    for cause in 22..=27 {
        let beside = |list: &&Listed| {
            !list.over_another_limit
                && list.causes.starts_with(&[21])
                && list.causes.contains(&cause)
        };
        let count = lists.iter().filter(beside).count();
        println!(
            "21 for a length beside {cause}: {count} of {} lists",
            lists.len()
        );
        assert!(count > 0, "{cause}");
    }
}
