//! What the blocking transactions (kind 7) of a comparison were like.

use std::fmt;

use buslist::PlannedOperation::{self, Read, Write};
use buslist::{causes, combined, limit, List, PlannedCall};
use device::{code, ENTRY_WORDS};

use crate::{Case, Ran};

type Shape = fn(&[PlannedOperation]) -> bool;

/// Shapes of blocking transactions.
const SHAPES: [(&str, Shape); 12] = [
    ("no operation", |all| all.is_empty()),
    ("empty operations alone", |all| {
        !all.is_empty() && all.iter().all(PlannedOperation::is_empty)
    }),
    ("an empty operation first", |all| {
        all.first().is_some_and(PlannedOperation::is_empty)
    }),
    ("an empty operation last", |all| {
        all.last().is_some_and(PlannedOperation::is_empty)
    }),
    ("an empty read between two writes", |all| {
        parted(all, |three| matches!(three, [Write(_), Read(_), Write(_)]))
    }),
    ("an empty write between two reads", |all| {
        parted(all, |three| matches!(three, [Read(_), Write(_), Read(_)]))
    }),
    ("a write in parts", |all| {
        parts(all, |operation| matches!(operation, Write(_))) > 1
    }),
    ("a read in parts", |all| {
        parts(all, |operation| matches!(operation, Read(_))) > 1
    }),
    ("a write in parts, then a read", |all| {
        parts(all, |operation| matches!(operation, Write(_))) > 1 && combined(all).len() == 2
    }),
    ("a joined read of 2", |all| {
        parts(all, |operation| matches!(operation, Read(_))) > 1
            && combined(all).last() == Some(&Read(2))
    }),
    ("a joined write over 258 bytes", |all| {
        joined_over(all, limit::OPERATION_BYTES, |one| matches!(one, Write(_)))
    }),
    ("a joined read over 258 bytes", |all| {
        joined_over(all, limit::OPERATION_BYTES, |one| matches!(one, Read(_)))
    }),
];

/// Shapes that cost much, and are rare for that.
const LONG: [(&str, Shape); 3] = [
    ("1,024 operations", |all| all.len() == limit::OPERATIONS),
    ("a joined write over 30,000 bytes", |all| {
        joined_over(all, 30_000, |one| matches!(one, Write(_)))
    }),
    ("a joined read over 65,535 bytes", |all| {
        joined_over(all, 65_535, |one| matches!(one, Read(_)))
    }),
];

/// Whether an empty operation stands alone between two that are not, the three of these directions.
fn parted(all: &[PlannedOperation], directions: impl Fn(&[PlannedOperation]) -> bool) -> bool {
    let alone = |three: &[PlannedOperation]| {
        let empty = three.iter().map(PlannedOperation::is_empty);
        empty.eq([false, true, false])
    };
    all.windows(3)
        .any(|three| alone(three) && directions(three))
}

/// Whether one of the joined operations has this direction and more bytes.
fn joined_over(
    all: &[PlannedOperation],
    bytes: usize,
    direction: impl Fn(&PlannedOperation) -> bool,
) -> bool {
    let joined = combined(all);
    joined.iter().any(|one| direction(one) && one.len() > bytes)
}

/// The operations of one direction that are not empty.
fn parts(all: &[PlannedOperation], direction: impl Fn(&PlannedOperation) -> bool) -> usize {
    let full = all.iter().filter(|operation| !operation.is_empty());
    full.filter(|operation| direction(operation)).count()
}

/// The causes that are tested before 27, but for 20: of a list not of the form nothing else can be said.
const BEFORE: std::ops::RangeInclusive<u32> = 21..=26;

#[derive(Default)]
pub struct Combined {
    /// Lists of all cases.
    made: u64,
    /// Those that are accepted and have a blocking transaction.
    lists: u64,
    /// Calls that ended well, by shape.
    shapes: [u64; SHAPES.len()],
    long: [u64; LONG.len()],
    /// Runs that end well, after a start that failed, in lists where blocking transactions alone can retry it.
    retried: u64,
    /// Lists that would be refused for 27, by the cause before it that they are refused for.
    beside: [u64; 6],
}

impl Combined {
    pub fn count(&mut self, case: &Case, ran: &Ran) {
        self.made += 1;
        let answer = ran.answer();
        if answer >= 20 {
            if BEFORE.contains(&answer) && causes(&case.list, case.rx).contains(&27) {
                self.beside[(answer - BEFORE.start()) as usize] += 1;
            }
            return;
        }
        let list = List::accepted(&case.list);
        self.lists += u64::from(list.calls().any(|call| call.kind == 7));
        for call in list.calls().take(ran.counts[1] as usize) {
            if call.kind == 7 {
                self.count_shapes(&PlannedCall::of(&list, &call).operations);
            }
        }
        let others = list.calls().any(|call| (4..=6).contains(&call.kind));
        self.retried += u64::from(answer == 0 && !others && was_reset(ran));
    }

    fn count_shapes(&mut self, operations: &[PlannedOperation]) {
        let of_each = self.shapes.iter_mut().zip(SHAPES);
        for (count, (_, shape)) in of_each.chain(self.long.iter_mut().zip(LONG)) {
            *count += u64::from(shape(operations));
        }
    }

    /// Each shape, how many calls of it ended well, and how many must.
    fn shapes(&self) -> impl Iterator<Item = (&'static str, u64, u64)> + '_ {
        let often = self.made / 1_000;
        let short = SHAPES.iter().zip(self.shapes);
        let short = short.map(move |((name, _), count)| (*name, count, often));
        let long = LONG.iter().zip(self.long);
        let long = long.map(|((name, _), count)| (*name, count, 1));
        let retried = ("a start tried again", self.retried, often);
        short.chain(long).chain([retried])
    }

    /// What there is too little of.
    pub fn shortfalls(&self) -> Vec<String> {
        let lists = (
            "accepted lists".to_string(),
            self.lists,
            self.made.div_ceil(4),
        );
        let shapes = self
            .shapes()
            .map(|(name, count, least)| (name.to_string(), count, least));
        let beside = BEFORE.zip(self.beside);
        let beside = beside.map(|(cause, count)| (format!("27 beside {cause}"), count, 1));
        let all = std::iter::once(lists).chain(shapes).chain(beside);
        all.filter(|(_, count, least)| count < least)
            .map(|(name, count, least)| format!("kind 7, {name}: {count}, below {least}"))
            .collect()
    }
}

/// Whether a start failed: only then CR1 is written with SWRST.
fn was_reset(ran: &Ran) -> bool {
    let mut accesses = ran.made().chunks_exact(ENTRY_WORDS);
    accesses.any(|entry| entry == [code::WRITE_CR1, 0x8001])
}

impl fmt::Display for Combined {
    fn fmt(&self, f: &mut fmt::Formatter) -> fmt::Result {
        let (lists, made) = (self.lists, self.made);
        write!(
            f,
            "of {made} lists accepted with kind 7: {lists}; of its calls that ended well:"
        )?;
        for (name, count, _) in self.shapes() {
            write!(f, "\n  {name:36} {count:7}")?;
        }
        write!(f, "\n27 beside a lower cause, 21 to 26: {:?}", self.beside)
    }
}
