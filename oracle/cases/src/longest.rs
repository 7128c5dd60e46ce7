//! What became of lists whose longest operation is near the limit.

use std::fmt;

use buslist::{over_another_limit, Call, List, Operation};

use crate::{ended_in, Case, Ran};

/// Document 02: 258 bytes are within the limit, 259 are not. The model's number is not used here, so that a wrong one
/// shows.
const LONGEST: usize = 258;

/// The direction of an operation, and its bytes.
#[derive(Debug, Clone, Copy, PartialEq, Eq)]
enum Length {
    Write(usize),
    Read(usize),
}

use Length::{Read, Write};

impl Length {
    fn of(operation: Operation) -> Length {
        match operation {
            Operation::Write(bytes) => Write(bytes.len()),
            Operation::Read(length) => Read(length),
        }
    }

    fn bytes(self) -> usize {
        match self {
            Write(bytes) | Read(bytes) => bytes,
        }
    }
}

impl fmt::Display for Length {
    fn fmt(&self, f: &mut fmt::Formatter) -> fmt::Result {
        match self {
            Write(bytes) => write!(f, "write of {bytes}"),
            Read(bytes) => write!(f, "read of {bytes}"),
        }
    }
}

/// Operations that are looked for in a call, one after the other: those near the limit, and a page as depots read it,
/// after its memory address.
const SHAPES: [&[Length]; 9] = [
    &[Write(257)],
    &[Write(258)],
    &[Write(259)],
    &[Write(260)],
    &[Read(257)],
    &[Read(258)],
    &[Read(259)],
    &[Read(260)],
    &[Write(2), Read(256)],
];

/// The bytes of its longest operation.
fn most(shape: &[Length]) -> usize {
    let bytes = shape.iter().map(|length| length.bytes());
    bytes.max().unwrap_or(0)
}

/// Shapes of either engine, the polling one first.
const ROWS: usize = 2 * SHAPES.len();

fn shape(row: usize) -> &'static [Length] {
    SHAPES[row % SHAPES.len()]
}

fn is_polling(row: usize) -> bool {
    row < SHAPES.len()
}

fn is_within(row: usize) -> bool {
    most(shape(row)) <= LONGEST
}

fn name(row: usize) -> String {
    let engine = if is_polling(row) {
        "polling"
    } else {
        "blocking"
    };
    let lengths: Vec<String> = shape(row).iter().map(Length::to_string).collect();
    format!("{engine} {}", lengths.join(" and "))
}

fn lengths<'a>(list: &'a List, call: &Call) -> impl Iterator<Item = Length> + 'a {
    list.operations(call).map(Length::of)
}

/// Whether a call has the operations of a row.
fn has(list: &List, call: &Call, row: usize) -> bool {
    let wanted = shape(row);
    let listed: Vec<Length> = lengths(list, call).collect();
    is_polling(row) == (call.kind < 4) && listed.windows(wanted.len()).any(|some| some == wanted)
}

/// The rows that a list of the form has, with its longest operation in each. None where it is over another limit: then
/// that operation does not decide.
fn rows(bytes: &[u8]) -> Vec<usize> {
    let list = List::accepted(bytes);
    let all = || list.calls().flat_map(|call| lengths(&list, &call));
    if over_another_limit(bytes.len(), list.call_count(), all().count()) {
        return Vec::new();
    }
    let longest = all().map(Length::bytes).max();
    let decides = |row: &usize| {
        longest == Some(most(shape(*row))) && list.calls().any(|call| has(&list, &call, *row))
    };
    (0..ROWS).filter(decides).collect()
}

/// The longest operation, near the limit, that a list is refused for, or that is in the call that a run ended in.
pub fn longest_met(case: &Case, ran: &Ran) -> Option<String> {
    let list = List::accepted(&case.list);
    let row = match ran.answer() {
        1..=10 => {
            let call = ended_in(case, ran)?;
            rows(&case.list)
                .into_iter()
                .find(|row| has(&list, &call, *row))
        }
        21 => rows(&case.list).first().copied(),
        _ => None,
    };
    row.map(name)
}

#[derive(Clone, Copy, Default)]
struct Counts {
    lists: u64,
    accepted: u64,
    /// Those that answer 0.
    well: u64,
    /// Those refused for 21.
    refused: u64,
}

/// One of the counts, with its name.
type Named = (&'static str, fn(&Counts) -> u64);

#[derive(Default)]
pub struct Longest {
    /// Lists of all cases.
    made: u64,
    rows: [Counts; ROWS],
}

impl Longest {
    pub fn count(&mut self, case: &Case, ran: &Ran) {
        self.made += 1;
        let answer = ran.answer();
        // Of a list not of the form nothing else can be said.
        if answer == 20 {
            return;
        }
        for row in rows(&case.list) {
            let counts = &mut self.rows[row];
            counts.lists += 1;
            counts.accepted += u64::from(answer < 20);
            counts.well += u64::from(answer == 0);
            counts.refused += u64::from(answer == 21);
        }
    }

    /// Of each row one of its counts, by whether its length is within the limit, with a name.
    fn counts(&self, within: Named, over: Named) -> impl Iterator<Item = (String, u64)> + '_ {
        let rows = self.rows.iter().enumerate();
        rows.map(move |(row, counts)| {
            let (what, count) = if is_within(row) { within } else { over };
            (format!("{}, {what}", name(row)), count(counts))
        })
    }

    /// What there is too little of: fewer than 100 in 100,000 cases.
    pub fn shortfalls(&self) -> Vec<String> {
        let least = self.made / 1_000;
        self.counts(
            ("ended well", |row| row.well),
            ("refused", |row| row.refused),
        )
        .filter(|(_, count)| *count < least)
        .map(|(what, count)| format!("{what}: {count}, below {least}"))
        .collect()
    }

    /// Lists that contradict document 02.
    pub fn impossible(&self) -> Vec<String> {
        self.counts(
            ("refused for 21", |row| row.refused),
            ("accepted", |row| row.accepted),
        )
        .filter(|(_, count)| *count > 0)
        .map(|(what, count)| format!("{what}: {count}"))
        .collect()
    }
}

impl fmt::Display for Longest {
    fn fmt(&self, f: &mut fmt::Formatter) -> fmt::Result {
        let title = format!("of {} lists, by longest operation:", self.made);
        let heads = ["lists", "accepted", "ended well", "refused for 21"];
        let [lists, accepted, well, refused] = heads;
        write!(
            f,
            "{title:40} {lists:>7} {accepted:>9} {well:>11} {refused:>15}"
        )?;
        let rows = self.rows.iter().enumerate();
        for (row, counts) in rows.filter(|(_, counts)| counts.lists > 0) {
            let Counts {
                lists,
                accepted,
                well,
                refused,
            } = counts;
            let name = name(row);
            write!(
                f,
                "\n  {name:38} {lists:7} {accepted:9} {well:11} {refused:15}"
            )?;
        }
        Ok(())
    }
}
