//! What the ten-bit calls of a comparison were like.

use std::fmt;

use buslist::PlannedOperation::{self, Read, Write};
use buslist::{highest, joined, Call, List, PlannedCall};
use device::{code, ENTRY_WORDS};

use crate::{ended_in, is_header, seven_bit_of, Case, Ran, START};

type Shape = fn(&PlannedCall) -> bool;

/// Shapes of ten-bit calls.
const SHAPES: [(&str, Shape); 18] = [
    ("a write", |call| call.kind == 0 && !is_empty(call, 0)),
    ("an empty write", |call| call.kind == 0 && is_empty(call, 0)),
    ("a read", |call| call.kind == 1),
    ("a write_read", |call| call.kind == 2 && !is_empty(call, 0)),
    ("a write_read, its write empty", |call| {
        call.kind == 2 && is_empty(call, 0)
    }),
    ("a transaction of nothing", |call| {
        transaction(call, |all| all.is_empty())
    }),
    ("a transaction of writes", |call| {
        transaction(call, |all| matches!(all, [Write(_)]))
    }),
    ("a transaction of reads", |call| {
        transaction(call, |all| matches!(all, [Read(_)]))
    }),
    ("a transaction, write and read", |call| {
        transaction(call, |all| matches!(all, [Write(_), Read(_)]))
    }),
    ("a transaction, read and write", |call| {
        transaction(call, |all| matches!(all, [Read(_), Write(_)]))
    }),
    ("a transaction, read, write, read", |call| {
        transaction(call, |all| matches!(all, [Read(_), Write(_), Read(_)]))
    }),
    ("a transaction, write, read, write", |call| {
        transaction(call, |all| matches!(all, [Write(_), Read(_), Write(_)]))
    }),
    ("an empty read, then a write", |call| {
        transaction(call, |all| matches!(all, [Read(0), Write(_), ..]))
    }),
    ("neighbours of one direction", |call| {
        transaction(call, |all| all.len() < call.operations.len())
    }),
    ("header F0", |call| call.address >> 8 == 0),
    ("header F2", |call| call.address >> 8 == 1),
    ("header F4", |call| call.address >> 8 == 2),
    ("header F6", |call| call.address >> 8 == 3),
];

fn is_empty(call: &PlannedCall, at: usize) -> bool {
    call.operations[at].is_empty()
}

/// Whether a call is a transaction, with operations like these once neighbours of one direction are joined.
fn transaction(call: &PlannedCall, like: impl Fn(&[PlannedOperation]) -> bool) -> bool {
    call.kind == 3 && like(&joined(&call.operations))
}

/// The waits of a ten-bit prepare that meet AF.
const WAITS: [&str; 3] = ["ADD10", "ADDR of the write part", "ADDR of the read part"];

/// Calls that answer Overrun before they prepare a read.
const EARLY: [&str; 2] = ["read", "write_read"];

/// Why a call is out by cause 24.
const OUT: [(&str, Shape); 4] = [
    ("seven bits above 127", |call| {
        !call.is_ten_bit() && call.address > highest::SEVEN_BIT
    }),
    ("ten bits above 1,023, polling", |call| {
        call.is_ten_bit() && call.kind < 4 && call.address > highest::TEN_BIT
    }),
    ("ten bits, blocking", |call| {
        call.is_ten_bit() && call.kind >= 4 && !is_idle(call)
    }),
    ("ten bits, blocking and idle", |call| {
        call.is_ten_bit() && is_idle(call)
    }),
];

/// A blocking call that makes no access.
fn is_idle(call: &PlannedCall) -> bool {
    call.kind >= 6 && call.operations.iter().all(PlannedOperation::is_empty)
}

/// Why a list that is refused for cause 24 is: the first of these that one of its calls is.
pub fn why_out(list: &[u8]) -> Option<&'static str> {
    let place = first_out(&List::accepted(list))?;
    Some(OUT[place].0)
}

fn first_out(list: &List) -> Option<usize> {
    let calls: Vec<_> = calls(list).collect();
    OUT.iter().position(|(_, out)| calls.iter().any(out))
}

fn calls<'a>(list: &'a List) -> impl Iterator<Item = PlannedCall> + 'a {
    list.calls().map(|call| PlannedCall::of(list, &call))
}

#[derive(Default)]
pub struct TenBit {
    /// Lists of all cases.
    made: u64,
    /// Those that are accepted and have a ten-bit call; of these, those with seven-bit calls too.
    lists: u64,
    mixed: u64,
    /// Calls that ended well, by shape.
    shapes: [u64; SHAPES.len()],
    /// Calls that ended well in lists where a seven-bit call did too, whose address byte is their header.
    beside: u64,
    /// Calls that ended in AF, by the wait that met it.
    waits: [u64; WAITS.len()],
    early: [u64; EARLY.len()],
    /// Lists that were refused, by the first reason.
    out: [u64; OUT.len()],
}

impl TenBit {
    pub fn count(&mut self, case: &Case, ran: &Ran) {
        self.made += 1;
        let list = List::accepted(&case.list);
        match ran.answer() {
            24 => {
                if let Some(reason) = first_out(&list) {
                    self.out[reason] += 1;
                }
            }
            20.. => {}
            _ => self.count_run(case, &list, ran),
        }
    }

    fn count_run(&mut self, case: &Case, list: &List, ran: &Ran) {
        let ten_bit = list.calls().any(|call| call.is_ten_bit());
        self.lists += u64::from(ten_bit);
        self.mixed += u64::from(ten_bit && list.calls().any(|call| !call.is_ten_bit()));
        let ended_well: Vec<Call> = list.calls().take(ran.counts[1] as usize).collect();
        for call in ended_well.iter().filter(|call| call.is_ten_bit()) {
            let planned = PlannedCall::of(list, call);
            for (count, (_, shape)) in self.shapes.iter_mut().zip(SHAPES) {
                *count += u64::from(shape(&planned));
            }
            let alike = seven_bit_of(call.address);
            let same = |other: &Call| !other.is_ten_bit() && other.address == alike;
            self.beside += u64::from(ended_well.iter().any(same));
        }
        if let Some(call) = ended_in(case, ran).filter(Call::is_ten_bit) {
            self.count_failure(&PlannedCall::of(list, &call), ran);
        }
    }

    fn count_failure(&mut self, call: &PlannedCall, ran: &Ran) {
        if ran.answer() == 2 {
            if let Some(wait) = wait(ran) {
                self.waits[wait] += 1;
            }
        }
        // OVR was found, and cleared.
        let flagged = ran.made().ends_with(&[code::WRITE_SR1, 0xD700]);
        let empty = call.operations.last() == Some(&Read(0));
        if ran.answer() == 1 && !flagged && empty && call.kind < 3 {
            self.early[usize::from(call.kind - 1)] += 1;
        }
    }

    /// What is counted, how often it was met, and how often it must be.
    fn counts(&self) -> impl Iterator<Item = (String, u64, u64)> + '_ {
        let often = self.made / 1_000;
        let shapes = SHAPES.iter().zip(self.shapes);
        let shapes = shapes.map(|((name, _), count)| (name.to_string(), count));
        let beside = (
            "beside a seven-bit call of its header".to_string(),
            self.beside,
        );
        let waits = WAITS.iter().zip(self.waits);
        let waits = waits.map(|(name, count)| (format!("AF at {name}"), count));
        let early = EARLY.iter().zip(self.early);
        let early = early.map(|(name, count)| (format!("early Overrun of a {name}"), count));
        let out = OUT.iter().zip(self.out);
        let out = out.map(|((name, _), count)| (format!("24: {name}"), count));
        let all = shapes.chain([beside]).chain(waits).chain(early).chain(out);
        all.map(move |(name, count)| (name, count, often))
    }

    /// What there is too little of.
    pub fn shortfalls(&self) -> Vec<String> {
        let lists = (
            "accepted lists".to_string(),
            self.lists,
            self.made.div_ceil(3),
        );
        std::iter::once(lists)
            .chain(self.counts())
            .filter(|(_, count, least)| count < least)
            .map(|(name, count, least)| format!("ten bits, {name}: {count}, below {least}"))
            .collect()
    }
}

/// The wait of a ten-bit prepare that the AF of this run was met at; none where the prepare was over.
pub fn wait_met(ran: &Ran) -> Option<&'static str> {
    wait(ran).map(|wait| WAITS[wait])
}

/// Its place among the waits.
fn wait(ran: &Ran) -> Option<usize> {
    let accesses: Vec<&[u32]> = ran.made().chunks_exact(ENTRY_WORDS).collect();
    let is_start = |access: &&[u32]| access[0] == code::WRITE_CR1 && access[1] & START != 0;
    let started = accesses.iter().rposition(is_start)?;
    let since = &accesses[started..];
    let is_sent = |access: &&&[u32]| access[0] == code::WRITE_DR;
    let sent: Vec<u32> = since
        .iter()
        .filter(is_sent)
        .map(|access| access[1])
        .collect();
    let mut after = since.iter().rev().take_while(|access| !is_sent(access));
    // SR2 is read once the address is acknowledged.
    if after.any(|access| access[0] == code::READ_SR2) {
        return None;
    }
    match sent[..] {
        [header] if is_header(header) => Some(0),
        [header, _] if is_header(header) => Some(1),
        [_] => Some(2),
        _ => None,
    }
}

impl fmt::Display for TenBit {
    fn fmt(&self, f: &mut fmt::Formatter) -> fmt::Result {
        let TenBit {
            made, lists, mixed, ..
        } = self;
        write!(
            f,
            "of {made} lists accepted with ten-bit calls: {lists}, of these with seven-bit calls too {mixed}; \
             of their calls that ended well, then of those that failed, then refused lists:"
        )?;
        for (name, count, _) in self.counts() {
            write!(f, "\n  {name:38} {count:7}")?;
        }
        Ok(())
    }
}
