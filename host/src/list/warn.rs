//! What is doubtful in a list that the engine accepts, with the place in the list.

use std::fmt;

use super::Kind;
use super::layout::{self, CallRow, Layout};
use crate::settings::Hertz;

/// Something in an accepted list that its author can hardly have meant.
#[derive(Clone, Debug, PartialEq, Eq, Hash)]
pub struct Warning {
    /// The first byte of the field, counted from the start of the list.
    pub at: usize,
    /// What the field holds, and what comes of it.
    pub what: String,
    /// What to do about it, as a sentence.
    pub advice: &'static str,
}

impl fmt::Display for Warning {
    fn fmt(&self, f: &mut fmt::Formatter<'_>) -> fmt::Result {
        write!(f, "byte {}: {}. {}", self.at, self.what, self.advice)
    }
}

/// The warnings of a list that the engine accepts, in the order of their places.
pub(super) fn warnings(l: Layout) -> Vec<Warning> {
    let mut all = Vec::new();
    if let Some(call) = first_blocking(l) {
        all.extend(sysclk(l, &call));
        all.extend(start(l, &call));
        let so = format!("{call} times out unless ADDR is set at the first look");
        all.extend(timeout(l, layout::ADDRESS_TIMEOUT, "address", &so));
        let so = format!("{call} times out unless every later wait is over at the first look");
        all.extend(timeout(l, layout::DATA_TIMEOUT, "data", &so));
    }
    all.extend(header_addresses(l));
    all.extend(empty_reads(l));
    all
}

/// A call as warnings name it.
fn name(number: usize, kind: Kind) -> String {
    format!("call {number} ({kind})")
}

/// Whether a call makes no access and ends well. A blocking one with empty operations only makes none.
fn is_idle(l: Layout, row: &CallRow, kind: Kind) -> bool {
    let mut operations = l.operations_of(row);
    if kind.is_blocking() {
        operations.all(|operation| operation.length == 0)
    } else {
        operations.next().is_none()
    }
}

/// The name of the first blocking call that makes accesses.
fn first_blocking(l: Layout) -> Option<String> {
    l.calls().enumerate().find_map(|(number, row)| {
        let kind = Kind::from_number(row.kind).filter(|kind| kind.is_blocking())?;
        (!is_idle(l, &row, kind)).then(|| name(number, kind))
    })
}

fn sysclk(l: Layout, call: &str) -> Option<Warning> {
    let sysclk = Hertz(l.word(layout::SYSCLK));
    (sysclk.0 < 1_000_000).then(|| Warning {
        at: layout::SYSCLK,
        what: format!(
            "sysclk is {sysclk}, less than 1 MHz, so every timeout comes to 0 cycles, and {call} \
             times out unless every wait is over at the first look"
        ),
        advice: "Set sysclk to the clock of the cycle counter, in hertz.",
    })
}

/// With no retries nothing waits for START, and its timeout plays no part.
fn start(l: Layout, call: &str) -> Option<Warning> {
    if l.word(layout::START_RETRIES) > 0 {
        let so = format!("each START of {call} times out unless SB is set at the first look");
        return timeout(l, layout::START_TIMEOUT, "start", &so);
    }
    Some(Warning {
        at: layout::START_RETRIES,
        what: format!("start retries are 0, so {call} sends no START and goes on as if it had"),
        advice: "Set start retries to 1 or more.",
    })
}

fn timeout(l: Layout, at: usize, name: &str, so: &str) -> Option<Warning> {
    (l.word(at) == 0).then(|| Warning {
        at,
        what: format!("{name} timeout is 0 µs, so {so}"),
        advice: "Set it to the longest time that such a wait may take, in microseconds.",
    })
}

/// UM10204 keeps the seven-bit addresses 11110XX, in binary, for the headers of ten-bit ones.
fn header_addresses(l: Layout) -> impl Iterator<Item = Warning> {
    l.calls().enumerate().filter_map(move |(number, row)| {
        let kind = Kind::from_number(row.kind)?;
        let address = row.address;
        let is_header = row.width == 7 && (120..=123).contains(&address);
        (is_header && !is_idle(l, &row, kind)).then(|| {
            let lowest = 256 * (address - 120);
            Warning {
                at: row.at + 2,
                what: format!(
                    "{} goes to the seven-bit address {address}, but on the bus that is the header \
                     of the ten-bit addresses {lowest} to {}",
                    name(number, kind),
                    lowest + 255
                ),
                advice: "For a device with a ten-bit address give that address, with a width of 10, \
                         to a polling call.",
            }
        })
    })
}

/// A polling call that ends in a read of length 0 answers Overrun.
fn empty_reads(l: Layout) -> impl Iterator<Item = Warning> {
    l.calls().enumerate().filter_map(move |(number, row)| {
        let kind = Kind::from_number(row.kind).filter(|kind| !kind.is_blocking())?;
        let last = l.operations_of(&row).last()?;
        (last.direction == 1 && last.length == 0).then(|| Warning {
            at: last.at + 2,
            what: format!(
                "{} ends in a read of length 0, so the run stops there with Overrun (1)",
                name(number, kind)
            ),
            advice: "Read at least one byte there, or take the read out.",
        })
    })
}
