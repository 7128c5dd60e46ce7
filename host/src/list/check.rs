//! Why the engine refuses a list, with the place in the list.
//!
//! The engine's answer is the proved one. What stands here is written a second time, to say where;
//! the tests hold both to the same cause.

use std::fmt;

use super::layout::{self, CallRow, HEADER, Layout, OperationRow};
use super::warn::{Warning, warnings};
use super::{Kind, LONGEST_OPERATION};
use crate::error::Refusal;
use crate::text::counted;

/// The first thing wrong with a list.
#[derive(Clone, Debug, PartialEq, Eq, Hash)]
pub struct Fault {
    /// Why the engine refuses the list.
    pub refusal: Refusal,
    /// The first byte of the field at fault, counted from the start of the list. For a list that ends too
    /// soon or too late: the first byte that is missing, or the first too many.
    pub at: usize,
    /// What is wrong there.
    pub what: String,
}

impl Fault {
    pub(super) fn form(at: usize, what: String) -> Fault {
        Fault {
            refusal: Refusal::Form,
            at,
            what,
        }
    }

    /// What to do about it. The advice of the refusal alone would be to look for the place.
    fn advice(&self) -> &'static str {
        match self.refusal {
            Refusal::Form => "Correct the list here, or in the field that this has to agree with.",
            refusal => refusal.advice(),
        }
    }
}

/// The place, what is wrong there, and what to do about it.
impl fmt::Display for Fault {
    fn fmt(&self, f: &mut fmt::Formatter<'_>) -> fmt::Result {
        write!(f, "byte {}: {}. {}", self.at, self.what, self.advice())
    }
}

impl std::error::Error for Fault {}

/// Fails with a fault unless the condition holds.
fn must(
    holds: bool,
    refusal: Refusal,
    at: usize,
    what: impl FnOnce() -> String,
) -> Result<(), Fault> {
    if holds {
        return Ok(());
    }
    Err(Fault {
        refusal,
        at,
        what: what(),
    })
}

/// Says what is wrong with these bytes, or doubtful, for a run with a received buffer of this length.
///
/// For a list that the engine accepts these are warnings: what its author can hardly have meant. A
/// blocking call with 0 start retries sends no START, one with a timeout that comes to 0 cycles waits
/// for nothing, a seven-bit address from 120 to 123 is the header of ten-bit ones, and a polling call
/// that ends in a read of length 0 answers Overrun.
///
/// # Errors
///
/// Why the engine refuses the list, and where it is wrong.
///
/// # Examples
///
/// ```
/// use vandhukril::{BusList, Hertz, Micros, Mode, Refusal, Settings, explain};
///
/// let settings = Settings {
///     pclk1: Hertz(36_000_000),
///     sysclk: Hertz(72_000_000),
///     mode: Mode::Standard,
///     frequency: Hertz(100_000),
///     start_timeout: Micros(1000),
///     start_retries: 0,
///     address_timeout: Micros(1000),
///     data_timeout: Micros(1000),
/// };
/// let bytes = BusList::new(settings).write(0x50, &[1]).blocking_write(0x50, &[2]).to_bytes()?;
/// let warnings = explain(&bytes, 0)?;
/// assert_eq!(
///     warnings[0].to_string(),
///     "byte 44: start retries are 0, so call 1 (blocking write) sends no START and goes on as if \
///      it had. Set start retries to 1 or more."
/// );
///
/// let bytes = BusList::new(settings).write(0x50, &[1]).write(0xa0, &[2]).to_bytes()?;
/// let fault = explain(&bytes, 0).unwrap_err();
/// assert_eq!(fault.refusal, Refusal::Address);
/// assert_eq!(fault.at, 74);
/// assert_eq!(fault.what, "call 1: address is 160, but must be 0 to 127 with a width of 7");
/// # Ok::<(), Box<dyn std::error::Error>>(())
/// ```
pub fn explain(list: &[u8], received_length: usize) -> Result<Vec<Warning>, Fault> {
    let layout = Layout(list);
    // In the order in which the engine tests them.
    form(layout)?;
    limits(layout)?;
    frequency(layout)?;
    timeouts(layout)?;
    addresses(layout)?;
    empty_blocking(layout)?;
    received(layout, received_length)?;
    write_after_read(layout)?;
    Ok(warnings(layout))
}

/// Cause 20. The header comes first: it bounds both tables by the bytes that are there.
pub(super) fn form(l: Layout) -> Result<(), Fault> {
    header(l)?;
    operations(l)?;
    calls(l)
}

fn header(l: Layout) -> Result<(), Fault> {
    let length = l.0.len();
    must(length >= HEADER, Refusal::Form, length, || {
        format!("the list ends here, but its header takes {HEADER} bytes")
    })?;
    offsets(l)?;
    let mode = l.word(layout::MODE);
    must(mode <= 2, Refusal::Form, layout::MODE, || {
        format!("mode is {mode}, but must be 0 to 2")
    })?;
    let retries = l.word(layout::START_RETRIES);
    must(retries <= 255, Refusal::Form, layout::START_RETRIES, || {
        format!("start retries are {retries}, but must be 0 to 255")
    })?;
    for at in layout::ZEROS {
        let word = l.word(at);
        must(word == 0, Refusal::Form, at, || {
            format!("this word is {word}, but must be 0")
        })?;
    }
    let whole = l.data_start() + u64::from(l.word(layout::DATA));
    // Where the list is too long this is its first byte too many, else its end.
    let at = usize::try_from(whole).map_or(length, |whole| whole.min(length));
    must(length as u64 == whole, Refusal::Form, at, || {
        format!("the list has {length} bytes, but must have {whole} (data offset + data bytes)")
    })
}

fn offsets(l: Layout) -> Result<(), Fault> {
    let fields = [
        (
            layout::CALL_OFFSET,
            "call offset",
            HEADER as u64,
            "the length of the header",
        ),
        (
            layout::OPERATION_OFFSET,
            "operation offset",
            l.operations_start(),
            "64 + 8 × calls",
        ),
        (
            layout::DATA_OFFSET,
            "data offset",
            l.data_start(),
            "64 + 8 × calls + 8 × operations",
        ),
    ];
    for (at, name, expected, why) in fields {
        let found = l.word(at);
        must(u64::from(found) == expected, Refusal::Form, at, || {
            format!("{name} is {found}, but must be {expected} ({why})")
        })?;
    }
    Ok(())
}

fn operations(l: Layout) -> Result<(), Fault> {
    let mut written = 0;
    for (number, row) in l.operations().enumerate() {
        operation(&row, written).map_err(|(at, what)| {
            Fault::form(row.at + at, format!("operation {number}: {what}"))
        })?;
        written += length_if(&row, 0);
    }
    let data = l.word(layout::DATA);
    must(
        u64::from(data) == written,
        Refusal::Form,
        layout::DATA,
        || {
            let data = counted(data, "data byte");
            format!("the header counts {data}, but all writes together have {written}")
        },
    )
}

/// Whether an operation is right after writes of so many bytes. If not: the byte of its row, and what
/// is wrong.
fn operation(row: &OperationRow, written: u64) -> Result<(), (usize, String)> {
    let direction = row.direction;
    if direction > 1 {
        return Err((0, format!("direction is {direction}, but must be 0 or 1")));
    }
    if row.zero != 0 {
        return Err((1, format!("this byte is {}, but must be 0", row.zero)));
    }
    let (expected, why) = match direction {
        0 => (written, "the bytes of the writes before it"),
        _ => (0, "it is a read"),
    };
    let offset = row.offset;
    if u64::from(offset) != expected {
        let what = format!("data offset is {offset}, but must be {expected} ({why})");
        return Err((4, what));
    }
    Ok(())
}

/// The operation's length if it has this direction, else 0.
fn length_if(row: &OperationRow, direction: u8) -> u64 {
    if row.direction == direction {
        row.length.into()
    } else {
        0
    }
}

fn calls(l: Layout) -> Result<(), Fault> {
    let all = u64::from(l.word(layout::OPERATIONS));
    let mut before = 0;
    for (number, row) in l.calls().enumerate() {
        call(&row, before, all)
            .and_then(|()| kind(l, &row))
            .map_err(|(at, what)| Fault::form(row.at + at, format!("call {number}: {what}")))?;
        before += u64::from(row.count);
    }
    must(before == all, Refusal::Form, layout::OPERATIONS, || {
        let all = counted(all, "operation");
        format!("the header counts {all}, but all calls together have {before}")
    })
}

/// Whether a call is right after calls of so many operations, and its own are there. If not: the byte
/// of its row, and what is wrong.
fn call(row: &CallRow, before: u64, all: u64) -> Result<(), (usize, String)> {
    let (width, first, count) = (row.width, row.first, row.count);
    if width != 7 && width != 10 {
        return Err((1, format!("address width is {width}, but must be 7 or 10")));
    }
    if u64::from(first) != before {
        let what = format!(
            "first operation is {first}, but must be {before} (the operations of the calls before it)"
        );
        return Err((4, what));
    }
    if u64::from(count) > all - before {
        let left = counted(all - before, "operation");
        let what = format!("operation count is {count}, but the list has only {left} left");
        return Err((6, what));
    }
    Ok(())
}

/// Whether a call has the operations of its kind. If not: the byte of its row, and what is wrong.
fn kind(l: Layout, row: &CallRow) -> Result<(), (usize, String)> {
    let Some(kind) = Kind::from_number(row.kind) else {
        return Err((0, format!("kind is {}, but must be 0 to 7", row.kind)));
    };
    let directions: &[u8] = match kind {
        Kind::Write | Kind::BlockingWrite => &[0],
        Kind::Read | Kind::BlockingRead => &[1],
        Kind::WriteRead | Kind::BlockingWriteRead => &[0, 1],
        Kind::Transaction | Kind::BlockingTransaction => return Ok(()),
    };
    if usize::from(row.count) != directions.len() {
        let needed = counted(directions.len(), "operation");
        let what = format!(
            "operation count is {}, but a {kind} has {needed}",
            row.count
        );
        return Err((6, what));
    }
    let first = usize::from(row.first);
    for (number, (operation, &direction)) in (first..).zip(l.operations_of(row).zip(directions)) {
        if operation.direction != direction {
            let (found, needed) = match direction {
                0 => ("read", "write"),
                _ => ("write", "read"),
            };
            let what =
                format!("operation {number} is a {found}, but a {kind} needs a {needed} there");
            return Err((0, what));
        }
    }
    Ok(())
}

/// Cause 21.
fn limits(l: Layout) -> Result<(), Fault> {
    let limit = Refusal::Limit;
    let length = l.0.len();
    must(length <= 32_768, limit, 32_768, || {
        format!("the list has {length} bytes, but the limit is 32,768")
    })?;
    let calls = l.word(layout::CALLS);
    must(calls <= 256, limit, layout::CALLS, || {
        format!("the list has {calls} calls, but the limit is 256")
    })?;
    let operations = l.word(layout::OPERATIONS);
    must(operations <= 1024, limit, layout::OPERATIONS, || {
        format!("the list has {operations} operations, but the limit is 1,024")
    })?;
    // In a list of the form each operation is one of a call.
    for (number, row) in l.calls().enumerate() {
        for (place, operation) in (usize::from(row.first)..).zip(l.operations_of(&row)) {
            let length = usize::from(operation.length);
            must(length <= LONGEST_OPERATION, limit, operation.at + 2, || {
                format!(
                    "call {number}: operation {place}: length is {length}, \
                     but the limit is {LONGEST_OPERATION}"
                )
            })?;
        }
    }
    Ok(())
}

/// Cause 22.
fn frequency(l: Layout) -> Result<(), Fault> {
    let frequency = l.word(layout::FREQUENCY);
    must(
        (1..=400_000).contains(&frequency),
        Refusal::Frequency,
        layout::FREQUENCY,
        || format!("frequency is {frequency} Hz, but must be 1 to 400,000 Hz"),
    )
}

/// Cause 23.
fn timeouts(l: Layout) -> Result<(), Fault> {
    let mhz = u64::from(l.word(layout::SYSCLK) / 1_000_000);
    let fields = [
        ("start", layout::START_TIMEOUT),
        ("address", layout::ADDRESS_TIMEOUT),
        ("data", layout::DATA_TIMEOUT),
    ];
    for (name, at) in fields {
        let micros = u64::from(l.word(at));
        must(
            micros * mhz <= u64::from(u32::MAX),
            Refusal::Timeout,
            at,
            || {
                let cycles = micros * mhz;
                format!(
                    "{name} timeout is {micros} µs, which is {cycles} cycles at {mhz} MHz, \
                     but the limit is 4,294,967,295"
                )
            },
        )?;
    }
    Ok(())
}

/// Cause 24.
fn addresses(l: Layout) -> Result<(), Fault> {
    for (number, row) in l.calls().enumerate() {
        address(&row).map_err(|(at, what)| Fault {
            refusal: Refusal::Address,
            at: row.at + at,
            what: format!("call {number}: {what}"),
        })?;
    }
    Ok(())
}

/// Whether a call has an address that its engine takes. If not: the byte of its row, and what is wrong.
fn address(row: &CallRow) -> Result<(), (usize, String)> {
    let (width, address) = (row.width, row.address);
    if let Some(kind) = Kind::from_number(row.kind)
        && kind.is_blocking()
        && width == 10
    {
        let what = format!("address width is 10, but must be 7 in a {kind}");
        return Err((1, what));
    }
    let highest = if width == 10 { 1023 } else { 127 };
    if address > highest {
        let what =
            format!("address is {address}, but must be 0 to {highest} with a width of {width}");
        return Err((2, what));
    }
    Ok(())
}

/// Cause 25.
fn empty_blocking(l: Layout) -> Result<(), Fault> {
    for (number, row) in l.calls().enumerate() {
        let Some(kind @ (Kind::BlockingWrite | Kind::BlockingRead)) = Kind::from_number(row.kind)
        else {
            continue;
        };
        for operation in l.operations_of(&row) {
            let at = operation.at + 2;
            must(operation.length > 0, Refusal::EmptyBlocking, at, || {
                format!("call {number}: length is 0, but a {kind} needs at least one byte")
            })?;
        }
    }
    Ok(())
}

/// Cause 26. The place is the first read that the buffer does not hold whole.
fn received(l: Layout, room: usize) -> Result<(), Fault> {
    let mut sum = 0;
    for (number, row) in l.operations().enumerate() {
        sum += length_if(&row, 1);
        must(
            sum <= room as u64,
            Refusal::ReceivedBuffer,
            row.at + 2,
            || {
                let sum = counted(sum, "byte");
                format!(
                    "operation {number}: the reads up to this one have {sum}, \
                     but the received buffer has {room}"
                )
            },
        )?;
    }
    Ok(())
}

/// Cause 27. Empty operations do not count. The place is the first write that follows a read.
fn write_after_read(l: Layout) -> Result<(), Fault> {
    for (number, row) in l.calls().enumerate() {
        let Some(kind @ Kind::BlockingTransaction) = Kind::from_number(row.kind) else {
            continue;
        };
        let first = usize::from(row.first);
        let left: Vec<_> = (first..)
            .zip(l.operations_of(&row))
            .filter(|(_, operation)| operation.length > 0)
            .collect();
        for ((read, before), (write, after)) in left.iter().zip(left.iter().skip(1)) {
            let turns_back = before.direction == 1 && after.direction == 0;
            must(!turns_back, Refusal::WriteAfterRead, after.at, || {
                format!(
                    "call {number}: operation {write} is a write after the read of operation {read}, \
                     but a {kind} writes first and then reads"
                )
            })?;
        }
    }
    Ok(())
}
