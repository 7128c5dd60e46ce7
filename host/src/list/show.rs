//! A list as text, field by field, for the person who wrote its bytes.

use std::fmt::Write;

use super::Kind;
use super::check::form;
use super::layout::{CallRow, Layout, OperationRow, ROW};

/// How many data bytes of a write are shown.
const SHOWN: usize = 16;

/// The header's words in order.
const FIELDS: [&str; 16] = [
    "calls",
    "call offset",
    "operations",
    "operation offset",
    "data bytes",
    "data offset",
    "pclk1, Hz",
    "sysclk, Hz",
    "mode",
    "frequency, Hz",
    "start timeout, µs",
    "start retries",
    "address timeout, µs",
    "data timeout, µs",
    "zero",
    "zero",
];

/// Shows any bytes as a bus list: each field with its first byte's place, as far as bytes are there.
/// Where they are not of the form, the first field at fault is marked.
///
/// The tables are looked for where their counts put them, right or wrong.
///
/// ```
/// use vandhukril::{BusList, Hertz, Mode, PollingSettings, show};
///
/// let settings = PollingSettings {
///     pclk1: Hertz(36_000_000),
///     mode: Mode::Standard,
///     frequency: Hertz(100_000),
/// };
/// let mut bytes = BusList::new(settings).write(0x50, &[0x2a]).to_bytes()?;
/// let text = show(&bytes);
/// assert!(text.contains("\n64: call 0: polling write, address width 7, address 0x50, "));
/// assert!(text.contains("\n72: operation 0: write, length 1, data offset 0, bytes 2a\n"));
///
/// bytes[32] = 9;
/// assert!(show(&bytes).contains("\n32: mode: 9 <- mode is 9, but must be 0 to 2\n"));
/// # Ok::<(), Box<dyn std::error::Error>>(())
/// ```
pub fn show(list: &[u8]) -> String {
    let layout = Layout(list);
    let mut fault = form(layout).err();
    let mut text = String::new();
    for (at, size, line) in lines(layout) {
        // Writing to a string does not fail.
        let _ = write!(text, "{at}: {line}");
        if let Some(here) = fault.take_if(|fault| (at..at + size).contains(&fault.at)) {
            let _ = write!(text, " <- {}", here.what);
        }
        text.push('\n');
    }
    // In no field: past the end, or in the data.
    if let Some(fault) = fault {
        let _ = writeln!(text, "{}: <- {}", fault.at, fault.what);
    }
    text
}

/// Every field or row that has a byte there: its place, its size and its text.
fn lines(l: Layout) -> impl Iterator<Item = (usize, usize, String)> {
    let header = FIELDS
        .iter()
        .enumerate()
        .map(|(number, name)| (4 * number, name))
        .take_while(move |(at, _)| *at < l.0.len())
        .map(move |(at, name)| (at, 4, format!("{name}: {}", l.word(at))));
    let calls = l
        .calls()
        .enumerate()
        .map(|(number, row)| (row.at, ROW, format!("call {number}: {}", call(&row))));
    let operations = l.operations().enumerate().map(move |(number, row)| {
        let line = format!("operation {number}: {}", operation(l, &row));
        (row.at, ROW, line)
    });
    header.chain(calls).chain(operations)
}

fn call(row: &CallRow) -> String {
    let kind = Kind::from_number(row.kind)
        .map_or_else(|| format!("kind {}", row.kind), |kind| kind.to_string());
    // Two digits of a seven-bit address, three of a ten-bit one.
    let digits = if row.width == 10 { 5 } else { 4 };
    format!(
        "{kind}, address width {}, address {:#0digits$x}, first operation {}, operation count {}",
        row.width, row.address, row.first, row.count
    )
}

fn operation(l: Layout, row: &OperationRow) -> String {
    let direction = match row.direction {
        0 => "write".to_string(),
        1 => "read".to_string(),
        other => format!("direction {other}"),
    };
    let mut line = format!(
        "{direction}, length {}, data offset {}",
        row.length, row.offset
    );
    if row.direction == 0 {
        line.push_str(", bytes");
        let data = l.data(row);
        for byte in data.iter().take(SHOWN) {
            let _ = write!(line, " {byte:02x}");
        }
        if data.len() > SHOWN {
            line.push_str(" ..");
        }
    }
    line
}

#[cfg(test)]
mod tests {
    use super::*;

    #[test]
    fn an_address_has_the_digits_of_its_width() {
        let text = |width, address| {
            call(&CallRow {
                at: 64,
                kind: 3,
                width,
                address,
                first: 0,
                count: 0,
            })
        };
        let seven = "polling transaction, address width 7, address 0x05, ";
        assert!(text(7, 5).starts_with(seven));
        let ten = "polling transaction, address width 10, address 0x005, ";
        assert!(text(10, 5).starts_with(ten));
    }

    #[test]
    fn no_bytes_are_shown_as_missing() {
        assert_eq!(
            show(&[]),
            "0: <- the list ends here, but its header takes 64 bytes\n"
        );
    }

    #[test]
    fn a_cut_header_is_shown_as_far_as_it_goes() {
        let text = show(&[2, 0, 0, 0, 64, 0]);
        assert_eq!(
            text,
            "0: calls: 2\n4: call offset: 64 <- the list ends here, but its header takes 64 bytes\n"
        );
    }

    #[test]
    fn each_line_of_the_header_has_its_place() {
        let text = show(&[0; 64]);
        assert_eq!(text.lines().count(), FIELDS.len());
        assert!(text.contains(
            "\n4: call offset: 0 <- call offset is 0, but must be 64 (the length of the header)\n"
        ));
        assert!(text.contains("\n36: frequency, Hz: 0\n"));
    }
}
