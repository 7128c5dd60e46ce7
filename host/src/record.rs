//! The record of a run: its register accesses, and the text that `busrun` prints.

use std::fmt;

use crate::error::Error;
use crate::run::{Counts, answer};

/// One register access, as its two record words have it.
#[derive(Clone, Copy, Debug, PartialEq, Eq, Hash)]
pub struct Access {
    /// The code: which register, read or written.
    pub code: u32,
    /// The value read or written.
    pub value: u32,
}

/// Whether an access reads or writes.
#[derive(Clone, Copy, Debug, PartialEq, Eq, Hash)]
pub enum Direction {
    /// The value comes from a reading.
    Read,
    /// The value goes to the register.
    Write,
}

/// A register of the peripheral, or the cycle counter.
#[derive(Clone, Copy, Debug, PartialEq, Eq, Hash)]
pub enum Register {
    /// Control register 1.
    Cr1,
    /// Control register 2.
    Cr2,
    /// Data register.
    Dr,
    /// Status register 1.
    Sr1,
    /// Status register 2.
    Sr2,
    /// Clock control register.
    Ccr,
    /// Rise time register.
    Trise,
    /// The 32-bit cycle counter.
    Cyc,
}

impl Register {
    /// The register's name as `busrun` prints it.
    pub const fn name(self) -> &'static str {
        match self {
            Register::Cr1 => "cr1",
            Register::Cr2 => "cr2",
            Register::Dr => "dr",
            Register::Sr1 => "sr1",
            Register::Sr2 => "sr2",
            Register::Ccr => "ccr",
            Register::Trise => "trise",
            Register::Cyc => "cyc",
        }
    }
}

/// A flag of SR1 that reports an error, by the weight of its bit.
#[derive(Clone, Copy, Debug, PartialEq, Eq, Hash)]
#[repr(u32)]
pub enum ErrorFlag {
    /// BERR: a START or STOP in the wrong place.
    Berr = 1 << 8,
    /// ARLO: arbitration was lost.
    Arlo = 1 << 9,
    /// AF: a missing acknowledge.
    Af = 1 << 10,
    /// OVR: an overrun.
    Ovr = 1 << 11,
    /// PECERR: a wrong checksum.
    Pecerr = 1 << 12,
    /// TIMEOUT: the clock was held low for too long.
    Timeout = 1 << 14,
}

impl ErrorFlag {
    /// All six, in the order of their bits.
    pub const ALL: [ErrorFlag; 6] = [
        ErrorFlag::Berr,
        ErrorFlag::Arlo,
        ErrorFlag::Af,
        ErrorFlag::Ovr,
        ErrorFlag::Pecerr,
        ErrorFlag::Timeout,
    ];

    /// The weight of its bit in SR1.
    pub const fn bit(self) -> u32 {
        self as u32
    }
}

/// The bits of SR1 that a write of 0 clears and a write of 1 leaves: 8 to 12, 14 and 15.
const WRITE_ZERO_TO_CLEAR: u32 = 0xdf00;

impl Access {
    /// Whether it reads or writes. The codes of reads are below those of writes.
    pub const fn direction(self) -> Direction {
        if self.code < 11 {
            Direction::Read
        } else {
            Direction::Write
        }
    }

    /// The register. The engine records no code without one; a record from elsewhere may.
    pub const fn register(self) -> Option<Register> {
        Some(match self.code {
            1 | 15 => Register::Sr1,
            2 => Register::Sr2,
            3 | 11 => Register::Cr1,
            4 | 16 => Register::Dr,
            5 => Register::Cyc,
            12 => Register::Cr2,
            13 => Register::Ccr,
            14 => Register::Trise,
            _ => return None,
        })
    }

    /// The one flag that it clears. None for every other access: for the 0 before START too, which clears all.
    ///
    /// ```
    /// use vandhukril::{Access, ErrorFlag};
    ///
    /// let access = Access { code: 15, value: 0xd700 };
    /// assert_eq!(access.cleared(), Some(ErrorFlag::Ovr));
    /// assert_eq!(Access { code: 15, value: 0 }.cleared(), None);
    /// ```
    pub fn cleared(self) -> Option<ErrorFlag> {
        if (self.direction(), self.register()) != (Direction::Write, Some(Register::Sr1)) {
            return None;
        }
        ErrorFlag::ALL
            .into_iter()
            .find(|flag| self.value == WRITE_ZERO_TO_CLEAR & !flag.bit())
    }
}

/// As `busrun` prints it: `r` or `w`, the register, and the value in hexadecimal.
///
/// ```
/// let access = vandhukril::Access { code: 16, value: 0xa0 };
/// assert_eq!(access.to_string(), "w dr 00a0");
/// ```
impl fmt::Display for Access {
    fn fmt(&self, f: &mut fmt::Formatter<'_>) -> fmt::Result {
        let direction = match self.direction() {
            Direction::Read => "r",
            Direction::Write => "w",
        };
        let register = self.register();
        let name = register.map_or("?", Register::name);
        // Only the cycle counter has 32 bits.
        let digits = if register == Some(Register::Cyc) {
            8
        } else {
            4
        };
        write!(f, "{direction} {name} {:0digits$x}", self.value)
    }
}

/// The words of one access in a record: its code and its value.
pub const ACCESS_WORDS: usize = 2;

/// The accesses in the words of a record. A single word at the end is no access.
///
/// ```
/// use vandhukril::{Register, accesses};
///
/// let mut all = accesses(&[12, 0x24, 3, 0]);
/// assert_eq!(all.next().and_then(|access| access.register()), Some(Register::Cr2));
/// assert_eq!(all.next().map(|access| access.to_string()), Some("r cr1 0000".to_string()));
/// assert_eq!(all.next(), None);
/// ```
pub fn accesses(record: &[u32]) -> impl Iterator<Item = Access> {
    record
        .as_chunks::<ACCESS_WORDS>()
        .0
        .iter()
        .map(|&[code, value]| Access { code, value })
}

/// A run as `busrun` prints it: the accesses, the received bytes if any, and the end.
///
/// Both buffers are given whole. The end says how much of them the run wrote.
///
/// ```
/// use vandhukril::{Report, run};
///
/// let end = run(b"not a list", &[], &mut [], &mut []);
/// let report = Report { end: &end, received: &[], record: &[] };
/// assert_eq!(report.to_string(), "end 20 0 0 0 0\n");
/// ```
#[derive(Clone, Copy, Debug)]
pub struct Report<'a> {
    /// How the run ended.
    pub end: &'a Result<Counts, Error>,
    /// The received buffer after the run.
    pub received: &'a [u8],
    /// The record after the run.
    pub record: &'a [u32],
}

impl fmt::Display for Report<'_> {
    fn fmt(&self, f: &mut fmt::Formatter<'_>) -> fmt::Result {
        let counts = match self.end {
            Ok(counts) => counts,
            Err(error) => &error.counts,
        };
        // `take` and not a slice: nothing says that these are the buffers of that run.
        for access in accesses(self.record).take(counts.accesses) {
            writeln!(f, "{access}")?;
        }
        if counts.received > 0 {
            f.write_str("rx")?;
            for byte in self.received.iter().take(counts.received) {
                write!(f, " {byte:02x}")?;
            }
            writeln!(f)?;
        }
        writeln!(
            f,
            "end {} {} {} {} {}",
            answer(self.end),
            counts.calls,
            counts.readings,
            counts.accesses,
            counts.received
        )
    }
}

#[cfg(test)]
mod tests {
    use super::*;

    #[test]
    fn every_code_has_its_text() {
        let texts = [
            (1, "r sr1"),
            (2, "r sr2"),
            (3, "r cr1"),
            (4, "r dr"),
            (11, "w cr1"),
            (12, "w cr2"),
            (13, "w ccr"),
            (14, "w trise"),
            (15, "w sr1"),
            (16, "w dr"),
        ];
        for (code, text) in texts {
            let access = Access {
                code,
                value: 0xbeef,
            };
            assert_eq!(access.to_string(), format!("{text} beef"));
        }
        let cycles = Access {
            code: 5,
            value: 0xbeef,
        };
        assert_eq!(cycles.to_string(), "r cyc 0000beef");
    }

    #[test]
    fn a_code_of_no_register_is_marked() {
        for code in [0, 6, 10, 17, u32::MAX] {
            assert_eq!(Access { code, value: 0 }.register(), None);
        }
        assert_eq!(Access { code: 17, value: 1 }.to_string(), "w ? 0001");
    }

    #[test]
    fn only_a_write_of_sr1_that_keeps_the_other_flags_clears_one() {
        let words = [0xde00, 0xdd00, 0xdb00, 0xd700, 0xcf00, 0x9f00];
        let cleared = words.map(|value| Access { code: 15, value }.cleared());
        assert_eq!(cleared, ErrorFlag::ALL.map(Some));
        for (code, value) in [
            (15, 0xdf00),   // no flag
            (15, 0xdc00),   // two flags
            (15, 0),        // every flag
            (15, 0x5f00),   // bit 15 alone
            (15, 0x5e00),   // a flag, and bit 15
            (15, 0xfe00),   // a flag, with bit 13
            (15, 0x1_de00), // a flag, with a bit above
            (1, 0xde00),    // a read
            (11, 0xde00),   // another register
            (17, 0xde00),   // no register
        ] {
            assert_eq!(Access { code, value }.cleared(), None);
        }
    }

    #[test]
    fn a_report_of_buffers_that_are_too_short_shows_what_is_there() {
        let end = Ok(Counts {
            calls: 1,
            readings: 9,
            accesses: 9,
            received: 9,
        });
        let report = Report {
            end: &end,
            received: &[0xab],
            record: &[3, 1, 4],
        };
        assert_eq!(report.to_string(), "r cr1 0001\nrx ab\nend 0 1 9 9 9\n");
    }
}
