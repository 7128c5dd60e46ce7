//! How a run can end other than well, with the papers' numbers and words.

use std::fmt;

use crate::list::LONGEST_OPERATION;
use crate::run::Counts;

/// A run that did not end well: why, and how far it came.
///
/// The counts are those up to the stop. A refused list has counts of zero, and both buffers are as
/// they were.
#[derive(Clone, Copy, Debug, PartialEq, Eq, Hash)]
pub struct Error {
    /// Why the run stopped.
    pub cause: Cause,
    /// What had been done by then.
    pub counts: Counts,
}

/// Why a run stopped.
///
/// ```
/// use vandhukril::{Cause, NoAcknowledge, Refusal};
///
/// assert_eq!(Cause::from_number(3), Some(Cause::NoAcknowledge(NoAcknowledge::Data)));
/// assert_eq!(Cause::Refused(Refusal::Frequency).number(), 22);
/// assert_eq!(Cause::from_number(0), None); // every call ended well
/// ```
#[derive(Clone, Copy, Debug, PartialEq, Eq, Hash)]
pub enum Cause {
    /// 1: OVR was set, or a polling call ends in a read of length 0.
    Overrun,
    /// 2 to 4: AF was set; its source says what had not been acknowledged.
    NoAcknowledge(NoAcknowledge),
    /// 5: TIMEOUT was set in a polling call, or a blocking wait reached its limit.
    Timeout,
    /// 6: BERR was set in a blocking call.
    Bus,
    /// 7: PECERR was set in a polling call.
    Crc,
    /// 8: ARLO was set.
    ArbitrationLoss,
    /// 9: the next access is a read and every reading is used.
    ReadingsUsed,
    /// 10: fewer than two record words remain for the next access.
    RecordFull,
    /// 20 to 27: the list was refused before any access.
    Refused(Refusal),
    /// A number that this crate does not know: the linked library does not belong to this version of the crate.
    Other(u32),
}

/// What had not been acknowledged.
#[derive(Clone, Copy, Debug, PartialEq, Eq, Hash)]
pub enum NoAcknowledge {
    /// 2: the address. A polling write also answers this for an AF found before it sends a byte.
    Address,
    /// 3: a data byte.
    Data,
    /// 4: not known which.
    Unknown,
}

/// Why a list was refused. The engine tests these in rising order and answers the first.
#[derive(Clone, Copy, Debug, PartialEq, Eq, PartialOrd, Ord, Hash)]
pub enum Refusal {
    /// 20: the bytes are not of the form of a bus list.
    Form,
    /// 21: the list, its calls, its operations or one operation is over the limit.
    Limit,
    /// 22: the frequency is 0 or above 400,000 Hz.
    Frequency,
    /// 23: a timeout is too long for 32 bits of cycles.
    Timeout,
    /// 24: an address is seven-bit and above 127, or ten-bit and above 1023, or ten-bit in a blocking call.
    Address,
    /// 25: a blocking write or a blocking read has length 0.
    EmptyBlocking,
    /// 26: the received buffer is shorter than all reads together.
    ReceivedBuffer,
    /// 27: in a blocking transaction a read is followed by a write, empty operations left out.
    WriteAfterRead,
}

impl Cause {
    /// Every cause with a number of its own, in the order of their numbers.
    pub const ALL: [Cause; 18] = [
        Cause::Overrun,
        Cause::NoAcknowledge(NoAcknowledge::Address),
        Cause::NoAcknowledge(NoAcknowledge::Data),
        Cause::NoAcknowledge(NoAcknowledge::Unknown),
        Cause::Timeout,
        Cause::Bus,
        Cause::Crc,
        Cause::ArbitrationLoss,
        Cause::ReadingsUsed,
        Cause::RecordFull,
        Cause::Refused(Refusal::Form),
        Cause::Refused(Refusal::Limit),
        Cause::Refused(Refusal::Frequency),
        Cause::Refused(Refusal::Timeout),
        Cause::Refused(Refusal::Address),
        Cause::Refused(Refusal::EmptyBlocking),
        Cause::Refused(Refusal::ReceivedBuffer),
        Cause::Refused(Refusal::WriteAfterRead),
    ];

    /// The number that the engine answers for this cause.
    pub const fn number(self) -> u32 {
        match self {
            Cause::Overrun => 1,
            Cause::NoAcknowledge(NoAcknowledge::Address) => 2,
            Cause::NoAcknowledge(NoAcknowledge::Data) => 3,
            Cause::NoAcknowledge(NoAcknowledge::Unknown) => 4,
            Cause::Timeout => 5,
            Cause::Bus => 6,
            Cause::Crc => 7,
            Cause::ArbitrationLoss => 8,
            Cause::ReadingsUsed => 9,
            Cause::RecordFull => 10,
            Cause::Refused(refusal) => refusal.number(),
            Cause::Other(number) => number,
        }
    }

    /// The cause of an answer; none for 0, with which every call ended well.
    pub fn from_number(number: u32) -> Option<Cause> {
        if number == 0 {
            return None;
        }
        let known = Cause::ALL
            .into_iter()
            .find(|cause| cause.number() == number);
        Some(known.unwrap_or(Cause::Other(number)))
    }

    /// The papers' words for this cause.
    pub const fn words(self) -> &'static str {
        match self {
            Cause::Overrun => "Overrun",
            Cause::NoAcknowledge(NoAcknowledge::Address) => "NoAcknowledge Address",
            Cause::NoAcknowledge(NoAcknowledge::Data) => "NoAcknowledge Data",
            Cause::NoAcknowledge(NoAcknowledge::Unknown) => "NoAcknowledge Unknown",
            Cause::Timeout => "Timeout",
            Cause::Bus => "Bus",
            Cause::Crc => "Crc",
            Cause::ArbitrationLoss => "ArbitrationLoss",
            Cause::ReadingsUsed => "the next access is a read and every reading is used",
            Cause::RecordFull => "fewer than two record words remain for the next access",
            Cause::Refused(refusal) => refusal.words(),
            Cause::Other(_) => "a number that this crate does not know",
        }
    }

    /// What to do next, in a sentence or two.
    pub const fn advice(self) -> &'static str {
        match self {
            Cause::Overrun => {
                "If a polling call ends in a read of length 0, take that read out or give it a length. \
                 If none does, OVR was set and a byte was lost: run the list again."
            }
            Cause::NoAcknowledge(source) => source.advice(),
            Cause::Timeout => {
                "The last accesses of the record show what the run waited for. Check the device \
                 and the wiring, or give blocking calls longer timeouts."
            }
            Cause::Bus => {
                "BERR was set, for a START or STOP in the wrong place. Check the wiring and the \
                 pull-ups, then run the list again."
            }
            Cause::Crc => {
                "PECERR was set, though the engine never switches packet error checking on. See what \
                 else writes to CR1."
            }
            Cause::ArbitrationLoss => {
                "Another master took the bus. Run the list again once the bus is free."
            }
            Cause::ReadingsUsed => "Run the list again with more readings.",
            Cause::RecordFull => {
                "Run the list again with a longer record: each access takes two words."
            }
            Cause::Refused(refusal) => refusal.advice(),
            Cause::Other(_) => {
                "The linked library does not belong to this version of the crate. Run \
                 `host/library` at the repository's root, then build again."
            }
        }
    }
}

impl NoAcknowledge {
    /// What to do next.
    const fn advice(self) -> &'static str {
        match self {
            NoAcknowledge::Address => {
                "Check that the call has the device's address, with its width, and that the device \
                 is connected and ready. A polling write also ends this way when the device takes \
                 no more bytes."
            }
            NoAcknowledge::Data => {
                "Check how many bytes the device takes, and that it is ready for them, then run \
                 the list again."
            }
            NoAcknowledge::Unknown => {
                "AF was set before an address was sent. Check the devices on the bus, then run the list again."
            }
        }
    }
}

impl Refusal {
    /// The number that the engine answers for this refusal.
    pub const fn number(self) -> u32 {
        match self {
            Refusal::Form => 20,
            Refusal::Limit => 21,
            Refusal::Frequency => 22,
            Refusal::Timeout => 23,
            Refusal::Address => 24,
            Refusal::EmptyBlocking => 25,
            Refusal::ReceivedBuffer => 26,
            Refusal::WriteAfterRead => 27,
        }
    }

    /// The papers' words for this refusal.
    pub const fn words(self) -> &'static str {
        match self {
            Refusal::Form => "list not of the form",
            Refusal::Limit => {
                "list over 32,768 bytes, calls over 256, operations over 1,024, \
                 an operation over 258 bytes"
            }
            Refusal::Frequency => "frequency 0 or above 400,000",
            Refusal::Timeout => "a timeout times whole sysclk MHz above 4,294,967,295",
            Refusal::Address => {
                "a seven-bit address above 127, a ten-bit one above 1023, or a ten-bit blocking call"
            }
            Refusal::EmptyBlocking => {
                "blocking write (kind 4) or blocking read (kind 5) of length 0"
            }
            Refusal::ReceivedBuffer => "received buffer shorter than all reads together",
            Refusal::WriteAfterRead => {
                "a kind 7 call in which a read is followed by a write after joining"
            }
        }
    }

    /// A sentence for the person who wrote the list: what to change.
    ///
    /// [`explain`](crate::explain) says where in the list.
    pub const fn advice(self) -> &'static str {
        match self {
            Refusal::Form => {
                "Look at the list with `explain` or with the example `show_list`: they name the \
                 first field that is wrong. Correct that field."
            }
            Refusal::Limit => {
                "Split the list, or the operation: at most 32,768 bytes, 256 calls, 1,024 operations, \
                 and 258 bytes in one operation. A transaction of the same engine joins neighbours of one \
                 direction, so it takes a longer read or write in parts."
            }
            Refusal::Frequency => "Set the frequency to a number from 1 to 400,000, in hertz.",
            Refusal::Timeout => {
                "Shorten the start, address or data timeout: its microseconds times the whole \
                 megahertz of sysclk must not pass 4,294,967,295 cycles."
            }
            Refusal::Address => {
                "Give the call a seven-bit address from 0 to 127, as it is before it is shifted to make \
                 room for the direction bit. A polling call may have a ten-bit one, from 0 to 1023."
            }
            Refusal::EmptyBlocking => {
                "Take the empty blocking write or read out of the list, or give it at least one byte."
            }
            Refusal::ReceivedBuffer => {
                "Run the list with a received buffer that holds the bytes of all its reads, or read less."
            }
            Refusal::WriteAfterRead => {
                "A read followed by a write cannot be done without losing the bus between them. \
                 Put the write first, or make two calls."
            }
        }
    }
}

/// The words, the number, and what to do next.
impl fmt::Display for Cause {
    fn fmt(&self, f: &mut fmt::Formatter<'_>) -> fmt::Result {
        match self {
            Cause::Refused(refusal) => refusal.fmt(f),
            cause => write!(
                f,
                "{} ({}). {}",
                cause.words(),
                cause.number(),
                cause.advice()
            ),
        }
    }
}

/// The words, the number, and what to do next.
impl fmt::Display for Refusal {
    fn fmt(&self, f: &mut fmt::Formatter<'_>) -> fmt::Result {
        write!(
            f,
            "refused: {} ({}). {}",
            self.words(),
            self.number(),
            self.advice()
        )
    }
}

/// The cause, the counts so far, and what to do next.
impl fmt::Display for Error {
    fn fmt(&self, f: &mut fmt::Formatter<'_>) -> fmt::Result {
        match self.cause {
            // Its counts are all zero, and say nothing.
            Cause::Refused(refusal) => refusal.fmt(f),
            cause => write!(
                f,
                "stopped: {} ({}). So far: {}. {}",
                cause.words(),
                cause.number(),
                self.counts,
                cause.advice()
            ),
        }
    }
}

impl std::error::Error for Error {}

/// A bus list whose numbers are too large for the fields that would hold them.
///
/// Each of these is far past the engine's own limits (cause 21).
#[derive(Clone, Copy, Debug, PartialEq, Eq, Hash)]
pub enum DoesNotFit {
    /// A write is longer than the 65,535 bytes that a length field holds.
    Write {
        /// The call's place in the list, from 0.
        call: usize,
        /// The operation's place in the call, from 0.
        operation: usize,
        /// Its bytes.
        length: usize,
    },
    /// The operations up to the end of this call are more than 16-bit fields number.
    Operations {
        /// The call's place in the list, from 0.
        call: usize,
    },
    /// The tables or the data are longer than 32-bit fields tell.
    Whole,
}

impl fmt::Display for DoesNotFit {
    fn fmt(&self, f: &mut fmt::Formatter<'_>) -> fmt::Result {
        match self {
            DoesNotFit::Write {
                call,
                operation,
                length,
            } => write!(
                f,
                "call {call}, operation {operation}: a write of {length} bytes does not fit its length field. \
                 Split it: the engine takes at most {LONGEST_OPERATION} bytes in one operation."
            ),
            DoesNotFit::Operations { call } => write!(
                f,
                "call {call}: the operations up to its end are too many for its fields. \
                 Split the list: the engine takes at most 1,024 operations."
            ),
            DoesNotFit::Whole => f.write_str(
                "the list is too long for the fields of its header. \
                 Split it: the engine takes at most 32,768 bytes.",
            ),
        }
    }
}

impl std::error::Error for DoesNotFit {}

#[cfg(test)]
mod tests {
    use super::*;

    #[test]
    fn numbers_are_those_of_the_papers() {
        let numbers = Cause::ALL.map(Cause::number);
        assert_eq!(
            numbers,
            [
                1, 2, 3, 4, 5, 6, 7, 8, 9, 10, 20, 21, 22, 23, 24, 25, 26, 27
            ]
        );
        for cause in Cause::ALL {
            assert_eq!(Cause::from_number(cause.number()), Some(cause));
        }
    }

    #[test]
    fn other_numbers_are_kept() {
        assert_eq!(Cause::from_number(0), None);
        for number in [11, 19, 28, u32::MAX] {
            assert_eq!(Cause::from_number(number), Some(Cause::Other(number)));
        }
    }

    #[test]
    fn a_stop_is_told_with_its_counts_and_a_refusal_without() {
        let counts = Counts {
            calls: 1,
            readings: 12,
            accesses: 21,
            received: 0,
        };
        let stopped = Error {
            cause: Cause::ReadingsUsed,
            counts,
        };
        assert_eq!(
            stopped.to_string(),
            "stopped: the next access is a read and every reading is used (9). \
             So far: 1 call ended well, 12 readings used, 21 accesses made, 0 bytes received. \
             Run the list again with more readings."
        );
        let refused = Error {
            cause: Cause::Refused(Refusal::Frequency),
            counts: Counts::default(),
        };
        assert_eq!(
            refused.to_string(),
            "refused: frequency 0 or above 400,000 (22). \
             Set the frequency to a number from 1 to 400,000, in hertz."
        );
    }

    #[test]
    fn the_longest_operation_is_told_as_it_is() {
        assert_eq!(
            Refusal::Limit.to_string(),
            format!(
                "refused: list over 32,768 bytes, calls over 256, operations over 1,024, \
                 an operation over {LONGEST_OPERATION} bytes (21). \
                 Split the list, or the operation: at most 32,768 bytes, 256 calls, 1,024 operations, \
                 and {LONGEST_OPERATION} bytes in one operation. A transaction of the same engine joins \
                 neighbours of one direction, so it takes a longer read or write in parts."
            )
        );
    }

    #[test]
    fn every_cause_says_what_to_do() {
        for cause in Cause::ALL.into_iter().chain([Cause::Other(11)]) {
            let advice = cause.advice();
            assert!(advice.ends_with('.'), "{advice}");
            assert!(
                cause
                    .to_string()
                    .ends_with(&format!(" ({}). {advice}", cause.number()))
            );
            let counts = Counts::default();
            assert!(Error { cause, counts }.to_string().ends_with(advice));
        }
    }

    #[test]
    fn what_does_not_fit_is_to_be_split() {
        let write = DoesNotFit::Write {
            call: 2,
            operation: 0,
            length: 65_536,
        };
        let texts = [write, DoesNotFit::Operations { call: 3 }, DoesNotFit::Whole]
            .map(|error| error.to_string());
        assert_eq!(
            texts,
            [
                "call 2, operation 0: a write of 65536 bytes does not fit its length field. \
                 Split it: the engine takes at most 258 bytes in one operation.",
                "call 3: the operations up to its end are too many for its fields. \
                 Split the list: the engine takes at most 1,024 operations.",
                "the list is too long for the fields of its header. \
                 Split it: the engine takes at most 32,768 bytes.",
            ]
        );
    }
}
