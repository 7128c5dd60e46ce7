//! The run of a bus list.

use std::fmt;

use crate::engine;
use crate::error::{Cause, Error};
use crate::text::counted;

/// What a run did.
#[derive(Clone, Copy, Debug, Default, PartialEq, Eq, Hash)]
pub struct Counts {
    /// Calls ended well.
    pub calls: usize,
    /// Readings used, from the first on.
    pub readings: usize,
    /// Accesses made, two record words each.
    pub accesses: usize,
    /// Bytes received, from the start of the received buffer.
    pub received: usize,
}

impl fmt::Display for Counts {
    fn fmt(&self, f: &mut fmt::Formatter<'_>) -> fmt::Result {
        write!(
            f,
            "{} ended well, {} used, {} made, {} received",
            counted(self.calls, "call"),
            counted(self.readings, "reading"),
            counted(self.accesses, "access"),
            counted(self.received, "byte")
        )
    }
}

/// Runs a bus list on these readings: the bring-up, then the calls in order, until one does not end well.
///
/// Every register access goes to `record`, two words each, and every byte received to `received`.
/// What lies past the accesses made and the bytes received is left as it was.
///
/// Every slice may have any length. A list that is not right is refused before any access. A run
/// that has no reading left for a read, or no two record words left for an access, stops there.
///
/// # Errors
///
/// Any end but a good one, with the counts so far: see [`Cause`].
///
/// # Examples
///
/// ```
/// use vandhukril::{BusList, Cause, Hertz, Mode, PollingSettings, run};
///
/// let settings = PollingSettings {
///     pclk1: Hertz(36_000_000),
///     mode: Mode::Standard,
///     frequency: Hertz(100_000),
/// };
/// let list = BusList::new(settings).write(0x50, &[0x2a]).to_bytes()?;
/// let readings = [0, 1, 1, 1, 1, 3, 2, 7, 0x80, 0x84, 1, 1];
///
/// let mut record = [0; 42];
/// let counts = run(&list, &readings, &mut [], &mut record)?;
/// assert_eq!((counts.calls, counts.readings, counts.accesses), (1, 12, 21));
/// assert_eq!(record[..2], [12, 0x24]); // the first access: a write of CR2
///
/// // One reading less: the run stops before its last access.
/// let stopped = run(&list, &readings[..11], &mut [], &mut record).unwrap_err();
/// assert_eq!(stopped.cause, Cause::ReadingsUsed);
/// assert_eq!(stopped.counts.accesses, 20);
/// # Ok::<(), Box<dyn std::error::Error>>(())
/// ```
///
/// The four slices cannot overlap where one of them is written. This does not compile:
///
/// ```compile_fail,E0502
/// let mut bytes = [0; 100];
/// let _ = vandhukril::run(&bytes, &[], &mut bytes, &mut []);
/// ```
///
/// Nor does this:
///
/// ```compile_fail,E0502
/// let mut words = [0; 100];
/// let _ = vandhukril::run(&[], &words[..60], &mut [], &mut words[40..]);
/// ```
pub fn run(
    list: &[u8],
    readings: &[u32],
    received: &mut [u8],
    record: &mut [u32],
) -> Result<Counts, Error> {
    let [answer, counts @ ..] = engine::bus_run(list, readings, received, record);
    // The library is linked on 64-bit machines only, where no count is cut.
    let [calls, readings, accesses, received] = counts.map(|count| count as usize);
    let counts = Counts {
        calls,
        readings,
        accesses,
        received,
    };
    // Answers have 32 bits; one that had more would be no known number either.
    match Cause::from_number(u32::try_from(answer).unwrap_or(u32::MAX)) {
        None => Ok(counts),
        Some(cause) => Err(Error { cause, counts }),
    }
}

/// The number of an end: 0 where every call ended well, else that of its cause.
///
/// ```
/// let refused = vandhukril::run(b"not a list", &[], &mut [], &mut []);
/// assert_eq!(vandhukril::answer(&refused), 20);
/// ```
pub fn answer(end: &Result<Counts, Error>) -> u32 {
    match end {
        Ok(_) => 0,
        Err(error) => error.cause.number(),
    }
}
