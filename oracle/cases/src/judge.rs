//! What a case must come to: by the independent reader where it refuses, else by the original and, for ten-bit calls,
//! the model.

use buslist::{refusal, List};
use device::ENTRY_WORDS;
use original::Modelled;

use crate::Case;

/// What a run leaves.
#[derive(Debug, Clone, PartialEq, Eq)]
pub struct Ran {
    /// The answer, calls ended well, readings used, accesses made, bytes received.
    pub counts: [u64; 5],
    pub rx: Vec<u8>,
    pub record: Vec<u32>,
}

impl Ran {
    /// Buffers before a run: words that no run would write by chance, so that what is left untouched shows.
    pub fn before(case: &Case) -> Ran {
        let rx = (0..case.rx).map(|at| (at * 37 + 0xA5) as u8);
        let record = (0..case.record).map(|at| 0xDEAD_0000 ^ at as u32);
        Ran {
            counts: [0; 5],
            rx: rx.collect(),
            record: record.collect(),
        }
    }

    pub fn answer(&self) -> u32 {
        self.counts[0] as u32
    }

    /// The record: the words of the accesses made.
    pub fn made(&self) -> &[u32] {
        &self.record[..ENTRY_WORDS * self.counts[3] as usize]
    }
}

pub fn judge(case: &Case) -> Ran {
    let refused = refusal(&case.list, case.rx);
    if refused != 0 {
        let mut ran = Ran::before(case);
        ran.counts[0] = u64::from(refused);
        return ran;
    }
    run_list(&original::ten_bit, case, &case.list)
}

/// What an accepted list leaves on the readings and buffers of a case, with these calls done by the model.
pub fn run_list(modelled: Modelled, case: &Case, list: &[u8]) -> Ran {
    let mut ran = Ran::before(case);
    let list = List::accepted(list);
    let (rx, record) = (&mut ran.rx, &mut ran.record);
    let counts = original::run_with(modelled, &list, &case.readings, rx, record);
    ran.counts = [
        u64::from(counts.answer),
        counts.calls as u64,
        counts.used as u64,
        counts.made as u64,
        counts.received as u64,
    ];
    ran
}
