//! The static library's functions, and the only `unsafe` of this crate.
//!
//! The engine's `extern "C"` functions take a slice as a pointer and then a length, and a reference
//! to an array as a pointer. They read and write nothing but what they are handed, they keep no
//! state, and they always return: all three are part of what the prover checks.
#![allow(unsafe_code)]

mod raw {
    unsafe extern "C" {
        pub fn bus_run(
            list: *const u8,
            list_length: usize,
            readings: *const u32,
            readings_length: usize,
            received: *mut u8,
            received_length: usize,
            record: *mut u32,
            record_length: usize,
            counts: *mut [u64; 5],
        );
        // Plain numbers in, a plain number out: there is nothing a caller could get wrong.
        pub safe fn speed_cr2(pclk1: u32, mode: u32, frequency: u32) -> u32;
        pub safe fn speed_trise(pclk1: u32, mode: u32, frequency: u32) -> u32;
        pub safe fn speed_ccr(pclk1: u32, mode: u32, frequency: u32) -> u32;
        pub safe fn speed_table(index: u32) -> u32;
        pub fn speed_under(pclk1: u32, ceiling: u32, chosen: *mut [u32; 3]);
    }
}

pub(crate) use raw::{speed_ccr, speed_cr2, speed_table, speed_trise};

/// The answer, calls ended well, readings used, accesses made and bytes received of a run.
pub(crate) fn bus_run(
    list: &[u8],
    readings: &[u32],
    received: &mut [u8],
    record: &mut [u32],
) -> [u64; 5] {
    let mut counts = [0; 5];
    // SAFETY: each pointer and length are those of a live slice, so the memory is there, aligned and
    // initialised; an empty slice's pointer is aligned and not null. `received` and `record` are
    // borrowed mutably and `counts` is a local, so none of them overlaps anything else handed over.
    // The engine only reads through the two const pointers and keeps no pointer past its return.
    unsafe {
        raw::bus_run(
            list.as_ptr(),
            list.len(),
            readings.as_ptr(),
            readings.len(),
            received.as_mut_ptr(),
            received.len(),
            record.as_mut_ptr(),
            record.len(),
            &raw mut counts,
        );
    }
    counts
}

/// The answer, the mode and the CCR field of the fastest speed under a ceiling.
pub(crate) fn speed_under(pclk1: u32, ceiling: u32) -> [u32; 3] {
    // No answer, mode or field is this number: one that is not written shows.
    let mut chosen = [u32::MAX; 3];
    // SAFETY: `chosen` is a local, so its memory is there, aligned, and nobody else's. The engine keeps
    // no pointer past its return.
    unsafe {
        raw::speed_under(pclk1, ceiling, &raw mut chosen);
    }
    chosen
}

#[cfg(test)]
mod tests {
    use super::*;

    const NO_WORD: u32 = 4_294_967_295;

    #[test]
    fn every_buffer_may_be_empty() {
        let counts = bus_run(&[], &[], &mut [], &mut []);
        assert_eq!(counts, [20, 0, 0, 0, 0]);
    }

    #[test]
    fn past_the_end_of_the_table_there_is_no_word() {
        for index in [
            420,
            421,
            839,
            840,
            1 << 16,
            1 << 31,
            (1 << 31) + 419,
            u32::MAX,
        ] {
            assert_eq!(speed_table(index), NO_WORD);
        }
    }

    #[test]
    fn an_unknown_mode_has_no_words() {
        for mode in [3, 4, 255, 256, u32::MAX] {
            assert_eq!(speed_cr2(36_000_000, mode, 100_000), NO_WORD);
            assert_eq!(speed_trise(36_000_000, mode, 100_000), NO_WORD);
            assert_eq!(speed_ccr(36_000_000, mode, 100_000), NO_WORD);
        }
    }
}
