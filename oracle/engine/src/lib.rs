//! The proved engine, as its static library offers it: safe functions over the exported ones.
//!
//! None of the exported functions requires anything of its arguments. A slice passes as a pointer, then a
//! length; a reference to an array as a pointer.

mod exported {
    extern "C" {
        pub fn bus_run(
            list: *const u8,
            list_length: usize,
            readings: *const u32,
            readings_length: usize,
            rx: *mut u8,
            rx_length: usize,
            log: *mut u32,
            log_length: usize,
            counts: *mut [u64; 5],
        );
        pub fn speed_cr2(pclk1: u32, mode: u32, frequency: u32) -> u32;
        pub fn speed_trise(pclk1: u32, mode: u32, frequency: u32) -> u32;
        pub fn speed_ccr(pclk1: u32, mode: u32, frequency: u32) -> u32;
        pub fn speed_table(index: u32) -> u32;
        pub fn speed_under(pclk1: u32, ceiling: u32, chosen: *mut [u32; 3]);
    }
}

/// What stands for a speed word where there is none.
pub const NO_WORD: u32 = u32::MAX;

/// Runs a list: the answer, calls ended well, readings used, accesses made, bytes received.
pub fn run(list: &[u8], readings: &[u32], rx: &mut [u8], record: &mut [u32]) -> [u64; 5] {
    let mut counts = [0; 5];
    // SAFETY: every pointer comes with the length of its slice, and the slices to be written are borrowed alone.
    unsafe {
        exported::bus_run(
            list.as_ptr(),
            list.len(),
            readings.as_ptr(),
            readings.len(),
            rx.as_mut_ptr(),
            rx.len(),
            record.as_mut_ptr(),
            record.len(),
            &mut counts,
        );
    }
    counts
}

/// The CR2, TRISE and CCR words of the settings.
pub fn speed_words(pclk1: u32, mode: u32, frequency: u32) -> [u32; 3] {
    // SAFETY: numbers in, a number out.
    unsafe {
        [
            exported::speed_cr2(pclk1, mode, frequency),
            exported::speed_trise(pclk1, mode, frequency),
            exported::speed_ccr(pclk1, mode, frequency),
        ]
    }
}

/// The CCR word of an entry of the table of usual speeds.
pub fn speed_table(index: u32) -> u32 {
    // SAFETY: a number in, a number out.
    unsafe { exported::speed_table(index) }
}

/// The fastest speed under a ceiling: the answer, the number of the mode, and the CCR field.
pub fn speed_under(pclk1: u32, ceiling: u32) -> [u32; 3] {
    // No zeros, since 0 can be right: a number that is not written shows.
    let mut chosen = [u32::MAX; 3];
    // SAFETY: numbers in, and the array to be written is borrowed alone.
    unsafe { exported::speed_under(pclk1, ceiling, &mut chosen) };
    chosen
}
