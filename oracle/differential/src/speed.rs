//! The three speed words against the Rust's `init`, over a dense sweep and its edges; and the table of usual speeds.

use buslist::Mode;

/// The number of settings compared, or the first that differ.
pub fn compare() -> Result<usize, String> {
    let mut compared = 0;
    let mut test = |pclk1: u32, mode: u32, frequency: u32, expected: [u32; 3]| {
        compared += 1;
        let found = engine::speed_words(pclk1, mode, frequency);
        if found == expected {
            Ok(())
        } else {
            Err(format!("pclk1 {pclk1}, mode {mode}, frequency {frequency}: expected {expected:x?}, engine {found:x?}"))
        }
    };
    let frequencies = frequencies();
    for pclk1 in clocks() {
        for mode in Mode::ALL {
            for &frequency in &frequencies {
                test(
                    pclk1,
                    mode as u32,
                    frequency,
                    original::speed_words(pclk1, mode, frequency),
                )?;
            }
        }
        // Document 01: no word on cause 22 or an unknown mode. The Rust has no such settings, or panics.
        for mode in [0, 1, 2, 3, 4, 255, 256, u32::MAX] {
            for frequency in [0, 1, 100_000, 400_000, 400_001, 800_000, u32::MAX] {
                let known = mode <= 2;
                if !known || !(1..=400_000).contains(&frequency) {
                    test(pclk1, mode, frequency, [engine::NO_WORD; 3])?;
                }
            }
        }
    }
    Ok(compared)
}

/// The table of usual speeds, word by word, against what the Rust's `init` writes: the number of words, or the first
/// that differs.
pub fn compare_table() -> Result<u32, String> {
    // Document 02, C-14.
    let speeds = [
        (Mode::Standard, [10, 20, 50, 100]),
        (Mode::Fast2To1, [125, 200, 250, 400]),
        (Mode::Fast16To9, [125, 200, 250, 400]),
    ];
    let mut index = 0;
    for mhz in 2..=36 {
        for (mode, frequencies) in speeds {
            for khz in frequencies {
                let [_, _, ccr] = original::speed_words(mhz * 1_000_000, mode, khz * 1000);
                entry(index, ccr)?;
                index += 1;
            }
        }
    }
    for past in [index, index + 1, 1 << 31, u32::MAX] {
        entry(past, engine::NO_WORD)?;
    }
    Ok(index)
}

fn entry(index: u32, expected: u32) -> Result<(), String> {
    let found = engine::speed_table(index);
    if found == expected {
        Ok(())
    } else {
        Err(format!(
            "entry {index} of the table: expected {expected:x}, engine {found:x}"
        ))
    }
}

/// Every megahertz and its neighbours up to past the chip's clocks, steps between, and the edges of 32 bits.
pub fn clocks() -> Vec<u32> {
    let whole = (0..=130).flat_map(|mhz| around(mhz * 1_000_000));
    let between = (0..130_000_000).step_by(333_331);
    let far = (0..=u32::MAX).step_by(97_000_003);
    let edges = around(u32::MAX);
    whole.chain(between).chain(far).chain(edges).collect()
}

/// Steps over all that is accepted, the smallest, and the neighbours of usual ones.
pub fn frequencies() -> Vec<u32> {
    let usual = [100_000, 200_000, 400_000].into_iter().flat_map(around);
    let all = (1..30).chain((30..400_000).step_by(1_237)).chain(usual);
    all.filter(|&frequency| frequency <= 400_000).collect()
}

fn around(number: u32) -> impl Iterator<Item = u32> {
    number.saturating_sub(1)..=number.saturating_add(1)
}
