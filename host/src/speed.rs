//! The speed words: what the bring-up writes to CR2, TRISE and CCR; what a CCR word is on the bus; and the fastest
//! speed under a ceiling.
//!
//! The functions of the three words answer `None` where the settings have no word, that is, for a frequency of 0 or
//! above 400,000 Hz. A bus list with such a frequency is refused.
//!
//! ```
//! use vandhukril::{Hertz, Mode, speed};
//!
//! let (pclk1, frequency) = (Hertz(36_000_000), Hertz(400_000));
//! assert_eq!(speed::cr2(pclk1, Mode::Fast2To1, frequency), Some(36));
//! assert_eq!(speed::trise(pclk1, Mode::Fast2To1, frequency), Some(11));
//! assert_eq!(speed::ccr(pclk1, Mode::Fast2To1, frequency), Some(0x801e));
//! ```

mod fastest;

use crate::engine;
use crate::settings::{Hertz, Mode};

pub use fastest::{Fastest, NoChoice, under};

/// What the engine answers where there is no word.
const NO_WORD: u32 = 4_294_967_295;

pub(crate) fn word(answer: u32) -> Option<u32> {
    (answer != NO_WORD).then_some(answer)
}

/// The CR2 word: pclk1 in whole megahertz, cut to six bits.
///
/// ```
/// use vandhukril::{Hertz, Mode, speed};
/// // Six bits hold no 64.
/// assert_eq!(speed::cr2(Hertz(64_000_000), Mode::Standard, Hertz(100_000)), Some(0));
/// ```
pub fn cr2(pclk1: Hertz, mode: Mode, frequency: Hertz) -> Option<u32> {
    word(engine::speed_cr2(pclk1.0, mode.number(), frequency.0))
}

/// The TRISE word: the longest rise time in cycles of pclk1, and one more, cut to six bits.
///
/// ```
/// use vandhukril::{Hertz, Mode, speed};
/// assert_eq!(speed::trise(Hertz(36_000_000), Mode::Standard, Hertz(100_000)), Some(37));
/// ```
pub fn trise(pclk1: Hertz, mode: Mode, frequency: Hertz) -> Option<u32> {
    word(engine::speed_trise(pclk1.0, mode.number(), frequency.0))
}

/// The CCR word: the clock control field, with F/S (bit 15) in Fast mode and DUTY (bit 14) for 16:9.
///
/// ```
/// use vandhukril::{Hertz, Mode, speed};
/// let pclk1 = Hertz(36_000_000);
/// assert_eq!(speed::ccr(pclk1, Mode::Fast16To9, Hertz(400_000)), Some(0xc003));
/// assert_eq!(speed::ccr(pclk1, Mode::Fast16To9, Hertz(400_001)), None);
/// ```
pub fn ccr(pclk1: Hertz, mode: Mode, frequency: Hertz) -> Option<u32> {
    word(engine::speed_ccr(pclk1.0, mode.number(), frequency.0))
}

/// What a CCR word is on the bus: the frequency of SCL in hertz, by RM0008's formula. A period of SCL is
/// 2, 3 or 25 times the word's field in cycles of pclk1, by the mode. Rise times, and a device that holds
/// SCL low, make it longer.
///
/// The field is rounded down and has a least value. So this can be more than was asked for, or less.
///
/// `None` for a field of 0, and for a word with other flags than those of a mode.
///
/// ```
/// use vandhukril::{Hertz, Mode, speed};
/// let pclk1 = Hertz(36_000_000);
/// let ccr = speed::ccr(pclk1, Mode::Fast16To9, Hertz(400_000)).expect("it is not above 400,000 Hz");
/// assert_eq!(speed::on_bus(pclk1, ccr), Some(480_000.0));
/// ```
pub fn on_bus(pclk1: Hertz, ccr: u32) -> Option<f64> {
    let field = ccr & 0x0fff;
    let mode = Mode::ALL
        .into_iter()
        .find(|&mode| flags(mode) == ccr & !0x0fff)?;
    (field != 0).then(|| hertz(pclk1, mode, field))
}

/// F/S (bit 15) and DUTY (bit 14) as a mode has them in a CCR word.
const fn flags(mode: Mode) -> u32 {
    match mode {
        Mode::Standard => 0,
        Mode::Fast2To1 => 0x8000,
        Mode::Fast16To9 => 0xc000,
    }
}

/// The cycles of pclk1 in a period of SCL for a field of 1.
const fn divisor(mode: Mode) -> u32 {
    match mode {
        Mode::Standard => 2,
        Mode::Fast2To1 => 3,
        Mode::Fast16To9 => 25,
    }
}

/// The frequency of SCL in hertz, by the formula of [`on_bus`].
fn hertz(pclk1: Hertz, mode: Mode, field: u32) -> f64 {
    f64::from(pclk1.0) / (f64::from(divisor(mode)) * f64::from(field))
}

#[cfg(test)]
mod tests {
    use super::*;

    /// The three words as the scope paper's "Bring-up" has them, written again from its sentences.
    fn written(pclk1: u32, mode: Mode, frequency: u32) -> Option<[u32; 3]> {
        if frequency == 0 || frequency > 400_000 {
            return None;
        }
        let (pclk1, frequency) = (u64::from(pclk1), u64::from(frequency));
        let mhz = pclk1 / 1_000_000;
        let (trise, ccr) = match mode {
            Mode::Standard => (mhz + 1, (pclk1 / (2 * frequency)).max(4) % 4096),
            Mode::Fast2To1 => (
                mhz * 300 / 1000 + 1,
                0x8000 + (pclk1 / (3 * frequency)).max(1) % 4096,
            ),
            Mode::Fast16To9 => (
                mhz * 300 / 1000 + 1,
                0xc000 + (pclk1 / (25 * frequency)).max(1) % 4096,
            ),
        };
        Some([mhz % 64, trise % 64, ccr].map(|word| word as u32))
    }

    #[test]
    fn frequencies_on_the_bus() {
        let pclk1 = Hertz(36_000_000);
        for (ccr, hertz) in [
            (0x00b4, Some(100_000.0)),
            (0x0fff, Some(36_000_000.0 / 8190.0)),
            (0x801e, Some(400_000.0)),
            (0xc003, Some(480_000.0)),
            (0xcfff, Some(36_000_000.0 / 102_375.0)),
            (0x0000, None),
            (0x8000, None),
            (0xc000, None),
            (0x4001, None),
            (0x1001, None),
            (0x1_0001, None),
            (NO_WORD, None),
        ] {
            assert_eq!(on_bus(pclk1, ccr), hertz, "{ccr:04x}");
        }
        assert_eq!(on_bus(Hertz(0), 4), Some(0.0));
    }

    #[test]
    fn words_are_those_of_the_paper() {
        let clocks = [
            0, 1, 999_999, 1_000_000, 2_000_000, 8_000_000, 35_999_999, 36_000_000,
        ]
        .into_iter()
        .chain([
            62_999_999,
            63_000_000,
            64_000_000,
            72_000_000,
            u32::MAX - 1,
            u32::MAX,
        ]);
        for pclk1 in clocks {
            for mode in Mode::ALL {
                for frequency in [
                    0,
                    1,
                    2,
                    1000,
                    4394,
                    99_999,
                    100_000,
                    399_999,
                    400_000,
                    400_001,
                    u32::MAX,
                ] {
                    let (clock, speed) = (Hertz(pclk1), Hertz(frequency));
                    let words = [cr2, trise, ccr].map(|word| word(clock, mode, speed));
                    let expected = match written(pclk1, mode, frequency) {
                        Some(expected) => expected.map(Some),
                        None => [None; 3],
                    };
                    assert_eq!(words, expected, "{clock}, {mode}, {speed}");
                }
            }
        }
    }
}
