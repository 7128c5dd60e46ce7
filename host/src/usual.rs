//! The usual speeds: the CCR word of each, out of a table that the engine holds, and what it is on the bus.
//! No word is computed.
//!
//! ```
//! use vandhukril::usual;
//!
//! for speed in usual::SPEEDS {
//!     let ccr = usual::ccr(36, speed).expect("36 MHz is one of the clocks");
//!     let on_bus = usual::on_bus(36, speed).expect("36 MHz is one of the clocks");
//!     println!("{speed}: CCR {ccr:04x}, on the bus {on_bus:.0} Hz");
//! }
//! ```

use std::fmt;
use std::ops::RangeInclusive;

use crate::settings::{Hertz, Mode};
use crate::{engine, speed};

/// The clocks of the table: pclk1 in whole megahertz.
pub const CLOCKS: RangeInclusive<u32> = 2..=36;

/// A speed: the mode and the frequency that settings have for it.
#[derive(Clone, Copy, Debug, PartialEq, Eq, Hash)]
pub struct Speed {
    /// The bus mode.
    pub mode: Mode,
    /// The bus frequency that is asked for.
    pub frequency: Hertz,
}

const fn speed(mode: Mode, khz: u32) -> Speed {
    Speed {
        mode,
        frequency: Hertz(1000 * khz),
    }
}

/// The speeds of the table, in its order.
pub const SPEEDS: [Speed; 12] = [
    speed(Mode::Standard, 10),
    speed(Mode::Standard, 20),
    speed(Mode::Standard, 50),
    speed(Mode::Standard, 100),
    speed(Mode::Fast2To1, 125),
    speed(Mode::Fast2To1, 200),
    speed(Mode::Fast2To1, 250),
    speed(Mode::Fast2To1, 400),
    speed(Mode::Fast16To9, 125),
    speed(Mode::Fast16To9, 200),
    speed(Mode::Fast16To9, 250),
    speed(Mode::Fast16To9, 400),
];

impl fmt::Display for Speed {
    fn fmt(&self, f: &mut fmt::Formatter<'_>) -> fmt::Result {
        write!(f, "{}, {}", self.mode, self.frequency)
    }
}

/// The CCR word of a usual speed at a clock in whole megahertz. It is the word that the bring-up writes
/// with these settings, and that [`speed::ccr`] answers.
///
/// `None` if the clock is not one of [`CLOCKS`], or the speed not one of [`SPEEDS`].
///
/// ```
/// use vandhukril::{Hertz, Mode, usual};
///
/// let fastest = usual::Speed { mode: Mode::Fast16To9, frequency: Hertz(400_000) };
/// assert_eq!(usual::ccr(36, fastest), Some(0xc003));
/// assert_eq!(usual::ccr(37, fastest), None);
/// ```
pub fn ccr(mhz: u32, speed: Speed) -> Option<u32> {
    let number = SPEEDS.iter().position(|&usual| usual == speed)?;
    let clock = CLOCKS.contains(&mhz).then(|| mhz - CLOCKS.start())?;
    speed::word(engine::speed_table(
        SPEEDS.len() as u32 * clock + number as u32,
    ))
}

/// What a usual speed is on the bus at a clock in whole megahertz, in hertz, as [`speed::on_bus`] has it.
///
/// `None` where [`ccr`] has no word.
///
/// ```
/// use vandhukril::{Hertz, Mode, usual};
///
/// let fastest = usual::Speed { mode: Mode::Fast16To9, frequency: Hertz(400_000) };
/// assert_eq!(usual::on_bus(36, fastest), Some(480_000.0));
/// ```
pub fn on_bus(mhz: u32, speed: Speed) -> Option<f64> {
    let ccr = ccr(mhz, speed)?;
    speed::on_bus(Hertz(1_000_000 * mhz), ccr)
}

#[cfg(test)]
mod tests {
    use super::*;

    /// The tests of [`speed::ccr`] hold its words to the papers.
    #[test]
    fn words_are_those_of_the_settings_clock_by_clock() {
        let mut index = 0;
        for mhz in CLOCKS {
            for speed in SPEEDS {
                let pclk1 = Hertz(mhz * 1_000_000);
                let word = speed::ccr(pclk1, speed.mode, speed.frequency);
                assert_eq!(Some(engine::speed_table(index)), word, "{mhz} MHz, {speed}");
                assert_eq!(ccr(mhz, speed), word, "{mhz} MHz, {speed}");
                assert!(on_bus(mhz, speed).is_some(), "{mhz} MHz, {speed}");
                index += 1;
            }
        }
        assert_eq!(index, 420);
    }

    #[test]
    fn speeds_are_those_of_the_papers_in_their_order() {
        let modes = [
            (Mode::Standard, [10, 20, 50, 100]),
            (Mode::Fast2To1, [125, 200, 250, 400]),
            (Mode::Fast16To9, [125, 200, 250, 400]),
        ];
        let named = modes.map(|(mode, frequencies)| frequencies.map(|khz| speed(mode, khz)));
        assert_eq!(named.concat(), SPEEDS);
    }

    #[test]
    fn other_clocks_and_speeds_have_no_word() {
        for mhz in [0, 1, 37, 38, 36_000_000, u32::MAX] {
            for speed in SPEEDS {
                assert_eq!(ccr(mhz, speed), None, "{mhz} MHz, {speed}");
                assert_eq!(on_bus(mhz, speed), None, "{mhz} MHz, {speed}");
            }
        }
        let unusual = Speed {
            mode: Mode::Standard,
            frequency: Hertz(99_999),
        };
        for mhz in CLOCKS {
            for other in [
                unusual,
                speed(Mode::Standard, 125),
                speed(Mode::Fast2To1, 100),
                speed(Mode::Fast16To9, 0),
            ] {
                assert_eq!(ccr(mhz, other), None, "{mhz} MHz, {other}");
            }
        }
    }
}
