//! The settings of a run, each in its own unit.

use std::fmt;

/// A clock or a bus frequency in hertz.
#[derive(Clone, Copy, Debug, Default, PartialEq, Eq, PartialOrd, Ord, Hash)]
pub struct Hertz(pub u32);

/// A timeout in microseconds.
#[derive(Clone, Copy, Debug, Default, PartialEq, Eq, PartialOrd, Ord, Hash)]
pub struct Micros(pub u32);

impl fmt::Display for Hertz {
    fn fmt(&self, f: &mut fmt::Formatter<'_>) -> fmt::Result {
        write!(f, "{} Hz", self.0)
    }
}

impl fmt::Display for Micros {
    fn fmt(&self, f: &mut fmt::Formatter<'_>) -> fmt::Result {
        write!(f, "{} µs", self.0)
    }
}

/// The bus mode, with the duty cycle of SCL in Fast mode.
#[derive(Clone, Copy, Debug, PartialEq, Eq, Hash)]
pub enum Mode {
    /// Standard mode.
    Standard,
    /// Fast mode, SCL low twice as long as high.
    Fast2To1,
    /// Fast mode, SCL low to high as 16 to 9.
    Fast16To9,
}

impl Mode {
    /// Every mode, in the order of their numbers.
    pub const ALL: [Mode; 3] = [Mode::Standard, Mode::Fast2To1, Mode::Fast16To9];

    /// The number that stands for the mode in a bus list.
    pub const fn number(self) -> u32 {
        match self {
            Mode::Standard => 0,
            Mode::Fast2To1 => 1,
            Mode::Fast16To9 => 2,
        }
    }

    /// The mode of a number, if it has one.
    ///
    /// ```
    /// use vandhukril::Mode;
    /// assert_eq!(Mode::from_number(2), Some(Mode::Fast16To9));
    /// assert_eq!(Mode::from_number(3), None);
    /// ```
    pub fn from_number(number: u32) -> Option<Mode> {
        Mode::ALL.into_iter().find(|mode| mode.number() == number)
    }
}

impl fmt::Display for Mode {
    fn fmt(&self, f: &mut fmt::Formatter<'_>) -> fmt::Result {
        f.write_str(match self {
            Mode::Standard => "Standard",
            Mode::Fast2To1 => "Fast 2:1",
            Mode::Fast16To9 => "Fast 16:9",
        })
    }
}

/// The settings of a bus list that has polling calls only.
///
/// Written as bytes, such a list has 0 for each setting that only blocking calls use.
#[derive(Clone, Copy, Debug, PartialEq, Eq, Hash)]
pub struct PollingSettings {
    /// The clock of the peripheral, from which the speed words are made.
    pub pclk1: Hertz,
    /// The bus mode.
    pub mode: Mode,
    /// The bus frequency, 1 to 400,000 Hz.
    pub frequency: Hertz,
}

/// The settings of a bus list that may have blocking calls: all eight.
///
/// There is no constructor and no default, so that none of the eight is forgotten. With 0 retries
/// a blocking call sends no START, and a timeout of 0 waits for nothing.
///
/// ```compile_fail,E0063
/// use vandhukril::{Hertz, Mode, Settings};
///
/// // It names no sysclk, no timeouts and no retries.
/// let settings = Settings {
///     pclk1: Hertz(36_000_000),
///     mode: Mode::Standard,
///     frequency: Hertz(100_000),
/// };
/// ```
#[derive(Clone, Copy, Debug, PartialEq, Eq, Hash)]
pub struct Settings {
    /// The clock of the peripheral, from which the speed words are made.
    pub pclk1: Hertz,
    /// The clock of the cycle counter. Its whole megahertz turn timeouts into cycles.
    pub sysclk: Hertz,
    /// The bus mode.
    pub mode: Mode,
    /// The bus frequency, 1 to 400,000 Hz.
    pub frequency: Hertz,
    /// How long a blocking call waits for each START.
    pub start_timeout: Micros,
    /// How often a blocking call tries START. With 0 it tries none, and goes on as if one had ended well.
    pub start_retries: u8,
    /// How long a blocking call waits for its address to be acknowledged.
    pub address_timeout: Micros,
    /// How long a blocking call waits for all else.
    pub data_timeout: Micros,
}

/// The settings of a bus list: [`Settings`] or [`PollingSettings`]. No other type can have this trait.
pub trait ListSettings: sealed::AllSettings {}

impl ListSettings for PollingSettings {}
impl ListSettings for Settings {}

mod sealed {
    use super::{Hertz, Micros, PollingSettings, Settings};

    /// Other crates cannot name this trait, so no type of theirs can have it.
    pub trait AllSettings {
        /// The eight settings as a list holds them.
        fn all(&self) -> Settings;
    }

    impl AllSettings for PollingSettings {
        fn all(&self) -> Settings {
            Settings {
                pclk1: self.pclk1,
                sysclk: Hertz(0),
                mode: self.mode,
                frequency: self.frequency,
                start_timeout: Micros(0),
                start_retries: 0,
                address_timeout: Micros(0),
                data_timeout: Micros(0),
            }
        }
    }

    impl AllSettings for Settings {
        fn all(&self) -> Settings {
            *self
        }
    }
}

#[cfg(test)]
mod tests {
    use super::*;

    #[test]
    fn modes_and_numbers_agree() {
        for (number, mode) in (0..).zip(Mode::ALL) {
            assert_eq!(mode.number(), number);
            assert_eq!(Mode::from_number(number), Some(mode));
        }
        assert_eq!(Mode::from_number(256), None);
    }
}
