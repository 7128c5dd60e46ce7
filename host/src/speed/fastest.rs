//! The fastest speed under a ceiling.

use std::fmt;

use super::{ccr, divisor, flags, hertz};
use crate::engine;
use crate::error::Cause;
use crate::settings::{Hertz, Mode};

/// The fastest speed under a ceiling, as [`under`] answers it.
#[derive(Clone, Copy, Debug, PartialEq, Eq, Hash)]
pub struct Fastest {
    pclk1: Hertz,
    mode: Mode,
    field: u32,
}

/// Why there is no speed under a ceiling.
///
/// ```
/// use vandhukril::{Hertz, speed};
///
/// let none = speed::under(Hertz(36_000_000), Hertz(400_001)).unwrap_err();
/// assert_eq!((none, none.number()), (speed::NoChoice::Ceiling, 22));
/// ```
#[derive(Clone, Copy, Debug, PartialEq, Eq, Hash)]
pub enum NoChoice {
    /// 22: the ceiling is 0 or above 400,000 Hz.
    Ceiling,
    /// 28: no mode and field fit, that is, pclk1 is above 102,375 times the ceiling.
    NoneFits,
    /// A number that this crate does not know: the linked library does not belong to this version of the crate.
    Other(u32),
}

/// The fastest speed under a ceiling: of all modes and CCR fields with which the bus is not faster than the
/// ceiling, those with which it is the fastest. Of several that are equally fast it is the one in Standard, else the
/// one in Fast 2:1.
///
/// The bring-up rounds the field down. So with the ceiling itself as the frequency of its settings the bus can be
/// faster than the ceiling.
///
/// # Errors
///
/// A ceiling of 0 or above 400,000 Hz, and one that is too low for pclk1: see [`NoChoice`].
///
/// # Examples
///
/// ```
/// use vandhukril::{Hertz, Mode, speed};
///
/// // The module takes 390,000 Hz at most. Each mode's rounding passes it.
/// let (pclk1, ceiling) = (Hertz(36_000_000), Hertz(390_000));
/// for mode in Mode::ALL {
///     let ccr = speed::ccr(pclk1, mode, ceiling).expect("it is not above 400,000 Hz");
///     assert!(speed::on_bus(pclk1, ccr) > Some(390_000.0));
/// }
///
/// let fastest = speed::under(pclk1, ceiling)?;
/// assert_eq!((fastest.mode(), fastest.field()), (Mode::Fast2To1, 31));
/// assert!(fastest.on_bus() <= 390_000.0);
/// # Ok::<(), speed::NoChoice>(())
/// ```
pub fn under(pclk1: Hertz, ceiling: Hertz) -> Result<Fastest, NoChoice> {
    fastest(pclk1, engine::speed_under(pclk1.0, ceiling.0))
}

/// What the engine has chosen for a clock.
fn fastest(pclk1: Hertz, [answer, mode, field]: [u32; 3]) -> Result<Fastest, NoChoice> {
    if let Some(none) = NoChoice::from_number(answer) {
        return Err(none);
    }
    let mode = Mode::from_number(mode).ok_or(NoChoice::Other(mode))?;
    Ok(Fastest { pclk1, mode, field })
}

impl Fastest {
    /// The bus mode.
    pub const fn mode(self) -> Mode {
        self.mode
    }

    /// The CCR field: 4 to 4095 in Standard, 1 to 4095 in Fast.
    pub const fn field(self) -> u32 {
        self.field
    }

    /// The CCR word: the field, with the flags of the mode.
    ///
    /// ```
    /// use vandhukril::{Hertz, speed};
    /// let fastest = speed::under(Hertz(36_000_000), Hertz(390_000))?;
    /// assert_eq!(fastest.ccr(), 0x801f);
    /// # Ok::<(), speed::NoChoice>(())
    /// ```
    pub const fn ccr(self) -> u32 {
        flags(self.mode) | self.field
    }

    /// The speed of the bus, in hertz, as [`speed::on_bus`](super::on_bus) has it. It is never above the ceiling.
    ///
    /// ```
    /// use vandhukril::{Hertz, speed};
    /// let fastest = speed::under(Hertz(36_000_000), Hertz(390_000))?;
    /// assert_eq!(fastest.on_bus(), 36_000_000.0 / 93.0);
    /// # Ok::<(), speed::NoChoice>(())
    /// ```
    pub fn on_bus(self) -> f64 {
        hertz(self.pclk1, self.mode, self.field)
    }

    /// The frequency for the settings of a list, which take no field: with it, and with this mode, the bring-up
    /// writes just [this CCR word](Fastest::ccr).
    ///
    /// It is [the speed of the bus](Fastest::on_bus), rounded down to whole hertz, and at least 1. Other frequencies
    /// can come to the same word.
    ///
    /// `None` where the bring-up writes another word with it. That is so for slow speeds alone: from 4,095 Hz on there
    /// always is one.
    ///
    /// ```
    /// use vandhukril::{Hertz, PollingSettings, speed};
    ///
    /// let pclk1 = Hertz(36_000_000);
    /// let fastest = speed::under(pclk1, Hertz(390_000))?;
    /// let frequency = fastest.frequency().expect("387,096 Hz are more than 4,095");
    /// let settings = PollingSettings { pclk1, mode: fastest.mode(), frequency };
    /// assert_eq!(settings.frequency, Hertz(387_096));
    ///
    /// // 8,000,000 / (2 * 4095) is 976.8. At 8 MHz 976 Hz come to a field of 4098, and 977 Hz to one of 4094.
    /// let slow = speed::under(Hertz(8_000_000), Hertz(977))?;
    /// assert_eq!((slow.field(), slow.frequency()), (4095, None));
    /// # Ok::<(), speed::NoChoice>(())
    /// ```
    pub fn frequency(self) -> Option<Hertz> {
        let rounded_down = (self.pclk1.0 / divisor(self.mode)).checked_div(self.field)?;
        let frequency = Hertz(rounded_down.max(1));
        (ccr(self.pclk1, self.mode, frequency) == Some(self.ccr())).then_some(frequency)
    }
}

impl NoChoice {
    /// The number that the engine answers for it.
    pub const fn number(self) -> u32 {
        match self {
            NoChoice::Ceiling => 22,
            NoChoice::NoneFits => 28,
            NoChoice::Other(number) => number,
        }
    }

    /// What an answer says; nothing for 0, with which there is a speed.
    fn from_number(number: u32) -> Option<NoChoice> {
        if number == 0 {
            return None;
        }
        let known = [NoChoice::Ceiling, NoChoice::NoneFits]
            .into_iter()
            .find(|none| none.number() == number);
        Some(known.unwrap_or(NoChoice::Other(number)))
    }

    /// The papers' words for it.
    pub const fn words(self) -> &'static str {
        match self {
            NoChoice::Ceiling => "ceiling 0 or above 400,000",
            NoChoice::NoneFits => "no mode and field fit",
            NoChoice::Other(number) => Cause::Other(number).words(),
        }
    }

    /// What to do next.
    pub const fn advice(self) -> &'static str {
        match self {
            NoChoice::Ceiling => "Set the ceiling to a number from 1 to 400,000, in hertz.",
            NoChoice::NoneFits => {
                "The slowest that a CCR word can make the bus is pclk1 divided by 102,375. Set the \
                 ceiling to at least that, or lower pclk1."
            }
            NoChoice::Other(number) => Cause::Other(number).advice(),
        }
    }
}

/// The words, the number, and what to do next.
impl fmt::Display for NoChoice {
    fn fmt(&self, f: &mut fmt::Formatter<'_>) -> fmt::Result {
        write!(
            f,
            "no speed: {} ({}). {}",
            self.words(),
            self.number(),
            self.advice()
        )
    }
}

impl std::error::Error for NoChoice {}

#[cfg(test)]
mod tests {
    use super::*;
    use crate::speed;

    /// The choice as the paper has it, written again from its sentences: the answer, the mode and the field.
    fn written(pclk1: u32, ceiling: u32) -> [u32; 3] {
        if ceiling == 0 || ceiling > 400_000 {
            return [22, 0, 0];
        }
        let fits = |product| u64::from(pclk1) <= u64::from(ceiling) * u64::from(product);
        // Standard, 2:1, 16:9: the divisor, and the least field.
        let modes = [(0, 2, 4), (1, 3, 1), (2, 25, 1)];
        let choices = modes.into_iter().flat_map(|(mode, divisor, least)| {
            (least..=4095).map(move |field| (divisor * field, mode, field))
        });
        // The least product, and of equal products the first mode.
        match choices.filter(|&(product, ..)| fits(product)).min() {
            Some((_, mode, field)) => [0, mode, field],
            None => [28, 0, 0],
        }
    }

    /// The answer, the mode and the field.
    fn numbers(pclk1: u32, ceiling: u32) -> [u32; 3] {
        match under(Hertz(pclk1), Hertz(ceiling)) {
            Ok(fastest) => [0, fastest.mode.number(), fastest.field],
            Err(none) => [none.number(), 0, 0],
        }
    }

    /// Products that several modes have (24 and 150) and the largest of each mode, each with the next number; clocks
    /// that there are; and the limits.
    const CLOCKS: [u32; 18] = [
        0,
        1,
        24,
        25,
        150,
        151,
        8190,
        8191,
        12_285,
        12_286,
        102_375,
        102_376,
        2_000_000,
        8_000_000,
        36_000_000,
        72_000_000,
        u32::MAX - 1,
        u32::MAX,
    ];
    const CEILINGS: [u32; 18] = [
        0,
        1,
        2,
        3,
        7,
        19,
        977,
        4394,
        41_953,
        41_954,
        90_000,
        100_000,
        288_500,
        390_000,
        399_999,
        400_000,
        400_001,
        u32::MAX,
    ];

    #[test]
    fn worked_out_by_hand() {
        // pclk1 divided by the ceiling, rounded up, is the least product that fits. It is an even one (Standard,
        // from 8 to 8,190), or a multiple of 3 (to 12,285) or of 25 (to 102,375), or the next that is one of these.
        for (pclk1, ceiling, chosen) in [
            // 36,000,000 / 400,000 = 90 = 2 * 45 = 3 * 30.
            (36_000_000, 400_000, [0, 0, 45]),
            // 92.3, so 93 = 3 * 31.
            (36_000_000, 390_000, [0, 1, 31]),
            // 124.8, so 125 = 25 * 5.
            (36_000_000, 288_500, [0, 2, 5]),
            // 400 = 2 * 200.
            (36_000_000, 90_000, [0, 0, 200]),
            // 25 = 25 * 1.
            (10_000_000, 400_000, [0, 2, 1]),
            // 24 = 2 * 12 = 3 * 8.
            (2_400_000, 100_000, [0, 0, 12]),
            // 150 = 2 * 75 = 3 * 50 = 25 * 6.
            (15_000_000, 100_000, [0, 0, 75]),
            // 75 = 3 * 25 = 25 * 3.
            (7_500_000, 100_000, [0, 1, 25]),
            // 6 = 3 * 2, and 2 * 3 has too small a field.
            (6, 1, [0, 1, 2]),
            // 7 is none of them, and 8 = 2 * 4.
            (7, 1, [0, 0, 4]),
            // Everything fits, so the least product of all: 3 = 3 * 1.
            (0, 1, [0, 1, 1]),
            (0, 400_000, [0, 1, 1]),
            (400_000, 400_000, [0, 1, 1]),
            // 8,190 = 2 * 4095. 8,191 and 8,192 are none of them any more, and 8,193 = 3 * 2731.
            (8190, 1, [0, 0, 4095]),
            (8191, 1, [0, 1, 2731]),
            // 12,285 = 3 * 4095. The next is 12,300 = 25 * 492.
            (12_285, 1, [0, 1, 4095]),
            (12_286, 1, [0, 2, 492]),
            // 102,375 = 25 * 4095, and there is no larger one.
            (102_375, 1, [0, 2, 4095]),
            (102_376, 1, [28, 0, 0]),
            // 4,294,967,295 / 400,000 = 10,737.4, so 10,740 = 3 * 3580.
            (u32::MAX, 400_000, [0, 1, 3580]),
            // 102,375 * 41,954 is above it, 102,375 * 41,953 is not.
            (u32::MAX, 41_954, [0, 2, 4095]),
            (u32::MAX, 41_953, [28, 0, 0]),
            (u32::MAX, 1, [28, 0, 0]),
            (0, 0, [22, 0, 0]),
            (36_000_000, 0, [22, 0, 0]),
            (36_000_000, 400_001, [22, 0, 0]),
            (u32::MAX, u32::MAX, [22, 0, 0]),
        ] {
            assert_eq!(written(pclk1, ceiling), chosen, "{pclk1}, {ceiling}");
            assert_eq!(numbers(pclk1, ceiling), chosen, "{pclk1}, {ceiling}");
        }
    }

    #[test]
    fn choices_are_those_of_the_paper() {
        for pclk1 in CLOCKS {
            for ceiling in CEILINGS {
                let expected = written(pclk1, ceiling);
                assert_eq!(numbers(pclk1, ceiling), expected, "{pclk1}, {ceiling}");
            }
        }
    }

    #[test]
    fn never_above_the_ceiling_and_as_the_settings_have_it() {
        for pclk1 in CLOCKS {
            for ceiling in CEILINGS {
                let Ok(fastest) = under(Hertz(pclk1), Hertz(ceiling)) else {
                    continue;
                };
                let case = format!("{pclk1}, {ceiling}: {fastest:?}");
                assert!(fastest.on_bus() <= f64::from(ceiling), "{case}");
                let word = fastest.ccr();
                let on_bus = speed::on_bus(Hertz(pclk1), word);
                assert_eq!(on_bus, Some(fastest.on_bus()), "{case}");
                match fastest.frequency() {
                    Some(frequency) => {
                        assert!(frequency <= Hertz(ceiling), "{case}");
                        let written = ccr(Hertz(pclk1), fastest.mode, frequency);
                        assert_eq!(written, Some(word), "{case}");
                    }
                    None => assert!(fastest.on_bus() < 4095.0, "{case}"),
                }
            }
        }
    }

    #[test]
    fn frequencies_worked_out_by_hand() {
        let standard = |pclk1, field| {
            let mode = Mode::Standard;
            let pclk1 = Hertz(pclk1);
            Fastest { pclk1, mode, field }.frequency()
        };
        // 36,000,000 / 400 = 90,000.
        assert_eq!(standard(36_000_000, 200), Some(Hertz(90_000)));
        // 4,000,000 / 3010 is 1,328.9. 1,328 Hz come to 1506 and 1,329 to 1504.
        assert_eq!(standard(4_000_000, 1505), None);
        // 8,000,000 / 8190 is 976.8. 976 Hz come to 4098, of which 12 bits hold 2. Of 2 itself it is 2,000,000, and that
        // is no frequency of settings.
        assert_eq!(standard(8_000_000, 4095), None);
        assert_eq!(standard(8_000_000, 2), None);
        // Less than a hertz is on the bus, so it is 1 Hz. That comes to 0, so to the least field, and to 6.
        assert_eq!(standard(0, 4), Some(Hertz(1)));
        assert_eq!(standard(12, 7), None);
        // Fields that CCR does not hold.
        assert_eq!(standard(36_000_000, 0), None);
        assert_eq!(standard(36_000_000, 4096), None);
    }

    #[test]
    fn other_numbers_are_kept() {
        let pclk1 = Hertz(36_000_000);
        for number in [1, 21, 23, 27, 29, u32::MAX] {
            let none = NoChoice::Other(number);
            assert_eq!(fastest(pclk1, [number, 0, 0]), Err(none));
            assert_eq!(none.number(), number);
        }
        // A mode that no crate of this version knows.
        assert_eq!(fastest(pclk1, [0, 3, 1]), Err(NoChoice::Other(3)));
    }

    #[test]
    fn no_choice_says_what_to_do() {
        let texts = [NoChoice::Ceiling, NoChoice::NoneFits, NoChoice::Other(29)];
        assert_eq!(
            texts.map(|none| none.to_string()),
            [
                "no speed: ceiling 0 or above 400,000 (22). \
                 Set the ceiling to a number from 1 to 400,000, in hertz.",
                "no speed: no mode and field fit (28). \
                 The slowest that a CCR word can make the bus is pclk1 divided by 102,375. \
                 Set the ceiling to at least that, or lower pclk1.",
                "no speed: a number that this crate does not know (29). \
                 The linked library does not belong to this version of the crate. Run \
                 `host/library` at the repository's root, then build again.",
            ]
        );
        // The page of this crate shows the first two.
        for none in &texts[..2] {
            let readme = include_str!("../../README.md");
            assert!(readme.contains(&format!("\n{none}\n")), "{none}");
        }
    }
}
