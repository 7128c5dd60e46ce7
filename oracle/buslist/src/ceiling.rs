//! Document 02's fastest speed under a ceiling (C-16): a plain search over all choices, with no formula.

use std::ops::RangeInclusive;

use crate::refusal::frequency_out;
use crate::Mode;

/// A mode, a CCR field, and the product of the mode's divisor and this field.
#[derive(Debug, Clone, Copy, PartialEq, Eq)]
pub struct Choice {
    pub product: u64,
    pub mode: Mode,
    pub field: u32,
}

/// Equal products go to the first of these that has them.
const ORDER: [Mode; 3] = [Mode::Standard, Mode::Fast2To1, Mode::Fast16To9];

fn divisor(mode: Mode) -> u64 {
    match mode {
        Mode::Standard => 2,
        Mode::Fast2To1 => 3,
        Mode::Fast16To9 => 25,
    }
}

fn fields(mode: Mode) -> RangeInclusive<u32> {
    match mode {
        Mode::Standard => 4..=4_095,
        Mode::Fast2To1 | Mode::Fast16To9 => 1..=4_095,
    }
}

fn choices_of(mode: Mode) -> impl Iterator<Item = Choice> {
    fields(mode).map(move |field| Choice {
        product: divisor(mode) * u64::from(field),
        mode,
        field,
    })
}

/// Every mode with every field, the smallest product first.
pub fn choices() -> Vec<Choice> {
    let mut all: Vec<Choice> = ORDER.into_iter().flat_map(choices_of).collect();
    // The sort is stable: equal products stay in the order of their modes.
    all.sort_by_key(|choice| choice.product);
    all
}

/// The first of all `choices` that fits, or the number of why there is none: 22 or 28.
pub fn speed_under(choices: &[Choice], pclk1: u32, ceiling: u32) -> Result<Choice, u32> {
    let (pclk1, ceiling) = (u64::from(pclk1), u64::from(ceiling));
    if frequency_out(ceiling) {
        return Err(22);
    }
    let first = choices
        .iter()
        .find(|choice| pclk1 <= ceiling * choice.product);
    first.copied().ok_or(28)
}

/// The answer, the number of the mode, and the CCR field.
pub fn numbers(chosen: Result<Choice, u32>) -> [u32; 3] {
    match chosen {
        Ok(choice) => [0, choice.mode as u32, choice.field],
        Err(number) => [number, 0, 0],
    }
}

#[cfg(test)]
mod tests {
    use super::*;

    const STANDARD: u32 = 0;
    const FAST_2_TO_1: u32 = 1;
    const FAST_16_TO_9: u32 = 2;

    /// Each test: pclk1, ceiling, and the three numbers worked out by hand.
    fn check(tests: &[(u32, u32, [u32; 3])]) {
        let choices = choices();
        for &(pclk1, ceiling, expected) in tests {
            let found = numbers(speed_under(&choices, pclk1, ceiling));
            assert_eq!(found, expected, "pclk1 {pclk1}, ceiling {ceiling}");
        }
    }

    /// 4,092 fields of Standard, 4,095 of each Fast; from 3 x 1 to 25 x 4,095; no product after a greater one.
    #[test]
    fn all_choices() {
        let choices = choices();
        assert_eq!(choices.len(), 4_092 + 2 * 4_095);
        let choice = |product, mode, field| Choice {
            product,
            mode,
            field,
        };
        assert_eq!(choices.first(), Some(&choice(3, Mode::Fast2To1, 1)));
        let last = choice(102_375, Mode::Fast16To9, 4_095);
        assert_eq!(choices.last(), Some(&last));
        assert!(choices
            .windows(2)
            .all(|two| two[0].product <= two[1].product));
    }

    /// 36,000,000 / 400,000 is 90, so the product is at least 90: Standard 45, and 2:1 30 comes later.
    /// One hertz more asks for 91: Standard 46 has 92, 2:1 31 has 93, 16:9 4 has 100.
    /// One hertz less asks for 90 too: 89 x 400,000 is 35,600,000.
    #[test]
    fn usual_clock() {
        check(&[
            (36_000_000, 400_000, [0, STANDARD, 45]),
            (36_000_001, 400_000, [0, STANDARD, 46]),
            (35_999_999, 400_000, [0, STANDARD, 45]),
        ]);
    }

    /// With a ceiling of 100,000 the hundred thousands of pclk1 are the product that is asked for.
    /// 24 is Standard 12 and 2:1 8. 50 is Standard 25 and 16:9 2. 75 is 2:1 25 and 16:9 3, and odd. 150 is
    /// Standard 75, 2:1 50 and 16:9 6. 8,250 is 2:1 2,750 and 16:9 330; Standard ends at 8,190.
    #[test]
    fn equal_products() {
        check(&[
            (2_400_000, 100_000, [0, STANDARD, 12]),
            (5_000_000, 100_000, [0, STANDARD, 25]),
            (7_500_000, 100_000, [0, FAST_2_TO_1, 25]),
            (15_000_000, 100_000, [0, STANDARD, 75]),
            (825_000_000, 100_000, [0, FAST_2_TO_1, 2_750]),
        ]);
    }

    /// With a ceiling of 1 pclk1 is the product that is asked for. Up to 3 it is 2:1 1, then up to 6 it is 2:1 2:
    /// Standard has no 4 and no 6. From 8 on it has every even number. 16:9 is first at 25, after Standard 12 and
    /// before Standard 13 and 2:1 9.
    #[test]
    fn first_fields() {
        check(&[
            (0, 1, [0, FAST_2_TO_1, 1]),
            (1, 1, [0, FAST_2_TO_1, 1]),
            (3, 1, [0, FAST_2_TO_1, 1]),
            (4, 1, [0, FAST_2_TO_1, 2]),
            (6, 1, [0, FAST_2_TO_1, 2]),
            (7, 1, [0, STANDARD, 4]),
            (8, 1, [0, STANDARD, 4]),
            (9, 1, [0, FAST_2_TO_1, 3]),
            (24, 1, [0, STANDARD, 12]),
            (25, 1, [0, FAST_16_TO_9, 1]),
            (26, 1, [0, STANDARD, 13]),
        ]);
    }

    /// Standard ends at 2 x 4,095 = 8,190, which is 2:1 2,730 too. After it come 3 x 2,731 = 8,193, and 8,200 of 16:9.
    /// 2:1 ends at 3 x 4,095 = 12,285. After it comes 25 x 492 = 12,300. 16:9 ends at 25 x 4,095 = 102,375.
    /// 41,953 x 102,375 = 4,294,938,375, and with any greater ceiling the last product is no clock of 32 bits.
    #[test]
    fn last_fields() {
        check(&[
            (8_190, 1, [0, STANDARD, 4_095]),
            (8_191, 1, [0, FAST_2_TO_1, 2_731]),
            (12_285, 1, [0, FAST_2_TO_1, 4_095]),
            (12_286, 1, [0, FAST_16_TO_9, 492]),
            (102_375, 1, [0, FAST_16_TO_9, 4_095]),
            (102_376, 1, [28, 0, 0]),
            (4_294_938_375, 41_953, [0, FAST_16_TO_9, 4_095]),
            (4_294_938_376, 41_953, [28, 0, 0]),
        ]);
    }

    /// Every choice fits pclk1 0, and 2:1 1 has the smallest product. 2^32 - 1 asks for 10,738 at 400,000: 10,737 of
    /// them are 4,294,800,000. There 2:1 3,580 has 10,740, and 16:9 430 has 10,750.
    #[test]
    fn edges_of_the_clock() {
        check(&[
            (0, 400_000, [0, FAST_2_TO_1, 1]),
            (u32::MAX, 400_000, [0, FAST_2_TO_1, 3_580]),
            (u32::MAX, 1, [28, 0, 0]),
        ]);
    }

    /// 22 comes before 28, and whatever fits: with a ceiling of 0 nothing but pclk1 0 would fit, above 400,000 most do.
    #[test]
    fn edges_of_the_ceiling() {
        for pclk1 in [0, 1, 36_000_000, u32::MAX] {
            for ceiling in [0, 400_001, u32::MAX] {
                check(&[(pclk1, ceiling, [22, 0, 0])]);
            }
        }
        // 400,000 x 3 is 1,200,000; one more asks for 2:1 2.
        check(&[
            (1_200_000, 400_000, [0, FAST_2_TO_1, 1]),
            (1_200_001, 400_000, [0, FAST_2_TO_1, 2]),
        ]);
    }
}
