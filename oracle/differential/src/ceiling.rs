//! The fastest speed under a ceiling against a plain search over all choices: a dense sweep, the edges, and where each
//! product just fits.

use std::collections::HashSet;
use std::fmt;

use buslist::ceiling::{choices, numbers, speed_under, Choice};

use crate::speed::{clocks, frequencies};

const EDGES: [u32; 5] = [0, 1, 400_000, 400_001, u32::MAX];

/// Ceilings for each product. With those up to 41,953 every product has its greatest clock in 32 bits, with those up to
/// 349,610 every product of 2:1. The last two are out, though a choice would fit.
const CEILINGS: [u32; 23] = [
    2, 3, 5, 10, 25, 99, 100, 625, 1_000, 4_095, 9_999, 10_000, 25_000, 41_953, 50_000, 77_777,
    100_000, 200_000, 349_610, 399_999, 400_000, 400_001, 500_000,
];

const LEAST_PAIRS: u64 = 1_000_000;
/// Of each class that the tally names.
const LEAST: u64 = 10_000;

/// What the pairs came to, or the first that differs.
pub fn compare() -> Result<Tally, String> {
    let choices = choices();
    let equal = equal_products(&choices);
    let mut tally = Tally::default();
    for (pclk1, ceiling) in pairs(&choices) {
        let chosen = speed_under(&choices, pclk1, ceiling);
        tally.count(chosen, &equal);
        let (expected, found) = (numbers(chosen), engine::speed_under(pclk1, ceiling));
        if found != expected {
            return Err(format!(
                "pclk1 {pclk1}, ceiling {ceiling}: expected {expected:?}, engine {found:?} (answer, mode, field)"
            ));
        }
    }
    Ok(tally)
}

/// Products of several modes. Those of one mode all differ, and equal ones are neighbours.
fn equal_products(choices: &[Choice]) -> HashSet<u64> {
    choices
        .windows(2)
        .filter(|two| two[0].product == two[1].product)
        .map(|two| two[0].product)
        .collect()
}

/// All pairs of pclk1 and ceiling, each once.
fn pairs(choices: &[Choice]) -> Vec<(u32, u32)> {
    // With a ceiling of 1 the product has to be at least pclk1: every number up to one past the last product.
    let mut pairs: Vec<(u32, u32)> = (0..=102_376).map(|pclk1| (pclk1, 1)).collect();
    pairs.extend(swept());
    pairs.extend(at_products(choices));
    pairs.sort_unstable();
    pairs.dedup();
    pairs
}

/// Clocks and ceilings in small steps, and the edges of both.
fn swept() -> Vec<(u32, u32)> {
    let clocks = [clocks(), EDGES.to_vec()].concat();
    let ceilings = [frequencies(), EDGES.to_vec()].concat();
    let under_each = |&pclk1| ceilings.iter().map(move |&ceiling| (pclk1, ceiling));
    clocks.iter().flat_map(under_each).collect()
}

/// The greatest clock that a product fits, and its neighbours, as far as they are of 32 bits.
fn at_products(choices: &[Choice]) -> impl Iterator<Item = (u32, u32)> + '_ {
    let greatest = choices
        .iter()
        .flat_map(|choice| CEILINGS.map(|ceiling| (u64::from(ceiling) * choice.product, ceiling)));
    greatest.flat_map(|(greatest, ceiling)| {
        let around = greatest - 1..=greatest + 1;
        around.filter_map(move |pclk1| Some((u32::try_from(pclk1).ok()?, ceiling)))
    })
}

/// How many pairs came to what.
#[derive(Default)]
pub struct Tally {
    pairs: u64,
    /// By the number of the mode that was chosen.
    modes: [u64; 3],
    ceiling_out: u64,
    none_fits: u64,
    /// Chosen among equal products.
    equal: u64,
}

impl Tally {
    fn count(&mut self, chosen: Result<Choice, u32>, equal: &HashSet<u64>) {
        self.pairs += 1;
        match chosen {
            Ok(choice) => {
                self.modes[choice.mode as usize] += 1;
                self.equal += u64::from(equal.contains(&choice.product));
            }
            Err(22) => self.ceiling_out += 1,
            Err(_) => self.none_fits += 1,
        }
    }

    fn classes(&self) -> [(&'static str, u64); 6] {
        let [standard, fast_2_to_1, fast_16_to_9] = self.modes;
        [
            ("Standard", standard),
            ("2:1", fast_2_to_1),
            ("16:9", fast_16_to_9),
            ("22", self.ceiling_out),
            ("28", self.none_fits),
            ("an equal product in another mode", self.equal),
        ]
    }

    /// What there is too little of.
    pub fn shortfalls(&self) -> Vec<String> {
        let classes = self.classes().map(|(what, count)| (what, count, LEAST));
        std::iter::once(("pairs", self.pairs, LEAST_PAIRS))
            .chain(classes)
            .filter(|(_, count, least)| count < least)
            .map(|(what, count, least)| {
                format!("speeds under a ceiling, {what}: {count}, below {least}")
            })
            .collect()
    }
}

impl fmt::Display for Tally {
    fn fmt(&self, f: &mut fmt::Formatter) -> fmt::Result {
        write!(f, "{} pairs, no difference", self.pairs)?;
        for (what, count) in self.classes() {
            write!(f, "; {what} {count}")?;
        }
        Ok(())
    }
}

#[cfg(test)]
mod tests {
    use super::*;
    use buslist::Mode;

    /// Whether some pair comes out otherwise by this search.
    fn told_apart(search: impl Fn(u32, u32) -> Result<Choice, u32>) -> bool {
        let choices = choices();
        pairs(&choices)
            .into_iter()
            .any(|(pclk1, ceiling)| search(pclk1, ceiling) != speed_under(&choices, pclk1, ceiling))
    }

    /// Whether some pair comes out otherwise with these choices, the smallest product first.
    fn told_apart_with(mut choices: Vec<Choice>) -> bool {
        choices.sort_by_key(|choice| choice.product);
        told_apart(|pclk1, ceiling| speed_under(&choices, pclk1, ceiling))
    }

    fn choice(product: u64, mode: Mode, field: u32) -> Choice {
        Choice {
            product,
            mode,
            field,
        }
    }

    #[test]
    fn other_choices_are_told_apart() {
        assert!(!told_apart_with(choices()));
        let turned = choices().into_iter().rev().collect();
        assert!(told_apart_with(turned), "16:9 first");
        let from_1 = [1, 2, 3].map(|field| choice(2 * u64::from(field), Mode::Standard, field));
        assert!(told_apart_with([choices(), from_1.into()].concat()));
        for past in [
            choice(8_192, Mode::Standard, 4_096),
            choice(12_288, Mode::Fast2To1, 4_096),
            choice(102_400, Mode::Fast16To9, 4_096),
        ] {
            assert!(
                told_apart_with([choices(), vec![past]].concat()),
                "{past:?}"
            );
        }
        for mode in Mode::ALL {
            let without = choices().into_iter().filter(|choice| choice.mode != mode);
            assert!(told_apart_with(without.collect()), "no {mode:?}");
        }
    }

    #[test]
    fn other_searches_are_told_apart() {
        let choices = choices();
        let rounded_down = |pclk1: u32, ceiling: u32| {
            let down = pclk1 - pclk1.checked_rem(ceiling).unwrap_or(0);
            speed_under(&choices, down, ceiling)
        };
        assert!(told_apart(rounded_down));
        let none_first = |pclk1, ceiling| match speed_under(&choices, pclk1, ceiling) {
            Err(22) if ceiling == 0 && pclk1 > 0 => Err(28),
            other => other,
        };
        assert!(told_apart(none_first), "28 before 22");
    }
}
