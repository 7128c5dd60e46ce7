//! What a search went through. One that met too little of something shows nothing, and fails.

use std::fmt;

use buslist::Plan;
use cases::Ran;

use crate::near::{Class, MISSES};
use crate::rewrite::WAYS;

/// Like pairs.
#[derive(Default)]
pub struct Likes {
    pairs: u64,
    /// Pairs of unlike lists.
    unlike: u64,
    answers: [u64; 11],
    /// Pairs with a call that is written anew in each way.
    ways: [u64; WAYS.len()],
}

impl Likes {
    pub fn count(&mut self, one: &Plan, other: &Plan, answer: u32) {
        self.pairs += 1;
        self.unlike += u64::from(one != other);
        self.answers[answer as usize] += 1;
        for (count, (_, way)) in self.ways.iter_mut().zip(WAYS) {
            let mut calls = one.calls.iter().zip(&other.calls);
            *count += u64::from(calls.any(|(call, again)| way(call, again)));
        }
    }

    pub fn shortfalls(&self) -> Vec<String> {
        let counts = WAYS.iter().zip(self.ways);
        let named = counts.map(|((name, _), count)| (name.to_string(), count));
        let mut short = too_few(self.pairs, named);
        if 3 * self.unlike < self.pairs {
            short.push(format!("unlike lists: {}, below a third", self.unlike));
        }
        short
    }
}

impl fmt::Display for Likes {
    fn fmt(&self, f: &mut fmt::Formatter) -> fmt::Result {
        let (pairs, unlike) = (self.pairs, self.unlike);
        writeln!(
            f,
            "like pairs: {pairs}, of these unlike lists {unlike}, unlike runs 0"
        )?;
        write!(f, "  by answer, 0 to 10: {:?}", self.answers)?;
        for ((name, _), count) in WAYS.iter().zip(self.ways) {
            write!(f, "\n  {name:48} {count:7}")?;
        }
        Ok(())
    }
}

/// Near misses, and how many came close: all, both answer 0, and of these records as long.
#[derive(Default)]
pub struct Nears {
    /// By what differs, and by the class of the call where it does.
    counts: [[[u64; 3]; Class::ALL.len()]; MISSES.len()],
}

impl Nears {
    /// A near miss: what differs, the class of its call, the first's run, which answers 0, and the second's.
    pub fn count(&mut self, miss: usize, class: Class, ran: &Ran, again: &Ran) {
        let both_well = again.answer() == 0;
        let as_long = both_well && ran.counts[3] == again.counts[3];
        for (counts, (_, of)) in self.counts[miss].iter_mut().zip(Class::ALL) {
            for (count, met) in counts.iter_mut().zip([true, both_well, as_long]) {
                *count += u64::from(met && of == class);
            }
        }
    }

    fn together(&self) -> [u64; 3] {
        [0, 1, 2].map(|at| self.counts.iter().flatten().map(|counts| counts[at]).sum())
    }

    pub fn shortfalls(&self) -> Vec<String> {
        let named = MISSES
            .iter()
            .zip(self.counts)
            .flat_map(|((name, _, classes), counts)| {
                let of_each = Class::ALL.into_iter().zip(counts);
                of_each
                    .filter(|((_, class), _)| classes.contains(class))
                    .map(move |((class, _), [all, ..])| (format!("{name}, {class}"), all))
            });
        too_few(self.together()[0], named)
    }
}

impl fmt::Display for Nears {
    fn fmt(&self, f: &mut fmt::Formatter) -> fmt::Result {
        let [all, both_well, as_long] = self.together();
        writeln!(
            f,
            "near misses: {all}, of these both answer 0 {both_well}, with records as long {as_long}, equal 0"
        )?;
        write!(f, "  {:31}", "all, both 0, as long")?;
        for (class, _) in Class::ALL {
            write!(f, " {class:>24}")?;
        }
        for ((name, ..), counts) in MISSES.iter().zip(self.counts) {
            write!(f, "\n  {name:31}")?;
            for [all, both_well, as_long] in counts {
                write!(f, " {all:8}{both_well:8}{as_long:8}")?;
            }
        }
        Ok(())
    }
}

/// Those of which there are fewer than 100 in 100,000 pairs, or none at all.
fn too_few(pairs: u64, named: impl Iterator<Item = (String, u64)>) -> Vec<String> {
    let least = (pairs / 1_000).max(1);
    named
        .filter(|(_, count)| *count < least)
        .map(|(name, count)| format!("{name}: {count}, below {least}"))
        .collect()
}
