//! How many cases met each answer, and each ending within each kind of call and width of address.

use std::fmt;

use buslist::{Call, List};

use crate::combined::Combined;
use crate::longest::Longest;
use crate::ten::TenBit;
use crate::{Case, Ran};

/// The rows of calls: the kinds 0 to 7 of seven-bit addresses, then 0 to 3 of ten-bit ones.
const ROWS: usize = 12;
const ENDINGS: usize = 11;
const REFUSALS: std::ops::RangeInclusive<u32> = 20..=27;

#[derive(Default)]
pub struct Tally {
    cases: u64,
    accepted: u64,
    /// Accepted lists that answer 0 with several calls.
    several: u64,
    answers: [u64; 28],
    /// Calls by row and by the ending of the call; the last call of a run ends as the run does.
    endings: [[u64; ENDINGS]; ROWS],
    /// Runs that ended in the bring-up.
    bring_up: [u64; ENDINGS],
    /// Lists with blocking transactions.
    combined: Combined,
    /// Lists with ten-bit calls.
    ten_bit: TenBit,
    /// Lists with an operation near the limit.
    longest: Longest,
}

fn row(call: &Call) -> usize {
    let kind = usize::from(call.kind);
    if call.is_ten_bit() {
        8 + kind
    } else {
        kind
    }
}

fn name(row: usize) -> String {
    match row {
        0..=7 => format!("kind {row}"),
        _ => format!("ten-bit kind {}", row - 8),
    }
}

/// Whether a call of this row can end so.
fn can_end(row: usize, ending: usize) -> bool {
    match (row, ending) {
        // A polling call clears a bus error and goes on.
        (0..=3 | 8.., 6) => false,
        // Before its address is sent, a polling read meets no check: no NoAcknowledge stays Unknown. A ten-bit one
        // starts as a write, and does.
        (1, 4) => false,
        // The blocking poll does not look at PECERR.
        (4..=7, 7) => false,
        _ => true,
    }
}

/// The call that an accepted list's run ended in: none where it ended in the bring-up, or well.
pub fn ended_in(case: &Case, ran: &Ran) -> Option<Call> {
    // The bring-up is five accesses, and without them no call has begun.
    let begun = ran.counts[3] >= 5;
    let call = List::accepted(&case.list)
        .calls()
        .nth(ran.counts[1] as usize);
    call.filter(|_| begun)
}

impl Tally {
    pub fn count(&mut self, case: &Case, ran: &Ran) {
        self.cases += 1;
        let answer = ran.answer();
        self.answers[answer as usize] += 1;
        self.combined.count(case, ran);
        self.ten_bit.count(case, ran);
        self.longest.count(case, ran);
        if REFUSALS.contains(&answer) {
            return;
        }
        self.accepted += 1;
        let list = List::accepted(&case.list);
        let well = ran.counts[1] as usize;
        if answer == 0 && well > 1 {
            self.several += 1;
        }
        for call in list.calls().take(well) {
            self.endings[row(&call)][0] += 1;
        }
        if answer != 0 {
            match ended_in(case, ran) {
                Some(call) => self.endings[row(&call)][answer as usize] += 1,
                None => self.bring_up[answer as usize] += 1,
            }
        }
    }

    /// What there is too little of: fewer than 100 in 100,000 cases, or under a quarter of the accepted
    /// lists answering 0 with several calls.
    pub fn shortfalls(&self) -> Vec<String> {
        let least = self.cases / 1_000;
        let mut short = Vec::new();
        let mut test = |count: u64, what: String| {
            if count < least {
                short.push(format!("{what}: {count}, below {least}"));
            }
        };
        for answer in (0..=10).chain(REFUSALS) {
            test(self.answers[answer as usize], format!("answer {answer}"));
        }
        for (row, endings) in self.endings.iter().enumerate() {
            for (ending, &count) in endings.iter().enumerate() {
                if can_end(row, ending) {
                    test(count, format!("{} ending {ending}", name(row)));
                }
            }
        }
        test(self.bring_up[9], "bring-up ending 9".into());
        test(self.bring_up[10], "bring-up ending 10".into());
        if 4 * self.several < self.accepted {
            short.push(format!(
                "{} of {} accepted lists answer 0 with several calls, below a quarter",
                self.several, self.accepted
            ));
        }
        short.extend(self.combined.shortfalls());
        short.extend(self.ten_bit.shortfalls());
        short.extend(self.longest.shortfalls());
        short
    }

    /// Endings seen that this file says cannot be, and what contradicts document 02's sentence on the longest operation.
    pub fn impossible(&self) -> Vec<String> {
        let seen =
            |row: usize, ending: usize| self.endings[row][ending] > 0 && !can_end(row, ending);
        (0..ROWS)
            .flat_map(|row| (0..ENDINGS).map(move |ending| (row, ending)))
            .filter(|&(row, ending)| seen(row, ending))
            .map(|(row, ending)| format!("{} ending {ending} was met", name(row)))
            .chain(self.longest.impossible())
            .collect()
    }
}

impl fmt::Display for Tally {
    fn fmt(&self, f: &mut fmt::Formatter) -> fmt::Result {
        writeln!(
            f,
            "cases {}, accepted {}, of these 0 with several calls {}",
            self.cases, self.accepted, self.several
        )?;
        writeln!(f, "answer   cases")?;
        for answer in (0..=10).chain(REFUSALS) {
            writeln!(f, "{answer:6} {:7}", self.answers[answer as usize])?;
        }
        write!(f, "calls by ending")?;
        for ending in 0..ENDINGS {
            write!(f, "{ending:8}")?;
        }
        for (row, endings) in self.endings.iter().enumerate() {
            write!(f, "\n{:>15}", name(row))?;
            for count in endings {
                write!(f, "{count:8}")?;
            }
        }
        write!(f, "\n       bring-up")?;
        for count in self.bring_up {
            write!(f, "{count:8}")?;
        }
        write!(f, "\n{}\n{}\n{}", self.combined, self.ten_bit, self.longest)
    }
}

#[cfg(test)]
mod tests {
    use super::*;
    use crate::{generate, judge, sweep};

    #[test]
    fn every_ending_is_met() {
        let mut tally = Tally::default();
        for number in 0..20_000 {
            let case = generate(1, number);
            tally.count(&case, &judge(&case));
        }
        println!("{tally}");
        assert_eq!(tally.shortfalls(), Vec::<String>::new());
        assert_eq!(tally.impossible(), Vec::<String>::new());
    }

    #[test]
    fn the_sweep_runs() {
        let mut tally = Tally::default();
        for case in sweep() {
            tally.count(&case, &judge(&case));
        }
        println!("{tally}");
        assert_eq!(tally.impossible(), Vec::<String>::new());
    }
}
