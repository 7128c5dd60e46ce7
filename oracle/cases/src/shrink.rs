//! Makes a failing case small, as long as it fails.

use buslist::{refusal, List, Plan, PlannedOperation, Settings};

use crate::Case;

/// The smallest case found that `fails`, from one that does.
pub fn shrink(case: &Case, fails: impl Fn(&Case) -> bool) -> Case {
    let mut best = case.clone();
    loop {
        let found = smaller(&best).find(|smaller| fails(smaller));
        match found {
            Some(found) => best = found,
            None => return best,
        }
    }
}

/// Cases a little smaller than this one, those that cut most first.
fn smaller(case: &Case) -> impl Iterator<Item = Case> + '_ {
    let lists = smaller_lists(case).map(|list| Case {
        list,
        ..case.clone()
    });
    let shorter = pieces(case.readings.len()).map(|(from, to)| {
        let mut readings = case.readings.clone();
        readings.drain(from..to);
        Case {
            readings,
            ..case.clone()
        }
    });
    let plainer = (0..case.readings.len()).flat_map(move |at| {
        let word = case.readings[at];
        [0, word & 0xFFFF, word & word.wrapping_sub(1)]
            .into_iter()
            .filter(move |&plain| plain < word)
            .map(move |plain| {
                let mut readings = case.readings.clone();
                readings[at] = plain;
                Case {
                    readings,
                    ..case.clone()
                }
            })
    });
    let record = lower(case.record).map(|record| Case {
        record,
        ..case.clone()
    });
    let rx = lower(case.rx).map(|rx| Case { rx, ..case.clone() });
    lists.chain(shorter).chain(record).chain(rx).chain(plainer)
}

fn lower(number: usize) -> impl Iterator<Item = usize> {
    [
        0,
        number / 2,
        number.saturating_sub(2),
        number.saturating_sub(1),
    ]
    .into_iter()
    .filter(move |&lower| lower < number)
}

/// Halves, quarters and so on of a length, down to single places.
fn pieces(length: usize) -> impl Iterator<Item = (usize, usize)> {
    let sizes = std::iter::successors(Some(length), |size| Some(size / 2));
    sizes.take_while(|&size| size > 0).flat_map(move |size| {
        (0..length)
            .step_by(size)
            .map(move |from| (from, length.min(from + size)))
    })
}

fn smaller_lists(case: &Case) -> Box<dyn Iterator<Item = Vec<u8>> + '_> {
    if refusal(&case.list, case.rx) == 0 {
        Box::new(smaller_plans(Plan::of(&List::accepted(&case.list))).map(|plan| plan.bytes()))
    } else {
        Box::new(smaller_bytes(&case.list))
    }
}

fn smaller_plans(plan: Plan) -> impl Iterator<Item = Plan> {
    let mut plans = Vec::new();
    for (from, to) in pieces(plan.calls.len()) {
        let mut fewer = plan.clone();
        fewer.calls.drain(from..to);
        plans.push(fewer);
    }
    for k in 0..plan.calls.len() {
        for j in 0..plan.calls[k].operations.len() {
            if matches!(plan.calls[k].kind, 3 | 7) {
                let mut fewer = plan.clone();
                fewer.calls[k].operations.remove(j);
                plans.push(fewer);
            }
            for length in lower(plan.calls[k].operations[j].len()) {
                let mut shorter = plan.clone();
                match &mut shorter.calls[k].operations[j] {
                    PlannedOperation::Write(bytes) => bytes.truncate(length),
                    PlannedOperation::Read(bytes) => *bytes = length,
                }
                plans.push(shorter);
            }
        }
    }
    if plan.settings != Settings::example() {
        plans.push(Plan {
            settings: Settings::example(),
            ..plan.clone()
        });
    }
    plans.into_iter()
}

/// Without a form to keep, bytes are left out at the end or set to 0.
fn smaller_bytes(list: &[u8]) -> impl Iterator<Item = Vec<u8>> + '_ {
    let shorter = lower(list.len()).map(|length| list[..length].to_vec());
    let plainer = (0..list.len()).filter(|&at| list[at] != 0).map(|at| {
        let mut plain = list.to_vec();
        plain[at] = 0;
        plain
    });
    shorter.chain(plainer)
}
