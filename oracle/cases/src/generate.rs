//! One case of a seed.

use std::cell::RefCell;

use buslist::{refusal, List};
use device::ENTRY_WORDS;

use crate::{damage, plans, Case, Feed, Rng, Style};

/// Words of the record that a simulated run may fill.
const SIMULATED: usize = 1 << 20;
/// Bytes of the received buffer that the program `busrun` has.
const BUSRUN: usize = 4_096;

/// The case of this number under this seed.
pub fn generate(seed: u64, number: u64) -> Case {
    let rng = &mut Rng::of(seed, number);
    let mut plan = plans::plan(rng);
    let lists = rng.below(100);
    match lists {
        0..=3 => {
            damage::exceed(rng, &mut plan);
            // Some have a higher cause, too.
            if rng.percent(30) {
                damage::forbid(rng, &mut plan);
            }
        }
        4..=7 => {
            for _ in 0..rng.pick(&[1, 1, 2]) {
                damage::forbid(rng, &mut plan);
            }
        }
        _ => {}
    }
    let together = plan.read_together();
    let mut list = plan.bytes();
    // Some of those with a cause by now, 21 among them, are damaged as well.
    if matches!(lists, 3 | 6..=15) {
        damage::damage_list(rng, &mut list);
    }
    let rx = match rng.below(20) {
        0 => rng.below(together + 1),
        1..=4 => together + rng.range(1, 9),
        5 => BUSRUN.max(together),
        _ => together,
    };
    if refusal(&list, rx) == 0 {
        accepted(rng, list, rx)
    } else {
        refused(rng, list, rx)
    }
}

fn refused(rng: &mut Rng, list: Vec<u8>, rx: usize) -> Case {
    Case {
        list,
        readings: (0..rng.below(20)).map(|_| rng.word()).collect(),
        rx,
        record: rng.below(40),
    }
}

/// A case of an accepted list: the readings of a simulated run, in part damaged, and a record long enough or cut.
pub fn accepted(rng: &mut Rng, list: Vec<u8>, rx: usize) -> Case {
    let style = Style::random(rng);
    let (mut readings, record) = simulated(rng, &List::accepted(&list), style, rx);
    let mut words = record.len();
    let damaged = rng.below(100);
    if damaged < 40 {
        damage::damage_readings(rng, &mut readings, &record);
        words += 400;
    } else if damaged < 45 {
        readings.truncate(rng.below(readings.len() + 1));
    } else if damaged < 50 {
        words = rng.below(words + 1);
    }
    words += rng.pick(&[0, 0, 1, 2, 3, 17, 200]);
    if rng.percent(20) {
        let more = rng.range(1, 9);
        readings.extend((0..more).map(|_| rng.word()));
    }
    Case {
        list,
        readings,
        rx,
        record: words,
    }
}

thread_local! {
    /// The record of simulated runs: kept, since clearing so much for each case would take most of the time.
    static RECORD: RefCell<Vec<u32>> = RefCell::new(vec![0; SIMULATED]);
}

/// The readings of a simulated run, and its record.
pub fn simulated(rng: &mut Rng, list: &List, style: Style, rx: usize) -> (Vec<u32>, Vec<u32>) {
    let mut readings = Vec::new();
    let mut feed = Feed::new(rng, style, &list.settings());
    let made = Box::new(|code, record: &[u32]| {
        let word = feed.reading(code, record);
        readings.push(word);
        word
    });
    let record = RECORD.with_borrow_mut(|record| {
        let counts = original::simulate(list, made, &mut vec![0; rx], record);
        record[..ENTRY_WORDS * counts.made].to_vec()
    });
    (readings, record)
}
