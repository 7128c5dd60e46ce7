//! Medians of samples taken in turn, so that what the machine does meanwhile falls on all alike.

use std::hint::black_box;
use std::time::{Duration, Instant};

const REPEATS: usize = 61;
/// How long one sample takes, about.
const SPAN: Duration = Duration::from_micros(500);

pub struct Sample<'a> {
    run: Box<dyn FnMut() -> u64 + 'a>,
    /// Runs of one sample.
    runs: u32,
}

impl<'a> Sample<'a> {
    pub fn new(run: impl FnMut() -> u64 + 'a) -> Sample<'a> {
        let mut sample = Sample {
            run: Box::new(run),
            runs: 1,
        };
        while sample.take() < SPAN {
            sample.runs *= 2;
        }
        sample
    }

    fn take(&mut self) -> Duration {
        let started = Instant::now();
        for _ in 0..self.runs {
            black_box((self.run)());
        }
        started.elapsed()
    }
}

/// The median nanoseconds of one run of each.
pub fn medians<const N: usize>(mut samples: [Sample; N]) -> [f64; N] {
    let mut taken: [Vec<f64>; N] = std::array::from_fn(|_| Vec::with_capacity(REPEATS));
    for _ in 0..REPEATS {
        for (sample, taken) in samples.iter_mut().zip(&mut taken) {
            taken.push(sample.take().as_nanos() as f64 / f64::from(sample.runs));
        }
    }
    taken.map(|mut taken| {
        taken.sort_by(f64::total_cmp);
        taken[REPEATS / 2]
    })
}
