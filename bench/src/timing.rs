//! Nanoseconds: medians over batches of one call on each sample, less what
//! a batch of no call takes. The sides take turns, so that whatever else the
//! machine does falls on both; lanes are put back while the clock stands.

use crate::call::{consume, Call};
use crate::sample::{all_samples, Sample};
use crate::table::Sides;
use crate::{library, reference};
use std::hint::black_box;
use std::time::Instant;

const BATCHES: usize = 2_001;

/// For each number of carriers and each call.
pub fn costs() -> Vec<Sides> {
    let mut costs = Vec::new();
    for mut samples in all_samples() {
        costs.extend(Call::ALL.map(|call| cost(call, &mut samples)));
    }
    costs
}

fn cost(call: Call, samples: &mut [Sample]) -> Sides {
    let no_call: fn(&mut Sample) = |sample| consume(sample.visitor.number);
    let runs = [library::run(call), reference::run(call), no_call];
    let mut times = runs.map(|_| Vec::with_capacity(BATCHES));
    for _ in 0..BATCHES {
        for (run, times) in runs.iter().zip(&mut times) {
            samples.iter_mut().for_each(|sample| sample.restore(call));
            times.push(batch(*run, samples));
        }
    }
    let [library, reference, nothing] = times.map(median);
    Sides {
        library: library - nothing,
        reference: reference - nothing,
    }
}

fn batch(run: fn(&mut Sample), samples: &mut [Sample]) -> f64 {
    let start = Instant::now();
    samples.iter_mut().for_each(black_box(run));
    start.elapsed().as_nanos() as f64 / samples.len() as f64
}

pub fn median(mut times: Vec<f64>) -> f64 {
    times.sort_by(f64::total_cmp);
    times[times.len() / 2]
}
