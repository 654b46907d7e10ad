//! The best time of one call among several samples, archive and model in turn.

use std::hint::black_box;
use std::time::Instant;

const SAMPLES: usize = 15;
const SAMPLE_MICROSECONDS: f64 = 20_000.0;

/// The best times of one call, in microseconds.
pub struct Best {
    pub archive: f64,
    pub model: f64,
}

pub fn time<A, M>(mut archive: impl FnMut() -> A, mut model: impl FnMut() -> M) -> Best {
    let calls = calls_per_sample(&mut model);
    let mut best = Best { archive: f64::MAX, model: f64::MAX };
    for _ in 0..SAMPLES {
        best.archive = best.archive.min(microseconds(calls, &mut archive));
        best.model = best.model.min(microseconds(calls, &mut model));
    }
    best
}

fn calls_per_sample<T>(mut call: impl FnMut() -> T) -> u32 {
    let mut calls = 1;
    while microseconds(calls, &mut call) * f64::from(calls) < SAMPLE_MICROSECONDS {
        calls *= 2;
    }
    calls
}

/// The time of one call, over `calls` of them.
fn microseconds<T>(calls: u32, mut call: impl FnMut() -> T) -> f64 {
    let start = Instant::now();
    for _ in 0..calls {
        black_box(call());
    }
    start.elapsed().as_secs_f64() * 1e6 / f64::from(calls)
}
