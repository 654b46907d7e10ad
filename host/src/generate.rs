//! Seeded cases of every call: one number gives one case, on every machine.

pub mod random;

mod asked;
mod author;
mod broken;
mod draft;
mod expressions;
mod far;
mod faults;
mod rules;
mod traces;
mod writing;

pub use asked::{pinned_judge_case, unpinned_run_case, unpinned_script_case};
pub use writing::{print_case, script_case, slice_case, sliced_judge_case, trace_case, unwound_run_case};

use crate::case::{JudgeCase, RunCase};
use crate::encoding;
use draft::Draft;
use random::Random;

/// Runs of tables longer than this get small bounds, for the time they take.
const LONG_TABLE: usize = 4000;

pub fn run_case(seed: u64) -> RunCase {
    let mut random = Random::new(seed);
    if random.one_in(50) {
        return far_run_case(&mut random);
    }
    let rule = rules::rule(&mut random);
    let inputs = rule.inputs;
    let table = lay_out(&mut random, rule);
    RunCase { bound: bound(&mut random, table.len()), valuation: valuation(&mut random, inputs.into()), table }
}

fn far_run_case(random: &mut Random) -> RunCase {
    let count = match random.below(4) {
        0 => random.between(5, 256),
        1 => random.between(257, 999),
        _ => random.between(1_000, 1_024),
    };
    let (rule, bound) = far::rule_and_bound(random, count);
    RunCase { bound, valuation: valuation(random, rule.inputs.into()), table: rule.encode() }
}

pub fn judge_case(seed: u64) -> JudgeCase {
    let mut random = Random::new(seed);
    let trace = traces::trace(&mut random);
    let inputs = trace.inputs;
    let trace = lay_out(&mut random, trace);
    JudgeCase { valuation: valuation(&mut random, inputs.into()), trace }
}

/// Damaged or not.
fn lay_out(random: &mut Random, draft: Draft) -> Vec<u8> {
    if random.percent(40) {
        return faults::damaged(random, draft);
    }
    draft.encode()
}

fn bound(random: &mut Random, table_length: usize) -> u64 {
    let bound = any_bound(random);
    if table_length > LONG_TABLE && bound <= 255 && !random.one_in(10) {
        return bound % 8;
    }
    bound
}

fn any_bound(random: &mut Random) -> u64 {
    match random.below(20) {
        0..=9 => random.below(5) as u64,
        10..=13 => random.below(21) as u64,
        14..=16 => random.below(256) as u64,
        17 => random.between(254, 258) as u64,
        18 => random.between(256, 300) as u64,
        _ => huge_bound(random),
    }
}

/// Bounds whose low bytes alone would pass.
fn huge_bound(random: &mut Random) -> u64 {
    let high = random.pick(&[1 << 9, 1 << 16, 1 << 31, 1 << 32, 1 << 63, u64::MAX - 255]);
    high + random.below(256) as u64
}

fn valuation(random: &mut Random, inputs: usize) -> Vec<u8> {
    let mut valuation = right_valuation(random, inputs);
    if random.percent(12) {
        valuation.resize(valuation_length(random, inputs), random.byte());
    }
    valuation
}

pub fn right_valuation(random: &mut Random, inputs: usize) -> Vec<u8> {
    let words: Vec<u32> = (0..inputs).map(|_| random.word()).collect();
    encoding::valuation(&words)
}

fn valuation_length(random: &mut Random, inputs: usize) -> usize {
    let right = 4 * inputs;
    match random.below(8) {
        0 => 0,
        1 => inputs,
        2 => right + 1,
        3 => right.saturating_sub(1),
        4 => right + 4,
        5 => right.saturating_sub(4),
        6 => right + random.pick(&[256, 1 << 16]),
        _ => random.below(300),
    }
}
