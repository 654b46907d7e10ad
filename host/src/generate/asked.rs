//! Cases that solvers are asked of: right traces, whose scripts are short enough to be answered in no time.

use std::iter;

use super::draft::Draft;
use super::random::Random;
use super::writing::{any_written_trace, rule_and_bound_with_trace, written_trace};
use super::{right_valuation, traces};
use crate::case::{JudgeCase, RunCase, ScriptCase};
use crate::encoding;
use crate::model;
use crate::written::whole;

/// How many letters a script may have whose inputs are pinned.
const PINNED_LENGTH: usize = 50_000;
/// How many it may have whose inputs are not.
const UNPINNED_LENGTH: usize = 5_000;

/// A trace with words for its inputs.
pub fn pinned_judge_case(seed: u64) -> JudgeCase {
    let mut random = Random::new(seed);
    let trace = right_trace(&mut random, PINNED_LENGTH);
    JudgeCase { valuation: right_valuation(&mut random, trace[3].into()), trace }
}

/// A trace, with room for its script.
pub fn unpinned_script_case(seed: u64) -> ScriptCase {
    let trace = right_trace(&mut Random::new(seed), UNPINNED_LENGTH);
    ScriptCase { trace, room: UNPINNED_LENGTH }
}

/// A table that has a trace, with the bound of this trace and any words.
pub fn unpinned_run_case(seed: u64) -> RunCase {
    let mut random = Random::new(seed);
    let mut rules = iter::repeat_with(|| rule_and_bound_with_trace(&mut random));
    let is_short = |(rule, bound): &(Draft, u64)| has_script(&written_trace(&rule.encode(), *bound), UNPINNED_LENGTH);
    let (rule, bound) = rules.find(is_short).expect("rules go on");
    RunCase { table: rule.encode(), bound, valuation: encoding::valuation(&vec![0; rule.inputs.into()]) }
}

/// Written, sliced or of no table, with a script of so many letters at most.
fn right_trace(random: &mut Random, length: usize) -> Vec<u8> {
    let write = random.pick::<fn(&mut Random) -> Vec<u8>>(&[
        any_written_trace,
        any_sliced_trace,
        |random| traces::trace(random).encode(),
        |random| traces::trapping_trace(random).encode(),
    ]);
    iter::repeat_with(|| write(random)).find(|trace| has_script(trace, length)).expect("traces go on")
}

fn any_sliced_trace(random: &mut Random) -> Vec<u8> {
    let trace = any_written_trace(random);
    whole(|out| model::slice(&trace, out).length)
}

fn has_script(trace: &[u8], length: usize) -> bool {
    model::script(trace, &mut vec![0; length]).reply == 0
}
