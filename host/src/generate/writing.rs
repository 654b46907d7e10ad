//! Cases of writing: tables to unwind or to print, traces to slice or to hand to a solver, written or not, and rooms
//! around what they need.

use super::draft::Draft;
use super::expressions::NOT;
use super::random::Random;
use super::{any_bound, far, faults, lay_out, right_valuation, rules, run_case, traces, valuation};
use crate::case::{JudgeCase, PrintCase, RunCase, ScriptCase, SliceCase, TraceCase};
use crate::encoding::Form;
use crate::model;
use crate::parts::as_old_trace;
use crate::written::{whole, whole_within, LENGTH_LIMIT, SCRIPT_ROOM};

pub fn trace_case(seed: u64) -> TraceCase {
    let mut random = Random::new(seed);
    let (rule, bound) = rule_and_bound(&mut random);
    let table = lay_out(&mut random, rule);
    let length = written_trace(&table, bound).len();
    TraceCase { table, bound, room: room(&mut random, length) }
}

/// Runs of tables that have a trace under their bound, but for a few.
pub fn unwound_run_case(seed: u64) -> RunCase {
    let mut random = Random::new(seed);
    if random.one_in(25) {
        return run_case(!seed);
    }
    let (rule, bound) = rule_and_bound_with_trace(&mut random);
    let valuation = if random.one_in(10) { valuation } else { right_valuation };
    RunCase { bound, valuation: valuation(&mut random, rule.inputs.into()), table: rule.encode() }
}

/// As those of writing a trace, under a bound of one byte.
pub fn print_case(seed: u64) -> PrintCase {
    let mut random = Random::new(seed);
    let (rule, bound) = rule_and_bound(&mut random);
    PrintCase { bound: Some(bound % 256), table: lay_out(&mut random, rule) }
}

pub fn slice_case(seed: u64) -> SliceCase {
    let mut random = Random::new(seed);
    let trace = any_trace(&mut random);
    let length = whole(|out| model::slice(&trace, out).length).len();
    SliceCase { trace, room: room(&mut random, length) }
}

/// The traces that slicing is given, and some with the traps of scripts.
pub fn script_case(seed: u64) -> ScriptCase {
    let mut random = Random::new(seed);
    let trace = if random.one_in(3) { any_trapping_trace(&mut random) } else { any_trace(&mut random) };
    let length = whole_within(SCRIPT_ROOM, |out| model::script(&trace, out).length).len();
    ScriptCase { trace, room: room(&mut random, length) }
}

/// Judging of the traces that slicing is given.
pub fn sliced_judge_case(seed: u64) -> JudgeCase {
    let mut random = Random::new(seed);
    let trace = any_trace(&mut random);
    let inputs = trace.get(3).copied().unwrap_or(0);
    JudgeCase { valuation: valuation(&mut random, inputs.into()), trace }
}

/// From a table or from none, damaged or not.
fn any_trace(random: &mut Random) -> Vec<u8> {
    if random.one_in(2) {
        let trace = traces::trace(random);
        return lay_out(random, trace);
    }
    let mut trace = any_written_trace(random);
    if random.one_in(3) {
        trace = as_old_trace(&trace);
    }
    match random.below(24) {
        0..=7 => faults::damage_bytes(random, &mut trace, Form::Trace),
        // Version 129 has no bounds.
        8 => trace[0] = Form::OldTrace.version(),
        _ => {}
    }
    trace
}

/// From no table, damaged or not.
fn any_trapping_trace(random: &mut Random) -> Vec<u8> {
    let trace = traces::trapping_trace(random);
    lay_out(random, trace)
}

pub fn any_written_trace(random: &mut Random) -> Vec<u8> {
    let (rule, bound) = rule_and_bound_with_trace(random);
    written_trace(&rule.encode(), bound)
}

/// The first that have a trace, of which reply 10 says that nothing but room is missing.
pub fn rule_and_bound_with_trace(random: &mut Random) -> (Draft, u64) {
    loop {
        let (rule, bound) = rule_and_bound(random);
        if model::trace(&rule.encode(), bound, &mut []).reply == 10 {
            return (rule, bound);
        }
    }
}

fn rule_and_bound(random: &mut Random) -> (Draft, u64) {
    if random.one_in(150) {
        let count = random.pick(&[14, 20, 100, 1_024]);
        let count = random.between(5, count);
        return far::rule_and_bound(random, count);
    }
    let mut rule = rules::rule(random);
    let mut bound = trace_bound(random, rule.records.len());
    if random.one_in(100) {
        bound = random.pick(&[0, 0, bound]);
        fill(random, &mut rule, bound);
    }
    (rule, bound)
}

/// For a long table mostly a bound under which its trace has about as many statements as it may have, or fewer.
fn trace_bound(random: &mut Random, instructions: usize) -> u64 {
    if instructions > 50 && !random.one_in(10) {
        return random.below(3 + 4096 / (instructions + 1)) as u64;
    }
    any_bound(random)
}

/// Lengthens the last instruction so that the trace is as long as it may be, or a little longer; exactly where there
/// is one copy.
fn fill(random: &mut Random, rule: &mut Draft, bound: u64) {
    let length = written_trace(&rule.encode(), bound).len();
    let Some(last) = rule.records.last_mut().filter(|_| length > 0) else {
        return;
    };
    let wanted = LENGTH_LIMIT + random.below(3) - 1;
    let padding = wanted.saturating_sub(length) / (bound as usize + 1);
    last.expression.extend(vec![NOT; padding]);
}

/// The trace of a table, empty where there is none.
pub fn written_trace(table: &[u8], bound: u64) -> Vec<u8> {
    whole(|out| model::trace(table, bound, out).length)
}

/// Around the exact length, or far from it.
fn room(random: &mut Random, length: usize) -> usize {
    match random.below(12) {
        0..=4 => length,
        5..=6 => length + 1,
        7..=8 => length.saturating_sub(1),
        9 => 0,
        10 => random.below(length + 1),
        _ => length + random.pick(&[2, 100, 1_000, LENGTH_LIMIT]),
    }
}
