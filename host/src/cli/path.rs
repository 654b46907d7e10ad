//! The way that a run takes through a table, asked of the archive place by place. In a trace, place j is active when
//! its guard `W j ule` holds. So a place is one that the run comes to exactly if the trace, cut off before that place
//! and ended with an Assert that its guard does not hold, is unsafe there.

use super::proved::{self, Judgement, Refusal, Run};
use super::rule::Rule;
use crate::encoding::{self, Form};
use crate::parts::Parts;
use crate::statement;
use crate::verdict::ENDED;

/// The bytes of `W j ule`.
const GUARD: usize = 9;
const ZERO: u8 = 0x12;
/// A trace's Assign has a symbol before its expression.
const ASSIGN: u8 = 1;

/// The instructions that a run comes to, one after the other; the number behind the last is the end. Nothing where that
/// does not end as the run does, which is not possible.
pub fn of(rule: &Rule, words: &[u32], run: &Run) -> Result<Option<Vec<usize>>, Refusal> {
    let trace = proved::trace(&rule.table, run.back_jumps.into())?;
    let records = Parts::of(&trace).map_or(vec![], |parts| parts.records);
    let mut places = Vec::new();
    for j in 0..records.len() as u16 - 1 {
        let probe = probe(rule, &records, j);
        if proved::judge(&probe, words)?.unsafe_place() == Some(j.into()) {
            places.push(j);
        }
    }
    let path: Vec<usize> = places.iter().map(|j| rule.at((*j).into()).0).collect();
    let is_right = proved::judge(&trace, words)? == run.end && ends_with(rule, &run.end, &places);
    Ok(is_right.then_some(path))
}

/// The trace up to place j, and an Assert that the run does not come there.
fn probe(rule: &Rule, records: &[Vec<u8>], j: u16) -> Vec<u8> {
    let opening_and_before = usize::from(j) + 1;
    let record = &records[opening_and_before];
    let fields = if record[0] == ASSIGN { 5 } else { 3 };
    let guard = &record[fields..fields + GUARD];
    let test = statement::assert(j, &[guard, &[ZERO]].concat());
    let before = records[..opening_and_before].iter().cloned();
    encoding::file(Form::Trace.version(), rule.inputs as u8, &before.chain([test]).collect::<Vec<_>>())
}

/// At the place that failed; a run that is not unsafe has none.
fn ends_with(rule: &Rule, end: &Judgement, places: &[u16]) -> bool {
    let last = places.last().map(|j| u32::from(*j));
    match end.unsafe_place() {
        Some(place) => last == Some(place),
        None => last.is_some_and(|last| end.verdict != ENDED || rule.at(last).0 == rule.instruction_count()),
    }
}
