//! The instruction at which a run ended, asked of the archive: it gives a place to a failing Assert alone, so the
//! question is put to a table or a trace in which the other tests are Asserts too.

use super::proved::{self, Run};
use super::rule::Rule;
use crate::parts::Parts;
use crate::verdict::{CUT, STOPPED};

const ASSUME: u8 = 2;
const ASSERT: u8 = 3;
/// In a trace.
const BOUND: u8 = 4;

/// Nothing for a run that went past the last instruction, or was cut in a trace that is too long to be written.
pub fn instruction_at_end(rule: &Rule, bound: u64, words: &[u32], run: &Run) -> Option<usize> {
    let place = match run.end.verdict {
        STOPPED => {
            let table = with_asserts(&rule.table, ASSUME)?;
            proved::run(&table, bound, words).ok()?.end.unsafe_place()?
        }
        CUT => {
            let trace = with_asserts(&proved::trace(&rule.table, bound).ok()?, BOUND)?;
            proved::judge(&trace, words).ok()?.unsafe_place()?
        }
        _ => run.end.unsafe_place()?,
    };
    let (i, back_jumps) = rule.at(place);
    Some(i).filter(|_| back_jumps == run.back_jumps as usize)
}

/// A table or a trace in which every test of a kind is an Assert.
fn with_asserts(file: &[u8], kind: u8) -> Option<Vec<u8>> {
    let mut parts = Parts::of(file)?;
    for first in parts.records.iter_mut().filter_map(|record| record.first_mut()) {
        *first = if *first == kind { ASSERT } else { *first };
    }
    Some(parts.join())
}
