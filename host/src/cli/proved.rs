//! The proved archive, as the command asks it: an answer whole, or its refusal.

use crate::archive;
use crate::encoding;
use crate::verdict::UNSAFE;
use crate::written::{whole, whole_within, SCRIPT_ROOM};

/// The reply that a trace would be too long.
pub const TRACE_TOO_LONG: u32 = 9;

/// A numbered reply that is not "done".
#[derive(Clone, Copy, Debug, PartialEq, Eq)]
pub struct Refusal {
    pub reply: u32,
    pub offset: u32,
}

/// How judging, or a run, came to its end.
#[derive(Clone, Copy, Debug, PartialEq, Eq)]
pub struct Judgement {
    pub verdict: u32,
    pub place: u32,
}

impl Judgement {
    /// The place of the Assert that failed, if one did.
    pub fn unsafe_place(self) -> Option<u32> {
        (self.verdict == UNSAFE).then_some(self.place)
    }
}

#[derive(Clone, Copy, Debug, PartialEq, Eq)]
pub struct Run {
    pub end: Judgement,
    pub back_jumps: u32,
}

pub struct Slice {
    pub bytes: Vec<u8>,
    /// Bit s is set when the slice reads input s.
    pub mask: u64,
}

/// Whether a table is accepted: it is run, without back jumps, from inputs that are 0.
pub fn accept(table: &[u8]) -> Result<(), Refusal> {
    let inputs = table.get(3).copied().unwrap_or(0);
    run(table, 0, &vec![0; inputs.into()]).map(|_| ())
}

pub fn run(table: &[u8], bound: u64, words: &[u32]) -> Result<Run, Refusal> {
    let valuation = &encoding::valuation(words);
    done(archive::run_reply(table, bound, valuation), || archive::run_offset(table, bound, valuation))?;
    let verdict = archive::run_verdict(table, bound, valuation);
    let place = archive::run_place(table, bound, valuation);
    Ok(Run { end: Judgement { verdict, place }, back_jumps: archive::run_back_jumps(table, bound, valuation) })
}

pub fn judge(trace: &[u8], words: &[u32]) -> Result<Judgement, Refusal> {
    let valuation = &encoding::valuation(words);
    done(archive::judge_reply(trace, valuation), || archive::judge_offset(trace, valuation))?;
    let verdict = archive::judge_verdict(trace, valuation);
    Ok(Judgement { verdict, place: archive::judge_place(trace, valuation) })
}

pub fn trace(table: &[u8], bound: u64) -> Result<Vec<u8>, Refusal> {
    let bytes = whole(|out| archive::trace_length(table, bound, out));
    let mut room = vec![0; bytes.len()];
    done(archive::trace_reply(table, bound, &mut room), || archive::trace_offset(table, bound, &mut []))?;
    Ok(bytes)
}

/// The largest bound, up to this one, under which a table's trace is not too long; none if there is no such bound.
pub fn largest_bound(table: &[u8], bound: u64) -> Option<u64> {
    let is_short = |bound: &u64| archive::trace_reply(table, *bound, &mut []) != TRACE_TOO_LONG;
    (0..=bound).rev().find(is_short)
}

pub fn slice(trace: &[u8]) -> Result<Slice, Refusal> {
    let mut room = vec![0; trace.len()];
    done(archive::slice_reply(trace, &mut room), || archive::slice_offset(trace, &mut []))?;
    Ok(Slice { mask: archive::slice_mask(trace, &mut room), bytes: whole(|out| archive::slice_length(trace, out)) })
}

pub fn script(trace: &[u8]) -> Result<Vec<u8>, Refusal> {
    let bytes = whole_within(SCRIPT_ROOM, |out| archive::script_length(trace, out));
    let mut room = vec![0; bytes.len()];
    done(archive::script_reply(trace, &mut room), || archive::script_offset(trace, &mut []))?;
    Ok(bytes)
}

fn done(reply: u32, offset: impl FnOnce() -> u32) -> Result<(), Refusal> {
    if reply == 0 {
        return Ok(());
    }
    Err(Refusal { reply, offset: offset() })
}
