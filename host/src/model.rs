//! What document 01 says of tables and traces, request 2026-01 of verdicts and docs/SCRIPT.md of scripts, in plain
//! Rust: checked once, then run, unwound, judged, sliced or written as a script in place; and how a slice is printed.

mod end;
mod expression;
mod file;
mod judging;
mod printing;
mod running;
mod script;
mod slicing;
mod table;
mod trace;
mod unwinding;
mod writer;

use end::End;
use file::{Refusal, INPUT_LIMIT};
use running::Outcome;
use slicing::Slice;
use table::{Table, INSTRUCTION_LIMIT};
use trace::{Trace, STATEMENT_LIMIT, SYMBOL_LIMIT};
use unwinding::LENGTH_LIMIT;

/// The five numbers of a run. A refusal has all but the first two 0; `verdict` names the verdicts.
#[derive(Clone, Copy, Debug, Default, PartialEq, Eq)]
pub struct RunAnswer {
    pub reply: u32,
    pub offset: u32,
    pub verdict: u32,
    pub place: u32,
    pub back_jumps: u32,
}

/// The four numbers of judging, as those of a run.
#[derive(Clone, Copy, Debug, Default, PartialEq, Eq)]
pub struct JudgeAnswer {
    pub reply: u32,
    pub offset: u32,
    pub verdict: u32,
    pub place: u32,
}

/// The three numbers of writing a trace. A refusal has all but the first two 0.
#[derive(Clone, Copy, Debug, Default, PartialEq, Eq)]
pub struct TraceAnswer {
    pub reply: u32,
    pub offset: u32,
    pub length: u32,
}

/// The five numbers of slicing, as those of writing a trace. Bit s of the mask is set when the slice reads input s;
/// `inputs` counts its ones.
#[derive(Clone, Copy, Debug, Default, PartialEq, Eq)]
pub struct SliceAnswer {
    pub reply: u32,
    pub offset: u32,
    pub length: u32,
    pub inputs: u32,
    pub mask: u64,
}

/// The three numbers of writing a script, as those of writing a trace.
#[derive(Clone, Copy, Debug, Default, PartialEq, Eq)]
pub struct ScriptAnswer {
    pub reply: u32,
    pub offset: u32,
    pub length: u32,
}

/// Runs a table under a bound; the valuation is four big-endian bytes for each input.
pub fn run(table: &[u8], bound: u64, valuation: &[u8]) -> RunAnswer {
    match accept_and_run(table, bound, valuation) {
        Ok(Outcome { end, back_jumps }) => {
            RunAnswer { verdict: end.verdict(), place: end.place(), back_jumps, ..RunAnswer::default() }
        }
        Err(Refusal { number, offset }) => RunAnswer { reply: number, offset, ..RunAnswer::default() },
    }
}

fn accept_and_run(bytes: &[u8], bound: u64, valuation: &[u8]) -> Result<Outcome, Refusal> {
    let mut offsets = [0; INSTRUCTION_LIMIT];
    let table = Table::read(bytes, &mut offsets)?;
    let bound = read_bound(bound)?;
    let mut words = [0; INPUT_LIMIT];
    read_valuation(valuation, table.inputs, &mut words)?;
    Ok(running::run(&table, bound.into(), &mut words))
}

/// Writes the trace of a table under a bound from the first byte of `out`.
pub fn trace(table: &[u8], bound: u64, out: &mut [u8]) -> TraceAnswer {
    match accept_and_trace(table, bound, out) {
        Ok(length) => TraceAnswer { length: length as u32, ..TraceAnswer::default() },
        Err(Refusal { number, offset }) => TraceAnswer { reply: number, offset, ..TraceAnswer::default() },
    }
}

fn accept_and_trace(bytes: &[u8], bound: u64, out: &mut [u8]) -> Result<usize, Refusal> {
    let mut offsets = [0; INSTRUCTION_LIMIT];
    let table = Table::read(bytes, &mut offsets)?;
    let bound = read_bound(bound)?.into();
    let size = unwinding::measure(&table, bound).ok_or(Refusal::new(9, 0))?;
    unwinding::write(&table, bound, &size, take_room(out, size.length)?);
    Ok(size.length)
}

/// Judges a trace under a valuation, four big-endian bytes for each input.
pub fn judge(trace: &[u8], valuation: &[u8]) -> JudgeAnswer {
    match accept_and_judge(trace, valuation) {
        Ok(end) => JudgeAnswer { verdict: end.verdict(), place: end.place(), ..JudgeAnswer::default() },
        Err(Refusal { number, offset }) => JudgeAnswer { reply: number, offset, ..JudgeAnswer::default() },
    }
}

fn accept_and_judge(bytes: &[u8], valuation: &[u8]) -> Result<End, Refusal> {
    let trace = Trace::read(bytes)?;
    let mut cells = [0; SYMBOL_LIMIT];
    read_valuation(valuation, trace.inputs, &mut cells)?;
    Ok(judging::judge(&trace, &mut cells))
}

/// Writes the slice of a trace from the first byte of `out`.
pub fn slice(trace: &[u8], out: &mut [u8]) -> SliceAnswer {
    match accept_and_slice(trace, out) {
        Ok((length, mask)) => {
            SliceAnswer { length: length as u32, inputs: mask.count_ones(), mask, ..SliceAnswer::default() }
        }
        Err(Refusal { number, offset }) => SliceAnswer { reply: number, offset, ..SliceAnswer::default() },
    }
}

fn accept_and_slice(bytes: &[u8], out: &mut [u8]) -> Result<(usize, u64), Refusal> {
    let trace = Trace::read(bytes)?;
    let mut offsets = [0; STATEMENT_LIMIT];
    let slice = Slice::of(&trace, &mut offsets);
    slice.write(&trace, take_room(out, slice.length)?);
    Ok((slice.length, slice.mask))
}

/// Writes the solver's script of a trace from the first byte of `out`.
pub fn script(trace: &[u8], out: &mut [u8]) -> ScriptAnswer {
    match accept_and_script(trace, out) {
        Ok(length) => ScriptAnswer { length: length as u32, ..ScriptAnswer::default() },
        Err(Refusal { number, offset }) => ScriptAnswer { reply: number, offset, ..ScriptAnswer::default() },
    }
}

fn accept_and_script(bytes: &[u8], out: &mut [u8]) -> Result<usize, Refusal> {
    let trace = Trace::read(bytes)?;
    let length = script::measure(&trace);
    script::write(&trace, take_room(out, length)?);
    Ok(length)
}

/// The text that the slice printer gives for its input: a byte for the bound, then a table.
pub fn print(input: &[u8]) -> String {
    accept_and_print(input).unwrap_or_else(|refusal| printing::refusal_text(&refusal))
}

fn accept_and_print(input: &[u8]) -> Result<String, Refusal> {
    let Some((&bound, table)) = input.split_first() else {
        return Err(Refusal::new(1, 0));
    };
    let mut trace = vec![0; LENGTH_LIMIT];
    let trace_length = accept_and_trace(table, bound.into(), &mut trace)?;
    let mut slice = vec![0; trace_length];
    let (slice_length, _) = accept_and_slice(&trace[..trace_length], &mut slice)?;
    Ok(printing::slice_text(&Trace::read(&slice[..slice_length])?))
}

/// A bound of up to 255.
fn read_bound(bound: u64) -> Result<u8, Refusal> {
    u8::try_from(bound).map_err(|_| Refusal::new(8, 0))
}

fn take_room(out: &mut [u8], length: usize) -> Result<&mut [u8], Refusal> {
    out.get_mut(..length).ok_or(Refusal::new(10, 0))
}

/// Writes the inputs into the first words.
fn read_valuation(valuation: &[u8], inputs: u8, words: &mut [u32]) -> Result<(), Refusal> {
    if valuation.len() != 4 * usize::from(inputs) {
        return Err(Refusal::new(11, 0));
    }
    for (word, bytes) in words.iter_mut().zip(valuation.chunks_exact(4)) {
        *word = u32::from_be_bytes([bytes[0], bytes[1], bytes[2], bytes[3]]);
    }
    Ok(())
}
