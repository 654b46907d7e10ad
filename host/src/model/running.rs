//! Document 01, "Running a table under bound K"; request 2026-01 says how a run ends.

use super::end::End;
use super::expression::{evaluate, InTable};
use super::file::INPUT_LIMIT;
use super::table::{Instruction, Table};

pub struct Outcome {
    pub end: End,
    pub back_jumps: u32,
}

pub fn run(table: &Table, bound: u32, words: &mut [u32; INPUT_LIMIT]) -> Outcome {
    let n = table.instruction_count();
    let mut back_jumps = 0;
    let mut i = 0;
    while i < n {
        let record = table.record(i);
        let word = evaluate::<InTable>(record.expression, words);
        let mut next = i + 1;
        match record.action {
            Instruction::Assign { symbol } => words[usize::from(symbol)] = word,
            Instruction::Assume if word == 0 => return Outcome { end: End::Stopped, back_jumps },
            Instruction::Assert if word == 0 => return failed(back_jumps, n, i),
            Instruction::IfThenGoto { target } if word != 0 => next = target.into(),
            _ => {}
        }
        if next <= i {
            if back_jumps == bound {
                return Outcome { end: End::Cut, back_jumps };
            }
            back_jumps += 1;
        }
        i = next;
    }
    Outcome { end: End::Ended, back_jumps }
}

fn failed(back_jumps: u32, n: usize, i: usize) -> Outcome {
    let place = back_jumps * (n as u32 + 1) + i as u32;
    Outcome { end: End::Unsafe(place), back_jumps }
}
