//! Document 01, "The trace under bound K": "Judging is EvalTrace", which source document 000 gives in chapter 3; request
//! 2026-01 says how it ends.

use super::end::End;
use super::expression::{evaluate, InTrace};
use super::trace::{Statement, Trace, SYMBOL_LIMIT};

/// The first false test ends it.
pub fn judge(trace: &Trace, cells: &mut [u32; SYMBOL_LIMIT]) -> End {
    for record in trace.records() {
        let word = evaluate::<InTrace>(record.expression, cells);
        match record.action {
            Statement::Assign { symbol, .. } => cells[usize::from(symbol)] = word,
            Statement::Assume { .. } if word == 0 => return End::Stopped,
            Statement::Assert { place } if word == 0 => return End::Unsafe(place.into()),
            Statement::Bound { .. } if word == 0 => return End::Cut,
            _ => {}
        }
    }
    End::Ended
}
