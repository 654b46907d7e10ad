//! What is timed: tables and traces of several sizes, accepted to the end or refused at it.

use host::archive::ARCHIVE;
use host::case::{JudgeCase, RunCase};
use host::cases::running;
use host::encoding::{self, Form};
use host::statement;

/// Bounds for the small rule.
pub const BOUNDS: [u64; 4] = [0, 15, 63, 255];

/// An input that is never counted down to 0, so that all back jumps are taken.
const MANY: u32 = 1_000_000;

pub fn small_rule(bound: u64) -> RunCase {
    RunCase { table: running::SMALL_RULE.to_vec(), bound, valuation: encoding::valuation(&[MANY]) }
}

pub fn thousand_asserts(bound: u64) -> RunCase {
    RunCase { table: running::thousand_asserts(), bound, valuation: encoding::valuation(&[1]) }
}

/// Some 60,000 bytes, gone through 256 times.
pub fn deep_loop() -> RunCase {
    deep_table(800, vec![4, 0, 0, 1, 0, 0, 0, 1])
}

/// Some 60,000 bytes as a trace.
pub fn deep_rule() -> RunCase {
    RunCase { bound: 0, ..deep_table(600, vec![3, 2, 0]) }
}

pub fn refused_table() -> RunCase {
    deep_table(800, vec![3])
}

fn deep_table(assigns: u16, last: Vec<u8>) -> RunCase {
    let assign = |i: u16| [vec![1, (i % 2) as u8], deep_expression(Form::Table, 0, i)].concat();
    let mut records: Vec<Vec<u8>> = (0..assigns).map(assign).collect();
    records.push(last);
    RunCase { table: encoding::table(2, &records), bound: 255, valuation: encoding::valuation(&[3, 1]) }
}

/// x becomes x - 1 and Asserts of x in turn, with a back jump at the end.
pub fn alternating_table(n: usize) -> Vec<u8> {
    let records: [&[u8]; 2] = [&[1, 0, 2, 0, 1, 0, 0, 0, 1, 0x21], &[3, 2, 0]];
    let mut records: Vec<&[u8]> = records.into_iter().cycle().take(n).collect();
    if let Some(last) = records.last_mut() {
        *last = &[4, 0, 0, 2, 0];
    }
    encoding::table(1, &records)
}

/// Judging a table's trace in place of running it.
pub fn unwound(RunCase { table, bound, valuation }: RunCase) -> JudgeCase {
    JudgeCase { trace: ARCHIVE.whole_trace(&table, bound), valuation }
}

/// Some 60,000 bytes, all of which the last statement depends on.
pub fn deep_statements() -> JudgeCase {
    deep_trace(statement::assert(0, &statement::read(661)))
}

/// Some 60,000 bytes, of which a slice keeps the last statement.
pub fn idle_statements() -> JudgeCase {
    deep_trace(statement::assert(0, &[1, 0, 0, 0, 1]))
}

pub fn refused_trace() -> JudgeCase {
    deep_trace(statement::assert(0, &[]))
}

/// Each symbol is made of the two before it.
fn deep_trace(last: Vec<u8>) -> JudgeCase {
    let assign = |i| statement::assign(0, i + 2, &deep_expression(Form::Trace, i, i));
    let mut statements: Vec<Vec<u8>> = (0..660).map(assign).collect();
    statements.push(last);
    JudgeCase { trace: encoding::trace(2, &statements), valuation: encoding::valuation(&[3, 1]) }
}

/// As many words as may be held, of two symbols and of constants in turn, and binary operators, in another order for
/// each record.
fn deep_expression(form: Form, symbol: u16, i: u16) -> Vec<u8> {
    let depth = form.depth_limit() as u16;
    let mut expression = Vec::new();
    for k in 0..depth {
        let pair = k / 2;
        if k % 2 == 0 {
            expression.extend(form.symbol(symbol + pair % 2));
        } else {
            expression.extend([1, pair as u8, i as u8, pair as u8, i as u8]);
        }
    }
    expression.extend((0..depth - 1).map(|k| 0x20 + ((i * k + k) % 14) as u8));
    expression
}
