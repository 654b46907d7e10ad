//! A trace as text, in the slice printer's form. The printer is proved and prints slices; what is here prints any
//! trace, and tests hold it to the printer's text.

use super::expression::{postfix, tokens};
use crate::encoding::Form;
use crate::parts::Parts;

/// The text of an accepted trace.
pub fn of(trace: &[u8]) -> String {
    let Parts { inputs, records, .. } = Parts::of(trace).expect("an accepted trace has a header");
    let lines: String = records.iter().map(|record| line(record)).collect();
    format!("inputs {inputs} statements {}\n{lines}", records.len())
}

fn line(record: &[u8]) -> String {
    let number = |high: u8, low: u8| u16::from_be_bytes([high, low]);
    let (head, expression) = match *record {
        [1, a, b, c, d, ref expression @ ..] => (format!("{} assign s{}", number(a, b), number(c, d)), expression),
        [2, a, b, ref expression @ ..] => (format!("{} assume", number(a, b)), expression),
        [3, a, b, ref expression @ ..] => (format!("{} assert", number(a, b)), expression),
        [4, a, b, ref expression @ ..] => (format!("{} bound", number(a, b)), expression),
        _ => unreachable!("the trace is accepted"),
    };
    format!("{head} {}\n", postfix(&tokens(Form::Trace, expression).0))
}
