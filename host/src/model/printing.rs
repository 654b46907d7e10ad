//! Document 01, "A small rule, worked": the lines that the slice printer prints; request 2026-01 has the word `bound`.

use std::iter;

use super::expression::{tokens, InTrace, Token};
use super::expression::{
    ADD, AND, EQUAL, ITE, LSHR, MUL, NEG, NOT, OR, SHL, SLT, SUB, UDIV, ULE, ULT, UREM, XOR, ZERO,
};
use super::file::{Record, Refusal};
use super::trace::{Statement, Trace};

pub fn slice_text(slice: &Trace) -> String {
    let first_line = format!("inputs {} statements {}\n", slice.inputs, slice.count);
    iter::once(first_line).chain(slice.records().map(line)).collect()
}

pub fn refusal_text(refusal: &Refusal) -> String {
    format!("refused {} at {}\n", refusal.number, refusal.offset)
}

fn line(record: Record<Statement>) -> String {
    let head = match record.action {
        Statement::Assign { place, symbol } => format!("{place} assign s{symbol}"),
        Statement::Assume { place } => format!("{place} assume"),
        Statement::Assert { place } => format!("{place} assert"),
        Statement::Bound { place } => format!("{place} bound"),
    };
    let fields: Vec<String> = iter::once(head).chain(tokens::<InTrace>(record.expression).map(field)).collect();
    fields.join(" ") + "\n"
}

fn field(token: Token) -> String {
    match token {
        Token::Constant(word) => word.to_string(),
        Token::Symbol(symbol) => format!("s{symbol}"),
        Token::Operator(operator) => name(operator).into(),
    }
}

fn name(operator: u8) -> &'static str {
    match operator {
        NOT => "not",
        NEG => "neg",
        ZERO => "zero",
        ADD => "add",
        SUB => "sub",
        MUL => "mul",
        UDIV => "udiv",
        UREM => "urem",
        AND => "and",
        OR => "or",
        XOR => "xor",
        SHL => "shl",
        LSHR => "lshr",
        EQUAL => "equal",
        ULT => "ult",
        ULE => "ule",
        SLT => "slt",
        ITE => "ite",
        _ => unreachable!("the trace was accepted"),
    }
}
