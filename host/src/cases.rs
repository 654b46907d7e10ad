//! Cases whose answers stand in document 01 or docs/SCRIPT.md, or follow from their sentences at a glance.

pub mod breaking;
pub mod judging;
pub mod printing;
pub mod running;
pub mod scripting;
pub mod slicing;
pub mod traces;
pub mod unwinding;

use std::ops::RangeInclusive;

use crate::case::Case;

pub struct Known<C: Case> {
    pub name: String,
    pub case: C,
    pub answer: C::Answer,
}

const CONSTANT_1: [u8; 5] = [1, 0, 0, 0, 1];
const CONSTANT_0: [u8; 5] = [1, 0, 0, 0, 0];

/// For each marked operator, a test that it gives what document 01 says.
fn marked_operators() -> [(&'static str, Vec<u8>); 8] {
    [
        ("m6: 0 sub 1", equality(0, 0x21, 1, 4294967295)),
        ("m7: 65536 mul 65536", equality(65536, 0x22, 65536, 0)),
        ("m8: 7 udiv 0", equality(7, 0x23, 0, 4294967295)),
        ("m8: 7 urem 0", equality(7, 0x24, 0, 7)),
        ("m9: 1 shl 31", equality(1, 0x28, 31, 2147483648)),
        ("m9: 1 shl 32", equality(1, 0x28, 32, 0)),
        ("m10: 2147483648 slt 0", equality(2147483648, 0x2C, 0, 1)),
        ("m10: 2147483648 ult 0", equality(2147483648, 0x2B, 0, 0)),
    ]
}

fn equality(a: u32, operator: u8, b: u32, result: u32) -> Vec<u8> {
    const EQUAL: u8 = 0x2A;
    let mut test = Vec::new();
    for (word, token) in [(a, None), (b, Some(operator)), (result, Some(EQUAL))] {
        test.push(0x01);
        test.extend(word.to_be_bytes());
        test.extend(token);
    }
    test
}

fn contrary(test: &[u8]) -> Vec<u8> {
    const ZERO: u8 = 0x12;
    [test, &[ZERO]].concat()
}

/// An expression that holds `depth` words at most and leaves 1.
fn ones(depth: usize) -> Vec<u8> {
    const AND: u8 = 0x25;
    [CONSTANT_1.repeat(depth), vec![AND; depth - 1]].concat()
}

/// Records of every other kind than the known ones, with fields of any length and an expression.
fn unknown_kinds(known: RangeInclusive<u8>) -> impl Iterator<Item = (String, Vec<u8>)> {
    let kinds = (0..=255).filter(move |kind| !known.contains(kind));
    kinds.flat_map(|kind| (0..=4).map(move |fields| unknown_kind(kind, fields)))
}

fn unknown_kind(kind: u8, fields: usize) -> (String, Vec<u8>) {
    let record = [&[kind][..], &vec![0; fields], &CONSTANT_1].concat();
    (format!("kind {kind} with {fields} bytes of fields"), record)
}

/// Expressions with a byte that is no token of a file with this symbol token, behind any number of words that an
/// operator pops and before any operand; each with the offset of that byte.
fn unknown_tokens(symbol: u8) -> impl Iterator<Item = (String, Vec<u8>, u32)> {
    let is_known = move |token| token == symbol || matches!(token, 0x01 | 0x10..=0x12 | 0x20..=0x2D | 0x30);
    let tokens = (0..=255).filter(move |&token| !is_known(token));
    let shapes = (0..=3).flat_map(|words| (0..=4).map(move |operands| (words, operands)));
    tokens.flat_map(move |token| shapes.clone().map(move |shape| unknown_token(token, shape)))
}

fn unknown_token(token: u8, (words, operands): (usize, usize)) -> (String, Vec<u8>, u32) {
    let expression = [&CONSTANT_1.repeat(words)[..], &[token], &vec![0; operands]].concat();
    (format!("token {token} behind {words} words, before {operands} bytes"), expression, 5 * words as u32)
}
