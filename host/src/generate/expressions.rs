//! Document 01, "Arithmetic": expressions of every operator, up to any depth.

use super::random::Random;
use crate::encoding::Form;

pub const NOT: u8 = 0x10;
pub const ZERO: u8 = 0x12;

const ADD: u8 = 0x20;
const SUB: u8 = 0x21;
const UREM: u8 = 0x24;
const LSHR: u8 = 0x29;
const EQUAL: u8 = 0x2A;
const ULT: u8 = 0x2B;
const ULE: u8 = 0x2D;

/// The symbols that an expression may read, and the form of the file it stands in.
#[derive(Clone, Copy)]
pub struct Scope<'a> {
    pub form: Form,
    pub symbols: &'a [u16],
}

pub fn constant(word: u32) -> Vec<u8> {
    let [a, b, c, d] = word.to_be_bytes();
    vec![0x01, a, b, c, d]
}

/// An expression that holds `peak` words at most, and does so at least once.
pub fn with_peak(random: &mut Random, scope: Scope, peak: usize) -> Vec<u8> {
    let mut bytes = Vec::new();
    let mut depth = 0;
    while depth < peak {
        if depth > 0 && random.one_in(4) {
            depth -= operate(random, depth, &mut bytes);
        } else {
            bytes.extend(operand(random, scope));
            depth += 1;
        }
    }
    while depth > 1 || random.one_in(6) {
        depth -= operate(random, depth, &mut bytes);
    }
    bytes
}

/// Adds an operator that finds its operands, and gives the number of words it takes away.
fn operate(random: &mut Random, depth: usize, bytes: &mut Vec<u8>) -> usize {
    loop {
        let (operator, pops) = any_operator(random);
        if pops <= depth {
            bytes.push(operator);
            return pops - 1;
        }
    }
}

/// One of the 18 operators, with the number of words it pops.
fn any_operator(random: &mut Random) -> (u8, usize) {
    match random.below(18) as u8 {
        k @ 0..=2 => (0x10 + k, 1),
        k @ 3..=16 => (0x20 + (k - 3), 2),
        _ => (0x30, 3),
    }
}

/// One of the operators that pop so many words, 1 to 3.
pub fn operator(random: &mut Random, pops: usize) -> u8 {
    loop {
        let (operator, popped) = any_operator(random);
        if popped == pops {
            return operator;
        }
    }
}

/// A place before, between or behind tokens.
#[derive(Clone, Copy, Default)]
pub struct Joint {
    pub at: usize,
    /// How many words are held there.
    pub held: usize,
}

/// The joints of an expression, from its start to its end, or to a token that breaks its rules.
pub fn joints(form: Form, expression: &[u8]) -> Vec<Joint> {
    let symbol = form.symbol(0);
    let mut joint = Joint::default();
    let mut joints = vec![joint];
    while let Some(&code) = expression.get(joint.at) {
        let (length, pops) = match code {
            0x01 => (5, 0),
            code if code == symbol[0] => (symbol.len(), 0),
            _ => (1, usize::from(code >> 4)),
        };
        if pops > joint.held || joint.at + length > expression.len() {
            break;
        }
        joint = Joint { at: joint.at + length, held: joint.held + 1 - pops };
        joints.push(joint);
    }
    joints
}

pub fn operand(random: &mut Random, scope: Scope) -> Vec<u8> {
    if scope.symbols.is_empty() || random.one_in(3) {
        return constant(random.word());
    }
    scope.form.symbol(random.pick(scope.symbols))
}

/// A test of an expression against a small constant, as it is or turned.
pub fn comparison(random: &mut Random, expression: Vec<u8>) -> Vec<u8> {
    let word = random.below(6) as u32;
    let test = random.between(EQUAL.into(), ULE.into()) as u8;
    let comparison = with_constant(expression, word, test);
    if random.one_in(2) {
        return is_false(comparison);
    }
    comparison
}

pub fn unequal(expression: Vec<u8>, word: u32) -> Vec<u8> {
    is_false(with_constant(expression, word, EQUAL))
}

pub fn below(expression: Vec<u8>, word: u32) -> Vec<u8> {
    with_constant(expression, word, ULT)
}

pub fn one_more(expression: Vec<u8>) -> Vec<u8> {
    with_constant(expression, 1, ADD)
}

pub fn one_less(expression: Vec<u8>) -> Vec<u8> {
    with_constant(expression, 1, SUB)
}

/// Of few words this is a remainder by one, of all others by zero.
pub fn remainder_by_highest_bit(dividend: Vec<u8>, divisor: Vec<u8>) -> Vec<u8> {
    [dividend, with_constant(divisor, 31, LSHR), vec![UREM]].concat()
}

fn with_constant(expression: Vec<u8>, word: u32, operator: u8) -> Vec<u8> {
    [expression, constant(word), vec![operator]].concat()
}

pub fn is_false(mut condition: Vec<u8>) -> Vec<u8> {
    condition.push(ZERO);
    condition
}
