//! Document 01, "Arithmetic": the postfix expressions of tables and traces, over 32-bit words.

use std::iter;

pub const CONSTANT: u8 = 0x01;
const TABLE_SYMBOL: u8 = 0x02;
pub const TRACE_SYMBOL: u8 = 0x03;
pub const NOT: u8 = 0x10;
pub const NEG: u8 = 0x11;
pub const ZERO: u8 = 0x12;
pub const ADD: u8 = 0x20;
pub const SUB: u8 = 0x21;
pub const MUL: u8 = 0x22;
pub const UDIV: u8 = 0x23;
pub const UREM: u8 = 0x24;
pub const AND: u8 = 0x25;
pub const OR: u8 = 0x26;
pub const XOR: u8 = 0x27;
pub const SHL: u8 = 0x28;
pub const LSHR: u8 = 0x29;
pub const EQUAL: u8 = 0x2A;
pub const ULT: u8 = 0x2B;
pub const SLT: u8 = 0x2C;
pub const ULE: u8 = 0x2D;
pub const ITE: u8 = 0x30;

/// What the expressions of tables and of traces differ in.
pub trait Form {
    const DEPTH_LIMIT: usize;

    /// The symbol that the bytes begin with, and what follows it.
    fn split_symbol(bytes: &[u8]) -> Option<(usize, &[u8])>;
}

pub struct InTable;

impl Form for InTable {
    const DEPTH_LIMIT: usize = 16;

    fn split_symbol(bytes: &[u8]) -> Option<(usize, &[u8])> {
        match *bytes {
            [TABLE_SYMBOL, symbol, ref rest @ ..] => Some((symbol.into(), rest)),
            _ => None,
        }
    }
}

pub struct InTrace;

impl Form for InTrace {
    const DEPTH_LIMIT: usize = 17;

    fn split_symbol(bytes: &[u8]) -> Option<(usize, &[u8])> {
        match *bytes {
            [TRACE_SYMBOL, high, low, ref rest @ ..] => Some((u16::from_be_bytes([high, low]).into(), rest)),
            _ => None,
        }
    }
}

pub enum Token {
    Constant(u32),
    Symbol(usize),
    Operator(u8),
}

impl Token {
    /// How many words it takes off the stack.
    #[inline]
    pub fn pops(&self) -> usize {
        match *self {
            Token::Constant(_) | Token::Symbol(_) => 0,
            Token::Operator(NOT..=ZERO) => 1,
            Token::Operator(ITE) => 3,
            Token::Operator(_) => 2,
        }
    }
}

/// The token that the bytes begin with, with its operands, and what follows it.
fn split_token<F: Form>(bytes: &[u8]) -> Option<(Token, &[u8])> {
    if let Some((symbol, rest)) = F::split_symbol(bytes) {
        return Some((Token::Symbol(symbol), rest));
    }
    match *bytes {
        [CONSTANT, a, b, c, d, ref rest @ ..] => Some((Token::Constant(u32::from_be_bytes([a, b, c, d])), rest)),
        [operator @ (NOT..=ZERO | ADD..=ULE | ITE), ref rest @ ..] => Some((Token::Operator(operator), rest)),
        _ => None,
    }
}

/// The tokens of an accepted expression.
pub fn tokens<F: Form>(mut bytes: &[u8]) -> impl Iterator<Item = Token> + '_ {
    iter::from_fn(move || {
        let (token, rest) = split_token::<F>(bytes)?;
        bytes = rest;
        Some(token)
    })
}

/// The symbols that an accepted expression reads.
pub fn symbols<F: Form>(bytes: &[u8]) -> impl Iterator<Item = usize> + '_ {
    tokens::<F>(bytes).filter_map(|token| match token {
        Token::Symbol(symbol) => Some(symbol),
        Token::Constant(_) | Token::Operator(_) => None,
    })
}

/// Where the bytes break the rules of an expression that reads only what it may: the first token at which they do, or
/// their end where they leave other than one word.
pub fn first_fault<F: Form>(bytes: &[u8], may_read: impl Fn(usize) -> bool) -> Option<usize> {
    let mut depth = 0;
    let mut rest = bytes;
    while !rest.is_empty() {
        let Some((held, behind)) = step::<F>(rest, depth, &may_read) else {
            return Some(bytes.len() - rest.len());
        };
        depth = held;
        rest = behind;
    }
    (depth != 1).then_some(bytes.len())
}

/// How many words are held after the first token of the bytes, and what follows it; nothing where it breaks a rule.
#[inline]
fn step<'a, F: Form>(bytes: &'a [u8], depth: usize, may_read: &impl Fn(usize) -> bool) -> Option<(usize, &'a [u8])> {
    let (token, rest) = split_token::<F>(bytes)?;
    if matches!(token, Token::Symbol(symbol) if !may_read(symbol)) {
        return None;
    }
    let below = depth.checked_sub(token.pops())?;
    (below < F::DEPTH_LIMIT).then_some((below + 1, rest))
}

/// The word that an accepted expression leaves.
pub fn evaluate<F: Form>(mut bytes: &[u8], words: &[u32]) -> u32 {
    let mut stack = Stack::default();
    while let Some((token, rest)) = split_token::<F>(bytes) {
        match token {
            Token::Constant(word) => stack.push(word),
            Token::Symbol(symbol) => stack.push(words[symbol]),
            Token::Operator(operator) => stack.operate(operator),
        }
        bytes = rest;
    }
    stack.pop()
}

#[derive(Default)]
struct Stack {
    words: [u32; InTrace::DEPTH_LIMIT],
    depth: usize,
}

impl Stack {
    fn push(&mut self, word: u32) {
        self.words[self.depth] = word;
        self.depth += 1;
    }

    fn pop(&mut self) -> u32 {
        self.depth -= 1;
        self.words[self.depth]
    }

    /// Inlined for each form, since a call for each token takes a third more time.
    #[inline(always)]
    fn operate(&mut self, operator: u8) {
        match operator {
            NOT => self.unary(|a| !a),
            NEG => self.unary(|a| a.wrapping_neg()),
            ZERO => self.unary(|a| (a == 0).into()),
            ADD => self.binary(|a, b| a.wrapping_add(b)),
            SUB => self.binary(|a, b| a.wrapping_sub(b)),
            MUL => self.binary(|a, b| a.wrapping_mul(b)),
            UDIV => self.binary(|a, b| a.checked_div(b).unwrap_or(u32::MAX)),
            UREM => self.binary(|a, b| a.checked_rem(b).unwrap_or(a)),
            AND => self.binary(|a, b| a & b),
            OR => self.binary(|a, b| a | b),
            XOR => self.binary(|a, b| a ^ b),
            SHL => self.binary(|a, b| a.checked_shl(b).unwrap_or(0)),
            LSHR => self.binary(|a, b| a.checked_shr(b).unwrap_or(0)),
            EQUAL => self.binary(|a, b| (a == b).into()),
            ULT => self.binary(|a, b| (a < b).into()),
            SLT => self.binary(|a, b| ((a as i32) < b as i32).into()),
            ULE => self.binary(|a, b| (a <= b).into()),
            ITE => self.choose(),
            _ => unreachable!("the expression was accepted"),
        }
    }

    fn unary(&mut self, operator: impl Fn(u32) -> u32) {
        let a = self.pop();
        self.push(operator(a));
    }

    fn binary(&mut self, operator: impl Fn(u32, u32) -> u32) {
        let b = self.pop();
        let a = self.pop();
        self.push(operator(a, b));
    }

    fn choose(&mut self) {
        let b = self.pop();
        let a = self.pop();
        let c = self.pop();
        self.push(if c != 0 { a } else { b });
    }
}
