//! docs/SCRIPT.md, "The text": a trace as a question for a solver, letter by letter.

use std::array;

use super::expression::{tokens, InTrace, Token};
use super::expression::{
    ADD, AND, EQUAL, ITE, LSHR, MUL, NEG, NOT, OR, SHL, SLT, SUB, UDIV, ULE, ULT, UREM, XOR, ZERO,
};
use super::trace::{Statement, Trace};
use super::writer::Writer;

/// What a text goes into.
trait Sink {
    fn put(&mut self, letters: &[u8]);

    fn repeat(&mut self, letter: u8, count: usize);
}

impl Sink for Writer<'_> {
    #[inline(always)]
    fn put(&mut self, letters: &[u8]) {
        self.put_all(letters);
    }

    fn repeat(&mut self, letter: u8, count: usize) {
        self.put_repeated(letter, count);
    }
}

/// How many letters went into it.
struct Measure(usize);

impl Sink for Measure {
    #[inline(always)]
    fn put(&mut self, letters: &[u8]) {
        self.0 += letters.len();
    }

    fn repeat(&mut self, _: u8, count: usize) {
        self.0 += count;
    }
}

/// The script's length.
pub fn measure(trace: &Trace) -> usize {
    let mut measure = Measure(0);
    put_script(trace, &mut measure);
    measure.0
}

/// Writes the script into a buffer of its length.
pub fn write(trace: &Trace, out: &mut [u8]) {
    put_script(trace, &mut Writer::new(out));
}

fn put_script(trace: &Trace, out: &mut impl Sink) {
    out.put(b"(set-logic QF_BV)\n");
    (0..trace.inputs.into()).for_each(|symbol| put_declaration(symbol, out));
    assigns(trace).for_each(|(symbol, _)| put_declaration(symbol, out));
    assigns(trace).for_each(|(symbol, expression)| put_equation(symbol, expression, out));
    out.put(b"(assert\n");
    let count = asked_tests(trace);
    tests(trace).take(count).for_each(|(is_assert, expression)| put_test(is_assert, expression, out));
    out.put(b"false");
    out.repeat(b')', count + 1);
    out.put(b"\n(check-sat)\n");
}

/// The assigned symbols, each with its expression.
fn assigns<'a>(trace: &'a Trace) -> impl Iterator<Item = (u16, &'a [u8])> {
    trace.records().filter_map(|record| match record.action {
        Statement::Assign { symbol, .. } => Some((symbol, record.expression)),
        Statement::Assume { .. } | Statement::Assert { .. } | Statement::Bound { .. } => None,
    })
}

/// The other statements: whether each is an Assert, and its expression.
fn tests<'a>(trace: &'a Trace) -> impl Iterator<Item = (bool, &'a [u8])> {
    trace.records().filter_map(|record| match record.action {
        Statement::Assign { .. } => None,
        Statement::Assume { .. } | Statement::Bound { .. } => Some((false, record.expression)),
        Statement::Assert { .. } => Some((true, record.expression)),
    })
}

/// How many tests there are up to the last Assert.
fn asked_tests(trace: &Trace) -> usize {
    let numbered = tests(trace).zip(1..);
    numbered.filter_map(|((is_assert, _), number)| is_assert.then_some(number)).last().unwrap_or(0)
}

fn put_declaration(symbol: u16, out: &mut impl Sink) {
    out.put(b"(declare-const ");
    put_symbol(symbol, out);
    out.put(b" (_ BitVec 32))\n");
}

fn put_equation(symbol: u16, expression: &[u8], out: &mut impl Sink) {
    out.put(b"(assert (= ");
    put_symbol(symbol, out);
    out.put(b" ");
    put_expression(expression, out);
    out.put(b"))\n");
}

fn put_test(is_assert: bool, expression: &[u8], out: &mut impl Sink) {
    if is_assert {
        out.put(b"(or (= #x00000000 ");
    } else {
        out.put(b"(and (distinct #x00000000 ");
    }
    put_expression(expression, out);
    out.put(b")\n");
}

fn put_expression(expression: &[u8], out: &mut impl Sink) {
    let mut count = 0;
    let mut depth = 0;
    for token in tokens::<InTrace>(expression) {
        let slot = depth - token.pops();
        out.put(b"(let ((");
        put_slot(slot, out);
        out.put(b" ");
        put_word(token, slot, out);
        out.put(b")) ");
        depth = slot + 1;
        count += 1;
    }
    out.put(b"x0");
    out.repeat(b')', count);
}

/// The word that a token leaves in a slot.
#[inline(always)]
fn put_word(token: Token, slot: usize, out: &mut impl Sink) {
    match token {
        Token::Constant(word) => put_constant(word, out),
        Token::Symbol(symbol) => put_symbol(symbol as u16, out),
        Token::Operator(operator) => put_operation(operator, slot, out),
    }
}

#[inline(always)]
fn put_operation(operator: u8, slot: usize, out: &mut impl Sink) {
    match operator {
        NOT => put_unary(b"(bvnot ", slot, b")", out),
        NEG => put_unary(b"(bvneg ", slot, b")", out),
        ZERO => put_unary(b"(ite (= ", slot, b" #x00000000) #x00000001 #x00000000)", out),
        ADD => put_binary(b"(bvadd ", slot, b")", out),
        SUB => put_binary(b"(bvsub ", slot, b")", out),
        MUL => put_binary(b"(bvmul ", slot, b")", out),
        UDIV => put_binary(b"(bvudiv ", slot, b")", out),
        UREM => put_binary(b"(bvurem ", slot, b")", out),
        AND => put_binary(b"(bvand ", slot, b")", out),
        OR => put_binary(b"(bvor ", slot, b")", out),
        XOR => put_binary(b"(bvxor ", slot, b")", out),
        SHL => put_binary(b"(bvshl ", slot, b")", out),
        LSHR => put_binary(b"(bvlshr ", slot, b")", out),
        EQUAL => put_binary(b"(ite (= ", slot, b") #x00000001 #x00000000)", out),
        ULT => put_binary(b"(ite (bvult ", slot, b") #x00000001 #x00000000)", out),
        SLT => put_binary(b"(ite (bvslt ", slot, b") #x00000001 #x00000000)", out),
        ULE => put_binary(b"(ite (bvule ", slot, b") #x00000001 #x00000000)", out),
        ITE => {
            put_unary(b"(ite (distinct ", slot, b" #x00000000) ", out);
            put_binary(b"", slot + 1, b")", out);
        }
        _ => unreachable!("the trace was accepted"),
    }
}

/// A slot between two pieces of text.
#[inline(always)]
fn put_unary(before: &[u8], slot: usize, behind: &[u8], out: &mut impl Sink) {
    out.put(before);
    put_slot(slot, out);
    out.put(behind);
}

/// A slot and the one above it between two pieces of text.
#[inline(always)]
fn put_binary(before: &[u8], slot: usize, behind: &[u8], out: &mut impl Sink) {
    put_unary(before, slot, b" ", out);
    put_unary(b"", slot + 1, behind, out);
}

#[inline(always)]
fn put_slot(slot: usize, out: &mut impl Sink) {
    if slot < 10 {
        out.put(&[b'x', b'0' + slot as u8]);
    } else {
        out.put(&[b'x', b'1', b'0' + slot as u8 - 10]);
    }
}

/// Symbols are below 10,000.
fn put_symbol(symbol: u16, out: &mut impl Sink) {
    let digits = [symbol / 1000, symbol / 100 % 10, symbol / 10 % 10, symbol % 10].map(|digit| b'0' + digit as u8);
    out.put(b"s");
    match symbol {
        0..10 => out.put(&digits[3..]),
        10..100 => out.put(&digits[2..]),
        100..1000 => out.put(&digits[1..]),
        _ => out.put(&digits),
    }
}

fn put_constant(word: u32, out: &mut impl Sink) {
    const DIGITS: &[u8; 16] = b"0123456789abcdef";
    let digits: [u8; 8] = array::from_fn(|i| DIGITS[(word >> (28 - 4 * i) & 0xF) as usize]);
    out.put(b"#x");
    out.put(&digits);
}
