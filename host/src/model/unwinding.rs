//! Document 01, "The trace under bound K", as request 2026-01 has it written: measured in one pass over the table, then
//! written copy by copy.

use std::array;

use super::expression::{symbols, tokens, InTable, Token, CONSTANT, ITE, TRACE_SYMBOL, ULE, ZERO};
use super::file::{Header, HEADER_LENGTH, INPUT_LIMIT};
use super::table::{Instruction, Table};
use super::trace::{self, ASSERT, ASSIGN, ASSUME, BOUND, STATEMENT_LIMIT};
use super::writer::Writer;

pub const LENGTH_LIMIT: usize = 65_535;
const OPENING_PLACE: u16 = 65_535;

/// The lengths of tokens, and of a record before its expression.
const OF_OPERATOR: usize = 1;
const OF_SYMBOL: usize = 3;
const OF_CONSTANT: usize = 5;
const OF_TEST_HEAD: usize = 5;
const OF_ASSIGN_HEAD: usize = 7;

/// The lengths of statements, less the expression of their instruction.
const OF_OPENING: usize = OF_ASSIGN_HEAD + OF_CONSTANT;
const OF_GUARD: usize = OF_SYMBOL + OF_CONSTANT + OF_OPERATOR;
const OF_ASSIGN: usize = OF_ASSIGN_HEAD + OF_GUARD + OF_SYMBOL + OF_OPERATOR;
const OF_TEST: usize = OF_TEST_HEAD + OF_GUARD + OF_CONSTANT + OF_OPERATOR;
const OF_JUMP: usize = OF_ASSIGN + OF_CONSTANT + OF_SYMBOL + OF_OPERATOR;
const OF_CUT: usize = OF_TEST + OF_OPERATOR;
const OF_EXIT: usize = OF_ASSIGN + OF_CONSTANT;

pub struct Size {
    statements: usize,
    pub length: usize,
}

/// The size of the trace, or nothing where refusal 9 is due.
pub fn measure(table: &Table, bound: usize) -> Option<Size> {
    let copies = bound + 1;
    let mut copy = OF_EXIT;
    let mut saved_by_cuts = 0;
    for (i, record) in table.records().enumerate() {
        copy += expression_length(record.expression);
        copy += match record.action {
            Instruction::Assign { .. } => OF_ASSIGN,
            Instruction::Assume | Instruction::Assert => OF_TEST,
            Instruction::IfThenGoto { target } => {
                if usize::from(target) <= i {
                    saved_by_cuts += OF_JUMP - OF_CUT;
                }
                OF_JUMP
            }
        };
    }
    let statements = 1 + copies * (table.instruction_count() + 1);
    let length = HEADER_LENGTH + OF_OPENING + copies * copy - saved_by_cuts;
    (statements <= STATEMENT_LIMIT && length <= LENGTH_LIMIT).then_some(Size { statements, length })
}

/// The length of a table's expression in a trace, where a symbol takes one byte more.
fn expression_length(expression: &[u8]) -> usize {
    expression.len() + symbols::<InTable>(expression).count()
}

/// Writes the trace into a buffer of its length.
pub fn write(table: &Table, bound: usize, size: &Size, out: &mut [u8]) {
    let period = table.instruction_count() + 1;
    let end = (bound + 1) * period;
    let mut unwinder = Unwinder::new(table, size, out);
    unwinder.opening();
    for start in (0..end).step_by(period) {
        for (i, record) in table.records().enumerate() {
            let place = (start + i) as u16;
            let expression = record.expression;
            match record.action {
                Instruction::Assign { symbol } => unwinder.assign(place, symbol, expression),
                Instruction::Assume => unwinder.test(ASSUME, place, |body| body.expression(expression)),
                Instruction::Assert => unwinder.test(ASSERT, place, |body| body.expression(expression)),
                Instruction::IfThenGoto { target } => {
                    let copy = if usize::from(target) <= i { start + period } else { start };
                    if copy == end {
                        unwinder.cut(place, expression);
                    } else {
                        unwinder.jump(place, expression, copy + usize::from(target));
                    }
                }
            }
        }
        unwinder.exit((start + period - 1) as u16, end);
    }
}

struct Unwinder<'a> {
    writer: Writer<'a>,
    /// The newest trace symbol for each program symbol.
    current: [u16; INPUT_LIMIT],
    /// The newest trace symbol for control, W.
    control: u16,
    next_symbol: u16,
}

impl<'a> Unwinder<'a> {
    fn new(table: &Table, size: &Size, out: &'a mut [u8]) -> Unwinder<'a> {
        let mut writer = Writer::new(out);
        let header = Header { version: trace::VERSION, inputs: table.inputs, count: size.statements as u16 };
        header.write(size.length, &mut writer);
        let next_symbol = table.inputs.into();
        Unwinder { writer, current: array::from_fn(|symbol| symbol as u16), control: next_symbol, next_symbol }
    }

    fn opening(&mut self) {
        self.control = self.new_symbol();
        let start = self.begin(ASSIGN, OPENING_PLACE);
        self.writer.put_number(self.control);
        self.constant(0);
        self.finish(start);
    }

    fn assign(&mut self, place: u16, symbol: u8, expression: &[u8]) {
        let symbol = usize::from(symbol);
        let old = self.current[symbol];
        self.current[symbol] = self.guarded_assign(place, old, |body| body.expression(expression));
    }

    fn jump(&mut self, place: u16, condition: &[u8], goal: usize) {
        self.move_control(place, |body| {
            body.expression(condition);
            body.constant(goal as u32);
            body.symbol(body.control);
            body.operator(ITE);
        });
    }

    /// A back jump in copy K.
    fn cut(&mut self, place: u16, condition: &[u8]) {
        self.test(BOUND, place, |body| {
            body.expression(condition);
            body.operator(ZERO);
        });
    }

    fn exit(&mut self, place: u16, end: usize) {
        self.move_control(place, |body| body.constant(end as u32));
    }

    fn move_control(&mut self, place: u16, body: impl FnOnce(&mut Self)) {
        self.control = self.guarded_assign(place, self.control, body);
    }

    /// Gives the symbol that it makes.
    fn guarded_assign(&mut self, place: u16, old: u16, body: impl FnOnce(&mut Self)) -> u16 {
        let new = self.new_symbol();
        let start = self.begin(ASSIGN, place);
        self.writer.put_number(new);
        self.guard(place);
        body(self);
        self.symbol(old);
        self.operator(ITE);
        self.finish(start);
        new
    }

    fn test(&mut self, kind: u8, place: u16, body: impl FnOnce(&mut Self)) {
        let start = self.begin(kind, place);
        self.guard(place);
        body(self);
        self.constant(1);
        self.operator(ITE);
        self.finish(start);
    }

    fn new_symbol(&mut self) -> u16 {
        let symbol = self.next_symbol;
        self.next_symbol += 1;
        symbol
    }

    /// Gives where the record begins, whose length is not known yet.
    fn begin(&mut self, kind: u8, place: u16) -> usize {
        let start = self.writer.end();
        let [high, low] = place.to_be_bytes();
        self.writer.put([0, 0, kind, high, low]);
        start
    }

    fn finish(&mut self, start: usize) {
        let length = self.writer.end() - start - 2;
        self.writer.set_number(start, length as u16);
    }

    fn guard(&mut self, place: u16) {
        self.symbol(self.control);
        self.constant(place.into());
        self.operator(ULE);
    }

    /// A table's expression in current symbols.
    fn expression(&mut self, expression: &[u8]) {
        for token in tokens::<InTable>(expression) {
            match token {
                Token::Constant(word) => self.constant(word),
                Token::Symbol(symbol) => self.symbol(self.current[symbol]),
                Token::Operator(operator) => self.operator(operator),
            }
        }
    }

    fn constant(&mut self, word: u32) {
        let [a, b, c, d] = word.to_be_bytes();
        self.writer.put([CONSTANT, a, b, c, d]);
    }

    fn symbol(&mut self, symbol: u16) {
        let [high, low] = symbol.to_be_bytes();
        self.writer.put([TRACE_SYMBOL, high, low]);
    }

    fn operator(&mut self, operator: u8) {
        self.writer.put([operator]);
    }
}
