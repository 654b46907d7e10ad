//! Tables whose runs get far: up to as many instructions as a table may have, Asserts that hold, and a loop taken up to 255
//! times before the one Assert or Assume that may fail.

use super::author;
use super::draft::{Draft, ASSERT, ASSIGN, ASSUME, IF_THEN_GOTO};
use super::expressions::{self, Scope};
use super::random::Random;
use crate::encoding::Form;

/// Besides what only fills a table: the counter's start and step, the back jump, and two tests.
const LEAST_COUNT: usize = 5;

/// A table of so many instructions, five at least, and a bound about the number of its back jumps.
pub fn rule_and_bound(random: &mut Random, count: usize) -> (Draft, u64) {
    let inputs = author::inputs(random).max(1);
    let counter = random.below(inputs.into()) as u8;
    let back_jumps = back_jumps(random);
    let mut author = FarAuthor { random, draft: Draft::new(Form::Table, inputs), counter };
    author.write(count, back_jumps);
    let draft = author.draft;
    (draft, bound(random, back_jumps.into()))
}

fn back_jumps(random: &mut Random) -> u32 {
    match random.below(8) {
        0..=2 => 255,
        3..=5 => random.between(101, 254) as u32,
        6 => random.between(4, 100) as u32,
        _ => random.below(4) as u32,
    }
}

/// As many as the run takes, more or fewer.
fn bound(random: &mut Random, back_jumps: u64) -> u64 {
    let more = random.below(256) as u64;
    random.pick(&[back_jumps, back_jumps, 255, 255, (back_jumps + more).min(255), back_jumps.saturating_sub(1)])
}

struct FarAuthor<'a> {
    random: &'a mut Random,
    draft: Draft,
    /// What nothing but the loop assigns.
    counter: u8,
}

impl FarAuthor<'_> {
    fn write(&mut self, count: usize, back_jumps: u32) {
        let spare = count - LEAST_COUNT;
        let body = self.random.below(6).min(spare);
        let behind = self.random.pick(&[0, 0, 1, 10]).min(spare - body);
        let before = self.random.below(spare - body - behind + 1);
        self.fill(before);
        self.draft.add(ASSIGN, [self.counter], expressions::constant(back_jumps + 1));
        self.repeat(body, back_jumps);
        self.fill(spare - before - body - behind);
        self.last_test();
        self.fill(behind);
    }

    /// Counts down to zero; an Assert in it may fail on the way.
    fn repeat(&mut self, body: usize, back_jumps: u32) {
        let head = self.here();
        self.fill(body);
        let met = if self.random.one_in(6) { self.random.below(back_jumps as usize + 1) as u32 + 1 } else { 0 };
        self.draft.add(ASSERT, [], expressions::unequal(read(self.counter), met));
        self.draft.add(ASSIGN, [self.counter], expressions::one_less(read(self.counter)));
        self.jump(head, read(self.counter));
    }

    /// Fails mostly: the counter is zero.
    fn last_test(&mut self) {
        let condition = match self.random.below(4) {
            0 => expressions::is_false(read(self.counter)),
            1 => expressions::constant(0),
            2 => expressions::unequal(read(self.counter), 0),
            _ => read(self.counter),
        };
        let kind = if self.random.one_in(5) { ASSUME } else { ASSERT };
        self.draft.add(kind, [], condition);
    }

    /// Instructions that a run passes, each of them or all but a few.
    fn fill(&mut self, count: usize) {
        let end = self.here() + count;
        while self.here() < end {
            self.pass(end);
        }
    }

    fn pass(&mut self, end: usize) {
        let symbol = self.random.below(self.draft.inputs.into()) as u8;
        match self.random.below(10) {
            0..=2 if symbol != self.counter => {
                let expression = self.expression();
                self.draft.add(ASSIGN, [symbol], expression);
            }
            3 => {
                let target = (self.here() + self.random.between(1, 4)).min(end);
                let condition = expressions::comparison(self.random, read(symbol));
                self.jump(target, condition);
            }
            4 => {
                let target = self.random.below(self.here() + 1);
                let condition = expressions::is_false(holding(self.random, symbol));
                self.jump(target, condition);
            }
            5 => self.draft.add(ASSUME, [], holding(self.random, symbol)),
            _ => self.draft.add(ASSERT, [], holding(self.random, symbol)),
        }
    }

    fn expression(&mut self) -> Vec<u8> {
        let symbols = self.draft.readable(0);
        let peak = self.random.between(1, 3);
        expressions::with_peak(self.random, Scope { form: Form::Table, symbols: &symbols }, peak)
    }

    fn jump(&mut self, target: usize, condition: Vec<u8>) {
        self.draft.add(IF_THEN_GOTO, (target as u16).to_be_bytes(), condition);
    }

    fn here(&self) -> usize {
        self.draft.records.len()
    }
}

/// A test that every word passes.
fn holding(random: &mut Random, symbol: u8) -> Vec<u8> {
    const OR: u8 = 0x26;
    const EQUAL: u8 = 0x2A;
    const ULE: u8 = 0x2D;
    let symbol = read(symbol);
    match random.below(3) {
        0 => [symbol, expressions::constant(random.word() | 1), vec![OR]].concat(),
        1 => [symbol.clone(), symbol, vec![random.pick(&[EQUAL, ULE])]].concat(),
        _ => [symbol, expressions::constant(u32::MAX), vec![ULE]].concat(),
    }
}

fn read(symbol: u8) -> Vec<u8> {
    Form::Table.symbol(symbol.into())
}
