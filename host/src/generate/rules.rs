//! Accepted tables: loops, nested loops, jumps to anywhere and to themselves, over a few symbols that they share.

use super::author::{self, Author};
use super::draft::{Draft, Record, ASSERT, ASSIGN, ASSUME, IF_THEN_GOTO};
use super::expressions::{self, Scope};
use super::random::Random;
use crate::encoding::Form;

const NESTING_LIMIT: usize = 3;

pub fn rule(random: &mut Random) -> Draft {
    let draft = Draft::new(Form::Table, author::inputs(random));
    let favours_last = random.one_in(2);
    let mut author = TableAuthor { random, symbols: draft.readable(0), favours_last, draft };
    author.write();
    author.mend_targets();
    author.draft
}

struct TableAuthor<'a> {
    random: &'a mut Random,
    draft: Draft,
    symbols: Vec<u16>,
    /// Whether it is the last symbols that instructions share, not the first.
    favours_last: bool,
}

impl Author for TableAuthor<'_> {
    fn random(&mut self) -> &mut Random {
        self.random
    }

    fn draft(&mut self) -> &mut Draft {
        &mut self.draft
    }

    fn block(&mut self) {
        self.nested_block(0);
    }

    fn brief(&mut self) {
        self.block();
    }

    fn assign(&mut self, expression: Vec<u8>) {
        let Some(symbol) = self.symbol() else {
            self.jump(self.here() + 1, expression);
            return;
        };
        self.draft.add(ASSIGN, [symbol], expression);
    }

    fn test(&mut self, kind: u8, condition: Vec<u8>) {
        self.draft.add(kind, [], condition);
    }

    fn end(&mut self, condition: Vec<u8>) {
        self.jump(0, condition);
    }

    fn read(&mut self) -> Option<Vec<u8>> {
        self.symbol().map(read)
    }

    fn with_peak(&mut self, peak: usize) -> Vec<u8> {
        let scope = Scope { form: Form::Table, symbols: &self.symbols };
        expressions::with_peak(self.random, scope, peak)
    }
}

impl TableAuthor<'_> {
    fn nested_block(&mut self, nesting: usize) {
        for _ in 0..self.random.between(1, 4) {
            self.instruction(nesting);
        }
    }

    fn instruction(&mut self, nesting: usize) {
        match self.random.below(16) {
            0..=3 => self.assign_any(),
            4..=7 => self.test_likely(ASSERT),
            8 => self.test_likely(ASSUME),
            9 => self.skip(nesting),
            10 if self.random.one_in(2) => self.jump_to_itself(),
            10 => self.jump_anywhere(),
            _ => self.repeat(nesting),
        }
    }

    fn skip(&mut self, nesting: usize) {
        let condition = self.condition();
        let jump = self.jump(0, condition);
        self.nested(nesting);
        self.land_here(jump);
    }

    fn jump_to_itself(&mut self) {
        let condition = self.condition();
        self.jump(self.here(), condition);
    }

    fn jump_anywhere(&mut self) {
        let target = self.random.below(2 * self.here() + 3);
        let condition = self.condition();
        self.jump(target, condition);
    }

    /// A loop that tests at its end, or at its head with a jump out.
    fn repeat(&mut self, nesting: usize) {
        let (tail, condition) = self.counting();
        let head = self.here();
        let mut way_out = None;
        if self.random.one_in(2) {
            way_out = Some(self.jump(0, expressions::is_false(condition.clone())));
        }
        self.nested(nesting);
        self.draft.records.extend(tail);
        let Some(jump) = way_out else {
            self.jump(head, condition);
            return;
        };
        self.jump(head, expressions::constant(1));
        self.land_here(jump);
    }

    /// The tail of a loop, which steps its counter, and the condition to go on. A start may be written before it.
    fn counting(&mut self) -> (Vec<Record>, Vec<u8>) {
        let Some(counter) = self.symbol() else {
            return (Vec::new(), expressions::constant(self.random.word()));
        };
        if self.random.one_in(2) {
            let start = self.small_word();
            self.draft.add(ASSIGN, [counter], expressions::constant(start));
        }
        let mut tail = Vec::new();
        if self.random.one_in(3) {
            tail.push(Record::new(ASSERT, [], expressions::unequal(read(counter), self.small_word())));
        }
        if self.random.one_in(3) {
            tail.push(Record::new(ASSIGN, [counter], expressions::one_more(read(counter))));
            return (tail, expressions::below(read(counter), self.small_word()));
        }
        tail.push(Record::new(ASSIGN, [counter], expressions::one_less(read(counter))));
        (tail, read(counter))
    }

    fn nested(&mut self, nesting: usize) {
        if nesting < NESTING_LIMIT {
            self.nested_block(nesting + 1);
        }
    }

    /// One of three symbols more often than another, so that instructions meet.
    fn symbol(&mut self) -> Option<u8> {
        let most = if self.random.one_in(4) { 64 } else { 3 };
        let count = self.draft.inputs.min(most);
        let first = if self.favours_last { self.draft.inputs - count } else { 0 };
        (count > 0).then(|| first + self.random.below(count.into()) as u8)
    }

    fn jump(&mut self, target: usize, condition: Vec<u8>) -> usize {
        let jump = self.here();
        self.draft.add(IF_THEN_GOTO, (target as u16).to_be_bytes(), condition);
        jump
    }

    fn land_here(&mut self, jump: usize) {
        let here = self.here() as u16;
        self.draft.records[jump].set_target(here);
    }

    fn here(&self) -> usize {
        self.draft.records.len()
    }

    fn mend_targets(&mut self) {
        let end = self.here() as u16;
        for record in &mut self.draft.records {
            if record.target() > Some(end) {
                record.set_target(end);
            }
        }
    }
}

fn read(symbol: u8) -> Vec<u8> {
    Form::Table.symbol(symbol.into())
}
