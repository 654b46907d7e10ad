//! Accepted traces that come from no table, of both versions: any places, symbols with gaps, reads of near and far ones.

use std::ops::Range;

use super::author::{self, Author};
use super::draft::{Draft, ASSERT, ASSIGN, ASSUME, BOUND};
use super::expressions::{self, Scope};
use super::random::Random;
use crate::encoding::Form;

/// An expression that holds more words has slots of two digits in a script.
const ONE_DIGIT: usize = 10;

pub fn trace(random: &mut Random) -> Draft {
    write(random, false)
}

/// A trace with the traps of scripts: slots of two digits, and remainders by zero.
pub fn trapping_trace(random: &mut Random) -> Draft {
    write(random, true)
}

fn write(random: &mut Random, has_traps: bool) -> Draft {
    let inputs = author::inputs(random);
    let form = random.pick(&[Form::Trace, Form::Trace, Form::OldTrace]);
    let draft = Draft::new(form, inputs);
    let mut author = TraceAuthor {
        gap: random.pick(&[0, 0, 3, 40, 5_000]),
        readable: draft.readable(0),
        assignable: inputs.into()..draft.symbol_end(),
        has_traps,
        random,
        draft,
    };
    author.write();
    author.draft
}

struct TraceAuthor<'a> {
    random: &'a mut Random,
    draft: Draft,
    /// The inputs and the symbols assigned so far.
    readable: Vec<u16>,
    assignable: Range<u16>,
    /// How many symbols an Assign skips at most.
    gap: u16,
    has_traps: bool,
}

impl Author for TraceAuthor<'_> {
    fn random(&mut self) -> &mut Random {
        self.random
    }

    fn draft(&mut self) -> &mut Draft {
        &mut self.draft
    }

    fn block(&mut self) {
        for _ in 0..self.random.between(1, 6) {
            if self.has_traps && self.random.one_in(4) {
                self.test_remainder();
                continue;
            }
            match self.random.below(12) {
                0..=5 => self.assign_any(),
                6..=7 => self.test_likely(ASSERT),
                8..=9 => self.test_any(ASSERT),
                10 => {
                    let kind = self.passed_kind();
                    self.test_likely(kind);
                }
                _ => {
                    let kind = self.passed_kind();
                    self.test_any(kind);
                }
            }
        }
    }

    fn brief(&mut self) {
        match self.random.below(1000) {
            0 => {
                let kind = self.passed_kind();
                self.test_likely(kind);
            }
            1 => self.test_likely(ASSERT),
            _ => {
                let peak = self.random.pick(&[1, 1, 1, 2]);
                let expression = self.with_peak(peak);
                self.assign(expression);
            }
        }
    }

    fn assign(&mut self, expression: Vec<u8>) {
        let Some(symbol) = self.new_symbol() else {
            let kind = self.passed_kind();
            return self.test(kind, expression);
        };
        let fields = [self.place(), symbol].map(u16::to_be_bytes).concat();
        self.draft.add(ASSIGN, fields, expression);
        self.readable.push(symbol);
        self.assignable.start = symbol + 1;
    }

    fn test(&mut self, kind: u8, condition: Vec<u8>) {
        let place = self.place();
        self.draft.add(kind, place.to_be_bytes(), condition);
    }

    fn end(&mut self, condition: Vec<u8>) {
        self.test(ASSERT, condition);
    }

    fn read(&mut self) -> Option<Vec<u8>> {
        let oldest = self.oldest();
        let symbols = &self.readable[oldest..];
        (!symbols.is_empty()).then(|| Form::Trace.symbol(self.random.pick(symbols)))
    }

    fn peak(&mut self) -> usize {
        let limit = self.draft.form.depth_limit();
        if self.has_traps {
            return self.random.between(ONE_DIGIT + 1, limit);
        }
        author::usual_peak(self.random, limit)
    }

    fn with_peak(&mut self, peak: usize) -> Vec<u8> {
        let oldest = self.oldest();
        let scope = Scope { form: Form::Trace, symbols: &self.readable[oldest..] };
        expressions::with_peak(self.random, scope, peak)
    }
}

impl TraceAuthor<'_> {
    /// A test that is no Assert.
    fn passed_kind(&mut self) -> u8 {
        match self.draft.form {
            Form::Trace => self.random.pick(&[ASSUME, BOUND]),
            Form::Table | Form::OldTrace => ASSUME,
        }
    }

    /// An Assert on a remainder, mostly by zero.
    fn test_remainder(&mut self) {
        let [Some(dividend), Some(divisor)] = [self.read(), self.read()] else {
            return self.test_any(ASSERT);
        };
        let remainder = expressions::remainder_by_highest_bit(dividend, divisor);
        let condition = expressions::comparison(self.random, remainder);
        self.test(ASSERT, condition);
    }

    /// Where the symbols to read begin: all of them, or the newest.
    fn oldest(&mut self) -> usize {
        self.random.pick(&[0, self.readable.len().saturating_sub(4)])
    }

    fn new_symbol(&mut self) -> Option<u16> {
        let last = self.assignable.clone().last()?;
        let mut symbol = self.assignable.start;
        if self.random.one_in(3) {
            symbol += self.random.below(usize::from(self.gap) + 1) as u16;
        }
        Some(symbol.min(last))
    }

    /// Rising as in a written trace, or anything.
    fn place(&mut self) -> u16 {
        match self.random.below(10) {
            0 => 65535,
            1 => self.random.below(3) as u16,
            2 => self.random.below(65536) as u16,
            _ => self.draft.records.len() as u16,
        }
    }
}
