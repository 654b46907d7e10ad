//! What writing tables and writing traces have in common: drafts of every size, conditions that often hold.

use super::draft::{Draft, ASSERT};
use super::expressions::{self, NOT, ZERO};
use super::random::Random;

const INPUT_LIMIT: u8 = 64;

pub trait Author {
    fn random(&mut self) -> &mut Random;

    fn draft(&mut self) -> &mut Draft;

    /// Adds a few records.
    fn block(&mut self);

    /// Adds a few records, so short that as many as a file may have fit into it.
    fn brief(&mut self);

    /// Adds an Assign, or another record where there is no symbol for one.
    fn assign(&mut self, expression: Vec<u8>);

    /// Adds an Assume or an Assert.
    fn test(&mut self, kind: u8, condition: Vec<u8>);

    /// Adds the last record: a jump back to the start, if there are jumps.
    fn end(&mut self, condition: Vec<u8>);

    /// Reads a symbol that other records are likely to read or assign, if there is any.
    fn read(&mut self) -> Option<Vec<u8>>;

    /// An expression that holds so many words at most, and does so at least once.
    fn with_peak(&mut self, peak: usize) -> Vec<u8>;

    fn write(&mut self) {
        match self.random().below(2000) {
            0..=3 => self.bulky(),
            4..=11 => self.crowded(),
            _ => self.usual(),
        }
    }

    /// A few blocks, seldom none.
    fn usual(&mut self) {
        let blocks = if self.random().one_in(25) { 0 } else { self.random().between(1, 4) };
        for _ in 0..blocks {
            self.block();
        }
    }

    /// As many records as a file may have, or nearly. The last is an Assert.
    fn crowded(&mut self) {
        let limit = usize::from(self.draft().form.count_limit());
        let count = limit - self.random().pick(&[0, 0, 1, 2]);
        while self.draft().records.len() < count {
            self.brief();
        }
        self.draft().records.truncate(count - 1);
        self.test_any(ASSERT);
    }

    /// As many bytes as a file may have, or nearly, or a little more than its length field can say.
    fn bulky(&mut self) {
        let wanted = self.random().pick(&[65_485, 65_534, 65_535, 65_535, 65_535, 65_536, 65_537]);
        self.usual();
        while self.draft().length() + 2_000 < wanted {
            let peak = self.draft().form.depth_limit();
            let expression = self.with_peak(peak);
            self.assign(expression);
        }
        let condition = self.with_peak(1);
        self.end(condition);
        let missing = wanted.saturating_sub(self.draft().length());
        let padding = vec![self.random().pick(&[NOT, ZERO]); missing];
        self.draft().records.last_mut().unwrap().expression.extend(padding);
    }

    fn assign_any(&mut self) {
        let expression = self.expression();
        self.assign(expression);
    }

    fn test_any(&mut self, kind: u8) {
        let condition = self.condition();
        self.test(kind, condition);
    }

    /// A test that mostly holds.
    fn test_likely(&mut self, kind: u8) {
        let condition = match self.read() {
            Some(symbol) if self.random().percent(85) => expressions::unequal(symbol, self.small_word()),
            _ => self.condition(),
        };
        self.test(kind, condition);
    }

    fn condition(&mut self) -> Vec<u8> {
        match self.read() {
            Some(symbol) if self.random().percent(60) => expressions::comparison(self.random(), symbol),
            Some(symbol) if self.random().one_in(4) => symbol,
            _ => self.expression(),
        }
    }

    fn expression(&mut self) -> Vec<u8> {
        let peak = self.peak();
        self.with_peak(peak)
    }

    /// How many words any expression holds at most.
    fn peak(&mut self) -> usize {
        let limit = self.draft().form.depth_limit();
        usual_peak(self.random(), limit)
    }

    fn small_word(&mut self) -> u32 {
        let limit = self.random().pick(&[5, 5, 5, 60]);
        self.random().below(limit) as u32
    }
}

/// A few words, seldom as many as an expression may hold.
pub fn usual_peak(random: &mut Random, limit: usize) -> usize {
    match random.below(12) {
        0 => random.between(limit - 2, limit),
        1 => random.between(6, limit),
        _ => random.between(1, 5),
    }
}

pub fn inputs(random: &mut Random) -> u8 {
    match random.below(20) {
        0 => 0,
        1..=2 => INPUT_LIMIT,
        3 => INPUT_LIMIT - 1,
        4..=6 => random.between(5, INPUT_LIMIT.into()) as u8,
        _ => random.between(1, 4) as u8,
    }
}
