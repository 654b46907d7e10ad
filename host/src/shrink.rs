//! Makes a failing case smaller as long as it fails: fewer records, bytes, back jumps and inputs, less
//! room, smaller numbers.

use std::iter;
use std::time::{Duration, Instant};

use crate::case::Case;
use crate::parts::Parts;

/// A long file may not become as small as it could within this time.
const TIME: Duration = Duration::from_secs(5);
/// A constant and a binary operator: pieces up to this length are tried at every place.
const SMALL_PIECE: usize = 6;

pub fn shrink<C: Case>(case: C, fails: impl Fn(&C) -> bool) -> C {
    let mut search = Search { best: case, fails, deadline: Instant::now() + TIME };
    while search.pass() {}
    search.best
}

struct Search<C, F> {
    best: C,
    fails: F,
    deadline: Instant,
}

impl<C: Case, F: Fn(&C) -> bool> Search<C, F> {
    /// Whether anything became smaller.
    fn pass(&mut self) -> bool {
        self.lower_bound()
            || self.lessen_room()
            || self.drop_records()
            || self.shorten_records()
            || self.shorten_rest()
            || self.drop_input()
            || self.shorten_valuation()
            || self.lower_words()
            || self.lower_bytes()
    }

    fn attempt(&mut self, edit: impl FnOnce(&mut C)) -> bool {
        if Instant::now() > self.deadline {
            return false;
        }
        let mut case = self.best.clone();
        edit(&mut case);
        let fails = (self.fails)(&case);
        if fails {
            self.best = case;
        }
        fails
    }

    fn attempt_parts(&mut self, parts: &Parts, edit: impl FnOnce(&mut Parts)) -> bool {
        self.attempt(|case| {
            let mut parts = parts.clone();
            edit(&mut parts);
            *case.file_mut() = parts.join();
        })
    }

    fn lower_bound(&mut self) -> bool {
        let Some(&mut bound) = self.best.bound_mut() else {
            return false;
        };
        lower_numbers(bound).any(|lower| self.attempt_bound(lower))
    }

    fn attempt_bound(&mut self, lower: u64) -> bool {
        self.attempt(|case| {
            if let Some(bound) = case.bound_mut() {
                *bound = lower;
            }
        })
    }

    fn lessen_room(&mut self) -> bool {
        let Some(&mut room) = self.best.room_mut() else {
            return false;
        };
        lower_numbers(room as u64).any(|less| self.attempt_room(less as usize))
    }

    fn attempt_room(&mut self, less: usize) -> bool {
        self.attempt(|case| {
            if let Some(room) = case.room_mut() {
                *room = less;
            }
        })
    }

    fn drop_records(&mut self) -> bool {
        let Some(parts) = Parts::of(self.best.file_mut()) else {
            return false;
        };
        pieces(parts.records.len())
            .any(|(start, end)| self.attempt_parts(&parts, |parts| parts.drop_records(start, end)))
    }

    fn shorten_records(&mut self) -> bool {
        let Some(parts) = Parts::of(self.best.file_mut()) else {
            return false;
        };
        (0..parts.records.len()).any(|i| {
            pieces(parts.records[i].len())
                .any(|(start, end)| self.attempt_parts(&parts, |parts| drop(parts.records[i].drain(start..end))))
        })
    }

    fn shorten_rest(&mut self) -> bool {
        let Some(parts) = Parts::of(self.best.file_mut()) else {
            return false;
        };
        pieces(parts.rest.len())
            .any(|(start, end)| self.attempt_parts(&parts, |parts| drop(parts.rest.drain(start..end))))
    }

    fn drop_input(&mut self) -> bool {
        let Some(mut parts) = Parts::of(self.best.file_mut()) else {
            return false;
        };
        let Some(inputs) = parts.inputs.checked_sub(1) else {
            return false;
        };
        parts.inputs = inputs;
        self.attempt(|case| {
            *case.file_mut() = parts.join();
            if let Some(valuation) = case.valuation_mut() {
                valuation.truncate(valuation.len().saturating_sub(4));
            }
        })
    }

    fn shorten_valuation(&mut self) -> bool {
        let valuation = self.valuation();
        pieces(valuation.len())
            .any(|(start, end)| self.attempt_valuation(|valuation| drop(valuation.drain(start..end))))
    }

    fn lower_words(&mut self) -> bool {
        let valuation = self.valuation();
        valuation.chunks_exact(4).enumerate().any(|(i, bytes)| self.lower_word(4 * i, bytes))
    }

    fn lower_word(&mut self, start: usize, bytes: &[u8]) -> bool {
        let word = u32::from_be_bytes([bytes[0], bytes[1], bytes[2], bytes[3]]);
        if word == 0 {
            return false;
        }
        let lower = (word / 2).to_be_bytes();
        self.attempt_valuation(|valuation| valuation[start..start + 4].copy_from_slice(&lower))
    }

    fn attempt_valuation(&mut self, edit: impl FnOnce(&mut Vec<u8>)) -> bool {
        self.attempt(|case| {
            if let Some(valuation) = case.valuation_mut() {
                edit(valuation);
            }
        })
    }

    /// Empty where there is none.
    fn valuation(&mut self) -> Vec<u8> {
        self.best.valuation_mut().cloned().unwrap_or_default()
    }

    /// Lowers targets, places, symbols and constants byte by byte.
    fn lower_bytes(&mut self) -> bool {
        let Some(parts) = Parts::of(self.best.file_mut()) else {
            return false;
        };
        (0..parts.records.len()).any(|i| (0..parts.records[i].len()).any(|k| self.lower_byte(&parts, i, k)))
    }

    fn lower_byte(&mut self, parts: &Parts, i: usize, k: usize) -> bool {
        lower_numbers(parts.records[i][k].into())
            .any(|lower| self.attempt_parts(parts, |parts| parts.records[i][k] = lower as u8))
    }
}

fn lower_numbers(number: u64) -> impl Iterator<Item = u64> {
    [0, number / 2, number.saturating_sub(1)].into_iter().filter(move |&lower| lower < number)
}

/// The ranges of `length` things to try without, large ones first.
fn pieces(length: usize) -> impl Iterator<Item = (usize, usize)> {
    let halves = iter::successors(Some(length), |size| Some(size / 2));
    let large = halves.take_while(|&size| size > SMALL_PIECE).map(|size| (size, size));
    let small = (1..=SMALL_PIECE.min(length)).rev().map(|size| (size, 1));
    large.chain(small).flat_map(move |(size, step)| {
        let starts = (0..=length - size).step_by(step);
        starts.map(move |start| (start, start + size))
    })
}
