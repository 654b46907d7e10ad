//! An accepted table, instruction by instruction, in words.

use std::fmt::{self, Display, Formatter};

use super::expression::{infix, postfix, tokens};
use super::proved::{self, Refusal};
use crate::encoding::Form;
use crate::parts::Parts;

/// A table that the archive accepts.
pub struct Rule {
    pub table: Vec<u8>,
    pub inputs: usize,
    records: Vec<Vec<u8>>,
}

/// A record of a table: what it does, and its expression.
#[derive(Clone, Copy)]
pub struct Instruction<'a> {
    pub action: Action,
    pub expression: &'a [u8],
}

#[derive(Clone, Copy, Debug, PartialEq, Eq)]
pub enum Action {
    /// To this symbol.
    Assign(u8),
    Assume,
    Assert,
    /// To this instruction.
    Jump(u16),
}

impl Rule {
    pub fn of(table: Vec<u8>) -> Result<Rule, Refusal> {
        proved::accept(&table)?;
        let Parts { inputs, records, .. } = Parts::of(&table).expect("an accepted table has a header");
        Ok(Rule { table, inputs: inputs.into(), records })
    }

    pub fn instruction_count(&self) -> usize {
        self.records.len()
    }

    pub fn instructions(&self) -> impl Iterator<Item = Instruction<'_>> {
        self.records.iter().map(|record| Instruction::read(record).expect("the table is accepted"))
    }

    /// Nothing past the last.
    pub fn instruction(&self, i: usize) -> Option<Instruction<'_>> {
        self.instructions().nth(i)
    }

    /// The offset of each record.
    pub fn offsets(&self) -> impl Iterator<Item = usize> + '_ {
        self.records.iter().scan(6, |next, record| {
            let offset = *next;
            *next += 2 + record.len();
            Some(offset)
        })
    }

    /// An instruction behind its number.
    pub fn line(&self, i: usize) -> String {
        let Some(instruction) = self.instruction(i) else {
            return format!("{i}: the end");
        };
        let note = match instruction.action {
            Action::Jump(target) if usize::from(target) <= i => " (back)",
            Action::Jump(target) if usize::from(target) == self.instruction_count() => " (the end)",
            _ => "",
        };
        format!("{i}: {instruction}{note}")
    }

    /// The instruction and the number of back jumps of a place.
    pub fn at(&self, place: u32) -> (usize, usize) {
        let (place, places) = (place as usize, self.instruction_count() + 1);
        (place % places, place / places)
    }
}

impl Instruction<'_> {
    /// Nothing where a record's kind is unknown, or a field is missing.
    pub fn read(record: &[u8]) -> Option<Instruction<'_>> {
        let (action, expression) = match record {
            [1, symbol, expression @ ..] => (Action::Assign(*symbol), expression),
            [2, expression @ ..] => (Action::Assume, expression),
            [3, expression @ ..] => (Action::Assert, expression),
            [4, high, low, expression @ ..] => (Action::Jump(u16::from_be_bytes([*high, *low])), expression),
            _ => return None,
        };
        Some(Instruction { action, expression })
    }

    /// The kind in a word, as in a program's listing.
    pub fn kind(&self) -> &'static str {
        match self.action {
            Action::Assign(_) => "assign",
            Action::Assume => "assume",
            Action::Assert => "assert",
            Action::Jump(_) => "jump",
        }
    }

    /// The expression's tokens by name.
    pub fn tokens(&self) -> String {
        postfix(&tokens(Form::Table, self.expression).0)
    }

    pub fn infix(&self) -> String {
        infix(&tokens(Form::Table, self.expression).0)
    }

    /// The instruction with another text for its expression.
    pub fn with(&self, expression: &str) -> String {
        match self.action {
            Action::Assign(symbol) => format!("s{symbol} = {expression}"),
            Action::Assume => format!("assume {expression}"),
            Action::Assert => format!("assert {expression}"),
            Action::Jump(target) => format!("if ({expression}) goto {target}"),
        }
    }
}

impl Display for Instruction<'_> {
    fn fmt(&self, f: &mut Formatter) -> fmt::Result {
        f.write_str(&self.with(&self.infix()))
    }
}
