//! Document 01, "Table and trace bytes": an accepted table, or its first refusal.

use super::expression::{self, InTable};
use super::file::{check_records, Action, Header, Record, Refusal, Rules};

pub const INSTRUCTION_LIMIT: usize = 1024;

const VERSION: u8 = 1;

/// An accepted table: its bytes and the offset of each record.
pub struct Table<'a> {
    pub inputs: u8,
    bytes: &'a [u8],
    offsets: &'a [u16],
}

impl<'a> Table<'a> {
    pub fn read(bytes: &'a [u8], room: &'a mut [u16; INSTRUCTION_LIMIT]) -> Result<Table<'a>, Refusal> {
        let header = Header::read(bytes, &[VERSION], INSTRUCTION_LIMIT)?;
        let offsets = &mut room[..header.count.into()];
        check_records(bytes, header.count, &mut TableRules { header: &header, offsets })?;
        Ok(Table { inputs: header.inputs, bytes, offsets })
    }

    pub fn instruction_count(&self) -> usize {
        self.offsets.len()
    }

    pub fn records(&self) -> impl Iterator<Item = Record<'a, Instruction>> + '_ {
        (0..self.instruction_count()).map(|i| self.record(i))
    }

    pub fn record(&self, i: usize) -> Record<'a, Instruction> {
        Record::at(self.bytes, self.offsets[i].into()).expect("the table was accepted")
    }
}

pub enum Instruction {
    Assign { symbol: u8 },
    Assume,
    Assert,
    IfThenGoto { target: u16 },
}

impl Action for Instruction {
    fn split(body: &[u8], _: u8) -> Option<(Instruction, &[u8])> {
        match *body {
            [1, symbol, ref expression @ ..] => Some((Instruction::Assign { symbol }, expression)),
            [2, ref expression @ ..] => Some((Instruction::Assume, expression)),
            [3, ref expression @ ..] => Some((Instruction::Assert, expression)),
            [4, high, low, ref expression @ ..] => {
                let target = u16::from_be_bytes([high, low]);
                Some((Instruction::IfThenGoto { target }, expression))
            }
            _ => None,
        }
    }
}

struct TableRules<'a> {
    header: &'a Header,
    offsets: &'a mut [u16],
}

impl Rules for TableRules<'_> {
    type Action = Instruction;

    fn allow(&self, instruction: &Instruction) -> bool {
        match *instruction {
            Instruction::Assign { symbol } => symbol < self.header.inputs,
            Instruction::Assume | Instruction::Assert => true,
            Instruction::IfThenGoto { target } => target <= self.header.count,
        }
    }

    fn fault(&self, expression: &[u8]) -> Option<usize> {
        expression::first_fault::<InTable>(expression, |symbol| symbol < self.header.inputs.into())
    }

    fn note(&mut self, i: usize, offset: usize, _: Instruction) {
        self.offsets[i] = offset as u16;
    }
}
