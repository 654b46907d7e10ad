//! Document 01, "Table and trace bytes", and request 2026-01 on versions and kinds: an accepted trace, or its first refusal.

use std::ops::Range;

use super::expression::{self, InTrace};
use super::file::{check_records, Action, Header, Record, Refusal, Rules, HEADER_LENGTH, INPUT_LIMIT};

/// The version that is written, and the one before it, in which the bound's test is an Assume.
pub const VERSION: u8 = 130;
const OLD_VERSION: u8 = 129;
pub const STATEMENT_LIMIT: usize = 4096;
pub const SYMBOL_LIMIT: usize = INPUT_LIMIT + STATEMENT_LIMIT;

pub const ASSIGN: u8 = 1;
pub const ASSUME: u8 = 2;
pub const ASSERT: u8 = 3;
pub const BOUND: u8 = 4;

pub struct Trace<'a> {
    pub version: u8,
    pub inputs: u8,
    pub count: u16,
    pub bytes: &'a [u8],
}

impl<'a> Trace<'a> {
    pub fn read(bytes: &'a [u8]) -> Result<Trace<'a>, Refusal> {
        let Header { version, inputs, count } = Header::read(bytes, &[OLD_VERSION, VERSION], STATEMENT_LIMIT)?;
        check_records(bytes, count, &mut TraceRules::new(inputs))?;
        Ok(Trace { version, inputs, count, bytes })
    }

    pub fn records(&self) -> impl Iterator<Item = Record<'a, Statement>> + '_ {
        let mut offset = HEADER_LENGTH as u16;
        (0..self.count).map(move |_| {
            let record = self.record(offset);
            offset = record.range.end as u16;
            record
        })
    }

    /// The record at its offset.
    pub fn record(&self, offset: u16) -> Record<'a, Statement> {
        Record::at(self.bytes, offset.into()).expect("the trace was accepted")
    }
}

pub enum Statement {
    Assign { place: u16, symbol: u16 },
    Assume { place: u16 },
    Assert { place: u16 },
    Bound { place: u16 },
}

impl Action for Statement {
    fn split(body: &[u8], version: u8) -> Option<(Statement, &[u8])> {
        let (&[kind, high, low], rest) = body.split_first_chunk()?;
        let place = u16::from_be_bytes([high, low]);
        match kind {
            ASSIGN => {
                let (&symbol, expression) = rest.split_first_chunk()?;
                Some((Statement::Assign { place, symbol: u16::from_be_bytes(symbol) }, expression))
            }
            ASSUME => Some((Statement::Assume { place }, rest)),
            ASSERT => Some((Statement::Assert { place }, rest)),
            BOUND if version != OLD_VERSION => Some((Statement::Bound { place }, rest)),
            _ => None,
        }
    }
}

/// What the statements read so far leave to the next.
struct TraceRules {
    /// The inputs and the symbols assigned.
    readable: [bool; SYMBOL_LIMIT],
    /// The symbols above every one assigned.
    assignable: Range<usize>,
}

impl TraceRules {
    fn new(inputs: u8) -> TraceRules {
        let inputs = usize::from(inputs);
        let mut readable = [false; SYMBOL_LIMIT];
        readable[..inputs].fill(true);
        TraceRules { readable, assignable: inputs..inputs + STATEMENT_LIMIT }
    }
}

impl Rules for TraceRules {
    type Action = Statement;

    fn allow(&self, statement: &Statement) -> bool {
        match *statement {
            Statement::Assign { symbol, .. } => self.assignable.contains(&symbol.into()),
            Statement::Assume { .. } | Statement::Assert { .. } | Statement::Bound { .. } => true,
        }
    }

    fn fault(&self, expression: &[u8]) -> Option<usize> {
        expression::first_fault::<InTrace>(expression, |symbol| self.readable.get(symbol) == Some(&true))
    }

    fn note(&mut self, _: usize, _: usize, statement: Statement) {
        if let Statement::Assign { symbol, .. } = statement {
            let symbol = usize::from(symbol);
            self.readable[symbol] = true;
            self.assignable.start = symbol + 1;
        }
    }
}
