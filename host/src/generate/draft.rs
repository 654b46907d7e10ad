//! A table or a trace before it is laid out.

use crate::encoding::{self, Form};

pub const ASSIGN: u8 = 1;
pub const ASSUME: u8 = 2;
pub const ASSERT: u8 = 3;
/// In tables.
pub const IF_THEN_GOTO: u8 = 4;
/// In traces of version 130.
pub const BOUND: u8 = 4;

pub struct Draft {
    pub form: Form,
    pub inputs: u8,
    pub records: Vec<Record>,
}

pub struct Record {
    pub kind: u8,
    pub fields: Vec<u8>,
    pub expression: Vec<u8>,
}

impl Draft {
    pub fn new(form: Form, inputs: u8) -> Draft {
        Draft { form, inputs, records: Vec::new() }
    }

    pub fn add(&mut self, kind: u8, fields: impl Into<Vec<u8>>, expression: Vec<u8>) {
        self.records.push(Record::new(kind, fields, expression));
    }

    pub fn length(&self) -> usize {
        let records = self.records.iter();
        6 + records.map(|record| 3 + record.fields.len() + record.expression.len()).sum::<usize>()
    }

    pub fn encode(&self) -> Vec<u8> {
        let records: Vec<Vec<u8>> = self.records.iter().map(Record::encode).collect();
        encoding::file(self.form.version(), self.inputs, &records)
    }

    /// What a symbol that a trace assigns is below.
    pub fn symbol_end(&self) -> u16 {
        u16::from(self.inputs) + 4096
    }

    /// The symbols that record `i` may read, rising.
    pub fn readable(&self, i: usize) -> Vec<u16> {
        let inputs = 0..self.inputs.into();
        match self.form {
            Form::Table => inputs.collect(),
            Form::Trace | Form::OldTrace => {
                inputs.chain(self.records[..i].iter().filter_map(Record::trace_symbol)).collect()
            }
        }
    }
}

impl Record {
    pub fn new(kind: u8, fields: impl Into<Vec<u8>>, expression: Vec<u8>) -> Record {
        Record { kind, fields: fields.into(), expression }
    }

    fn encode(&self) -> Vec<u8> {
        [&[self.kind], &self.fields[..], &self.expression].concat()
    }

    /// Where a table's record jumps to.
    pub fn target(&self) -> Option<u16> {
        match (self.kind, &self.fields[..]) {
            (IF_THEN_GOTO, &[high, low]) => Some(u16::from_be_bytes([high, low])),
            _ => None,
        }
    }

    pub fn set_target(&mut self, target: u16) {
        self.fields = target.to_be_bytes().to_vec();
    }

    /// What a trace's record assigns.
    pub fn trace_symbol(&self) -> Option<u16> {
        match (self.kind, &self.fields[..]) {
            (ASSIGN, &[_, _, high, low]) => Some(u16::from_be_bytes([high, low])),
            _ => None,
        }
    }

    pub fn set_trace_symbol(&mut self, symbol: u16) {
        self.fields.resize(2, 0);
        self.fields.extend(symbol.to_be_bytes());
    }
}
