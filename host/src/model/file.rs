//! Document 01, "Table and trace bytes" and "Numbered replies", and request 2026-08 on refusal 7's offset: what tables
//! and traces have in common.

use std::ops::Range;

use super::writer::Writer;

pub const INPUT_LIMIT: usize = 64;
pub const HEADER_LENGTH: usize = 6;

pub struct Refusal {
    pub number: u32,
    pub offset: u32,
}

impl Refusal {
    pub fn new(number: u32, offset: usize) -> Refusal {
        Refusal { number, offset: offset as u32 }
    }
}

pub struct Header {
    pub version: u8,
    pub inputs: u8,
    pub count: u16,
}

impl Header {
    pub fn read(bytes: &[u8], versions: &[u8], count_limit: usize) -> Result<Header, Refusal> {
        let Some(&[version, high, low, inputs, count_high, count_low]) = bytes.first_chunk() else {
            return Err(Refusal::new(1, 0));
        };
        if !versions.contains(&version) {
            return Err(Refusal::new(2, 0));
        }
        if usize::from(u16::from_be_bytes([high, low])) != bytes.len() {
            return Err(Refusal::new(3, 0));
        }
        let count = u16::from_be_bytes([count_high, count_low]);
        if usize::from(inputs) > INPUT_LIMIT || usize::from(count) > count_limit {
            return Err(Refusal::new(4, 0));
        }
        Ok(Header { version, inputs, count })
    }

    pub fn write(&self, length: usize, writer: &mut Writer) {
        writer.put([self.version]);
        writer.put_number(length as u16);
        writer.put([self.inputs]);
        writer.put_number(self.count);
    }
}

/// An instruction or a statement: a record's kind with its fields.
pub trait Action: Sized {
    /// The action and the expression behind it, or nothing where refusal 5 is due in a file of this version.
    fn split(body: &[u8], version: u8) -> Option<(Self, &[u8])>;
}

pub struct Record<'a, A> {
    pub action: A,
    pub expression: &'a [u8],
    /// Where it stands in the file, with its length.
    pub range: Range<usize>,
}

impl<'a, A: Action> Record<'a, A> {
    /// The record at an offset, or nothing where refusal 5 is due.
    pub fn at(bytes: &'a [u8], offset: usize) -> Option<Record<'a, A>> {
        let (length, rest) = bytes[offset..].split_first_chunk()?;
        let body = rest.get(..u16::from_be_bytes(*length).into())?;
        let (action, expression) = A::split(body, bytes[0])?;
        Some(Record { action, expression, range: offset..offset + 2 + body.len() })
    }
}

/// What a table or a trace asks of its records, one after another.
pub trait Rules {
    type Action: Action;

    /// Whether refusal 6 is not due.
    fn allow(&self, action: &Self::Action) -> bool;

    /// Where in an expression refusal 7 is due, if it is.
    fn fault(&self, expression: &[u8]) -> Option<usize>;

    /// Takes note of record `i`, which was accepted.
    fn note(&mut self, i: usize, offset: usize, action: Self::Action);
}

/// Checks record after record, and then that no byte is spare.
pub fn check_records(bytes: &[u8], count: u16, rules: &mut impl Rules) -> Result<(), Refusal> {
    let mut offset = HEADER_LENGTH;
    for i in 0..count.into() {
        let record = check_record(bytes, offset, rules)?;
        rules.note(i, offset, record.action);
        offset = record.range.end;
    }
    if offset != bytes.len() {
        return Err(Refusal::new(5, offset));
    }
    Ok(())
}

fn check_record<'a, R: Rules>(bytes: &'a [u8], offset: usize, rules: &R) -> Result<Record<'a, R::Action>, Refusal> {
    let Some(record) = Record::at(bytes, offset) else {
        return Err(Refusal::new(5, offset));
    };
    if !rules.allow(&record.action) {
        return Err(Refusal::new(6, offset));
    }
    if let Some(fault) = rules.fault(record.expression) {
        return Err(Refusal::new(7, record.range.end - record.expression.len() + fault));
    }
    Ok(record)
}
