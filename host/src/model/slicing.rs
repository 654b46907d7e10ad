//! Document 01, "The slice"; by request 2026-01 a bound is treated as an Assume, and a slice has its trace's version.

use super::expression::{symbols, InTrace};
use super::file::{Header, HEADER_LENGTH};
use super::trace::{Statement, Trace, STATEMENT_LIMIT, SYMBOL_LIMIT};
use super::writer::Writer;

/// What is kept of a trace: the offset of each record, rising.
pub struct Slice<'a> {
    kept: &'a [u16],
    pub length: usize,
    /// Bit s is set when input s is read.
    pub mask: u64,
}

impl<'a> Slice<'a> {
    pub fn of(trace: &Trace, room: &'a mut [u16; STATEMENT_LIMIT]) -> Slice<'a> {
        let offsets = &mut room[..trace.count.into()];
        for (offset, record) in offsets.iter_mut().zip(trace.records()) {
            *offset = record.range.start as u16;
        }
        let mut needed = [false; SYMBOL_LIMIT];
        let mut assert_follows = false;
        let mut length = HEADER_LENGTH;
        // The offsets from here on are those kept. They never pass the one that is looked at.
        let mut first_kept = offsets.len();
        for i in (0..offsets.len()).rev() {
            let record = trace.record(offsets[i]);
            let is_kept = match record.action {
                Statement::Assign { symbol, .. } => needed[usize::from(symbol)],
                Statement::Assume { .. } | Statement::Bound { .. } => assert_follows,
                Statement::Assert { .. } => {
                    assert_follows = true;
                    true
                }
            };
            if is_kept {
                symbols::<InTrace>(record.expression).for_each(|symbol| needed[symbol] = true);
                length += record.range.len();
                first_kept -= 1;
                offsets[first_kept] = offsets[i];
            }
        }
        Slice { kept: &offsets[first_kept..], length, mask: mask(&needed[..trace.inputs.into()]) }
    }

    /// Writes the slice into a buffer of its length.
    pub fn write(&self, trace: &Trace, out: &mut [u8]) {
        let mut writer = Writer::new(out);
        let header = Header { version: trace.version, inputs: trace.inputs, count: self.kept.len() as u16 };
        header.write(self.length, &mut writer);
        for &offset in self.kept {
            writer.put_all(&trace.bytes[trace.record(offset).range]);
        }
    }
}

fn mask(needed: &[bool]) -> u64 {
    needed.iter().rev().fold(0, |mask, &is_needed| mask << 1 | u64::from(is_needed))
}
