//! A table or a trace taken apart, however damaged.

use crate::encoding::{self, Form};
use crate::statement;

const HEADER_LENGTH: usize = 6;

#[derive(Clone)]
pub struct Parts {
    version: u8,
    pub inputs: u8,
    pub records: Vec<Vec<u8>>,
    /// What stands behind the last whole record.
    pub rest: Vec<u8>,
    /// How far the header's length and count are off, which is kept.
    length_excess: u16,
    count_excess: u16,
}

impl Parts {
    /// Nothing for a file without a whole header.
    pub fn of(file: &[u8]) -> Option<Parts> {
        let &[version, high, low, inputs, count_high, count_low] = file.first_chunk()?;
        let length = u16::from_be_bytes([high, low]);
        let count = u16::from_be_bytes([count_high, count_low]);
        let (records, rest) = split_records(&file[HEADER_LENGTH..], count.into());
        Some(Parts {
            version,
            inputs,
            length_excess: length.wrapping_sub(file.len() as u16),
            count_excess: count.wrapping_sub(records.len() as u16),
            records,
            rest,
        })
    }

    /// The number and the first byte of the record that has the byte at an offset, or is due there.
    pub fn record_at(&self, offset: usize) -> (usize, usize) {
        let mut start = HEADER_LENGTH;
        for (number, record) in self.records.iter().enumerate() {
            let end = start + 2 + record.len();
            if offset < end {
                return (number, start);
            }
            start = end;
        }
        (self.records.len(), start)
    }

    pub fn join(&self) -> Vec<u8> {
        let mut file = encoding::file(self.version, self.inputs, &self.records);
        file.extend(&self.rest);
        let length = self.length_excess.wrapping_add(file.len() as u16);
        encoding::set_length(&mut file, length);
        let count = self.count_excess.wrapping_add(self.records.len() as u16);
        encoding::set_count(&mut file, count);
        file
    }

    /// Drops the records from `start` to `end`; a table's jumps go where they went, or to what follows the gap.
    pub fn drop_records(&mut self, start: usize, end: usize) {
        self.records.drain(start..end);
        for record in &mut self.records {
            let [4, high, low, ..] = &mut record[..] else {
                continue;
            };
            let target = usize::from(u16::from_be_bytes([*high, *low]));
            let gap = target.clamp(start, end) - start;
            [*high, *low] = ((target - gap) as u16).to_be_bytes();
        }
    }
}

/// An accepted trace as version 129 has it, in which a bound is an Assume; other versions' bytes are left as they are.
pub fn as_old_trace(trace: &[u8]) -> Vec<u8> {
    let Some(mut parts) = Parts::of(trace).filter(|parts| parts.version == Form::Trace.version()) else {
        return trace.to_vec();
    };
    parts.version = Form::OldTrace.version();
    for kind in parts.records.iter_mut().filter_map(|record| record.first_mut()) {
        *kind = if *kind == 4 { 2 } else { *kind };
    }
    parts.join()
}

/// Whether a trace, which has a whole header, begins as that of a table.
pub fn has_opening(trace: &[u8]) -> bool {
    let opening = statement::assign(65535, trace[3].into(), &[1, 0, 0, 0, 0]);
    Parts::of(trace).is_some_and(|parts| parts.records.first() == Some(&opening))
}

/// A table whose jumps to themselves go on to what follows them instead.
pub fn without_self_jumps(table: &[u8]) -> Vec<u8> {
    let mut table = table.to_vec();
    let mut offset = HEADER_LENGTH;
    for i in 0..u16::MAX {
        let Some([high, low, kind, target @ ..]) = table.get_mut(offset..offset + 5) else {
            break;
        };
        if *kind == 4 && *target == i.to_be_bytes() {
            target.copy_from_slice(&(i + 1).to_be_bytes());
        }
        offset += 2 + usize::from(u16::from_be_bytes([*high, *low]));
    }
    table
}

fn split_records(mut rest: &[u8], count: usize) -> (Vec<Vec<u8>>, Vec<u8>) {
    let mut records = Vec::new();
    while records.len() < count {
        let Some((record, behind)) = split_record(rest) else {
            break;
        };
        records.push(record.to_vec());
        rest = behind;
    }
    (records, rest.to_vec())
}

fn split_record(bytes: &[u8]) -> Option<(&[u8], &[u8])> {
    let (length, behind) = bytes.split_first_chunk()?;
    let length = usize::from(u16::from_be_bytes(*length));
    (length <= behind.len()).then(|| behind.split_at(length))
}
