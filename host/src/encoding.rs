//! Document 01, "Table and trace bytes", and request 2026-01: laying out tables and traces, right or wrong, from their
//! records.

/// What tells tables and traces apart.
#[derive(Clone, Copy, PartialEq, Eq)]
pub enum Form {
    Table,
    Trace,
    /// A trace of version 129, which is no more written.
    OldTrace,
}

impl Form {
    pub fn other(self) -> Form {
        match self {
            Form::Table => Form::Trace,
            Form::Trace | Form::OldTrace => Form::Table,
        }
    }

    pub fn version(self) -> u8 {
        match self {
            Form::Table => 1,
            Form::Trace => 130,
            Form::OldTrace => 129,
        }
    }

    pub fn count_limit(self) -> u16 {
        match self {
            Form::Table => 1024,
            Form::Trace | Form::OldTrace => 4096,
        }
    }

    /// The lowest kind above 0 that no record has.
    pub fn first_unknown_kind(self) -> u8 {
        match self {
            Form::Table | Form::Trace => 5,
            Form::OldTrace => 4,
        }
    }

    pub fn depth_limit(self) -> usize {
        match self {
            Form::Table => 16,
            Form::Trace | Form::OldTrace => 17,
        }
    }

    /// The token that reads a symbol.
    pub fn symbol(self, number: u16) -> Vec<u8> {
        let [high, low] = number.to_be_bytes();
        match self {
            Form::Table => vec![0x02, low],
            Form::Trace | Form::OldTrace => vec![0x03, high, low],
        }
    }
}

pub fn table<R: AsRef<[u8]>>(inputs: u8, records: &[R]) -> Vec<u8> {
    file(Form::Table.version(), inputs, records)
}

pub fn trace<R: AsRef<[u8]>>(inputs: u8, records: &[R]) -> Vec<u8> {
    file(Form::Trace.version(), inputs, records)
}

/// A file of records, each given without its length. Numbers too large for their field are cut to it.
pub fn file<R: AsRef<[u8]>>(version: u8, inputs: u8, records: &[R]) -> Vec<u8> {
    let mut bytes = vec![version, 0, 0, inputs, 0, 0];
    for record in records {
        let record = record.as_ref();
        bytes.extend((record.len() as u16).to_be_bytes());
        bytes.extend(record);
    }
    set_count(&mut bytes, records.len() as u16);
    mend_length(&mut bytes);
    bytes
}

pub fn set_count(file: &mut [u8], count: u16) {
    file[4..6].copy_from_slice(&count.to_be_bytes());
}

pub fn set_length(file: &mut [u8], length: u16) {
    file[1..3].copy_from_slice(&length.to_be_bytes());
}

pub fn mend_length(file: &mut [u8]) {
    set_length(file, file.len() as u16);
}

pub fn valuation(words: &[u32]) -> Vec<u8> {
    words.iter().flat_map(|word| word.to_be_bytes()).collect()
}
