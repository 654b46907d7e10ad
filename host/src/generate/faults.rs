//! Damage to an accepted table or trace: to its records before they are laid out, and to the bytes afterwards.

use super::broken;
use super::draft::{Draft, Record, ASSIGN, IF_THEN_GOTO};
use super::random::Random;
use crate::encoding::{self, Form};

const HEADER_LENGTH: usize = 6;

pub fn damaged(random: &mut Random, mut draft: Draft) -> Vec<u8> {
    let faults = random.pick(&[0, 1, 1, 1, 2, 3]);
    damage_records(random, &mut draft, faults);
    let mut file = draft.encode();
    for _ in 0..random.pick(&[0, 0, 0, 1, 1, 2]) {
        damage_bytes(random, &mut file, draft.form);
    }
    file
}

/// Faults often meet in one record, in the last or in the first.
fn damage_records(random: &mut Random, draft: &mut Draft, faults: usize) {
    let count = draft.records.len();
    if count == 0 {
        return;
    }
    let mut i = random.below(count);
    for _ in 0..faults {
        i = match random.below(5) {
            0 => i,
            1 => count - 1,
            2 => 0,
            _ => random.below(count),
        };
        damage_record(random, draft, i);
    }
}

fn damage_record(random: &mut Random, draft: &mut Draft, i: usize) {
    match random.below(10) {
        0 => break_kind(random, draft.form, &mut draft.records[i]),
        1 => lose_fields(random, &mut draft.records[i]),
        2..=4 => break_field(random, draft, i),
        _ => draft.records[i].expression = broken::expression(random, draft, i),
    }
}

fn break_kind(random: &mut Random, form: Form, record: &mut Record) {
    record.kind = [0, form.first_unknown_kind(), 129, random.byte()][random.below(4)];
}

fn lose_fields(random: &mut Random, record: &mut Record) {
    let kept = random.below(record.fields.len().max(1));
    record.fields.truncate(kept);
    record.expression.clear();
}

fn break_field(random: &mut Random, draft: &mut Draft, i: usize) {
    match draft.form {
        Form::Table => break_table_field(random, draft, i),
        Form::Trace | Form::OldTrace => break_trace_symbol(random, draft, i),
    }
}

fn break_table_field(random: &mut Random, draft: &mut Draft, i: usize) {
    let (inputs, count) = (draft.inputs, draft.records.len() as u16);
    let record = &mut draft.records[i];
    if record.kind == ASSIGN {
        record.fields = vec![random.pick(&[inputs, inputs, inputs + 1, 64, 255])];
        return;
    }
    record.kind = IF_THEN_GOTO;
    record.set_target(random.pick(&[count + 1, count + 1, count + 2, 1025, 65535]));
}

/// Assigns an input, the newest symbol or one below it, or one too far; the last that is allowed leaves none to others.
fn break_trace_symbol(random: &mut Random, draft: &mut Draft, i: usize) {
    let end = draft.symbol_end();
    let newest = draft.readable(i).pop().unwrap_or(65535);
    let record = &mut draft.records[i];
    record.kind = ASSIGN;
    record.set_trace_symbol(random.pick(&[0, newest, newest, newest.saturating_sub(1), end, end, end - 1, 65535]));
}

pub fn damage_bytes(random: &mut Random, file: &mut Vec<u8>, form: Form) {
    if file.len() < HEADER_LENGTH {
        return;
    }
    match random.below(12) {
        0 => file.truncate(random.below(HEADER_LENGTH)),
        1 => file[0] = random.pick(&[form.version() - 1, form.version() + 1, form.other().version(), 255]),
        2 => break_length(random, file),
        3 => file[3] = random.pick(&[0, 1, 2, 65, 66, 128, 255]),
        4 => break_count(random, file, form.count_limit()),
        5 => break_record_length(random, file),
        6 => cut_file(random, file),
        7 => extend(random, file),
        8 => repeat_record(random, file),
        9 => edit_bytes(random, file),
        10 => insert_byte(random, file),
        _ => remove_byte(random, file),
    }
}

fn break_length(random: &mut Random, file: &mut [u8]) {
    let right = file.len() as u16;
    let wrong = [right.wrapping_add(1), right.wrapping_sub(1), right.swap_bytes(), 0, 65535];
    encoding::set_length(file, random.pick(&wrong));
}

fn break_count(random: &mut Random, file: &mut [u8], limit: u16) {
    let right = u16::from_be_bytes([file[4], file[5]]);
    let wrong = [right.wrapping_add(1), right.saturating_sub(1), right / 2, limit, limit + 1, 65535];
    encoding::set_count(file, random.pick(&wrong));
}

fn break_record_length(random: &mut Random, file: &mut [u8]) {
    let Some((offset, right)) = some_record(random, file) else {
        return;
    };
    let wrong = [0, 1, 2, right.wrapping_add(1), right.wrapping_sub(1), 65535];
    let length = random.pick(&wrong);
    file[offset..offset + 2].copy_from_slice(&length.to_be_bytes());
}

/// The offset and the length of a record, the last one at times.
fn some_record(random: &mut Random, file: &[u8]) -> Option<(usize, u16)> {
    let skipped = random.below(12);
    let mut offset = HEADER_LENGTH;
    let mut found = None;
    for _ in 0..=skipped {
        let Some(&[high, low]) = file.get(offset..offset + 2) else {
            break;
        };
        let length = u16::from_be_bytes([high, low]);
        found = Some((offset, length));
        offset += 2 + usize::from(length);
    }
    found
}

fn cut_file(random: &mut Random, file: &mut Vec<u8>) {
    let length = random.between(HEADER_LENGTH, file.len());
    file.truncate(length);
    mend_length_mostly(random, file);
}

/// Adds a few bytes, or so many that the length field says the same again.
fn extend(random: &mut Random, file: &mut Vec<u8>) {
    if random.one_in(20) {
        file.resize(file.len() + 65_536, 0);
        return;
    }
    for _ in 0..random.between(1, 5) {
        file.push(random.byte());
    }
    mend_length_mostly(random, file);
}

fn repeat_record(random: &mut Random, file: &mut Vec<u8>) {
    let Some((offset, length)) = some_record(random, file) else {
        return;
    };
    let end = offset + 2 + usize::from(length);
    file.extend_from_within(offset..end.min(file.len()));
    mend_length_mostly(random, file);
}

fn edit_bytes(random: &mut Random, file: &mut [u8]) {
    for _ in 0..random.between(1, 3) {
        let place = random.below(file.len());
        file[place] = random.byte();
    }
}

fn insert_byte(random: &mut Random, file: &mut Vec<u8>) {
    let place = random.between(HEADER_LENGTH, file.len());
    file.insert(place, random.byte());
    mend_length_mostly(random, file);
}

fn remove_byte(random: &mut Random, file: &mut Vec<u8>) {
    if file.len() == HEADER_LENGTH {
        return;
    }
    let place = random.between(HEADER_LENGTH, file.len() - 1);
    file.remove(place);
    mend_length_mostly(random, file);
}

fn mend_length_mostly(random: &mut Random, file: &mut [u8]) {
    if !random.one_in(4) {
        encoding::mend_length(file);
    }
}
