//! Request 2026-08, "Point at the token": expressions that break their rules, in one way and at one token.

use super::draft::Draft;
use super::expressions::{constant, joints, operand, operator, Joint, Scope};
use super::random::Random;
use crate::encoding::Form;

/// The expression of record `i`, which is broken then, but for a few.
pub fn expression(random: &mut Random, draft: &Draft, i: usize) -> Vec<u8> {
    let expression = &draft.records[i].expression;
    let joints = joints(draft.form, expression);
    match random.below(20) {
        0..=1 => with_token(random, expression, &joints, |random| unknown_token(random, draft.form)),
        2..=6 => with_token(random, expression, &joints, |random| unreadable(random, draft, i)),
        7 => with_cut_token(random, expression, &joints, constant(1)),
        8 => with_cut_token(random, expression, &joints, draft.form.symbol(0)),
        9..=12 => with_empty_stack(random, expression, &joints),
        13..=14 => too_deep(random, draft, i, &joints),
        15 => vec![],
        16..=17 => with_words_left(random, draft, i),
        18 => without_last_byte(expression),
        _ => with_byte(random, expression),
    }
}

/// What stands before a joint, a token, and what stands behind it or nothing.
fn with_token(
    random: &mut Random,
    expression: &[u8],
    joints: &[Joint],
    token: impl FnOnce(&mut Random) -> Vec<u8>,
) -> Vec<u8> {
    let joint = some_joint(random, joints);
    let token = token(random);
    [&expression[..joint.at], &token, behind(random, expression, joint)].concat()
}

/// The first, the last, or any.
fn some_joint(random: &mut Random, joints: &[Joint]) -> Joint {
    match random.below(4) {
        0 => joints[0],
        1 => joints[joints.len() - 1],
        _ => random.pick(joints),
    }
}

fn behind<'a>(random: &mut Random, expression: &'a [u8], joint: Joint) -> &'a [u8] {
    if random.one_in(2) {
        return &[];
    }
    &expression[joint.at..]
}

/// A byte that is no token of this form, alone or as the other form's symbol.
fn unknown_token(random: &mut Random, form: Form) -> Vec<u8> {
    if random.one_in(5) {
        return form.other().symbol(0);
    }
    vec![random.pick(&[0x00, 0x04, 0x0F, 0x13, 0x1F, 0x2E, 0x2F, 0x31, 0x80, 0xFF])]
}

/// Without its last operands, at the record's end.
fn with_cut_token(random: &mut Random, expression: &[u8], joints: &[Joint], mut token: Vec<u8>) -> Vec<u8> {
    let joint = some_joint(random, joints);
    token.truncate(random.between(1, token.len() - 1));
    [&expression[..joint.at], &token].concat()
}

/// With an operator where it lacks a word or more.
fn with_empty_stack(random: &mut Random, expression: &[u8], joints: &[Joint]) -> Vec<u8> {
    let held = random.below(3);
    let lacking: Vec<Joint> = joints.iter().copied().filter(|joint| joint.held == held).collect();
    let lacking = if lacking.is_empty() { &joints[..1] } else { &lacking };
    with_token(random, expression, lacking, |random| {
        let pops = random.between(held + 1, 3);
        vec![operator(random, pops)]
    })
}

/// With as many words as may be held, and one more.
fn too_deep(random: &mut Random, draft: &Draft, i: usize, joints: &[Joint]) -> Vec<u8> {
    let joint = some_joint(random, joints);
    let words = (draft.form.depth_limit() + 1).saturating_sub(joint.held);
    let expression = &draft.records[i].expression;
    let pushed = operands(random, draft, i, words);
    [&expression[..joint.at], &pushed, behind(random, expression, joint)].concat()
}

/// With a word too many, or a few.
fn with_words_left(random: &mut Random, draft: &Draft, i: usize) -> Vec<u8> {
    let words = random.pick(&[1, 1, 1, 2, 3, draft.form.depth_limit() - 1]);
    [&draft.records[i].expression[..], &operands(random, draft, i, words)].concat()
}

fn operands(random: &mut Random, draft: &Draft, i: usize, count: usize) -> Vec<u8> {
    let symbols = draft.readable(i);
    let scope = Scope { form: draft.form, symbols: &symbols };
    (0..count).flat_map(|_| operand(random, scope)).collect()
}

/// The last operator lost, or a byte of the last operand.
fn without_last_byte(expression: &[u8]) -> Vec<u8> {
    expression[..expression.len().saturating_sub(1)].to_vec()
}

/// With any byte anywhere.
fn with_byte(random: &mut Random, expression: &[u8]) -> Vec<u8> {
    let place = random.below(expression.len() + 1);
    let mut expression = expression.to_vec();
    expression.insert(place, random.byte());
    expression
}

/// A symbol that record `i` may not read.
fn unreadable(random: &mut Random, draft: &Draft, i: usize) -> Vec<u8> {
    let symbol = match draft.form {
        Form::Table => random.pick(&[draft.inputs, draft.inputs, draft.inputs + 1, 255]).into(),
        Form::Trace | Form::OldTrace => unreadable_in_trace(random, draft, i),
    };
    draft.form.symbol(symbol)
}

/// One that was skipped, the statement's own, one assigned later, or one that is never assigned.
fn unreadable_in_trace(random: &mut Random, draft: &Draft, i: usize) -> u16 {
    let readable = draft.readable(i);
    let own = draft.records[i].trace_symbol();
    let least = own.unwrap_or(readable.last().map_or(0, |newest| newest.saturating_add(1)));
    let skipped: Vec<u16> = (draft.inputs.into()..least).filter(|symbol| !readable.contains(symbol)).collect();
    let later: Vec<u16> = draft.records[i + 1..].iter().filter_map(|record| record.trace_symbol()).collect();
    let never = [least.saturating_add(1), draft.symbol_end() - 1, draft.symbol_end(), 4160, 65535];
    let wrong = [&skipped[..], own.as_slice(), &later, &never].into_iter().filter(|symbols| !symbols.is_empty());
    let symbols = random.pick(&wrong.collect::<Vec<&[u16]>>());
    random.pick(symbols)
}
