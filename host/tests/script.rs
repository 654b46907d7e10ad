//! Writing a script: docs/SCRIPT.md's cases, and the archive against the model on generated ones.

use std::ops::Range;
use std::str;

use host::archive::ARCHIVE;
use host::case::{Case, ScriptCase};
use host::cases::scripting as cases;
use host::checks;
use host::hex;
use host::hold::{hold, hold_features, hold_known};
use host::model::{self, ScriptAnswer};
use host::parts::Parts;
use host::written::{fit, whole_within, Written, SCRIPT_ROOM};

const ASSIGN: u8 = 1;
const ASSUME: u8 = 2;
const ASSERT: u8 = 3;
const BOUND: u8 = 4;

/// The replies that generated cases have to reach.
const REPLIES: [u32; 8] = [1, 2, 3, 4, 5, 6, 7, 10];

/// What generated cases have to show, so many of 100,000.
const DUE: [(&str, u64); 28] = [
    ("reply 0", 10_000),
    ("reply 10, no room", 200),
    ("reply 10, a byte too little room", 200),
    ("reply 0, the exact room", 200),
    ("reply 0, a byte more room", 200),
    ("reply 0, much more room", 200),
    ("reply 0, version 130", 10_000),
    ("reply 0, version 129", 5_000),
    ("reply 0, no Assert", 2_000),
    ("reply 0, a test behind the last Assert", 2_000),
    ("reply 0, a bound before an Assert", 2_000),
    ("reply 0, an Assume before an Assert", 5_000),
    ("reply 0, a symbol left out", 2_000),
    ("reply 0, a symbol of one digit", 10_000),
    ("reply 0, a symbol of two digits", 5_000),
    ("reply 0, a symbol of three digits", 1_000),
    ("reply 0, a symbol of four digits", 1_000),
    ("reply 0, slot 9", 5_000),
    ("reply 0, slot 10", 5_000),
    ("reply 0, slot 16", 2_000),
    ("reply 0, slot 10 bound anew by one word", 2_000),
    ("reply 0, slot 10 bound anew by two words", 2_000),
    ("reply 0, slot 10 bound anew by three words", 2_000),
    ("reply 0, urem", 5_000),
    ("reply 0, 1,000 tests or more", 20),
    ("reply 0, 10,000 letters or more", 5_000),
    ("reply 0, 100,000 letters or more", 1_000),
    ("reply 0, 1,000,000 letters or more", 20),
];

#[test]
fn the_documents_example_holds_in_the_model() {
    hold_known(ScriptCase::model, cases::documented());
}

#[test]
fn the_documents_example_holds_in_the_archive() {
    hold_known(ScriptCase::archive, cases::documented());
}

#[test]
fn the_documents_example_is_the_script_of_the_small_rules_slice() {
    let table = hex::bytes(include_str!("../../rules/small.hex")).expect("a rule's bytes");
    let slice = ARCHIVE.whole_slice(&ARCHIVE.whole_trace(&table, 0));
    let script = String::from_utf8(ARCHIVE.whole_script(&slice)).expect("a text");
    assert_eq!(script, cases::example());
    assert!(script.starts_with("(set-logic QF_BV)\n(declare-const s0 (_ BitVec 32))\n"), "{script}");
    assert!(script.ends_with("\nfalse)))\n(check-sat)\n"), "{script}");
}

#[test]
fn the_sentences_on_words_hold_in_the_model() {
    hold_known(ScriptCase::model, cases::words());
}

#[test]
fn the_sentences_on_words_hold_in_the_archive() {
    hold_known(ScriptCase::archive, cases::words());
}

#[test]
fn the_sentences_on_slots_hold_in_the_model() {
    hold_known(ScriptCase::model, cases::slots());
}

#[test]
fn the_sentences_on_slots_hold_in_the_archive() {
    hold_known(ScriptCase::archive, cases::slots());
}

#[test]
fn the_sentences_on_scripts_hold_in_the_model() {
    hold_known(ScriptCase::model, cases::scripts());
}

#[test]
fn the_sentences_on_scripts_hold_in_the_archive() {
    hold_known(ScriptCase::archive, cases::scripts());
}

#[test]
fn the_limits_hold_in_the_model() {
    hold_known(ScriptCase::model, cases::limits());
}

#[test]
fn the_limits_hold_in_the_archive() {
    hold_known(ScriptCase::archive, cases::limits());
}

#[test]
fn the_sentences_on_room_hold_in_the_model() {
    hold_known(ScriptCase::model, cases::rooms());
}

#[test]
fn the_sentences_on_room_hold_in_the_archive() {
    hold_known(ScriptCase::archive, cases::rooms());
}

#[test]
fn the_model_refuses_the_traces_that_judging_refuses() {
    hold_known(ScriptCase::model, cases::refusals());
}

#[test]
fn the_archive_refuses_the_traces_that_judging_refuses() {
    hold_known(ScriptCase::archive, cases::refusals());
}

#[test]
fn the_generated_cases_reach_every_reply_every_kind_of_room_and_every_slot() {
    hold_features(&checks::SCRIPT, features, &REPLIES, &DUE);
}

#[test]
fn the_archive_gives_the_models_answer_and_letters_on_every_case() {
    hold(&checks::SCRIPT);
}

/// What a case shows, in the words of `DUE`.
fn features(case: &ScriptCase, written: Written<ScriptAnswer>) -> Vec<String> {
    let reply = format!("reply {}", written.answer.reply);
    let more = match written.answer.reply {
        0 => scripted_features(case, &written.outs[0][..written.answer.length as usize]),
        10 => vec![fit(case.room, whole_within(SCRIPT_ROOM, |out| model::script(&case.trace, out).length).len())],
        _ => vec![],
    };
    more.into_iter().map(|feature| format!("{reply}, {feature}")).collect()
}

fn scripted_features(case: &ScriptCase, script: &[u8]) -> Vec<&'static str> {
    let script = str::from_utf8(script).expect("a text");
    let statements = Parts::of(&case.trace).expect("a whole header").records;
    let kinds: Vec<u8> = statements.iter().map(|statement| statement[0]).collect();
    let last_assert = kinds.iter().rposition(|kind| *kind == ASSERT);
    let (before, behind) = kinds.split_at(last_assert.unwrap_or(0));
    let tests = script.lines().filter(|line| line.starts_with("(or ") || line.starts_with("(and ")).count();
    let shown = [
        (true, fit(case.room, script.len())),
        (true, if case.trace[0] == 130 { "version 130" } else { "version 129" }),
        (last_assert.is_none() && !kinds.is_empty(), "no Assert"),
        (last_assert.is_some() && behind[1..].iter().any(|kind| *kind != ASSIGN), "a test behind the last Assert"),
        (before.contains(&BOUND), "a bound before an Assert"),
        (before.contains(&ASSUME), "an Assume before an Assert"),
        (script.contains("((x9 "), "slot 9"),
        (script.contains("((x10 "), "slot 10"),
        (script.contains("((x16 "), "slot 16"),
        (script.contains("((x10 (bvnot x10)"), "slot 10 bound anew by one word"),
        (script.contains("((x10 (bvadd x10 x11)"), "slot 10 bound anew by two words"),
        (script.contains("((x10 (ite (distinct x10 #x00000000) x11 x12)"), "slot 10 bound anew by three words"),
        (script.contains("(bvurem "), "urem"),
        (tests >= 1_000, "1,000 tests or more"),
        (script.len() >= 10_000, "10,000 letters or more"),
        (script.len() >= 100_000, "100,000 letters or more"),
        (script.len() >= 1_000_000, "1,000,000 letters or more"),
    ];
    shown_of(shown).chain(symbol_features(&assigned(&statements))).collect()
}

fn symbol_features(symbols: &[u16]) -> impl Iterator<Item = &'static str> {
    let has = |wanted: Range<u16>| symbols.iter().any(|symbol| wanted.contains(symbol));
    shown_of([
        (symbols.windows(2).any(|pair| pair[0] + 1 < pair[1]), "a symbol left out"),
        (has(0..10), "a symbol of one digit"),
        (has(10..100), "a symbol of two digits"),
        (has(100..1000), "a symbol of three digits"),
        (has(1000..u16::MAX), "a symbol of four digits"),
    ])
}

fn shown_of<const N: usize>(features: [(bool, &'static str); N]) -> impl Iterator<Item = &'static str> {
    features.into_iter().filter(|(is_shown, _)| *is_shown).map(|(_, feature)| feature)
}

/// The symbols that statements assign.
fn assigned(statements: &[Vec<u8>]) -> Vec<u16> {
    let assigns = statements.iter().filter(|statement| statement[0] == ASSIGN);
    assigns.map(|statement| u16::from_be_bytes([statement[3], statement[4]])).collect()
}
