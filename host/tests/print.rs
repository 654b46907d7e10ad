//! Printing a slice: document 01's cases, and the program against the model on generated ones and against the archive.

use std::collections::BTreeSet;

use host::case::{Case, PrintCase};
use host::cases::printing as cases;
use host::checks;
use host::hold::{hold, hold_features, hold_known};
use host::program::Printed;

/// The replies that generated cases have to reach. No byte K is refused 8.
const REPLIES: [u32; 8] = [1, 2, 3, 4, 5, 6, 7, 9];

/// What generated cases have to show, so many of 100,000.
const DUE: [(&str, u64); 29] = [
    ("printed", 10_000),
    ("printed, assign", 10_000),
    ("printed, assume", 10_000),
    ("printed, assert", 10_000),
    ("printed, bound", 10_000),
    ("printed, nothing kept", 1_000),
    ("printed, K: 0", 2_000),
    ("printed, K: 1 to 9", 2_000),
    ("printed, K: 10 to 255", 2_000),
    ("printed, 10,000 bytes or more", 2_000),
    ("printed, 100,000 bytes or more", 100),
    ("printed, not", 2_000),
    ("printed, neg", 2_000),
    ("printed, zero", 2_000),
    ("printed, add", 2_000),
    ("printed, sub", 2_000),
    ("printed, mul", 2_000),
    ("printed, udiv", 2_000),
    ("printed, urem", 2_000),
    ("printed, and", 2_000),
    ("printed, or", 2_000),
    ("printed, xor", 2_000),
    ("printed, shl", 2_000),
    ("printed, lshr", 2_000),
    ("printed, equal", 2_000),
    ("printed, ult", 2_000),
    ("printed, ule", 2_000),
    ("printed, slt", 2_000),
    ("printed, ite", 2_000),
];

/// A text has no more bytes than this, six for each of a trace's.
const TEXT_LIMIT: usize = 393_210;

#[test]
fn the_marked_cases_hold_in_the_model() {
    hold_known(PrintCase::model, cases::marked());
}

#[test]
fn the_marked_cases_hold_in_the_program() {
    hold_known(PrintCase::program, cases::marked());
}

#[test]
fn the_sentences_on_words_hold_in_the_model() {
    hold_known(PrintCase::model, cases::words());
}

#[test]
fn the_sentences_on_words_hold_in_the_program() {
    hold_known(PrintCase::program, cases::words());
}

#[test]
fn the_sentences_on_lines_hold_in_the_model() {
    hold_known(PrintCase::model, cases::lines());
}

#[test]
fn the_sentences_on_lines_hold_in_the_program() {
    hold_known(PrintCase::program, cases::lines());
}

#[test]
fn the_sentences_on_refusals_hold_in_the_model() {
    hold_known(PrintCase::model, cases::refusals());
}

#[test]
fn the_sentences_on_refusals_hold_in_the_program() {
    hold_known(PrintCase::program, cases::refusals());
}

#[test]
fn the_longest_tables_are_refused_by_the_model_as_others_are() {
    hold_known(PrintCase::model, cases::longest_tables());
}

#[test]
fn the_longest_tables_are_refused_by_the_program_as_others_are() {
    hold_known(PrintCase::program, cases::longest_tables());
}

#[test]
fn longer_tables_are_refused_2_or_3_by_the_model() {
    hold_known(PrintCase::model, cases::longer_tables());
}

#[test]
fn longer_tables_are_refused_2_or_3_by_the_program() {
    hold_known(PrintCase::program, cases::longer_tables());
}

#[test]
fn the_longest_text_known_is_327416_bytes_long() {
    let length = cases::longest().case.program().text.len();
    println!("{length} bytes of {TEXT_LIMIT}, {:.1} %", 100.0 * length as f64 / TEXT_LIMIT as f64);
    assert_eq!(length, 327_416);
}

#[test]
fn the_generated_cases_reach_every_refusal_that_can_be_every_kind_and_every_name() {
    hold_features(&checks::PRINT, features, &REPLIES, &DUE);
}

#[test]
fn the_program_prints_the_models_text_on_every_case() {
    hold(&checks::PRINT);
}

#[test]
fn what_the_program_prints_read_back_is_the_slice_that_the_archive_writes() {
    hold(&checks::PRINT_READ);
}

/// What a case shows, in the words of `DUE`.
fn features(case: &PrintCase, printed: Printed) -> Vec<String> {
    if PrintCase::reply(&printed) != 0 {
        return vec![];
    }
    let text = String::from_utf8(printed.text).expect("a text");
    let more = printed_features(case, &text).into_iter().map(|feature| format!("printed, {feature}")).collect();
    [vec!["printed".into()], more].concat()
}

fn printed_features(case: &PrintCase, text: &str) -> Vec<String> {
    let has_instructions = case.table[4..6] != [0, 0];
    let shown = [
        (text.lines().count() == 1 && has_instructions, "nothing kept"),
        (text.len() >= 10_000, "10,000 bytes or more"),
        (text.len() >= 100_000, "100,000 bytes or more"),
        (case.bound == Some(0), "K: 0"),
        (matches!(case.bound, Some(1..=9)), "K: 1 to 9"),
        (matches!(case.bound, Some(10..=255)), "K: 10 to 255"),
    ];
    let shown = shown.into_iter().filter(|(is_shown, _)| *is_shown).map(|(_, feature)| feature);
    shown.chain(names(text)).map(Into::into).collect()
}

/// The words of a text that are no numbers and no symbols, each once.
fn names(text: &str) -> BTreeSet<&str> {
    let is_name = |word: &&str| !word.ends_with(|end: char| end.is_ascii_digit());
    text.lines().skip(1).flat_map(|line| line.split(' ')).filter(is_name).collect()
}
