//! Writing a trace: document 01's cases, the archive against the model on generated ones, and against its own running.

use host::archive::ARCHIVE;
use host::case::{Case, RunCase, TraceCase};
use host::cases::{running, unwinding as cases};
use host::checks;
use host::hold::{hold, hold_features, hold_known};
use host::model::{self, RunAnswer, TraceAnswer};
use host::verdict;
use host::written::{fit, whole, Written, LENGTH_LIMIT};

/// The replies that generated cases have to reach.
const REPLIES: [u32; 10] = [1, 2, 3, 4, 5, 6, 7, 8, 9, 10];

/// What generated cases have to show, so many of 100,000.
const DUE: [(&str, u64); 16] = [
    ("reply 0", 10_000),
    ("reply 9, over 4,096 statements", 200),
    ("reply 9, at most 4,096 statements", 200),
    ("reply 10, a byte too little room", 200),
    ("reply 10, no room", 200),
    ("reply 0, K: 0", 200),
    ("reply 0, K: 1 to 9", 200),
    ("reply 0, K: 10 to 99", 200),
    ("reply 0, K: 100 to 255", 200),
    ("reply 0, the exact room", 200),
    ("reply 0, a byte more room", 200),
    ("reply 0, much more room", 200),
    ("reply 0, 1,000 instructions or more", 10),
    ("reply 0, 1,000 statements or more", 200),
    ("reply 0, 65,000 bytes or more", 200),
    ("reply 0, 65,535 bytes", 20),
];

/// What runs have to show beside written traces, so many of 100,000.
const RUNS_DUE: [(&str, u64); 13] = [
    ("ended", 5_000),
    ("ended, back jumps taken", 1_000),
    ("ended, a bound above 0 used up", 200),
    ("stopped", 200),
    ("stopped, back jumps taken", 200),
    ("cut", 1_000),
    ("cut, back jumps taken", 1_000),
    ("cut, more than 100 back jumps taken", 20),
    ("unsafe", 5_000),
    ("unsafe, back jumps taken", 1_000),
    ("unsafe, more than 100 back jumps taken", 20),
    ("unsafe, place 1,000 or later", 20),
    ("a trace, refused 11", 1_000),
];

#[test]
fn the_marked_cases_hold_in_the_model() {
    hold_known(TraceCase::model, cases::marked());
}

#[test]
fn the_marked_cases_hold_in_the_archive() {
    hold_known(TraceCase::archive, cases::marked());
}

#[test]
fn the_limits_hold_in_the_model() {
    hold_known(TraceCase::model, cases::limits());
}

#[test]
fn the_limits_hold_in_the_archive() {
    hold_known(TraceCase::archive, cases::limits());
}

#[test]
fn the_sentences_on_traces_hold_in_the_model() {
    hold_known(TraceCase::model, cases::unwindings());
}

#[test]
fn the_sentences_on_traces_hold_in_the_archive() {
    hold_known(TraceCase::archive, cases::unwindings());
}

#[test]
fn the_sentences_on_room_hold_in_the_model() {
    hold_known(TraceCase::model, cases::rooms());
}

#[test]
fn the_sentences_on_room_hold_in_the_archive() {
    hold_known(TraceCase::archive, cases::rooms());
}

#[test]
fn the_model_refuses_the_tables_and_bounds_that_running_refuses() {
    hold_known(TraceCase::model, cases::refusals());
}

#[test]
fn the_archive_refuses_the_tables_and_bounds_that_running_refuses() {
    hold_known(TraceCase::archive, cases::refusals());
}

#[test]
fn the_small_rules_trace_has_6_statements_in_156_bytes_for_no_back_jump() {
    hold_size(&running::SMALL_RULE, 0, 6, 156);
}

#[test]
fn the_small_rules_trace_has_11_statements_in_302_bytes_for_one_back_jump() {
    hold_size(&running::SMALL_RULE, 1, 11, 302);
}

#[test]
fn the_small_rules_trace_has_1281_statements_in_37386_bytes_for_255_back_jumps() {
    hold_size(&running::SMALL_RULE, 255, 1281, 37_386);
}

#[test]
fn a_table_without_instructions_has_2_statements_in_43_bytes() {
    hold_size(&[1, 0, 6, 0, 0, 0], 0, 2, 43);
}

#[test]
fn a_table_of_1024_asserts_has_2051_statements_in_47172_bytes_for_one_back_jump() {
    hold_size(&running::thousand_asserts(), 1, 2051, 47_172);
}

#[test]
fn the_generated_cases_reach_every_reply_every_kind_of_room_and_both_limits() {
    hold_features(&checks::TRACE, features, &REPLIES, &DUE);
}

#[test]
fn the_archive_gives_the_models_answer_and_bytes_on_every_case() {
    hold(&checks::TRACE);
}

#[test]
fn the_generated_runs_with_a_trace_reach_every_verdict_and_later_copies() {
    hold_features(&checks::DEMAND_3, run_features, &[], &RUNS_DUE);
}

#[test]
fn running_a_table_and_judging_its_trace_give_one_verdict_and_place_and_the_slice_is_unsafe_with_them() {
    hold(&checks::DEMAND_3);
}

/// Empty where there is none.
fn model_trace(table: &[u8], bound: u64) -> Vec<u8> {
    whole(|out| model::trace(table, bound, out).length)
}

fn hold_size(table: &[u8], bound: u64, statements: u16, length: usize) {
    for (whose, trace) in [("model", model_trace(table, bound)), ("archive", ARCHIVE.whole_trace(table, bound))] {
        let size = (u16::from_be_bytes([trace[4], trace[5]]), trace.len());
        assert_eq!(size, (statements, length), "the {whose}'s trace");
    }
}

/// What a case shows, in the words of `DUE`.
fn features(case: &TraceCase, written: Written<TraceAnswer>) -> Vec<String> {
    let reply = format!("reply {}", written.answer.reply);
    let more = match written.answer.reply {
        0 => written_features(case, written.answer.length as usize),
        9 if statements(case) > 4096 => vec!["over 4,096 statements"],
        9 => vec!["at most 4,096 statements"],
        10 => vec![fit(case.room, model_trace(&case.table, case.bound).len())],
        _ => vec![],
    };
    more.into_iter().map(|feature| format!("{reply}, {feature}")).collect()
}

fn written_features(case: &TraceCase, length: usize) -> Vec<&'static str> {
    let shown = [
        (true, fit(case.room, length)),
        (true, range(case.bound)),
        (instructions(case) >= 1_000, "1,000 instructions or more"),
        (statements(case) >= 1_000, "1,000 statements or more"),
        (length >= 65_000, "65,000 bytes or more"),
        (length == LENGTH_LIMIT, "65,535 bytes"),
    ];
    shown.into_iter().filter(|(is_shown, _)| *is_shown).map(|(_, feature)| feature).collect()
}

fn instructions(case: &TraceCase) -> u64 {
    u16::from_be_bytes([case.table[4], case.table[5]]).into()
}

fn statements(case: &TraceCase) -> u64 {
    1 + (case.bound + 1) * (instructions(case) + 1)
}

fn range(bound: u64) -> &'static str {
    match bound {
        0 => "K: 0",
        1..=9 => "K: 1 to 9",
        10..=99 => "K: 10 to 99",
        _ => "K: 100 to 255",
    }
}

/// What a run beside a written trace shows, in the words of `RUNS_DUE`.
fn run_features(case: &RunCase, answer: RunAnswer) -> Vec<String> {
    let is_room_missing = model::trace(&case.table, case.bound, &mut []).reply == 10;
    if !is_room_missing {
        return vec!["no trace".into()];
    }
    if answer.reply != 0 {
        return vec![format!("a trace, refused {}", answer.reply)];
    }
    let verdict = verdict::name(answer.verdict);
    let shown = [
        (true, ""),
        (answer.back_jumps > 0, ", back jumps taken"),
        (answer.back_jumps > 100, ", more than 100 back jumps taken"),
        (answer.back_jumps > 0 && case.bound == answer.back_jumps.into(), ", a bound above 0 used up"),
        (answer.place >= 1_000, ", place 1,000 or later"),
    ];
    shown.into_iter().filter(|(is_shown, _)| *is_shown).map(|(_, feature)| format!("{verdict}{feature}")).collect()
}
