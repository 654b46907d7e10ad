//! Slicing a trace: document 01's cases, the archive against the model on generated ones, and what slices are for.

use host::case::{Case, JudgeCase, SliceCase};
use host::cases::{slicing as cases, traces};
use host::checks;
use host::hold::{hold, hold_features, hold_known};
use host::model::{self, JudgeAnswer, SliceAnswer};
use host::parts::{has_opening, Parts};
use host::verdict;
use host::written::{fit, whole, Written};

const ASSIGN: u8 = 1;
const ASSUME: u8 = 2;
const ASSERT: u8 = 3;
const BOUND: u8 = 4;

/// The replies that generated cases have to reach.
const REPLIES: [u32; 8] = [1, 2, 3, 4, 5, 6, 7, 10];

/// What generated cases have to show, so many of 100,000.
const DUE: [(&str, u64); 30] = [
    ("reply 0", 10_000),
    ("reply 10, no room", 200),
    ("reply 10, a byte too little room", 200),
    ("reply 0, the exact room", 200),
    ("reply 0, a byte more room", 200),
    ("reply 0, much more room", 200),
    ("reply 0, of a table", 10_000),
    ("reply 0, of no table", 10_000),
    ("reply 0, version 130", 10_000),
    ("reply 0, version 129", 5_000),
    ("reply 5, kind 4 under version 129", 200),
    ("reply 0, a bound kept", 2_000),
    ("reply 0, a bound dropped", 2_000),
    ("reply 0, of a table, a bound kept", 1_000),
    ("reply 0, of a table, a bound dropped", 1_000),
    ("reply 0, all kept", 200),
    ("reply 0, nothing kept", 200),
    ("reply 0, an Assign kept", 10_000),
    ("reply 0, an Assign dropped before an Assert", 5_000),
    ("reply 0, an Assign dropped behind the last Assert", 5_000),
    ("reply 0, an Assume kept", 5_000),
    ("reply 0, an Assume dropped", 5_000),
    ("reply 0, no input read", 200),
    ("reply 0, some inputs read", 200),
    ("reply 0, all of two inputs or more read", 200),
    ("reply 0, input 63 read", 200),
    ("reply 0, symbol S + 4,095 kept", 200),
    ("reply 0, 1,000 statements or more", 200),
    ("reply 0, 4,000 statements or more", 20),
    ("reply 0, 65,000 bytes or more", 50),
];

/// What judged traces have to show, so many of 100,000.
const JUDGED_DUE: [(&str, u64); 26] = [
    ("version 130, of a table, ended", 1_000),
    ("version 130, of a table, unsafe", 1_000),
    ("version 130, of a table, stopped", 200),
    ("version 130, of a table, cut", 1_000),
    ("version 129, of a table, ended", 1_000),
    ("version 129, of a table, unsafe", 1_000),
    ("version 129, of a table, stopped", 1_000),
    ("version 130, of no table, ended", 1_000),
    ("version 130, of no table, unsafe", 1_000),
    ("version 130, of no table, stopped", 1_000),
    ("version 130, of no table, cut", 1_000),
    ("version 129, of no table, ended", 1_000),
    ("version 129, of no table, unsafe", 1_000),
    ("version 129, of no table, stopped", 1_000),
    ("of a table, cut, its slice ended", 200),
    ("of a table, stopped, its slice ended", 200),
    ("of no table, cut, its slice ended", 200),
    ("of no table, stopped, its slice ended", 200),
    ("of a table, cut, its slice cut", 200),
    ("of no table, cut, its slice cut", 200),
    ("of a table, some inputs not read", 2_000),
    ("of no table, some inputs not read", 2_000),
    ("of a table, unsafe, some inputs not read", 200),
    ("of no table, unsafe, some inputs not read", 200),
    ("of a table, another verdict for other inputs not read", 20),
    ("of no table, another verdict for other inputs not read", 20),
];

#[test]
fn the_marked_cases_hold_in_the_model() {
    hold_known(SliceCase::model, cases::marked());
}

#[test]
fn the_marked_cases_hold_in_the_archive() {
    hold_known(SliceCase::archive, cases::marked());
}

#[test]
fn the_limits_hold_in_the_model() {
    hold_known(SliceCase::model, cases::limits());
}

#[test]
fn the_limits_hold_in_the_archive() {
    hold_known(SliceCase::archive, cases::limits());
}

#[test]
fn the_sentences_on_slices_hold_in_the_model() {
    hold_known(SliceCase::model, cases::slices());
}

#[test]
fn the_sentences_on_slices_hold_in_the_archive() {
    hold_known(SliceCase::archive, cases::slices());
}

#[test]
fn the_sentences_on_room_hold_in_the_model() {
    hold_known(SliceCase::model, cases::rooms());
}

#[test]
fn the_sentences_on_room_hold_in_the_archive() {
    hold_known(SliceCase::archive, cases::rooms());
}

#[test]
fn the_model_refuses_the_traces_that_judging_refuses() {
    hold_known(SliceCase::model, cases::refusals());
}

#[test]
fn the_archive_refuses_the_traces_that_judging_refuses() {
    hold_known(SliceCase::archive, cases::refusals());
}

#[test]
fn the_small_rules_slice_has_102_bytes_and_reads_its_input() {
    let slice = SliceAnswer { length: 102, inputs: 1, mask: 1, ..SliceAnswer::default() };
    let case = SliceCase { trace: traces::SMALL_RULE_0.to_vec(), room: 102 };
    assert_eq!(cases::small_rule_0().len(), 102);
    assert_eq!(case.model().answer, slice, "the model's");
    assert_eq!(case.archive().answer, slice, "the archive's");
}

#[test]
fn the_generated_cases_reach_every_reply_every_kind_of_room_and_what_is_kept() {
    hold_features(&checks::SLICE, features, &REPLIES, &DUE);
}

#[test]
fn the_archive_gives_the_models_answer_and_bytes_on_every_case() {
    hold(&checks::SLICE);
}

#[test]
fn the_generated_judgements_reach_every_verdict_slices_that_end_and_inputs_that_slices_do_not_read() {
    hold_features(&checks::SLICE_JUDGED, judged_features, &[], &JUDGED_DUE);
}

#[test]
fn a_slice_is_unsafe_where_its_trace_is_or_not_at_all() {
    hold(&checks::SLICE_JUDGED);
}

#[test]
fn inputs_that_a_slice_does_not_read_change_neither_unsafe_or_not_nor_the_place() {
    hold(&checks::SLICE_UNREAD);
}

#[test]
fn slicing_a_slice_changes_nothing() {
    hold(&checks::SLICE_TWICE);
}

/// What a case shows, in the words of `DUE`.
fn features(case: &SliceCase, written: Written<SliceAnswer>) -> Vec<String> {
    let reply = format!("reply {}", written.answer.reply);
    let more = match written.answer.reply {
        0 => sliced_features(case, written.answer),
        10 => vec![fit(case.room, model_slice(&case.trace).len())],
        5 if is_bound_in_129(&case.trace, written.answer.offset) => vec!["kind 4 under version 129"],
        _ => vec![],
    };
    more.into_iter().map(|feature| format!("{reply}, {feature}")).collect()
}

fn is_bound_in_129(trace: &[u8], offset: u32) -> bool {
    trace[0] == 129 && trace.get(offset as usize + 2) == Some(&BOUND)
}

fn sliced_features(case: &SliceCase, answer: SliceAnswer) -> Vec<&'static str> {
    let inputs = u32::from(case.trace[3]);
    let kept = statements(&model_slice(&case.trace));
    let statements = statements(&case.trace);
    let last_assert = statements.iter().rposition(|statement| statement[0] == ASSERT).unwrap_or(0);
    let (before, behind) = statements.split_at(last_assert);
    let is_of_table = origin(&case.trace) == "of a table";
    let shown = [
        (true, fit(case.room, answer.length as usize)),
        (true, origin(&case.trace)),
        (true, if case.trace[0] == 130 { "version 130" } else { "version 129" }),
        (kept.len() == statements.len() && !kept.is_empty(), "all kept"),
        (kept.is_empty() && !statements.is_empty(), "nothing kept"),
        (count(&kept, ASSIGN) > 0, "an Assign kept"),
        (count(&kept, ASSIGN) < count(before, ASSIGN), "an Assign dropped before an Assert"),
        (last_assert > 0 && count(behind, ASSIGN) > 0, "an Assign dropped behind the last Assert"),
        (count(&kept, ASSUME) > 0, "an Assume kept"),
        (count(&kept, ASSUME) < count(&statements, ASSUME), "an Assume dropped"),
        (count(&kept, BOUND) > 0, "a bound kept"),
        (count(&kept, BOUND) < count(&statements, BOUND), "a bound dropped"),
        (is_of_table && count(&kept, BOUND) > 0, "of a table, a bound kept"),
        (is_of_table && count(&kept, BOUND) < count(&statements, BOUND), "of a table, a bound dropped"),
        (answer.inputs == 0, "no input read"),
        (0 < answer.inputs && answer.inputs < inputs, "some inputs read"),
        (answer.inputs >= 2 && answer.inputs == inputs, "all of two inputs or more read"),
        (answer.mask >> 63 == 1, "input 63 read"),
        (assigns(&kept, inputs as u16 + 4095), "symbol S + 4,095 kept"),
        (statements.len() >= 1_000, "1,000 statements or more"),
        (statements.len() >= 4_000, "4,000 statements or more"),
        (case.trace.len() >= 65_000, "65,000 bytes or more"),
    ];
    shown.into_iter().filter(|(is_shown, _)| *is_shown).map(|(_, feature)| feature).collect()
}

/// Whether the trace begins as the trace of a table.
fn origin(trace: &[u8]) -> &'static str {
    if has_opening(trace) {
        return "of a table";
    }
    "of no table"
}

fn count(statements: &[Vec<u8>], kind: u8) -> usize {
    statements.iter().filter(|statement| statement[0] == kind).count()
}

fn assigns(statements: &[Vec<u8>], symbol: u16) -> bool {
    statements.iter().any(|statement| statement[0] == ASSIGN && statement[3..5] == symbol.to_be_bytes())
}

fn statements(trace: &[u8]) -> Vec<Vec<u8>> {
    Parts::of(trace).expect("a whole header").records
}

/// Empty where there is none.
fn model_slice(trace: &[u8]) -> Vec<u8> {
    whole(|out| model::slice(trace, out).length)
}

/// What a judged trace shows, in the words of `JUDGED_DUE`.
fn judged_features(case: &JudgeCase, answer: JudgeAnswer) -> Vec<String> {
    if answer.reply != 0 {
        return vec![format!("reply {}", answer.reply)];
    }
    let judged = |trace: &[u8], valuation: &[u8]| verdict::name(model::judge(trace, valuation).verdict);
    let verdict = verdict::name(answer.verdict);
    let of_slice = judged(&model_slice(&case.trace), &case.valuation);
    let slice = model::slice(&case.trace, &mut vec![0; case.trace.len()]);
    let origin = origin(&case.trace);
    let is_all_read = slice.inputs == case.trace[3].into();
    let is_other =
        [0, 1, 0xFF].iter().any(|byte| judged(&case.trace, &with_unread(case, slice.mask, *byte)) != verdict);
    let shown = [
        (true, format!("version {}, {origin}, {verdict}", case.trace[0])),
        (true, format!("{origin}, {verdict}, its slice {of_slice}")),
        (!is_all_read, format!("{origin}, some inputs not read")),
        (!is_all_read, format!("{origin}, {verdict}, some inputs not read")),
        (is_other, format!("{origin}, another verdict for other inputs not read")),
    ];
    shown.into_iter().filter(|(is_shown, _)| *is_shown).map(|(_, feature)| feature).collect()
}

/// The valuation with another last byte for inputs outside the mask.
fn with_unread(case: &JudgeCase, mask: u64, byte: u8) -> Vec<u8> {
    let mut valuation = case.valuation.clone();
    for (s, word) in valuation.chunks_exact_mut(4).enumerate().filter(|(s, _)| mask >> s & 1 == 0) {
        word.fill(if s % 2 == 0 { byte } else { 0 });
    }
    valuation
}
