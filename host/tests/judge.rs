//! Judging a trace: document 01's cases, and the archive against the model on generated ones.

use host::broken::{self, shown};
use host::case::{Case, JudgeCase};
use host::cases::judging as cases;
use host::checks;
use host::encoding;
use host::hold::{hold, hold_features, hold_known, hold_ways};
use host::model::{self, JudgeAnswer};
use host::parts::Parts;
use host::verdict::{self, CUT, STOPPED, UNSAFE};

const ASSIGN: u8 = 1;
const ASSUME: u8 = 2;
const ASSERT: u8 = 3;
const BOUND: u8 = 4;

/// The replies that generated cases have to reach.
const REPLIES: [u32; 9] = [0, 1, 2, 3, 4, 5, 6, 7, 11];

/// What generated cases have to show, so many of 100,000.
const DUE: [(&str, u64); 25] = [
    ("reply 5, a false Assert before", 200),
    ("reply 6, a false Assert before", 200),
    ("reply 7, a false Assert before", 200),
    ("reply 5, kind 4 under version 129", 200),
    ("reply 5, kind 5 under version 130", 200),
    ("version 130, ended", 200),
    ("version 130, unsafe", 200),
    ("version 130, stopped", 200),
    ("version 130, cut", 200),
    ("version 129, ended", 200),
    ("version 129, unsafe", 200),
    ("version 129, stopped", 200),
    ("version 130, stopped, a false Assert behind", 200),
    ("version 130, stopped, a false bound behind", 200),
    ("version 130, cut, a false Assert behind", 200),
    ("version 130, cut, a false Assume behind", 200),
    ("version 130, unsafe, a false Assume behind", 200),
    ("version 130, unsafe, a false bound behind", 200),
    ("version 129, stopped, a false Assert behind", 200),
    ("version 129, unsafe, a false Assume behind", 200),
    ("version 130, ended, an Assume and a bound passed", 200),
    ("unsafe, place 65535", 200),
    ("accepted, symbol S + 4,095 assigned", 200),
    ("accepted, 4,000 statements or more", 20),
    ("accepted, 65,000 bytes or more", 10),
];

#[test]
fn the_marked_cases_hold_in_the_model() {
    hold_known(JudgeCase::model, cases::marked());
}

#[test]
fn the_marked_cases_hold_in_the_archive() {
    hold_known(JudgeCase::archive, cases::marked());
}

#[test]
fn the_limits_hold_in_the_model() {
    hold_known(JudgeCase::model, cases::limits());
}

#[test]
fn the_limits_hold_in_the_archive() {
    hold_known(JudgeCase::archive, cases::limits());
}

#[test]
fn the_sentences_on_judging_hold_in_the_model() {
    hold_known(JudgeCase::model, cases::judgements());
}

#[test]
fn the_sentences_on_judging_hold_in_the_archive() {
    hold_known(JudgeCase::archive, cases::judgements());
}

#[test]
fn the_sentences_on_bounds_hold_in_the_model() {
    hold_known(JudgeCase::model, cases::bounds());
}

#[test]
fn the_sentences_on_bounds_hold_in_the_archive() {
    hold_known(JudgeCase::archive, cases::bounds());
}

#[test]
fn the_sentences_on_refusals_hold_in_the_model() {
    hold_known(JudgeCase::model, cases::refusals());
}

#[test]
fn the_sentences_on_refusals_hold_in_the_archive() {
    hold_known(JudgeCase::archive, cases::refusals());
}

#[test]
fn every_unknown_kind_is_refused_5_by_the_model() {
    hold_known(JudgeCase::model, cases::unknown_kinds());
}

#[test]
fn every_unknown_kind_is_refused_5_by_the_archive() {
    hold_known(JudgeCase::archive, cases::unknown_kinds());
}

#[test]
fn every_unknown_token_is_refused_7_by_the_model() {
    hold_known(JudgeCase::model, cases::unknown_tokens());
}

#[test]
fn every_unknown_token_is_refused_7_by_the_archive() {
    hold_known(JudgeCase::archive, cases::unknown_tokens());
}

#[test]
fn the_model_points_at_the_first_token_against_the_rules_or_at_the_expressions_end() {
    hold_known(JudgeCase::model, cases::broken_expressions());
}

#[test]
fn the_archive_points_at_the_first_token_against_the_rules_or_at_the_expressions_end() {
    hold_known(JudgeCase::archive, cases::broken_expressions());
}

#[test]
fn the_generated_cases_reach_every_reply_every_verdict_of_each_version_and_what_they_hide() {
    hold_features(&checks::JUDGE, features, &REPLIES, &DUE);
}

#[test]
fn the_generated_cases_break_expressions_in_every_way_at_every_token_and_in_every_record() {
    let shown = |case: &JudgeCase, answer: JudgeAnswer| (answer.reply == 7).then(|| shown(&case.trace, answer.offset));
    hold_ways(&checks::JUDGE, broken::in_traces(), shown);
}

#[test]
fn the_archive_gives_the_models_answer_on_every_case() {
    hold(&checks::JUDGE);
}

#[test]
fn a_trace_of_version_129_is_judged_as_that_of_130_and_a_cut_shows_as_stopped() {
    hold(&checks::OLD_JUDGED);
}

/// What a case shows, in the words of `DUE`.
fn features(case: &JudgeCase, answer: JudgeAnswer) -> Vec<String> {
    match answer.reply {
        0 => accepted_features(case, answer),
        reply @ 5..=7 => refused_features(case, reply, answer.offset),
        _ => vec![],
    }
}

fn refused_features(case: &JudgeCase, reply: u32, offset: u32) -> Vec<String> {
    let version = case.trace[0];
    let kind = case.trace.get(offset as usize + 2);
    let kinds = [(129, BOUND), (130, BOUND + 1)];
    let of_kind =
        kinds.into_iter().find(|unknown| reply == 5 && Some(unknown) == kind.map(|kind| (version, *kind)).as_ref());
    let of_kind = of_kind.map(|(version, kind)| format!("reply 5, kind {kind} under version {version}"));
    let behind = is_unsafe_before(case, reply, offset).then(|| format!("reply {reply}, a false Assert before"));
    of_kind.into_iter().chain(behind).collect()
}

fn accepted_features(case: &JudgeCase, answer: JudgeAnswer) -> Vec<String> {
    let statements = statements(case);
    let last_symbol = u16::from(case.trace[3]) + 4095;
    let verdict = format!("version {}, {}", case.trace[0], verdict::name(answer.verdict));
    let passed = [ASSUME, BOUND].iter().all(|kind| statements.iter().any(|statement| statement[0] == *kind));
    let behind = |verdict, kind| answer.verdict == verdict && has_false(case, kind);
    let shown = [
        (true, verdict.clone()),
        (answer.verdict == verdict::ENDED && passed, format!("{verdict}, an Assume and a bound passed")),
        (behind(STOPPED, ASSERT) || behind(CUT, ASSERT), format!("{verdict}, a false Assert behind")),
        (behind(UNSAFE, ASSUME) || behind(CUT, ASSUME), format!("{verdict}, a false Assume behind")),
        (behind(UNSAFE, BOUND) || behind(STOPPED, BOUND), format!("{verdict}, a false bound behind")),
        (answer.place == 65535, "unsafe, place 65535".into()),
        (assigns(&statements, last_symbol), "accepted, symbol S + 4,095 assigned".into()),
        (statements.len() >= 4_000, "accepted, 4,000 statements or more".into()),
        (case.trace.len() >= 65_000, "accepted, 65,000 bytes or more".into()),
    ];
    shown.into_iter().filter(|(is_shown, _)| *is_shown).map(|(_, feature)| feature).collect()
}

fn assigns(statements: &[Vec<u8>], symbol: u16) -> bool {
    statements.iter().any(|statement| statement[0] == ASSIGN && statement[3..5] == symbol.to_be_bytes())
}

/// Whether a statement of the kind is false, in an accepted trace that nothing else ends.
fn has_false(case: &JudgeCase, kind: u8) -> bool {
    let mut statements = statements(case);
    statements.retain(|statement| [ASSIGN, kind].contains(&statement[0]));
    for statement in statements.iter_mut().filter(|statement| statement[0] == kind) {
        statement[0] = ASSERT;
    }
    is_unsafe(case, &statements)
}

/// Whether the statements before the refused one have a false Assert.
fn is_unsafe_before(case: &JudgeCase, reply: u32, offset: u32) -> bool {
    let parts = Parts::of(&case.trace).expect("a whole header");
    // 7 points into its statement, or at its end.
    let (number, _) = parts.record_at(offset as usize - usize::from(reply == 7));
    is_unsafe(case, &parts.records[..number])
}

fn statements(case: &JudgeCase) -> Vec<Vec<u8>> {
    Parts::of(&case.trace).expect("a whole header").records
}

fn is_unsafe(case: &JudgeCase, statements: &[Vec<u8>]) -> bool {
    model::judge(&encoding::file(case.trace[0], case.trace[3], statements), &case.valuation).verdict == UNSAFE
}
