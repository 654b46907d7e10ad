//! Running a table: document 01's cases, and the archive against the model on generated ones.

use host::broken::{self, shown};
use host::case::{Case, RunCase};
use host::cases::running as cases;
use host::checks;
use host::hold::{hold, hold_features, hold_known, hold_ways};
use host::model::{self, RunAnswer};
use host::parts::without_self_jumps;
use host::verdict;

/// The replies that generated cases have to reach.
const REPLIES: [u32; 10] = [0, 1, 2, 3, 4, 5, 6, 7, 8, 11];

/// What generated cases have to show, so many of 100,000.
const DUE: [(&str, u64); 34] = [
    ("ended", 200),
    ("ended, back jumps: 1", 200),
    ("ended, back jumps: 2 to 9", 200),
    ("ended, back jumps: 10 to 100", 50),
    ("ended, back jumps: 101 to 254", 50),
    ("ended, back jumps: 255", 50),
    ("ended, a bound above 0 used up", 200),
    ("ended, back jumps taken and to spare", 200),
    ("stopped", 200),
    ("stopped, back jumps: 1", 50),
    ("stopped, back jumps: 2 to 9", 50),
    ("stopped, back jumps: 101 to 254", 50),
    ("stopped, back jumps: 255", 50),
    ("stopped, a bound above 0 used up", 50),
    ("cut", 200),
    ("cut, back jumps: none", 200),
    ("cut, back jumps: 1", 200),
    ("cut, back jumps: 2 to 9", 200),
    ("cut, back jumps: 101 to 254", 200),
    ("cut, back jumps: 255", 200),
    ("unsafe", 200),
    ("unsafe, back jumps: 1", 200),
    ("unsafe, back jumps: 2 to 9", 200),
    ("unsafe, back jumps: 101 to 254", 200),
    ("unsafe, back jumps: 255", 200),
    ("unsafe, a bound above 0 used up", 200),
    ("unsafe, instruction 1,000 or later", 200),
    ("unsafe, place above 65,535", 200),
    ("a jump to itself decides the verdict", 200),
    ("a jump to itself decides the back jumps", 200),
    ("input 63 decides the verdict", 200),
    ("accepted, 1,000 instructions or more", 200),
    ("accepted, 65,000 bytes or more", 10),
    ("accepted, one instruction or more", 45_000),
];

#[test]
fn the_marked_cases_hold_in_the_model() {
    hold_known(RunCase::model, cases::marked());
}

#[test]
fn the_marked_cases_hold_in_the_archive() {
    hold_known(RunCase::archive, cases::marked());
}

#[test]
fn the_limits_hold_in_the_model() {
    hold_known(RunCase::model, cases::limits());
}

#[test]
fn the_limits_hold_in_the_archive() {
    hold_known(RunCase::archive, cases::limits());
}

#[test]
fn the_sentences_on_running_hold_in_the_model() {
    hold_known(RunCase::model, cases::runs());
}

#[test]
fn the_sentences_on_running_hold_in_the_archive() {
    hold_known(RunCase::archive, cases::runs());
}

#[test]
fn the_sentences_on_refusals_hold_in_the_model() {
    hold_known(RunCase::model, cases::refusals());
}

#[test]
fn the_sentences_on_refusals_hold_in_the_archive() {
    hold_known(RunCase::archive, cases::refusals());
}

#[test]
fn every_unknown_kind_is_refused_5_by_the_model() {
    hold_known(RunCase::model, cases::unknown_kinds());
}

#[test]
fn every_unknown_kind_is_refused_5_by_the_archive() {
    hold_known(RunCase::archive, cases::unknown_kinds());
}

#[test]
fn every_unknown_token_is_refused_7_by_the_model() {
    hold_known(RunCase::model, cases::unknown_tokens());
}

#[test]
fn every_unknown_token_is_refused_7_by_the_archive() {
    hold_known(RunCase::archive, cases::unknown_tokens());
}

#[test]
fn the_model_points_at_the_first_token_against_the_rules_or_at_the_expressions_end() {
    hold_known(RunCase::model, cases::broken_expressions());
}

#[test]
fn the_archive_points_at_the_first_token_against_the_rules_or_at_the_expressions_end() {
    hold_known(RunCase::archive, cases::broken_expressions());
}

#[test]
fn a_table_of_1024_asserts_has_5126_bytes() {
    assert_eq!(cases::thousand_asserts().len(), 5126);
}

#[test]
fn the_generated_cases_reach_every_reply_every_verdict_and_later_copies() {
    hold_features(&checks::RUN, features, &REPLIES, &DUE);
}

#[test]
fn the_generated_cases_break_expressions_in_every_way_at_every_token_and_in_every_record() {
    let shown = |case: &RunCase, answer: RunAnswer| (answer.reply == 7).then(|| shown(&case.table, answer.offset));
    hold_ways(&checks::RUN, broken::in_tables(), shown);
}

#[test]
fn the_archive_gives_the_models_answer_on_every_case() {
    hold(&checks::RUN);
}

#[test]
fn an_unsafe_run_took_at_most_k_back_jumps_and_its_place_is_that_of_an_instruction_in_their_copy() {
    hold(&checks::WITHIN);
}

#[test]
fn a_run_that_is_not_cut_is_the_same_under_every_higher_bound() {
    hold(&checks::RAISED_RUNS);
}

#[test]
fn a_judged_trace_that_is_not_cut_is_the_same_under_every_higher_bound_and_so_is_its_slice() {
    hold(&checks::RAISED_TRACES);
}

/// What a case shows, in the words of `DUE`.
fn features(case: &RunCase, answer: RunAnswer) -> Vec<String> {
    if answer.reply != 0 {
        return vec![];
    }
    let verdict = verdict::name(answer.verdict);
    let instructions = instructions(case);
    let without_self_jumps = answer_without_self_jumps(case, answer);
    let shown = [
        (true, verdict.into()),
        (true, format!("{verdict}, back jumps: {}", range(answer.back_jumps))),
        (case.bound > 0 && case.bound == answer.back_jumps.into(), format!("{verdict}, a bound above 0 used up")),
        (is_to_spare(case, answer), format!("{verdict}, back jumps taken and to spare")),
        (failed_instruction(case, answer) >= 1_000, "unsafe, instruction 1,000 or later".into()),
        (answer.place > 65_535, "unsafe, place above 65,535".into()),
        (without_self_jumps.verdict != answer.verdict, "a jump to itself decides the verdict".into()),
        (without_self_jumps.back_jumps != answer.back_jumps, "a jump to itself decides the back jumps".into()),
        (is_decided_by_input_63(case, answer), "input 63 decides the verdict".into()),
        (instructions >= 1_000, "accepted, 1,000 instructions or more".into()),
        (case.table.len() >= 65_000, "accepted, 65,000 bytes or more".into()),
        (instructions > 0, "accepted, one instruction or more".into()),
    ];
    shown.into_iter().filter(|(is_shown, _)| *is_shown).map(|(_, feature)| feature).collect()
}

fn instructions(case: &RunCase) -> u32 {
    u16::from_be_bytes([case.table[4], case.table[5]]).into()
}

fn range(back_jumps: u32) -> &'static str {
    match back_jumps {
        0 => "none",
        1 => "1",
        2..=9 => "2 to 9",
        10..=100 => "10 to 100",
        101..=254 => "101 to 254",
        _ => "255",
    }
}

/// 0 unless the run is unsafe.
fn failed_instruction(case: &RunCase, answer: RunAnswer) -> u32 {
    answer.place.saturating_sub(answer.back_jumps * (instructions(case) + 1))
}

fn is_to_spare(case: &RunCase, answer: RunAnswer) -> bool {
    0 < answer.back_jumps && u64::from(answer.back_jumps) < case.bound
}

fn answer_without_self_jumps(case: &RunCase, answer: RunAnswer) -> RunAnswer {
    let table = without_self_jumps(&case.table);
    if table == case.table {
        return answer;
    }
    run_table(case, &table)
}

fn run_table(case: &RunCase, table: &[u8]) -> RunAnswer {
    model::run(table, case.bound, &case.valuation)
}

fn is_decided_by_input_63(case: &RunCase, answer: RunAnswer) -> bool {
    if case.valuation.len() != 4 * 64 {
        return false;
    }
    let (others, word) = case.valuation.split_at(4 * 63);
    let words = [[0; 4], [0, 0, 0, 1], [0xFF; 4], [word[0], word[1], word[2], !word[3]]];
    let verdict = |word: [u8; 4]| model::run(&case.table, case.bound, &[others, &word].concat()).verdict;
    words.into_iter().any(|word| verdict(word) != answer.verdict)
}
