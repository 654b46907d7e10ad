//! Judging a trace: document 01's marked cases, limits, sentences and refusals, in both versions; request 2026-01's
//! verdicts and request 2026-08's offsets.

use super::{breaking, contrary, marked_operators, ones, traces, Known, CONSTANT_0, CONSTANT_1};
use crate::case::JudgeCase;
use crate::encoding::{self, Form};
use crate::model::JudgeAnswer;
use crate::parts::as_old_trace;
use crate::statement::{assert, assign, assume, bound, read};
use crate::verdict::{CUT, ENDED, STOPPED, UNSAFE};

type KnownJudgement = Known<JudgeCase>;

const NOT: u8 = 0x10;
const NEG: u8 = 0x11;

pub fn all() -> Vec<KnownJudgement> {
    let refused = [refusals(), unknown_kinds(), unknown_tokens(), broken_expressions()];
    [marked(), limits(), judgements(), bounds()].into_iter().chain(refused).flatten().collect()
}

/// The marked cases that concern judging.
pub fn marked() -> Vec<KnownJudgement> {
    let mut known = vec![
        under_x("m1: x=0, K=0", traces::SMALL_RULE_0, 0, unsafe_at(3)),
        under_x("m2: x=1, K=0", traces::SMALL_RULE_0, 1, cut()),
        under_x("m3: x=1, K=1", traces::SMALL_RULE_1, 1, unsafe_at(8)),
        under_x("m4: x=2, K=1", traces::SMALL_RULE_1, 2, cut()),
        known("m11: no instructions", traces::NO_INSTRUCTIONS, [], ended()),
        under_x("m12: 5", traces::EXAMPLE, 5, ended()),
        under_x("m12: 10", traces::EXAMPLE, 10, unsafe_at(1)),
    ];
    known.extend(marked_operators().map(|(name, test)| operator(name, &test)));
    in_both_versions(known)
}

/// Cases of version 130, then the same of version 129, in which a bound is an Assume, so that a cut shows as stopped.
fn in_both_versions(known: Vec<KnownJudgement>) -> Vec<KnownJudgement> {
    let old = known.iter().filter(|known| known.case.trace.first() == Some(&Form::Trace.version())).map(in_old_version);
    let old: Vec<KnownJudgement> = old.collect();
    known.into_iter().chain(old).collect()
}

fn in_old_version(Known { name, case, answer }: &KnownJudgement) -> KnownJudgement {
    let verdict = if answer.verdict == CUT { STOPPED } else { answer.verdict };
    let case = JudgeCase { trace: as_old_trace(&case.trace), valuation: case.valuation.clone() };
    Known { name: format!("{name}, version 129"), case, answer: JudgeAnswer { verdict, ..*answer } }
}

/// The limits of traces, and what lies just outside.
pub fn limits() -> Vec<KnownJudgement> {
    let asserts = |count| encoding::trace(0, &vec![assert(1, &CONSTANT_1); count]);
    let inputs = |count| encoding::trace(count, &[assert(1, &CONSTANT_1)]);
    let deep = |depth| encoding::trace(0, &[assert(1, &ones(depth))]);
    let last_symbol = encoding::trace(64, &[assign(1, 4159, &CONSTANT_1), assert(2, &read(63))]);
    let assigned =
        |inputs, symbol| encoding::trace(inputs, &[assign(1, symbol, &CONSTANT_1), assert(2, &read(symbol))]);
    in_both_versions(vec![
        known("4,096 statements", asserts(4096), [], ended()),
        known("4,097 statements", asserts(4097), [], refused(4, 0)),
        under_x("4,095 symbols, x=0", turned_4095_times(), 0, ended()),
        under_x("4,095 symbols, x=2^32-1", turned_4095_times(), u32::MAX, unsafe_at(1)),
        known("65,535 bytes", negated_to(65_535), [], unsafe_at(1)),
        known("65,536 bytes", negated_to(65_536), [], refused(3, 0)),
        known("S=64", inputs(64), [0; 4 * 64], ended()),
        known("S=65", inputs(65), [0; 4 * 65], refused(4, 0)),
        known("17 words of depth", deep(17), [], ended()),
        known("18 words of depth", deep(18), [], refused(7, 96)),
        known("S=0, symbol 4,095", assigned(0, 4095), [], ended()),
        known("S=0, symbol 4,096", assigned(0, 4096), [], refused(6, 6)),
        known("S=64, symbol 63", assigned(64, 63), [0; 4 * 64], refused(6, 6)),
        known("S=64, symbol 64", assigned(64, 64), [0; 4 * 64], ended()),
        known("S=64, symbol 4,159", assigned(64, 4159), [0; 4 * 64], ended()),
        known("S=64, symbol 4,160", assigned(64, 4160), [0; 4 * 64], refused(6, 6)),
        known("S=64, symbol 4,159 leaves the inputs alone", last_symbol, [0; 4 * 64], unsafe_at(2)),
    ])
}

/// Each symbol is the one before with every bit turned; the last is asserted.
pub fn turned_4095_times() -> Vec<u8> {
    let turned = |symbol| [&read(symbol)[..], &[NOT]].concat();
    let mut statements: Vec<Vec<u8>> = (1..=4095).map(|symbol| assign(0, symbol, &turned(symbol - 1))).collect();
    statements.push(assert(1, &read(4095)));
    encoding::trace(1, &statements)
}

/// A trace of so many bytes that asserts 0, negated again and again.
pub fn negated_to(length: usize) -> Vec<u8> {
    let mut condition = CONSTANT_0.to_vec();
    let rest = length - encoding::trace(0, &[assert(1, &condition)]).len();
    condition.extend(vec![NEG; rest]);
    encoding::trace(0, &[assert(1, &condition)])
}

/// Sentences on judging a trace.
pub fn judgements() -> Vec<KnownJudgement> {
    let [holds, fails] = [&CONSTANT_1, &CONSTANT_0];
    let second_first = encoding::trace(2, &[assert(1, &read(1)), assert(2, &read(0))]);
    in_both_versions(vec![
        judge("no statement", &[], ended()),
        judge("an ended judging has place 0", &[assert(9, holds)], ended()),
        judge("the first false Assert counts", &[assert(1, holds), assert(2, fails), assert(3, fails)], unsafe_at(2)),
        judge("a false Assume stops the judging, at place 0", &[assume(1, fails), assert(2, fails)], stopped()),
        judge("the last statement may stop it", &[assert(1, holds), assume(2, fails)], stopped()),
        judge("a true Assume does not", &[assume(1, holds), assert(2, fails)], unsafe_at(2)),
        judge("an Assume excuses no Assert before it", &[assert(1, fails), assume(2, fails)], unsafe_at(1)),
        judge("any word but 0 is true", &[assume(1, &[1, 0, 0, 1, 0]), assert(2, &[1, 128, 0, 0, 0])], ended()),
        judge("place 0 can be unsafe", &[assert(0, fails)], unsafe_at(0)),
        judge("place 65535 can be unsafe", &[assert(65535, fails)], unsafe_at(65535)),
        judge("places may repeat and fall", &[assert(9, holds), assert(9, holds), assert(3, fails)], unsafe_at(3)),
        judge("symbols may be skipped", &[assign(1, 7, holds), assert(2, &read(7))], ended()),
        judge("an assigned 0 is false", &[assign(1, 7, fails), assert(2, &read(7))], unsafe_at(2)),
        judge("a symbol keeps its word", &[assign(1, 0, holds), assign(2, 1, fails), assert(3, &read(0))], ended()),
        known("inputs stand in order", second_first, [0, 0, 0, 0, 0, 0, 0, 1], unsafe_at(2)),
        known("words are big-endian", traces::EXAMPLE, [1, 0, 0, 0], unsafe_at(1)),
    ])
}

/// Request 2026-01's sentences on bounds: in version 130 they cut, and version 129 has none.
pub fn bounds() -> Vec<KnownJudgement> {
    let [holds, fails] = [&CONSTANT_1, &CONSTANT_0];
    let of_130 = vec![
        judge("a false bound cuts the judging, at place 0", &[bound(1, fails), assert(2, fails)], cut()),
        judge("the last statement may cut it", &[assert(1, holds), bound(2, fails)], cut()),
        judge("a true bound does not", &[bound(1, holds), assert(2, fails)], unsafe_at(2)),
        judge("a bound excuses no Assert before it", &[assert(1, fails), bound(2, fails)], unsafe_at(1)),
        judge("a bound before an Assume cuts", &[bound(1, fails), assume(2, fails)], cut()),
        judge("a bound behind an Assume does not", &[assume(1, fails), bound(2, fails)], stopped()),
        judge("any word but 0 is true for a bound", &[bound(1, &[1, 0, 0, 1, 0])], ended()),
        judge("a bound's place is not checked", &[bound(65535, holds), bound(0, holds)], ended()),
        judge("a bound may read what was assigned", &[assign(1, 7, fails), bound(2, &read(7))], cut()),
    ];
    let mut known = in_both_versions(of_130);
    known.extend([
        old("a bound", &[bound(1, holds)], refused(5, 6)),
        old("a bound without an expression: 5 before 7", &[bound(1, &[])], refused(5, 6)),
        old("a bound behind a false Assert", &[assert(1, fails), bound(2, holds)], refused(5, 16)),
        old("a bound behind a 7", &[assert(1, &[]), bound(2, holds)], refused(7, 11)),
        under_x("the small rule's trace called version 129", as_called_129(&traces::SMALL_RULE_0), 0, refused(5, 80)),
    ]);
    known
}

/// A trace of version 130 with nothing but its version byte changed.
fn as_called_129(trace: &[u8]) -> Vec<u8> {
    [&[Form::OldTrace.version()], &trace[1..]].concat()
}

/// Sentences on the order and the offsets of refusals. Most records here have no expression, so that a 7 is due too.
pub fn refusals() -> Vec<KnownJudgement> {
    let fails = &CONSTANT_0;
    in_both_versions(vec![
        bytes("no byte", &[], refused(1, 0)),
        bytes("5 bytes, version wrong", &[1, 0, 5, 0, 0], refused(1, 0)),
        bytes("a table's version, length wrong", &[1, 0, 5, 0, 0, 0], refused(2, 0)),
        bytes("version 128", &[128, 0, 6, 0, 0, 0], refused(2, 0)),
        bytes("version 131", &[131, 0, 6, 0, 0, 0], refused(2, 0)),
        bytes("length and S wrong", &[130, 0, 7, 65, 0, 0], refused(3, 0)),
        bytes("S wrong, record missing", &[130, 0, 6, 65, 0, 1], refused(4, 0)),
        bytes("record due at the very end", &[130, 0, 6, 0, 0, 1], refused(5, 6)),
        bytes("half a record length", &[130, 0, 7, 0, 0, 1, 0], refused(5, 6)),
        bytes("record passing the end", &[130, 0, 11, 0, 0, 1, 0, 4, 3, 0, 0], refused(5, 6)),
        bytes("spare byte", &[130, 0, 7, 0, 0, 0, 0], refused(5, 6)),
        judge("record length 0", &[vec![]], refused(5, 6)),
        judge("unknown kind 0", &[vec![0, 0, 0]], refused(5, 6)),
        judge("unknown kind 5", &[vec![5, 0, 0]], refused(5, 6)),
        judge("Assume without its place", &[vec![2]], refused(5, 6)),
        judge("half a place", &[vec![3, 0]], refused(5, 6)),
        judge("a bound without its place", &[vec![4]], refused(5, 6)),
        judge("half a place of a bound", &[vec![4, 0]], refused(5, 6)),
        judge("7 alone: a bound", &[vec![4, 0, 0]], refused(7, 11)),
        judge("Assign without its symbol", &[vec![1, 0, 0]], refused(5, 6)),
        judge("half a symbol", &[vec![1, 0, 0, 0]], refused(5, 6)),
        judge("6 before 7: symbol S + 4,096", &[assign(1, 4096, &[])], refused(6, 6)),
        judge("7 alone: symbol S + 4,095", &[assign(1, 4095, &[])], refused(7, 13)),
        under_x("6 before 7: symbol S - 1", encoding::trace(1, &[assign(1, 0, &[])]), 0, refused(6, 6)),
        under_x("7 alone: symbol S", encoding::trace(1, &[assign(1, 1, &[])]), 0, refused(7, 13)),
        judge("6 before 7: a symbol again", &[assign(1, 5, fails), assign(2, 5, &[])], refused(6, 18)),
        judge("6 before 7: a symbol below", &[assign(1, 5, fails), assign(2, 4, &[])], refused(6, 18)),
        judge("7 alone: a symbol above", &[assign(1, 5, fails), assign(2, 6, &[])], refused(7, 25)),
        judge("reading its own symbol", &[assign(1, 5, &read(5))], refused(7, 13)),
        judge("reading a skipped symbol", &[assign(1, 5, fails), assume(2, &read(4))], refused(7, 23)),
        judge("reading a later symbol", &[assume(1, &read(5)), assign(2, 5, fails)], refused(7, 11)),
        under_x("reading symbol S", encoding::trace(1, &[assume(1, &read(1))]), 0, refused(7, 11)),
        judge("reading symbol S + 4,096", &[assume(1, &read(4096))], refused(7, 11)),
        judge("reading symbol 65535", &[assume(1, &read(65535))], refused(7, 11)),
        under_x("a table's symbol", encoding::trace(1, &[assume(1, &[2, 0])]), 0, refused(7, 11)),
        judge("7 before a later 5", &[assume(1, &[]), vec![9]], refused(7, 11)),
        judge("7 before a later 6", &[assume(1, &[]), assign(2, 4096, &[])], refused(7, 11)),
        bytes("7 before spare bytes", &[130, 0, 12, 0, 0, 1, 0, 3, 3, 0, 0, 0], refused(7, 11)),
        judge("5 behind a false Assert", &[assert(1, fails), vec![9]], refused(5, 16)),
        judge("6 behind a false Assert", &[assert(1, fails), assign(2, 4096, fails)], refused(6, 16)),
        judge("7 behind a false Assert", &[assert(1, fails), assume(2, &[])], refused(7, 21)),
        judge("7 behind a false Assume", &[assume(1, fails), assume(2, &[])], refused(7, 21)),
        bytes(
            "spare byte behind a false Assert",
            &[130, 0, 17, 0, 0, 1, 0, 8, 3, 0, 1, 1, 0, 0, 0, 0, 0],
            refused(5, 16),
        ),
        known("7 before 11", encoding::trace(1, &[assume(1, &[])]), [], refused(7, 11)),
        known("11 before a false Assert", encoding::trace(0, &[assert(1, fails)]), [0], refused(11, 0)),
        known("no valuation", traces::EXAMPLE, [], refused(11, 0)),
        known("S bytes of valuation", traces::EXAMPLE, [0; 1], refused(11, 0)),
        known("a byte too many of valuation", traces::EXAMPLE, [0; 5], refused(11, 0)),
        known("a word too many of valuation", traces::EXAMPLE, [0; 8], refused(11, 0)),
    ])
}

/// Kinds that no trace of its version has.
pub fn unknown_kinds() -> Vec<KnownJudgement> {
    let of_130 = super::unknown_kinds(1..=4).map(|(name, record)| judge(&name, &[record], refused(5, 6)));
    let of_129 = super::unknown_kinds(1..=3).map(|(name, record)| old(&name, &[record], refused(5, 6)));
    of_130.chain(of_129).collect()
}

/// Tokens that no trace has.
pub fn unknown_tokens() -> Vec<KnownJudgement> {
    let tokens = super::unknown_tokens(0x03);
    in_both_versions(tokens.map(|(name, test, at)| judge(&name, &[assert(1, &test)], refused(7, 11 + at))).collect())
}

/// Expressions that break their rules, at the first token that does or at their end.
pub fn broken_expressions() -> Vec<KnownJudgement> {
    let traces = breaking::traces();
    in_both_versions(traces.iter().map(|(name, trace, at)| bytes(name, trace, refused(7, *at))).collect())
}

/// The traces that are refused, whoever reads them, each with its reply and offset.
pub fn refused_traces() -> impl Iterator<Item = (String, Vec<u8>, (u32, u32))> {
    let known = [refusals(), bounds(), unknown_kinds(), unknown_tokens(), broken_expressions()].into_iter().flatten();
    let of_trace = known.filter(|known| (1..=7).contains(&known.answer.reply));
    of_trace.map(|Known { name, case, answer }| (name, case.trace, (answer.reply, answer.offset)))
}

/// Asserts a test, then its contrary: only the second may fail.
fn operator(name: &str, test: &[u8]) -> KnownJudgement {
    judge(name, &[assert(1, test), assert(2, &contrary(test))], unsafe_at(2))
}

fn judge(name: &str, statements: &[Vec<u8>], answer: JudgeAnswer) -> KnownJudgement {
    bytes(name, &encoding::trace(0, statements), answer)
}

/// Of version 129.
fn old(name: &str, statements: &[Vec<u8>], answer: JudgeAnswer) -> KnownJudgement {
    let trace = encoding::file(Form::OldTrace.version(), 0, statements);
    known(&format!("{name}, version 129"), trace, [], answer)
}

fn bytes(name: &str, trace: &[u8], answer: JudgeAnswer) -> KnownJudgement {
    known(name, trace, [], answer)
}

fn under_x(name: &str, trace: impl Into<Vec<u8>>, x: u32, answer: JudgeAnswer) -> KnownJudgement {
    known(name, trace, x.to_be_bytes(), answer)
}

fn known(name: &str, trace: impl Into<Vec<u8>>, valuation: impl Into<Vec<u8>>, answer: JudgeAnswer) -> KnownJudgement {
    let case = JudgeCase { trace: trace.into(), valuation: valuation.into() };
    Known { name: name.into(), case, answer }
}

fn ended() -> JudgeAnswer {
    JudgeAnswer { verdict: ENDED, ..JudgeAnswer::default() }
}

fn stopped() -> JudgeAnswer {
    JudgeAnswer { verdict: STOPPED, ..JudgeAnswer::default() }
}

fn cut() -> JudgeAnswer {
    JudgeAnswer { verdict: CUT, ..JudgeAnswer::default() }
}

fn unsafe_at(place: u32) -> JudgeAnswer {
    JudgeAnswer { verdict: UNSAFE, place, ..JudgeAnswer::default() }
}

fn refused(reply: u32, offset: u32) -> JudgeAnswer {
    JudgeAnswer { reply, offset, ..JudgeAnswer::default() }
}
