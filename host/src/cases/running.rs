//! Running a table: document 01's marked cases, limits, sentences and refusals, with request 2026-01's verdicts and
//! request 2026-08's offsets.

use super::{breaking, contrary, marked_operators, ones, Known};
use crate::case::RunCase;
use crate::encoding;
use crate::model::RunAnswer;
use crate::verdict::{CUT, ENDED, STOPPED, UNSAFE};

type KnownRun = Known<RunCase>;

/// Document 01, "A small rule, worked".
pub const SMALL_RULE: [u8; 44] = [
    0x01, 0x00, 0x2C, 0x01, 0x00, 0x04, // S = 1, n = 4
    0x00, 0x06, 0x04, 0x00, 0x03, 0x02, 0x00, 0x12, // (0) if x is zero go to 3
    0x00, 0x0A, 0x01, 0x00, 0x02, 0x00, 0x01, 0x00, 0x00, 0x00, 0x01, 0x21, // (1) x becomes x - 1
    0x00, 0x08, 0x04, 0x00, 0x00, 0x01, 0x00, 0x00, 0x00, 0x01, // (2) if 1 go to 0
    0x00, 0x06, 0x03, 0x01, 0x00, 0x00, 0x00, 0x00, // (3) assert 0
];

const ASSERT_1: [u8; 6] = [3, 1, 0, 0, 0, 1];
const ASSERT_0: [u8; 6] = [3, 1, 0, 0, 0, 0];
const ASSUME_0: [u8; 6] = [2, 1, 0, 0, 0, 0];
const ASSERT_SYMBOL_0: [u8; 3] = [3, 2, 0];

/// Document 01, "Unmarked": S = 1 and 1,024 Asserts of symbol 0.
pub fn thousand_asserts() -> Vec<u8> {
    encoding::table(1, &[ASSERT_SYMBOL_0; 1024])
}

pub fn all() -> Vec<KnownRun> {
    [marked(), limits(), runs(), refusals(), unknown_kinds(), unknown_tokens(), broken_expressions()]
        .into_iter()
        .flatten()
        .collect()
}

/// The marked cases that concern running.
pub fn marked() -> Vec<KnownRun> {
    let mut known = vec![
        small_rule("m1: x=0, K=0", 0, 0, unsafe_at(3, 0)),
        small_rule("m2: x=1, K=0", 1, 0, cut(0)),
        small_rule("m3: x=1, K=1", 1, 1, unsafe_at(8, 1)),
        small_rule("m4: x=2, K=1", 2, 1, cut(1)),
        known("m11: no instructions", [1, 0, 6, 0, 0, 0], 0, [], ended(0)),
    ];
    known.extend(marked_operators().map(|(name, test)| operator(name, &test)));
    known
}

/// The limits that document 01 names without a mark.
pub fn limits() -> Vec<KnownRun> {
    let thousand = |name, x, answer| known(name, thousand_asserts(), 0, [0, 0, 0, x], answer);
    let one_too_many = encoding::table(1, &[ASSERT_SYMBOL_0; 1025]);
    let inputs = |count| encoding::table(count, &[ASSERT_1]);
    let deep = |depth| encoding::table(0, &[assert(&ones(depth))]);
    vec![
        thousand("1,024 instructions, x=1", 1, ended(0)),
        thousand("1,024 instructions, x=0", 0, unsafe_at(0, 0)),
        known("1,025 instructions", one_too_many, 0, [0; 4], refused(4, 0)),
        known("S=64", inputs(64), 0, [0; 4 * 64], ended(0)),
        known("S=65", inputs(65), 0, [0; 4 * 65], refused(4, 0)),
        small_rule("K=255, x=255", 255, 255, unsafe_at(255 * 5 + 3, 255)),
        small_rule("K=255, x=256", 256, 255, cut(255)),
        small_rule("K=256", 0, 256, refused(8, 0)),
        small_rule("K=2^32", 0, 1 << 32, refused(8, 0)),
        known("16 words of depth", deep(16), 0, [], ended(0)),
        known("17 words of depth", deep(17), 0, [], refused(7, 89)),
    ]
}

/// Sentences on running a table.
pub fn runs() -> Vec<KnownRun> {
    let jump = |target, condition| [4, 0, target, 1, 0, 0, 0, condition];
    // With x = 0: one back jump, then on to instruction 3.
    let once: [&[u8]; 3] = [&[4, 0, 3, 2, 0], &[1, 0, 1, 0, 0, 0, 1], &jump(0, 1)];
    let once_and = |last: &[&[u8]]| encoding::table(1, &[&once, last].concat());
    vec![
        run("the first false Assert counts", &[&ASSERT_1, &ASSERT_0, &ASSERT_0], 0, unsafe_at(1, 0)),
        run("a false Assume stops the run, at place 0", &[&ASSERT_1, &ASSUME_0, &ASSERT_0], 0, stopped(0)),
        known("an Assume stops the run after back jumps too", once_and(&[&ASSUME_0]), 1, [0; 4], stopped(1)),
        run("an Assume excuses no Assert before it", &[&ASSERT_0, &ASSUME_0], 0, unsafe_at(0, 0)),
        run("a jump to itself is a back jump", &[&jump(0, 1)], 2, cut(2)),
        run("a back jump past the bound cuts the run, at place 0", &[&ASSERT_1, &jump(1, 1), &ASSERT_0], 0, cut(0)),
        known("a bound that is used up does not", once_and(&[]), 1, [0; 4], ended(1)),
        known("nor does one with a back jump to spare", once_and(&[]), 2, [0; 4], ended(1)),
        run("the last instruction may cut the run", &[&ASSERT_1, &jump(0, 1)], 3, cut(3)),
        run("a false back jump goes on at the bound", &[&jump(0, 0), &ASSERT_0], 0, unsafe_at(1, 0)),
        run("a forward jump needs no bound", &[&jump(2, 1), &ASSERT_0, &ASSERT_0], 0, unsafe_at(2, 0)),
        run("target n ends the run", &[&jump(2, 1), &ASSERT_0], 0, ended(0)),
        run("any word but 0 is true", &[&jump(2, 255), &ASSERT_0], 0, ended(0)),
    ]
}

/// Sentences on the order and the offsets of refusals. Most records here have no expression, so that a 7 is due too.
pub fn refusals() -> Vec<KnownRun> {
    vec![
        read("no byte", &[], refused(1, 0)),
        read("5 bytes, version wrong", &[2, 0, 5, 0, 0], refused(1, 0)),
        read("version and length wrong", &[2, 0, 5, 0, 0, 0], refused(2, 0)),
        read("length and S wrong", &[1, 0, 7, 65, 0, 0], refused(3, 0)),
        read("S wrong, record missing", &[1, 0, 6, 65, 0, 1], refused(4, 0)),
        read("record due at the very end", &[1, 0, 6, 0, 0, 1], refused(5, 6)),
        read("half a record length", &[1, 0, 7, 0, 0, 1, 0], refused(5, 6)),
        read("record length 0", &[1, 0, 8, 0, 0, 1, 0, 0], refused(5, 6)),
        read("record passing the end", &[1, 0, 9, 0, 0, 1, 0, 2, 3], refused(5, 6)),
        read("unknown kind 0", &[1, 0, 9, 0, 0, 1, 0, 1, 0], refused(5, 6)),
        read("unknown kind 5", &[1, 0, 9, 0, 0, 1, 0, 1, 5], refused(5, 6)),
        read("Assign without its symbol", &[1, 0, 9, 1, 0, 1, 0, 1, 1], refused(5, 6)),
        read("half a target", &[1, 0, 10, 0, 0, 1, 0, 2, 4, 0], refused(5, 6)),
        read("spare byte", &[1, 0, 7, 0, 0, 0, 0], refused(5, 6)),
        read("6 before 7: symbol S", &[1, 0, 10, 1, 0, 1, 0, 2, 1, 1], refused(6, 6)),
        read("6 before 7: target n + 1", &[1, 0, 11, 0, 0, 1, 0, 3, 4, 0, 2], refused(6, 6)),
        read("7 alone: symbol S - 1", &[1, 0, 10, 1, 0, 1, 0, 2, 1, 0], refused(7, 10)),
        read("7 alone: target n", &[1, 0, 11, 0, 0, 1, 0, 3, 4, 0, 1], refused(7, 11)),
        read("7 before a later 5", &[1, 0, 12, 0, 0, 2, 0, 1, 3, 0, 1, 9], refused(7, 9)),
        read("7 before spare bytes", &[1, 0, 10, 0, 0, 1, 0, 1, 3, 0], refused(7, 9)),
        read("7 in the second record", &[1, 0, 15, 1, 0, 2, 0, 4, 3, 2, 0, 16, 0, 1, 3], refused(7, 15)),
        read("a trace's symbol", &[1, 0, 12, 1, 0, 1, 0, 4, 3, 3, 0, 0], refused(7, 9)),
        known("7 before 8 and 11", [1, 0, 9, 1, 0, 1, 0, 1, 3], 256, [], refused(7, 9)),
        known("8 before 11", SMALL_RULE, 256, [], refused(8, 0)),
        known("no valuation", SMALL_RULE, 0, [], refused(11, 0)),
        known("S bytes of valuation", SMALL_RULE, 0, [0; 1], refused(11, 0)),
        known("a byte too many of valuation", SMALL_RULE, 0, [0; 5], refused(11, 0)),
        known("a word too many of valuation", SMALL_RULE, 0, [0; 8], refused(11, 0)),
    ]
}

/// Kinds that no table has.
pub fn unknown_kinds() -> Vec<KnownRun> {
    super::unknown_kinds(1..=4).map(|(name, record)| run(&name, &[&record], 0, refused(5, 6))).collect()
}

/// Tokens that no table has.
pub fn unknown_tokens() -> Vec<KnownRun> {
    let tokens = super::unknown_tokens(0x02);
    tokens.map(|(name, test, at)| run(&name, &[&assert(&test)], 0, refused(7, 9 + at))).collect()
}

/// Expressions that break their rules, at the first token that does or at their end.
pub fn broken_expressions() -> Vec<KnownRun> {
    breaking::tables().iter().map(|(name, table, at)| read(name, table, refused(7, *at))).collect()
}

fn small_rule(name: &str, x: u32, bound: u64, answer: RunAnswer) -> KnownRun {
    known(name, SMALL_RULE, bound, x.to_be_bytes(), answer)
}

/// Asserts a test, then its contrary: only the second may fail.
fn operator(name: &str, test: &[u8]) -> KnownRun {
    run(name, &[&assert(test), &assert(&contrary(test))], 0, unsafe_at(1, 0))
}

fn assert(test: &[u8]) -> Vec<u8> {
    [&[3], test].concat()
}

fn run(name: &str, records: &[&[u8]], bound: u64, answer: RunAnswer) -> KnownRun {
    known(name, encoding::table(0, records), bound, [], answer)
}

fn read(name: &str, table: &[u8], answer: RunAnswer) -> KnownRun {
    known(name, table, 0, [], answer)
}

fn known(
    name: &str,
    table: impl Into<Vec<u8>>,
    bound: u64,
    valuation: impl Into<Vec<u8>>,
    answer: RunAnswer,
) -> KnownRun {
    let case = RunCase { table: table.into(), bound, valuation: valuation.into() };
    Known { name: name.into(), case, answer }
}

fn ended(back_jumps: u32) -> RunAnswer {
    RunAnswer { verdict: ENDED, back_jumps, ..RunAnswer::default() }
}

fn stopped(back_jumps: u32) -> RunAnswer {
    RunAnswer { verdict: STOPPED, back_jumps, ..RunAnswer::default() }
}

fn cut(back_jumps: u32) -> RunAnswer {
    RunAnswer { verdict: CUT, back_jumps, ..RunAnswer::default() }
}

fn unsafe_at(place: u32, back_jumps: u32) -> RunAnswer {
    RunAnswer { verdict: UNSAFE, place, back_jumps, ..RunAnswer::default() }
}

fn refused(reply: u32, offset: u32) -> RunAnswer {
    RunAnswer { reply, offset, ..RunAnswer::default() }
}
