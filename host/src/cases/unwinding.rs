//! Writing a trace: document 01's marked cases, limits, sentences and refusals, with request 2026-01's version and bounds.

use super::{ones, running, traces, Known, CONSTANT_0, CONSTANT_1};
use crate::case::TraceCase;
use crate::encoding;
use crate::listing::trace;
use crate::model::TraceAnswer;
use crate::written::Written;

type KnownTrace = Known<TraceCase>;

const NEG: u8 = 0x11;
/// The room behind a trace, or where there is none.
const SPARE_ROOM: usize = 100;

pub fn all() -> Vec<KnownTrace> {
    [marked(), limits(), unwindings(), rooms(), refusals()].into_iter().flatten().collect()
}

/// The marked cases that concern writing a trace.
pub fn marked() -> Vec<KnownTrace> {
    vec![
        written("m5: K=0", &running::SMALL_RULE, 0, &traces::SMALL_RULE_0),
        written("m5: K=1", &running::SMALL_RULE, 1, &traces::SMALL_RULE_1),
        written("m11: no instructions", &[1, 0, 6, 0, 0, 0], 0, &traces::NO_INSTRUCTIONS),
    ]
}

/// The limits that document 01 names without a mark, and those of traces.
pub fn limits() -> Vec<KnownTrace> {
    let thousand = running::thousand_asserts();
    let padded = |length| encoding::table(0, &[padded_assert(length)]);
    let last_symbol = encoding::table(64, &[[1, 63, 2, 63]]);
    let deep = encoding::table(0, &[[&[3], &ones(16)[..]].concat(), [&[4, 0, 2], &ones(16)[..]].concat()]);
    vec![
        written("1,024 Asserts, K=0", &thousand, 0, &thousand_asserts(0)),
        written("1,024 Asserts, K=1", &thousand, 1, &thousand_asserts(1)),
        refused("1,024 Asserts, K=2", &thousand, 2, (9, 0)),
        refused("1,024 Asserts, K=255", &thousand, 255, (9, 0)),
        refused("K=256", &running::SMALL_RULE, 256, (8, 0)),
        refused("K=2^32", &running::SMALL_RULE, 1 << 32, (8, 0)),
        refused("K=2^64-1", &running::SMALL_RULE, u64::MAX, (8, 0)),
        written("K=0, 65,535 bytes", &padded(65_472), 0, &padded_trace(0, 65_472)),
        refused("K=0, 65,536 bytes", &padded(65_473), 0, (9, 0)),
        written("K=1, 65,534 bytes", &padded(32_713), 1, &padded_trace(1, 32_713)),
        refused("K=1, 65,536 bytes", &padded(32_714), 1, (9, 0)),
        refused("65,535 bytes of table, which are more in the trace", &padded(65_526), 0, (9, 0)),
        written(
            "S=64: control comes behind the inputs",
            &last_symbol,
            0,
            &trace(
                64,
                &["65535 assign s64 0", "0 assign s65 s64 0 ule s63 s63 ite", "1 assign s66 s64 1 ule 2 s64 ite"],
            ),
        ),
        written("16 words of depth", &deep, 0, &deep_trace()),
    ]
}

/// The trace of 1,024 Asserts of symbol 0.
pub fn thousand_asserts(bound: u32) -> Vec<u8> {
    trace(1, &assert_lines(1024, bound))
}

/// The trace of so many Asserts of symbol 0, in which only exits move control.
pub fn assert_lines(count: u32, bound: u32) -> Vec<String> {
    let period = count + 1;
    let end = (bound + 1) * period;
    let mut lines = vec!["65535 assign s1 0".into()];
    for place in 0..end {
        let control = 1 + place / period;
        lines.push(if place % period < count {
            format!("{place} assert s{control} {place} ule s0 1 ite")
        } else {
            format!("{place} assign s{} s{control} {place} ule {end} s{control} ite", control + 1)
        });
    }
    lines
}

/// An Assert of so many bytes of expression: 0, negated again and again.
pub fn padded_assert(length: usize) -> Vec<u8> {
    [&[3], &CONSTANT_0[..], &vec![NEG; length - 5]].concat()
}

fn padded_trace(bound: u32, length: usize) -> Vec<u8> {
    let negated = " neg".repeat(length - 5);
    let end = (bound + 1) * 2;
    let mut lines = vec!["65535 assign s0 0".into()];
    for control in 0..=bound {
        let [place, exit] = [2 * control, 2 * control + 1];
        lines.push(format!("{place} assert s{control} {place} ule 0{negated} 1 ite"));
        lines.push(format!("{exit} assign s{} s{control} {exit} ule {end} s{control} ite", control + 1));
    }
    trace(0, &lines)
}

fn deep_trace() -> Vec<u8> {
    let ones = [vec!["1"; 16], vec!["and"; 15]].concat().join(" ");
    let lines = [
        "65535 assign s0 0".into(),
        format!("0 assert s0 0 ule {ones} 1 ite"),
        format!("1 assign s1 s0 1 ule {ones} 2 s0 ite s0 ite"),
        "2 assign s2 s1 2 ule 3 s1 ite".into(),
    ];
    trace(0, &lines)
}

/// Sentences on the trace under a bound.
pub fn unwindings() -> Vec<KnownTrace> {
    let jump = |target| [&[4, 0, target], &CONSTANT_1[..]].concat();
    let assume = [&[2], &CONSTANT_1[..]].concat();
    let to_itself = encoding::table(0, &[jump(0)]);
    let to_the_end = encoding::table(0, &[jump(1)]);
    let forward = encoding::table(0, &[jump(2), assume]);
    let assigns: [&[u8]; 4] = [&[1, 1, 2, 0], &[1, 0, 2, 0, 0x11], &[1, 0, 2, 0, 2, 1, 0x20], &[3, 2, 0, 2, 1, 0x2B]];
    vec![
        written(
            "a jump to itself is a back jump, cut off in copy K",
            &to_itself,
            0,
            &trace(0, &["65535 assign s0 0", "0 bound s0 0 ule 1 zero 1 ite", "1 assign s1 s0 1 ule 2 s0 ite"]),
        ),
        written(
            "a back jump goes to the next copy",
            &to_itself,
            1,
            &trace(
                0,
                &[
                    "65535 assign s0 0",
                    "0 assign s1 s0 0 ule 1 2 s0 ite s0 ite",
                    "1 assign s2 s1 1 ule 4 s1 ite",
                    "2 bound s2 2 ule 1 zero 1 ite",
                    "3 assign s3 s2 3 ule 4 s2 ite",
                ],
            ),
        ),
        written(
            "target n is the copy's exit",
            &to_the_end,
            0,
            &trace(
                0,
                &["65535 assign s0 0", "0 assign s1 s0 0 ule 1 1 s0 ite s0 ite", "1 assign s2 s1 1 ule 2 s1 ite"],
            ),
        ),
        written(
            "a forward jump stays in its copy, the last too",
            &forward,
            1,
            &trace(
                0,
                &[
                    "65535 assign s0 0",
                    "0 assign s1 s0 0 ule 1 2 s0 ite s0 ite",
                    "1 assume s1 1 ule 1 1 ite",
                    "2 assign s2 s1 2 ule 6 s1 ite",
                    "3 assign s3 s2 3 ule 1 5 s2 ite s2 ite",
                    "4 assume s3 4 ule 1 1 ite",
                    "5 assign s4 s3 5 ule 6 s3 ite",
                ],
            ),
        ),
        written(
            "expressions are in current symbols, an Assign's own in the old one",
            &encoding::table(2, &assigns),
            0,
            &trace(
                2,
                &[
                    "65535 assign s2 0",
                    "0 assign s3 s2 0 ule s0 s1 ite",
                    "1 assign s4 s2 1 ule s0 neg s0 ite",
                    "2 assign s5 s2 2 ule s4 s3 add s4 ite",
                    "3 assert s2 3 ule s5 s3 ult 1 ite",
                    "4 assign s6 s2 4 ule 5 s2 ite",
                ],
            ),
        ),
        written(
            "no instructions in two copies",
            &[1, 0, 6, 0, 0, 0],
            1,
            &trace(0, &["65535 assign s0 0", "0 assign s1 s0 0 ule 2 s0 ite", "1 assign s2 s1 1 ule 2 s1 ite"]),
        ),
    ]
}

/// Sentences on room, and on what is refused before it.
pub fn rooms() -> Vec<KnownTrace> {
    let rule = &running::SMALL_RULE;
    let thousand = &running::thousand_asserts();
    let too_little = |name, room| refused_with(name, rule, 0, room, (10, 0));
    let enough = |name, room| written_into(name, rule, 0, room, &traces::SMALL_RULE_0);
    vec![
        too_little("no room", 0),
        too_little("a byte of room", 1),
        too_little("room for all but a byte", 155),
        enough("the exact room", 156),
        enough("a byte more room", 157),
        enough("more room than a trace can take", 100_000),
        refused_with("7 before 8, 9 and 10", &[1, 0, 9, 1, 0, 1, 0, 1, 3], 256, 0, (7, 9)),
        refused_with("8 before 9 and 10", thousand, 256, 0, (8, 0)),
        refused_with("9 before 10", thousand, 2, 0, (9, 0)),
        refused_with("10 alone", thousand, 1, 47_171, (10, 0)),
        written_into("10 no more", thousand, 1, 47_172, &thousand_asserts(1)),
    ]
}

/// What running refuses for its table or its bound, writing the trace refuses too.
pub fn refusals() -> Vec<KnownTrace> {
    let runs =
        [running::refusals(), running::unknown_kinds(), running::unknown_tokens(), running::broken_expressions()];
    let of_table = runs.into_iter().flatten().filter(|known| (1..=8).contains(&known.answer.reply));
    of_table
        .map(|Known { name, case, answer }| refused(&name, &case.table, case.bound, (answer.reply, answer.offset)))
        .collect()
}

fn written(name: &str, table: &[u8], bound: u64, trace: &[u8]) -> KnownTrace {
    written_into(name, table, bound, trace.len() + SPARE_ROOM, trace)
}

fn written_into(name: &str, table: &[u8], bound: u64, room: usize, trace: &[u8]) -> KnownTrace {
    let answer = TraceAnswer { length: trace.len() as u32, ..TraceAnswer::default() };
    known(name, table, bound, room, Written::known(answer, trace, room))
}

fn refused(name: &str, table: &[u8], bound: u64, refusal: (u32, u32)) -> KnownTrace {
    refused_with(name, table, bound, SPARE_ROOM, refusal)
}

fn refused_with(name: &str, table: &[u8], bound: u64, room: usize, (reply, offset): (u32, u32)) -> KnownTrace {
    let answer = TraceAnswer { reply, offset, ..TraceAnswer::default() };
    known(name, table, bound, room, Written::known(answer, &[], room))
}

fn known(name: &str, table: &[u8], bound: u64, room: usize, answer: Written<TraceAnswer>) -> KnownTrace {
    let case = TraceCase { table: table.to_vec(), bound, room };
    Known { name: name.into(), case, answer }
}
