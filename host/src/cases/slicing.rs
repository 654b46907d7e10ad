//! Slicing a trace: document 01's marked cases, limits, sentences and refusals, in both versions of request 2026-01.

use super::{judging, printing, traces, unwinding, Known, CONSTANT_1};
use crate::case::SliceCase;
use crate::encoding;
use crate::listing;
use crate::model::SliceAnswer;
use crate::parts::as_old_trace;
use crate::statement::{assert, assign, assume, bound, read};
use crate::written::Written;

type KnownSlice = Known<SliceCase>;

/// The room behind a slice, or where there is none.
const SPARE_ROOM: usize = 100;

pub fn all() -> Vec<KnownSlice> {
    [marked(), limits(), slices(), rooms(), refusals()].into_iter().flatten().collect()
}

/// The marked cases that concern slicing.
pub fn marked() -> Vec<KnownSlice> {
    let known = vec![
        sliced("m5: the small rule, K=0", &traces::SMALL_RULE_0, &small_rule_0(), 1),
        sliced("m11: no instructions", &traces::NO_INSTRUCTIONS, &encoding::trace::<&[u8]>(0, &[]), 0),
        sliced("m12: 000's example", &traces::EXAMPLE, &traces::EXAMPLE, 1),
    ];
    in_both_versions(known)
}

/// Cases of version 130, then the same of version 129, in which a bound is an Assume: a slice has its trace's version.
fn in_both_versions(known: Vec<KnownSlice>) -> Vec<KnownSlice> {
    let old: Vec<KnownSlice> = known.iter().map(in_old_version).collect();
    known.into_iter().chain(old).collect()
}

fn in_old_version(Known { name, case, answer }: &KnownSlice) -> KnownSlice {
    let slice = as_old_trace(&answer.outs[0][..answer.answer.length as usize]);
    let case = SliceCase { trace: as_old_trace(&case.trace), room: case.room };
    Known { name: format!("{name}, version 129"), answer: Written::known(answer.answer, &slice, case.room), case }
}

pub fn small_rule_0() -> Vec<u8> {
    let lines: Vec<&str> = printing::SMALL_RULE_0.lines().skip(1).collect();
    listing::trace(1, &lines)
}

/// The limits of traces, and of the words that a set of symbols is kept in.
pub fn limits() -> Vec<KnownSlice> {
    [limits_of_traces(), limits_of_words()].into_iter().flatten().collect()
}

/// Of 63 inputs: each of the symbols is assigned, and one is needed, whose Assign alone is kept.
fn limits_of_words() -> Vec<KnownSlice> {
    const SYMBOLS: [u16; 7] = [63, 64, 65, 127, 128, 191, 4158];
    let needed = |symbol: u16| {
        let keep = |other: u16| if other == symbol { "keep" } else { "drop" };
        let assigns = SYMBOLS.map(|other| format!("{} {other} assign s{other} s62", keep(other)));
        let lines: Vec<String> = assigns.into_iter().chain([format!("keep 1 assert s{symbol}")]).collect();
        let lines: Vec<&str> = lines.iter().map(String::as_str).collect();
        slice(&format!("of {SYMBOLS:?} only {symbol} is needed"), 63, 1 << 62, &lines)
    };
    let mut known = Vec::from(SYMBOLS.map(needed));
    known.push(slice(
        "S=64, input 63 and no symbol above it",
        64,
        1 << 63,
        &["drop 1 assign s64 s0", "keep 2 assert s63"],
    ));
    known.push(slice(
        "S=64, symbol 4,159 and not 4,158",
        64,
        0,
        &["drop 1 assign s4158 1", "keep 2 assign s4159 1", "keep 3 assert s4159"],
    ));
    in_both_versions(known)
}

fn limits_of_traces() -> Vec<KnownSlice> {
    let asserts = encoding::trace(0, &vec![assert(1, &CONSTANT_1); 4096]);
    let assumes = encoding::trace(0, &vec![assume(1, &CONSTANT_1); 4096]);
    let bounds = encoding::trace(0, &vec![bound(1, &CONSTANT_1); 4096]);
    let one_more = encoding::trace(0, &vec![assert(1, &CONSTANT_1); 4097]);
    let last_symbol = encoding::trace(64, &[assign(1, 4159, &CONSTANT_1), assert(2, &read(4159))]);
    let inputs: Vec<Vec<u8>> = (0..64).map(|symbol| assert(symbol, &read(symbol))).collect();
    let inputs = encoding::trace(64, &inputs);
    let one_too_many = encoding::trace(65, &[assert(1, &read(0))]);
    let long = judging::negated_to(65_535);
    let chain = judging::turned_4095_times();
    in_both_versions(vec![
        sliced("4,096 Asserts", &asserts, &asserts, 0),
        sliced("4,096 Assumes", &assumes, &encoding::trace::<&[u8]>(0, &[]), 0),
        sliced("4,096 bounds", &bounds, &encoding::trace::<&[u8]>(0, &[]), 0),
        refused("4,097 Asserts", &one_more, (4, 0)),
        sliced("4,095 symbols, each made of the one before", &chain, &chain, 1),
        sliced("65,535 bytes", &long, &long, 0),
        refused("65,536 bytes", &judging::negated_to(65_536), (3, 0)),
        sliced("S=64, symbol 4,159", &last_symbol, &last_symbol, 0),
        sliced("S=64, all inputs read", &inputs, &inputs, u64::MAX),
        refused("S=65", &one_too_many, (4, 0)),
    ])
}

/// Sentences on the slice. Each line says whether its statement is kept.
pub fn slices() -> Vec<KnownSlice> {
    let thousand = unwinding::thousand_asserts(1);
    in_both_versions(vec![
        slice("every Assert is kept", 2, 0b11, &["keep 1 assert s1", "keep 2 assert 1", "keep 3 assert s0"]),
        slice("an Assume is kept if an Assert follows", 1, 0b1, &["keep 1 assume s0", "keep 2 assert 1"]),
        slice("an Assume is dropped if none follows", 1, 0, &["keep 1 assert 1", "drop 2 assume s0"]),
        slice("a bound is kept if an Assert follows", 1, 0b1, &["keep 1 bound s0", "keep 2 assert 1"]),
        slice("a bound is dropped if none follows", 1, 0, &["keep 1 assert 1", "drop 2 bound s0", "drop 3 assume 1"]),
        slice("no bound is an Assert", 1, 0, &["drop 1 assume s0", "drop 2 assign s1 s0", "drop 3 bound s1"]),
        slice(
            "what a kept bound reads is needed",
            2,
            0b10,
            &["keep 1 assign s2 s1", "keep 2 bound s2", "keep 3 assert 1", "drop 4 bound s0"],
        ),
        slice(
            "an Assert may follow anywhere later",
            2,
            0b11,
            &["keep 1 assume s0", "keep 2 assume s1", "drop 3 assign s2 s0", "keep 4 assert 1", "drop 5 assume s0"],
        ),
        slice("nothing is kept without an Assert", 1, 0, &["drop 1 assign s1 s0", "drop 2 assume s1"]),
        slice(
            "an Assign is kept if its symbol is needed",
            2,
            0b01,
            &["keep 1 assign s2 s0", "drop 2 assign s3 s1", "keep 3 assert s2"],
        ),
        slice("an Assign behind the last Assert is dropped", 1, 0, &["keep 1 assert 1", "drop 2 assign s1 s0"]),
        slice(
            "what a kept Assign reads is needed",
            2,
            0b10,
            &["keep 1 assign s2 s1 neg", "keep 2 assign s3 s2 1 add", "keep 3 assign s4 s3 s3 mul", "keep 4 assert s4"],
        ),
        slice(
            "what a kept Assume reads is needed",
            2,
            0b10,
            &["keep 1 assign s2 s1", "keep 2 assume s2", "keep 3 assert 1"],
        ),
        slice(
            "what a dropped statement reads is not",
            2,
            0,
            &["drop 1 assign s2 s1", "drop 2 assign s3 s2", "keep 3 assert 1", "drop 4 assume s2"],
        ),
        slice(
            "the middle one of three symbols is needed in an expression",
            0,
            0,
            &["drop 1 assign s0 1", "keep 2 assign s1 2", "drop 3 assign s2 3", "keep 4 assert 9 s1 0 ite"],
        ),
        slice(
            "all three symbols of one expression are needed",
            0,
            0,
            &["keep 1 assign s0 1", "keep 2 assign s1 2", "keep 3 assign s2 3", "keep 4 assert s0 s1 s2 ite"],
        ),
        slice(
            "kept records keep their numbers",
            1,
            0,
            &["drop 9 assign s7 s0", "keep 65535 assign s500 1", "drop 3 assign s501 2", "keep 3 assert s500"],
        ),
        slice(
            "an input read twice is counted once",
            3,
            0b101,
            &["keep 1 assume s2 s2 xor", "keep 2 assert s0 s2 ule", "drop 3 assume s1"],
        ),
        slice(
            "constants and places are no symbols",
            3,
            0,
            &["drop 1 assign s3 1", "keep 3 assert 3", "keep 3 assert 50331651"],
        ),
        sliced("the last exit of a written trace is dropped", &thousand, &without_last_statement(&thousand, 25), 1),
    ])
}

fn without_last_statement(trace: &[u8], length: usize) -> Vec<u8> {
    let mut trace = trace[..trace.len() - length].to_vec();
    let count = u16::from_be_bytes([trace[4], trace[5]]);
    encoding::set_count(&mut trace, count - 1);
    encoding::mend_length(&mut trace);
    trace
}

/// Sentences on room, and on what is refused before it.
pub fn rooms() -> Vec<KnownSlice> {
    let trace = &traces::SMALL_RULE_0;
    let too_little = |name, room| refused_with(name, trace, room, (10, 0));
    let enough = |name, room| sliced_into(name, trace, room, &small_rule_0(), 1);
    in_both_versions(vec![
        too_little("no room", 0),
        too_little("room for the header alone", 6),
        too_little("room for all but a byte", 101),
        enough("the exact room", 102),
        enough("a byte more room", 103),
        enough("more room than a slice can take", 100_000),
        refused_with("a slice of no statement needs 6 bytes", &traces::NO_INSTRUCTIONS, 5, (10, 0)),
        refused_with("7 before 10", &encoding::trace(0, &[assume(1, &[])]), 0, (7, 11)),
    ])
}

/// What judging refuses for its trace, slicing refuses too.
pub fn refusals() -> Vec<KnownSlice> {
    judging::refused_traces().map(|(name, trace, refusal)| refused(&name, &trace, refusal)).collect()
}

fn slice(name: &str, inputs: u8, mask: u64, lines: &[&str]) -> KnownSlice {
    let statements: Vec<&str> = lines.iter().map(|line| &line["keep ".len()..]).collect();
    let kept: Vec<&str> = lines.iter().filter_map(|line| line.strip_prefix("keep ")).collect();
    sliced(name, &listing::trace(inputs, &statements), &listing::trace(inputs, &kept), mask)
}

fn sliced(name: &str, trace: &[u8], slice: &[u8], mask: u64) -> KnownSlice {
    sliced_into(name, trace, slice.len() + SPARE_ROOM, slice, mask)
}

fn sliced_into(name: &str, trace: &[u8], room: usize, slice: &[u8], mask: u64) -> KnownSlice {
    let answer = SliceAnswer { length: slice.len() as u32, inputs: mask.count_ones(), mask, ..SliceAnswer::default() };
    known(name, trace, room, Written::known(answer, slice, room))
}

fn refused(name: &str, trace: &[u8], refusal: (u32, u32)) -> KnownSlice {
    refused_with(name, trace, SPARE_ROOM, refusal)
}

fn refused_with(name: &str, trace: &[u8], room: usize, (reply, offset): (u32, u32)) -> KnownSlice {
    let answer = SliceAnswer { reply, offset, ..SliceAnswer::default() };
    known(name, trace, room, Written::known(answer, &[], room))
}

fn known(name: &str, trace: &[u8], room: usize, answer: Written<SliceAnswer>) -> KnownSlice {
    let case = SliceCase { trace: trace.to_vec(), room };
    Known { name: name.into(), case, answer }
}
