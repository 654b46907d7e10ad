//! Writing a script: the example of docs/SCRIPT.md, its sentences, the limits of traces, and what is refused.

use std::iter;

use super::{judging, slicing, Known, CONSTANT_1};
use crate::case::ScriptCase;
use crate::encoding;
use crate::listing;
use crate::model::ScriptAnswer;
use crate::parts::as_old_trace;
use crate::statement::{assert, assume, bound, read};
use crate::written::{Written, LENGTH_LIMIT, SCRIPT_ROOM};

type KnownScript = Known<ScriptCase>;

/// A test at a place, from its condition.
type Statement = fn(u16, &[u8]) -> Vec<u8>;

const DOCUMENT: &str = include_str!("../../../docs/SCRIPT.md");

/// The room behind a script, or where there is none.
const SPARE_ROOM: usize = 100;

const DECLARED_0: &str = "(declare-const s0 (_ BitVec 32))";
const DECLARED_1: &str = "(declare-const s1 (_ BitVec 32))";

/// An Assert of 1, and an Assume or a bound of 1.
const FAILS: &str = "(or (= #x00000000 (let ((x0 #x00000001)) x0))";
const HOLDS: &str = "(and (distinct #x00000000 (let ((x0 #x00000001)) x0))";

pub fn all() -> Vec<KnownScript> {
    [documented(), words(), slots(), scripts(), limits(), rooms(), refusals()].into_iter().flatten().collect()
}

/// The slice of the small rule under K = 0, with the script that the document shows.
pub fn documented() -> Vec<KnownScript> {
    in_both_versions(vec![scripted("the document's example", &slicing::small_rule_0(), example())])
}

/// The document's block of text.
pub fn example() -> &'static str {
    let (_, behind) = DOCUMENT.split_once("```text\n").expect("a block of text in docs/SCRIPT.md");
    behind.split_once("```").expect("the block's end").0
}

/// Cases of version 130, then the same of version 129, in which a bound is an Assume: the script is the same.
fn in_both_versions(known: Vec<KnownScript>) -> Vec<KnownScript> {
    let old: Vec<KnownScript> = known.iter().map(in_old_version).collect();
    known.into_iter().chain(old).collect()
}

fn in_old_version(Known { name, case, answer }: &KnownScript) -> KnownScript {
    let case = ScriptCase { trace: as_old_trace(&case.trace), room: case.room };
    let answer = Written { answer: answer.answer, outs: answer.outs.clone() };
    Known { name: format!("{name}, version 129"), case, answer }
}

/// WORD, token by token.
pub fn words() -> Vec<KnownScript> {
    let unary = |name, word: &str| word_of(name, &format!("s0 {name}"), &["x0 s0", &format!("x0 {word}")]);
    let binary = |name, word: &str| word_of(name, &format!("s0 s1 {name}"), &["x0 s0", "x1 s1", &format!("x0 {word}")]);
    vec![
        word_of("a constant", "2882400018", &["x0 #xabcdef12"]),
        word_of("a constant's zeros", "1", &["x0 #x00000001"]),
        word_of("a symbol", "s1", &["x0 s1"]),
        unary("not", "(bvnot x0)"),
        unary("neg", "(bvneg x0)"),
        unary("zero", "(ite (= x0 #x00000000) #x00000001 #x00000000)"),
        binary("add", "(bvadd x0 x1)"),
        binary("sub", "(bvsub x0 x1)"),
        binary("mul", "(bvmul x0 x1)"),
        binary("udiv", "(bvudiv x0 x1)"),
        binary("urem", "(bvurem x0 x1)"),
        binary("and", "(bvand x0 x1)"),
        binary("or", "(bvor x0 x1)"),
        binary("xor", "(bvxor x0 x1)"),
        binary("shl", "(bvshl x0 x1)"),
        binary("lshr", "(bvlshr x0 x1)"),
        binary("equal", "(ite (= x0 x1) #x00000001 #x00000000)"),
        binary("ult", "(ite (bvult x0 x1) #x00000001 #x00000000)"),
        binary("slt", "(ite (bvslt x0 x1) #x00000001 #x00000000)"),
        binary("ule", "(ite (bvule x0 x1) #x00000001 #x00000000)"),
        word_of("ite", "s0 s1 7 ite", &["x0 s0", "x1 s1", "x2 #x00000007", "x0 (ite (distinct x0 #x00000000) x1 x2)"]),
    ]
}

/// Slots up to the last, bound and bound anew.
pub fn slots() -> Vec<KnownScript> {
    let zero = |k| format!("x{k} (ite (= x{k} #x00000000) #x00000001 #x00000000)");
    let and = |k| format!("x{k} (bvand x{k} x{})", k + 1);
    let urem = |k| format!("x{k} (bvurem x{k} x{})", k + 1);
    let ite = |k| format!("x{k} (ite (distinct x{k} #x00000000) x{} x{})", k + 1, k + 2);
    vec![
        on_words("17 words", 17, &["and"; 16], (0..16).rev().map(and)),
        on_words("17 words, by threes", 17, &["ite"; 8], (0..15).rev().step_by(2).map(ite)),
        on_words(
            "slot 16 bound anew",
            17,
            &[&["zero"][..], &["urem"; 16]].concat(),
            [zero(16)].into_iter().chain((0..16).rev().map(urem)),
        ),
        on_words(
            "slots 10 and 9 bound anew",
            11,
            &[&["zero", "and", "zero"][..], &["and"; 9]].concat(),
            [zero(10), and(9), zero(9)].into_iter().chain((0..9).rev().map(and)),
        ),
    ]
}

/// Sentences on what is declared, equated and asked.
pub fn scripts() -> Vec<KnownScript> {
    in_both_versions(vec![
        script("no statement", 0, &[], &["(assert"]),
        script("inputs are declared", 2, &[], &[DECLARED_0, DECLARED_1, "(assert"]),
        script("no Assert, no test", 1, &["1 assume s0", "2 bound s0"], &[DECLARED_0, "(assert"]),
        script(
            "without an Assert there are equations",
            0,
            &["1 assign s0 1", "2 assume s0"],
            &[DECLARED_0, "(assert (= s0 (let ((x0 #x00000001)) x0)))", "(assert"],
        ),
        script("an Assert fails", 0, &["1 assert 1"], &["(assert", FAILS]),
        script(
            "an Assume and a bound hold",
            0,
            &["1 assume 1", "2 bound 1", "3 assert 1"],
            &["(assert", HOLDS, HOLDS, FAILS],
        ),
        script(
            "no test is asked behind the last Assert",
            0,
            &["1 assert 1", "2 assume 1", "3 assert 1", "4 assume 1", "5 bound 1"],
            &["(assert", FAILS, HOLDS, FAILS],
        ),
        script(
            "symbols that are left out are not declared",
            1,
            &["9 assign s7 1", "65535 assign s500 s0", "3 assert 1", "3 assign s4096 s500"],
            &[
                DECLARED_0,
                "(declare-const s7 (_ BitVec 32))",
                "(declare-const s500 (_ BitVec 32))",
                "(declare-const s4096 (_ BitVec 32))",
                "(assert (= s7 (let ((x0 #x00000001)) x0)))",
                "(assert (= s500 (let ((x0 s0)) x0)))",
                "(assert (= s4096 (let ((x0 s500)) x0)))",
                "(assert",
                FAILS,
            ],
        ),
        script(
            "equations stand before tests, those behind a stop too",
            0,
            &["1 assert 1", "2 assign s0 1", "3 assert 1", "4 assign s1 s0"],
            &[
                DECLARED_0,
                DECLARED_1,
                "(assert (= s0 (let ((x0 #x00000001)) x0)))",
                "(assert (= s1 (let ((x0 s0)) x0)))",
                "(assert",
                FAILS,
                FAILS,
            ],
        ),
    ])
}

/// The limits of traces.
pub fn limits() -> Vec<KnownScript> {
    let trace = |kind: Statement| {
        let last = vec![assert(1, &CONSTANT_1)];
        encoding::trace(0, &[vec![kind(1, &CONSTANT_1); 4095], last].concat())
    };
    let asked = |test: &str| text(&[vec!["(assert"], vec![test; 4095], vec![FAILS]].concat());
    let declared = (0..64).map(|input| format!("(declare-const s{input} (_ BitVec 32))"));
    let declared: Vec<String> = declared.chain(["(assert".into()]).collect();
    in_both_versions(vec![
        scripted("4,096 Asserts", &trace(assert), &asked(FAILS)),
        scripted("4,095 Assumes and an Assert", &trace(assume), &asked(HOLDS)),
        scripted("4,095 bounds and an Assert", &trace(bound), &asked(HOLDS)),
        scripted("64 inputs", &encoding::trace::<&[u8]>(64, &[]), &text(&declared)),
        refused("65 inputs", &encoding::trace::<&[u8]>(65, &[]), (4, 0)),
        refused("65,536 bytes", &judging::negated_to(65_536), (3, 0)),
    ])
}

/// The trace whose script is the longest: all inputs, and one Assert, which is `zero` again and again, in slot 10.
pub fn longest() -> Vec<u8> {
    const ZERO: u8 = 0x12;
    const ULT: u8 = 0x2B;
    let trace = |zeros| {
        let expression = [(53..64).flat_map(read).collect(), vec![ZERO; zeros], vec![ULT; 10]].concat();
        encoding::trace(64, &[assert(0, &expression)])
    };
    trace(LENGTH_LIMIT - trace(0).len())
}

/// A trace of as many tests as there may be: s0 is no number below 4,096, and every third test is an Assert of that.
pub fn most_tests() -> Vec<u8> {
    let differs = |i: u16| listing::expression(&format!("s0 {i} equal zero"));
    let kinds: [Statement; 3] = [assume, bound, assert];
    let tests: Vec<Vec<u8>> = (0..4096).map(|i| kinds[usize::from(i) % 3](i, &differs(i))).collect();
    encoding::trace(1, &tests)
}

/// A trace of one Assert of 65,001 tokens: s0 turned twice and negated twice, again and again.
pub fn most_tokens() -> Vec<u8> {
    let again = listing::expression("not not neg neg").repeat(16_250);
    encoding::trace(1, &[assert(0, &[read(0), again].concat())])
}

/// Sentences on room, and on what is refused before it.
pub fn rooms() -> Vec<KnownScript> {
    let trace = &slicing::small_rule_0();
    let length = example().len();
    let too_little = |name, room| refused_with(name, trace, room, (10, 0));
    let enough = |name, room| scripted_into(name, trace, room, example());
    in_both_versions(vec![
        too_little("no room", 0),
        too_little("room for the first line alone", 18),
        too_little("room for all but a letter", length - 1),
        enough("the exact room", length),
        enough("a byte more room", length + 1),
        enough("the room that always does", SCRIPT_ROOM),
        refused_with("7 before 10", &encoding::trace(0, &[assume(1, &[])]), 0, (7, 11)),
    ])
}

/// What judging refuses for its trace is refused here too.
pub fn refusals() -> Vec<KnownScript> {
    judging::refused_traces().map(|(name, trace, refusal)| refused(&name, &trace, refusal)).collect()
}

/// The script of one Assert over two inputs, whose expression has these tokens and these slots with their words.
fn word_of<L: AsRef<str>>(name: &str, tokens: &str, lets: &[L]) -> KnownScript {
    let bound: String = lets.iter().map(|word| format!("(let (({})) ", word.as_ref())).collect();
    let test = format!("(or (= #x00000000 {bound}x0{})", ")".repeat(lets.len()));
    script(name, 2, &[&format!("1 assert {tokens}")], &[DECLARED_0, DECLARED_1, "(assert", &test])
}

/// As `word_of`, where so many words are pushed first.
fn on_words(name: &str, count: usize, operators: &[&str], lets: impl Iterator<Item = String>) -> KnownScript {
    let pushed = (0..count).map(|slot| format!("x{slot} s0"));
    let tokens = [&vec!["s0"; count][..], operators].concat().join(" ");
    word_of(name, &tokens, &pushed.chain(lets).collect::<Vec<String>>())
}

fn script(name: &str, inputs: u8, statements: &[&str], lines: &[&str]) -> KnownScript {
    scripted(name, &listing::trace(inputs, statements), &text(lines))
}

/// A script from all its lines but the first and the last two.
fn text<L: AsRef<str>>(lines: &[L]) -> String {
    let tests = lines.iter().skip_while(|line| line.as_ref() != "(assert").count();
    let last = format!("false{}", ")".repeat(tests));
    let lines = lines.iter().map(|line| line.as_ref());
    let lines = iter::once("(set-logic QF_BV)").chain(lines).chain([&last[..], "(check-sat)"]);
    lines.map(|line| format!("{line}\n")).collect()
}

fn scripted(name: &str, trace: &[u8], text: &str) -> KnownScript {
    scripted_into(name, trace, text.len() + SPARE_ROOM, text)
}

fn scripted_into(name: &str, trace: &[u8], room: usize, text: &str) -> KnownScript {
    let answer = ScriptAnswer { length: text.len() as u32, ..ScriptAnswer::default() };
    known(name, trace, room, Written::known(answer, text.as_bytes(), room))
}

fn refused(name: &str, trace: &[u8], refusal: (u32, u32)) -> KnownScript {
    refused_with(name, trace, SPARE_ROOM, refusal)
}

fn refused_with(name: &str, trace: &[u8], room: usize, (reply, offset): (u32, u32)) -> KnownScript {
    let answer = ScriptAnswer { reply, offset, ..ScriptAnswer::default() };
    known(name, trace, room, Written::known(answer, &[], room))
}

fn known(name: &str, trace: &[u8], room: usize, answer: Written<ScriptAnswer>) -> KnownScript {
    let case = ScriptCase { trace: trace.to_vec(), room };
    Known { name: name.into(), case, answer }
}
