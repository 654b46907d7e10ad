//! Printing a slice: document 01's printed slice, its sentences on words and lines, refusals and long tables.

use super::{running, unwinding, Known};
use crate::case::PrintCase;
use crate::encoding::{self, mend_length, set_length, Form};
use crate::program::Printed;

type KnownText = Known<PrintCase>;

/// Document 01, "A small rule, worked": the whole output for K = 0, with request 2026-01's word for the bound.
pub const SMALL_RULE_0: &str = "\
inputs 1 statements 4
65535 assign s1 0
0 assign s2 s1 0 ule s0 zero 3 s1 ite s1 ite
2 bound s2 2 ule 1 zero 1 ite
3 assert s2 3 ule 0 1 ite
";

const NO_INSTRUCTIONS: [u8; 6] = [1, 0, 6, 0, 0, 0];

/// Each operator with its number of operands.
const OPERATORS: [(u8, usize, &str); 18] = [
    (0x10, 1, "not"),
    (0x11, 1, "neg"),
    (0x12, 1, "zero"),
    (0x20, 2, "add"),
    (0x21, 2, "sub"),
    (0x22, 2, "mul"),
    (0x23, 2, "udiv"),
    (0x24, 2, "urem"),
    (0x25, 2, "and"),
    (0x26, 2, "or"),
    (0x27, 2, "xor"),
    (0x28, 2, "shl"),
    (0x29, 2, "lshr"),
    (0x2A, 2, "equal"),
    (0x2B, 2, "ult"),
    (0x2C, 2, "slt"),
    (0x2D, 2, "ule"),
    (0x30, 3, "ite"),
];

pub fn all() -> Vec<KnownText> {
    [marked(), words(), lines(), refusals(), longest_tables(), longer_tables()].into_iter().flatten().collect()
}

/// The marked cases that concern slices.
pub fn marked() -> Vec<KnownText> {
    vec![
        printed("m5: the small rule, K=0", 0, &running::SMALL_RULE, SMALL_RULE_0),
        printed("m11: no instructions", 0, &NO_INSTRUCTIONS, "inputs 0 statements 0\n"),
    ]
}

/// Constants in decimal, operators by name.
pub fn words() -> Vec<KnownText> {
    let constants = ["0", "1", "9", "10", "99", "100", "65535", "65536", "999999999", "1000000000", "4294967295"];
    let constants = constants.map(|text| (constant(text), text.into()));
    let operators = OPERATORS.map(|(code, operands, name)| {
        let symbols = Form::Table.symbol(0).repeat(operands);
        ([&symbols[..], &[code]].concat(), "s0 ".repeat(operands) + name)
    });
    vec![asserted("constants", &constants), asserted("operators", &operators)]
}

fn constant(text: &str) -> Vec<u8> {
    let word: u32 = text.parse().expect("a word");
    [&[1], &word.to_be_bytes()[..]].concat()
}

/// Kinds, places and symbols, in few lines or many.
pub fn lines() -> Vec<KnownText> {
    let kinds: [&[u8]; 5] = [&[1, 1, 2, 0], &[2, 2, 1], &[4, 0, 0, 2, 0], &[4, 0, 4, 2, 0], &[3, 2, 1]];
    let last_inputs: [&[u8]; 2] = [&[1, 63, 2, 62], &[3, 2, 63]];
    vec![
        printed(
            "each kind of instruction, the bound's test as a bound",
            0,
            &encoding::table(2, &kinds),
            "inputs 2 statements 6\n\
             65535 assign s2 0\n\
             0 assign s3 s2 0 ule s0 s1 ite\n\
             1 assume s2 1 ule s3 1 ite\n\
             2 bound s2 2 ule s0 zero 1 ite\n\
             3 assign s4 s2 3 ule s0 4 s2 ite s2 ite\n\
             4 assert s4 4 ule s3 1 ite\n",
        ),
        printed(
            "S=64",
            0,
            &encoding::table(64, &last_inputs),
            "inputs 64 statements 3\n\
             65535 assign s64 0\n\
             0 assign s65 s64 0 ule s62 s63 ite\n\
             1 assert s64 1 ule s65 1 ite\n",
        ),
        printed("no instructions, K=255", 255, &NO_INSTRUCTIONS, "inputs 0 statements 0\n"),
        asserts("one Assert, K=255", 1, 255),
        asserts("1,024 Asserts, K=1", 1024, 1),
        longest(),
    ]
}

/// A trace of 65,535 bytes in which almost every byte is a `zero`, the longest name that needs no further operand.
pub fn longest() -> KnownText {
    const ZEROS: usize = 65_469;
    let table = encoding::table(64, &[[&[3, 2, 63], &vec![0x12; ZEROS][..]].concat()]);
    let zeros = " zero".repeat(ZEROS);
    let text = format!("inputs 64 statements 2\n65535 assign s64 0\n0 assert s64 0 ule s63{zeros} 1 ite\n");
    printed("a trace of 65,535 bytes", 0, &table, text)
}

/// What is refused before a table is read, or when its trace is written.
pub fn refusals() -> Vec<KnownText> {
    let rule = running::SMALL_RULE;
    let mut known = vec![
        known("not even K", None, &[], "refused 1 at 0\n"),
        refused("K alone", 0, &[], (1, 0)),
        refused("K=255 alone", 255, &[], (1, 0)),
        refused("a byte short", 0, &rule[..43], (3, 0)),
        refused("a byte long", 0, &[&rule[..], &[0]].concat(), (3, 0)),
        refused("a byte short, its length mended", 0, &mended(&rule[..43]), (5, 36)),
        refused("a byte long, its length mended", 0, &mended(&[&rule[..], &[0]].concat()), (5, 44)),
        refused("a trace", 0, &[130, 0, 6, 0, 0, 0], (2, 0)),
        refused("an old trace", 0, &[129, 0, 6, 0, 0, 0], (2, 0)),
        refused("1,024 Asserts, K=2", 2, &running::thousand_asserts(), (9, 0)),
        refused("1,024 Asserts, K=255", 255, &running::thousand_asserts(), (9, 0)),
    ];
    let runs = [running::refusals(), running::broken_expressions()];
    let of_table = runs.into_iter().flatten().filter(|known| (1..=7).contains(&known.answer.reply));
    known.extend(of_table.map(|Known { name, case, answer }| {
        // A bound that no byte holds comes behind a table's own refusal.
        let bound = case.bound.min(255) as u8;
        refused(&name, bound, &case.table, (answer.reply, answer.offset))
    }));
    known
}

/// Tables of 65,535 bytes are read as others are.
pub fn longest_tables() -> Vec<KnownText> {
    let long_record = |length: usize| unwinding::padded_assert(length - 1);
    let read = |name, table: Vec<u8>, refusal| {
        assert_eq!(table.len(), 65_535, "{name}");
        refused(name, 0, &table, refusal)
    };
    let right = encoding::table(0, &[long_record(65_527)]);
    let length_wrong = [&right[..2], &[0xFE], &right[3..]].concat();
    let version_wrong = [&[0], &right[1..]].concat();
    let spare = mended(&[&encoding::table(0, &[long_record(65_526)])[..], &[0]].concat());
    vec![
        read("its trace is longer", right, (9, 0)),
        read("length wrong", length_wrong, (3, 0)),
        read("version wrong", version_wrong, (2, 0)),
        read("no record, all spare", mended(&[&[1, 0, 0, 0, 0, 0], &[0; 65_529][..]].concat()), (5, 6)),
        read("a trace's symbol at great length", encoding::table(1, &[vec![3; 65_527]]), (7, 9)),
        read("target n + 1", encoding::table(0, &[[&[4, 0, 2], &long_record(65_525)[1..]].concat()]), (6, 6)),
        read("a last record of an unknown kind", encoding::table(0, &[long_record(65_524), vec![9]]), (5, 65_532)),
        read("the last byte spare", spare, (5, 65_534)),
    ]
}

/// Of longer tables the version alone matters, whatever the length field says.
pub fn longer_tables() -> Vec<KnownText> {
    let mut known = Vec::new();
    for length in [65_536, 65_537, 65_536 + 44, 131_071, 200_000] {
        for field in [0, 1, 44, 65_535, length as u16] {
            let mut table = [&running::SMALL_RULE[..], &vec![0; length - 44]].concat();
            set_length(&mut table, field);
            known.push(refused(&format!("{length} bytes, field {field}"), 0, &table, (3, 0)));
            for version in [0, 2, 129, 130, 255] {
                table[0] = version;
                let name = format!("{length} bytes, field {field}, version {version}");
                known.push(refused(&name, 0, &table, (2, 0)));
            }
        }
    }
    known
}

fn mended(table: &[u8]) -> Vec<u8> {
    let mut table = table.to_vec();
    mend_length(&mut table);
    table
}

/// A table that asserts expressions of input 0, one after another, each given with its text.
fn asserted(name: &str, expressions: &[(Vec<u8>, String)]) -> KnownText {
    let records: Vec<Vec<u8>> = expressions.iter().map(|(expression, _)| [&[3], &expression[..]].concat()).collect();
    let mut text = format!("inputs 1 statements {}\n65535 assign s1 0\n", records.len() + 1);
    for (place, (_, expression)) in expressions.iter().enumerate() {
        text += &format!("{place} assert s1 {place} ule {expression} 1 ite\n");
    }
    printed(name, 0, &encoding::table(1, &records), text)
}

/// A table of so many Asserts of input 0. The last exit is dropped.
fn asserts(name: &str, count: usize, bound: u8) -> KnownText {
    let assert = [&[3], &Form::Table.symbol(0)[..]].concat();
    let table = encoding::table(1, &vec![assert; count]);
    let mut lines = unwinding::assert_lines(count as u32, bound.into());
    lines.pop();
    printed(name, bound, &table, format!("inputs 1 statements {}\n{}\n", lines.len(), lines.join("\n")))
}

fn refused(name: &str, bound: u8, table: &[u8], (number, offset): (u32, u32)) -> KnownText {
    printed(name, bound, table, format!("refused {number} at {offset}\n"))
}

fn printed(name: &str, bound: u8, table: &[u8], text: impl Into<String>) -> KnownText {
    known(name, Some(bound.into()), table, text)
}

fn known(name: &str, bound: Option<u64>, table: &[u8], text: impl Into<String>) -> KnownText {
    let case = PrintCase { bound, table: table.to_vec() };
    Known { name: name.into(), case, answer: Printed::just(text.into()) }
}
