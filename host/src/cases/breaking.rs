//! Request 2026-08, "Point at the token": expressions that break their rules, each with the byte of it that it is
//! refused at, in the first, the middle and the last record of a table and of a trace.

use super::CONSTANT_1;
use crate::encoding;
use crate::hex;
use crate::statement::{assign, assume, bound};

/// A name, an expression in which two blanks part tokens, and the byte at which it breaks the rules. S is 2.
type Broken = (&'static str, &'static str, u32);

const IN_TABLES: [Broken; 33] = [
    ("no such token, alone", "13", 0),
    ("no such token, before others", "00  02 00", 0),
    ("no such token between others", "02 00  2E  02 01  20", 2),
    ("no such token behind others", "02 00  02 01  20  31", 5),
    ("no such token behind two words: not their end", "02 00  02 01  FF", 4),
    ("a trace's symbol behind a token", "02 00  03 00 01  20", 2),
    ("a constant without bytes, alone", "01", 0),
    ("a constant that lacks one, alone", "01 00 00 00", 0),
    ("a constant that lacks two behind a token", "02 00  01 00 00", 2),
    ("a constant that lacks one behind tokens", "02 00  02 01  20  01 00 00 00", 5),
    ("a symbol without its byte, alone", "02", 0),
    ("a symbol without its byte behind a token", "02 00  02", 2),
    ("a symbol without its byte behind a constant", "01 00 00 00 01  02", 5),
    ("symbol S alone", "02 02", 0),
    ("symbol S before others", "02 02  02 00  20", 0),
    ("symbol 255 between others", "02 00  02 FF  20", 2),
    ("symbol S behind others", "02 00  02 01  20  02 02", 5),
    ("not, alone", "10", 0),
    ("zero before a word", "12  02 00", 0),
    ("add alone", "20", 0),
    ("ule before words", "2D  02 00  02 01", 0),
    ("sub behind one word", "02 00  21", 2),
    ("sub behind one word that an operator leaves", "02 00  02 01  20  21", 5),
    ("sub behind one word, before others", "02 00  21  02 01  20", 2),
    ("ite alone", "30", 0),
    ("ite before words", "30  02 00  02 01  02 00", 0),
    ("ite behind one word", "02 00  30", 2),
    ("ite behind two words", "02 00  02 01  30", 4),
    ("ite behind two words, before others", "02 00  02 01  30  10", 4),
    ("no expression", "", 0),
    ("two words left", "02 00  02 01", 4),
    ("two words left behind an operator", "02 00  02 01  20  01 00 00 00 05", 10),
    ("the first of three broken tokens", "02 00  20  13  02 02", 2),
];

const IN_TRACES: [Broken; 33] = [
    ("no such token, alone", "13", 0),
    ("no such token, before others", "00  03 00 00", 0),
    ("no such token between others", "03 00 00  2E  03 00 01  20", 3),
    ("no such token behind others", "03 00 00  03 00 01  20  31", 7),
    ("no such token behind two words: not their end", "03 00 00  03 00 01  FF", 6),
    ("a table's symbol behind a token", "03 00 00  02 01  20", 3),
    ("a constant without bytes, alone", "01", 0),
    ("a constant that lacks one, alone", "01 00 00 00", 0),
    ("a constant that lacks two behind a token", "03 00 00  01 00 00", 3),
    ("a constant that lacks one behind tokens", "03 00 00  03 00 01  20  01 00 00 00", 7),
    ("a symbol without bytes, alone", "03", 0),
    ("a symbol that lacks one, alone", "03 00", 0),
    ("a symbol that lacks one behind a token", "03 00 00  03 00", 3),
    ("a symbol without bytes behind a constant", "01 00 00 00 01  03", 5),
    ("symbol 4,098 alone", "03 10 02", 0),
    ("symbol 65535 before others", "03 FF FF  03 00 00  20", 0),
    ("symbol 2, which is skipped, between others", "03 00 00  03 00 02  20", 3),
    ("symbol 3, which is skipped, behind others", "03 00 00  03 00 01  20  03 00 03", 7),
    ("not, alone", "10", 0),
    ("zero before a word", "12  03 00 00", 0),
    ("add alone", "20", 0),
    ("ule before words", "2D  03 00 00  03 00 01", 0),
    ("sub behind one word", "03 00 00  21", 3),
    ("sub behind one word that an operator leaves", "03 00 00  03 00 01  20  21", 7),
    ("ite alone", "30", 0),
    ("ite before words", "30  03 00 00  03 00 01  03 00 00", 0),
    ("ite behind one word", "03 00 00  30", 3),
    ("ite behind two words", "03 00 00  03 00 01  30", 6),
    ("ite behind two words, before others", "03 00 00  03 00 01  30  10", 6),
    ("no expression", "", 0),
    ("two words left", "03 00 00  03 00 01", 6),
    ("two words left behind an operator", "03 00 00  03 00 01  20  01 00 00 00 05", 12),
    ("the first of three broken tokens", "03 00 00  20  13  03 FF FF", 3),
];

/// With words that are too many to write down: of so many bytes each, up to so many may be held.
fn deep(word: &str, size: u32, limit: u32) -> [(String, String, u32); 6] {
    let words = |count: u32| vec![word; count as usize].join("  ");
    let (next, full) = (limit + 1, words(limit));
    [
        (format!("word {next} behind others"), format!("{full}  {word}"), size * limit),
        (
            format!("word {next} between others"),
            format!("{full}  {word}{}", "  20".repeat(limit as usize)),
            size * limit,
        ),
        (format!("a constant as word {next}"), format!("{full}  01 00 00 00 01"), size * limit),
        (format!("word {next}, held once before"), format!("{full}  20  {word}  {word}"), size * limit + 1 + size),
        (format!("{limit} words left"), full.clone(), size * limit),
        ("three words left".into(), words(3), size * 3),
    ]
}

/// The tables, each with the byte that it is refused 7 at.
pub fn tables() -> Vec<(String, Vec<u8>, u32)> {
    all(&IN_TABLES, deep("02 01", 2, 16))
        .into_iter()
        .flat_map(|(name, text, at)| in_records(&name, &text, at))
        .collect()
}

fn in_records(name: &str, text: &str, at: u32) -> [(String, Vec<u8>, u32); 3] {
    let expression = bytes(text);
    // With its length it has 8 bytes.
    let holds = [&[3][..], &CONSTANT_1].concat();
    let [assert, assigned, jump] = [&[3][..], &[1, 1], &[4, 0, 3]].map(|head| [head, &expression].concat());
    [
        (format!("{name}, in the first record"), encoding::table(2, &[&assert, &holds, &holds]), 9 + at),
        (format!("{name}, in a middle record"), encoding::table(2, &[&holds, &assigned, &holds]), 18 + at),
        (format!("{name}, in the last record"), encoding::table(2, &[&holds, &holds, &jump]), 27 + at),
    ]
}

/// The traces, each with the byte that it is refused 7 at.
pub fn traces() -> Vec<(String, Vec<u8>, u32)> {
    let broken = all(&IN_TRACES, deep("03 00 01", 3, 17));
    let everywhere = broken.into_iter().flat_map(|(name, text, at)| {
        let expression = bytes(&text);
        [in_first(&name, &expression, at), in_middle(&name, &expression, at), in_last(&name, &expression, at)]
    });
    everywhere.chain(of_symbols()).collect()
}

/// Symbols that another statement may read: 4 is assigned first, 6 by the middle statement, 8 last.
fn of_symbols() -> Vec<(String, Vec<u8>, u32)> {
    let [four, six, eight, seven] = [4, 6, 8, 7].map(|symbol| [3, 0, symbol]);
    let behind_four = |symbol: [u8; 3]| [&four[..], &symbol, &[0x20]].concat();
    vec![
        in_first("a symbol assigned later, alone", &four, 0),
        in_first("a symbol assigned last, before others", &[&eight[..], &[3, 0, 0, 0x20]].concat(), 0),
        in_middle("its own symbol, alone", &six, 0),
        in_middle("its own symbol behind one that is assigned", &behind_four(six), 3),
        in_middle("a symbol assigned later behind one that is assigned", &behind_four(eight), 3),
        in_middle("a symbol between its own and one assigned later", &behind_four(seven), 3),
        in_last("a skipped symbol behind one that is assigned", &behind_four(six), 3),
        in_last("a skipped symbol behind all that are assigned", &[&four[..], &eight, &[0x20], &seven].concat(), 7),
    ]
}

fn in_first(name: &str, expression: &[u8], at: u32) -> (String, Vec<u8>, u32) {
    let [before, behind] = around();
    (format!("{name}, in the first statement"), encoding::trace(2, &[assume(1, expression), before, behind]), 11 + at)
}

fn in_middle(name: &str, expression: &[u8], at: u32) -> (String, Vec<u8>, u32) {
    let [before, behind] = around();
    (format!("{name}, in a middle statement"), encoding::trace(2, &[before, assign(1, 6, expression), behind]), 25 + at)
}

fn in_last(name: &str, expression: &[u8], at: u32) -> (String, Vec<u8>, u32) {
    let [before, behind] = around();
    (format!("{name}, in the last statement"), encoding::trace(2, &[before, behind, bound(1, expression)]), 35 + at)
}

/// With its length each has 12 bytes.
fn around() -> [Vec<u8>; 2] {
    [assign(0, 4, &CONSTANT_1), assign(2, 8, &CONSTANT_1)]
}

fn all(broken: &[Broken], deep: [(String, String, u32); 6]) -> Vec<(String, String, u32)> {
    let written = broken.iter().map(|(name, text, at)| (name.to_string(), text.to_string(), *at));
    written.chain(deep).collect()
}

fn bytes(text: &str) -> Vec<u8> {
    hex::bytes(text).unwrap_or_else(|no_byte| panic!("{no_byte:?}"))
}
