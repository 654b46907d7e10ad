//! What the command writes itself: the text of a trace, held to the proved printer's and read back; instructions with
//! operators between their operands, read back.

use host::case::PrintCase;
use host::cli::rule::Rule;
use host::cli::{proved, text};
use host::{generate, listing};

const PRINTED: u64 = 400;
const SHOWN: u64 = 3_000;
/// Longer tables are nested too deep for this reader.
const TABLE_LIMIT: usize = 4_000;

#[test]
fn a_slice_is_written_as_the_printer_prints_it_and_a_whole_trace_can_be_read_back() {
    let mut held = 0;
    for case in (1..=PRINTED).map(generate::print_case) {
        let Ok(trace) = proved::trace(&case.table, case.bound.expect("a bound")) else {
            continue;
        };
        let slice = proved::slice(&trace).expect("an accepted trace");
        let printed = PrintCase::program(&case);
        assert_eq!(text::of(&slice.bytes).as_bytes(), printed.text, "{case}");
        let whole = text::of(&trace);
        let lines: Vec<&str> = whole.lines().skip(1).collect();
        assert_eq!(listing::read(trace[3], &lines), Ok(trace), "{case}");
        held += 1;
    }
    assert!(held >= PRINTED / 4, "{held} traces");
}

#[test]
fn an_expression_with_operators_between_their_operands_can_be_read_back() {
    let mut read = 0;
    for case in (1..=SHOWN).map(generate::run_case).filter(|case| case.table.len() < TABLE_LIMIT) {
        let Ok(rule) = Rule::of(case.table) else {
            continue;
        };
        for instruction in rule.instructions() {
            let infix = instruction.infix();
            let mut reader = Reader { rest: &infix };
            let postfix = reader.whole();
            assert_eq!((postfix.as_str(), reader.rest), (&instruction.tokens()[..], ""), "{infix}");
            read += 1;
        }
    }
    assert!(read > 5_000, "{read} expressions");
}

/// Reads an expression in which everything but the outermost operator stands in brackets.
struct Reader<'a> {
    rest: &'a str,
}

const BEFORE: [(&str, &str); 3] = [("~", "not"), ("-", "neg"), ("!", "zero")];
const BETWEEN: [(&str, &str); 14] = [
    (" + ", "add"),
    (" - ", "sub"),
    (" * ", "mul"),
    (" / ", "udiv"),
    (" % ", "urem"),
    (" & ", "and"),
    (" | ", "or"),
    (" ^ ", "xor"),
    (" << ", "shl"),
    (" >> ", "lshr"),
    (" == ", "equal"),
    (" < ", "ult"),
    (" <s ", "slt"),
    (" <= ", "ule"),
];

impl Reader<'_> {
    fn takes(&mut self, letters: &str) -> bool {
        let behind = self.rest.strip_prefix(letters);
        self.rest = behind.unwrap_or(self.rest);
        behind.is_some()
    }

    fn whole(&mut self) -> String {
        if let Some((_, name)) = BEFORE.iter().find(|(sign, _)| self.takes(sign)) {
            return format!("{} {name}", self.part());
        }
        let first = self.part();
        if let Some((_, name)) = BETWEEN.iter().find(|(sign, _)| self.takes(sign)) {
            return format!("{first} {} {name}", self.part());
        }
        if !self.takes(" ? ") {
            return first;
        }
        let second = self.part();
        assert!(self.takes(" : "), "{}", self.rest);
        format!("{first} {second} {} ite", self.part())
    }

    fn part(&mut self) -> String {
        if self.takes("(") {
            let whole = self.whole();
            assert!(self.takes(")"), "{}", self.rest);
            return whole;
        }
        let end = self.rest.find(|letter: char| !letter.is_ascii_alphanumeric()).unwrap_or(self.rest.len());
        let (word, rest) = self.rest.split_at(end);
        self.rest = rest;
        word.to_string()
    }
}
