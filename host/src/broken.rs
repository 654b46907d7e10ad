//! Request 2026-08, "Point at the token": the ways in which an expression breaks its rules, and where it does, as tests
//! count them in the files that are refused 7.

use crate::cli::fault::{Fault, Problem};
use crate::encoding::Form;
use crate::parts::Parts;

const ONLY: &str = "the only token";
const FIRST: &str = "the first token";
const MIDDLE: &str = "a middle token";
const LAST: &str = "the last token";
const END: &str = "the end";
const EVERY: &[&str] = &[ONLY, FIRST, MIDDLE, LAST];

const RECORDS: &[&str] = &["the first record", "a middle record", "the last record"];

/// A way to break the rules, and the tokens and records at which that can be.
pub struct Way {
    name: &'static str,
    tokens: &'static [&'static str],
    records: &'static [&'static str],
}

impl Way {
    const fn new(name: &'static str, tokens: &'static [&'static str]) -> Way {
        Way { name, tokens, records: RECORDS }
    }

    /// What files show that are broken in this way, at each token and in each record.
    pub fn shown(&self) -> impl Iterator<Item = String> + '_ {
        let places = self.tokens.iter().flat_map(|token| self.records.iter().map(move |record| (token, record)));
        places.map(|(token, record)| format!("{}, {token}, {record}", self.name))
    }
}

const OF_BOTH: [Way; 10] = [
    Way::new("no such token", EVERY),
    Way::new("a constant without all its bytes", &[ONLY, LAST]),
    Way::new("a symbol without all its bytes", &[ONLY, LAST]),
    Way::new("an empty stack for one word", &[ONLY, FIRST]),
    Way::new("an empty stack for two words", EVERY),
    Way::new("an empty stack for three words", EVERY),
    Way::new("a word too many", &[MIDDLE, LAST]),
    Way::new("no word left", &[END]),
    Way::new("two words left", &[END]),
    Way::new("three words or more left", &[END]),
];

const OF_TABLES: [Way; 1] = [Way::new("a symbol that is no input", EVERY)];

const OF_TRACES: [Way; 4] = [
    Way::new("the statement's own symbol", EVERY),
    Way { name: "a symbol assigned later", tokens: EVERY, records: &["the first record", "a middle record"] },
    Way::new("a skipped symbol", EVERY),
    Way::new("a symbol that is never assigned", EVERY),
];

pub fn in_tables() -> impl Iterator<Item = Way> {
    OF_BOTH.into_iter().chain(OF_TABLES)
}

pub fn in_traces() -> impl Iterator<Item = Way> {
    OF_BOTH.into_iter().chain(OF_TRACES)
}

/// What a file that is refused 7 at an offset shows.
pub fn shown(file: &[u8], offset: u32) -> String {
    let offset = offset as usize;
    let parts = Parts::of(file).expect("a whole header");
    let (number, start) = parts.record_at(offset - 1);
    let refused = Refused { form: form(file[0]), inputs: parts.inputs.into(), number, records: &parts.records };
    let expression = refused.expression();
    let end = start + 2 + parts.records[number].len();
    let fault = Fault::at(expression, offset + expression.len() - end, refused.form, |symbol| refused.may_read(symbol));
    let fault = fault.unwrap_or_else(|| panic!("nothing is wrong at {offset} of {file:?}"));
    let token = token(&fault, offset + fault.bytes.len() == end);
    let count = usize::from(u16::from_be_bytes([file[4], file[5]]));
    format!("{}, {token}, {}", refused.way(&fault), record(number, count))
}

fn form(version: u8) -> Form {
    let forms = [Form::Table, Form::Trace, Form::OldTrace];
    forms.into_iter().find(|form| form.version() == version).expect("a version that is read")
}

fn token(fault: &Fault, is_last: bool) -> &'static str {
    match fault {
        Fault { problem: Problem::WordsLeft(_), .. } => END,
        Fault { number: 0, .. } if is_last => ONLY,
        Fault { number: 0, .. } => FIRST,
        _ if is_last => LAST,
        _ => MIDDLE,
    }
}

fn record(number: usize, count: usize) -> &'static str {
    match number {
        0 => RECORDS[0],
        _ if number + 1 < count => RECORDS[1],
        _ => RECORDS[2],
    }
}

/// A record of a file whose expression is refused.
struct Refused<'a> {
    form: Form,
    inputs: u16,
    number: usize,
    records: &'a [Vec<u8>],
}

impl Refused<'_> {
    fn expression(&self) -> &[u8] {
        let record = &self.records[self.number];
        let fields = match (self.form, record[0]) {
            (Form::Table, 1) => 1,
            (Form::Table, 4) => 2,
            (Form::Table, _) => 0,
            (Form::Trace | Form::OldTrace, 1) => 4,
            (Form::Trace | Form::OldTrace, _) => 2,
        };
        &record[1 + fields..]
    }

    fn may_read(&self, symbol: u16) -> bool {
        symbol < self.inputs || assigned(self.form, &self.records[..self.number]).any(|assigned| assigned == symbol)
    }

    fn way(&self, fault: &Fault) -> &'static str {
        match fault.problem {
            Problem::NoToken(_) => "no such token",
            Problem::BytesMissing(_) if fault.bytes[0] == 1 => "a constant without all its bytes",
            Problem::BytesMissing(_) => "a symbol without all its bytes",
            Problem::NoSymbol(symbol) => self.symbol_way(symbol),
            Problem::EmptyStack { needs: 1, .. } => "an empty stack for one word",
            Problem::EmptyStack { needs: 2, .. } => "an empty stack for two words",
            Problem::EmptyStack { .. } => "an empty stack for three words",
            Problem::TooManyWords(_) => "a word too many",
            Problem::WordsLeft(0) => "no word left",
            Problem::WordsLeft(2) => "two words left",
            Problem::WordsLeft(_) => "three words or more left",
        }
    }

    fn symbol_way(&self, symbol: u16) -> &'static str {
        if self.form == Form::Table {
            return "a symbol that is no input";
        }
        let assigned = |records| assigned(self.form, records).collect::<Vec<u16>>();
        let [own, later] = [&self.records[self.number..=self.number], &self.records[self.number + 1..]].map(assigned);
        if own.contains(&symbol) {
            return "the statement's own symbol";
        }
        if later.contains(&symbol) {
            return "a symbol assigned later";
        }
        if assigned(&self.records[..=self.number]).iter().any(|assigned| symbol < *assigned) {
            return "a skipped symbol";
        }
        "a symbol that is never assigned"
    }
}

/// The symbols that a trace's records assign; a table's make none.
fn assigned(form: Form, records: &[Vec<u8>]) -> impl Iterator<Item = u16> + '_ {
    records.iter().filter_map(move |record| match **record {
        [1, _, _, high, low, ..] if form != Form::Table => Some(u16::from_be_bytes([high, low])),
        _ => None,
    })
}
