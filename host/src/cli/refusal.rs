//! A refusal in words: its number and offset, which are the archive's; the record and the token that stand there, and
//! what is wrong with them, which are found here.

use super::expression::{inputs_in_words, postfix, tokens};
use super::fault::Fault;
use super::json::{object, Json};
use super::proved::{self, Refusal};
use super::rule::{Action, Instruction};
use super::{Answer, REFUSED};
use crate::encoding::{self, Form};
use crate::hex;
use crate::parts::Parts;

/// The reply that an expression breaks its rules.
const EXPRESSION: u32 = 7;
const ASSERT: u8 = 3;
/// Of longer records the first bytes are shown.
const BYTES_SHOWN: usize = 48;

/// What is said of a refused table.
pub fn answer(table: &[u8], bound: u64, refusal: Refusal) -> Answer {
    let Refusal { reply, offset } = refusal;
    let place = (5..=EXPRESSION).contains(&reply).then(|| Place::of(table, refusal));
    let reason = match &place {
        Some(place) => place.reason(reply),
        None => reason(table, bound, reply),
    };
    let mut lines = vec![format!("refused {reply} at {offset}: {}", meaning(reply))];
    lines.extend(place.iter().flat_map(Place::lines));
    lines.extend(reason.clone());
    let json = object([
        ("answer", "refused".into()),
        ("reply", reply.into()),
        ("offset", offset.into()),
        ("meaning", meaning(reply).into()),
        ("record", place.as_ref().and_then(|place| place.number).into()),
        ("record_offset", place.as_ref().map(|place| place.start).into()),
        ("bytes", place.as_ref().map(|place| hex::text(place.bytes)).into()),
        ("reads", place.as_ref().and_then(Place::reads).into()),
        ("token", place.as_ref().and_then(Place::token_json).into()),
        ("problem", place.as_ref().and_then(Place::problem_json).into()),
        ("reason", reason.into()),
    ]);
    Answer { status: REFUSED, text: lines.join("\n") + "\n", json }
}

/// The row of document 01's "Numbered replies".
fn meaning(reply: u32) -> &'static str {
    match reply {
        1 => "the table has fewer than 6 bytes",
        2 => "the version byte is wrong",
        3 => "the length in the header is not the table's length",
        4 => "there are more inputs or instructions than allowed",
        5 => "a record is broken, or bytes follow the last one",
        6 => "a target or an assigned symbol breaks its rule",
        7 => "an expression breaks its rules",
        8 => "the bound K is above 255",
        9 => "the trace would be too long",
        10 => "the room is too small for the result",
        11 => "the words are not as many as the inputs",
        _ => "a number that is not documented",
    }
}

/// What is wrong in the header, or with the bound.
fn reason(table: &[u8], bound: u64, reply: u32) -> Option<String> {
    let number = |at: usize| table.get(at..at + 2).map_or(0, |pair| u16::from_be_bytes([pair[0], pair[1]]));
    let byte = |at: usize| table.get(at).copied().unwrap_or(0);
    let (length, version, inputs) = (table.len(), byte(0), byte(3));
    match reply {
        1 => Some(format!(
            "it has {length}; fetch it again, or write its header: docs/FORMAT.md, \"Table and trace bytes\""
        )),
        2 if [129, 130].contains(&version) => {
            Some(format!("it is {version}, as in a trace; give the table, in which it is 1"))
        }
        2 => Some(format!(
            "it is {version}, and 1 in a table; is this hexadecimal text? Then name it .hex, or give --hex"
        )),
        3 if length > 65_535 => Some(format!("the header says {}, and 65535 bytes are the most of a table", number(1))),
        3 => Some(format!("the header says {}, and there are {length} bytes", number(1))),
        4 if inputs > 64 => Some(format!("the header says {inputs} inputs, and 64 are the most")),
        4 => Some(format!("the header says {} instructions, and 1024 are the most", number(4))),
        8 => Some("give -k a number from 0 to 255".into()),
        9 => Some(too_long(table, bound)),
        _ => None,
    }
}

fn too_long(table: &[u8], bound: u64) -> String {
    let limits = "more than 4096 statements or 65535 bytes";
    match proved::largest_bound(table, bound) {
        Some(largest) => {
            format!("with K = {bound} it would have {limits}. Lower K: {largest} is the largest that will do")
        }
        None => format!("it would have {limits} under every K. The rule can be run with given inputs: kadvitul run"),
    }
}

/// Where the refused record stands, or the spare bytes.
struct Place<'a> {
    /// None for bytes behind the last record.
    number: Option<usize>,
    /// Its first byte.
    start: usize,
    /// As many as the record's length says, or as there are.
    bytes: &'a [u8],
    /// The byte of refusal 7.
    fault: Option<usize>,
    inputs: u8,
    count: usize,
}

impl Place<'_> {
    fn of(table: &[u8], Refusal { reply, offset }: Refusal) -> Place<'_> {
        let parts = Parts::of(table).expect("a refused record stands behind a header");
        let fault = Some(offset as usize).filter(|_| reply == EXPRESSION);
        // A fault may be the record's end; the byte before it is the record's.
        let (number, start) = parts.record_at(fault.map_or(offset as usize, |fault| fault - 1));
        let count = usize::from(u16::from_be_bytes([table[4], table[5]]));
        let rest = table.get(start..).unwrap_or(&[]);
        let length = parts.records.get(number).map_or(rest.len(), |record| 2 + record.len());
        let number = Some(number).filter(|number| *number < count);
        Place { number, start, bytes: &rest[..length.min(rest.len())], fault, inputs: parts.inputs, count }
    }

    fn lines(&self) -> Vec<String> {
        let bytes = match self.bytes.len() {
            0 => "the table ends here".into(),
            length if length > BYTES_SHOWN => format!("{} .. ({length} bytes)", hex::text(&self.bytes[..BYTES_SHOWN])),
            _ => hex::text(self.bytes),
        };
        let what = self.number.map_or("behind the last record".into(), |number| format!("record {number}"));
        let shown = format!("{what}, at byte {}: {bytes}", self.start);
        let reads = self.reads().map(|reads| format!("it reads: {reads}"));
        [Some(shown), reads, self.token_line()].into_iter().flatten().collect()
    }

    /// The record without its length.
    fn body(&self) -> &[u8] {
        self.number.and(self.bytes.get(2..)).unwrap_or(&[])
    }

    /// The instruction, as far as it can be read.
    fn reads(&self) -> Option<String> {
        let instruction = Instruction::read(self.body())?;
        let assert = [&[ASSERT], instruction.expression].concat();
        if proved::accept(&encoding::table(self.inputs, &[assert])).is_ok() {
            return Some(instruction.to_string());
        }
        let (tokens, rest) = tokens(Form::Table, instruction.expression);
        let rest = if rest.is_empty() { String::new() } else { format!(", then {}", hex::text(rest)) };
        Some(instruction.with(&postfix(&tokens)).trim_end().to_string() + &rest)
    }

    /// The token that refusal 7 points at, and its byte in the table.
    fn token(&self) -> Option<(Fault<'_>, usize)> {
        let offset = self.fault?;
        let expression = Instruction::read(self.body())?.expression;
        let start = self.start + self.bytes.len() - expression.len();
        let may_read = |symbol| symbol < self.inputs.into();
        Some((Fault::at(expression, offset.checked_sub(start)?, Form::Table, may_read)?, offset))
    }

    fn token_line(&self) -> Option<String> {
        let (Fault { number, bytes, .. }, offset) = self.token()?;
        if bytes.is_empty() {
            return Some(format!("its end, at byte {offset}, behind {number} tokens"));
        }
        let (tokens, _) = tokens(Form::Table, bytes);
        let name = tokens.first().map_or(String::new(), |token| format!(", {}", token.name()));
        Some(format!("token {number}, at byte {offset}: {}{name}", hex::text(bytes)))
    }

    fn token_json(&self) -> Option<Json> {
        let (Fault { number, bytes, .. }, offset) = self.token()?;
        Some(object([("number", number.into()), ("offset", offset.into()), ("bytes", hex::text(bytes).into())]))
    }

    fn problem_json(&self) -> Option<Json> {
        self.token().map(|(fault, _)| fault.problem.json(self.inputs.into()))
    }

    fn reason(&self, reply: u32) -> Option<String> {
        match reply {
            5 => Some(self.broken()),
            6 => self.against_rule(),
            _ => self.token().map(|(fault, _)| fault.problem.words(self.inputs.into())),
        }
    }

    fn broken(&self) -> String {
        let Some(number) = self.number else {
            return format!(
                "the header's count is {}, and {} bytes follow so many records",
                self.count,
                self.bytes.len()
            );
        };
        match *self.bytes {
            [] => format!("the header's count is {}, and the table ends after {number}", self.count),
            [_] => "its length field has 2 bytes, and one is there".into(),
            [0, 0, ..] => "its length is 0".into(),
            [high, low, ref body @ ..] => self.broken_body(u16::from_be_bytes([high, low]).into(), body),
        }
    }

    fn broken_body(&self, length: usize, body: &[u8]) -> String {
        match *body {
            _ if length > body.len() => format!("its length says {length} bytes, and {} follow it", body.len()),
            [1, ..] => "it lacks the symbol that it assigns to".into(),
            [4, ..] => "it lacks the two bytes of its target".into(),
            [kind, ..] => format!("its kind is {kind:02X}; 01 assigns, 02 assumes, 03 asserts, 04 jumps"),
            [] => "it is empty".into(),
        }
    }

    fn against_rule(&self) -> Option<String> {
        match Instruction::read(self.body())?.action {
            Action::Assign(symbol) => {
                Some(format!("it assigns to s{symbol}, which is no input: {}", inputs_in_words(self.inputs.into())))
            }
            Action::Jump(target) => {
                Some(format!("its target is {target}; a target is 0 to {0}, and {0} is the end", self.count))
            }
            Action::Assume | Action::Assert => None,
        }
    }
}
