//! Request 2026-08, "Point at the token": what is wrong with the token at which an expression is refused 7, told from
//! its bytes and the archive's offset.

use super::expression::{inputs_in_words, tokens, Token};
use super::json::{object, Json};
use crate::encoding::Form;

/// The token that a refusal points at, or the expression's end.
pub struct Fault<'a> {
    /// How many tokens stand before it.
    pub number: usize,
    /// Its bytes, as many as are there; none at the end.
    pub bytes: &'a [u8],
    pub problem: Problem,
}

#[derive(Clone, Copy, Debug, PartialEq, Eq)]
pub enum Problem {
    /// The byte is no token of this kind of file.
    NoToken(u8),
    /// So many of its bytes are not there.
    BytesMissing(usize),
    /// This symbol may not be read.
    NoSymbol(u16),
    EmptyStack {
        needs: usize,
        held: usize,
    },
    /// More words than this may not be held.
    TooManyWords(usize),
    /// So many words are left at the end.
    WordsLeft(usize),
}

impl<'a> Fault<'a> {
    /// At an offset of an expression whose tokens before keep the rules; nothing where it keeps them there too.
    pub fn at(expression: &'a [u8], offset: usize, form: Form, may_read: impl Fn(u16) -> bool) -> Option<Fault<'a>> {
        let (before, rest) = expression.split_at_checked(offset)?;
        let (tokens, _) = tokens(form, before);
        let held = tokens.iter().fold(0, |held: usize, token| (held + 1).saturating_sub(token.pops()));
        let size = rest.first().map_or(0, |first| Token::size(form, *first).unwrap_or(1));
        let problem = Problem::at(form, rest, held, may_read)?;
        Some(Fault { number: tokens.len(), bytes: &rest[..size.min(rest.len())], problem })
    }
}

impl Problem {
    fn at(form: Form, rest: &[u8], held: usize, may_read: impl Fn(u16) -> bool) -> Option<Problem> {
        let Some(&first) = rest.first() else {
            return (held != 1).then_some(Problem::WordsLeft(held));
        };
        let Some(size) = Token::size(form, first) else {
            return Some(Problem::NoToken(first));
        };
        let Some((token, _)) = Token::read(form, rest) else {
            return Some(Problem::BytesMissing(size - rest.len()));
        };
        let (needs, limit) = (token.pops(), form.depth_limit());
        match token {
            Token::Symbol(symbol) if !may_read(symbol) => Some(Problem::NoSymbol(symbol)),
            _ if needs > held => Some(Problem::EmptyStack { needs, held }),
            _ if held - needs == limit => Some(Problem::TooManyWords(limit)),
            _ => None,
        }
    }

    /// What is wrong in a table of so many inputs, and what to do.
    pub fn words(self, inputs: usize) -> String {
        match self {
            Problem::NoToken(byte) => {
                format!("a table has no token {byte:02X}. Write one of docs/FORMAT.md, \"Arithmetic\"")
            }
            Problem::BytesMissing(missing) => {
                let missing =
                    if missing == 1 { "1 byte of it is".into() } else { format!("{missing} bytes of it are") };
                format!("{missing} missing before the record's end. Write what is missing, or mend the record's length")
            }
            Problem::NoSymbol(symbol) => {
                let inputs = inputs_in_words(inputs);
                format!("s{symbol} may not be read: {inputs}. Read another word, or raise S in the header")
            }
            Problem::EmptyStack { needs, held } => {
                let [needs, held] = [words(needs), held_words(held)];
                format!("it pops an empty stack: it needs {needs}, and {held}. Push what it needs before it")
            }
            Problem::TooManyWords(limit) => {
                let advice = "Put an operator before it, or split the instruction in two";
                format!("it is a {}th word, and {limit} may be held. {advice}", limit + 1)
            }
            Problem::WordsLeft(0) => "no word is left, where one is needed. Write the expression's tokens".into(),
            Problem::WordsLeft(left) => {
                let advice = "Join them with an operator, or leave out what is too much";
                format!("{left} words are left, where one is needed. {advice}")
            }
        }
    }

    pub fn json(self, inputs: usize) -> Json {
        match self {
            Problem::NoToken(byte) => object([("kind", "no such token".into()), ("byte", u32::from(byte).into())]),
            Problem::BytesMissing(missing) => object([("kind", "bytes missing".into()), ("missing", missing.into())]),
            Problem::NoSymbol(symbol) => object([
                ("kind", "no such symbol".into()),
                ("symbol", u32::from(symbol).into()),
                ("inputs", inputs.into()),
            ]),
            Problem::EmptyStack { needs, held } => {
                object([("kind", "empty stack".into()), ("needs", needs.into()), ("held", held.into())])
            }
            Problem::TooManyWords(limit) => object([("kind", "too many words".into()), ("limit", limit.into())]),
            Problem::WordsLeft(left) => object([("kind", "words left".into()), ("left", left.into())]),
        }
    }
}

fn words(count: usize) -> String {
    if count == 1 {
        return "1 word".into();
    }
    format!("{count} words")
}

fn held_words(held: usize) -> String {
    match held {
        0 => "none is held".into(),
        1 => "1 is held".into(),
        _ => format!("{held} are held"),
    }
}
