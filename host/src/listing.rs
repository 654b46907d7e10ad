//! Document 01, "A small rule, worked": the text that the slice printer gives for a trace, read back into its bytes.

use std::str::FromStr;

use crate::encoding;
use crate::statement::{assert, assign, assume, bound, read as symbol_token};

/// Each operator's name and byte.
pub const OPERATORS: [(&str, u8); 18] = [
    ("not", 0x10),
    ("neg", 0x11),
    ("zero", 0x12),
    ("add", 0x20),
    ("sub", 0x21),
    ("mul", 0x22),
    ("udiv", 0x23),
    ("urem", 0x24),
    ("and", 0x25),
    ("or", 0x26),
    ("xor", 0x27),
    ("shl", 0x28),
    ("lshr", 0x29),
    ("equal", 0x2A),
    ("ult", 0x2B),
    ("slt", 0x2C),
    ("ule", 0x2D),
    ("ite", 0x30),
];

/// The trace of a text whose first line is left out.
pub fn trace<L: AsRef<str>>(inputs: u8, lines: &[L]) -> Vec<u8> {
    read(inputs, lines).unwrap_or_else(|error| panic!("{error}"))
}

/// As `trace`, or why there is none.
pub fn read<L: AsRef<str>>(inputs: u8, lines: &[L]) -> Result<Vec<u8>, String> {
    let statements: Vec<Vec<u8>> = lines.iter().map(|line| statement(line.as_ref())).collect::<Result<_, _>>()?;
    Ok(encoding::trace(inputs, &statements))
}

/// The bytes of an expression, or of a part of one.
pub fn expression(text: &str) -> Vec<u8> {
    let tokens: Vec<&str> = text.split(' ').collect();
    read_expression(&tokens).unwrap_or_else(|error| panic!("{error}"))
}

fn statement(line: &str) -> Result<Vec<u8>, String> {
    match line.split(' ').collect::<Vec<&str>>()[..] {
        [place, "assign", new, ref tokens @ ..] => Ok(assign(number(place)?, symbol(new)?, &read_expression(tokens)?)),
        [place, "assume", ref tokens @ ..] => Ok(assume(number(place)?, &read_expression(tokens)?)),
        [place, "assert", ref tokens @ ..] => Ok(assert(number(place)?, &read_expression(tokens)?)),
        [place, "bound", ref tokens @ ..] => Ok(bound(number(place)?, &read_expression(tokens)?)),
        _ => Err(format!("{line} is no statement")),
    }
}

fn read_expression(tokens: &[&str]) -> Result<Vec<u8>, String> {
    let bytes: Vec<Vec<u8>> = tokens.iter().map(|token| bytes(token)).collect::<Result<_, _>>()?;
    Ok(bytes.concat())
}

fn bytes(token: &str) -> Result<Vec<u8>, String> {
    if let Some((_, operator)) = OPERATORS.iter().find(|(name, _)| *name == token) {
        return Ok(vec![*operator]);
    }
    if token.starts_with('s') {
        return symbol(token).map(symbol_token);
    }
    let word: u32 = number(token)?;
    Ok([&[0x01][..], &word.to_be_bytes()].concat())
}

fn symbol(token: &str) -> Result<u16, String> {
    token.strip_prefix('s').map_or_else(|| Err(format!("{token} is no symbol")), number)
}

fn number<N: FromStr>(field: &str) -> Result<N, String> {
    field.parse().map_err(|_| format!("{field} is no number"))
}
