//! Document 01, "Arithmetic": expressions of a table or a trace in words, as the file has them and as people write
//! them.

use crate::encoding::Form;
use crate::listing::OPERATORS;

/// What stands where in a row of tokens.
#[derive(Clone, Copy, Debug, PartialEq, Eq)]
pub enum Token {
    Constant(u32),
    Symbol(u16),
    /// By its byte.
    Operator(u8),
}

impl Token {
    /// How many bytes the token has that begins with this one; nothing where there is no such token.
    pub fn size(form: Form, first: u8) -> Option<usize> {
        match (form, first) {
            (_, 1) => Some(5),
            (Form::Table, 2) => Some(2),
            (Form::Trace | Form::OldTrace, 3) => Some(3),
            (_, code) => operator_name(code).map(|_| 1),
        }
    }

    /// The token at the start of some bytes, and how many of them it takes.
    pub fn read(form: Form, bytes: &[u8]) -> Option<(Token, usize)> {
        let size = Token::size(form, *bytes.first()?)?;
        let token = match *bytes.get(..size)? {
            [_, a, b, c, d] => Token::Constant(u32::from_be_bytes([a, b, c, d])),
            [_, symbol] => Token::Symbol(symbol.into()),
            [_, high, low] => Token::Symbol(u16::from_be_bytes([high, low])),
            [code, ..] => Token::Operator(code),
            [] => return None,
        };
        Some((token, size))
    }

    /// How many words it takes from the stack.
    pub fn pops(self) -> usize {
        match self {
            Token::Constant(_) | Token::Symbol(_) => 0,
            Token::Operator(code) => usize::from(code >> 4),
        }
    }

    /// As the printer writes it.
    pub fn name(self) -> String {
        match self {
            Token::Constant(word) => word.to_string(),
            Token::Symbol(symbol) => format!("s{symbol}"),
            Token::Operator(code) => operator_name(code).unwrap_or_default().to_string(),
        }
    }
}

fn operator_name(code: u8) -> Option<&'static str> {
    OPERATORS.iter().find(|(_, operator)| *operator == code).map(|(name, _)| *name)
}

/// How far an expression can be read: its tokens, and the bytes from the first that is none.
pub fn tokens(form: Form, expression: &[u8]) -> (Vec<Token>, &[u8]) {
    let mut tokens = Vec::new();
    let mut rest = expression;
    while let Some((token, length)) = Token::read(form, rest) {
        tokens.push(token);
        rest = &rest[length..];
    }
    (tokens, rest)
}

/// Tokens by name, each operator behind its operands.
pub fn postfix(tokens: &[Token]) -> String {
    let names: Vec<String> = tokens.iter().map(|token| token.name()).collect();
    names.join(" ")
}

/// The tokens of an accepted expression, with operators between their operands.
pub fn infix(tokens: &[Token]) -> String {
    let starts = starts(tokens);
    let mut text = String::new();
    let mut due = vec![Piece::Whole(tokens.len() - 1)];
    while let Some(piece) = due.pop() {
        match piece {
            Piece::Text(letters) => text.push_str(letters),
            Piece::Part(last) if tokens[last].pops() > 0 => {
                due.extend([Piece::Text(")"), Piece::Whole(last), Piece::Text("(")]);
            }
            Piece::Part(last) => text.push_str(&tokens[last].name()),
            Piece::Whole(last) => due.extend(pieces(tokens, &starts, last).into_iter().rev()),
        }
    }
    text
}

/// What is still to be written: letters, or the expression that a token ends, in brackets where it stands within
/// another.
enum Piece {
    Text(&'static str),
    Part(usize),
    Whole(usize),
}

/// Where the expression that each token ends begins.
fn starts(tokens: &[Token]) -> Vec<usize> {
    let mut starts = Vec::new();
    for (i, token) in tokens.iter().enumerate() {
        let first = (0..token.pops()).fold(i, |behind, _| starts[behind - 1]);
        starts.push(first);
    }
    starts
}

fn pieces(tokens: &[Token], starts: &[usize], last: usize) -> Vec<Piece> {
    let Token::Operator(code) = tokens[last] else {
        return vec![Piece::Part(last)];
    };
    let right = last - 1;
    if tokens[last].pops() == 1 {
        return vec![Piece::Text(sign(code)), Piece::Part(right)];
    }
    let middle = starts[right] - 1;
    if tokens[last].pops() == 2 {
        return vec![Piece::Part(middle), Piece::Text(sign(code)), Piece::Part(right)];
    }
    let left = starts[middle] - 1;
    vec![Piece::Part(left), Piece::Text(" ? "), Piece::Part(middle), Piece::Text(" : "), Piece::Part(right)]
}

/// How an operator of one or two operands is written before or between them.
fn sign(code: u8) -> &'static str {
    match code {
        0x10 => "~",
        0x11 => "-",
        0x12 => "!",
        0x20 => " + ",
        0x21 => " - ",
        0x22 => " * ",
        0x23 => " / ",
        0x24 => " % ",
        0x25 => " & ",
        0x26 => " | ",
        0x27 => " ^ ",
        0x28 => " << ",
        0x29 => " >> ",
        0x2A => " == ",
        0x2B => " < ",
        0x2C => " <s ",
        0x2D => " <= ",
        _ => " ? ",
    }
}

/// Which inputs there are.
pub fn inputs_in_words(inputs: usize) -> String {
    match inputs {
        0 => "the rule has no inputs".into(),
        1 => "the rule has one input, s0".into(),
        _ => format!("the rule has the inputs s0 to s{}", inputs - 1),
    }
}
