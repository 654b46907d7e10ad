//! What a solver prints behind its answer: the values of symbols, as `get-value` gives them, or an error.

/// The words of these symbols, in this order, and nothing else: `((s0 #x00000000) (s1 #b00..0) (s2 (_ bv5 32)))`.
pub fn words<S: AsRef<str>>(text: &str, symbols: &[S]) -> Option<Vec<u32>> {
    let pieces = pieces(text);
    let mut rest = &pieces[..];
    let mut words = Vec::new();
    if !symbols.is_empty() {
        take(&mut rest, "(")?;
        for symbol in symbols {
            take(&mut rest, "(")?;
            take(&mut rest, symbol.as_ref())?;
            words.push(word(&mut rest)?);
            take(&mut rest, ")")?;
        }
        take(&mut rest, ")")?;
    }
    rest.is_empty().then_some(words)
}

/// `(error "..")`, and nothing behind it.
pub fn is_error(text: &str) -> bool {
    let message = text.strip_prefix("(error \"").and_then(|rest| rest.strip_suffix("\")"));
    message.is_some_and(|message| !message.replace("\"\"", "").contains('"'))
}

/// Brackets, and what stands between them and blanks.
fn pieces(text: &str) -> Vec<&str> {
    let is_bracket = |c: char| c == '(' || c == ')';
    let parts = text.split_ascii_whitespace().flat_map(|part| part.split_inclusive(is_bracket));
    let split = parts.flat_map(|part| match part.strip_suffix(is_bracket) {
        Some(before) => [before, &part[before.len()..]],
        None => [part, ""],
    });
    split.filter(|piece| !piece.is_empty()).collect()
}

fn take(rest: &mut &[&str], expected: &str) -> Option<()> {
    let (first, behind) = rest.split_first()?;
    *rest = behind;
    (*first == expected).then_some(())
}

fn word(rest: &mut &[&str]) -> Option<u32> {
    let (word, behind) = match **rest {
        ["(", "_", digits, "32", ")", ref behind @ ..] => (number(digits.strip_prefix("bv")?, 10), behind),
        [digits, ref behind @ ..] => (literal(digits), behind),
        [] => return None,
    };
    *rest = behind;
    word
}

/// A constant of 32 bits, in hexadecimal or in binary digits.
pub fn literal(text: &str) -> Option<u32> {
    match text.split_at_checked(2)? {
        ("#x", digits) => number(digits, 16).filter(|_| digits.len() == 8),
        ("#b", digits) => number(digits, 2).filter(|_| digits.len() == 32),
        _ => None,
    }
}

/// Of digits alone.
fn number(digits: &str, radix: u32) -> Option<u32> {
    u32::from_str_radix(digits, radix).ok().filter(|_| digits.chars().all(|digit| digit.is_digit(radix)))
}
