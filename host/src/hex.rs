//! Bytes written as text, in a .hex file: two hexadecimal digits a byte, blanks, tabs and line ends (LF or CRLF) between them, and comments
//! from `#` to the line's end. `tools/hex` reads the same; `tests/hex.rs` holds the two to each other.

/// A word that is no byte, and its line, counted from 1.
#[derive(Debug, PartialEq, Eq)]
pub struct NoByte {
    pub line: usize,
    pub word: String,
}

/// The bytes of a text, or the first word that is none.
pub fn bytes(text: &str) -> Result<Vec<u8>, NoByte> {
    let mut bytes = Vec::new();
    for (number, line) in text.lines().enumerate() {
        let said = line.split('#').next().unwrap_or("");
        for word in said.split([' ', '\t', '\r']).filter(|word| !word.is_empty()) {
            let byte = byte(word).ok_or_else(|| NoByte { line: number + 1, word: word.to_string() })?;
            bytes.push(byte);
        }
    }
    Ok(bytes)
}

/// Bytes as such a text, on one line.
pub fn text(bytes: &[u8]) -> String {
    let words: Vec<String> = bytes.iter().map(|byte| format!("{byte:02X}")).collect();
    words.join(" ")
}

fn byte(word: &str) -> Option<u8> {
    let is_byte = word.len() == 2 && word.bytes().all(|letter| letter.is_ascii_hexdigit());
    if is_byte {
        u8::from_str_radix(word, 16).ok()
    } else {
        None
    }
}
