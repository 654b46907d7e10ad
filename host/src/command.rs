//! The command that repeats one case, from any folder.

const FOLDER: &str = env!("CARGO_MANIFEST_DIR");
const SOAK: &str = "cargo run --offline --release --quiet --bin soak";

/// The generated case of a check and a seed.
pub fn seeded(check: &str, seed: u64) -> String {
    format!("cd {FOLDER} && CASE={check} SEED={seed} {SOAK}")
}

/// A case whose answer is known, by its name.
pub fn known(case: &str, name: &str) -> String {
    format!("cd {FOLDER} && CASE={case} KNOWN={} {SOAK}", quoted(name))
}

/// An operator's word, by its operands.
pub fn term(operator: &str, words: &str) -> String {
    format!("cd {FOLDER} && OPERATOR={operator} WORDS={words} cargo test --offline --release --quiet --test operators")
}

/// One word of a shell.
pub fn quoted(text: &str) -> String {
    format!("'{}'", text.replace('\'', r"'\''"))
}
