//! Where a rule comes from: a file, standard input, or the samples of the project's folder.

use std::env;
use std::fs::{self, File};
use std::io::{self, Read};
use std::path::{Path, PathBuf};

use super::{misuse, Answer};
use crate::hex::{self, NoByte};

/// No table has more bytes than one less; what follows changes no answer.
const BYTES_READ: u64 = 65_536;
/// No table takes so much text.
const TEXT_LIMIT: u64 = 1 << 24;

/// The bytes of a rule that is named by a path, by `-` or as a sample.
pub fn read(name: &str, is_hex: bool) -> Result<Vec<u8>, Answer> {
    if name == "-" {
        return bytes("standard input", io::stdin(), is_hex);
    }
    let path = find(name)?;
    let is_hex = is_hex || path.extension().is_some_and(|extension| extension == "hex");
    let file = File::open(&path).map_err(|error| unreadable(name, &error))?;
    bytes(name, file, is_hex)
}

/// A file by its path, before a sample by its name.
fn find(name: &str) -> Result<PathBuf, Answer> {
    let path = Path::new(name);
    if path.exists() && !path.is_dir() {
        return Ok(path.into());
    }
    let is_sample = samples().iter().any(|sample| sample == name);
    let sample = rules().filter(|_| is_sample).map(|folder| folder.join(format!("{name}.hex")));
    sample.ok_or_else(|| misuse(format!("no rule '{name}'. {}", advice())))
}

/// What can be given for a rule.
pub fn advice() -> String {
    let samples = samples();
    let or_sample =
        if samples.is_empty() { String::new() } else { format!(", or one of the samples {}", samples.join(" ")) };
    format!("Give the path of a table (.hex if it is hexadecimal text), - for standard input{or_sample}")
}

fn samples() -> Vec<String> {
    let files = rules().and_then(|folder| fs::read_dir(folder).ok()).into_iter().flatten().flatten();
    let paths =
        files.map(|file| file.path()).filter(|path| path.extension().is_some_and(|extension| extension == "hex"));
    let mut names: Vec<String> = paths.filter_map(|path| Some(path.file_stem()?.to_str()?.to_string())).collect();
    names.sort();
    names
}

fn rules() -> Option<PathBuf> {
    home().map(|folder| folder.join("rules"))
}

/// The project's folder: the nearest above this program that lists the crates.
pub fn home() -> Option<PathBuf> {
    let program = env::current_exe().ok()?.canonicalize().ok()?;
    program.ancestors().find(|folder| folder.join("crates.txt").is_file()).map(Path::to_path_buf)
}

fn bytes(name: &str, source: impl Read, is_hex: bool) -> Result<Vec<u8>, Answer> {
    let mut bytes = Vec::new();
    let limit = if is_hex { TEXT_LIMIT } else { BYTES_READ };
    source.take(limit).read_to_end(&mut bytes).map_err(|error| unreadable(name, &error))?;
    if !is_hex {
        return Ok(bytes);
    }
    if bytes.len() as u64 == TEXT_LIMIT {
        return Err(misuse(format!("{name} has {TEXT_LIMIT} bytes of text or more, which no rule needs. Give a rule")));
    }
    hex::bytes(&String::from_utf8_lossy(&bytes)).map_err(|NoByte { line, word }| {
        let advice = "Write two hexadecimal digits for each byte, and # before a comment";
        misuse(format!("{name}, line {line}: \"{word}\" is no byte. {advice}"))
    })
}

fn unreadable(name: &str, error: &io::Error) -> Answer {
    misuse(format!("{name} cannot be read: {error}. {}", advice()))
}
