//! `.hex` files are read in one way: by `tools/hex`, for the scripts, and by `host::hex`, for the command and the tests.

use std::fs;
use std::path::{Path, PathBuf};
use std::process::Command;

use host::hex::{self, NoByte};

const ROOT: &str = concat!(env!("CARGO_MANIFEST_DIR"), "/..");

/// What `tools/hex` writes for a file, or what it says.
fn by_command(file: &Path) -> Result<Vec<u8>, String> {
    let done = Command::new(Path::new(ROOT).join("tools/hex")).arg(file).output().expect("tools/hex runs");
    if done.status.success() {
        return Ok(done.stdout);
    }
    assert!(done.stdout.is_empty(), "a refused file writes nothing");
    Err(String::from_utf8(done.stderr).expect("a message in UTF-8"))
}

/// A file of this text among the temporary ones.
fn file(name: &str, text: &str) -> PathBuf {
    let path = std::env::temp_dir().join(format!("kadvitul-{}-{name}.hex", std::process::id()));
    fs::write(&path, text).expect("a temporary file");
    path
}

/// Both readings of a text.
fn read(name: &str, text: &str) -> (Result<Vec<u8>, NoByte>, Result<Vec<u8>, String>) {
    let path = file(name, text);
    let read = (hex::bytes(text), by_command(&path));
    fs::remove_file(path).expect("the temporary file is there");
    read
}

#[test]
fn the_sample_rules_are_read_alike() {
    for entry in fs::read_dir(Path::new(ROOT).join("rules")).expect("the folder rules/") {
        let path = entry.expect("an entry").path();
        if path.extension().is_some_and(|extension| extension == "hex") {
            let text = fs::read_to_string(&path).expect("a text");
            assert_eq!(hex::bytes(&text).ok(), by_command(&path).ok(), "{}", path.display());
        }
    }
}

#[test]
fn a_comment_may_stand_anywhere_and_lines_may_end_as_they_like() {
    for (name, text) in [
        ("behind", "01 00 # add dec\n06 00\n"),
        ("alone", "# * is no file name\n  # 01\n01 00 06 00\n"),
        ("windows", "01 00 # add dec\r\n\r\n06\t00\r\n"),
        ("unended", "01 00 06 00"),
        ("close", "01 00 06 00#dec"),
    ] {
        let (ours, theirs) = read(name, text);
        assert_eq!(ours.expect(name), [1, 0, 6, 0], "{name}");
        assert_eq!(theirs.expect(name), [1, 0, 6, 0], "{name}");
    }
}

#[test]
fn a_word_that_is_no_byte_is_named_with_its_line() {
    for (name, text, line, word) in [
        ("odd", "01 00\n# 0\n0\n", 3, "0"),
        ("star", "01 *\n", 1, "*"),
        ("long", "01\n\n010\n", 3, "010"),
        ("sign", "+1\n", 1, "+1"),
        ("letters", "01 0g", 1, "0g"),
    ] {
        let (ours, theirs) = read(name, text);
        assert_eq!(ours, Err(NoByte { line, word: word.to_string() }), "{name}");
        let said = theirs.expect_err(name);
        assert!(said.contains(&format!("line {line}: \"{word}\" is no byte")), "{name}: {said}");
    }
}

#[test]
fn an_empty_file_has_no_bytes() {
    let (ours, theirs) = read("empty", "");
    assert_eq!((ours, theirs), (Ok(vec![]), Ok(vec![])));
}
