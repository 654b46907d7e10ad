//! The command does not contain the model that tests hold the archive to.

use std::fs;
use std::path::Path;

use crate::program::KADVITUL;

/// How the linker names what is in the model.
const MODEL: &[u8] = b"4host5model";

fn has_model(program: &str) -> bool {
    let bytes = fs::read(program).expect("a program");
    bytes.windows(MODEL.len()).any(|window| window == MODEL)
}

#[test]
fn no_code_of_the_model_is_in_the_command() {
    assert!(has_model(env!("CARGO_BIN_EXE_soak")), "the model is not found where it is");
    assert!(!has_model(KADVITUL));
}

#[test]
fn no_module_of_the_command_names_the_model() {
    let source = Path::new(env!("CARGO_MANIFEST_DIR")).join("src");
    let mut due =
        vec![source.join("cli"), source.join("cli.rs"), source.join("solver.rs"), source.join("bin/kadvitul.rs")];
    let mut read = 0;
    while let Some(path) = due.pop() {
        if path.is_dir() {
            due.extend(fs::read_dir(&path).expect("a folder").map(|entry| entry.expect("an entry").path()));
        } else if path.extension().is_some_and(|extension| extension == "rs") {
            let text = fs::read_to_string(&path).expect("a source");
            assert!(!text.contains("model::"), "{}", path.display());
            read += 1;
        }
    }
    assert!(read >= 15, "{read} files");
}
