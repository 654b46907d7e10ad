//! The program as a shell runs it, from the folder of these tests.

use std::env;
use std::fs;
use std::path::{Path, PathBuf};
use std::process::{Command, Output};

pub const KADVITUL: &str = env!("CARGO_BIN_EXE_kadvitul");
pub const FOLDER: &str = concat!(env!("CARGO_MANIFEST_DIR"), "/tests/cli");

/// A folder for temporary files, which ends with its owner.
pub struct Scratch(PathBuf);

impl Scratch {
    /// Below a folder, by a name that no other test has.
    pub fn new(parent: impl AsRef<Path>, name: &str) -> Scratch {
        let path = parent.as_ref().join(format!("kadvitul-{name}-{}", std::process::id()));
        fs::create_dir_all(&path).expect("a temporary folder");
        Scratch(path)
    }

    pub fn path(&self) -> &Path {
        &self.0
    }
}

impl Drop for Scratch {
    fn drop(&mut self) {
        let _ = fs::remove_dir_all(&self.0);
    }
}

/// What a line of a shell leaves, in which `kadvitul` is the command, $KADVITUL its path, $TMPDIR a folder for
/// temporary files, and $OUTSIDE one that is not below the project's.
pub fn shell(line: &str, name: &str) -> Output {
    let temporary = Scratch::new(env!("CARGO_TARGET_TMPDIR"), name);
    let outside = Scratch::new(env::temp_dir(), name);
    let folder = Path::new(KADVITUL).parent().expect("a program's folder");
    let path = format!("{}:{}", folder.display(), env::var("PATH").unwrap_or_default());
    let mut command = Command::new("bash");
    command.args(["-c", line]).current_dir(FOLDER).env("PATH", path).env("KADVITUL", KADVITUL);
    command.env("TMPDIR", temporary.path()).env("OUTSIDE", outside.path());
    command.output().expect("bash runs")
}

/// The command that repeats a line.
pub fn repeat(line: &str) -> String {
    let folder = "host/target/release";
    let setting = format!("export KADVITUL=$PWD/{folder}/kadvitul PATH=$PWD/{folder}:$PATH");
    format!("{setting} TMPDIR=$(mktemp -d) OUTSIDE=$(mktemp -d); cd host/tests/cli; {line}")
}
