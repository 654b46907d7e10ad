//! The slice printer, run as the program that `make print` builds.

use std::io;
use std::path::Path;
use std::process::Command;

use crate::process;

const PROGRAM: &str = concat!(env!("CARGO_MANIFEST_DIR"), "/../target/bin/print_slice");

/// What the program leaves.
pub struct Printed {
    /// Its standard output.
    pub text: Vec<u8>,
    /// None where a signal ended it.
    pub exit_status: Option<i32>,
    pub is_error_empty: bool,
}

impl Printed {
    /// A text, and no complaint in any other way.
    pub fn just(text: impl Into<Vec<u8>>) -> Printed {
        Printed { text: text.into(), exit_status: Some(0), is_error_empty: true }
    }
}

/// Says what is missing.
pub fn find() -> Result<(), String> {
    if Path::new(PROGRAM).is_file() {
        return Ok(());
    }
    Err("target/bin/print_slice is missing; `make print` builds it".into())
}

pub fn print_slice(input: &[u8]) -> Printed {
    find().unwrap_or_else(|missing| panic!("{missing}"));
    feed_to(&mut Command::new(PROGRAM), input).unwrap_or_else(|error| panic!("{PROGRAM}: {error}"))
}

/// What a program leaves that is given an input.
pub fn feed_to(command: &mut Command, input: &[u8]) -> io::Result<Printed> {
    let output = process::run(command, input)?;
    Ok(Printed { text: output.stdout, exit_status: output.status.code(), is_error_empty: output.stderr.is_empty() })
}
