//! A program that is given all of its standard input.

use std::io::{self, ErrorKind, Write};
use std::process::{ChildStdin, Command, Output, Stdio};
use std::thread;

/// What the program leaves.
pub fn run(command: &mut Command, input: &[u8]) -> io::Result<Output> {
    let mut program = command.stdin(Stdio::piped()).stdout(Stdio::piped()).stderr(Stdio::piped()).spawn()?;
    let stdin = program.stdin.take().expect("standard input is piped");
    thread::scope(|scope| {
        scope.spawn(|| feed(stdin, input));
        program.wait_with_output()
    })
}

/// Writes all, unless the program ends without reading so far, as it may.
fn feed(mut stdin: ChildStdin, input: &[u8]) {
    match stdin.write_all(input) {
        Err(error) if error.kind() != ErrorKind::BrokenPipe => panic!("standard input: {error}"),
        _ => {}
    }
}
