//! The command `kadvitul`: from a rule to a confirmed counterexample. The proved archive reads, runs, traces, judges,
//! slices and writes scripts; what is here reads arguments and files, asks a solver, and puts answers into words.
//! Nothing here uses the model that tests hold the archive to.

mod arguments;
pub mod check;
pub mod ending;
mod expression;
pub mod fault;
mod graph;
mod json;
pub mod path;
mod progress;
pub mod proved;
mod refusal;
pub mod rule;
mod run;
mod script;
mod show;
mod slice;
mod source;
pub mod text;

use std::env;
use std::ffi::OsString;
use std::io::{self, ErrorKind, Write};
use std::process::ExitCode;

use arguments::Asked;
use json::{object, Json};

/// Exit status: no violation, or the work is done.
const DONE: u8 = 0;
/// Exit status: unsafe, and confirmed.
const UNSAFE: u8 = 1;
/// Exit status: misuse, or a solver or another program that fails.
const FAILED: u8 = 2;
/// Exit status: the archive refuses.
const REFUSED: u8 = 3;

/// What is said at the end: to people on standard output, or on standard error where something is wrong; to programs as
/// JSON.
pub struct Answer {
    status: u8,
    text: String,
    json: Json,
}

/// An answer, or one that says why there is none.
type Outcome = Result<Answer, Answer>;

/// Something is wrong that the archive has no part in.
fn failed(what: &str, message: String) -> Answer {
    let json = object([("answer", what.into()), ("message", message.as_str().into())]);
    Answer { status: FAILED, text: message + "\n", json }
}

fn misuse(message: String) -> Answer {
    failed("misuse", message)
}

pub fn main() -> ExitCode {
    let program = env::args_os().next().map_or("kadvitul".into(), |name| name.to_string_lossy().into_owned());
    let arguments: Vec<OsString> = env::args_os().skip(1).collect();
    let is_for_programs = arguments.iter().any(|argument| argument == "--json");
    let (asked, outcome) = match arguments::read(&program, arguments) {
        Ok(Asked::Help(text)) => return tell(text.as_bytes(), DONE),
        Ok(Asked::Work(request)) => {
            (Some((request.command.name, request.rule.clone())), (request.command.answer)(&request))
        }
        Err(answer) => (None, Err(answer)),
    };
    let Answer { status, text, json } = outcome.unwrap_or_else(|answer| answer);
    if is_for_programs {
        let (command, rule) = asked.unzip();
        let json = json.with("status", u32::from(status)).with("rule", rule).with("command", command);
        return tell(format!("{json}\n").as_bytes(), status);
    }
    if status >= FAILED {
        complain(&text);
        return status.into();
    }
    tell(text.as_bytes(), status)
}

/// Writes to standard error, if anything can be written there.
fn complain(text: &str) {
    let _ = io::stderr().write_all(format!("kadvitul: {text}").as_bytes());
}

/// Writes to standard output; a reader that has seen enough is no fault.
fn tell(text: &[u8], status: u8) -> ExitCode {
    let mut out = io::stdout().lock();
    match out.write_all(text).and_then(|()| out.flush()) {
        Err(error) if error.kind() != ErrorKind::BrokenPipe => {
            complain(&format!("standard output cannot be written: {error}\n"));
            FAILED.into()
        }
        _ => status.into(),
    }
}
