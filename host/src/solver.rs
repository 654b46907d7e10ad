//! Solvers of SMT-LIB scripts, run as programs: what one answers, or how it fails. Its output is read strictly: what is
//! not an answer in every letter is a failure, and so is an answer of a program that crashes.

mod reading;

pub use reading::literal;

use std::fmt;
use std::io::{self, Read, Write};
use std::path::PathBuf;
use std::process::{Child, Command, ExitStatus, Stdio};
use std::sync::mpsc::{self, Receiver, RecvTimeoutError, SyncSender};
use std::thread;
use std::time::{Duration, Instant};

/// More output than this is no answer: the words of 64 inputs take two thousand bytes.
const OUTPUT_LIMIT: usize = 1 << 20;
/// How often a program that has closed its output is asked whether it has ended.
const INTERVAL: Duration = Duration::from_millis(2);
/// How much longer than it is waited for a solver works at most, should nobody be left to end it.
const GRACE: Duration = Duration::from_secs(2);

/// A solver that reads a script from standard input.
#[derive(Clone, Debug, PartialEq, Eq)]
pub enum Solver {
    Z3,
    Cvc5,
    /// A program that is called as z3 is.
    Program(PathBuf),
}

#[derive(Clone, Debug, PartialEq, Eq)]
pub enum Answer {
    /// With a word for each symbol that was asked for, and what was printed.
    Sat {
        words: Vec<u32>,
        output: String,
    },
    Unsat,
}

/// What a program that ended has printed.
pub struct Printed {
    pub output: String,
    pub errors: String,
    pub status: ExitStatus,
}

/// Why there is no answer, and what was printed.
#[derive(Debug)]
pub struct Failure {
    pub fault: Fault,
    pub output: String,
    pub errors: String,
}

#[derive(Debug, PartialEq, Eq)]
pub enum Fault {
    NotStarted(String),
    Silent(Duration),
    Endless,
    Crashed(String),
    Unknown,
    Garbled,
}

impl fmt::Display for Fault {
    fn fmt(&self, f: &mut fmt::Formatter) -> fmt::Result {
        match self {
            Fault::NotStarted(why) => write!(f, "cannot be started: {why}"),
            Fault::Silent(time) => write!(f, "gave no answer within {} s", time.as_secs_f64()),
            Fault::Endless => write!(f, "printed more than {OUTPUT_LIMIT} bytes"),
            Fault::Crashed(status) => write!(f, "did not end well: {status}"),
            Fault::Unknown => write!(f, "answered that it does not know"),
            Fault::Garbled => write!(f, "printed what is no answer"),
        }
    }
}

impl Solver {
    /// Those that are asked by their names.
    pub const ALL: [Solver; 2] = [Solver::Z3, Solver::Cvc5];

    /// By its name, or the path of its program.
    pub fn named(name: &str) -> Solver {
        match name {
            "z3" => Solver::Z3,
            "cvc5" => Solver::Cvc5,
            path => Solver::Program(path.into()),
        }
    }

    pub fn name(&self) -> String {
        match self {
            Solver::Z3 => "z3".into(),
            Solver::Cvc5 => "cvc5".into(),
            Solver::Program(path) => path.display().to_string(),
        }
    }

    /// Whether a script can be satisfied, and the words of these symbols then. The solver is ended when the time is
    /// over.
    pub fn ask<S: AsRef<str>>(&self, script: &[u8], symbols: &[S], timeout: Duration) -> Result<Answer, Failure> {
        let Printed { output, errors, status } = self.print(question(script, symbols), timeout)?;
        read(&output, status, symbols).map_err(|fault| Failure { fault, output, errors })
    }

    /// What it prints for a text of commands, if it ends by the time that it is given.
    pub fn print(&self, text: Vec<u8>, timeout: Duration) -> Result<Printed, Failure> {
        let deadline = Instant::now() + timeout;
        let mut child = self.start(timeout).map_err(|error| Failure {
            fault: Fault::NotStarted(error.to_string()),
            output: String::new(),
            errors: String::new(),
        })?;
        feed(&mut child, text);
        let [output, errors] = [listen(child.stdout.take()), listen(child.stderr.take())];
        let (output, is_whole) = gather(&output, deadline);
        let status = end(&mut child, if is_whole { deadline } else { Instant::now() });
        let (errors, _) = gather(&errors, Instant::now() + 10 * INTERVAL);
        let fault = match status {
            _ if output.len() > OUTPUT_LIMIT => Fault::Endless,
            None => Fault::Silent(timeout),
            Some(status) => return Ok(Printed { output, errors, status }),
        };
        Err(Failure { fault, output, errors })
    }

    fn start(&self, timeout: Duration) -> io::Result<Child> {
        let limit = timeout + GRACE;
        let mut command = match self {
            Solver::Z3 => Command::new("z3"),
            Solver::Cvc5 => Command::new("cvc5"),
            Solver::Program(path) => Command::new(path),
        };
        match self {
            Solver::Cvc5 => {
                command.args(["--lang=smt2", "--produce-models", &format!("--tlimit={}", limit.as_millis())])
            }
            Solver::Z3 | Solver::Program(_) => command.args(["-in", &format!("-T:{}", limit.as_secs())]),
        };
        command.stdin(Stdio::piped()).stdout(Stdio::piped()).stderr(Stdio::piped()).spawn()
    }
}

/// The script, and behind it what asks for the symbols' words.
pub fn question<S: AsRef<str>>(script: &[u8], symbols: &[S]) -> Vec<u8> {
    if symbols.is_empty() {
        return script.to_vec();
    }
    let names: Vec<&str> = symbols.iter().map(AsRef::as_ref).collect();
    [script, format!("(get-value ({}))\n", names.join(" ")).as_bytes()].concat()
}

/// Hands a text over as fast as it is read, or not at all where nobody reads it.
fn feed(child: &mut Child, text: Vec<u8>) {
    let stdin = child.stdin.take();
    thread::spawn(move || stdin.map(|mut stdin| stdin.write_all(&text)));
}

/// What comes from a program, piece by piece; the channel ends where that ends.
fn listen(source: Option<impl Read + Send + 'static>) -> Receiver<Vec<u8>> {
    let (sender, receiver) = mpsc::sync_channel(4);
    thread::spawn(move || source.and_then(|source| pass_on(source, sender)));
    receiver
}

/// Until there is no more, or nobody listens.
fn pass_on(mut source: impl Read, sender: SyncSender<Vec<u8>>) -> Option<()> {
    let mut piece = vec![0; 1 << 16];
    loop {
        let length = source.read(&mut piece).ok().filter(|length| *length > 0)?;
        sender.send(piece[..length].to_vec()).ok()?;
    }
}

/// What is printed until the deadline, and whether that is all. It is read no further than the limit.
fn gather(pieces: &Receiver<Vec<u8>>, deadline: Instant) -> (String, bool) {
    let mut bytes = Vec::new();
    let is_whole = loop {
        match pieces.recv_timeout(deadline.saturating_duration_since(Instant::now())) {
            Ok(piece) => bytes.extend(piece),
            Err(RecvTimeoutError::Disconnected) => break true,
            Err(RecvTimeoutError::Timeout) => break false,
        }
        if bytes.len() > OUTPUT_LIMIT {
            break false;
        }
    };
    (String::from_utf8_lossy(&bytes).into_owned(), is_whole)
}

/// How a program ends by the deadline; one that does not is killed.
fn end(child: &mut Child, deadline: Instant) -> Option<ExitStatus> {
    loop {
        if let Ok(Some(status)) = child.try_wait() {
            return Some(status);
        }
        if Instant::now() >= deadline {
            let _ = child.kill();
            let _ = child.wait();
            return None;
        }
        thread::sleep(INTERVAL);
    }
}

/// An answer is one only from a program that ends well. Behind unsat there are no words to ask for, which is then said
/// as an error.
fn read<S: AsRef<str>>(output: &str, status: ExitStatus, symbols: &[S]) -> Result<Answer, Fault> {
    let output = output.trim_ascii();
    let (word, rest) = output.split_once(|c: char| c.is_ascii_whitespace()).unwrap_or((output, ""));
    let ends_well = status.success();
    match word {
        "unsat" if ends_well && rest.is_empty() => Ok(Answer::Unsat),
        "unsat" if status.code().is_some() && !symbols.is_empty() && reading::is_error(rest) => Ok(Answer::Unsat),
        _ if !ends_well => Err(Fault::Crashed(status.to_string())),
        "sat" => {
            let words = reading::words(rest, symbols).ok_or(Fault::Garbled)?;
            Ok(Answer::Sat { words, output: output.to_string() })
        }
        "unknown" => Err(Fault::Unknown),
        _ => Err(Fault::Garbled),
    }
}
