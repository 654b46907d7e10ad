//! What `kadvitul check` says of what was found.

use std::fs::File;
use std::io::{self, ErrorKind, Write};
use std::{env, process};

use super::{Found, Question, Replay};
use crate::cli::arguments::Request;
use crate::cli::json::{object, Json};
use crate::cli::proved::{Judgement, Run};
use crate::cli::rule::Rule;
use crate::cli::run::{self, back_jumps, input_list, named};
use crate::cli::{refusal, Answer, Outcome, DONE, FAILED, UNSAFE};
use crate::command::quoted;
use crate::solver::{self, Failure, Fault};
use crate::verdict;

/// Of what a program printed, no more is shown.
const LINES_SHOWN: usize = 10;
const LETTERS_SHOWN: usize = 2_000;

/// Puts into words what was found.
pub struct Report<'a> {
    pub request: &'a Request,
    pub rule: &'a Rule,
    pub bound: u64,
    pub question: &'a Question,
}

impl Report<'_> {
    fn solver(&self) -> String {
        self.request.solver.name()
    }

    /// What is being done, for those who wait.
    pub fn work(&self) -> String {
        let [trace, slice] =
            [&self.question.trace, &self.question.slice.bytes].map(|t| u16::from_be_bytes([t[4], t[5]]));
        let (length, solver) = (self.question.script.len(), self.solver());
        let limit = self.request.timeout.as_secs();
        format!(
            "trace of {trace} statements, slice of {slice}; asking {solver}, script of {length} bytes, limit {limit} s"
        )
    }

    pub fn no_violation(&self) -> Answer {
        let solver = self.solver();
        let within = back_jumps(self.bound);
        let text =
            format!("no violation within {within}\nby the word of {solver}: unsat, for the script of the slice\n");
        let fields = [("answer", "no violation".into()), ("bound", self.bound.into()), ("solver", solver.into())];
        Answer { status: DONE, text, json: object(fields) }
    }

    pub fn replayed(&self, found: &Found) -> Outcome {
        let replay = self.question.replay(&found.words);
        let replay = replay.map_err(|refusal| refusal::answer(&self.rule.table, self.bound, refusal))?;
        match replay.unsafe_place() {
            Some(place) => Ok(self.confirmed(&found.words, place, replay.run)),
            None => Err(self.not_confirmed(found, &replay)),
        }
    }

    fn confirmed(&self, words: &[u32], place: u32, run: Run) -> Answer {
        let inputs: String = words.iter().enumerate().map(|(symbol, word)| self.input_line(symbol, *word)).collect();
        let text = format!(
            "{}inputs that make it fail\n{inputs}\
             confirmed: running the table, judging its trace and judging its slice are all unsafe at place {place}\n\
             again: {}\n",
            run::text(self.rule, self.bound, &run, None),
            self.again(words),
        );
        let free = (0..words.len()).filter(|symbol| !self.question.reads(*symbol));
        let free: Vec<String> = free.map(|symbol| format!("s{symbol}")).collect();
        let fields = [
            ("answer", "unsafe".into()),
            ("bound", self.bound.into()),
            ("inputs", named(words)),
            ("free", free.into()),
            ("place", place.into()),
            ("instruction", self.rule.at(place).0.into()),
            ("back_jumps", run.back_jumps.into()),
            ("solver", self.solver().into()),
            ("confirmed_by", vec!["run", "trace", "slice"].into()),
        ];
        Answer { status: UNSAFE, text, json: object(fields) }
    }

    fn input_line(&self, symbol: usize, word: u32) -> String {
        let hex = if word > 9 { format!(" = {word:#X}") } else { String::new() };
        let free =
            if self.question.reads(symbol) { "" } else { ", free: the slice does not read it, and any word will do" };
        format!("    s{symbol} = {word}{hex}{free}\n")
    }

    /// The command that shows it once more.
    fn again(&self, words: &[u32]) -> String {
        let hex = if self.request.has("--hex") { " --hex" } else { "" };
        let inputs = input_list(words).replace(" = ", "=").replace(',', "");
        let [program, rule] = [&self.request.program, &self.request.rule].map(|word| shell_word(word));
        format!("{program} run {rule}{hex} -k {} {inputs}", self.bound).trim_end().to_string()
    }

    /// A solver's inputs that do not make the rule fail: everything is shown.
    fn not_confirmed(&self, Found { words, output }: &Found, replay: &Replay) -> Answer {
        let solver = self.solver();
        let judged = [("run", replay.run.end), ("trace", replay.trace), ("slice", replay.slice)];
        let lines: String = judged.iter().map(|(what, end)| format!("    {what}: {}\n", in_words(*end))).collect();
        let script = self.keep_script();
        let text = format!(
            "check: {solver} answered sat, but its inputs do not make the rule fail. Nothing is known of the rule\n\
             {}its inputs: {}\nwith them, by the archive:\n{lines}the script is kept in {script}\n\
             Try another one with --solver, and report this: {solver}, the script or this command is at fault\n",
            shown("it printed", output),
            input_list(words),
        );
        let verdicts = judged.map(|(what, end)| (what.to_string(), in_words(end).into()));
        let fields = [
            ("answer", "not confirmed".into()),
            ("message", text.as_str().into()),
            ("inputs", named(words)),
            ("replay", Json::Object(verdicts.into())),
            ("solver", solver.into()),
            ("output", output.as_str().into()),
            ("script", script.into()),
        ];
        Answer { status: FAILED, text, json: object(fields) }
    }

    pub fn failed(&self, Failure { fault, output, errors }: &Failure) -> Answer {
        let solver = self.solver();
        let advice = match fault {
            Fault::NotStarted(_) => "Install it (apt-get install z3, or cvc5), or give --solver a program's path",
            Fault::Silent(_) | Fault::Unknown => {
                "Give it longer with --timeout, lower K, or try another one with --solver"
            }
            Fault::Crashed(_) | Fault::Garbled | Fault::Endless => "Try another one with --solver",
        };
        let script = Some(fault).filter(|fault| !matches!(fault, Fault::NotStarted(_))).map(|_| self.keep_script());
        let kept = script.as_ref().map_or(String::new(), |path| format!("the script is kept in {path}\n"));
        let printed = format!("{}{}", shown("it printed", output), shown("on standard error it printed", errors));
        let text = format!("check: {solver} {fault}. Nothing is known of the rule\n{printed}{kept}{advice}\n");
        let fields = [
            ("answer", "solver failed".into()),
            ("message", text.as_str().into()),
            ("solver", solver.into()),
            ("output", output.as_str().into()),
            ("errors", errors.as_str().into()),
            ("script", script.into()),
        ];
        Answer { status: FAILED, text, json: object(fields) }
    }

    /// Where what the solver was given can be found, or why it cannot.
    fn keep_script(&self) -> String {
        let question = solver::question(&self.question.script, &self.question.symbols());
        keep(&question).unwrap_or_else(|error| format!("no file: {error}"))
    }
}

/// Writes a new file among the temporary ones.
fn keep(bytes: &[u8]) -> io::Result<String> {
    for number in 0.. {
        let path = env::temp_dir().join(format!("kadvitul-{}-{number}.smt2", process::id()));
        match File::create_new(&path) {
            Err(error) if error.kind() == ErrorKind::AlreadyExists => {}
            file => {
                file?.write_all(bytes)?;
                return Ok(path.display().to_string());
            }
        }
    }
    unreachable!("some name is new")
}

/// As it is, or quoted where a shell would not take it so.
fn shell_word(text: &str) -> String {
    let is_plain = text.chars().all(|letter| letter.is_ascii_alphanumeric() || "-_./".contains(letter));
    if is_plain && !text.is_empty() {
        return text.to_string();
    }
    quoted(text)
}

/// The start of what a program printed, line by line.
fn shown(what: &str, text: &str) -> String {
    if text.trim().is_empty() {
        return String::new();
    }
    let start: String = text.chars().take(LETTERS_SHOWN).collect();
    let lines: String = start.lines().take(LINES_SHOWN).map(|line| format!("    {line}\n")).collect();
    let is_all = text.lines().nth(LINES_SHOWN).is_none() && text.len() == start.len();
    let more = if is_all { "" } else { "    ..\n" };
    format!("{what}:\n{lines}{more}")
}

fn in_words(end: Judgement) -> String {
    match end.unsafe_place() {
        Some(place) => format!("unsafe at place {place}"),
        None => verdict::name(end.verdict).to_string(),
    }
}
