//! What the command is asked to do, read from its arguments.

use std::ffi::OsString;
use std::time::Duration;

use super::expression::inputs_in_words;
use super::rule::Rule;
use super::{check, graph, misuse, refusal, run, script, show, slice, source, Answer, Outcome};
use crate::archive;
use crate::solver::Solver;

const COMMANDS: [Command; 6] = [
    Command {
        name: "check",
        options: &["-k", "--solver", "--timeout"],
        takes_inputs: false,
        help: include_str!("help/check.txt"),
        answer: check::answer,
    },
    Command {
        name: "run",
        options: &["-k"],
        takes_inputs: true,
        help: include_str!("help/run.txt"),
        answer: run::answer,
    },
    Command {
        name: "show",
        options: &[],
        takes_inputs: false,
        help: include_str!("help/show.txt"),
        answer: show::answer,
    },
    Command {
        name: "slice",
        options: &["-k", "--whole"],
        takes_inputs: false,
        help: include_str!("help/slice.txt"),
        answer: slice::answer,
    },
    Command {
        name: "script",
        options: &["-k", "--whole"],
        takes_inputs: false,
        help: include_str!("help/script.txt"),
        answer: script::answer,
    },
    Command {
        name: "graph",
        options: &["-k", "--svg"],
        takes_inputs: true,
        help: include_str!("help/graph.txt"),
        answer: graph::answer,
    },
];
const HELP: &str = include_str!("help/all.txt");
/// Options of every command.
const COMMON: [&str; 4] = ["--hex", "--json", "--help", "-h"];
/// Options that a value follows.
const VALUED: [&str; 3] = ["-k", "--solver", "--timeout"];
/// Seconds that a solver has.
const TIMEOUT: u64 = 60;
const LONGEST_TIMEOUT: u64 = 86_400;

pub struct Command {
    pub name: &'static str,
    options: &'static [&'static str],
    takes_inputs: bool,
    help: &'static str,
    pub answer: fn(&Request) -> Outcome,
}

pub enum Asked {
    Help(String),
    Work(Request),
}

/// What a command is given.
pub struct Request {
    /// How this program was called.
    pub program: String,
    pub command: &'static Command,
    pub rule: String,
    pub solver: Solver,
    pub timeout: Duration,
    bound: Option<u64>,
    options: Vec<String>,
    inputs: Vec<(usize, u32)>,
}

/// What the arguments behind the program's name ask for.
pub fn read(program: &str, arguments: Vec<OsString>) -> Result<Asked, Answer> {
    let words = arguments.into_iter().map(text).collect::<Result<Vec<String>, Answer>>()?;
    let words: Vec<&str> = words.iter().map(String::as_str).filter(|word| *word != "--json").collect();
    match words[..] {
        [] => Err(misuse(format!("no command. {}", command_advice()))),
        ["--help" | "-h" | "help"] => Ok(Asked::Help(HELP.into())),
        ["--version"] => Ok(Asked::Help(version())),
        ["help", name] => command(name).map(|command| Asked::Help(command.help.into())),
        [name, ref rest @ ..] => command(name).and_then(|command| read_rest(program, command, rest)),
    }
}

/// That of the archive.
fn version() -> String {
    let version = archive::version();
    format!("kadvitul {}.{}.{}\n", version / 10_000, version / 100 % 100, version % 100)
}

fn text(argument: OsString) -> Result<String, Answer> {
    argument
        .into_string()
        .map_err(|other| misuse(format!("'{}' is no text in UTF-8. Rename the file", other.to_string_lossy())))
}

fn command(name: &str) -> Result<&'static Command, Answer> {
    let command = COMMANDS.iter().find(|command| command.name == name);
    command.ok_or_else(|| misuse(format!("no command '{name}'. {}", command_advice())))
}

fn command_advice() -> String {
    let names = COMMANDS.map(|command| command.name).join(", ");
    format!("Give one of {names}; kadvitul --help says what they do")
}

fn read_rest(program: &str, command: &'static Command, words: &[&str]) -> Result<Asked, Answer> {
    if words.iter().any(|word| ["--help", "-h"].contains(word)) {
        return Ok(Asked::Help(command.help.into()));
    }
    let given = Given::read(command, words)?;
    let rule = match given.rules[..] {
        [rule] => rule.to_string(),
        [] => return Err(command.misuse(format!("no rule. {}", source::advice()))),
        [_, second, ..] => return Err(command.second_rule(second)),
    };
    Ok(Asked::Work(Request {
        program: program.into(),
        command,
        rule,
        solver: Solver::named(given.value("--solver").unwrap_or("z3")),
        timeout: given
            .value("--timeout")
            .map_or(Ok(TIMEOUT), |word| timeout(command, word))
            .map(Duration::from_secs)?,
        bound: given.value("-k").map(|word| bound(command, word)).transpose()?,
        inputs: given.inputs.iter().map(|word| input(command, word)).collect::<Result<_, _>>()?,
        options: given.options.iter().map(|(name, _)| name.to_string()).collect(),
    }))
}

/// The words behind a command, sorted.
struct Given<'a> {
    rules: Vec<&'a str>,
    inputs: Vec<&'a str>,
    /// With their values, or none.
    options: Vec<(&'a str, &'a str)>,
}

impl<'a> Given<'a> {
    fn read(command: &Command, words: &[&'a str]) -> Result<Given<'a>, Answer> {
        let mut given = Given { rules: vec![], inputs: vec![], options: vec![] };
        let mut words = words.iter().copied();
        while let Some(word) = words.next() {
            if word.starts_with('-') && word != "-" {
                let option = given.option(command, word, &mut words)?;
                given.options.push(option);
            } else if word.split_once('=').is_some_and(|(name, _)| !name.contains(['/', '.'])) {
                given.inputs.push(word);
            } else {
                given.rules.push(word);
            }
        }
        if let Some(input) = given.inputs.first().filter(|_| !command.takes_inputs) {
            return Err(command.misuse(format!("'{input}' is given, but it takes no inputs. Leave it out")));
        }
        Ok(given)
    }

    fn option(
        &self,
        command: &Command,
        word: &'a str,
        behind: &mut impl Iterator<Item = &'a str>,
    ) -> Result<(&'a str, &'a str), Answer> {
        let (name, value) = word.split_once('=').map_or((word, None), |(name, value)| (name, Some(value)));
        if !command.options.contains(&name) && !COMMON.contains(&name) {
            return Err(command.misuse(format!("no option '{name}' here. {}", command.option_advice())));
        }
        if !VALUED.contains(&name) {
            let alone = Some((name, "")).filter(|_| value.is_none());
            return alone.ok_or_else(|| command.misuse(format!("{name} takes no value. Write it alone")));
        }
        if self.value(name).is_some() {
            return Err(command.misuse(format!("{name} is given twice. Give it once")));
        }
        let value = value.or_else(|| behind.next());
        value
            .map(|value| (name, value))
            .ok_or_else(|| command.misuse(format!("nothing follows {name}. Give its value")))
    }

    fn value(&self, name: &str) -> Option<&'a str> {
        self.options.iter().find(|(option, _)| *option == name).map(|(_, value)| *value)
    }
}

impl Command {
    pub fn misuse(&self, message: String) -> Answer {
        misuse(format!("{}: {message}", self.name))
    }

    fn second_rule(&self, word: &str) -> Answer {
        let inputs = if self.takes_inputs { "; write an input as s0=2" } else { "" };
        self.misuse(format!("a second rule, '{word}'. Give one{inputs}"))
    }

    fn option_advice(&self) -> String {
        let options = [self.options, &COMMON[..3]].concat().join(", ");
        format!("There are {options}; kadvitul {} --help says what they do", self.name)
    }
}

/// Any number; those above 255 are left for the archive to refuse.
fn bound(command: &Command, word: &str) -> Result<u64, Answer> {
    if word.is_empty() || !word.bytes().all(|digit| digit.is_ascii_digit()) {
        return Err(command.misuse(format!("the bound is '{word}'. Give -k a number from 0 to 255")));
    }
    Ok(word.parse().unwrap_or(u64::MAX))
}

fn timeout(command: &Command, word: &str) -> Result<u64, Answer> {
    let seconds = word.parse().ok().filter(|seconds| (1..=LONGEST_TIMEOUT).contains(seconds));
    let advice = format!("Give --timeout a number of seconds from 1 to {LONGEST_TIMEOUT}");
    seconds.ok_or_else(|| command.misuse(format!("the time is '{word}'. {advice}")))
}

/// A symbol's number and its word.
fn input(command: &Command, given: &str) -> Result<(usize, u32), Answer> {
    let no_input = || command.misuse(format!("'{given}' gives no input a word. Write s0=2 or s0=0x10"));
    let (name, word) = given.split_once('=').ok_or_else(no_input)?;
    let digits = name.strip_prefix('s').filter(|digits| digits.bytes().all(|digit| digit.is_ascii_digit()));
    let symbol = digits.and_then(|digits| digits.parse().ok()).ok_or_else(no_input)?;
    let (digits, radix) = word.strip_prefix("0x").map_or((word, 10), |digits| (digits, 16));
    if digits.is_empty() || !digits.chars().all(|digit| digit.is_digit(radix)) {
        return Err(no_input());
    }
    let word = u32::from_str_radix(digits, radix);
    let word = word.map_err(|_| command.misuse(format!("{given}: a word is 0 to 4294967295, or 0xFFFFFFFF")))?;
    Ok((symbol, word))
}

impl Request {
    pub fn has(&self, option: &str) -> bool {
        self.options.iter().any(|name| name == option)
    }

    /// The rule that is asked about, if the archive accepts it.
    pub fn read_rule(&self) -> Result<Rule, Answer> {
        let table = source::read(&self.rule, self.has("--hex"))?;
        Rule::of(table.clone()).map_err(|refusal| refusal::answer(&table, 0, refusal))
    }

    pub fn bound(&self) -> Option<u64> {
        self.bound
    }

    pub fn needed_bound(&self) -> Result<u64, Answer> {
        let advice = "Give -k and how many back jumps a run may take, 0 to 255";
        self.bound.ok_or_else(|| self.command.misuse(format!("no bound. {advice}")))
    }

    pub fn has_inputs(&self) -> bool {
        !self.inputs.is_empty()
    }

    /// A word for each input of a rule.
    pub fn words(&self, rule: &Rule) -> Result<Vec<u32>, Answer> {
        let mut words = vec![None; rule.inputs];
        for (symbol, word) in &self.inputs {
            let Some(place) = words.get_mut(*symbol) else {
                let inputs = inputs_in_words(rule.inputs);
                return Err(self.command.misuse(format!("s{symbol} is no input: {inputs}. Leave it out")));
            };
            if place.replace(*word).is_some() {
                return Err(self.command.misuse(format!("s{symbol} is given twice. Give it once")));
            }
        }
        let missing = words.iter().enumerate().filter(|(_, word)| word.is_none());
        let missing: Vec<String> = missing.map(|(symbol, _)| format!("s{symbol}")).collect();
        if let Some(first) = missing.first() {
            let missing = missing.join(" ");
            return Err(self.command.misuse(format!("no word for {missing}. Give each input one, as in {first}=0")));
        }
        Ok(words.into_iter().flatten().collect())
    }
}
