//! `kadvitul check`: a solver looks for inputs that make a rule fail, and what it finds is replayed by the archive
//! before it is believed.

mod report;

use std::time::Duration;

use super::arguments::Request;
use super::progress::telling;
use super::proved::{self, Judgement, Refusal, Run, Slice};
use super::{refusal, Outcome};
use crate::solver::{self, Failure, Solver};
use report::Report;

pub fn answer(request: &Request) -> Outcome {
    let bound = request.needed_bound()?;
    let rule = request.read_rule()?;
    let question = Question::of(&rule.table, bound).map_err(|refusal| refusal::answer(&rule.table, bound, refusal))?;
    let report = Report { request, rule: &rule, bound, question: &question };
    let what = report.work();
    let answered = telling(&what, || question.ask(&request.solver, request.timeout));
    match answered {
        Ok(None) => Ok(report.no_violation()),
        Ok(Some(found)) => report.replayed(&found),
        Err(failure) => Err(report.failed(&failure)),
    }
}

/// What a solver is asked of a table, each part written by the archive.
pub struct Question {
    table: Vec<u8>,
    bound: u64,
    pub trace: Vec<u8>,
    pub slice: Slice,
    /// Of the slice.
    pub script: Vec<u8>,
}

impl Question {
    pub fn of(table: &[u8], bound: u64) -> Result<Question, Refusal> {
        let trace = proved::trace(table, bound)?;
        let slice = proved::slice(&trace)?;
        let script = proved::script(&slice.bytes)?;
        Ok(Question { table: table.to_vec(), bound, trace, slice, script })
    }

    fn inputs(&self) -> usize {
        self.trace[3].into()
    }

    /// Whether the slice reads an input. Those that it does not read are free.
    pub fn reads(&self, symbol: usize) -> bool {
        self.slice.mask >> symbol & 1 == 1
    }

    fn symbols(&self) -> Vec<String> {
        (0..self.inputs()).filter(|symbol| self.reads(*symbol)).map(|symbol| format!("s{symbol}")).collect()
    }

    /// Inputs that, by a solver's word, make the rule fail, or nothing where it says that there are none.
    pub fn ask(&self, solver: &Solver, timeout: Duration) -> Result<Option<Found>, Failure> {
        let solver::Answer::Sat { words, output } = solver.ask(&self.script, &self.symbols(), timeout)? else {
            return Ok(None);
        };
        let mut read = words.into_iter();
        let word = |symbol| if self.reads(symbol) { read.next().unwrap_or(0) } else { 0 };
        Ok(Some(Found { words: (0..self.inputs()).map(word).collect(), output }))
    }

    /// What becomes of these inputs, by the archive.
    pub fn replay(&self, words: &[u32]) -> Result<Replay, Refusal> {
        Ok(Replay {
            run: proved::run(&self.table, self.bound, words)?,
            trace: proved::judge(&self.trace, words)?,
            slice: proved::judge(&self.slice.bytes, words)?,
        })
    }
}

/// What a solver found: a word for each input, 0 for the free ones; and what it printed.
pub struct Found {
    pub words: Vec<u32>,
    pub output: String,
}

/// Running a table, judging its trace and judging its slice, with one valuation.
#[derive(Clone, Copy, Debug)]
pub struct Replay {
    pub run: Run,
    pub trace: Judgement,
    pub slice: Judgement,
}

impl Replay {
    /// The place at which all three are unsafe.
    pub fn unsafe_place(&self) -> Option<u32> {
        let place = self.run.end.unsafe_place();
        place.filter(|_| self.trace.unsafe_place() == place && self.slice.unsafe_place() == place)
    }
}
