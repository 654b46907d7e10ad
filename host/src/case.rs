//! What one call is given, and how it is printed for pasting.

use std::fmt::{self, Display};

use crate::answer::Answer;
use crate::archive::{Calls, ARCHIVE};
use crate::hex::text as hex;
use crate::model::{self, JudgeAnswer, RunAnswer, ScriptAnswer, SliceAnswer, TraceAnswer};
use crate::program::Printed;
use crate::written::{lend, Written};

pub trait Case: Clone + Display {
    /// What CASE says to repeat a case like this.
    const NAME: &'static str;

    type Answer: Answer;

    fn model(&self) -> Self::Answer;

    fn ask(&self, calls: &dyn Calls) -> Self::Answer;

    fn archive(&self) -> Self::Answer {
        self.ask(ARCHIVE)
    }

    fn reply(answer: &Self::Answer) -> u32;

    /// The table or the trace.
    fn file_mut(&mut self) -> &mut Vec<u8>;

    fn bound_mut(&mut self) -> Option<&mut u64> {
        None
    }

    fn valuation_mut(&mut self) -> Option<&mut Vec<u8>> {
        None
    }

    /// How many bytes are lent to write into.
    fn room_mut(&mut self) -> Option<&mut usize> {
        None
    }
}

#[derive(Clone, Debug, PartialEq, Eq)]
pub struct RunCase {
    pub table: Vec<u8>,
    pub bound: u64,
    pub valuation: Vec<u8>,
}

impl Case for RunCase {
    const NAME: &'static str = "run";

    type Answer = RunAnswer;

    fn model(&self) -> RunAnswer {
        model::run(&self.table, self.bound, &self.valuation)
    }

    fn ask(&self, calls: &dyn Calls) -> RunAnswer {
        calls.run(&self.table, self.bound, &self.valuation)
    }

    fn reply(answer: &RunAnswer) -> u32 {
        answer.reply
    }

    fn file_mut(&mut self) -> &mut Vec<u8> {
        &mut self.table
    }

    fn bound_mut(&mut self) -> Option<&mut u64> {
        Some(&mut self.bound)
    }

    fn valuation_mut(&mut self) -> Option<&mut Vec<u8>> {
        Some(&mut self.valuation)
    }
}

impl Display for RunCase {
    fn fmt(&self, f: &mut fmt::Formatter) -> fmt::Result {
        writeln!(f, "let table = {};", array(&self.table))?;
        writeln!(f, "let bound: u64 = {};", self.bound)?;
        writeln!(f, "let valuation = {};", array(&self.valuation))?;
        writeln!(f, "table in hex: {}", hex(&self.table))?;
        write!(f, "valuation in hex: {}", hex(&self.valuation))
    }
}

#[derive(Clone, Debug, PartialEq, Eq)]
pub struct JudgeCase {
    pub trace: Vec<u8>,
    pub valuation: Vec<u8>,
}

impl Case for JudgeCase {
    const NAME: &'static str = "judge";

    type Answer = JudgeAnswer;

    fn model(&self) -> JudgeAnswer {
        model::judge(&self.trace, &self.valuation)
    }

    fn ask(&self, calls: &dyn Calls) -> JudgeAnswer {
        calls.judge(&self.trace, &self.valuation)
    }

    fn reply(answer: &JudgeAnswer) -> u32 {
        answer.reply
    }

    fn file_mut(&mut self) -> &mut Vec<u8> {
        &mut self.trace
    }

    fn valuation_mut(&mut self) -> Option<&mut Vec<u8>> {
        Some(&mut self.valuation)
    }
}

impl Display for JudgeCase {
    fn fmt(&self, f: &mut fmt::Formatter) -> fmt::Result {
        writeln!(f, "let trace = {};", array(&self.trace))?;
        writeln!(f, "let valuation = {};", array(&self.valuation))?;
        writeln!(f, "trace in hex: {}", hex(&self.trace))?;
        write!(f, "valuation in hex: {}", hex(&self.valuation))
    }
}

#[derive(Clone, Debug, PartialEq, Eq)]
pub struct TraceCase {
    pub table: Vec<u8>,
    pub bound: u64,
    pub room: usize,
}

impl Case for TraceCase {
    const NAME: &'static str = "trace";

    type Answer = Written<TraceAnswer>;

    fn model(&self) -> Written<TraceAnswer> {
        let mut outs = lend(self.room);
        let answer = model::trace(&self.table, self.bound, &mut outs[0]);
        Written::new::<1>(answer, outs)
    }

    fn ask(&self, calls: &dyn Calls) -> Written<TraceAnswer> {
        let mut outs = lend(self.room);
        let answer = calls.trace(&self.table, self.bound, &mut outs);
        Written::new(answer, outs)
    }

    fn reply(written: &Written<TraceAnswer>) -> u32 {
        written.answer.reply
    }

    fn file_mut(&mut self) -> &mut Vec<u8> {
        &mut self.table
    }

    fn bound_mut(&mut self) -> Option<&mut u64> {
        Some(&mut self.bound)
    }

    fn room_mut(&mut self) -> Option<&mut usize> {
        Some(&mut self.room)
    }
}

impl Display for TraceCase {
    fn fmt(&self, f: &mut fmt::Formatter) -> fmt::Result {
        writeln!(f, "let table = {};", array(&self.table))?;
        writeln!(f, "let bound: u64 = {};", self.bound)?;
        writeln!(f, "let room = {};", self.room)?;
        write!(f, "table in hex: {}", hex(&self.table))
    }
}

#[derive(Clone, Debug, PartialEq, Eq)]
pub struct SliceCase {
    pub trace: Vec<u8>,
    pub room: usize,
}

impl Case for SliceCase {
    const NAME: &'static str = "slice";

    type Answer = Written<SliceAnswer>;

    fn model(&self) -> Written<SliceAnswer> {
        let mut outs = lend(self.room);
        let answer = model::slice(&self.trace, &mut outs[0]);
        Written::new::<1>(answer, outs)
    }

    fn ask(&self, calls: &dyn Calls) -> Written<SliceAnswer> {
        let mut outs = lend(self.room);
        let answer = calls.slice(&self.trace, &mut outs);
        Written::new(answer, outs)
    }

    fn reply(written: &Written<SliceAnswer>) -> u32 {
        written.answer.reply
    }

    fn file_mut(&mut self) -> &mut Vec<u8> {
        &mut self.trace
    }

    fn room_mut(&mut self) -> Option<&mut usize> {
        Some(&mut self.room)
    }
}

impl Display for SliceCase {
    fn fmt(&self, f: &mut fmt::Formatter) -> fmt::Result {
        write_trace_and_room(f, &self.trace, self.room)
    }
}

#[derive(Clone, Debug, PartialEq, Eq)]
pub struct ScriptCase {
    pub trace: Vec<u8>,
    pub room: usize,
}

impl Case for ScriptCase {
    const NAME: &'static str = "script";

    type Answer = Written<ScriptAnswer>;

    fn model(&self) -> Written<ScriptAnswer> {
        let mut outs = lend(self.room);
        let answer = model::script(&self.trace, &mut outs[0]);
        Written::new::<1>(answer, outs)
    }

    fn ask(&self, calls: &dyn Calls) -> Written<ScriptAnswer> {
        let mut outs = lend(self.room);
        let answer = calls.script(&self.trace, &mut outs);
        Written::new(answer, outs)
    }

    fn reply(written: &Written<ScriptAnswer>) -> u32 {
        written.answer.reply
    }

    fn file_mut(&mut self) -> &mut Vec<u8> {
        &mut self.trace
    }

    fn room_mut(&mut self) -> Option<&mut usize> {
        Some(&mut self.room)
    }
}

impl Display for ScriptCase {
    fn fmt(&self, f: &mut fmt::Formatter) -> fmt::Result {
        write_trace_and_room(f, &self.trace, self.room)
    }
}

#[derive(Clone, Debug, PartialEq, Eq)]
pub struct PrintCase {
    /// One byte; without it there is no input at all.
    pub bound: Option<u64>,
    pub table: Vec<u8>,
}

impl PrintCase {
    pub fn program(&self) -> Printed {
        self.archive()
    }

    fn input(&self) -> Vec<u8> {
        let Some(bound) = self.bound else {
            return Vec::new();
        };
        let bound = u8::try_from(bound).expect("a bound of one byte");
        [&[bound], &self.table[..]].concat()
    }
}

impl Case for PrintCase {
    const NAME: &'static str = "print";

    type Answer = Printed;

    fn model(&self) -> Printed {
        Printed::just(model::print(&self.input()))
    }

    fn ask(&self, calls: &dyn Calls) -> Printed {
        calls.print(&self.input())
    }

    fn reply(printed: &Printed) -> u32 {
        let text = String::from_utf8_lossy(&printed.text);
        let refusal = text.strip_prefix("refused ").and_then(|refusal| refusal.split(' ').next());
        refusal.map_or(0, |number| number.parse().expect("a refusal's number"))
    }

    fn file_mut(&mut self) -> &mut Vec<u8> {
        &mut self.table
    }

    fn bound_mut(&mut self) -> Option<&mut u64> {
        self.bound.as_mut()
    }
}

impl Display for PrintCase {
    fn fmt(&self, f: &mut fmt::Formatter) -> fmt::Result {
        writeln!(f, "let bound = {:?};", self.bound)?;
        writeln!(f, "let table = {};", array(&self.table))?;
        write!(f, "input in hex: {}", hex(&self.input()))
    }
}

fn write_trace_and_room(f: &mut fmt::Formatter, trace: &[u8], room: usize) -> fmt::Result {
    writeln!(f, "let trace = {};", array(trace))?;
    writeln!(f, "let room = {room};")?;
    write!(f, "trace in hex: {}", hex(trace))
}

fn array(bytes: &[u8]) -> String {
    let items: Vec<String> = bytes.iter().map(|byte| format!("{byte:#04x}")).collect();
    format!("[{}]", items.join(", "))
}
