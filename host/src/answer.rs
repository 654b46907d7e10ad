//! How an answer differs from the one expected: number by number, and each buffer by its first differing byte.

use std::iter;

use crate::model::{JudgeAnswer, RunAnswer, ScriptAnswer, SliceAnswer, TraceAnswer};
use crate::program::Printed;
use crate::written::Written;

pub trait Answer {
    /// One line for each call that differs; none where the answers are the same.
    fn differences(&self, expected: &Self) -> Vec<String>;
}

/// Numbers that calls give one by one.
pub trait Numbers {
    /// Each with its call, in the order of the calls.
    fn numbers(&self) -> Vec<(&'static str, u64)>;
}

impl<A: Numbers> Answer for A {
    fn differences(&self, expected: &Self) -> Vec<String> {
        let pairs = iter::zip(self.numbers(), expected.numbers());
        pairs
            .filter(|(got, due)| got != due)
            .map(|((call, got), (_, due))| format!("{call}: {got}, not {due}"))
            .collect()
    }
}

impl<A: Numbers> Answer for Written<A> {
    fn differences(&self, expected: &Self) -> Vec<String> {
        let calls = self.answer.numbers();
        let outs = calls.iter().zip(&self.outs);
        let outs = outs.filter_map(|((call, _), out)| buffer_difference(call, out, &expected.outs[0]));
        self.answer.differences(&expected.answer).into_iter().chain(outs).collect()
    }
}

impl Answer for Printed {
    fn differences(&self, expected: &Self) -> Vec<String> {
        let complaints = [
            (self.exit_status != expected.exit_status)
                .then(|| format!("exit status: {:?}, not {:?}", self.exit_status, expected.exit_status)),
            (self.is_error_empty != expected.is_error_empty).then(|| "something on standard error".into()),
            buffer_difference("print_slice", &self.text, &expected.text),
        ];
        complaints.into_iter().flatten().collect()
    }
}

fn buffer_difference(call: &str, got: &[u8], due: &[u8]) -> Option<String> {
    if got == due {
        return None;
    }
    let offset = iter::zip(got, due).take_while(|(got, due)| got == due).count();
    let [got, due] = [got, due].map(|buffer| byte_at(buffer, offset));
    Some(format!("{call}, its buffer: byte {offset} is {got}, not {due}"))
}

fn byte_at(buffer: &[u8], offset: usize) -> String {
    buffer.get(offset).map_or("missing".into(), |byte| format!("{byte:#04X}"))
}

impl Numbers for RunAnswer {
    fn numbers(&self) -> Vec<(&'static str, u64)> {
        vec![
            ("kadvitul_run_reply", self.reply.into()),
            ("kadvitul_run_offset", self.offset.into()),
            ("kadvitul_run_verdict", self.verdict.into()),
            ("kadvitul_run_place", self.place.into()),
            ("kadvitul_run_back_jumps", self.back_jumps.into()),
        ]
    }
}

impl Numbers for JudgeAnswer {
    fn numbers(&self) -> Vec<(&'static str, u64)> {
        vec![
            ("kadvitul_judge_reply", self.reply.into()),
            ("kadvitul_judge_offset", self.offset.into()),
            ("kadvitul_judge_verdict", self.verdict.into()),
            ("kadvitul_judge_place", self.place.into()),
        ]
    }
}

impl Numbers for TraceAnswer {
    fn numbers(&self) -> Vec<(&'static str, u64)> {
        vec![
            ("kadvitul_trace_reply", self.reply.into()),
            ("kadvitul_trace_offset", self.offset.into()),
            ("kadvitul_trace_length", self.length.into()),
        ]
    }
}

impl Numbers for SliceAnswer {
    fn numbers(&self) -> Vec<(&'static str, u64)> {
        vec![
            ("kadvitul_slice_reply", self.reply.into()),
            ("kadvitul_slice_offset", self.offset.into()),
            ("kadvitul_slice_length", self.length.into()),
            ("kadvitul_slice_inputs", self.inputs.into()),
            ("kadvitul_slice_mask", self.mask),
        ]
    }
}

impl Numbers for ScriptAnswer {
    fn numbers(&self) -> Vec<(&'static str, u64)> {
        vec![
            ("kadvitul_script_reply", self.reply.into()),
            ("kadvitul_script_offset", self.offset.into()),
            ("kadvitul_script_length", self.length.into()),
        ]
    }
}
